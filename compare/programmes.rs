//! Lists over a whole programme, and a frame picked from two buffers, written from the text of the request: every frame is read by
//! the numbered walk, which knows nothing of ordinals.
use crate::numbered::{read, Record, Seen, State};

/// Number, place, records and frames; of a refusal the ordinal of the refused frame stands for the frames.
pub type Listed = [u64; 4];

/// The frames of a programme, back to back. `list` becomes the records of them all, `ordinals` the ordinals of their frames.
pub fn programme(src: &[u8], room: usize, list: &mut Vec<Record>, ordinals: &mut Vec<u32>, s: &mut State) -> Listed {
    let (mut records, mut seen) = (Vec::new(), Seen::default());
    list.clear();
    ordinals.clear();
    let (mut at, mut frame) = (0, 0u32);
    while at < src.len() {
        let answer = read(&src[at..], room - list.len(), &mut records, s, &mut seen);
        for r in &records {
            list.push(*r);
            ordinals.push(frame);
        }
        if answer[0] != 0 {
            return [answer[0], answer[1], list.len() as u64, u64::from(frame)];
        }
        at += answer[3] as usize;
        frame += 1;
    }
    [0, 0, list.len() as u64, u64::from(frame)]
}

/// Number, place, count, and the part that is handed back: its first byte in its buffer, and its length.
pub type Picked = [u64; 5];

/// The first frame with a wanted type and number: types 0 and 2 from the first buffer, 1 from the second. `left` becomes the entries
/// that the readings wrote, as they then are.
pub fn pick(independent: &[u8], dependent: &[u8], room: usize, strmtyp: u8, substreamid: u8, left: &mut Vec<Record>, s: &mut State) -> Picked {
    let (mut records, mut seen) = (Vec::new(), Seen::default());
    left.clear();
    if strmtyp > 2 || substreamid > 7 {
        return [49, 0, 0, 0, 0];
    }
    let buffer = if strmtyp == 1 { dependent } else { independent };
    let (mut at, mut count) = (0, 0);
    while at < buffer.len() {
        let answer = read(&buffer[at..], room, &mut records, s, &mut seen);
        for (k, r) in records.iter().enumerate() {
            if k < left.len() { left[k] = *r } else { left.push(*r) }
        }
        count = answer[2];
        if answer[0] != 0 {
            return [answer[0], answer[1], count, 0, 0];
        }
        let bytes = answer[3];
        if answer[8] == u64::from(strmtyp) && answer[9] == u64::from(substreamid) {
            return [0, answer[1], count, at as u64, bytes];
        }
        at += bytes as usize;
    }
    [50, 0, count, 0, 0]
}
