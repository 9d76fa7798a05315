//! The next frame in a capture, written from the text of the request: every position in order is read by the numbered walk, and
//! the room holds what all these readings left.
use crate::numbered::{read, Record, Seen, State};

/// The 76 numbers of an answer, the position, and the number tried.
pub type Found = [u64; 78];

/// Searches from `start` on, with at most `most` readings. `left` becomes the entries that the readings wrote, as they then are.
pub fn find(capture: &[u8], room: usize, start: usize, most: usize, left: &mut Vec<Record>, s: &mut State) -> Found {
    let (mut records, mut seen) = (Vec::new(), Seen::default());
    left.clear();
    let mut found = [0; 78];
    let (mut tried, mut position) = (0, start);
    loop {
        if position >= capture.len() {
            found[0] = 44;
            break;
        }
        if tried == most {
            found[0] = 45;
            break;
        }
        let answer = read(&capture[position..], room, &mut records, s, &mut seen);
        tried += 1;
        for (k, r) in records.iter().enumerate() {
            if k < left.len() { left[k] = *r } else { left.push(*r) }
        }
        found[2] = answer[2];
        if answer[0] == 0 || answer[0] == 33 {
            found[..76].copy_from_slice(&answer);
            found[76] = position as u64;
            break;
        }
        position += 1;
    }
    found[77] = tried as u64;
    found
}
