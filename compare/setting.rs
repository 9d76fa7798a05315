//! Many loudness words set in a lent frame or none, written from the text of the request: the list is that of the numbered walk,
//! before and after; bits are written one by one, and crc2 is divided out bit by bit.
use crate::mastering::{crc2, write, WORDS};
use crate::numbered::{read, Answer, Record, Seen, State};

/// The items: places and values side by side.
pub fn items(places: &[usize], values: &[u32]) -> Vec<(usize, u32)> {
    places.iter().copied().zip(values.iter().copied()).collect()
}

/// The number of the refusal to set the items in a list; 0 for none.
fn own(records: &[Record], items: &[(usize, u32)]) -> u64 {
    if items.len() > 16 {
        return 48;
    }
    for (k, &(place, value)) in items.iter().enumerate() {
        let Some(r) = records.get(place) else { return 41 };
        if items[..k].iter().any(|earlier| earlier.0 == place) {
            return 47;
        }
        let Some((_, width)) = WORDS.into_iter().find(|w| w.0 == r.name) else { return 42 };
        if u64::from(value) >= 1 << width {
            return 43;
        }
    }
    0
}

/// Sets the words of the items, and crc2. The records are left in `records`.
pub fn set_words(frame: &mut [u8], room: usize, items: &[(usize, u32)], records: &mut Vec<Record>, s: &mut State) -> Answer {
    let mut seen = Seen::default();
    let answer = read(frame, room, records, s, &mut seen);
    if answer[0] != 0 {
        return answer;
    }
    let number = own(records, items);
    if number != 0 {
        let mut refused = [0; 76];
        refused[0] = number;
        refused[2] = records.len() as u64;
        return refused;
    }
    for &(place, value) in items {
        write(frame, records[place].first.into(), records[place].width.into(), value);
    }
    let bytes = answer[3] as usize;
    let check = crc2(frame, bytes);
    write(frame, 8 * bytes - 16, 16, check);
    read(frame, room, records, s, &mut seen)
}
