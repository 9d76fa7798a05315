//! Loudness words set in a lent frame, written from the text of the request: the list is that of the numbered walk, before and
//! after; bits are written one by one, and crc2 is divided out bit by bit.
use crate::names::*;
use crate::numbered::{bits, read, Answer, Record, Seen, State};

/// The six words and their bits.
pub const WORDS: [(u8, u32); 6] = [(DIALNORM, 5), (DIALNORM2, 5), (COMPR, 8), (COMPR2, 8), (DYNRNG, 8), (DYNRNG2, 8)];

/// Writes the low `width` bits of a value, high bit first.
pub fn write(frame: &mut [u8], first: usize, width: usize, value: u32) {
    for k in 0..width {
        let (byte, mask) = ((first + k) / 8, 1 << (7 - (first + k) % 8));
        let one = value >> (width - 1 - k) & 1 == 1;
        frame[byte] = frame[byte] & !mask | if one { mask } else { 0 };
    }
}

/// The remainder of the bits from `first` up to `end`, by x^16 + x^15 + x^2 + 1.
pub fn remainder(frame: &[u8], first: usize, end: usize) -> u32 {
    (first..end).fold(0, |r, at| {
        let out = r >> 15 ^ bits(frame, at, 1);
        (r << 1 & 0xffff) ^ if out == 1 { 0x8005 } else { 0 }
    })
}

/// crc2 of a frame of so many bytes: over what stands between the sync word and crc2 itself.
pub fn crc2(frame: &[u8], bytes: usize) -> u32 {
    remainder(frame, 16, 8 * bytes - 16)
}

/// The number of the refusal to set the record at a place to a value; 0 for none.
fn own(records: &[Record], place: usize, value: u32) -> u64 {
    let Some(r) = records.get(place) else { return 41 };
    let Some((_, width)) = WORDS.into_iter().find(|w| w.0 == r.name) else { return 42 };
    if u64::from(value) >= 1 << width { 43 } else { 0 }
}

/// Sets the word at a place of the list, and crc2. The records are left in `records`.
pub fn set_word(frame: &mut [u8], room: usize, place: usize, value: u32, records: &mut Vec<Record>, s: &mut State) -> Answer {
    let mut seen = Seen::default();
    let answer = read(frame, room, records, s, &mut seen);
    if answer[0] != 0 {
        return answer;
    }
    let number = own(records, place, value);
    if number != 0 {
        let mut refused = [0; 76];
        refused[0] = number;
        refused[2] = records.len() as u64;
        return refused;
    }
    let (word, bytes) = (records[place], answer[3] as usize);
    write(frame, word.first.into(), word.width.into(), value);
    let check = crc2(frame, bytes);
    write(frame, 8 * bytes - 16, 16, check);
    read(frame, room, records, s, &mut seen)
}
