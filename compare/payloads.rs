//! House data in auxbits, written from the text of the request: the places of the tail are those of the records of the numbered
//! walk, bits are taken and written one by one, and crc2 is divided out bit by bit.
use crate::mastering::{crc2, write};
use crate::names::*;
use crate::numbered::{bits, read, Answer, Record, Seen, State};

/// The 76 numbers of an answer, and the bits of the payload.
pub type Payload = [u64; 77];

/// The most bits that auxdatal can say.
pub const MOST_BITS: u32 = 16_383;

/// The tail of an accepted frame, by its records.
pub struct Tail {
    pub auxbits: (usize, usize),
    pub auxdatal: Option<u32>,
    pub auxdatae: usize,
    pub crc2: usize,
}

pub fn tail(records: &[Record]) -> Tail {
    let last = |name: u8| records.iter().rev().find(|r| r.name == name);
    let (first, end) = last(AUXBITS).map(|r| (usize::from(r.first), usize::from(r.first) + usize::from(r.width))).expect("auxbits");
    Tail {
        auxbits: (first, end),
        auxdatal: last(AUXDATAL).map(|r| r.value),
        auxdatae: last(AUXDATAE).expect("auxdatae").first.into(),
        crc2: last(CRC2).expect("crc2").first.into(),
    }
}

/// Readings one after another: `left` are the entries that they wrote, as they then are.
fn over(left: &mut Vec<Record>, records: &[Record]) {
    for (k, r) in records.iter().enumerate() {
        if k < left.len() { left[k] = *r } else { left.push(*r) }
    }
}

fn refused(number: u64, place: usize, count: usize) -> Answer {
    let mut answer = [0; 76];
    (answer[0], answer[1], answer[2]) = (number, place as u64, count as u64);
    answer
}

fn with_bits(answer: Answer, bits: u32) -> Payload {
    let mut all = [0; 77];
    all[..76].copy_from_slice(&answer);
    all[76] = bits.into();
    all
}

/// Reads the payload into an output.
pub fn payload(frame: &[u8], room: usize, output: &mut [u8], left: &mut Vec<Record>, s: &mut State) -> Payload {
    let answer = read(frame, room, left, s, &mut Seen::default());
    if answer[0] != 0 {
        return with_bits(answer, 0);
    }
    let t = tail(left);
    let n = t.auxdatal.unwrap_or(0) as usize;
    let first = t.auxbits.1 - n;
    if 8 * output.len() < n {
        return with_bits(refused(53, 0, left.len()), 0);
    }
    for k in 0..n.next_multiple_of(8) {
        let bit = if k < n { bits(frame, first + k, 1) } else { 0 };
        write(output, k, 1, bit);
    }
    with_bits(answer, n as u32)
}

/// Writes a payload of so many bits of the bytes.
pub fn set_payload(frame: &mut [u8], room: usize, bytes: &[u8], count: u32, left: &mut Vec<Record>, s: &mut State) -> Answer {
    let answer = read(frame, room, left, s, &mut Seen::default());
    if answer[0] != 0 {
        return answer;
    }
    let t = tail(left);
    if count > MOST_BITS || count as usize > 8 * bytes.len() {
        return refused(51, 0, left.len());
    }
    let n = count as usize;
    if t.auxdatae - t.auxbits.0 < 14 + n {
        return refused(52, 0, left.len());
    }
    if t.auxdatal.is_none() && left.len() == room {
        return refused(33, t.crc2, left.len());
    }
    for bit in t.auxbits.0..t.auxdatae {
        write(frame, bit, 1, 0);
    }
    for k in 0..n {
        write(frame, t.auxdatae - 14 - n + k, 1, bits(bytes, k, 1));
    }
    write(frame, t.auxdatae - 14, 14, count);
    write(frame, t.auxdatae, 1, 1);
    again(frame, room, &t, left, s)
}

/// Removes the payload.
pub fn remove_payload(frame: &mut [u8], room: usize, left: &mut Vec<Record>, s: &mut State) -> Answer {
    let answer = read(frame, room, left, s, &mut Seen::default());
    if answer[0] != 0 {
        return answer;
    }
    let t = tail(left);
    for bit in t.auxbits.0..=t.auxdatae {
        write(frame, bit, 1, 0);
    }
    again(frame, room, &t, left, s)
}

/// Puts crc2 right, and reads the new frame over what the first reading left.
fn again(frame: &mut [u8], room: usize, t: &Tail, left: &mut Vec<Record>, s: &mut State) -> Answer {
    let check = crc2(frame, t.crc2 / 8 + 2);
    write(frame, t.crc2, 16, check);
    let mut records = Vec::new();
    let answer = read(frame, room, &mut records, s, &mut Seen::default());
    over(left, &records);
    answer
}
