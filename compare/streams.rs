//! Draws programmes, buffers to pick from, and rooms; all of it follows from a seed. A programme is frames back to back, of every type
//! and number, and then it may end in a refused frame, one that is cut, or other bytes, or have a refused frame between two.
use crate::generate::{damage, put, unequal, Drawer, Kind, Random};
use crate::numbered::{read, Record, Seen, State};
use std::collections::BTreeMap;

/// Frames to take from.
pub struct Stock {
    drawer: Drawer,
    s: State,
    /// The accepted, by type.
    frames: [Vec<Vec<u8>>; 3],
    /// The refused, by number.
    refused: BTreeMap<u64, Vec<Vec<u8>>>,
}

/// How many are kept of each kind.
const KEPT: usize = 200;

/// The refusals of a slice with enough room.
const REFUSALS: usize = 26;

const KINDS: [Kind; 9] = [Kind::Any, Kind::Any, Kind::Any, Kind::Smallest, Kind::Hybrid, Kind::Extension, Kind::Coupling, Kind::Worded, Kind::Faint];

fn keep(r: &mut Random, frames: &mut Vec<Vec<u8>>, frame: Vec<u8>) {
    if frames.len() < KEPT {
        frames.push(frame)
    } else {
        frames[r.below(KEPT)] = frame
    }
}

impl Stock {
    pub fn new(r: &mut Random, real: Vec<Vec<u8>>) -> Stock {
        let mut stock = Stock { drawer: Drawer::new(r.next()), s: State::new(), frames: Default::default(), refused: BTreeMap::new() };
        for frame in real {
            stock.take(r, frame)
        }
        while stock.frames.iter().any(|f| f.len() < KEPT) || stock.refused.len() < REFUSALS {
            stock.draw(r)
        }
        stock
    }

    /// A frame, and what damage leaves of it, by whether they are accepted.
    fn take(&mut self, r: &mut Random, frame: Vec<u8>) {
        let mut records: Vec<Record> = Vec::new();
        let mut read_of = |f: &[u8], records: &mut Vec<Record>| {
            let answer = read(f, usize::MAX, records, &mut self.s, &mut Seen::default());
            if answer[0] == 0 { Ok((answer[8] as usize, answer[3] as usize)) } else { Err(answer[0]) }
        };
        match read_of(&frame, &mut records) {
            Ok((strmtyp, _)) => keep(r, &mut self.frames[strmtyp], frame.clone()),
            Err(number) => keep(r, self.refused.entry(number).or_default(), frame.clone()),
        }
        let other = damage(r, &frame, &records);
        match read_of(&other, &mut records) {
            Ok((strmtyp, bytes)) => keep(r, &mut self.frames[strmtyp], other[..bytes].to_vec()),
            Err(number) if !other.is_empty() => keep(r, self.refused.entry(number).or_default(), other),
            Err(_) => (),
        }
    }

    /// One frame more is drawn. Long ones are few.
    fn draw(&mut self, r: &mut Random) {
        let frame = self.drawer.frame(r.pick(&KINDS));
        if frame.len() <= 600 || r.chance(1, 8) {
            self.take(r, frame)
        }
    }

    /// An accepted frame, with one of these numbers.
    fn frame(&mut self, r: &mut Random, numbers: &[u32]) -> Vec<u8> {
        if r.chance(1, 3) {
            self.draw(r)
        }
        let strmtyp = r.pick(&[0, 0, 1, 1, 2]);
        let mut frame = self.frames[strmtyp][r.below(KEPT)].clone();
        put(&mut frame, 18, 3, r.pick(numbers));
        frame
    }

    fn refused(&self, r: &mut Random) -> &[u8] {
        let frames = self.refused.values().nth(r.below(self.refused.len())).expect("a refusal");
        &frames[r.below(frames.len())]
    }
}

/// A piece of a stream: where it begins, and the type and number of a frame that is accepted.
pub struct Piece {
    pub first: usize,
    pub frame: Option<(u8, u8)>,
}

pub struct Stream {
    pub bytes: Vec<u8>,
    pub pieces: Vec<Piece>,
}

impl Stream {
    fn add(&mut self, piece: &[u8], accepted: bool) {
        let frame = accepted.then(|| (piece[2] >> 6, piece[2] >> 3 & 7));
        self.pieces.push(Piece { first: self.bytes.len(), frame });
        self.bytes.extend(piece);
    }
}

pub fn some_stream(r: &mut Random, stock: &mut Stock) -> Stream {
    let mut out = Stream { bytes: Vec::new(), pieces: Vec::new() };
    let n = if r.chance(1, 40) { 10 + r.below(30) } else { r.pick(&[0, 1, 1, 2, 2, 3, 3, 4, 5, 8]) };
    // few numbers, so that some frames have the same
    let numbers = [r.below(8) as u32, r.below(8) as u32, r.below(3) as u32];
    let refused = if r.chance(1, 6) { Some(r.pick(&[0, r.0 as usize % (n + 1)])) } else { None };
    let same = r.chance(1, 8);
    let mut last = Vec::new();
    for k in 0..n {
        if refused == Some(k) {
            out.add(stock.refused(r), false)
        }
        if !same || last.is_empty() {
            last = stock.frame(r, &numbers)
        }
        out.add(&last, true)
    }
    match r.below(12) {
        0 | 1 => {
            out.add(stock.refused(r), false)
        }
        2 => {
            let n = r.pick(&[1, 2, 5, 6, 7, 30]);
            let bytes: Vec<u8> = (0..n).map(|_| r.next() as u8).collect();
            out.add(&bytes, false)
        }
        3 => {
            let frame = stock.frame(r, &numbers);
            let n = frame.len() - 1 - r.pick(&[0, 1, r.0 as usize % (frame.len() - 1)]);
            out.add(&frame[..n], false)
        }
        // the last byte is not there, or one more
        4 if n > 0 => {
            let last = out.pieces.pop().expect("a piece").first;
            let frame = out.bytes.split_off(last);
            out.add(&frame[..frame.len() - 1], false)
        }
        5 => out.add(&[0], false),
        _ => (),
    }
    out
}

/// The lengths of the rooms, around the end of a list or of one of its frames, short, or with no room at all. `ends` has the records up
/// to the end of each frame.
pub fn some_lengths(r: &mut Random, n: usize, ends: &[usize]) -> [usize; 7] {
    let end = if ends.is_empty() { 0 } else { r.pick(ends) };
    let room = match r.below(16) {
        0 => 0,
        1 => 1 + r.below(8),
        2 => r.below(n + 1),
        3 => n.saturating_sub(1),
        4 | 5 => n,
        6 => end,
        7 => r.pick(&[end + 1, end.saturating_sub(1)]),
        _ => n + r.below(40),
    };
    if r.chance(1, 3) { [room; 7] } else { unequal(r, room) }
}
