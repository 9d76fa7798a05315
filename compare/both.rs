//! One input for both: the unchanged Rust and our reader, each held to the other, and to the numbered walk where the Rust
//! gives nothing. What was met is counted. Our reader is held to the numbered walk alone where bsid is not E-AC-3's, since it
//! looks at bsid straight after the sync word, and the Rust at its record; and where the silence rule decides, since the Rust
//! looks at the slots that are asked for alone (docs/DIFFERENCES.md).
use crate::features::{features, FEATURES};
use crate::names::{NAMES, ROLES};
use crate::numbered::{bits, read, read_by_request, Answer, Record, Seen, State};
use crate::theirs::{answer_of, kind, told, verdict};
use reference::error::Result;
use reference::frame::Frame;

#[cfg(not(alone))]
#[allow(improper_ctypes)]
extern "C" {
    fn eac3_parse(
        src: &[u8], names: &mut [u8], blocks: &mut [i8], indexes: &mut [i16], firsts: &mut [u16], widths: &mut [u16],
        values: &mut [u32], answer: &mut Answer,
    ) -> u8;
}

/// The most entries of a room that is lent, and those beyond it that are watched.
pub const MOST: usize = 1 << 17;
const BEYOND: usize = 8;

/// Room for records, larger than what is lent of it.
pub struct Rooms {
    pub names: Vec<u8>,
    pub blocks: Vec<i8>,
    pub indexes: Vec<i16>,
    pub firsts: Vec<u16>,
    pub widths: Vec<u16>,
    pub values: Vec<u32>,
}

impl Rooms {
    pub fn new() -> Rooms {
        let n = MOST + BEYOND;
        Rooms { names: vec![0; n], blocks: vec![0; n], indexes: vec![0; n], firsts: vec![0; n], widths: vec![0; n], values: vec![0; n] }
    }

    pub fn fill(&mut self, len: [usize; 6], p: &Record) {
        self.names[..len[0] + BEYOND].fill(p.name);
        self.blocks[..len[1] + BEYOND].fill(p.block);
        self.indexes[..len[2] + BEYOND].fill(p.index);
        self.firsts[..len[3] + BEYOND].fill(p.first);
        self.widths[..len[4] + BEYOND].fill(p.width);
        self.values[..len[5] + BEYOND].fill(p.value);
    }

    pub fn at(&self, k: usize) -> Record {
        Record { name: self.names[k], block: self.blocks[k], index: self.indexes[k], first: self.firsts[k], width: self.widths[k], value: self.values[k] }
    }

    /// The first place at which the records are not these, or an entry past them is not the pattern.
    pub fn differs(&self, len: [usize; 6], records: &[Record], p: &Record) -> Option<usize> {
        let n = records.len();
        if let Some(k) = (0..n).find(|&k| self.at(k) != records[k]) {
            return Some(k);
        }
        fn past<T: PartialEq + Copy>(part: &[T], n: usize, len: usize, p: T) -> Option<usize> {
            part[n..len + BEYOND].iter().position(|&x| x != p).map(|k| n + k)
        }
        past(&self.names, n, len[0], p.name)
            .or(past(&self.blocks, n, len[1], p.block))
            .or(past(&self.indexes, n, len[2], p.index))
            .or(past(&self.firsts, n, len[3], p.first))
            .or(past(&self.widths, n, len[4], p.width))
            .or(past(&self.values, n, len[5], p.value))
    }

    /// Our reader over these lengths of the rooms.
    #[cfg(not(alone))]
    pub fn ours(&mut self, src: &[u8], len: [usize; 6], answer: &mut Answer) -> u8 {
        // The entry has no premises.
        unsafe {
            eac3_parse(
                src, &mut self.names[..len[0]], &mut self.blocks[..len[1]], &mut self.indexes[..len[2]], &mut self.firsts[..len[3]],
                &mut self.widths[..len[4]], &mut self.values[..len[5]], answer,
            )
        }
    }
}

/// Two patterns in turn, neither of them a record.
pub const PATTERNS: [Record; 2] = [
    Record { name: 0xee, block: -77, index: -30584, first: 0xbeef, width: 0xcafe, value: 0xdead_beef },
    Record { name: 0x00, block: 0, index: 0, first: 0, width: 0, value: 0 },
];

/// What inputs there were.
#[derive(Clone)]
pub struct Met {
    pub inputs: u64,
    pub accepted: u64,
    pub numbers: [u64; 64],
    pub names: [u64; 202],
    /// Of the accepted frames.
    pub features: [u64; FEATURES.len()],
    pub seen: Seen,
    /// Of those with another bsid: the Rust's numbers, and rooms of 1 to 8.
    pub others: [u64; 64],
    pub small_rooms: u64,
    /// Decided by the silence rule: all; with enough room, and of these the accepted, and those with another answer by the
    /// Rust's rule.
    pub decided: [u64; 4],
}

/// What both are compared with and in.
pub struct Both {
    pub rooms: Rooms,
    pub records: Vec<Record>,
    pub s: State,
    pub met: Met,
    turn: usize,
}

impl Both {
    pub fn new() -> Both {
        let met = Met { inputs: 0, accepted: 0, numbers: [0; 64], names: [0; 202], features: [0; FEATURES.len()], seen: Seen::default(), others: [0; 64], small_rooms: 0, decided: [0; 4] };
        Both { rooms: Rooms::new(), records: Vec::new(), s: State::new(), met, turn: 0 }
    }

    /// A slice with enough room and `more` entries besides. Gives the Rust's answer, or what differs. The records are left
    /// in `records`.
    pub fn whole(&mut self, src: &[u8], more: [usize; 6]) -> std::result::Result<Result<Frame>, String> {
        let (silent, decided) = (self.met.seen.silent, self.met.seen.decided());
        let walked = read(src, usize::MAX, &mut self.records, &mut self.s, &mut self.met.seen);
        let (silent, decided) = (self.met.seen.silent - silent, self.met.seen.decided() > decided);
        self.met.inputs += 1;
        self.met.numbers[walked[0] as usize] += 1;
        for r in &self.records {
            self.met.names[usize::from(r.name)] += 1
        }
        if walked[0] == 0 {
            self.met.accepted += 1;
            let has = features(&self.s, &walked, &self.records, silent);
            has.iter().zip(&mut self.met.features).for_each(|(&yes, n)| *n += u64::from(yes));
        }
        let theirs = std::panic::catch_unwind(|| reference::eac3::parse(src)).map_err(|_| "our reader gives an answer, the Rust panics".to_string())?;
        let len = more.map(|m| self.records.len() + m);
        let ours = self.ours(src, len, &walked);
        if other_bsid(src) {
            self.met.others[later(src, &theirs)? as usize] += 1;
            self.held(&ours, len, &walked)?;
        } else if decided {
            self.held(&ours, len, &walked)?;
            self.by_request(src, &theirs, &walked)?;
        } else {
            beside("our reader", &theirs, &ours.answer, |k| self.rooms.at(k))?;
            self.held(&ours, len, &walked)?;
            beside("the numbered walk", &theirs, &walked, |k| self.records[k])?;
        }
        Ok(theirs)
    }

    /// A slice that the silence rule decides: the Rust's answer is that of the numbered walk with the Rust's rule.
    fn by_request(&mut self, src: &[u8], theirs: &Result<Frame>, walked: &Answer) -> std::result::Result<(), String> {
        let mut records = Vec::new();
        let a = read_by_request(src, usize::MAX, &mut records, &mut State::new(), &mut Seen::default());
        beside("the numbered walk with the Rust's silence rule", theirs, &a, |k| records[k])?;
        for (n, yes) in self.met.decided.iter_mut().zip([true, true, walked[0] == 0, a != *walked || records != self.records]) {
            *n += u64::from(yes)
        }
        Ok(())
    }

    /// A slice with these lengths of the rooms, of which the shortest counts.
    pub fn roomed(&mut self, src: &[u8], len: [usize; 6]) -> std::result::Result<(), String> {
        let room = *len.iter().min().unwrap();
        let mut seen = Seen::default();
        let walked = read(src, room, &mut self.records, &mut self.s, &mut seen);
        self.met.inputs += 1;
        self.met.numbers[walked[0] as usize] += 1;
        self.met.small_rooms += u64::from(other_bsid(src) && (1..=8).contains(&room));
        self.met.decided[0] += u64::from(seen.decided() > 0);
        let ours = self.ours(src, len, &walked);
        self.held(&ours, len, &walked)
    }

    /// Our reader over rooms that hold a pattern.
    fn ours(&mut self, src: &[u8], len: [usize; 6], _walked: &Answer) -> Ours {
        self.turn += 1;
        let pattern = PATTERNS[self.turn % 2];
        self.rooms.fill(len, &pattern);
        let mut answer = [0x5555_5555_5555_5555; 76];
        #[cfg(not(alone))]
        let number = self.rooms.ours(src, len, &mut answer);
        #[cfg(alone)]
        let number = stand_in(src, &mut self.rooms, &self.records, _walked, &mut answer);
        Ours { number, answer, pattern }
    }

    /// Our answer held to the numbered walk's: the whole of it, the records, and the entries past them.
    fn held(&self, ours: &Ours, len: [usize; 6], walked: &Answer) -> std::result::Result<(), String> {
        if u64::from(ours.number) != walked[0] || ours.answer != *walked {
            return Err(format!("our reader returned {} and gave {:?}, the numbered walk {walked:?}", ours.number, ours.answer));
        }
        match self.rooms.differs(len, &self.records, &ours.pattern) {
            Some(k) => Err(format!("entry {k} of the rooms: ours {:?}, the numbered walk has {} records, {:?}", self.rooms.at(k), self.records.len(), self.records.get(k))),
            None => Ok(()),
        }
    }
}

/// What our reader gave, and what the rooms held before.
struct Ours {
    number: u8,
    answer: Answer,
    pattern: Record,
}

/// The numbered walk in place of our reader, where there is none to link.
#[cfg(alone)]
fn stand_in(_: &[u8], rooms: &mut Rooms, records: &[Record], walked: &Answer, answer: &mut Answer) -> u8 {
    for (k, r) in records.iter().enumerate() {
        (rooms.names[k], rooms.blocks[k], rooms.indexes[k]) = (r.name, r.block, r.index);
        (rooms.firsts[k], rooms.widths[k], rooms.values[k]) = (r.first, r.width, r.value);
    }
    *answer = *walked;
    walked[0] as u8
}

/// Whether a slice of 6 bytes or more has the sync word and a bsid that is not E-AC-3's.
fn other_bsid(src: &[u8]) -> bool {
    src.len() >= 6 && src[..2] == [0x0b, 0x77] && !(11..=16).contains(&(src[5] >> 3))
}

/// The Rust's number for such a slice: what it tests before the bsid record, or 6.
fn later(src: &[u8], theirs: &Result<Frame>) -> std::result::Result<u64, String> {
    let number = theirs.as_ref().err().map_or(0, |e| told(e).0);
    let short = bits(src, 21, 11) < 2;
    match number {
        3..=6 => Ok(number),
        8 if short => Ok(number),
        _ => Err(format!("our reader looks at bsid first, the Rust gives {number}")),
    }
}

/// An answer with enough room beside the Rust's: accepted or not, the kind of error and its message, the frame, and each record.
/// The bits of the slots, which the Rust does not tell, are held to the width of the Rust's mantissas record of their block.
fn beside(who: &str, theirs: &Result<Frame>, a: &Answer, at: impl Fn(usize) -> Record) -> std::result::Result<(), String> {
    if kind(a[0]) != verdict(theirs) {
        return Err(format!("{who} gives {} at {}, the Rust {:?}", a[0], a[1], theirs.as_ref().map(|f| f.bytes)));
    }
    match theirs {
        Err(e) => {
            let (number, place) = told(e);
            if number != a[0] || place.is_some_and(|p| p != a[1]) {
                return Err(format!("{who} gives {} at {}, the Rust {e:?}", a[0], a[1]));
            }
        }
        Ok(f) => {
            let frame = answer_of(f);
            if frame[..] != a[..34] {
                return Err(format!("{who} gives {a:?}, the Rust {frame:?}"));
            }
            for (b, slots) in a[34..].chunks(7).enumerate() {
                let width: usize = f.fields.iter().filter(|t| t.name == "mantissas" && t.block == b as i8).map(|t| t.width).sum();
                if slots.iter().sum::<u64>() != width as u64 {
                    return Err(format!("{who} gives {slots:?} bits for the slots of block {b}, the Rust {width} for all"));
                }
            }
            for (k, t) in f.fields.iter().enumerate() {
                let r = at(k);
                let same = NAMES.get(usize::from(r.name)) == Some(&t.name) && ROLES[usize::from(r.name)] == t.role && r.block == t.block && r.index == t.index
                    && usize::from(r.first) == t.pos && usize::from(r.width) == t.width && r.value == t.value;
                if !same {
                    return Err(format!("record {k}: {who} gives {r:?}, the Rust {t:?}"));
                }
            }
        }
    }
    Ok(())
}
