//! Compares `eac3_set_word` with the reference of compare/mastering.rs: every byte of the frame and behind it, the answer, and
//! every entry of the rooms and beyond, over drawn frames, damaged ones, real ones, longer slices, every kind of room, and
//! places and values at and past the limits.
//! usage: word COUNT SEED [FOLDER]: COUNT calls besides the edges; FOLDER has real frames.
#![allow(dead_code)]
mod both;
mod features;
mod generate;
mod mastering;
mod names;
mod numbered;
mod pointers;
mod real;
mod standard;
mod theirs;
use both::{Rooms, PATTERNS};
use generate::{damage, edges, Drawer, Kind, Random};
use mastering::{crc2, set_word, WORDS};
use names::{CRC2, NAMES};
use numbered::{read, Answer, Record, Seen, State};

#[allow(improper_ctypes)]
extern "C" {
    fn eac3_set_word(
        frame: &mut [u8], names: &mut [u8], blocks: &mut [i8], indexes: &mut [i16], firsts: &mut [u16], widths: &mut [u16],
        values: &mut [u32], place: usize, value: u32, answer: &mut Answer,
    ) -> u8;
}

/// Calls from which on everything must have been met.
const ENOUGH: u64 = 20_000;

/// Bytes behind the lent slice that are watched.
const BEHIND: usize = 8;

const CASES: [&str; 12] = [
    "a wrong crc2 put right", "a right crc2 before", "the value that is there", "that value under a wrong crc2", "a longer slice", "room for the list alone",
    "place 0", "the place of crc2", "the place at the list's end", "a place past it inside the room", "the greatest value", "one more than the greatest",
];

struct Compare {
    rooms: Rooms,
    ours: Vec<u8>,
    theirs: Vec<u8>,
    records: Vec<Record>,
    s: State,
    calls: u64,
    differ: u64,
    numbers: [u64; 64],
    words: [u64; 6],
    cases: [u64; CASES.len()],
}

/// The frame that a slice holds, with enough room for its list.
struct Read {
    answer: Answer,
    records: Vec<Record>,
}

impl Compare {
    fn read(&mut self, src: &[u8]) -> Read {
        let mut records = Vec::new();
        let answer = read(src, usize::MAX, &mut records, &mut self.s, &mut Seen::default());
        Read { answer, records }
    }

    fn met(&mut self, src: &[u8], before: &Read, len: [usize; 6], place: usize, value: u32, number: u64) {
        self.numbers[number as usize] += 1;
        let (n, room) = (before.records.len(), *len.iter().min().unwrap());
        if before.answer[0] != 0 || room < n {
            return;
        }
        let bytes = before.answer[3] as usize;
        let right = crc2(src, bytes) == before.records[n - 1].value;
        let here = before.records.get(place);
        let word = here.and_then(|r| WORDS.iter().position(|w| w.0 == r.name));
        if let (0, Some(k)) = (number, word) {
            self.words[k] += 1
        }
        let limit = word.map(|k| 1 << WORDS[k].1);
        let same = here.is_some_and(|r| r.value == value);
        let cases = [
            number == 0 && !right, number == 0 && right, number == 0 && same, number == 0 && same && !right, number == 0 && src.len() > bytes, number == 0 && room == n,
            place == 0, here.is_some_and(|r| r.name == CRC2), place == n, place > n && place < room, limit == Some(value + 1), limit == Some(value),
        ];
        cases.iter().zip(&mut self.cases).for_each(|(&yes, n)| *n += u64::from(yes));
    }

    /// One call. The frame is left as the reference has it.
    fn call(&mut self, src: &mut Vec<u8>, before: &Read, len: [usize; 6], place: usize, value: u32) {
        self.calls += 1;
        let guard = |k: usize| (k * 37 + 11) as u8;
        for b in [&mut self.ours, &mut self.theirs] {
            b.clear();
            b.extend_from_slice(src);
            b.extend((0..BEHIND).map(guard));
        }
        let n = src.len();
        let room = *len.iter().min().unwrap();
        let want = set_word(&mut self.theirs[..n], room, place, value, &mut self.records, &mut self.s);
        self.met(src, before, len, place, value, want[0]);
        let pattern = PATTERNS[self.calls as usize % 2];
        self.rooms.fill(len, &pattern);
        let mut got = [0x5555_5555_5555_5555; 76];
        let r = &mut self.rooms;
        // The entry has no premises.
        let number = unsafe {
            eac3_set_word(
                &mut self.ours[..n], &mut r.names[..len[0]], &mut r.blocks[..len[1]], &mut r.indexes[..len[2]], &mut r.firsts[..len[3]],
                &mut r.widths[..len[4]], &mut r.values[..len[5]], place, value, &mut got,
            )
        };
        let what = if u64::from(number) != want[0] || got != want {
            Some(format!("our entry returned {number} and gave {got:?}, the reference {want:?}"))
        } else if let Some(k) = (0..n + BEHIND).find(|&k| self.ours[k] != self.theirs[k]) {
            Some(format!("byte {k}: our entry {:02x}, the reference {:02x}", self.ours[k], self.theirs[k]))
        } else {
            self.rooms.differs(len, &self.records, &pattern).map(|k| format!("entry {k} of the rooms: ours {:?}, the reference has {} records, {:?}", self.rooms.at(k), self.records.len(), self.records.get(k)))
        };
        if let Some(what) = what {
            self.differ += 1;
            println!("difference {}: place {place}, value {value}, rooms {len:?}: {what}", self.differ);
            println!("  {n} bytes: {}", src.iter().map(|b| format!("{b:02x}")).collect::<String>());
            if self.differ == 5 {
                println!("stopped after {} calls", self.calls);
                std::process::exit(1);
            }
        }
        src.copy_from_slice(&self.theirs[..n]);
    }

    /// Rooms with space for the list, or any.
    fn some_rooms(&self, r: &mut Random, n: usize) -> [usize; 6] {
        let room = match r.below(8) {
            0 => r.below(n + 1),
            1 => n.saturating_sub(1),
            2 | 3 => n,
            _ => n + r.below(40),
        };
        let mut len = [0; 6].map(|_| room + r.pick(&[0, 0, 1, 2, 9, 40]));
        len[r.below(6)] = room;
        len
    }

    fn some_place(&self, r: &mut Random, records: &[Record]) -> usize {
        let n = records.len();
        let words: Vec<usize> = (0..n).filter(|&k| WORDS.iter().any(|w| w.0 == records[k].name)).collect();
        match r.below(16) {
            0 => r.pick(&[0, n.saturating_sub(1), n, n + 1, n + 7]),
            1 => r.pick(&[usize::MAX, 1 << 32, 65_536, 32_782, usize::MAX / 2]),
            2 => r.below(n + 3),
            _ if !words.is_empty() => r.pick(&words),
            _ => r.below(n + 1),
        }
    }

    fn some_value(&self, r: &mut Random, here: Option<&Record>) -> u32 {
        let limit = here.map_or(256, |h| 1u64 << h.width.min(8)) as u32;
        match r.below(16) {
            0 => limit,
            1 => limit - 1,
            2 => r.pick(&[31, 32, 255, 256, 257, 65_536, u32::MAX, 1 << 31, 288]),
            3 => here.map_or(0, |h| h.value),
            _ => r.below(limit as usize) as u32,
        }
    }

    /// Calls about a slice, each over what the one before it left.
    fn about(&mut self, r: &mut Random, src: &[u8], calls: usize) {
        let mut src = src.to_vec();
        let more = if r.chance(1, 2) { 0 } else { r.pick(&[1, 2, 3, 40, 4096]) };
        src.extend((0..more).map(|_| r.next() as u8));
        for _ in 0..calls {
            let before = self.read(&src);
            if before.answer[0] == 0 && r.chance(1, 8) {
                let bytes = before.answer[3] as usize;
                src[bytes - 1 - r.below(2)] ^= 1 << r.below(8);
            }
            let before = self.read(&src);
            let len = self.some_rooms(r, before.records.len());
            let place = self.some_place(r, &before.records);
            let value = self.some_value(r, before.records.get(place));
            self.call(&mut src, &before, len, place, value);
        }
    }
}

fn main() {
    let args: Vec<String> = std::env::args().skip(1).collect();
    let number = |k: usize, or: u64| args.get(k).map_or(or, |a: &String| a.parse().expect("a number"));
    let (count, seed) = (number(0, 1_000_000), number(1, 1));
    let mut c = Compare {
        rooms: Rooms::new(), ours: Vec::new(), theirs: Vec::new(), records: Vec::new(), s: State::new(), calls: 0, differ: 0, numbers: [0; 64], words: [0; 6],
        cases: [0; CASES.len()],
    };
    let mut r = Random(seed);
    let mut d = Drawer::new(r.next());
    edges(|src| if r.chance(1, 16) { c.about(&mut r, src, 1) });
    println!("edges: {} calls, {} differ", c.calls, c.differ);
    if let Some(folder) = args.get(2) {
        let (before, frames) = (c.calls, real::frames(folder));
        assert!(!frames.is_empty(), "no frames in {folder}");
        for (_, f) in &frames {
            c.about(&mut r, f, 4)
        }
        println!("real frames: {}, {} calls, {} differ", frames.len(), c.calls - before, c.differ);
    }
    let first = c.calls;
    let kinds = [Kind::Any, Kind::Any, Kind::Any, Kind::Hybrid, Kind::Extension, Kind::Coupling, Kind::Smallest, Kind::Smallest];
    let mut drawn = 0u64;
    while c.calls - first < count {
        let kind = r.pick(&kinds);
        let frame = d.frame(kind);
        drawn += 1;
        c.about(&mut r, &frame, 6);
        let records = c.records.clone();
        let other = damage(&mut r, &frame, &records);
        c.about(&mut r, &other, 2);
    }
    println!("drawn: {} calls about {drawn} frames, seed {seed}", c.calls - first);
    let numbers = [0].into_iter().chain(1..=13).chain(20..=33).chain(41..=43).map(|k: usize| (format!("{k}"), c.numbers[k]));
    let words = WORDS.iter().zip(c.words).map(|(w, n)| (NAMES[usize::from(w.0)].to_string(), n));
    let cases = CASES.iter().zip(c.cases).map(|(w, n)| (w.to_string(), n));
    let mut unmet = Vec::new();
    for (title, of) in [("answers", numbers.collect::<Vec<_>>()), ("words set", words.collect()), ("cases", cases.collect())] {
        println!("{title}: {}", of.iter().map(|(what, n)| format!("{what}: {n}")).collect::<Vec<_>>().join(", "));
        unmet.extend(of.into_iter().filter(|x| x.1 == 0).map(|x| format!("{title} {}", x.0)));
    }
    println!("{} calls in all, {} differ", c.calls, c.differ);
    if !unmet.is_empty() {
        println!("not met: {}", unmet.join("; "));
    }
    std::process::exit(i32::from(c.differ != 0 || count >= ENOUGH && !unmet.is_empty()));
}
