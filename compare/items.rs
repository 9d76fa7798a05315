//! Compares `eac3_set_words` with the reference of compare/setting.rs: every byte of the frame and behind it, the answer, and
//! every entry of the rooms and beyond, over drawn frames, damaged ones, real ones, longer slices, every kind of room, and
//! items at and past the limits.
//! usage: items COUNT SEED [FOLDER]: COUNT calls besides the edges; FOLDER has real frames.
#![allow(dead_code)]
mod both;
mod features;
mod generate;
mod mastering;
mod names;
mod numbered;
mod pointers;
mod real;
mod setting;
mod standard;
mod theirs;
use both::{Rooms, PATTERNS};
use generate::{damage, edges, Drawer, Kind, Random};
use mastering::{crc2, WORDS};
use setting::{items, set_words};
use numbered::{read, Answer, Record, Seen, State};

#[allow(improper_ctypes)]
extern "C" {
    fn eac3_set_words(
        frame: &mut [u8], names: &mut [u8], blocks: &mut [i8], indexes: &mut [i16], firsts: &mut [u16], widths: &mut [u16],
        values: &mut [u32], places: &[usize], words: &[u32], answer: &mut Answer,
    ) -> u8;
}

/// Calls from which on everything must have been met.
const ENOUGH: u64 = 20_000;

/// Bytes behind the lent slice that are watched.
const BEHIND: usize = 8;

const CASES: [&str; 14] = [
    "a wrong crc2 put right", "an empty set", "an empty set under a wrong crc2", "one item", "16 items set", "all 16 words of a frame set", "17 items",
    "more places than values", "more values than places", "47 of the first item's place", "47 of a later one", "a refusal by the last item", "a longer slice", "room for the list alone",
];

struct Compare {
    rooms: Rooms,
    ours: Vec<u8>,
    theirs: Vec<u8>,
    records: Vec<Record>,
    s: State,
    calls: u64,
    differ: u64,
    numbers: [u64; 64],
    sizes: [u64; 17],
    cases: [u64; CASES.len()],
}

/// The frame that a slice holds, with enough room for its list, and the places of its words.
struct Read {
    answer: Answer,
    records: Vec<Record>,
    words: Vec<usize>,
}

impl Compare {
    fn read(&mut self, src: &[u8]) -> Read {
        let mut records = Vec::new();
        let answer = read(src, usize::MAX, &mut records, &mut self.s, &mut Seen::default());
        let words: Vec<usize> = (0..records.len()).filter(|&k| WORDS.iter().any(|w| w.0 == records[k].name)).collect();
        assert!(words.len() <= 16, "more than 16 words");
        Read { answer, records, words }
    }

    fn met(&mut self, src: &[u8], before: &Read, len: [usize; 6], places: &[usize], values: &[u32], number: u64) {
        self.numbers[number as usize] += 1;
        let (n, room) = (before.records.len(), *len.iter().min().unwrap());
        if before.answer[0] != 0 || room < n {
            return;
        }
        let of = items(places, values);
        let bytes = before.answer[3] as usize;
        let right = crc2(src, bytes) == before.records[n - 1].value;
        let set = number == 0;
        if set {
            self.sizes[of.len()] += 1;
        }
        let last = (0..of.len()).find(|&k| {
            let Some(r) = before.records.get(of[k].0) else { return true };
            of[..k].iter().any(|x| x.0 == of[k].0) || !WORDS.iter().any(|w| w.0 == r.name && u64::from(of[k].1) < 1 << w.1)
        });
        let twice = last.filter(|_| number == 47).map(|k| of[k].0);
        let cases = [
            set && !right, set && of.is_empty(), set && of.is_empty() && !right, set && of.len() == 1, set && of.len() == 16, set && of.len() == 16 && before.words.len() == 16,
            of.len() == 17, set && places.len() > values.len(), set && values.len() > places.len(), twice.is_some_and(|p| p == of[0].0), twice.is_some_and(|p| p != of[0].0),
            number != 48 && of.len() > 2 && last == Some(of.len() - 1), set && src.len() > bytes, set && room == n,
        ];
        cases.iter().zip(&mut self.cases).for_each(|(&yes, n)| *n += u64::from(yes));
    }

    /// One call. The frame is left as the reference has it.
    fn call(&mut self, src: &mut Vec<u8>, before: &Read, len: [usize; 6], places: &[usize], values: &[u32]) {
        self.calls += 1;
        let guard = |k: usize| (k * 37 + 11) as u8;
        for b in [&mut self.ours, &mut self.theirs] {
            b.clear();
            b.extend_from_slice(src);
            b.extend((0..BEHIND).map(guard));
        }
        let n = src.len();
        let room = *len.iter().min().unwrap();
        let want = set_words(&mut self.theirs[..n], room, &items(places, values), &mut self.records, &mut self.s);
        self.met(src, before, len, places, values, want[0]);
        let pattern = PATTERNS[self.calls as usize % 2];
        self.rooms.fill(len, &pattern);
        let mut got = [0x5555_5555_5555_5555; 76];
        let r = &mut self.rooms;
        // The entry has no premises.
        let number = unsafe {
            eac3_set_words(
                &mut self.ours[..n], &mut r.names[..len[0]], &mut r.blocks[..len[1]], &mut r.indexes[..len[2]], &mut r.firsts[..len[3]],
                &mut r.widths[..len[4]], &mut r.values[..len[5]], places, values, &mut got,
            )
        };
        let what = if u64::from(number) != want[0] || got != want {
            Some(format!("our entry returned {number} and gave {got:?}, the reference {want:?}"))
        } else if let Some(k) = (0..n + BEHIND).find(|&k| self.ours[k] != self.theirs[k]) {
            Some(format!("byte {k}: our entry {:02x}, the reference {:02x}", self.ours[k], self.theirs[k]))
        } else {
            self.rooms.differs(len, &self.records, &pattern).map(|k| format!("entry {k} of the rooms: ours {:?}, the reference has {} records, {:?}", self.rooms.at(k), self.records.len(), self.records.get(k)))
        };
        if let Some(what) = what {
            self.differ += 1;
            println!("difference {}: places {places:?}, values {values:?}, rooms {len:?}: {what}", self.differ);
            println!("  {n} bytes: {}", src.iter().map(|b| format!("{b:02x}")).collect::<String>());
            if self.differ == 5 {
                println!("stopped after {} calls", self.calls);
                std::process::exit(1);
            }
        }
        src.copy_from_slice(&self.theirs[..n]);
    }

    /// Rooms with space for the list, or any.
    fn some_rooms(&self, r: &mut Random, n: usize) -> [usize; 6] {
        let room = match r.below(8) {
            0 => r.below(n + 1),
            1 => n.saturating_sub(1),
            2 | 3 => n,
            _ => n + r.below(40),
        };
        let mut len = [0; 6].map(|_| room + r.pick(&[0, 0, 1, 2, 9, 40]));
        len[r.below(6)] = room;
        len
    }

    /// Words of the frame in any order, some or all; now and then one that is refused, or one more.
    fn some_items(&self, r: &mut Random, before: &Read) -> (Vec<usize>, Vec<u32>) {
        let n = before.records.len();
        let mut places = before.words.clone();
        for k in (1..places.len()).rev() {
            places.swap(k, r.below(k + 1));
        }
        if r.chance(1, 2) {
            places.truncate(r.below(places.len() + 1));
        }
        if r.chance(1, 6) {
            let any = r.below(n + 3);
            let bad = r.pick(&[0, n.saturating_sub(1), n, n + 1, n + 7, usize::MAX, 1 << 32, 65_536, any]);
            places.insert(r.below(places.len() + 1), bad);
        }
        if !places.is_empty() && r.chance(1, 6) {
            let again = r.pick(&places);
            places.insert(r.below(places.len() + 1), again);
        }
        if !places.is_empty() && r.chance(1, 12) {
            let most = r.pick(&[15, 16, 17, 18, 40]);
            while places.len() < most {
                places.push(r.pick(&places));
            }
        }
        let mut values: Vec<u32> = places.iter().map(|&p| self.some_value(r, before.records.get(p))).collect();
        match r.below(10) {
            0 => places.extend((0..r.below(4)).map(|_| r.below(n + 3))),
            1 => values.extend((0..r.below(4)).map(|_| r.next() as u32)),
            _ => (),
        }
        (places, values)
    }

    fn some_value(&self, r: &mut Random, here: Option<&Record>) -> u32 {
        let limit = here.map_or(256, |h| 1u64 << h.width.min(8)) as u32;
        match r.below(64) {
            0 => limit,
            1..=7 => limit - 1,
            8 => r.pick(&[31, 32, 255, 256, 257, 65_536, u32::MAX, 1 << 31, 288]),
            9..=12 => here.map_or(0, |h| h.value),
            _ => r.below(limit as usize) as u32,
        }
    }

    /// Calls about a slice, each over what the one before it left.
    fn about(&mut self, r: &mut Random, src: &[u8], calls: usize) {
        let mut src = src.to_vec();
        let more = if r.chance(1, 2) { 0 } else { r.pick(&[1, 2, 3, 40, 4096]) };
        src.extend((0..more).map(|_| r.next() as u8));
        for _ in 0..calls {
            let before = self.read(&src);
            if before.answer[0] == 0 && r.chance(1, 8) {
                let bytes = before.answer[3] as usize;
                src[bytes - 1 - r.below(2)] ^= 1 << r.below(8);
            }
            let before = self.read(&src);
            let len = self.some_rooms(r, before.records.len());
            let (places, values) = self.some_items(r, &before);
            self.call(&mut src, &before, len, &places, &values);
        }
    }
}

fn main() {
    let args: Vec<String> = std::env::args().skip(1).collect();
    let number = |k: usize, or: u64| args.get(k).map_or(or, |a: &String| a.parse().expect("a number"));
    let (count, seed) = (number(0, 1_000_000), number(1, 1));
    let mut c = Compare {
        rooms: Rooms::new(), ours: Vec::new(), theirs: Vec::new(), records: Vec::new(), s: State::new(), calls: 0, differ: 0, numbers: [0; 64], sizes: [0; 17],
        cases: [0; CASES.len()],
    };
    let mut r = Random(seed);
    let mut d = Drawer::new(r.next());
    edges(|src| if r.chance(1, 16) { c.about(&mut r, src, 1) });
    println!("edges: {} calls, {} differ", c.calls, c.differ);
    if let Some(folder) = args.get(2) {
        let (before, frames) = (c.calls, real::frames(folder));
        assert!(!frames.is_empty(), "no frames in {folder}");
        for (_, f) in &frames {
            c.about(&mut r, f, 4)
        }
        println!("real frames: {}, {} calls, {} differ", frames.len(), c.calls - before, c.differ);
    }
    let first = c.calls;
    let kinds = [Kind::Any, Kind::Any, Kind::Any, Kind::Hybrid, Kind::Extension, Kind::Coupling, Kind::Smallest, Kind::Worded, Kind::Worded];
    let mut drawn = 0u64;
    while c.calls - first < count {
        let kind = r.pick(&kinds);
        let frame = d.frame(kind);
        drawn += 1;
        c.about(&mut r, &frame, 6);
        let records = c.records.clone();
        let other = damage(&mut r, &frame, &records);
        c.about(&mut r, &other, 2);
    }
    println!("drawn: {} calls about {drawn} frames, seed {seed}", c.calls - first);
    let numbers = [0].into_iter().chain(1..=13).chain(20..=33).chain([41, 42, 43, 47, 48]).map(|k: usize| (format!("{k}"), c.numbers[k]));
    let sizes = c.sizes.iter().enumerate().map(|(k, &n)| (k.to_string(), n));
    let cases = CASES.iter().zip(c.cases).map(|(w, n)| (w.to_string(), n));
    let mut unmet = Vec::new();
    for (title, of) in [("answers", numbers.collect::<Vec<_>>()), ("words set in a call", sizes.collect()), ("cases", cases.collect())] {
        println!("{title}: {}", of.iter().map(|(what, n)| format!("{what}: {n}")).collect::<Vec<_>>().join(", "));
        unmet.extend(of.into_iter().filter(|x| x.1 == 0).map(|x| format!("{title} {}", x.0)));
    }
    println!("{} calls in all, {} differ", c.calls, c.differ);
    if !unmet.is_empty() {
        println!("not met: {}", unmet.join("; "));
    }
    std::process::exit(i32::from(c.differ != 0 || count >= ENOUGH && !unmet.is_empty()));
}
