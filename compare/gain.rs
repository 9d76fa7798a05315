//! Compares `eac3_gain_range` with the reference of compare/gains.rs: every bit of the eight factors, the answer, and every entry
//! of the rooms and beyond, over drawn frames, damaged ones, real ones, longer slices, every kind of room, and words of every
//! value. All 256 words of both kinds are among them, alone in a frame and beside others.
//! usage: gain COUNT SEED [FOLDER]: COUNT calls besides the edges; FOLDER has real frames.
#![allow(dead_code)]
mod both;
mod features;
mod gains;
mod generate;
mod names;
mod numbered;
mod pointers;
mod real;
mod standard;
mod theirs;
use both::{Rooms, PATTERNS};
use gains::{gain_range, Told, WORDS};
use generate::{damage, edges, put, Drawer, Kind, Random};
use names::NAMES;
use numbered::{read, Record, Seen, State};

#[allow(improper_ctypes)]
extern "C" {
    fn eac3_gain_range(
        frame: &[u8], names: &mut [u8], blocks: &mut [i8], indexes: &mut [i16], firsts: &mut [u16], widths: &mut [u16],
        values: &mut [u32], factors: &mut [f64; 8], answer: &mut [u64; 11],
    ) -> u8;
}

/// Calls from which on everything must have been met.
const ENOUGH: u64 = 300_000;

const CASES: [&str; 9] = [
    "no word at all", "a word 0 alone", "blocks with a word and blocks without", "a low and a high factor that differ", "the lowest word after a higher one",
    "both programmes", "words under a refusal", "words of both signs", "compr 0",
];

struct Compare {
    rooms: Rooms,
    records: Vec<Record>,
    s: State,
    calls: u64,
    differ: u64,
    numbers: [u64; 64],
    /// Of accepted frames: how often each word of each kind was met.
    words: [[u64; 256]; 4],
    counts: [[u64; 7]; 4],
    cases: [u64; CASES.len()],
}

impl Compare {
    fn met(&mut self, accepted: bool, four: &[Told; 4]) {
        let values = |k: usize| -> Vec<u32> { self.records.iter().filter(|r| r.name == WORDS[k].0).map(|r| r.value).collect() };
        let all: Vec<Vec<u32>> = (0..4).map(values).collect();
        let sent = all.iter().any(|v| !v.is_empty());
        self.cases[6] += u64::from(!accepted && sent);
        if !accepted {
            return;
        }
        for (k, v) in all.iter().enumerate() {
            v.iter().for_each(|&w| self.words[k][w as usize] += 1);
            self.counts[k][v.len()] += 1;
        }
        let blocks = self.records.iter().filter(|r| NAMES[usize::from(r.name)] == "dynrnge").count();
        let signed = |w: u32| w as u8 as i8;
        let d = &all[0];
        let cases = [
            !sent, all.iter().any(|v| v[..] == [0]), !d.is_empty() && d.len() < blocks, four.iter().any(|t| t.low != t.high),
            d.len() > 1 && d[1..].iter().any(|&w| signed(w) < signed(d[0])), !d.is_empty() && !all[2].is_empty(), false,
            d.iter().any(|&w| signed(w) < 0) && d.iter().any(|&w| signed(w) > 0), all[1][..] == [0],
        ];
        cases.iter().zip(&mut self.cases).for_each(|(&yes, n)| *n += u64::from(yes));
    }

    fn call(&mut self, src: &[u8], len: [usize; 6]) {
        self.calls += 1;
        let room = *len.iter().min().unwrap();
        let (factors, numbers, four) = gain_range(src, room, &mut self.records, &mut self.s);
        self.numbers[numbers[0] as usize] += 1;
        self.met(numbers[0] == 0, &four);
        let pattern = PATTERNS[self.calls as usize % 2];
        self.rooms.fill(len, &pattern);
        let (mut f, mut got) = ([-3.5; 8], [0x5555_5555_5555_5555; 11]);
        let r = &mut self.rooms;
        // The entry has no premises.
        let number = unsafe {
            eac3_gain_range(
                src, &mut r.names[..len[0]], &mut r.blocks[..len[1]], &mut r.indexes[..len[2]], &mut r.firsts[..len[3]], &mut r.widths[..len[4]],
                &mut r.values[..len[5]], &mut f, &mut got,
            )
        };
        let what = if u64::from(number) != numbers[0] || got != numbers {
            Some(format!("our entry returned {number} and gave {got:?}, the reference {numbers:?}"))
        } else if f.map(f64::to_bits) != factors.map(f64::to_bits) {
            Some(format!("our entry gave the factors {f:?}, the reference {factors:?}"))
        } else {
            self.rooms.differs(len, &self.records, &pattern).map(|k| format!("entry {k} of the rooms: ours {:?}, the reference has {} records, {:?}", self.rooms.at(k), self.records.len(), self.records.get(k)))
        };
        if let Some(what) = what {
            self.differ += 1;
            println!("difference {}: rooms {len:?}: {what}", self.differ);
            println!("  {} bytes: {}", src.len(), src.iter().map(|b| format!("{b:02x}")).collect::<String>());
            if self.differ == 5 {
                println!("stopped after {} calls", self.calls);
                std::process::exit(1);
            }
        }
    }

    fn some_rooms(&self, r: &mut Random, n: usize) -> [usize; 6] {
        let room = match r.below(16) {
            0 => r.below(n + 1),
            1 => n.saturating_sub(1),
            2 | 3 => n,
            _ => n + r.below(40),
        };
        let mut len = [0; 6].map(|_| room + r.pick(&[0, 0, 1, 2, 9, 40]));
        len[r.below(6)] = room;
        len
    }

    /// Calls about a slice, with other words in each; a word changes no other record.
    fn about(&mut self, r: &mut Random, src: &[u8], calls: usize) {
        let mut src = src.to_vec();
        let more = if r.chance(1, 2) { 0 } else { r.pick(&[1, 2, 3, 40, 4096]) };
        src.extend((0..more).map(|_| r.next() as u8));
        let mut records = Vec::new();
        read(&src, usize::MAX, &mut records, &mut self.s, &mut Seen::default());
        for turn in 0..calls {
            let near = r.below(256) as u32;
            for w in records.iter().filter(|w| turn > 0 && WORDS.iter().any(|x| x.0 == w.name)) {
                let value = match r.below(8) {
                    0 => r.pick(&[0, 0x7f, 0x80, 0xff, 1, 0x1f, 0x20, 0xe0]),
                    1 | 2 => near,
                    3 => near ^ 0x80,
                    _ => r.below(256) as u32,
                };
                put(&mut src, w.first.into(), w.width.into(), value);
            }
            let len = self.some_rooms(r, records.len());
            self.call(&src, len);
        }
    }
}

fn main() {
    let args: Vec<String> = std::env::args().skip(1).collect();
    let number = |k: usize, or: u64| args.get(k).map_or(or, |a: &String| a.parse().expect("a number"));
    let (count, seed) = (number(0, 1_000_000), number(1, 1));
    let mut c = Compare {
        rooms: Rooms::new(), records: Vec::new(), s: State::new(), calls: 0, differ: 0, numbers: [0; 64], words: [[0; 256]; 4], counts: [[0; 7]; 4],
        cases: [0; CASES.len()],
    };
    let mut r = Random(seed);
    let mut d = Drawer::new(r.next());
    edges(|src| if r.chance(1, 16) { c.about(&mut r, src, 1) });
    println!("edges: {} calls, {} differ", c.calls, c.differ);
    if let Some(folder) = args.get(2) {
        let (before, frames) = (c.calls, real::frames(folder));
        assert!(!frames.is_empty(), "no frames in {folder}");
        for (_, f) in &frames {
            c.about(&mut r, f, 4)
        }
        println!("real frames: {}, {} calls, {} differ", frames.len(), c.calls - before, c.differ);
    }
    let first = c.calls;
    let kinds = [Kind::Any, Kind::Any, Kind::Any, Kind::Hybrid, Kind::Extension, Kind::Coupling, Kind::Smallest, Kind::Smallest];
    let mut drawn = 0u64;
    while c.calls - first < count {
        let frame = d.frame(r.pick(&kinds));
        drawn += 1;
        c.about(&mut r, &frame, 6);
        let records = c.records.clone();
        let other = damage(&mut r, &frame, &records);
        c.about(&mut r, &other, 2);
    }
    println!("drawn: {} calls about {drawn} frames, seed {seed}", c.calls - first);
    let numbers = [0].into_iter().chain(1..=13).chain(20..=33).map(|k: usize| (format!("{k}"), c.numbers[k]));
    let cases = CASES.iter().zip(c.cases).map(|(w, n)| (w.to_string(), n));
    let least = WORDS.iter().zip(&c.words).map(|(w, n)| (format!("{}, the rarest of 256 words", NAMES[usize::from(w.0)]), *n.iter().min().unwrap()));
    let counts = WORDS.iter().zip(&c.counts).flat_map(|(w, n)| {
        let most = if w.1 == 3 { 6 } else { 1 };
        (0..=most).map(move |k| (format!("{} {k} times", NAMES[usize::from(w.0)]), n[k]))
    });
    let mut unmet = Vec::new();
    for (title, of) in [("answers", numbers.collect::<Vec<_>>()), ("words", least.collect()), ("words of a frame", counts.collect()), ("cases", cases.collect())] {
        println!("{title}: {}", of.iter().map(|(what, n)| format!("{what}: {n}")).collect::<Vec<_>>().join(", "));
        unmet.extend(of.into_iter().filter(|x| x.1 == 0).map(|x| format!("{title} {}", x.0)));
    }
    println!("{} calls in all, {} differ", c.calls, c.differ);
    if !unmet.is_empty() {
        println!("not met: {}", unmet.join("; "));
    }
    std::process::exit(i32::from(c.differ != 0 || count >= ENOUGH && !unmet.is_empty()));
}
