//! Compares `eac3_find` with the reference of compare/searching.rs: all 78 numbers and every entry of the rooms and beyond, over
//! captures of drawn, damaged and real frames with junk between, false sync words, frames cut at the end, captures of 0 to 7 bytes,
//! every kind of room, and starts and allowances at and past the limits.
//! usage: find COUNT SEED [FOLDER]: COUNT calls; FOLDER has real frames.
#![allow(dead_code)]
mod both;
mod captures;
mod features;
mod generate;
mod names;
mod numbered;
mod pointers;
mod real;
mod searching;
mod standard;
mod theirs;
use both::{Rooms, PATTERNS};
use captures::{some_capture, some_most, some_rooms, some_start, Capture, Pool};
use generate::Random;
use numbered::{Record, State};
use searching::{find, Found};

#[allow(improper_ctypes)]
extern "C" {
    fn eac3_find(
        capture: &[u8], names: &mut [u8], blocks: &mut [i8], indexes: &mut [i16], firsts: &mut [u16], widths: &mut [u16],
        values: &mut [u32], start: usize, most: usize, answer: &mut Found,
    ) -> u8;
}

/// Calls from which on everything must have been met.
const ENOUGH: u64 = 20_000;

const ENDS: [u64; 4] = [0, 33, 44, 45];

/// How many positions were read, by the ends of ranges.
const TRIED: [(u64, &str); 6] = [(0, "none"), (1, "1"), (9, "2 to 9"), (99, "10 to 99"), (999, "100 to 999"), (u64::MAX, "1,000 and more")];

const CASES: [&str; 24] = [
    "start at the end", "start past the end", "the greatest start", "start past the end with allowance 0", "allowance 0 inside", "allowance of just the positions to the frame", "one less",
    "allowance of just the positions left", "one less of these", "the greatest allowance", "no room", "room for 1 to 8 records", "rooms of unequal lengths", "33 at a later position",
    "33 at a false sync word", "33 before a frame that more room gives", "an entry that an earlier reading left", "45 with records", "a frame behind a false sync word", "a frame that ends the capture", "bytes behind the frame",
    "a frame cut at the end", "a capture of less than 6 bytes", "an empty capture",
];

struct Compare {
    rooms: Rooms,
    left: Vec<Record>,
    s: State,
    calls: u64,
    positions: u64,
    differ: u64,
    ends: [[u64; TRIED.len()]; 4],
    cases: [u64; CASES.len()],
}

impl Compare {
    /// `open` is the search from the same start with enough room and allowance.
    fn met(&mut self, c: &Capture, len: [usize; 6], start: usize, most: usize, want: &Found, open: &Found) {
        let (n, room) = (c.bytes.len(), *len.iter().min().unwrap());
        let (number, count, position, tried) = (want[0], want[2] as usize, want[76] as usize, want[77]);
        self.positions += tried;
        let end = ENDS.iter().position(|&e| e == number).expect("one of four ends");
        self.ends[end][TRIED.iter().position(|t| tried <= t.0).unwrap()] += 1;
        let accepted = number == 0;
        let false_before = (start..position).any(|k| c.bytes[k..].starts_with(&[0x0b, 0x77]));
        let cases = [
            start == n, start > n, start == usize::MAX, start > n && most == 0, start < n && most == 0, accepted && tried == most as u64, open[0] == 0 && number == 45 && open[77] == tried + 1,
            number == 44 && n - start.min(n) == most, number == 45 && n - start == most + 1, most == usize::MAX, room == 0, (1..=8).contains(&room), len.iter().any(|&l| l != room), number == 33 && tried > 1,
            number == 33 && room > 0 && tried < open[77], number == 33 && open[0] == 0 && tried < open[77], self.left.len() > count, number == 45 && count > 0, accepted && false_before, accepted && position + want[3] as usize == n, accepted && position + (want[3] as usize) < n,
            c.cut && number == 44 && start < n, (1..6).contains(&n), n == 0,
        ];
        cases.iter().zip(&mut self.cases).for_each(|(&yes, n)| *n += u64::from(yes));
    }

    fn call(&mut self, c: &Capture, len: [usize; 6], start: usize, most: usize, open: &Found) {
        self.calls += 1;
        let room = *len.iter().min().unwrap();
        let want = find(&c.bytes, room, start, most, &mut self.left, &mut self.s);
        self.met(c, len, start, most, &want, open);
        let pattern = PATTERNS[self.calls as usize % 2];
        self.rooms.fill(len, &pattern);
        let mut got = [0x5555_5555_5555_5555; 78];
        let r = &mut self.rooms;
        // The entry has no premises.
        let number = unsafe {
            eac3_find(
                &c.bytes, &mut r.names[..len[0]], &mut r.blocks[..len[1]], &mut r.indexes[..len[2]], &mut r.firsts[..len[3]],
                &mut r.widths[..len[4]], &mut r.values[..len[5]], start, most, &mut got,
            )
        };
        let what = if u64::from(number) != want[0] || got != want {
            Some(format!("our entry returned {number} and gave {got:?}, the reference {want:?}"))
        } else {
            self.rooms.differs(len, &self.left, &pattern).map(|k| format!("entry {k} of the rooms: ours {:?}, the reference has {} entries, {:?}", self.rooms.at(k), self.left.len(), self.left.get(k)))
        };
        if let Some(what) = what {
            self.differ += 1;
            println!("difference {}: start {start}, allowance {most}, rooms {len:?}: {what}", self.differ);
            println!("  {} bytes: {}", c.bytes.len(), c.bytes.iter().map(|b| format!("{b:02x}")).collect::<String>());
            if self.differ == 5 {
                println!("stopped after {} calls", self.calls);
                std::process::exit(1);
            }
        }
    }

    /// Calls about a capture, and then behind each frame that is found.
    fn about(&mut self, r: &mut Random, c: &Capture, calls: usize) {
        let mut left = Vec::new();
        for _ in 0..calls {
            let start = some_start(r, c);
            let open = find(&c.bytes, usize::MAX, start, usize::MAX, &mut left, &mut self.s);
            let most = some_most(r, c, start, &open);
            let len = some_rooms(r, open[2] as usize);
            self.call(c, len, start, most, &open);
        }
        let mut start = 0;
        loop {
            let open = find(&c.bytes, usize::MAX, start, usize::MAX, &mut left, &mut self.s);
            self.call(c, [open[2] as usize + 1; 6], start, usize::MAX, &open);
            if open[0] != 0 {
                return;
            }
            start = (open[76] + open[3]) as usize;
        }
    }
}

fn main() {
    let args: Vec<String> = std::env::args().skip(1).collect();
    let number = |k: usize, or: u64| args.get(k).map_or(or, |a: &String| a.parse().expect("a number"));
    let (count, seed) = (number(0, 1_000_000), number(1, 1));
    let mut c = Compare { rooms: Rooms::new(), left: Vec::new(), s: State::new(), calls: 0, positions: 0, differ: 0, ends: [[0; TRIED.len()]; 4], cases: [0; CASES.len()] };
    let mut r = Random(seed);
    let frames = args.get(2).map_or(Vec::new(), |folder| real::frames(folder).into_iter().map(|f| f.1).collect());
    let mut pool = Pool::new(r.next(), frames);
    let mut captures = 0u64;
    while c.calls < count {
        let capture = some_capture(&mut r, &mut pool);
        captures += 1;
        c.about(&mut r, &capture, if capture.bytes.len() > 2000 { 2 } else { 6 });
    }
    println!("{} calls about {captures} captures, {} positions read, {} real frames at hand, seed {seed}", c.calls, c.positions, pool.real.len());
    let mut unmet = Vec::new();
    for (k, end) in ENDS.iter().enumerate() {
        let by: Vec<String> = TRIED.iter().zip(c.ends[k]).map(|(t, n)| format!("{}: {n}", t.1)).collect();
        println!("{end}: {} times; positions read {}", c.ends[k].iter().sum::<u64>(), by.join(", "));
        // a frame and 33 need a reading
        let first = usize::from(*end == 0 || *end == 33);
        unmet.extend((first..TRIED.len()).filter(|&t| c.ends[k][t] == 0).map(|t| format!("{end} after {}", TRIED[t].1)));
    }
    println!("cases: {}", CASES.iter().zip(c.cases).map(|(w, n)| format!("{w}: {n}")).collect::<Vec<_>>().join(", "));
    unmet.extend(CASES.iter().zip(c.cases).filter(|x| x.1 == 0).map(|x| x.0.to_string()));
    println!("{} calls in all, {} differ", c.calls, c.differ);
    if !unmet.is_empty() {
        println!("not met: {}", unmet.join("; "));
    }
    std::process::exit(i32::from(c.differ != 0 || count >= ENOUGH && !unmet.is_empty()));
}
