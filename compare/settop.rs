//! Compares both entries with the numbered walk, each with its greatest frame: drawn frames, damaged ones, such of other sizes
//! around 1,536 bytes, real ones, cut and longer slices, and every kind of room. What lies behind the 1,536th byte is drawn
//! anew, and the settop entry's answer and rooms stay.
//! usage: settop COUNT SEED [FOLDER]: COUNT inputs besides the edges; FOLDER has real frames. Each input is read at both entries.
#![allow(dead_code)]
mod both;
mod features;
mod generate;
mod names;
mod numbered;
mod pointers;
mod real;
mod standard;
mod theirs;
use both::{Rooms, PATTERNS};
use generate::{damage, edges, put, Drawer, Kind, Random};
use numbered::{bits, read, read_up_to, Answer, Record, Seen, State, SETTOP};

#[allow(improper_ctypes)]
extern "C" {
    fn eac3_parse_settop(
        src: &[u8], names: &mut [u8], blocks: &mut [i8], indexes: &mut [i16], firsts: &mut [u16], widths: &mut [u16],
        values: &mut [u32], answer: &mut Answer,
    ) -> u8;
}

/// Inputs from which on everything must have been met.
const ENOUGH: u64 = 20_000;

/// The bit of frmsiz.
const FRMSIZ: usize = 21;

const CASES: [&str; 16] = [
    "46, accepted at the full entry", "46, refused there in the body", "46, 4 there", "46 in a slice of at most 1,536 bytes", "46 of frmsiz 768, 1,538 bytes",
    "frmsiz 767, 1,536 bytes, accepted", "such a frame, its last byte lacking: 4", "such a frame in a longer slice", "46 with room for exactly four records",
    "33 among the first four records of a longer frame", "3 of a longer frame", "6 of a longer frame", "2 of a longer frame", "1", "46 of the longest frame", "bytes behind the 1,536th drawn anew",
];

struct Compare {
    rooms: Rooms,
    records: Vec<Record>,
    s: State,
    inputs: u64,
    differ: u64,
    full: [u64; 64],
    settop: [u64; 64],
    cases: [u64; CASES.len()],
}

impl Compare {
    fn tell(&mut self, src: &[u8], what: String) {
        self.differ += 1;
        println!("difference {}: {what}", self.differ);
        println!("  {} bytes: {}", src.len(), src.iter().map(|b| format!("{b:02x}")).collect::<String>());
        if self.differ == 5 {
            println!("stopped after {} inputs", self.inputs);
            std::process::exit(1);
        }
    }

    /// One entry over rooms that hold a pattern, and what differs from the walk's answer and records.
    fn entry(&mut self, settop: bool, src: &[u8], len: [usize; 6], want: &Answer) {
        let pattern = PATTERNS[(self.inputs % 2) as usize];
        self.rooms.fill(len, &pattern);
        let mut got = [0x5555_5555_5555_5555; 76];
        let number = if settop {
            let r = &mut self.rooms;
            // The entry has no premises.
            unsafe {
                eac3_parse_settop(
                    src, &mut r.names[..len[0]], &mut r.blocks[..len[1]], &mut r.indexes[..len[2]], &mut r.firsts[..len[3]], &mut r.widths[..len[4]],
                    &mut r.values[..len[5]], &mut got,
                )
            }
        } else {
            self.rooms.ours(src, len, &mut got)
        };
        let who = if settop { "settop" } else { "full" };
        if u64::from(number) != want[0] || got != *want {
            self.tell(src, format!("rooms {len:?}: our entry ({who}) returned {number} and gave {got:?}, the numbered walk {want:?}"))
        } else if let Some(k) = self.rooms.differs(len, &self.records, &pattern) {
            let what = format!("rooms {len:?}: entry {k} of the rooms: ours ({who}) {:?}, the numbered walk has {} records, {:?}", self.rooms.at(k), self.records.len(), self.records.get(k));
            self.tell(src, what)
        }
    }

    /// A slice at both entries; the full entry's answer.
    fn both(&mut self, src: &[u8], len: [usize; 6]) -> Answer {
        self.inputs += 1;
        let room = *len.iter().min().unwrap();
        let settop = read_up_to(src, SETTOP, room, &mut self.records, &mut self.s, &mut Seen::default());
        self.entry(true, src, len, &settop);
        let full = read(src, room, &mut self.records, &mut self.s, &mut Seen::default());
        self.entry(false, src, len, &full);
        self.settop[settop[0] as usize] += 1;
        self.full[full[0] as usize] += 1;
        if src.len() < 6 {
            self.cases[13] += u64::from(settop[0] == 1);
            return full;
        }
        let bytes = 2 * (bits(src, FRMSIZ, 11) as usize + 1);
        let (long, exact) = (settop[0] == 46, bytes == SETTOP);
        let cases = [
            long && full[0] == 0, long && full[0] != 0 && full[0] != 4 && full[0] != 33, long && full[0] == 4, long && src.len() <= SETTOP, long && bytes == SETTOP + 2,
            exact && settop[0] == 0, exact && src.len() == SETTOP - 1 && settop[0] == 4, exact && src.len() > SETTOP && settop[0] == 0, long && room == 4,
            bytes > SETTOP && settop[0] == 33 && room < 4, bytes > SETTOP && settop[0] == 3, bytes > SETTOP && settop[0] == 6, bytes > SETTOP && settop[0] == 2, false,
            long && bytes == 4096, false,
        ];
        cases.iter().zip(&mut self.cases).for_each(|(&yes, n)| *n += u64::from(yes));
        full
    }

    /// Rooms around the list's length or around four, or any, with one of the six the shortest.
    fn some_rooms(&self, r: &mut Random, n: usize) -> [usize; 6] {
        let room = match r.below(8) {
            0 => r.below(7),
            1 => r.below(n + 1),
            2 => n.saturating_sub(1),
            3 => n,
            _ => n + r.below(40),
        };
        let mut len = [0; 6].map(|_| room + r.pick(&[0, 0, 1, 2, 9, 40]));
        len[r.below(6)] = room;
        len
    }

    /// A slice with rooms, longer, cut, with another announced size, strmtyp, word or bsid.
    fn about(&mut self, r: &mut Random, src: &[u8]) {
        let mut src = src.to_vec();
        match r.below(12) {
            0 | 1 if src.len() >= 6 => {
                let bytes: usize = r.pick(&[1532, 1534, 1536, 1536, 1536, 1538, 1538, 1540, 2048, 3072, 4094, 4096]);
                put(&mut src, FRMSIZ, 11, bytes as u32 / 2 - 1);
                let short = bytes.saturating_sub(src.len());
                src.extend((0..short).map(|_| r.next() as u8));
                if bytes < src.len() && r.chance(1, 2) {
                    src.truncate(bytes)
                }
                if bytes >= 18 && r.chance(3, 4) {
                    put(&mut src, 8 * bytes - 18, 1, 0)
                }
            }
            2 if src.len() >= 6 => {
                let frmsiz = r.below(2048) as u32;
                put(&mut src, FRMSIZ, 11, frmsiz)
            }
            _ => {}
        }
        if src.len() >= 6 && r.chance(1, 24) {
            match r.below(3) {
                0 => put(&mut src, 16, 2, 3),
                1 => put(&mut src, 40, 5, r.below(11) as u32),
                _ => put(&mut src, r.below(16), 1, r.below(2) as u32),
            }
        }
        match r.below(8) {
            0 => src.extend((0..r.pick(&[1, 2, 3, 40, 4096])).map(|_| 0).collect::<Vec<u8>>()),
            1 => {
                let n = r.pick(&[0, 5, 6, 7, 1534, 1535, 1536, 1537, 1538, 2048]);
                src.truncate(n)
            }
            2 => {
                let n = src.len() - r.below(3).min(src.len());
                src.truncate(n)
            }
            _ => {}
        }
        let mut records = Vec::new();
        read(&src, usize::MAX, &mut records, &mut self.s, &mut Seen::default());
        let len = self.some_rooms(r, records.len());
        self.both(&src, len);
        if src.len() > SETTOP && r.chance(1, 4) {
            self.inputs += 1;
            self.cases[15] += 1;
            let room = *len.iter().min().unwrap();
            let before = read_up_to(&src, SETTOP, room, &mut self.records, &mut self.s, &mut Seen::default());
            let other: Vec<u8> = src[..SETTOP].iter().copied().chain((0..r.below(3000)).map(|_| r.next() as u8)).collect();
            self.entry(true, &other, len, &before);
        }
    }
}

fn main() {
    let args: Vec<String> = std::env::args().skip(1).collect();
    let number = |k: usize, or: u64| args.get(k).map_or(or, |a: &String| a.parse().expect("a number"));
    let (count, seed) = (number(0, 1_000_000), number(1, 1));
    let mut c = Compare { rooms: Rooms::new(), records: Vec::new(), s: State::new(), inputs: 0, differ: 0, full: [0; 64], settop: [0; 64], cases: [0; CASES.len()] };
    let mut r = Random(seed);
    let mut d = Drawer::new(r.next());
    edges(|src| if r.chance(1, 16) { c.both(src, [r.below(9); 6]); });
    println!("edges: {} inputs, {} differ", c.inputs, c.differ);
    if let Some(folder) = args.get(2) {
        let (before, frames) = (c.inputs, real::frames(folder));
        assert!(!frames.is_empty(), "no frames in {folder}");
        for (_, f) in &frames {
            (0..4).for_each(|_| c.about(&mut r, f))
        }
        println!("real frames: {}, {} inputs, {} differ", frames.len(), c.inputs - before, c.differ);
    }
    let first = c.inputs;
    let kinds = [Kind::Any, Kind::Any, Kind::Any, Kind::Hybrid, Kind::Extension, Kind::Coupling, Kind::Smallest];
    let mut drawn = 0u64;
    while c.inputs - first < count {
        let frame = d.frame(r.pick(&kinds));
        drawn += 1;
        (0..5).for_each(|_| c.about(&mut r, &frame));
        let mut records = Vec::new();
        read(&frame, usize::MAX, &mut records, &mut c.s, &mut Seen::default());
        (0..3).for_each(|_| {
            let other = damage(&mut r, &frame, &records);
            c.about(&mut r, &other)
        });
    }
    println!("drawn: {} inputs about {drawn} frames, seed {seed}", c.inputs - first);
    let scope = || [0].into_iter().chain(1..=13).chain(20..=33);
    let full: Vec<(String, u64)> = scope().map(|k: usize| (format!("{k}"), c.full[k])).collect();
    let settop: Vec<(String, u64)> = scope().chain([46]).map(|k: usize| (format!("{k}"), c.settop[k])).collect();
    let cases: Vec<(String, u64)> = CASES.iter().zip(c.cases).map(|(w, n)| (w.to_string(), n)).collect();
    let mut unmet = Vec::new();
    for (title, of) in [("answers of the full entry", full), ("answers of the settop entry", settop), ("cases", cases)] {
        println!("{title}: {}", of.iter().map(|(what, n)| format!("{what}: {n}")).collect::<Vec<_>>().join(", "));
        unmet.extend(of.into_iter().filter(|x| x.1 == 0).map(|x| format!("{title} {}", x.0)));
    }
    println!("46 at the full entry: {}", c.full[46]);
    println!("{} inputs in all, {} differ", c.inputs, c.differ);
    if !unmet.is_empty() {
        println!("not met: {}", unmet.join("; "));
    }
    std::process::exit(i32::from(c.differ != 0 || count >= ENOUGH && !unmet.is_empty()));
}
