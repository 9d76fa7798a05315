//! Loudness words steer nothing: reads an accepted frame by `eac3_parse`, changes its loudness words and crc2 at random
//! (compare/steering.rs), and reads it again. The number, all places of the answer and every entry of the rooms must be the
//! same but for the values that were changed. The second slice has other bytes behind the frame, and any length that holds it.
//! usage: steer COUNT SEED [FOLDER]: COUNT frames with a changed word besides those of FOLDER, which has real frames.
//! It fails where something differs, where no word was changed, and from 20,000 frames on where a name or a case was not met.
#![allow(dead_code)]
mod both;
mod features;
mod generate;
mod mastering;
mod names;
mod numbered;
mod pointers;
mod real;
mod standard;
mod steering;
mod theirs;
use both::{Rooms, PATTERNS};
use generate::{Drawer, Kind, Random};
use names::NAMES;
use numbered::{Answer, Record};
use steering::{change, CHANGED};

/// Frames from which on everything must have been met.
const ENOUGH: u64 = 20_000;

const CASES: [&str; 6] = ["one word changed", "more than ten changed", "room for the list alone", "a longer slice", "a second slice of another length", "a frame of 1+1 channels"];

struct Steer {
    rooms: Rooms,
    tried: u64,
    frames: u64,
    differ: u64,
    refused: u64,
    names: [u64; 7],
    cases: [u64; CASES.len()],
}

impl Steer {
    /// A call over rooms that hold a pattern.
    fn call(&mut self, src: &[u8], len: [usize; 6], pattern: &Record) -> (u8, Answer) {
        self.rooms.fill(len, pattern);
        let mut answer = [0x5555_5555_5555_5555; 76];
        let number = self.rooms.ours(src, len, &mut answer);
        (number, answer)
    }

    fn tell(&mut self, what: String, first: &[u8], second: &[u8]) {
        self.differ += 1;
        println!("difference {}: {what}", self.differ);
        for (k, src) in [first, second].iter().enumerate() {
            println!("  slice {k}, {} bytes: {}", src.len(), src.iter().map(|b| format!("{b:02x}")).collect::<String>());
        }
        if self.differ == 5 {
            println!("stopped after {} inputs", self.tried);
            std::process::exit(1);
        }
    }

    /// A frame, and the same with changed words.
    fn about(&mut self, r: &mut Random, frame: &[u8], times: usize) {
        let behind = |r: &mut Random| -> Vec<u8> { let n = r.pick(&[0, 0, 0, 1, 2, 7, 300]); (0..n).map(|_| r.next() as u8).collect() };
        let first = [frame, &behind(r)[..]].concat();
        let plenty = [33_000; 6];
        let (number, before) = self.call(&first, plenty, &PATTERNS[0]);
        if number != 0 {
            self.refused += 1;
            return;
        }
        let (count, bytes) = (before[2] as usize, before[3] as usize);
        let records: Vec<Record> = (0..count).map(|k| self.rooms.at(k)).collect();
        for _ in 0..times {
            self.tried += 1;
            let (mut list, mut names) = (records.clone(), [0; 7]);
            let mut second = [&first[..bytes], &behind(r)[..]].concat();
            change(r, &mut second, &mut list, &mut names);
            let words: u64 = names.iter().sum();
            if words == 0 {
                continue;
            }
            self.frames += 1;
            self.names.iter_mut().zip(names).for_each(|(n, k)| *n += k);
            let room = count + r.pick(&[0, 0, 1, 40]);
            let len = [0; 6].map(|_| room + r.pick(&[0, 0, 3]));
            let cases = [
                words == 1, words > 10, len.iter().min() == Some(&count), first.len() > bytes, second.len() != first.len(), before[5] == 0,
            ];
            cases.iter().zip(&mut self.cases).for_each(|(&yes, n)| *n += u64::from(yes));
            let pattern = PATTERNS[self.tried as usize % 2];
            let (number, after) = self.call(&second, len, &pattern);
            if number != 0 || after != before {
                self.tell(format!("our reader returned {number} and gave {after:?}, before {before:?}"), &first, &second)
            } else if let Some(k) = self.rooms.differs(len, &list, &pattern) {
                self.tell(format!("entry {k} of the rooms: ours {:?}, expected of {count} records {:?}", self.rooms.at(k), list.get(k)), &first, &second)
            }
        }
    }
}

fn main() {
    let args: Vec<String> = std::env::args().skip(1).collect();
    let number = |k: usize, or: u64| args.get(k).map_or(or, |a: &String| a.parse().expect("a number"));
    let (count, seed) = (number(0, 1_000_000), number(1, 1));
    let mut s = Steer { rooms: Rooms::new(), tried: 0, frames: 0, differ: 0, refused: 0, names: [0; 7], cases: [0; CASES.len()] };
    let mut r = Random(seed);
    let mut d = Drawer::new(r.next());
    if let Some(folder) = args.get(2) {
        let frames = real::frames(folder);
        assert!(!frames.is_empty(), "no frames in {folder}");
        frames.iter().for_each(|(_, f)| s.about(&mut r, f, 8));
        println!("real frames: {}, with changed words {}, {} differ", frames.len(), s.frames, s.differ);
    }
    let (real, most) = (s.frames, s.tried + 4 * count + 1000);
    let kinds = [Kind::Any, Kind::Any, Kind::Any, Kind::Hybrid, Kind::Extension, Kind::Coupling, Kind::Smallest];
    let mut drawn = 0u64;
    while s.frames - real < count && s.tried < most {
        let kind = r.pick(&kinds);
        let frame = d.frame(kind);
        drawn += 1;
        s.about(&mut r, &frame, 4);
    }
    println!("drawn: {drawn} frames, with changed words {}, seed {seed}; refused at the first reading {}", s.frames - real, s.refused);
    let names = CHANGED.iter().zip(s.names).map(|(&w, n)| (NAMES[usize::from(w)].to_string(), n));
    let cases = CASES.iter().zip(s.cases).map(|(w, n)| (w.to_string(), n));
    let mut unmet = Vec::new();
    for (title, of) in [("changed", names.collect::<Vec<_>>()), ("cases", cases.collect())] {
        println!("{title}: {}", of.iter().map(|(what, n)| format!("{what}: {n}")).collect::<Vec<_>>().join(", "));
        unmet.extend(of.into_iter().filter(|x| x.1 == 0).map(|x| format!("{title} {}", x.0)));
    }
    println!("{} frames with changed words in all, {} differ", s.frames, s.differ);
    if s.frames == 0 {
        println!("difference 0: no word was changed, so that our reader was not tried");
    }
    if !unmet.is_empty() {
        println!("not met: {}", unmet.join("; "));
    }
    std::process::exit(i32::from(s.differ != 0 || s.frames == 0 || count >= ENOUGH && !unmet.is_empty()));
}
