//! Makes the list of the Rust's answers that the program `replay` holds our reader to, and checks a list against the Rust.
//! usage: answers FILE FOLDER        makes it; FOLDER has the real frames; the further slices of FILE are kept
//!        answers FILE               checks it
//!
//! The file, all numbers high byte first:
//!
//!     2 bytes     how many cases there are
//!     each case:
//!       2 bytes   the length of the slice, at most 4,200
//!       ..        the slice
//!       1 byte    the Rust's verdict: 0 accepted, 1 Invalid, 2 Unsupported, 3 Truncated
//!       62 bytes  31 numbers of 2 bytes, the frame's in the order of our answer from its fourth on: bytes, bsid, acmod,
//!                 lfeon, fscod, strmtyp, substreamid, numblks, 6 block starts, 6 mantissa starts, audio_end, aht_tags,
//!                 7 aht_slots, spx_blocks, cpl_blocks
//!       2 bytes   how many records
//!       4 bytes   a sum over the records: b, then a, 2 bytes each
//!     2 bytes     how many further slices there are
//!     each of them:
//!       2 bytes   1 where its records are listed, else 0
//!       2 bytes   its length, at most 4,200
//!       ..        the slice
//!
//! All after the verdict is 0 where the frame is refused. The sum: a = 1 and b = 0; for each record, for each of the seven
//! numbers x of name, block + 1, index + 1, first bit, width, value / 65536, value % 65536: a = (a + x) % 65521, then
//! b = (b + a) % 65521. Nothing passes 32 bits.
#![allow(dead_code)]
mod features;
mod generate;
mod names;
mod numbered;
mod pointers;
mod real;
#[allow(dead_code)]
mod standard;
mod theirs;
use features::{features, FEATURES};
use generate::{damage, Drawer, Kind, Random};
use names::NAMES;
use numbered::{read, Record, Seen, State};
use reference::frame::Frame;
use std::collections::HashMap;
use theirs::{answer_of, kind, verdict};

fn sum(f: &Frame) -> (u32, u32) {
    let (mut a, mut b) = (1u32, 0u32);
    for r in &f.fields {
        let name = NAMES.binary_search(&r.name).expect("a name");
        for x in [name as u32, (r.block + 1) as u32, (r.index + 1) as u32, r.pos as u32, r.width as u32, r.value >> 16, r.value & 0xffff] {
            a = (a + x) % 65521;
            b = (b + a) % 65521;
        }
    }
    (b, a)
}

/// What follows the slice in a case: the Rust's answer.
fn case(src: &[u8]) -> Vec<u8> {
    let theirs = reference::eac3::parse(src);
    let mut out = vec![verdict(&theirs) as u8];
    match theirs {
        Err(_) => out.resize(69, 0),
        Ok(f) => {
            let a = answer_of(&f);
            let (high, low) = sum(&f);
            let numbers = a[3..].iter().copied().chain([f.fields.len() as u64, high.into(), low.into()]);
            out.extend(numbers.flat_map(|n| u16::try_from(n).expect("16 bits").to_be_bytes()));
        }
    }
    out
}

/// Cases are taken while something in them is wanted.
struct List {
    cases: Vec<Vec<u8>>,
    /// How often each thing is still wanted.
    wanted: HashMap<String, usize>,
    records: Vec<Record>,
    s: State,
}

impl List {
    /// A refusal's number; of an accepted frame all that it has.
    fn things(&mut self, src: &[u8]) -> Vec<String> {
        let mut seen = Seen::default();
        let a = read(src, usize::MAX, &mut self.records, &mut self.s, &mut seen);
        if a[0] != 0 {
            return vec![format!("refusal {}", a[0])];
        }
        let mut named = [false; 202];
        self.records.iter().for_each(|r| named[usize::from(r.name)] = true);
        let names = (0..202).filter(|&k| named[k]).map(|k| NAMES[k].to_string());
        let has = features(&self.s, &a, &self.records, seen.silent);
        let features = (0..FEATURES.len()).filter(|&k| has[k]).map(|k| FEATURES[k].to_string());
        let within = |what: &str, n: &[u64]| (0..n.len()).filter(|&k| n[k] > 0).map(|k| format!("{what} {k}")).collect::<Vec<_>>();
        let pointers = within("bap", &seen.bap).into_iter().chain(within("hebap", &seen.hebap)).chain(within("gaqmod", &seen.gaqmod)).chain(within("tag", &seen.tag));
        names.chain(features).chain(pointers).collect()
    }

    /// Adds a slice, unless its kind of error is another since bsid is looked at first, or the silence rule decides.
    fn add(&mut self, src: &[u8]) -> bool {
        let mut seen = Seen::default();
        let a = read(src, usize::MAX, &mut self.records, &mut self.s, &mut seen);
        if kind(a[0]) != verdict(&reference::eac3::parse(src)) || seen.decided() > 0 {
            return false;
        }
        let mut c = (src.len() as u16).to_be_bytes().to_vec();
        c.extend(src);
        c.extend(case(src));
        self.cases.push(c);
        true
    }

    /// Adds a slice that has `most` bytes or fewer for each thing in it that is wanted.
    fn consider(&mut self, src: &[u8], most: usize) {
        let mut things = self.things(src);
        things.retain(|t| self.wanted.get(t).is_none_or(|&n| n > 0));
        if src.len() <= most * things.len() && src.len() <= 4200 && self.add(src) {
            for t in things {
                let often = if t.starts_with("refusal") { 7 } else { 4 };
                *self.wanted.entry(t).or_insert(often) -= 1;
            }
        }
    }
}

fn make(folder: &str) -> Vec<u8> {
    let mut l = List { cases: Vec::new(), wanted: HashMap::new(), records: Vec::new(), s: State::new() };
    for src in [&[][..], &[11, 119, 192, 0, 0, 128], &[11, 119, 0, 0, 0, 128], &[11, 119, 0, 3, 192, 128], &[11, 119, 0, 2, 192, 128], &[11, 119, 0, 2, 0, 128], &[11, 119, 0, 2, 0, 0]] {
        l.add(src);
    }
    // the second frame of each stream, unless it is long, and one of 5.1 channels
    let mut before = String::new();
    let mut turn = 0;
    for (stream, frame) in real::frames(folder) {
        turn = if stream == before { turn + 1 } else { 0 };
        if turn == 1 && (frame.len() <= 800 || stream == "5.1-48000-noise-448") {
            l.add(&frame);
        }
        before = stream;
    }
    let (mut r, mut d) = (Random(20_261_115), Drawer::new(7));
    for most in [10, 30, 100, 300, 1000, 4200] {
        for _ in 0..4000 {
            let kind = r.pick(&[Kind::Any, Kind::Any, Kind::Any, Kind::Hybrid, Kind::Coupling, Kind::Extension, Kind::Smallest]);
            let frame = d.frame(kind);
            l.consider(&frame, most);
            let records = l.records.clone();
            let other = damage(&mut r, &frame, &records);
            l.consider(&other, most);
        }
    }
    while l.cases.len() < 560 {
        let frame = d.frame(Kind::Any);
        if frame.len() < 500 {
            l.add(&frame);
        }
    }
    let refusals = (1..=13).chain(20..=32).map(|k| format!("refusal {k}"));
    let pointers = (0..16).map(|k| format!("bap {k}")).chain((0..20).map(|k| format!("hebap {k}"))).chain((0..4).map(|k| format!("gaqmod {k}")));
    let all = refusals.chain(pointers).chain(NAMES.iter().chain(&FEATURES).map(|s| s.to_string()));
    let unmet: Vec<String> = all.filter(|t| !l.wanted.contains_key(t)).collect();
    assert!(unmet.is_empty(), "not in the list: {unmet:?}");
    let mut out = (l.cases.len() as u16).to_be_bytes().to_vec();
    l.cases.iter().for_each(|c| out.extend(c));
    out
}

fn pair(list: &[u8], at: usize) -> usize {
    usize::from(u16::from_be_bytes([list[at], list[at + 1]]))
}

/// Each case of a list, its slice and its answer, and the place where the further slices begin.
fn cases(list: &[u8]) -> (Vec<(&[u8], &[u8])>, usize) {
    let mut at = 2;
    let mut cases = Vec::new();
    for _ in 0..pair(list, 0) {
        let end = at + 2 + pair(list, at);
        cases.push((&list[at + 2..end], &list[end..end + 69]));
        at = end + 69;
    }
    (cases, at)
}

/// Holds a list to the Rust, case by case.
fn check(list: &[u8]) -> [usize; 4] {
    let mut verdicts = [0; 4];
    let (cases, mut at) = cases(list);
    for (src, told) in cases {
        assert!(case(src) == told, "the Rust gives another answer");
        assert!(pair(told, 63) <= 2048, "the program has no room for so many records");
        verdicts[usize::from(told[0])] += 1;
    }
    let slices = pair(list, at);
    at += 2;
    for _ in 0..slices {
        at += 4 + pair(list, at + 2);
    }
    assert!(at == list.len(), "bytes are left");
    verdicts
}

fn main() {
    let args: Vec<String> = std::env::args().collect();
    let stored = std::fs::read(&args[1]).expect("the list can be read");
    let list = match args.get(2) {
        Some(folder) => [make(folder), stored[cases(&stored).1..].to_vec()].concat(),
        None => stored,
    };
    let [accepted, invalid, unsupported, truncated] = check(&list);
    std::fs::write(&args[1], &list).unwrap();
    println!("{}: {} bytes; {accepted} accepted, {invalid} invalid, {unsupported} unsupported, {truncated} truncated", args[1], list.len());
}
