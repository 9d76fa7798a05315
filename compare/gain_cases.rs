//! Makes the cases of the program `replay_gains` and what it must print of them, and what `gains` must print of a frame: by the
//! reference of compare/gains.rs, which knows nothing of our code. Decibels are taken by the logarithm here, and from a table there.
//! usage: gain_cases LIST LINES FRAME LINES          makes the list where there is none, and the lines of both programs
#![allow(dead_code)]
mod gains;
mod generate;
mod names;
mod numbered;
mod pointers;
mod standard;
use gains::{gain_range, Ratio, Told, WORDS};
use generate::{damage, put, Drawer, Kind, Random};
use names::NAMES;
use numbered::{read, Record, Seen, State};
use std::collections::HashSet;

/// The room of the programs.
const ROOM: usize = 2048;

/// A fraction whose denominator is a power of two, in decimal, exactly.
fn decimal((over, under): Ratio) -> String {
    let (mut out, mut rest) = ((over / under).to_string(), over % under);
    if rest != 0 {
        out += "."
    }
    while rest != 0 {
        out += &(rest * 10 / under).to_string();
        rest = rest * 10 % under;
    }
    out
}

fn decibels((over, under): Ratio) -> String {
    format!("{:.2}", 20.0 * (over as f64 / under as f64).log10() + 0.0)
}

/// What the programs print of a slice, and what is met in it.
fn lines(src: &[u8], room: usize, s: &mut State) -> (String, Vec<String>) {
    let mut records: Vec<Record> = Vec::new();
    let full = read(src, room, &mut records, s, &mut Seen::default());
    let (_, a, four) = gain_range(src, room, &mut records, s);
    let mut out = match a[0] {
        0 => format!("accepted {} {} {}\n", full[3], full[23], a[2]),
        number => format!("refused {number} {} {}\n", a[1], a[2]),
    };
    let mut met = vec![format!("answer {}", a[0])];
    for (k, (w, t)) in WORDS.iter().zip(&four).enumerate() {
        let name = NAMES[usize::from(w.0)];
        out += &match t {
            Told { words: 0, .. } => format!("{name}: no word sent\n"),
            t => format!("{name}: words {}, factors {} to {}, dB {} to {}\n", t.words, decimal(t.low), decimal(t.high), decibels(t.low), decibels(t.high)),
        };
        if a[0] != 0 {
            continue;
        }
        let values: Vec<u32> = records.iter().filter(|r| r.name == w.0).map(|r| r.value).collect();
        met.push(format!("{name}, words {}", t.words));
        met.extend([0, 0x7f, 0x80, 0xff].iter().filter(|v| values.contains(v)).map(|v| format!("{name} {v:02x}")));
        met.push(format!("{name} {}", if values == [0] { "0 alone" } else if t.low != t.high { "of a range" } else { "of one factor" }));
        let _ = k;
    }
    if a[0] != 0 && records.iter().any(|r| WORDS.iter().any(|w| w.0 == r.name)) {
        met.push("words under a refusal".to_string())
    }
    if a[0] == 0 && four.iter().all(|t| t.words > 0) {
        met.push("both programmes".to_string())
    }
    if a[0] == 0 && four.iter().all(|t| t.words == 0) {
        met.push("no word".to_string())
    }
    (out, met)
}

fn pair(n: usize) -> [u8; 2] {
    (n as u16).to_be_bytes()
}

fn make(s: &mut State) -> Vec<u8> {
    let (mut d, mut r, mut have, mut cases) = (Drawer::new(8), Random(8), HashSet::new(), Vec::new());
    for _ in 0..60_000 {
        let mut src = d.frame(r.pick(&[Kind::Any, Kind::Smallest, Kind::Smallest]));
        let mut records = Vec::new();
        read(&src, ROOM, &mut records, s, &mut Seen::default());
        if r.chance(1, 3) {
            src = damage(&mut r, &src, &records);
            read(&src, ROOM, &mut records, s, &mut Seen::default());
        }
        if src.len() > 300 {
            continue;
        }
        for w in records.iter().filter(|w| WORDS.iter().any(|x| x.0 == w.name)) {
            let value = if r.chance(1, 2) { r.pick(&[0, 0x7f, 0x80, 0xff]) } else { r.below(256) as u32 };
            put(&mut src, w.first.into(), w.width.into(), value);
        }
        let room = if r.chance(1, 16) { r.below(records.len() + 1) } else { ROOM };
        let (_, met) = lines(&src, room, s);
        if met.iter().any(|m| !have.contains(m)) {
            have.extend(met);
            cases.push((room, src));
        }
    }
    let mut file = pair(cases.len()).to_vec();
    for (room, src) in &cases {
        file.extend(pair(*room));
        file.extend(pair(src.len()));
        file.extend(src);
    }
    file
}

fn main() {
    let args: Vec<String> = std::env::args().collect();
    let mut s = State::new();
    let file = std::fs::read(&args[1]).unwrap_or_else(|_| make(&mut s));
    let number = |at: usize| usize::from(u16::from_be_bytes([file[at], file[at + 1]]));
    let (mut at, mut out, mut have) = (2, String::new(), HashSet::new());
    for _ in 0..number(0) {
        let n = number(at + 2);
        let (text, met) = lines(&file[at + 4..at + 4 + n], number(at), &mut s);
        at += 4 + n;
        out += &text;
        have.extend(met);
    }
    assert_eq!(at, file.len(), "bytes are left");
    let numbers = [0].into_iter().chain(1..=13).chain(20..=33).map(|k| format!("answer {k}"));
    let words = WORDS.iter().flat_map(|w| ["00", "7f", "80", "ff", "0 alone"].map(|x| format!("{} {x}", NAMES[usize::from(w.0)])));
    let others = ["words under a refusal", "both programmes", "no word", "dynrng of a range", "dynrng2 of a range"].map(str::to_string);
    let missing: Vec<String> = numbers.chain(words).chain(others).filter(|m| !have.contains(m)).collect();
    assert!(missing.is_empty(), "not in the list: {missing:?}");
    std::fs::write(&args[1], &file).expect("the list can be written");
    std::fs::write(&args[2], &out).expect("the lines can be written");
    let frame = std::fs::read(&args[3]).expect("the frame can be read");
    std::fs::write(&args[4], lines(&frame, ROOM, &mut s).0).expect("the lines can be written");
    println!("{} cases, {} bytes in, {} bytes out", number(0), file.len(), out.len());
}
