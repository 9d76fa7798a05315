//! Makes the cases of the program `replay_words` and what it must print of them: by the reference of compare/mastering.rs, which
//! knows nothing of our code. Every answer, word and limit is among them. Once made, a list is kept.
//! usage: words LIST LINES          makes the list where there is none, and the lines
#![allow(dead_code)]
mod generate;
mod mastering;
mod names;
mod numbered;
mod pointers;
mod standard;
use generate::{damage, Drawer, Kind, Random};
use mastering::{crc2, set_word, WORDS};
use names::NAMES;
use numbered::{read, Record, Seen, State};
use std::collections::HashSet;

/// The room of `listing`.
const ROOM: usize = 2048;

struct Case {
    listed: bool,
    place: u16,
    value: u16,
    src: Vec<u8>,
}

fn pair(n: usize) -> [u8; 2] {
    (n as u16).to_be_bytes()
}

/// What the program prints of a case, and what is met in it.
fn lines(c: &Case, s: &mut State) -> (Vec<u8>, Vec<String>) {
    let (mut frame, mut before, mut records) = (c.src.clone(), Vec::new(), Vec::new());
    let old = read(&frame, ROOM, &mut before, s, &mut Seen::default());
    let a = set_word(&mut frame, ROOM, c.place.into(), c.value.into(), &mut records, s);
    let mut out = match a[0] {
        0 => format!("accepted {} {} {}\n", a[3], a[23], a[2]),
        number => format!("refused {number} {} {}\n", a[1], a[2]),
    };
    for r in records.iter().filter(|_| c.listed) {
        out += &format!("{} {} {} {} {} {}\n", r.first, r.width, NAMES[usize::from(r.name)], r.block, r.index, r.value);
    }
    let mut met = vec![format!("answer {}", a[0])];
    if old[0] == 0 {
        let (n, place) = (before.len(), usize::from(c.place));
        let word = before.get(place).and_then(|r| WORDS.iter().position(|w| w.0 == r.name).map(|k| (r, 1 << WORDS[k].1)));
        let right = crc2(&c.src, old[3] as usize) == before[n - 1].value;
        if let Some((r, limit)) = word {
            let (name, value) = (NAMES[usize::from(r.name)], u32::from(c.value));
            met.push(format!("{name} over {} bytes", 1 + (r.first % 8 + r.width - 1) / 8));
            met.extend([(value + 1 == limit, "greatest"), (value == limit, "one more"), (value == r.value, "same")].iter().filter(|x| x.0).map(|x| format!("{name} {}", x.1)));
            met.push(format!("crc2 {right}, value there {}", value == r.value));
            met.push(format!("longer {}", c.src.len() > old[3] as usize));
        }
        met.extend([(place == n - 1, "crc2"), (place == n, "the list's end"), (place == 0, "the first")].iter().filter(|x| x.0).map(|x| x.1.to_string()));
    }
    let mut bytes = out.into_bytes();
    bytes.extend(&frame);
    (bytes, met)
}

fn make(s: &mut State) -> Vec<u8> {
    let (mut d, mut r, mut have, mut cases) = (Drawer::new(3), Random(3), HashSet::new(), Vec::new());
    for _ in 0..60_000 {
        let mut src = d.frame(r.pick(&[Kind::Any, Kind::Smallest, Kind::Smallest]));
        let mut records: Vec<Record> = Vec::new();
        read(&src, ROOM, &mut records, s, &mut Seen::default());
        if r.chance(1, 3) {
            src = damage(&mut r, &src, &records)
        }
        if src.len() > 400 {
            continue;
        }
        src.extend((0..r.pick(&[0, 0, 1, 5])).map(|_| r.next() as u8));
        let n = records.len();
        let words: Vec<usize> = (0..n).filter(|&k| WORDS.iter().any(|w| w.0 == records[k].name)).collect();
        let place = if words.is_empty() || r.chance(1, 8) { r.pick(&[0, n.saturating_sub(1), n, n + 1, 65_535]) } else { r.pick(&words) };
        let value = match r.below(4) {
            0 => records.get(place).map_or(7, |x| x.value as usize & 0xff),
            1 => r.pick(&[31, 32, 255, 256, 65_535]),
            _ => r.below(32),
        };
        for again in 0..2 {
            let c = Case { listed: false, place: place as u16, value: value as u16, src: src.clone() };
            let (_, met) = lines(&c, s);
            if met.iter().any(|m| !have.contains(m)) {
                have.extend(met);
                let listed = cases.len() % 8 == 0 || again == 1;
                cases.push(Case { listed, ..c });
            }
            // once more over the new frame, whose crc2 is right
            set_word(&mut src, ROOM, place, value as u32, &mut records, s);
        }
    }
    let mut file = pair(cases.len()).to_vec();
    for c in &cases {
        file.extend(pair(c.listed.into()));
        file.extend(pair(c.place.into()));
        file.extend(pair(c.value.into()));
        file.extend(pair(c.src.len()));
        file.extend(&c.src);
    }
    file
}

fn main() {
    let args: Vec<String> = std::env::args().collect();
    let mut s = State::new();
    let file = std::fs::read(&args[1]).unwrap_or_else(|_| make(&mut s));
    let number = |at: usize| u16::from_be_bytes([file[at], file[at + 1]]);
    let (mut at, mut out, mut have) = (2, Vec::new(), HashSet::new());
    for _ in 0..number(0) {
        let n = usize::from(number(at + 6));
        let c = Case { listed: number(at) == 1, place: number(at + 2), value: number(at + 4), src: file[at + 8..at + 8 + n].to_vec() };
        at += 8 + n;
        let (bytes, met) = lines(&c, &mut s);
        out.extend(bytes);
        have.extend(met);
    }
    assert_eq!(at, file.len(), "bytes are left");
    let numbers = [0].into_iter().chain(1..=13).chain(20..=32).chain(41..=43).map(|k| format!("answer {k}"));
    let words = WORDS.iter().flat_map(|w| ["greatest", "one more", "same"].map(|x| format!("{} {x}", NAMES[usize::from(w.0)])));
    let others = ["crc2", "the list's end", "the first", "longer true", "crc2 false, value there true", "crc2 true, value there false"].map(str::to_string);
    let missing: Vec<String> = numbers.chain(words).chain(others).filter(|m| !have.contains(m)).collect();
    assert!(missing.is_empty(), "not in the list: {missing:?}");
    std::fs::write(&args[1], &file).expect("the list can be written");
    std::fs::write(&args[2], &out).expect("the lines can be written");
    println!("{} cases, {} bytes in, {} bytes out", number(0), file.len(), out.len());
}
