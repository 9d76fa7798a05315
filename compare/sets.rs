//! Makes the cases of the program `replay_sets` and what it must print of them: by the reference of compare/setting.rs, which
//! knows nothing of our code. Every answer and every number of items is among them, and a frame with 16 words, all set. Once made, a list is kept.
//! usage: sets LIST LINES FRAME NEW-FRAME          makes the list where there is none, and the lines; from the list a frame
//! of 16 words, and that frame with dialnorm 27 and gains 0
#![allow(dead_code)]
mod generate;
mod mastering;
mod names;
mod numbered;
mod pointers;
mod setting;
mod standard;
use generate::{damage, Drawer, Kind, Random};
use mastering::{crc2, WORDS};
use setting::{items, set_words};
use names::NAMES;
use numbered::{read, Record, Seen, State};
use std::collections::HashSet;

/// The room of `listing`.
const ROOM: usize = 2048;

/// The places and the values that a case has room for.
const MOST: usize = 20;

struct Case {
    listed: bool,
    places: Vec<usize>,
    values: Vec<u32>,
    src: Vec<u8>,
}

/// The places of the words of a list.
fn words(records: &[Record]) -> Vec<usize> {
    (0..records.len()).filter(|&k| WORDS.iter().any(|w| w.0 == records[k].name)).collect()
}

fn pair(n: usize) -> [u8; 2] {
    (n as u16).to_be_bytes()
}

/// What the program prints of a case, and what is met in it.
fn lines(c: &Case, s: &mut State) -> (Vec<u8>, Vec<String>) {
    let (mut frame, mut before, mut records) = (c.src.clone(), Vec::new(), Vec::new());
    let old = read(&frame, ROOM, &mut before, s, &mut Seen::default());
    let of = items(&c.places, &c.values);
    let a = set_words(&mut frame, ROOM, &of, &mut records, s);
    let mut out = match a[0] {
        0 => format!("accepted {} {} {}\n", a[3], a[23], a[2]),
        number => format!("refused {number} {} {}\n", a[1], a[2]),
    };
    for r in records.iter().filter(|_| c.listed) {
        out += &format!("{} {} {} {} {} {}\n", r.first, r.width, NAMES[usize::from(r.name)], r.block, r.index, r.value);
    }
    let mut met = vec![format!("answer {}", a[0])];
    if old[0] == 0 {
        let right = crc2(&c.src, old[3] as usize) == before[before.len() - 1].value;
        met.push(format!("crc2 {right}, answer {}", a[0]));
        if a[0] == 0 {
            if words(&before).len() == 16 {
                met.push(format!("{} items of 16 words", of.len()));
            }
            met.push(format!("{} items", of.len()));
        }
        met.extend([(c.places.len() > of.len(), "more places"), (c.values.len() > of.len(), "more values"), (c.src.len() > old[3] as usize, "longer")].iter().filter(|x| x.0).map(|x| format!("{}, answer {}", x.1, a[0])));
    }
    let mut bytes = out.into_bytes();
    bytes.extend(&frame);
    (bytes, met)
}

fn make(s: &mut State) -> Vec<u8> {
    let (mut d, mut r, mut have, mut cases) = (Drawer::new(3), Random(3), HashSet::new(), Vec::new());
    for _ in 0..60_000 {
        let mut src = d.frame(r.pick(&[Kind::Any, Kind::Smallest, Kind::Worded]));
        let mut records: Vec<Record> = Vec::new();
        read(&src, ROOM, &mut records, s, &mut Seen::default());
        if r.chance(1, 3) {
            src = damage(&mut r, &src, &records)
        }
        if src.len() > 500 {
            continue;
        }
        src.extend((0..r.pick(&[0, 0, 1, 5])).map(|_| r.next() as u8));
        let n = records.len();
        let mut places = words(&records);
        for k in (1..places.len()).rev() {
            places.swap(k, r.below(k + 1));
        }
        if r.chance(2, 3) {
            places.truncate(r.below(places.len() + 1));
        }
        match r.below(12) {
            0 => places.push(r.pick(&[0, n.saturating_sub(1), n, n + 1, 65_535])),
            1 if !places.is_empty() => places.push(r.pick(&places)),
            2 if !places.is_empty() => {
                let most = r.pick(&[17, 18, MOST]);
                while places.len() < most {
                    places.push(r.pick(&places))
                }
            }
            _ => (),
        }
        let mut values: Vec<u32> = places.iter().map(|_| if r.chance(1, 40) { r.pick(&[32, 255, 256, 65_535]) } else { r.below(32) as u32 }).collect();
        match r.below(8) {
            0 if places.len() < MOST => places.push(r.below(n + 3)),
            1 if values.len() < MOST => values.push(r.below(300) as u32),
            _ => (),
        }
        for again in 0..2 {
            let c = Case { listed: false, places: places.clone(), values: values.clone(), src: src.clone() };
            let (_, met) = lines(&c, s);
            if met.iter().any(|m| !have.contains(m)) {
                have.extend(met);
                let listed = cases.len() % 8 == 0 || again == 1;
                cases.push(Case { listed, ..c });
            }
            // once more over the new frame, whose crc2 is right
            set_words(&mut src, ROOM, &items(&places, &values), &mut records, s);
        }
    }
    let mut file = pair(cases.len()).to_vec();
    for c in &cases {
        file.extend(pair(c.listed.into()));
        file.extend(pair(c.places.len()));
        file.extend(pair(c.values.len()));
        (0..MOST).for_each(|k| file.extend(pair(c.places.get(k).map_or(0, |&p| p.min(65_535)))));
        (0..MOST).for_each(|k| file.extend(pair(c.values.get(k).map_or(0, |&v| v as usize))));
        file.extend(pair(c.src.len()));
        file.extend(&c.src);
    }
    file
}

fn main() {
    let args: Vec<String> = std::env::args().collect();
    let mut s = State::new();
    let file = std::fs::read(&args[1]).unwrap_or_else(|_| make(&mut s));
    let number = |at: usize| u16::from_be_bytes([file[at], file[at + 1]]);
    let (mut at, mut out, mut have, mut full) = (2, Vec::new(), HashSet::new(), Vec::new());
    for _ in 0..number(0) {
        let (lent, beside, past) = (usize::from(number(at + 2)), usize::from(number(at + 4)), at + 6 + 4 * MOST);
        let n = usize::from(number(past));
        let places = (0..lent).map(|k| usize::from(number(at + 6 + 2 * k))).collect();
        let values = (0..beside).map(|k| u32::from(number(at + 6 + 2 * (MOST + k)))).collect();
        let c = Case { listed: number(at) == 1, places, values, src: file[past + 2..past + 2 + n].to_vec() };
        at = past + 2 + n;
        let (bytes, met) = lines(&c, &mut s);
        out.extend(bytes);
        if met.iter().any(|m| m == "16 items of 16 words") {
            full = c.src;
        }
        have.extend(met);
    }
    assert_eq!(at, file.len(), "bytes are left");
    let numbers = [0].into_iter().chain(1..=13).chain(20..=32).chain([41, 42, 43, 47, 48]).map(|k| format!("answer {k}"));
    let sizes = (0..=16).map(|k| format!("{k} items"));
    let others = ["16 items of 16 words", "crc2 false, answer 0", "crc2 true, answer 0", "more places, answer 0", "more values, answer 0", "longer, answer 0"].map(str::to_string);
    let missing: Vec<String> = numbers.chain(sizes).chain(others).filter(|m| !have.contains(m)).collect();
    assert!(missing.is_empty(), "not in the list: {missing:?}");
    std::fs::write(&args[1], &file).expect("the list can be written");
    std::fs::write(&args[2], &out).expect("the lines can be written");
    let mut records = Vec::new();
    let bytes = read(&full, ROOM, &mut records, &mut s, &mut Seen::default())[3] as usize;
    full.truncate(bytes);
    std::fs::write(&args[3], &full).expect("the frame can be written");
    let flat: Vec<(usize, u32)> = words(&records).into_iter().map(|k| (k, if records[k].width == 5 { 27 } else { 0 })).collect();
    assert_eq!(set_words(&mut full, ROOM, &flat, &mut records, &mut s)[0], 0);
    std::fs::write(&args[4], &full).expect("the new frame can be written");
    println!("{} cases, {} bytes in, {} bytes out", number(0), file.len(), out.len());
}
