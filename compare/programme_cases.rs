//! Makes the cases of the program `replay_programmes` and what it must print of them: by the reference of compare/programmes.rs, which
//! knows nothing of our code. Every refusal behind a frame and every end of a pick is among them. Once made, a list is kept.
//! usage: programme_cases CASES LINES          makes the list where there is none, and the lines
#![allow(dead_code)]
mod generate;
mod names;
mod numbered;
mod pointers;
mod programmes;
mod standard;
mod streams;
use generate::Random;
use numbered::{Record, State};
use programmes::{pick, programme};
use std::collections::HashSet;
use streams::{some_lengths, some_stream, Stock};

/// The rooms of the program, and what their ordinals hold before.
const ROOM: usize = 2048;
const BEFORE: u32 = u32::MAX;

struct Case {
    picks: bool,
    listed: usize,
    rooms: [usize; 7],
    asked: (u8, u8),
    buffers: [Vec<u8>; 2],
}

/// What the program prints of a case, what is met in it, and how many entries were written.
fn lines(c: &Case, s: &mut State) -> (Vec<u8>, Vec<String>, usize) {
    let room = *c.rooms.iter().min().unwrap();
    let (mut list, mut ordinals): (Vec<Record>, Vec<u32>) = (Vec::new(), Vec::new());
    let (numbers, part, met): (Vec<u64>, &[u8], Vec<String>) = if c.picks {
        let a = pick(&c.buffers[0], &c.buffers[1], room, c.asked.0, c.asked.1, &mut list, s);
        ordinals.resize(list.len(), 0);
        let buffer = &c.buffers[usize::from(c.asked.0 == 1)];
        let part = &buffer[a[3] as usize..(a[3] + a[4]) as usize];
        let cases = [
            (a[0] == 0, format!("type {} handed back", c.asked.0)), (a[0] == 0 && a[3] > 0, "a later frame".to_string()), (a[0] == 0 && a[3] + a[4] < buffer.len() as u64, "bytes behind the part".to_string()),
            (a[0] == 50 && a[2] > 0, "50 with records".to_string()), (a[0] == 50 && buffer.is_empty(), "50 of an empty buffer".to_string()), (a[0] == 49 && c.asked.0 == 3, "type 3 asked".to_string()),
            (a[0] == 49 && c.asked.1 == 8, "number 8 asked".to_string()), (list.len() as u64 > a[2] && c.listed > list.len(), "entries of earlier readings".to_string()),
        ];
        let met = cases.into_iter().filter(|x| x.0).map(|x| x.1).chain([format!("pick {}", a[0])]).collect();
        (a[..3].to_vec(), part, met)
    } else {
        let a = programme(&c.buffers[0], room, &mut list, &mut ordinals, s);
        let place = if a[3] == 0 { "first" } else { "later" };
        let cases = [
            (a[0] == 0 && a[3] > 3, "more than three frames".to_string()), (a[0] == 0 && a[3] == 0, "an empty programme".to_string()), (a[0] == 33 && a[3] > 0 && a[1] == 0, "33 at a frame's first record".to_string()),
            (a[0] == 0 && room as u64 == a[2] && a[3] > 1, "room for the list alone".to_string()), (a[0] == 33 && c.rooms[..6].iter().all(|&l| l > room), "33 with the seventh room alone short".to_string()),
            (c.listed > 0 && a[3] > 0, format!("listed after {} frames, {}", a[3].min(4), a[0] == 0)),
        ];
        let met = cases.into_iter().filter(|x| x.0).map(|x| x.1).chain([format!("programme {} {place}", a[0])]).collect();
        (a.to_vec(), &[], met)
    };
    let mut out = numbers.iter().map(u64::to_string).collect::<Vec<_>>().join(" ");
    out.push('\n');
    let mut bytes = out.into_bytes();
    if c.picks {
        bytes.extend(format!("{}\n", part.len()).bytes());
        bytes.extend(part);
    }
    for k in 0..c.listed {
        let r = list.get(k).copied().unwrap_or_default();
        let ordinal = ordinals.get(k).copied().unwrap_or(BEFORE);
        bytes.extend(format!("{} {} {} {} {} {} {ordinal}\n", r.first, r.width, r.name, r.block, r.index, r.value).bytes());
    }
    (bytes, met, list.len())
}

fn make(s: &mut State) -> Vec<u8> {
    let mut r = Random(11);
    let mut stock = Stock::new(&mut r, Vec::new());
    let (mut have, mut cases) = (HashSet::new(), Vec::new());
    for turn in 0..60_000 {
        let (a, b) = (some_stream(&mut r, &mut stock), some_stream(&mut r, &mut stock));
        if a.bytes.len() > 400 || b.bytes.len() > 400 {
            continue;
        }
        let picks = turn % 2 == 1;
        let (mut list, mut ordinals) = (Vec::new(), Vec::new());
        let open = programme(&a.bytes, usize::MAX, &mut list, &mut ordinals, s);
        let ends: Vec<usize> = (0..open[3] as u32).map(|k| ordinals.partition_point(|&o| o <= k)).collect();
        let rooms = some_lengths(&mut r, open[2] as usize, &ends).map(|l| l.min(ROOM));
        let frames: Vec<(u8, u8)> = a.pieces.iter().chain(&b.pieces).filter_map(|p| p.frame).collect();
        let asked = match r.below(8) {
            0 => (r.pick(&[3, 255]), 0),
            1 => (0, r.pick(&[8, 255])),
            2 => (r.below(3) as u8, r.below(8) as u8),
            _ if !frames.is_empty() => r.pick(&frames),
            _ => (1, 0),
        };
        let mut c = Case { picks, listed: 0, rooms, asked: if picks { asked } else { (0, 0) }, buffers: [a.bytes, if picks { b.bytes } else { Vec::new() }] };
        let (_, _, written) = lines(&c, s);
        c.listed = if written <= 90 { written + 2 } else { 0 };
        let (_, met, _) = lines(&c, s);
        if met.iter().any(|m| !have.contains(m)) {
            have.extend(met);
            cases.push(c);
        }
    }
    let pair = |n: usize| (n as u16).to_be_bytes();
    let mut file = pair(cases.len()).to_vec();
    for c in &cases {
        [c.picks.into(), c.listed].into_iter().chain(c.rooms).chain([c.asked.0.into(), c.asked.1.into()]).for_each(|n| file.extend(pair(n)));
        for b in &c.buffers {
            file.extend(pair(b.len()));
            file.extend(b);
        }
    }
    file
}

fn main() {
    let args: Vec<String> = std::env::args().collect();
    let mut s = State::new();
    let file = std::fs::read(&args[1]).unwrap_or_else(|_| make(&mut s));
    let (mut at, mut out, mut have) = (0, Vec::new(), HashSet::new());
    let number = |at: &mut usize| {
        *at += 2;
        usize::from(u16::from_be_bytes([file[*at - 2], file[*at - 1]]))
    };
    let cases = number(&mut at);
    for _ in 0..cases {
        let head: [usize; 11] = std::array::from_fn(|_| number(&mut at));
        let buffers = std::array::from_fn(|_| {
            let n = number(&mut at);
            at += n;
            file[at - n..at].to_vec()
        });
        let c = Case { picks: head[0] == 1, listed: head[1], rooms: std::array::from_fn(|k| head[2 + k]), asked: (head[9] as u8, head[10] as u8), buffers };
        let (bytes, met, _) = lines(&c, &mut s);
        out.extend(bytes);
        have.extend(met);
    }
    assert_eq!(at, file.len(), "bytes are left");
    let refusals = || (1..=13).chain(20..=33);
    let wanted = refusals().chain([0]).map(|k: usize| format!("programme {k} later")).chain(refusals().chain([0, 49, 50]).map(|k: usize| format!("pick {k}"))).chain(
        [
            "programme 0 first", "programme 1 first", "programme 2 first", "programme 33 first", "more than three frames", "an empty programme", "33 at a frame's first record", "room for the list alone",
            "33 with the seventh room alone short", "type 0 handed back", "type 1 handed back", "type 2 handed back", "a later frame", "bytes behind the part", "50 with records", "50 of an empty buffer",
            "type 3 asked", "number 8 asked", "entries of earlier readings", "listed after 1 frames, false", "listed after 2 frames, true", "listed after 2 frames, false",
        ].map(str::to_string),
    );
    let missing: Vec<String> = wanted.filter(|m| !have.contains(m)).collect();
    assert!(missing.is_empty(), "not in the list: {missing:?}");
    std::fs::write(&args[1], &file).expect("the cases can be written");
    std::fs::write(&args[2], &out).expect("the lines can be written");
    println!("{cases} cases, {} bytes in, {} bytes out", file.len(), out.len());
}
