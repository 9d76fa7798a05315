//! Puts further slices at the end of the input of the program `replay`: the smallest accepted frame of its list that has all
//! six loudness words, as it is, and with the words and crc2 all 0, all 1, and drawn. compare/refusals makes the lines.
//! usage: steered LIST        once: a list that has them is left as it is
#![allow(dead_code)]
mod generate;
mod mastering;
mod names;
mod numbered;
mod pointers;
mod standard;
mod steering;
use generate::Random;
use mastering::write;
use numbered::{read, Record, Seen, State};
use steering::CHANGED;

fn pair(file: &[u8], at: usize) -> usize {
    usize::from(u16::from_be_bytes([file[at], file[at + 1]]))
}

/// The frame with each word, and crc2, made of a number.
fn with(frame: &[u8], records: &[Record], mut value: impl FnMut() -> u32) -> Vec<u8> {
    let mut f = frame.to_vec();
    for r in records.iter().filter(|r| CHANGED.contains(&r.name)) {
        write(&mut f, r.first.into(), r.width.into(), value() & ((1 << r.width) - 1))
    }
    f
}

fn main() {
    let path = std::env::args().nth(1).expect("the list");
    let mut file = std::fs::read(&path).expect("the list can be read");
    let mut found: Option<(Vec<u8>, Vec<Record>)> = None;
    let mut at = 2;
    for _ in 0..pair(&file, 0) {
        let n = pair(&file, at);
        let src = &file[at + 2..at + 2 + n];
        let mut records = Vec::new();
        let a = read(src, usize::MAX, &mut records, &mut State::new(), &mut Seen::default());
        let all = CHANGED.iter().all(|&k| records.iter().any(|r| r.name == k));
        if a[0] == 0 && all && found.as_ref().map_or(true, |f| src.len() < f.0.len()) {
            found = Some((src.to_vec(), records))
        }
        at += 2 + n + 69;
    }
    let (frame, records) = found.expect("a frame with all six words");
    let mut r = Random(10);
    let slices = [frame.clone(), with(&frame, &records, || 0), with(&frame, &records, || u32::MAX), with(&frame, &records, || r.next() as u32)];
    if file.windows(frame.len()).filter(|w| *w == &slices[2][..]).count() > 0 {
        return println!("they are there");
    }
    let further = pair(&file, at) + slices.len();
    file[at..at + 2].copy_from_slice(&(further as u16).to_be_bytes());
    for s in &slices {
        file.extend([0, 1]);
        file.extend((s.len() as u16).to_be_bytes());
        file.extend(s);
    }
    std::fs::write(&path, &file).expect("the list can be written");
    println!("a frame of {} bytes and {} records, four times", frame.len(), records.len());
}
