//! Sets dialnorm of a frame and takes its compression out, all words in one call: the frame comes on standard input, the new one goes to
//! standard output. Argument: the level, 1 to 31.
#[allow(dead_code)]
mod eac3;
use std::io::{Read, Write};

/// The numbers of the names dialnorm and dialnorm2, and of compr, compr2, dynrng and dynrng2 (hosts/c/eac3_names.h).
const LEVELS: [u8; 2] = [80, 81];
const GAINS: [u8; 4] = [36, 37, 89, 90];

fn set(data: &mut [u8], level: u32) -> Result<eac3::Frame, eac3::Refusal> {
    let mut room = Box::new(eac3::Room::<{ eac3::RECORDS }>::new());
    let records = eac3::parse(data, &mut room)?.records;
    let word = |i: usize| match room.names[i] {
        name if LEVELS.contains(&name) => Some((i, level)),
        name if GAINS.contains(&name) => Some((i, 0)),
        _ => None,
    };
    let items: Vec<(usize, u32)> = (0..records).filter_map(word).collect();
    eac3::set_words(data, &mut room, &items)
}

fn main() {
    let level = std::env::args().nth(1).and_then(|a| a.parse().ok()).expect("usage: flat LEVEL < FRAME > NEW-FRAME");
    let mut data = Vec::new();
    std::io::stdin().take(eac3::BYTES as u64).read_to_end(&mut data).expect("standard input can be read");
    match set(&mut data, level) {
        Ok(frame) => std::io::stdout().write_all(&data[..usize::from(frame.bytes)]).expect("standard output can be written"),
        Err(refusal) => {
            eprintln!("refused {} at bit {} after {} records", refusal.number, refusal.place, refusal.records);
            std::process::exit(1);
        }
    }
}
