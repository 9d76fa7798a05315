//! Sets dialnorm of a frame: the frame comes on standard input, the new one goes to standard output. Argument: the level, 1 to 31.
#[allow(dead_code)]
mod eac3;
use std::io::{Read, Write};

/// The number of the name dialnorm (hosts/c/eac3_names.h).
const DIALNORM: u8 = 80;

fn set(data: &mut [u8], level: u32) -> Result<eac3::Frame, eac3::Refusal> {
    let mut room = Box::new(eac3::Room::<{ eac3::RECORDS }>::new());
    let records = eac3::parse(data, &mut room)?.records;
    let place = (0..records).find(|&i| room.names[i] == DIALNORM).unwrap_or(records);
    eac3::set_word(data, &mut room, place, level)
}

fn main() {
    let level = std::env::args().nth(1).and_then(|a| a.parse().ok()).expect("usage: dialnorm LEVEL < FRAME > NEW-FRAME");
    let mut data = Vec::new();
    std::io::stdin().take(eac3::BYTES as u64).read_to_end(&mut data).expect("standard input can be read");
    match set(&mut data, level) {
        Ok(frame) => std::io::stdout().write_all(&data[..usize::from(frame.bytes)]).expect("standard output can be written"),
        Err(refusal) => {
            eprintln!("refused {} at bit {} after {} records", refusal.number, refusal.place, refusal.records);
            std::process::exit(1);
        }
    }
}
