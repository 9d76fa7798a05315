//! Times `eac3_gain_range` beside `eac3_parse` on the same frames, in one run: what the range costs beside the reading.
//! usage: gain_speed FOLDER        FOLDER has the real frames
//! Both are warm and take turns; the figures are of the best turn of each, in time of the processor.
#![allow(dead_code)]
mod both;
mod clock;
mod features;
mod gains;
mod generate;
mod names;
mod numbered;
mod pointers;
mod real;
mod standard;
mod theirs;
use both::Rooms;
use clock::now;
use gains::WORDS;
use generate::{Drawer, Kind};
use numbered::{read, Answer, Record, Seen, State};
use std::hint::black_box;

#[allow(improper_ctypes)]
extern "C" {
    fn eac3_parse(
        src: &[u8], names: &mut [u8], blocks: &mut [i8], indexes: &mut [i16], firsts: &mut [u16], widths: &mut [u16], values: &mut [u32],
        answer: &mut Answer,
    ) -> u8;
    fn eac3_gain_range(
        frame: &[u8], names: &mut [u8], blocks: &mut [i8], indexes: &mut [i16], firsts: &mut [u16], widths: &mut [u16], values: &mut [u32],
        factors: &mut [f64; 8], answer: &mut [u64; 11],
    ) -> u8;
}

const ROOM: usize = 32_782;
const TURNS: usize = 301;

/// The nanoseconds a frame of one turn.
fn turn(frames: &[Vec<u8>], mut call: impl FnMut(&[u8])) -> f64 {
    let start = now();
    frames.iter().for_each(|f| call(black_box(f)));
    (now() - start) / frames.len() as f64
}

fn time(title: &str, frames: &[Vec<u8>], r: &mut Rooms) {
    let (mut reading, mut range) = (f64::MAX, f64::MAX);
    let (mut answer, mut factors, mut told): (Answer, [f64; 8], [u64; 11]) = ([0; 76], [0.0; 8], [0; 11]);
    let (mut records, mut words) = (0, 0);
    for turns in 0..TURNS {
        // The entries have no premises.
        reading = reading.min(turn(frames, |f| unsafe {
            eac3_parse(
                f, &mut r.names[..ROOM], &mut r.blocks[..ROOM], &mut r.indexes[..ROOM], &mut r.firsts[..ROOM], &mut r.widths[..ROOM], &mut r.values[..ROOM],
                &mut answer,
            );
            black_box(&answer);
        }));
        range = range.min(turn(frames, |f| unsafe {
            eac3_gain_range(
                f, &mut r.names[..ROOM], &mut r.blocks[..ROOM], &mut r.indexes[..ROOM], &mut r.firsts[..ROOM], &mut r.widths[..ROOM], &mut r.values[..ROOM],
                &mut factors, &mut told,
            );
            black_box((&factors, &told));
            if turns == 0 {
                records += told[2];
                words += told[4] + told[6] + told[8] + told[10];
            }
        }));
    }
    let n = frames.len();
    println!(
        "{title}: {n} frames, {} records and {:.1} words each; reading {reading:.0} ns a frame, with the range {range:.0}, ratio {:.3}",
        records as usize / n, words as f64 / n as f64, range / reading
    );
}

fn drawn(kind: Kind, seed: u64, wanted: impl Fn(&[Record]) -> bool) -> Vec<Vec<u8>> {
    let (mut d, mut s, mut frames) = (Drawer::new(seed), State::new(), Vec::new());
    while frames.len() < 200 {
        let (f, mut records) = (d.frame(kind), Vec::new());
        if read(&f, usize::MAX, &mut records, &mut s, &mut Seen::default())[0] == 0 && wanted(&records) {
            frames.push(f)
        }
    }
    frames
}

fn main() {
    let all = real::frames(&std::env::args().nth(1).expect("the folder of real frames"));
    let some = |start: &str| -> Vec<Vec<u8>> { all.iter().filter(|x| x.0.starts_with(start)).map(|x| x.1.clone()).collect() };
    let words = |r: &[Record]| r.iter().filter(|r| WORDS.iter().any(|w| w.0 == r.name)).count();
    let mut rooms = Rooms::new();
    for (title, frames) in [
        ("real, 5.1 channels", some("5.1-")),
        ("real, stereo", some("stereo-")),
        ("real, mono", some("mono-")),
        ("drawn, any", drawn(Kind::Any, 4, |_| true)),
        ("drawn, smallest", drawn(Kind::Smallest, 5, |_| true)),
        ("drawn, six words or more", drawn(Kind::Any, 6, |r| words(r) >= 6)),
    ] {
        time(title, &frames, &mut rooms)
    }
}
