//! Times `eac3_programme` over frames back to back beside `eac3_parse` on the same frames one by one, in one run: with the rooms from their
//! first entry on each time, and behind the records so far, which leaves the list that a programme leaves but for its ordinals.
//! usage: programme_speed FOLDER        FOLDER has the real frames
//! All are warm and take turns; the figures are of the best turn of each, in time of the processor. Rooms are not cleared between calls.
#![allow(dead_code)]
mod both;
mod clock;
mod features;
mod generate;
mod names;
mod numbered;
mod pointers;
mod programmes;
mod real;
mod standard;
mod theirs;
use both::{Rooms, MOST};
use clock::now;
use generate::{Drawer, Kind};
use numbered::{read, Answer, Seen, State};
use programmes::Listed;
use std::hint::black_box;

#[allow(improper_ctypes)]
extern "C" {
    fn eac3_parse(
        src: &[u8], names: &mut [u8], blocks: &mut [i8], indexes: &mut [i16], firsts: &mut [u16], widths: &mut [u16], values: &mut [u32],
        ordinals: &mut [u32], answer: &mut Answer,
    ) -> u8;
    fn eac3_programme(
        src: &[u8], names: &mut [u8], blocks: &mut [i8], indexes: &mut [i16], firsts: &mut [u16], widths: &mut [u16], values: &mut [u32],
        ordinals: &mut [u32], answer: &mut Listed,
    ) -> u8;
}

const TURNS: usize = 501;

/// One frame, with the rooms from an entry on.
fn parse(src: &[u8], r: &mut Rooms, k: usize, answer: &mut Answer) -> usize {
    // The entries have no premises.
    unsafe {
        eac3_parse(
            black_box(src), &mut r.names[k..MOST], &mut r.blocks[k..MOST], &mut r.indexes[k..MOST], &mut r.firsts[k..MOST], &mut r.widths[k..MOST], &mut r.values[k..MOST],
            &mut r.ordinals[k..MOST], answer,
        )
    };
    assert_eq!(black_box(&*answer)[0], 0);
    answer[2] as usize
}

fn turn(act: impl FnOnce()) -> f64 {
    let start = now();
    act();
    now() - start
}

fn time(title: &str, frames: &[Vec<u8>], r: &mut Rooms) {
    let (src, n) = (frames.concat(), frames.len());
    let (mut answer, mut told): (Answer, Listed) = ([0; 76], [0; 4]);
    let mut best = [f64::MAX; 3];
    for _ in 0..TURNS {
        let turns = [
            turn(|| unsafe {
                eac3_programme(
                    black_box(&src), &mut r.names[..MOST], &mut r.blocks[..MOST], &mut r.indexes[..MOST], &mut r.firsts[..MOST], &mut r.widths[..MOST],
                    &mut r.values[..MOST], &mut r.ordinals[..MOST], &mut told,
                );
                assert_eq!(black_box(&told)[3] as usize, n);
            }),
            turn(|| {
                let mut at = 0;
                while at < src.len() {
                    parse(&src[at..], r, 0, &mut answer);
                    at += answer[3] as usize;
                }
            }),
            turn(|| {
                let (mut at, mut k) = (0, 0);
                while at < src.len() {
                    k += parse(&src[at..], r, k, &mut answer);
                    at += answer[3] as usize;
                }
            }),
        ];
        best.iter_mut().zip(turns).for_each(|(b, t)| *b = b.min(t));
    }
    let [programme, single, behind] = best.map(|b| b / n as f64);
    println!(
        "{title}: {n} frames, {} bytes, {} records each; a programme {programme:.0} ns a frame; one by one {single:.0}, ratio {:.3}; behind the records so far {behind:.0}, ratio {:.3}",
        src.len(), told[2] as usize / n, programme / single, programme / behind
    );
}

fn drawn(kind: Kind, seed: u64, count: usize) -> Vec<Vec<u8>> {
    let (mut d, mut s, mut frames) = (Drawer::new(seed), State::new(), Vec::new());
    while frames.len() < count {
        let f = d.frame(kind);
        if read(&f, usize::MAX, &mut Vec::new(), &mut s, &mut Seen::default())[0] == 0 {
            frames.push(f)
        }
    }
    frames
}

fn main() {
    let all = real::frames(&std::env::args().nth(1).expect("the folder of real frames"));
    let some = |start: &str| -> Vec<Vec<u8>> {
        let wanted = all.iter().filter(|x| x.0.starts_with(start)).map(|x| x.1.clone());
        wanted.filter(|f| reference::eac3::parse(f).is_ok()).take(200).collect()
    };
    let mut rooms = Rooms::new();
    for (title, frames) in [
        ("real, 5.1 channels", some("5.1-")),
        ("real, stereo", some("stereo-")),
        ("real, mono", some("mono-")),
        ("drawn, any", drawn(Kind::Any, 4, 200)),
        ("drawn, one frame", drawn(Kind::Any, 4, 1)),
        ("drawn, smallest", drawn(Kind::Smallest, 5, 200)),
        ("drawn, smallest, ten frames", drawn(Kind::Smallest, 5, 10)),
    ] {
        time(title, &frames, &mut rooms)
    }
}
