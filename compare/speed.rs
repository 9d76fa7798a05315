//! Times our reader and the unchanged Rust's `eac3::parse` on the same frames, in one run.
//! usage: speed FOLDER        FOLDER has the real frames
//! Both are warm, and take turns; the figures are of the best turn of each, in time of the processor. Our rooms are lent
//! whole (32,782 entries) and not cleared between calls; what the Rust takes for its lists, and gives back, is in its time.
#![allow(dead_code)]
mod both;
mod clock;
mod features;
mod generate;
mod names;
mod numbered;
mod pointers;
mod real;
mod standard;
mod theirs;
use both::Rooms;
use clock::now;
use generate::{Drawer, Kind};
use numbered::Answer;
use std::hint::black_box;

const ROOM: usize = 32_782;
const TURNS: usize = 101;

struct Set {
    title: String,
    frames: Vec<Vec<u8>>,
}

fn accepted(f: &[u8]) -> bool {
    reference::eac3::parse(f).is_ok()
}

fn drawn(title: &str, kind: Kind, seed: u64, wanted: impl Fn(&reference::frame::Frame) -> bool) -> Set {
    let mut d = Drawer::new(seed);
    let mut frames = Vec::new();
    while frames.len() < 200 {
        let f = d.frame(kind);
        if reference::eac3::parse(&f).is_ok_and(|r| wanted(&r)) {
            frames.push(f)
        }
    }
    Set { title: title.to_string(), frames }
}

/// Sets of real and drawn frames by their bytes, at most 100 each: how the time grows with the frame.
fn by_size(real: &[(String, Vec<u8>)]) -> Vec<Set> {
    const BOUNDS: [usize; 9] = [30, 64, 128, 256, 512, 1024, 2048, 3072, 4097];
    let mut d = Drawer::new(6);
    let mut all: Vec<Vec<u8>> = real.iter().map(|x| x.1.clone()).chain((0..4000).map(|_| d.frame(Kind::Any))).collect();
    all.retain(|f| accepted(f));
    let between = |a: usize, b: usize| -> Vec<Vec<u8>> {
        let some: Vec<_> = all.iter().filter(|f| (a..b).contains(&f.len())).collect();
        let step = some.len().div_ceil(100).max(1);
        some.into_iter().step_by(step).cloned().collect()
    };
    BOUNDS.windows(2).map(|w| Set { title: format!("{} to {} bytes", w[0], w[1] - 1), frames: between(w[0], w[1]) }).collect()
}

/// The nanoseconds a frame of one turn.
fn turn(frames: &[Vec<u8>], mut read: impl FnMut(&[u8])) -> f64 {
    let start = now();
    frames.iter().for_each(|f| read(black_box(f)));
    (now() - start) / frames.len() as f64
}

fn time(set: &Set, rooms: &mut Rooms) {
    let mut answer: Answer = [0; 76];
    let (mut ours, mut theirs) = (f64::MAX, f64::MAX);
    let (mut bytes, mut records) = (0, 0);
    for f in &set.frames {
        bytes += f.len();
        rooms.ours(f, [ROOM; 6], &mut answer);
        assert!(answer[0] == 0, "a frame of the set is refused");
        records += answer[2] as usize;
    }
    for _ in 0..TURNS {
        ours = ours.min(turn(&set.frames, |f| {
            rooms.ours(f, [ROOM; 6], &mut answer);
            black_box(&answer);
        }));
        theirs = theirs.min(turn(&set.frames, |f| drop(black_box(reference::eac3::parse(f)))));
    }
    let n = set.frames.len();
    println!(
        "{}: {n} frames, {} bytes and {} records each; ours {ours:.0} ns a frame, Rust {theirs:.0}, ratio {:.2}",
        set.title, bytes / n, records / n, ours / theirs
    );
}

fn main() {
    let folder = std::env::args().nth(1).expect("the folder of real frames");
    let all = real::frames(&folder);
    let some = |start: &str| -> Vec<Vec<u8>> {
        let six = |f: &[u8]| f[4] >> 4 & 3 == 3;
        all.iter().filter(|(name, f)| name.starts_with(start) && six(f) && accepted(f)).map(|x| x.1.clone()).collect()
    };
    let mut sets = vec![
        Set { title: "real, 5.1 channels".to_string(), frames: some("5.1-") },
        Set { title: "real, stereo".to_string(), frames: some("stereo-") },
        drawn("drawn, adaptive hybrid transform", Kind::Hybrid, 1, |f| !f.aht_slots.is_empty()),
        drawn("drawn, spectral extension", Kind::Extension, 2, |f| f.spx_blocks > 0),
        drawn("drawn, coupling", Kind::Coupling, 3, |f| f.cpl_blocks > 0),
        drawn("drawn, any", Kind::Any, 4, |_| true),
        drawn("smallest", Kind::Smallest, 5, |f| f.bytes < 40),
    ];
    sets.extend(by_size(&all));
    let mut rooms = Rooms::new();
    for set in &sets {
        time(set, &mut rooms)
    }
}
