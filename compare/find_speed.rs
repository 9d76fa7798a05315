//! Times `eac3_find`: by position over captures without a frame, beside plain searches for the sync word; and over real frames back to
//! back, beside `eac3_parse` at their known positions.
//! usage: find_speed FOLDER        FOLDER has the real frames
//! All are warm, and take turns; the figures are of the best turn of each, in time of the processor. Rooms are lent whole (32,782
//! entries) and not cleared between calls.
#![allow(dead_code)]
mod both;
mod clock;
mod features;
mod generate;
mod names;
mod numbered;
mod pointers;
mod real;
mod searching;
mod standard;
mod theirs;
use both::Rooms;
use clock::now;
use generate::Random;
use numbered::Answer;
use searching::Found;
use std::hint::black_box;

#[allow(improper_ctypes)]
extern "C" {
    fn eac3_find(
        capture: &[u8], names: &mut [u8], blocks: &mut [i8], indexes: &mut [i16], firsts: &mut [u16], widths: &mut [u16],
        values: &mut [u32], start: usize, most: usize, answer: &mut Found,
    ) -> u8;
}

const ROOM: usize = 32_782;
const BYTES: usize = 16 << 20;
const SYNC: [u8; 2] = [0x0b, 0x77];

fn search(r: &mut Rooms, capture: &[u8], start: usize, answer: &mut Found) -> u8 {
    // The entry has no premises.
    unsafe {
        eac3_find(
            capture, &mut r.names[..ROOM], &mut r.blocks[..ROOM], &mut r.indexes[..ROOM], &mut r.firsts[..ROOM], &mut r.widths[..ROOM],
            &mut r.values[..ROOM], start, usize::MAX, answer,
        )
    }
}

/// The nanoseconds of one turn.
fn turn(act: impl FnOnce()) -> f64 {
    let start = now();
    act();
    now() - start
}

/// The first sync word, byte by byte: 0B is looked for, and then the byte behind it.
fn byte_by_byte(capture: &[u8]) -> Option<usize> {
    let mut at = 0;
    while at + 1 < capture.len() {
        if capture[at] == SYNC[0] && capture[at + 1] == SYNC[1] {
            return Some(at);
        }
        at += 1;
    }
    None
}

fn without_frame(title: &str, capture: &[u8], rooms: &mut Rooms) {
    let mut answer = [0; 78];
    let mut best = [f64::MAX; 3];
    for _ in 0..11 {
        let turns = [
            turn(|| assert_eq!(search(rooms, black_box(capture), 0, &mut answer), 44)),
            turn(|| assert!(black_box(capture).windows(2).position(|w| w == SYNC).is_none())),
            turn(|| assert!(byte_by_byte(black_box(capture)).is_none())),
        ];
        best.iter_mut().zip(turns).for_each(|(b, t)| *b = b.min(t));
    }
    assert_eq!(answer[77] as usize, capture.len());
    let each = best.map(|b| b / capture.len() as f64);
    println!("{title}, {} bytes: ours {:.3} ns a position; plain searches for 0B77: windows {:.3}, byte by byte {:.3}", capture.len(), each[0], each[1], each[2]);
}

fn frames(title: &str, frames: &[Vec<u8>], rooms: &mut Rooms) {
    let capture: Vec<u8> = frames.concat();
    let (mut answer, mut parsed): (Found, Answer) = ([0; 78], [0; 76]);
    let mut positions = Vec::new();
    let mut at = 0;
    for f in frames {
        positions.push(at);
        at += f.len();
    }
    let (mut found, mut read) = (f64::MAX, f64::MAX);
    for _ in 0..101 {
        found = found.min(turn(|| {
            let (mut start, mut n) = (0, 0);
            while search(rooms, black_box(&capture), start, &mut answer) == 0 {
                start = (answer[76] + answer[3]) as usize;
                n += 1;
            }
            assert_eq!(n, positions.len());
        }));
        read = read.min(turn(|| positions.iter().for_each(|&p| assert_eq!(rooms.ours(black_box(&capture[p..]), [ROOM; 6], &mut parsed), 0))));
    }
    let n = positions.len() as f64;
    println!("{title}: {} frames, {} bytes back to back; eac3_find {:.0} ns a frame, eac3_parse {:.0}, ratio {:.3}", positions.len(), capture.len(), found / n, read / n, found / read);
}

fn main() {
    let folder = std::env::args().nth(1).expect("the folder of real frames");
    let mut rooms = Rooms::new();
    let mut r = Random(1);
    let mut bytes: Vec<u8> = (0..BYTES).map(|_| r.next() as u8).collect();
    (1..BYTES).for_each(|k| if bytes[k - 1..=k] == SYNC { bytes[k] = 0x76 });
    without_frame("any bytes without the sync word", &bytes, &mut rooms);
    without_frame("all 0B", &vec![0x0b; BYTES], &mut rooms);
    let all = real::frames(&folder);
    let some = |start: &str| -> Vec<Vec<u8>> { all.iter().filter(|x| x.0.starts_with(start)).map(|x| x.1.clone()).filter(|f| reference::eac3::parse(f).is_ok()).collect() };
    for (title, start) in [("real, all", ""), ("real, 5.1 channels", "5.1-"), ("real, stereo", "stereo-"), ("real, mono", "mono-")] {
        frames(title, &some(start), &mut rooms)
    }
}
