//! Compares `crc_remainder` (the proved check) with the Rust's `crc16` on slices of every length from 0 to 4,096 bytes, and
//! times both on the 4,094 bytes that follow the sync word in the longest frame.
//! usage: crc [COUNT [SEED]]
// The reference's file, as it is: the script puts it beside this one.
#[allow(dead_code)]
mod crc;
#[allow(dead_code)]
mod random;
use random::Random;
use std::hint::black_box;
use std::time::Instant;

#[allow(improper_ctypes)]
extern "C" {
    fn crc_remainder(src: &[u8]) -> u16;
}

fn ours(src: &[u8]) -> u16 {
    // It has no premise.
    unsafe { crc_remainder(src) }
}

fn theirs(src: &[u8]) -> u16 {
    crc::crc16(0, src)
}

const LONGEST: usize = 4096;

/// Any bytes, or a single bit in zeros.
fn fill(r: &mut Random, src: &mut [u8]) {
    if r.below(4) == 0 && !src.is_empty() {
        src.fill(0);
        let at = r.below(8 * src.len() as u64) as usize;
        src[at / 8] = 128 >> (at % 8);
        return;
    }
    for eight in src.chunks_mut(8) {
        let bytes = r.next().to_le_bytes();
        eight.copy_from_slice(&bytes[..eight.len()])
    }
}

/// The nanoseconds a call of one turn.
fn turn(src: &[u8], f: fn(&[u8]) -> u16) -> f64 {
    const CALLS: u32 = 100;
    let start = Instant::now();
    for _ in 0..CALLS {
        black_box(f(black_box(src)));
    }
    start.elapsed().as_nanos() as f64 / f64::from(CALLS)
}

fn main() {
    let mut args = std::env::args().skip(1).map(|a| a.parse::<u64>().expect("a number"));
    let count = args.next().unwrap_or(1_000_000);
    let mut r = Random(args.next().unwrap_or(1));
    let mut buffer = [0u8; LONGEST + 8];
    let (mut differ, mut nonzero) = (0u64, 0u64);
    for n in 0..count {
        let first = r.below(8) as usize;                                         // at any place of a word
        let src = &mut buffer[first..first + n as usize % (LONGEST + 1)];
        fill(&mut r, src);
        let (a, b) = (ours(src), theirs(src));
        nonzero += u64::from(b != 0);
        if a != b {
            differ += 1;
            if differ == 1 { println!("input {n} of {} bytes differs: {a:04x}, Rust {b:04x}", src.len()) }
        }
    }
    println!("{count} slices of 0 to {LONGEST} bytes, {nonzero} with a remainder above 0: {differ} differ");
    let src = &mut buffer[..LONGEST - 2];
    fill(&mut r, src);
    let (mut a, mut b) = (f64::MAX, f64::MAX);
    for _ in 0..101 {
        a = a.min(turn(src, ours));
        b = b.min(turn(src, theirs));
    }
    println!("{} bytes: ours {a:.0} ns a call, Rust {b:.0}, ratio {:.2}", src.len(), a / b);
    std::process::exit(i32::from(differ != 0));
}
