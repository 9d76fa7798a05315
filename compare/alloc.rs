//! Compares `alloc_by_codes` (the proved allocation) with the Rust's `allocate` on random inputs, bin by bin, and times both.
//! usage: alloc [COUNT [SEED]]
// The reference's files, as they are: the script puts them beside this one.
#[allow(dead_code)]
mod alloc;
mod bitalloc_tables;
mod random;
#[allow(dead_code)]
mod tables;
use alloc as rust;
use random::Random;
use std::time::Instant;

#[allow(improper_ctypes)]
extern "C" {
    fn alloc_by_codes(exps: &[u8], out: &mut [u8], segments: &[[u8; 8]; 3], codes: &[u8; 14], start: usize, end: usize);
}

#[derive(Clone)]
struct Input {
    exps: [u8; 256], start: usize, end: usize, n: usize, segments: [[u8; 8]; 3], fscod: usize, bai: [u8; 5], fgaincod: u8,
    csnr: u8, fsnr: u8, coupling: bool, leaks: (u8, u8), hebap: bool, codes: [u8; 14],
}

// The codes in the order of crates/alloc_host/specs/Host.antt.
fn codes(i: &Input) -> [u8; 14] {
    let b = &i.bai;
    [i.fscod as u8, b[0], b[1], b[2], b[3], b[4], i.fgaincod, i.csnr, i.fsnr, i.leaks.0, i.leaks.1, i.coupling as u8,
        i.hebap as u8, i.n as u8]
}

fn input(r: &mut Random) -> Input {
    let (start, end, coupling) = match r.below(8) {
        0 => (0, 7, false),                                                      // LFE
        1 | 2 => (0, 37 + 3 * r.below(73) as usize, false),                      // full bandwidth, or up to coupling
        3 | 4 => {                                                               // coupling
            let a = r.below(18) as usize;
            (37 + 12 * a, 37 + 12 * (a + 1 + r.below(18 - a as u64) as usize), true)
        }
        5 => (0, r.below(254) as usize, r.below(2) == 0),                        // odd ends, 0 among them
        6 => (r.below(254) as usize, r.below(254) as usize, r.below(2) == 0),    // odd ranges, empty ones among them
        _ => { let a = r.below(253) as usize; (a, a + 1, r.below(2) == 0) }      // one bin
    };
    let mut exps = [0u8; 256];
    match r.below(3) {
        0 => for e in exps.iter_mut() { *e = r.byte(25) },
        1 => { let e = r.byte(25); exps = [e; 256] }
        _ => {                                                                   // steps of -2 .. 2, as exponents are sent
            let mut e = r.below(25) as i32;
            for x in exps.iter_mut() { e = (e + r.below(5) as i32 - 2).clamp(0, 24); *x = e as u8 }
        }
    }
    let mut segments = [[0u8; 8]; 3];                                            // offsets, lengths, values
    let spread = [1, 4, 32][r.below(3) as usize];                                // small offsets keep segments close
    for i in 0..8 { segments[0][i] = r.byte(spread); segments[1][i] = r.byte(16); segments[2][i] = r.byte(8) }
    let mut i = Input {
        exps, start, end, n: if r.below(2) == 0 { 0 } else { r.below(9) as usize }, segments, fscod: r.below(3) as usize,
        bai: [r.byte(4), r.byte(4), r.byte(4), r.byte(4), r.byte(8)], fgaincod: r.byte(8), csnr: r.byte(64), fsnr: r.byte(16),
        coupling, leaks: (r.byte(8), r.byte(8)), hebap: r.below(2) == 0, codes: [0; 14],
    };
    i.codes = codes(&i);
    i
}

fn ours(i: &Input, out: &mut [u8; 256]) {
    // The inputs meet the function's premises: 256 exponents of at most 24, end at most 253, at most 8 segments, codes in range.
    unsafe { alloc_by_codes(&i.exps, out, &i.segments, &i.codes, i.start, i.end) }
}

fn theirs(i: &Input, exp: &[i16; 256], delta: &[rust::DeltaSeg]) -> Vec<u8> {
    let p = rust::Params {
        sdecay: i32::from(tables::SLOW_DECAY[i.bai[0] as usize]), fdecay: i32::from(tables::FAST_DECAY[i.bai[1] as usize]),
        sgain: i32::from(tables::SLOW_GAIN[i.bai[2] as usize]), dbknee: i32::from(tables::DB_KNEE[i.bai[3] as usize]),
        floor: i32::from(tables::FLOOR[i.bai[4] as usize]), fscod: i.fscod,
    };
    let leak = i.coupling.then(|| ((i32::from(i.leaks.0) << 8) + 768, (i32::from(i.leaks.1) << 8) + 768));
    let snroffset = (((i32::from(i.csnr) - 15) << 4) + i32::from(i.fsnr)) << 2;
    let fgain = i32::from(tables::FAST_GAIN[i.fgaincod as usize]);
    let c = rust::Channel { exp, start: i.start, end: i.end, fgain, snroffset, leak, delta };
    rust::allocate(&c, &p, if i.hebap { &tables::HEBAP } else { &tables::BAP })
}

fn rust_parts(i: &Input) -> ([i16; 256], Vec<rust::DeltaSeg>) {
    let mut exp = [0i16; 256];
    for k in 0..256 { exp[k] = i16::from(i.exps[k]) }
    (exp, (0..i.n).map(|k| rust::DeltaSeg { offset: i.segments[0][k], len: i.segments[1][k], ba: i.segments[2][k] }).collect())
}

// The time of one call in ns, over `runs` calls.
fn once(runs: u32, f: &mut impl FnMut() -> u64) -> f64 {
    let t = Instant::now();
    for _ in 0..runs { std::hint::black_box(f()); }
    t.elapsed().as_nanos() as f64 / f64::from(runs)
}

// Both in turn, 11 times: the least and the median of each, and how the medians compare.
fn time(name: &str, runs: u32, mut ours: impl FnMut() -> u64, mut theirs: impl FnMut() -> u64) {
    let (mut a, mut b) = (Vec::new(), Vec::new());
    for _ in 0..11 { a.push(once(runs, &mut ours)); b.push(once(runs, &mut theirs)) }
    a.sort_by(f64::total_cmp);
    b.sort_by(f64::total_cmp);
    println!("{name}: ours {:.0} ns a call, Rust {:.0}, ratio {:.2} (medians; least {:.0} and {:.0})", a[5], b[5], a[5] / b[5], a[0], b[0]);
}

fn main() {
    let mut args = std::env::args().skip(1).map(|a| a.parse::<u64>().expect("a number"));
    let count = args.next().unwrap_or(1_000_000);
    let mut r = Random(args.next().unwrap_or(1));
    let (mut differ, mut empty, mut nonzero) = (0u64, 0u64, 0u64);
    for n in 0..count {
        let i = input(&mut r);
        let (exp, delta) = rust_parts(&i);
        let mut a = [0xeeu8; 256];
        ours(&i, &mut a);
        let mut b = theirs(&i, &exp, &delta);
        b.resize(256, 0);
        empty += u64::from(i.end <= i.start);
        nonzero += u64::from(b.iter().any(|&x| x != 0));
        if a[..] != b[..] {
            differ += 1;
            if differ == 1 { println!("input {n} differs: start {} end {} hebap {} n {}", i.start, i.end, i.hebap, i.n) }
        }
    }
    println!("{count} inputs, {empty} with an empty range, {nonzero} with a pointer above 0: {differ} differ");
    for (name, start, end, n) in [("empty range", 0, 0, 0), ("LFE, 7 bins", 0, 7, 0), ("coupling, 120 bins", 37, 157, 0), ("253 bins", 0, 253, 0), ("253 bins, 8 segments", 0, 253, 8)] {
        let mut i = input(&mut Random(7));
        i.start = start; i.end = end; i.n = n; i.csnr = 30; i.bai = [2, 1, 1, 2, 7]; i.coupling = start > 0;
        i.codes = codes(&i);
        for k in 0..256 { i.exps[k] = (3 + k / 20 + k % 3) as u8 }
        let (exp, delta) = rust_parts(&i);
        let mut out = [0u8; 256];
        time(name, 100_000, || { ours(std::hint::black_box(&i), &mut out); u64::from(out[100]) },
            || u64::from(theirs(std::hint::black_box(&i), &exp, &delta).get(100).copied().unwrap_or(0)));
    }
    std::process::exit(i32::from(differ != 0));
}
