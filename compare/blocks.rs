//! Compares the proved crates of a block with the reference's blocks.rs on generated inputs, damaged ones included.
//! usage: blocks [COUNT [SEED]]: COUNT inputs of each kind.
// The reference's files, as they are: the script puts them beside this one.
#![allow(dead_code)]
mod alloc;
mod bitalloc_tables;
mod bits;
mod blocks;
mod error;
mod random;
mod syntax;
mod tables;
use error::Error;
use random::Random;
use syntax::Cursor;

#[allow(improper_ctypes)]
extern "C" {
    fn blocks_groups(slot: u8, strategy: u8, start: u16, end: u16) -> u16;
    fn blocks_start(slot: u8, absexp: u8) -> u8;
    fn blocks_first(slot: u8, start: u16) -> u16;
    fn blocks_put(exps: &mut [u8; 1792], slot: u8, bin: u32, e: u8);
    fn blocks_lay(exps: &mut [u8; 1792], slot: u8, strategy: u8, bin: u16, a: u8, b: u8, c: u8);
    fn blocks_decode(prev: u8, group: u8) -> u32;
    fn blocks_conventional(baps: &[u8; 1792], slot: u8, start: u16, end: u16, g1: u8, g2: u8, g4: u8, at: u16, limit: u16) -> u64;
    fn blocks_aht(src: &[u8], baps: &[u8; 1792], slot: u8, start: u16, end: u16, at: u16, limit: u16) -> u64;
    fn blocks_allocate(
        sent: bool, codes: &[u8; 5], csnroffst: u8, fsnroffst: &[u8; 7], fgaincod: &[u8; 7], cplfleak: u8, cplsleak: u8,
        fscod: u8, nfchans: u8, lfeon: bool, cplinu: bool, ahtinu: &[bool; 7], ahtread: &[bool; 7], endmant: &[u16; 5],
        cplstrt: u16, cplend: u16, n: &[u8; 6], offset: &[u8; 48], len: &[u8; 48], ba: &[u8; 48],
        exps: *const [u8; 1792], baps: &mut [u8; 1792],                          // a plain pointer: rustc cannot assume that they stay
    ) -> u8;
}

impl Random {
    fn flag(&mut self) -> bool { self.below(2) == 0 }
    fn bytes(&mut self, n: usize) -> Vec<u8> {
        let sparse = self.below(3) == 0;                                         // few ones: more tags are met
        (0..n).map(|_| if sparse && self.below(4) != 0 { 0 } else { self.byte(256) }).collect()
    }
}

fn refusal(e: &Error) -> u8 {
    match e {
        Error::Truncated(_) => 8,
        Error::Invalid(s) if s.starts_with("grouped exponent") => 11,
        Error::Invalid(s) if s.starts_with("composite GAQ gain") => 13,
        Error::Invalid(s) if s.starts_with("exponent ") && s.contains("outside") => 27,
        Error::Invalid(s) if s.starts_with("bit allocation parameters") => 29,
        e => panic!("a test that no input meets: {e:?}"),
    }
}

fn end(r: &mut Random) -> usize {
    match r.below(3) {
        0 => 37 + 12 * r.below(16) as usize,
        1 => 25 + 12 * (2 + r.below(10)) as usize,
        _ => 37 + 3 * (r.below(61) as usize + 12),
    }
}

fn coupling(r: &mut Random) -> (usize, usize) {
    let a = r.below(18) as usize;
    (37 + 12 * a, 37 + 12 * (a + 1 + r.below(18 - a as u64) as usize))
}

// A set of exponents, group by group: number, place, and the exponents of the slot where none is refused.
fn exponents(r: &mut Random) -> Option<u8> {
    let slot = r.below(7) as usize;
    let strategy = if slot == 6 { 1 } else { 1 + r.byte(3) };
    let (start, end) = match slot { 5 => coupling(r), 6 => (0, 7), _ => (0, end(r)) };
    let mut data = r.bytes(600);
    if r.below(2) == 0 {                                                         // steps that stay in range for long
        for k in 0..86 { let g = 31 * r.below(5) as usize; for b in 0..7 { let i = 4 + 7 * k + b; data[i / 8] = data[i / 8] & !(128 >> (i % 8)) | if g >> (6 - b) & 1 == 1 { 128 >> (i % 8) } else { 0 } } }
    }
    let limit = if r.below(4) == 0 { r.below(4800) as usize } else { 4800 };
    let mut cur = Cursor::new(&data, limit);
    let theirs = blocks::read_exponents(&mut cur, slot, strategy, start, end);
    // ours, as the walk reads a set
    let mut exps = [0u8; 1792];
    let mut at = 0usize;
    let mut number = 0u8;
    let s = slot as u8;
    let take = |w: usize, at: &mut usize| if *at + w > limit { None } else { let v = bits::get(&data, *at, w); *at += w; Some(v as u8) };
    unsafe {
        'set: {
            let Some(abs) = take(4, &mut at) else { number = 8; break 'set };
            let mut prev = blocks_start(s, abs);
            if slot != 5 { blocks_put(&mut exps, s, 0, prev) }
            let mut bin = blocks_first(s, start as u16);
            for _ in 0..blocks_groups(s, strategy, start as u16, end as u16) {
                let Some(g) = take(7, &mut at) else { number = 8; break 'set };
                let d = blocks_decode(prev, g);
                if d >> 24 != 0 { number = (d >> 24) as u8; break 'set }
                let (a, b, c) = (d as u8, (d >> 8) as u8, (d >> 16) as u8);
                blocks_lay(&mut exps, s, strategy, bin, a, b, c);
                prev = c;
                bin += 3 << (strategy - 1);
            }
        }
    }
    match theirs {
        Err(e) => refusal(&e) == number && cur.pos == at,
        Ok(t) => number == 0 && cur.pos == at && (0..256).all(|k| t.exp[k] == i16::from(exps[256 * slot + k])),
    }
    .then_some(number)
}

// Conventional mantissas of one to four slots, one after the other.
fn conventional(r: &mut Random) -> Option<u8> {
    let mut baps = [0u8; 1792];
    let most = [16, 5, 3][r.below(3) as usize];
    for b in baps.iter_mut() { *b = r.byte(most) }
    let limit = if r.below(2) == 0 { r.below(6000) as usize } else { 32768 };
    let data = [0u8; 4096];
    let mut cur = Cursor::new(&data, limit);
    let mut g = blocks::Groups::default();
    let (mut g1, mut g2, mut g4, mut at) = (0u8, 0u8, 0u8, 0u16);
    for _ in 0..1 + r.below(4) {
        let slot = r.below(7) as usize;
        let (start, end) = if slot == 5 { coupling(r) } else { (0, end(r)) };
        let bap = &baps[256 * slot..256 * slot + 256];
        let theirs = blocks::conventional(&mut cur, bap, start, end, &mut g);
        let o = unsafe { blocks_conventional(&baps, slot as u8, start as u16, end as u16, g1, g2, g4, at, limit as u16) };
        let number = o as u8;
        at = (o >> 8) as u16;
        (g1, g2, g4) = ((o >> 24) as u8, (o >> 32) as u8, (o >> 40) as u8);
        if cur.pos != at as usize { return None }
        match theirs {
            Err(e) => return (refusal(&e) == number).then_some(number),
            Ok(()) => if number != 0 { return None },
        }
    }
    Some(0)
}

fn aht(r: &mut Random) -> Option<u8> {
    let mut baps = [0u8; 1792];
    let low = r.byte(9);
    let most = low as u64 + 1 + r.below(20 - low as u64);
    for b in baps.iter_mut() { *b = low + r.byte(most - low as u64) }
    let data = r.bytes(4096);
    let limit = if r.below(2) == 0 { r.below(9000) as usize } else { 32768 };
    let slot = r.below(7) as usize;
    let (start, end) = match slot { 5 => coupling(r), 6 => (0, 7), _ => (0, end(r)) };
    let hebap = &baps[256 * slot..256 * slot + 256];
    let mut cur = Cursor::new(&data, limit);
    let theirs = blocks::aht(&mut cur, hebap, start, end);
    let o = unsafe { blocks_aht(&data, &baps, slot as u8, start as u16, end as u16, 0, limit as u16) };
    let (number, at, tags) = (o as u8, (o >> 8) as u16, (o >> 24) as u16);
    let same = match theirs {
        Err(e) => refusal(&e) == number,
        Ok(t) => number == 0 && t == tags as usize,
    };
    (same && cur.pos == at as usize).then_some(number)
}

fn allocate(r: &mut Random) -> Option<u8> {
    let mut exps = [0u8; 1792];
    for slot in 0..7 {
        let mut e = r.below(25) as i32;
        for k in 0..256 { e = (e + r.below(5) as i32 - 2).clamp(0, 24); exps[256 * slot + k] = e as u8 }
    }
    let mut baps = [0xeeu8; 1792];
    let sent = r.below(20) != 0;
    let codes = [r.byte(4), r.byte(4), r.byte(4), r.byte(4), r.byte(8)];
    let csnr = if r.below(3) == 0 { 0 } else { r.byte(64) };
    let fine = if r.below(3) == 0 { 1 } else { 16 };
    let (mut fsnr, mut fgain) = ([0u8; 7], [0u8; 7]);
    let (mut ahtinu, mut ahtread) = ([false; 7], [false; 7]);
    for k in 0..7 {
        fsnr[k] = r.byte(fine);
        fgain[k] = r.byte(8);
        ahtinu[k] = r.below(3) == 0;
        ahtread[k] = r.flag();
    }
    if fine == 1 && r.flag() { fsnr[r.below(7) as usize] = 1 + r.byte(15) }      // one fine offset, of a slot in use or not
    let (leaks, fscod) = ((r.byte(8), r.byte(8)), r.byte(3));
    let (nfchans, lfeon, cplinu) = (1 + r.byte(5), r.flag(), r.flag());
    let mut endmant = [0u16; 5];
    for x in endmant.iter_mut() { *x = end(r) as u16 }
    let (cplstrt, cplend) = coupling(r);
    let (mut n, mut offset, mut len, mut ba) = ([0u8; 6], [0u8; 48], [0u8; 48], [0u8; 48]);
    for x in n.iter_mut() { *x = if r.flag() { 0 } else { r.byte(9) } }
    let spread = [1, 4, 32][r.below(3) as usize];
    for k in 0..48 { offset[k] = r.byte(spread); len[k] = r.byte(16); ba[k] = r.byte(8) }
    // theirs
    let mut st = blocks::AllocState::default();
    st.bai = sent.then_some(codes);
    st.csnroffst = Some(csnr);
    st.fsnroffst = fsnr;
    st.fgaincod = fgain;
    st.cplleak = Some(leaks);
    for s in 0..6 {
        st.delta[s] = (0..n[s] as usize).map(|i| alloc::DeltaSeg { offset: offset[8 * s + i], len: len[8 * s + i], ba: ba[8 * s + i] }).collect();
    }
    let sets: Vec<blocks::ExpSet> = (0..7)
        .map(|s| {
            let (start, end) = match s { 5 => (cplstrt, cplend), 6 => (0, 7), _ => (0, endmant[s] as usize) };
            blocks::ExpSet { exp: (0..256).map(|k| i16::from(exps[256 * s + k])).collect(), start, end }
        })
        .collect();
    // The Rust is asked for every slot in use, so that its silence rule looks at them all; the slots that were read before are
    // then left out.
    let used = (0..7).filter(|&s| match s { 5 => cplinu, 6 => lfeon, _ => s < nfchans as usize });
    let asked: Vec<usize> = used.clone().filter(|&s| !(ahtinu[s] && ahtread[s])).collect();
    let req: Vec<blocks::SlotAlloc> = used
        .map(|s| blocks::SlotAlloc { slot: s, exps: &sets[s], start: sets[s].start, end: sets[s].end, high_efficiency: ahtinu[s] })
        .collect();
    let theirs = blocks::allocate_block(&st, fscod as usize, &req);
    let (exps_before, baps_before) = (exps, baps);
    let number = unsafe {
        blocks_allocate(sent, &codes, csnr, &fsnr, &fgain, leaks.0, leaks.1, fscod, nfchans, lfeon, cplinu, &ahtinu, &ahtread,
            &endmant, cplstrt as u16, cplend as u16, &n, &offset, &len, &ba, &raw mut exps, &mut baps)
    };
    let same = match theirs {
        Err(e) => refusal(&e) == number && exps == exps_before && baps == baps_before,
        Ok(out) => {
            number == 0 && exps == exps_before
                && (0..7).all(|s| {
                    let p = &baps[256 * s..256 * s + 256];
                    if asked.contains(&s) {
                        (0..256).all(|k| p[k] == out[s].get(k).copied().unwrap_or(0))
                    } else {
                        p.iter().all(|&x| x == 0xee)
                    }
                })
        }
    };
    same.then_some(number)
}

fn main() {
    let mut args = std::env::args().skip(1).map(|a| a.parse::<u64>().expect("a number"));
    let count = args.next().unwrap_or(1_000_000);
    let seed = args.next().unwrap_or(1);
    let kinds: [(&str, fn(&mut Random) -> Option<u8>); 4] =
        [("exponents", exponents), ("conventional", conventional), ("aht", aht), ("allocate_block", allocate)];
    let mut all = true;
    for (name, f) in kinds {
        let mut r = Random(seed);
        let (mut differ, mut tally) = (0u64, [0u64; 256]);
        for n in 0..count {
            match f(&mut r) {
                Some(number) => tally[number as usize] += 1,
                None => {
                    if differ < 3 { println!("{name}: input {n} differs") }
                    differ += 1;
                }
            }
        }
        let refused: Vec<String> = (1..256).filter(|&k| tally[k] != 0).map(|k| format!("{} refused by {k}", tally[k])).collect();
        println!("{name}: {count} inputs, {differ} differ; {} accepted, {}", tally[0], refused.join(", "));
        all &= differ == 0;
    }
    if !all { std::process::exit(1) }
}
