//! Bit allocation (A/52 7.2.2) for the numbered reading: the pointers of one slot. Band by band, over the tables of crate `tables`.
use crate::standard::*;

#[derive(Clone, Copy, Default)]
pub struct Delta {
    pub offset: u8,
    pub len: u8,
    pub ba: u8,
}

/// What one slot asks for.
pub struct Request<'a> {
    pub exps: &'a [u8; 256],
    pub start: usize,
    pub end: usize,
    pub fscod: usize,
    /// sdcycod, fdcycod, sgaincod, dbpbcod, floorcod.
    pub codes: [u8; 5],
    pub fgaincod: u8,
    pub snroffset: i32,
    /// cplfleak and cplsleak, for the coupling channel.
    pub leak: Option<(u8, u8)>,
    pub deltas: &'a [Delta],
    /// High efficiency pointers, for the adaptive hybrid transform.
    pub hebap: bool,
}

/// The SNR offset of a coarse and a fine code.
pub fn snroffset(csnroffst: u8, fsnroffst: u8) -> i32 {
    4 * (16 * (i32::from(csnroffst) - 15) + i32::from(fsnroffst))
}

fn power(exponent: u8) -> i32 {
    3072 - 128 * i32::from(exponent)
}

fn sum(a: i32, b: i32) -> i32 {
    let apart = ((a - b).unsigned_abs() / 2).min(255);
    a.max(b) + i32::from(LOG_ADD[apart as usize])
}

/// The power of each band of the range; 0 outside it.
fn band_powers(q: &Request) -> [i32; 50] {
    let mut out = [0; 50];
    let mut bin = q.start;
    for band in MASKTAB[q.start] as usize..=MASKTAB[q.end - 1] as usize {
        let stop = (BAND_END[band] as usize).min(q.end);
        out[band] = q.exps[bin + 1..stop].iter().fold(power(q.exps[bin]), |s, &e| sum(s, power(e)));
        bin = stop;
    }
    out
}

/// Low-frequency compensation at a band, from that of the band before.
fn compensation(before: i32, here: i32, next: i32, band: usize) -> i32 {
    if band >= 20 {
        return (before - 128).max(0);
    }
    if next - here == 256 {
        if band < 7 { 384 } else { 320 }
    } else if here > next {
        (before - 64).max(0)
    } else {
        before
    }
}

fn excitation(q: &Request, p: &[i32; 50], first: usize, last: usize) -> [i32; 50] {
    let [sdcycod, fdcycod, sgaincod, ..] = q.codes.map(usize::from);
    let (sdecay, fdecay) = (i32::from(SLOW_DECAY[sdcycod]), i32::from(FAST_DECAY[fdcycod]));
    let (sgain, fgain) = (i32::from(SLOW_GAIN[sgaincod]), i32::from(FAST_GAIN[usize::from(q.fgaincod)]));
    let (cplfleak, cplsleak) = q.leak.unwrap_or((0, 0));
    let (mut fast, mut slow) = match q.leak {
        Some(_) => (768 + 256 * i32::from(cplfleak), 768 + 256 * i32::from(cplsleak)),
        None => (0, 0),
    };
    let low = first == 0;
    // The LFE channel has seven bands, and nothing after the last to look at.
    let ahead = |band: usize| !(last == 6 && band == 6);
    let mut out = [0; 50];
    let (mut lowcomp, mut leaking) = (0, !low);
    for band in first..=last {
        if low && band < 22 {
            if ahead(band) {
                lowcomp = compensation(lowcomp, p[band], p[band + 1], band)
            }
        } else {
            lowcomp = 0
        }
        if leaking {
            fast = (fast - fdecay).max(p[band] - fgain);
            slow = (slow - sdecay).max(p[band] - sgain);
            out[band] = (fast - lowcomp).max(slow);
        } else {
            (fast, slow) = (p[band] - fgain, p[band] - sgain);
            out[band] = fast - lowcomp;
            leaking = band == 6 || band >= 2 && p[band] <= p[band + 1];
        }
    }
    out
}

fn deltas(q: &Request, mask: &mut [i32; 50]) {
    let mut band = 0usize;
    for d in q.deltas {
        band += usize::from(d.offset);
        let ba = i32::from(d.ba);
        let by = 128 * if ba < 4 { ba - 4 } else { ba - 3 };
        let stop = band + usize::from(d.len);
        for m in mask.iter_mut().take(stop).skip(band) {
            *m += by
        }
        band = stop;
    }
}

/// The pointers of the bins from start to end; the others are left as they are.
pub fn pointers(q: &Request, out: &mut [u8; 256]) {
    let p = band_powers(q);
    let (first, last) = (MASKTAB[q.start] as usize, MASKTAB[q.end - 1] as usize);
    let knee = i32::from(DB_KNEE[usize::from(q.codes[3])]);
    let floor = FLOOR[usize::from(q.codes[4])];
    let mut mask = excitation(q, &p, first, last);
    for band in first..=last {
        mask[band] += (knee - p[band]).max(0) / 4;
        mask[band] = mask[band].max(i32::from(HEARING[50 * q.fscod + band]));
    }
    deltas(q, &mut mask);
    // Our table has the entry of the address a at 160 - a.
    let table = &POINTERS[if q.hebap { 512 } else { 0 }..][..512];
    let mut bin = q.start;
    for band in first..=last {
        let stop = (BAND_END[band] as usize).min(q.end);
        let level = (mask[band] - q.snroffset - floor).max(0) / 32 % 256 * 32 + floor;
        while bin < stop {
            out[bin] = table[160 - ((power(q.exps[bin]) - level).max(0) / 32).min(63) as usize];
            bin += 1;
        }
    }
}
