//! What an accepted frame may have.
use crate::numbered::{Answer, Record, State};

pub const FEATURES: [&str; 48] = [
    "strmtyp 0", "strmtyp 1", "strmtyp 2", "fscod 0", "fscod 1", "fscod 2", "1 block", "2 blocks", "3 blocks", "6 blocks",
    "acmod 0", "acmod 1", "acmod 2", "acmod 3", "acmod 4", "acmod 5", "acmod 6", "acmod 7", "LFE",
    "AHT channel 0", "AHT channel 1", "AHT channel 2", "AHT channel 3", "AHT channel 4", "AHT coupling", "AHT LFE",
    "snroffststr 0", "snroffststr 1", "snroffststr 2", "expstre 0", "expstre 1", "bamode 0", "bamode 1", "spectral extension", "coupling",
    "both in a frame", "coupling in use without a coupled channel", "deltas", "auxdatae 0", "auxdatae 1", "auxbits of width 0",
    "span of width 0", "frame below 32 bytes", "frame above 2048 bytes", "frame of 4096 bytes", "tags", "coupling ends and begins again",
    "silent frame",
];

/// Which of them a frame has; `silent` is how many of its blocks are.
pub fn features(s: &State, a: &Answer, records: &[Record], silent: u64) -> [bool; FEATURES.len()] {
    let mut out = [false; FEATURES.len()];
    let mut k = 0;
    let mut next = |yes: bool| {
        out[k] = yes;
        k += 1;
    };
    (0..3).for_each(|v| next(s.strmtyp == v));
    (0..3).for_each(|v| next(s.fscod == v));
    (0..4).for_each(|v| next(s.numblkscod == v));
    (0..8).for_each(|v| next(s.acmod == v));
    next(s.lfeon);
    (0..7).for_each(|slot| next(s.ahtinu[slot]));
    (0..3).for_each(|v| next(s.snroffststr == v));
    next(!s.expstre);
    next(s.expstre);
    next(!s.bamode);
    next(s.bamode);
    next(s.spx_blocks > 0);
    next(s.cpl_blocks > 0);
    next(s.spx_blocks > 0 && s.cpl_blocks > 0);
    next(s.cplinu[s.numblks - 1] && s.chincpl == [false; 5]);
    next(s.ndeltas != [0; 7]);
    let tail = &records[records.len() - 4];
    next(records[records.len() - 3].value == 0);
    next(records[records.len() - 3].value == 1);
    next(tail.width == 0 || tail.width == 14 && records[records.len() - 5].width == 0);
    next(records.iter().any(|r| r.width == 0));
    next(a[3] < 32);
    next(a[3] > 2048);
    next(a[3] == 4096);
    next(s.aht_tags > 0);
    next((1..s.numblks).any(|b| s.cplinu[b] && !s.cplinu[b - 1] && s.cplinu[..b].contains(&true)));
    next(silent == s.numblks as u64);
    out
}
