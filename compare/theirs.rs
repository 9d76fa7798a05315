//! What the Rust's answer says, in the numbers of ours.
use reference::error::{Error, Result};
use reference::frame::Frame;

#[derive(PartialEq, Eq, Clone, Copy, Debug)]
pub enum Verdict {
    Accepted,
    Invalid,
    Unsupported,
    Truncated,
}

pub fn verdict(r: &Result<Frame>) -> Verdict {
    match r {
        Ok(_) => Verdict::Accepted,
        Err(Error::Invalid(_)) => Verdict::Invalid,
        Err(Error::Unsupported(_)) => Verdict::Unsupported,
        Err(Error::Truncated(_)) => Verdict::Truncated,
        Err(e) => panic!("an error that reading does not give: {e:?}"),
    }
}

/// The Rust's error of a number, as the scope's table has it.
pub fn kind(number: u64) -> Verdict {
    match number {
        0 => Verdict::Accepted,
        5 | 9 => Verdict::Unsupported,
        8 => Verdict::Truncated,
        _ => Verdict::Invalid,
    }
}

/// How each refusal's message of the Rust begins. Any other is of a test that no input should meet.
const MESSAGES: [(u64, &str); 25] = [
    (27, "exponent "), (11, "grouped exponent "), (30, "audio data ends at bit "), (1, "short E-AC-3 frame"), (2, "no sync word"),
    (3, "reserved strmtyp 3"), (4, "truncated E-AC-3 frame"), (5, "reduced sample rate (fscod 3)"), (6, "E-AC-3 parser given bsid "),
    (7, "reserved snroffststr"), (9, "enhanced coupling"), (10, "chbwcod "), (12, "reserved deltbae"), (13, "composite GAQ gain above 26"),
    (20, "mixdata fields exceed mixdeflen"), (21, "spectral extension begins at or after its end"), (22, "coupling sub-band range"),
    (23, "channel bandwidth unknown"), (24, "coupling exponent reuse across a changed range"),
    (25, "channel exponent reuse across a changed range"), (26, "LFE exponent reuse without exponents"), (28, "deltbae reuse in block 0"),
    (29, "bit allocation parameters used before transmission"), (31, "auxdatal overlaps audio data"), (32, "auxdatal "),
];

/// The number that the Rust's message stands for, and the place where it tells one.
pub fn told(e: &Error) -> (u64, Option<u64>) {
    match e {
        Error::Truncated(s) => (8, s.split(" at bit ").nth(1).and_then(|s| s.split(' ').next()).and_then(|s| s.parse().ok())),
        Error::Invalid(s) | Error::Unsupported(s) => (MESSAGES.iter().find(|m| s.starts_with(m.1)).map_or(0, |m| m.0), None),
        e => panic!("an error that reading does not give: {e:?}"),
    }
}

/// The Rust's frame as the first numbers of an answer; it does not tell the bits of the slots.
pub fn answer_of(f: &Frame) -> [u64; 34] {
    let mut a = [0; 34];
    a[1] = 8 * f.bytes as u64;
    a[2] = f.fields.len() as u64;
    for (k, v) in [f.bytes, f.bsid.into(), f.acmod.into(), f.lfeon.into(), f.fscod.into(), f.strmtyp.into(), f.substreamid.into(), f.numblks].into_iter().enumerate() {
        a[3 + k] = v as u64
    }
    for (k, &v) in f.block_starts.iter().enumerate() {
        a[11 + k] = v as u64
    }
    for (k, &v) in f.mantissa_starts.iter().enumerate() {
        a[17 + k] = v as u64
    }
    (a[23], a[24]) = (f.audio_end as u64, f.aht_tags as u64);
    for &slot in &f.aht_slots {
        a[25 + slot] = 1
    }
    (a[32], a[33]) = (f.spx_blocks as u64, f.cpl_blocks as u64);
    a
}
