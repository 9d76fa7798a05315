//! Loudness words and crc2 changed at random in an accepted frame, and what its list then is, written from the text of the
//! request: nothing moves, and each changed record has its new value.
use crate::generate::Random;
use crate::mastering::write;
use crate::names::*;
use crate::numbered::Record;

/// The six words of request 3, and crc2.
pub const CHANGED: [u8; 7] = [DIALNORM, DIALNORM2, COMPR, COMPR2, DYNRNG, DYNRNG2, CRC2];

/// Changes such records of a frame, each by the odds of this time, and gives each its new value in the list. Counts those that
/// have another value now, by name.
pub fn change(r: &mut Random, frame: &mut [u8], records: &mut [Record], changed: &mut [u64; 7]) {
    let odds = r.pick(&[1, 1, 2, 6]);
    for record in records {
        let Some(k) = CHANGED.iter().position(|&n| n == record.name) else { continue };
        if r.chance(1, odds) {
            let width = usize::from(record.width);
            let any = r.next() as u32;
            let value = r.pick(&[0, u32::MAX, any, any]) & ((1 << width) - 1);
            write(frame, record.first.into(), width, value);
            changed[k] += u64::from(value != record.value);
            record.value = value;
        }
    }
}
