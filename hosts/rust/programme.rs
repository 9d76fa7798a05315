//! Lists the frames of a programme on standard input, back to back, and tells of each where its records stand in the list and how many bits
//! they cover; then which bytes hold the first frame of each type and number.
#[allow(dead_code)]
mod eac3;
use std::io::Read;

fn main() {
    let mut data = Vec::new();
    std::io::stdin().read_to_end(&mut data).expect("standard input can be read");
    let mut room = Box::new(eac3::Room::<{ eac3::RECORDS }>::new());
    let answer = eac3::programme(&data, &mut room);
    let records = answer.map_or_else(|e| e.refusal.records, |p| p.records);
    for (ordinal, places) in room.by_ordinal(records) {
        let last = places.end - 1;
        let bits = u32::from(room.firsts[last]) + u32::from(room.widths[last]);
        println!("frame {ordinal}: records {} to {last}, {bits} bits", places.start);
    }
    match answer {
        Ok(p) => println!("{} frames, {} records", p.frames, p.records),
        Err(e) => println!("frame {} refused {} at bit {}, {records} records in all", e.ordinal, e.refusal.number, e.refusal.place),
    }
    for strmtyp in 0..=2 {
        for substreamid in 0..=7 {
            // all frames are in one buffer here
            if let Ok(part) = eac3::pick(&data, &data, &mut room, strmtyp, substreamid) {
                let from = part.as_ptr() as usize - data.as_ptr() as usize;
                println!("type {strmtyp}, number {substreamid}: {} bytes from byte {from} on", part.len());
            }
        }
    }
}
