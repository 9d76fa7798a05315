//! Reads one frame from standard input and prints how many bits its records of each block take, and how many its mantissas, slot by slot; then how the settop entry
//! answers to it, and to the same frame where it announces two bytes more than that entry takes.
#[allow(dead_code)]
mod eac3;
use std::io::Read;

fn main() {
    let mut data = Vec::new();
    std::io::stdin().take(eac3::BYTES as u64).read_to_end(&mut data).expect("standard input can be read");
    let mut room = Box::new(eac3::Room::<{ eac3::RECORDS }>::new());
    match eac3::parse(&data, &mut room) {
        Ok(frame) => {
            println!("accepted: {} bytes, {} blocks, {} records", frame.bytes, frame.numblks, frame.records);
            for block in -1..frame.numblks as i8 {
                let bits: u32 = (0..frame.records).filter_map(|i| room.record(i)).filter(|r| r.block == block).map(|r| r.width as u32).sum();
                println!("block {block}: {bits} bits");
            }
            for (block, slots) in frame.slot_bits.iter().take(frame.numblks.into()).enumerate() {
                println!("mantissas of block {block} by slot: {slots:?} bits");
            }
            println!("settop, the frame: {:?}", eac3::parse_settop(&data, &mut room).map(|f| f.records));
            // frmsiz 768 announces 1,538 bytes
            data[2] = data[2] & 0xf8 | 3;
            data[3] = 0;
            println!("settop, two bytes more: {:?}", eac3::parse_settop(&data, &mut room).map(|f| f.records));
        }
        Err(refusal) => {
            println!("refused {} at bit {} after {} records", refusal.number, refusal.place, refusal.records);
            std::process::exit(1);
        }
    }
}
