//! Reads one frame from standard input and tells the lowest and the highest factor of its gain words.
#[allow(dead_code)]
mod eac3;
use std::io::Read;

fn main() {
    let mut data = Vec::new();
    std::io::stdin().take(eac3::BYTES as u64).read_to_end(&mut data).expect("standard input can be read");
    let mut room = Box::new(eac3::Room::<{ eac3::RECORDS }>::new());
    let gains = eac3::gain_range(&data, &mut room);
    if let Err(refusal) = gains.answer {
        println!("refused {} at bit {} after {} records", refusal.number, refusal.place, refusal.records);
        std::process::exit(1);
    }
    for (word, gain) in [("dynrng", gains.dynrng), ("compr", gains.compr), ("dynrng2", gains.dynrng2), ("compr2", gains.compr2)] {
        match gain.factors {
            Some((low, high)) => println!("{word}: {} words, {low:.12} to {high:.12}", gain.words),
            None => println!("{word}: no word sent"),
        }
    }
}
