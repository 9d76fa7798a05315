//! Puts the text of its argument into auxbits of the frame on standard input, reads it back, and writes the new frame to standard output.
#[allow(dead_code)]
mod eac3;
use std::io::{Read, Write};

fn main() {
    let text = std::env::args().nth(1).expect("a text");
    let mut data = Vec::new();
    std::io::stdin().read_to_end(&mut data).expect("standard input can be read");
    let mut room = Box::new(eac3::Room::<{ eac3::RECORDS }>::new());
    let mut back = [0u8; 2048];
    let bits = eac3::set_payload(&mut data, &mut room, text.as_bytes(), 8 * text.len() as u32).and_then(|_| eac3::payload(&data, &mut room, &mut back));
    match bits {
        Ok(bits) => eprintln!("{}", String::from_utf8_lossy(&back[..usize::from(bits) / 8])),
        Err(refusal) => {
            eprintln!("refused {} at bit {}", refusal.number, refusal.place);
            std::process::exit(1)
        }
    }
    std::io::stdout().write_all(&data).expect("standard output can be written");
}
