//! Counts the frames of a capture on standard input, and the bytes that hold none.
#[allow(dead_code)]
mod eac3;
use std::io::Read;

fn main() {
    let mut capture = Vec::new();
    std::io::stdin().read_to_end(&mut capture).expect("standard input can be read");
    let mut room = Box::new(eac3::Room::<{ eac3::RECORDS }>::new());
    let (mut frames, mut passed) = (0, capture.len());
    for (_, answer) in eac3::frames(&capture, &mut room) {
        let frame = answer.expect("there is room for every frame's records");
        frames += 1;
        passed -= usize::from(frame.bytes);
    }
    println!("{frames} frames, {passed} bytes passed over");
}
