//! Makes the cases of the program `replay_settop` and what it must print of them, by the numbered walk: the answer of the full
//! entry, and that of the settop entry with its records.
//! usage: settops FRAME LIST LINES          FRAME has a frame of 1,536 bytes
#![allow(dead_code)]
mod generate;
mod names;
mod numbered;
mod pointers;
mod standard;
use generate::put;
use names::NAMES;
use numbered::{read, read_up_to, Answer, Seen, State, SETTOP};

/// The room of `listing`.
const ROOM: usize = 2048;

fn pair(n: usize) -> [u8; 2] {
    (n as u16).to_be_bytes()
}

/// The frame with another size, zeros behind its bytes, and auxdatae 0.
fn sized(frame: &[u8], bytes: usize) -> Vec<u8> {
    let mut f = frame.to_vec();
    f.resize(bytes, 0);
    put(&mut f, 21, 11, bytes as u32 / 2 - 1);
    put(&mut f, 8 * bytes - 18, 1, 0);
    f
}

/// The frame with so many bits at a place.
fn with(frame: &[u8], first: usize, width: usize, value: u32) -> Vec<u8> {
    let mut f = frame.to_vec();
    put(&mut f, first, width, value);
    f
}

fn line(a: &Answer) -> String {
    match a[0] {
        0 => format!("accepted {} {} {}\n", a[3], a[23], a[2]),
        number => format!("refused {number} {} {}\n", a[1], a[2]),
    }
}

fn main() {
    let args: Vec<String> = std::env::args().collect();
    let frame = std::fs::read(&args[1]).expect("the frame can be read");
    assert_eq!(frame.len(), SETTOP);
    let (longer, longest) = (sized(&frame, SETTOP + 2), sized(&frame, 4096));
    let mut behind = frame.clone();
    behind.push(0xff);
    // the room, the slice, and the numbers of both entries
    let mut cases: Vec<(usize, Vec<u8>, u64, u64)> = vec![
        (ROOM, frame.clone(), 0, 0),
        (ROOM, behind, 0, 0),
        (ROOM, frame[..SETTOP - 1].to_vec(), 4, 4),
        (ROOM, longer.clone(), 0, 46),
        (ROOM, longer[..SETTOP + 1].to_vec(), 4, 46),
        (ROOM, longer[..6].to_vec(), 4, 46),
        (ROOM, longest.clone(), 0, 46),
        (ROOM, with(&longer, 16, 2, 3), 3, 3),
        (ROOM, with(&longer[..6], 16, 2, 3), 3, 3),
        (ROOM, with(&longer, 40, 5, 10), 6, 6),
        (ROOM, with(&longer, 0, 16, 0x0b78), 2, 2),
        (ROOM, longer[..5].to_vec(), 1, 1),
        (ROOM, with(&longer, 32, 2, 3), 5, 46),
        (ROOM, with(&frame, 32, 2, 3), 5, 5),
    ];
    cases.extend((0..4).map(|room| (room, longer.clone(), 33, 33)));
    cases.extend([(4, longer.clone(), 33, 46), (5, longer.clone(), 33, 46), (4, longer[..6].to_vec(), 4, 46), (4, frame.clone(), 33, 33)]);
    let (mut s, mut file, mut out) = (State::new(), pair(cases.len()).to_vec(), String::new());
    for (room, src, full, settop) in &cases {
        file.extend(pair(*room));
        file.extend(pair(src.len()));
        file.extend(src);
        let mut records = Vec::new();
        let a = read(src, *room, &mut records, &mut s, &mut Seen::default());
        let b = read_up_to(src, SETTOP, *room, &mut records, &mut s, &mut Seen::default());
        assert_eq!((a[0], b[0]), (*full, *settop));
        out += &line(&a);
        out += &line(&b);
        for r in &records {
            out += &format!("{} {} {} {} {} {}\n", r.first, r.width, NAMES[usize::from(r.name)], r.block, r.index, r.value);
        }
    }
    std::fs::write(&args[2], &file).expect("the list can be written");
    std::fs::write(&args[3], &out).expect("the lines can be written");
    println!("{} cases, {} bytes in, {} bytes out", cases.len(), file.len(), out.len());
}
