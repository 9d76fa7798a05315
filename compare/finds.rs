//! Makes the cases of the program `replay_finds` and what it must print of them, the capture of the program `frames` and what it must
//! print, and what the hosts' examples count in it: by the reference of compare/searching.rs, which knows nothing of our code. Once
//! made, cases and capture are kept.
//! usage: finds CASES LINES CAPTURE TOLD COUNTED FOLDER        FOLDER has real frames
#![allow(dead_code)]
mod captures;
mod generate;
mod names;
mod numbered;
mod pointers;
mod real;
mod searching;
mod standard;
use captures::{some_capture, some_most, some_rooms, some_start, Pool};
use generate::{Drawer, Kind, Random};
use numbered::{bits, read, Seen, State};
use searching::find;
use std::collections::HashSet;

struct Case {
    listed: usize,
    rooms: [usize; 6],
    start: usize,
    most: usize,
    capture: Vec<u8>,
}

/// Stands for the greatest start or allowance.
const GREATEST: usize = 65_535;

fn whole(n: usize) -> usize {
    if n == GREATEST { usize::MAX } else { n }
}

/// What the program prints of a case, and what is met in it.
fn lines(c: &Case, s: &mut State) -> (String, Vec<String>) {
    let (start, most, n) = (whole(c.start), whole(c.most), c.capture.len());
    let room = *c.rooms.iter().min().unwrap();
    let mut left = Vec::new();
    let a = find(&c.capture, room, start, most, &mut left, s);
    let mut out = match a[0] {
        0 => format!("accepted {} {} {}\n", a[3], a[23], a[2]),
        number => format!("refused {number} {} {}\n", a[1], a[2]),
    };
    out += &format!("{} {}\n", a[76], a[77]);
    for k in 0..c.listed {
        let r = left.get(k).copied().unwrap_or_default();
        out += &format!("{} {} {} {} {} {}\n", r.first, r.width, r.name, r.block, r.index, r.value);
    }
    let mut behind = Vec::new();
    let open = find(&c.capture, usize::MAX, start, usize::MAX, &mut behind, s);
    let tried = match a[77] {
        0 => "none",
        1 => "one",
        2..=99 => "some",
        _ => "many",
    };
    let mut met = vec![format!("{} after {tried}", a[0])];
    let cases = [
        (n == 0, "empty capture"), (n > 0 && n < 6, "capture below 6 bytes"), (start == n, "start at the end"), (start > n, "start past the end"), (start == usize::MAX, "greatest start"),
        (start >= n && most == 0, "44 with allowance 0"), (start < n && most == 0, "allowance 0"), (a[0] == 0 && a[77] == most as u64, "exact allowance"), (a[0] == 45 && open[0] == 0 && open[77] == a[77] + 1, "one less"),
        (a[0] == 44 && start < n && n - start == most, "allowance of the positions left"), (most == usize::MAX, "greatest allowance"), (room == 0, "no room"), ((1..=8).contains(&room), "little room"),
        (c.rooms.iter().any(|&l| l != room), "unequal rooms"), (a[0] == 33 && a[77] > 1, "33 later"), (a[0] == 33 && room > 0 && a[77] < open[77], "33 at a false sync word"),
        (left.len() as u64 > a[2] && c.listed > left.len(), "entries of earlier readings"), (a[0] == 45 && a[2] > 0, "45 with records"), (a[0] == 0 && a[76] + a[3] == n as u64, "frame at the end"),
    ];
    met.extend(cases.iter().filter(|x| x.0).map(|x| x.1.to_string()));
    // each kind of entry is listed once
    met.push(format!("{} listed {}", a[0], c.listed > 0));
    (out, met)
}

fn make(s: &mut State, real: &[Vec<u8>]) -> Vec<u8> {
    let mut r = Random(5);
    let mut pool = Pool::new(5, real.to_vec());
    let (mut have, mut cases) = (HashSet::new(), Vec::new());
    for _ in 0..40_000 {
        let capture = some_capture(&mut r, &mut pool);
        if capture.bytes.len() > 500 {
            continue;
        }
        let start = some_start(&mut r, &capture);
        let mut left = Vec::new();
        let open = find(&capture.bytes, usize::MAX, start, usize::MAX, &mut left, s);
        let most = some_most(&mut r, &capture, start, &open);
        let rooms = some_rooms(&mut r, open[2] as usize).map(|l| l.min(2048));
        find(&capture.bytes, *rooms.iter().min().unwrap(), start, most, &mut left, s);
        let listed = if left.len() <= 70 { left.len() + 2 } else { 0 };
        let c = Case { listed, rooms, start: start.min(GREATEST), most: most.min(GREATEST), capture: capture.bytes };
        let (_, met) = lines(&c, s);
        // three of each
        let new = (0..3).find_map(|turn| met.iter().map(|m| format!("{m} {turn}")).find(|m| !have.contains(m)));
        if new.is_some() {
            for m in met {
                let turn = (0..3).find(|turn| !have.contains(&format!("{m} {turn}")));
                have.extend(turn.map(|turn| format!("{m} {turn}")));
            }
            cases.push(c);
        }
    }
    let pair = |n: usize| (n as u16).to_be_bytes();
    let mut file = pair(cases.len()).to_vec();
    for c in &cases {
        file.extend(pair(c.listed));
        c.rooms.iter().for_each(|&n| file.extend(pair(n)));
        [c.start, c.most, c.capture.len()].iter().for_each(|&n| file.extend(pair(n)));
        file.extend(&c.capture);
    }
    file
}

/// The piece that the program holds, and the longest frame.
const PIECE: usize = 16_384;
const LONGEST: usize = 4_096;

/// A capture of real and drawn frames with junk between. Frames of 4,096 bytes begin at the last position of the first piece that can be
/// decided, and at the first of the second that cannot.
fn capture(real: &[Vec<u8>]) -> Vec<u8> {
    let (mut r, mut d, mut out) = (Random(7), Drawer::new(7), Vec::new());
    let mut s = State::new();
    let mut accepted = |f: &[u8]| read(f, usize::MAX, &mut Vec::new(), &mut s, &mut Seen::default())[0] == 0;
    let mut longest = Vec::new();
    while longest.len() < 2 {
        let f = d.frame(Kind::Any);
        if f.len() == LONGEST && accepted(&f) {
            longest.push(f)
        }
    }
    let mut stretch = |out: &mut Vec<u8>, n: usize| out.extend((0..n).map(|_| r.next() as u8));
    let mut taken = 0;
    for at in [PIECE - LONGEST, 2 * PIECE - LONGEST + 1] {
        let mut turn = 0;
        loop {
            // real frames by turns, one drawn one after five
            let f = if turn % 6 == 5 { d.frame(Kind::Any) } else { real[taken * 37 % real.len()].clone() };
            taken += 1;
            if f.len() > 2000 || !accepted(&f) {
                continue;
            }
            if out.len() + f.len() + 2000 > at {
                break;
            }
            match turn % 8 {
                1 => stretch(&mut out, 41),
                3 => out.extend(&f[..f.len() / 2]),
                4 => out.extend([0x0b, 0x0b, 0x77, 0x0b]),
                6 => {
                    // another bsid, as AC-3 has
                    out.extend(&f);
                    let n = out.len();
                    out[n - f.len() + 5] = 0x40 | f[5] & 7;
                }
                _ => (),
            }
            out.extend(f);
            turn += 1;
        }
        let n = at - out.len();
        stretch(&mut out, n);
        out.extend(longest.pop().unwrap());
    }
    // the end: some frames, and one that is cut
    out.extend(&real[1]);
    out.extend(&real[200][..real[200].len() - 1]);
    out
}

/// What the program `frames` prints of a capture, and what the examples count.
fn told(capture: &[u8], s: &mut State) -> (String, String) {
    const MODES: [&str; 8] = ["1+1", "1/0", "2/0", "3/0", "2/1", "3/1", "2/2", "3/2"];
    let mut out = format!("{:>12}{:>7}{:>6}{:>8}{:>10}{:>7}{:>8}{:>9}\n", "position", "bytes", "type", "number", "channels", "rate", "blocks", "records");
    let (mut at, mut frames, mut passed) = (0, 0, 0);
    let stretch = |out: &mut String, at: usize, n: usize| if n > 0 {
        *out += &format!("{at:>12}{n:>7} passed over\n")
    };
    loop {
        let a = find(capture, usize::MAX, at, usize::MAX, &mut Vec::new(), s);
        let next = if a[0] == 0 { a[76] as usize } else { capture.len() };
        stretch(&mut out, at, next - at);
        passed += next - at;
        if a[0] != 0 {
            break;
        }
        let (mode, lfe, rate) = (MODES[a[5] as usize], if a[6] == 1 { "+LFE" } else { "    " }, [48000, 44100, 32000][a[7] as usize]);
        out += &format!("{next:>12}{:>7}{:>6}{:>8}{mode:>6}{lfe}{rate:>7}{:>8}{:>9}\n", a[3], a[8], a[9], a[10], a[2]);
        assert_eq!(a[3] as u32, 2 * (bits(&capture[next..], 21, 11) + 1));
        frames += 1;
        at = next + a[3] as usize;
    }
    out += &format!("{frames} frames, {} bytes, {passed} passed over\n", capture.len());
    (out, format!("{frames} frames, {passed} bytes passed over\n"))
}

fn main() {
    let args: Vec<String> = std::env::args().collect();
    let mut s = State::new();
    let frames = || -> Vec<Vec<u8>> { real::frames(&args[6]).into_iter().map(|f| f.1).collect() };
    let file = std::fs::read(&args[1]).unwrap_or_else(|_| make(&mut s, &frames()));
    let number = |at: usize| usize::from(u16::from_be_bytes([file[at], file[at + 1]]));
    let (mut at, mut out, mut have) = (2, String::new(), HashSet::new());
    for _ in 0..number(0) {
        let n = number(at + 18);
        let c = Case { listed: number(at), rooms: std::array::from_fn(|k| number(at + 2 + 2 * k)), start: number(at + 14), most: number(at + 16), capture: file[at + 20..at + 20 + n].to_vec() };
        at += 20 + n;
        let (text, met) = lines(&c, &mut s);
        out += &text;
        have.extend(met);
    }
    assert_eq!(at, file.len(), "bytes are left");
    let wanted = [
        "0 after one", "0 after some", "0 after many", "33 after one", "33 after some", "44 after none", "44 after one", "44 after some", "44 after many", "45 after none", "45 after one", "45 after some",
        "empty capture", "capture below 6 bytes", "start at the end", "start past the end", "greatest start", "44 with allowance 0", "allowance 0", "exact allowance", "one less",
        "allowance of the positions left", "greatest allowance", "no room", "little room", "unequal rooms", "33 later", "33 at a false sync word", "entries of earlier readings", "45 with records", "frame at the end",
    ];
    let missing: Vec<&str> = wanted.into_iter().filter(|&m| !have.contains(m)).collect();
    assert!(missing.is_empty(), "not in the list: {missing:?}");
    let capture = std::fs::read(&args[3]).unwrap_or_else(|_| capture(&frames()));
    let (text, counted) = told(&capture, &mut s);
    std::fs::write(&args[1], &file).expect("the cases can be written");
    std::fs::write(&args[2], &out).expect("the lines can be written");
    std::fs::write(&args[3], &capture).expect("the capture can be written");
    std::fs::write(&args[4], &text).expect("its lines can be written");
    std::fs::write(&args[5], &counted).expect("its sums can be written");
    println!("{} cases, {} bytes in, {} bytes out; a capture of {} bytes: {}", number(0), file.len(), out.len(), capture.len(), counted.trim());
}
