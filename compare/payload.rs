//! Compares `eac3_payload`, `eac3_set_payload` and `eac3_remove_payload` with the reference of compare/payloads.rs: every byte of
//! the frame and of the output and behind them, the answer, and every entry of the rooms and beyond, over drawn frames, damaged
//! ones, real ones, longer slices, every kind of room, outputs and payloads of every size, and bit counts at and past the limits.
//! Each length from 0 to 16,383 bits is written and read back.
//! usage: payload COUNT SEED [FOLDER]: COUNT calls besides the edges and the lengths; FOLDER has real frames.
#![allow(dead_code)]
mod both;
mod features;
mod generate;
mod mastering;
mod names;
mod numbered;
mod payloads;
mod pointers;
mod real;
mod standard;
mod theirs;
use both::{Rooms, PATTERNS};
use generate::{damage, edges, put, unequal, Drawer, Kind, Random};
use mastering::crc2;
use names::ENCINFO;
use numbered::{bits, read, Answer, Record, Seen, State};
use payloads::{payload, remove_payload, set_payload, tail, Payload, MOST_BITS};

#[allow(improper_ctypes)]
extern "C" {
    fn eac3_payload(
        frame: &[u8], names: &mut [u8], blocks: &mut [i8], indexes: &mut [i16], firsts: &mut [u16], widths: &mut [u16],
        values: &mut [u32], ordinals: &mut [u32], output: &mut [u8], answer: &mut Payload,
    ) -> u8;
    fn eac3_set_payload(
        frame: &mut [u8], names: &mut [u8], blocks: &mut [i8], indexes: &mut [i16], firsts: &mut [u16], widths: &mut [u16],
        values: &mut [u32], ordinals: &mut [u32], payload: &[u8], bits: u32, answer: &mut Answer,
    ) -> u8;
    fn eac3_remove_payload(
        frame: &mut [u8], names: &mut [u8], blocks: &mut [i8], indexes: &mut [i16], firsts: &mut [u16], widths: &mut [u16],
        values: &mut [u32], ordinals: &mut [u32], answer: &mut Answer,
    ) -> u8;
}

/// Calls from which on everything must have been met.
const ENOUGH: u64 = 100_000;

/// Bytes behind the lent slice and the lent output that are watched.
const BEHIND: usize = 8;

const ENTRIES: [&str; 3] = ["read", "written", "removed"];

const CASES: [&str; 36] = [
    "read: auxdatae 0", "read: no bits under auxdatae 1", "read: all of auxbits", "read: 16,383 bits", "read: an output that is just enough", "read: a longer output",
    "read: 53 by one byte", "read: 53 with no output", "read: no output for an empty payload", "read: a longer slice", "read: room for the list alone",
    "written: over auxdatae 0", "written: over auxdatae 1", "written: 0 bits", "written: 16,383 bits", "written: just the room in the frame", "written: 52 by one bit", "written: 52 with no bits",
    "written: 51 by 16,384 bits", "written: 51 by the bytes", "written: 51 by one bit of them", "written: 51 before 52", "written: 51 by 2 to the 32", "written: padding that is not 0", "written: bytes behind the payload",
    "written: 33 after 52", "written: 33 with the seventh room alone full", "written: a full room with auxdatal in it", "written: a room of one entry more", "written: a wrong crc2 put right", "written: a longer slice",
    "removed: with auxdatae", "removed: without", "removed: an entry stays behind the list", "removed: a wrong crc2 put right", "removed: a longer slice",
];

struct Compare {
    rooms: Rooms,
    ours: Vec<u8>,
    theirs: Vec<u8>,
    out: [Vec<u8>; 2],
    left: Vec<Record>,
    s: State,
    calls: u64,
    differ: u64,
    numbers: [[u64; 64]; 3],
    cases: [u64; CASES.len()],
    /// By the payload's first bit in its byte, and by its bits beyond whole bytes; read and written.
    offsets: [[u64; 8]; 2],
    beyond: [[u64; 8]; 2],
    /// encinfo 0 and 1 of a frame that is written, and removed.
    encinfo: [[u64; 2]; 2],
}

/// The frame that a slice holds, with enough room for its list.
struct Read {
    answer: Answer,
    records: Vec<Record>,
}

impl Read {
    /// The bits between the audio end and auxdatae.
    fn space(&self) -> usize {
        let t = tail(&self.records);
        t.auxdatae - t.auxbits.0
    }

    fn auxdatal(&self) -> Option<u32> {
        tail(&self.records).auxdatal
    }
}

impl Compare {
    fn read(&mut self, src: &[u8]) -> Read {
        let mut records = Vec::new();
        let answer = read(src, usize::MAX, &mut records, &mut self.s, &mut Seen::default());
        Read { answer, records }
    }

    fn met(&mut self, cases: &[(usize, bool)]) {
        cases.iter().for_each(|&(k, yes)| self.cases[k] += u64::from(yes));
    }

    /// Both copies of a slice, with what is behind it, and the rooms.
    fn lay(&mut self, src: &[u8], len: [usize; 7]) -> usize {
        self.calls += 1;
        for b in [&mut self.ours, &mut self.theirs] {
            b.clear();
            b.extend_from_slice(src);
            b.extend((0..BEHIND).map(|k| (k * 37 + 11) as u8));
        }
        self.rooms.fill(len, &PATTERNS[self.calls as usize % 2]);
        *len.iter().min().unwrap()
    }

    /// What differs, besides the answer.
    fn other(&self, len: [usize; 7]) -> Option<String> {
        if let Some(k) = (0..self.ours.len()).find(|&k| self.ours[k] != self.theirs[k]) {
            return Some(format!("byte {k}: our entry {:02x}, the reference {:02x}", self.ours[k], self.theirs[k]));
        }
        if let Some(k) = (0..self.out[0].len()).find(|&k| self.out[0][k] != self.out[1][k]) {
            return Some(format!("byte {k} of the output: our entry {:02x}, the reference {:02x}", self.out[0][k], self.out[1][k]));
        }
        self.rooms.differs(len, &self.left, &PATTERNS[self.calls as usize % 2]).map(|k| {
            format!("entry {k} of the rooms: ours {:?}, the readings left {} records, {:?}", self.rooms.entry(k), self.left.len(), self.left.get(k))
        })
    }

    fn tell(&mut self, src: &[u8], len: [usize; 7], asked: String, what: Option<String>) {
        let Some(what) = what else { return };
        self.differ += 1;
        println!("difference {}: {asked}, rooms {len:?}: {what}", self.differ);
        println!("  {} bytes: {}", src.len(), src.iter().map(|b| format!("{b:02x}")).collect::<String>());
        if self.differ == 5 {
            println!("stopped after {} calls", self.calls);
            std::process::exit(1);
        }
    }

    fn get(&mut self, src: &[u8], before: &Read, len: [usize; 7], size: usize) {
        let room = self.lay(src, len);
        for o in &mut self.out {
            o.clear();
            o.extend((0..size + BEHIND).map(|k| (k * 29 + 5) as u8));
        }
        let want = payload(&self.theirs[..src.len()], room, &mut self.out[1][..size], &mut self.left, &mut self.s);
        self.numbers[0][want[0] as usize] += 1;
        if before.answer[0] == 0 && room >= before.records.len() {
            let t = tail(&before.records);
            let (n, given) = (t.auxdatal.unwrap_or(0) as usize, want[0] == 0);
            let need = n.div_ceil(8);
            self.met(&[
                (0, given && t.auxdatal.is_none()), (1, given && t.auxdatal == Some(0)), (2, given && n > 0 && n == t.auxbits.1 - t.auxbits.0), (3, given && n == 16_383),
                (4, given && n > 0 && size == need), (5, given && n > 0 && size > need), (6, want[0] == 53 && size + 1 == need), (7, want[0] == 53 && size == 0),
                (8, given && n == 0 && size == 0), (9, given && n > 0 && src.len() > before.answer[3] as usize), (10, given && n > 0 && room == before.records.len()),
            ]);
            if given && n > 0 {
                self.offsets[0][(t.auxbits.1 - n) % 8] += 1;
                self.beyond[0][n % 8] += 1;
            }
        }
        let mut got = [0x5555_5555_5555_5555; 77];
        let r = &mut self.rooms;
        // The entry has no premises.
        let number = unsafe {
            eac3_payload(
                &self.ours[..src.len()], &mut r.names[..len[0]], &mut r.blocks[..len[1]], &mut r.indexes[..len[2]], &mut r.firsts[..len[3]],
                &mut r.widths[..len[4]], &mut r.values[..len[5]], &mut r.ordinals[..len[6]], &mut self.out[0][..size], &mut got,
            )
        };
        let what = if u64::from(number) != want[0] || got != want {
            Some(format!("our entry returned {number} and gave {got:?}, the reference {want:?}"))
        } else {
            self.other(len)
        };
        self.tell(src, len, format!("read into {size} bytes"), what);
    }

    fn set(&mut self, src: &mut Vec<u8>, before: &Read, len: [usize; 7], bytes: &[u8], count: u32) {
        let room = self.lay(src, len);
        self.out = [Vec::new(), Vec::new()];
        let want = set_payload(&mut self.theirs[..src.len()], room, bytes, count, &mut self.left, &mut self.s);
        self.numbers[1][want[0] as usize] += 1;
        let listed = before.records.len();
        if before.answer[0] == 0 && room >= listed {
            let (space, there, frame) = (before.space(), before.auxdatal().is_some(), before.answer[3] as usize);
            let (done, number, n) = (want[0] == 0, want[0], count as usize);
            let held = 8 * bytes.len();
            self.met(&[
                (11, done && !there), (12, done && there), (13, done && n == 0), (14, done && count == MOST_BITS), (15, done && space == 14 + n), (16, number == 52 && space + 1 == 14 + n), (17, number == 52 && n == 0),
                (18, number == 51 && count == MOST_BITS + 1 && held >= n), (19, number == 51 && count <= MOST_BITS), (20, number == 51 && count <= MOST_BITS && n == held + 1), (21, number == 51 && space < 14 + n), (22, number == 51 && count > u32::MAX - 8),
                (23, done && n % 8 != 0 && bits(bytes, n, 8 - n % 8) != 0), (24, done && bytes.len() > n.div_ceil(8)), (25, number == 33), (26, number == 33 && len[6] == listed && len[..6].iter().all(|&l| l > listed)),
                (27, done && there && room == listed), (28, done && !there && room == listed + 1), (29, done && crc2(src, frame) != before.records[listed - 1].value), (30, done && src.len() > frame),
            ]);
            if done {
                let encinfo = before.records.iter().rev().find(|r| r.name == ENCINFO).expect("encinfo").value;
                self.encinfo[0][encinfo as usize] += 1;
                if n > 0 {
                    self.offsets[1][(8 * frame - 32 - n) % 8] += 1;
                    self.beyond[1][n % 8] += 1;
                }
            }
        }
        let mut got = [0x5555_5555_5555_5555; 76];
        let (r, n) = (&mut self.rooms, src.len());
        // The entry has no premises.
        let number = unsafe {
            eac3_set_payload(
                &mut self.ours[..n], &mut r.names[..len[0]], &mut r.blocks[..len[1]], &mut r.indexes[..len[2]], &mut r.firsts[..len[3]],
                &mut r.widths[..len[4]], &mut r.values[..len[5]], &mut r.ordinals[..len[6]], bytes, count, &mut got,
            )
        };
        self.changed(src, len, format!("{count} bits of {} bytes written", bytes.len()), number, &got, &want);
    }

    fn remove(&mut self, src: &mut Vec<u8>, before: &Read, len: [usize; 7]) {
        let room = self.lay(src, len);
        self.out = [Vec::new(), Vec::new()];
        let want = remove_payload(&mut self.theirs[..src.len()], room, &mut self.left, &mut self.s);
        self.numbers[2][want[0] as usize] += 1;
        let listed = before.records.len();
        if before.answer[0] == 0 && room >= listed {
            let (there, frame) = (before.auxdatal().is_some(), before.answer[3] as usize);
            self.met(&[
                (31, there), (32, !there), (33, there && self.left.len() == want[2] as usize + 1), (34, crc2(src, frame) != before.records[listed - 1].value), (35, src.len() > frame),
            ]);
            let encinfo = before.records.iter().rev().find(|r| r.name == ENCINFO).expect("encinfo").value;
            self.encinfo[1][encinfo as usize] += 1;
        }
        let mut got = [0x5555_5555_5555_5555; 76];
        let (r, n) = (&mut self.rooms, src.len());
        // The entry has no premises.
        let number = unsafe {
            eac3_remove_payload(
                &mut self.ours[..n], &mut r.names[..len[0]], &mut r.blocks[..len[1]], &mut r.indexes[..len[2]], &mut r.firsts[..len[3]],
                &mut r.widths[..len[4]], &mut r.values[..len[5]], &mut r.ordinals[..len[6]], &mut got,
            )
        };
        self.changed(src, len, "removed".to_string(), number, &got, &want);
    }

    /// The frame is left as the reference has it.
    fn changed(&mut self, src: &mut Vec<u8>, len: [usize; 7], asked: String, number: u8, got: &Answer, want: &Answer) {
        let what = if u64::from(number) != want[0] || got != want {
            Some(format!("our entry returned {number} and gave {got:?}, the reference {want:?}"))
        } else {
            self.other(len)
        };
        self.tell(src, len, asked, what);
        let n = src.len();
        src.copy_from_slice(&self.theirs[..n]);
    }

    /// Rooms with space for the list, for one entry more, or any.
    fn some_rooms(&self, r: &mut Random, n: usize) -> [usize; 7] {
        let room = match r.below(8) {
            0 => r.below(n + 1),
            1 => n.saturating_sub(1),
            2 | 3 => n,
            4 => n + 1,
            _ => n + r.below(40),
        };
        if r.chance(1, 16) {
            let mut len = [room + 1 + r.below(3); 7];
            len[6] = room;
            return len;
        }
        unequal(r, room)
    }

    /// A payload: its bytes, and a bit count at, below and past each limit.
    fn some_payload(&self, r: &mut Random, before: &Read) -> (Vec<u8>, u32) {
        let space = if before.answer[0] == 0 { before.space() } else { r.below(400) };
        let fits = space.saturating_sub(14);
        let n = match r.below(12) {
            0 if fits > 16_383 => 16_383,
            0 => fits,
            1 => fits + 1,
            2 => r.below(fits + 40),
            3 => r.pick(&[0, 1, 7, 8, 9]),
            4 => r.pick(&[16_382, 16_383, 16_384, 16_385, 32_768, 65_535, 65_536]),
            5 => r.pick(&[u32::MAX as usize, 1 << 31, 1 << 16, u32::MAX as usize - 6]),
            _ => r.below(fits + 1),
        };
        let need = n.min(65_536).div_ceil(8);
        let size = match r.below(8) {
            0 => need.saturating_sub(1),
            1 => r.below(need + 2),
            2 => need + r.below(9),
            _ => need,
        };
        let count = if r.chance(1, 16) { 8 * size + 1 } else { n };
        ((0..size).map(|_| r.next() as u8).collect(), count as u32)
    }

    fn some_output(&self, r: &mut Random, before: &Read) -> usize {
        let n = if before.answer[0] == 0 { before.auxdatal().unwrap_or(0) as usize } else { r.below(200) };
        let need = n.div_ceil(8);
        match r.below(8) {
            0 => 0,
            1 => need.saturating_sub(1),
            2 => r.below(need + 1),
            3 => need + r.below(9),
            4 => 2048,
            _ => need,
        }
    }

    /// A payload of each length, written into a frame and read out of it, each over the one before; now and then one is removed.
    fn lengths(&mut self, r: &mut Random, frame: &[u8]) {
        let mut src = frame.to_vec();
        for n in 0..=MOST_BITS {
            let bytes: Vec<u8> = (0..(n as usize).div_ceil(8)).map(|_| r.next() as u8).collect();
            let before = self.read(&src);
            let len = [before.records.len() + 1; 7];
            self.set(&mut src, &before, len, &bytes, n);
            let after = self.read(&src);
            assert_eq!(after.auxdatal(), Some(n), "a payload of each length fits");
            self.get(&src, &after, len, bytes.len());
            let mut given = bytes;
            if n % 8 != 0 {
                *given.last_mut().unwrap() &= 0xff << (8 - n % 8);
            }
            assert_eq!(self.out[1][..given.len()], given, "what was written is read");
            if r.chance(1, 16) {
                self.remove(&mut src, &after, len);
            }
        }
    }

    /// Calls about a slice, each over what the one before it left.
    fn about(&mut self, r: &mut Random, src: &[u8], calls: usize) {
        let mut src = src.to_vec();
        let more = if r.chance(1, 2) { 0 } else { r.pick(&[1, 2, 3, 40, 4096]) };
        src.extend((0..more).map(|_| r.next() as u8));
        for _ in 0..calls {
            let before = self.read(&src);
            if before.answer[0] == 0 && r.chance(1, 8) {
                let bytes = before.answer[3] as usize;
                // crc2 or encinfo
                let bit = 8 * bytes - 1 - r.below(17);
                src[bit / 8] ^= 128 >> (bit % 8);
            }
            let before = self.read(&src);
            let len = self.some_rooms(r, before.records.len());
            match r.below(3) {
                0 => {
                    let size = self.some_output(r, &before);
                    self.get(&src, &before, len, size)
                }
                1 => {
                    let (bytes, count) = self.some_payload(r, &before);
                    self.set(&mut src, &before, len, &bytes, count)
                }
                _ => self.remove(&mut src, &before, len),
            }
        }
    }
}

/// A frame that announces more bytes than it has, with other bits behind them, and with auxdatae or without.
fn stretched(r: &mut Random, frame: &[u8]) -> Vec<u8> {
    let words = if r.chance(1, 2) { 2048 } else { (frame.len() / 2 + r.below(1200)).clamp(3, 2048) };
    let mut out = frame.to_vec();
    out.resize_with((2 * words).max(frame.len()), || r.next() as u8);
    out.truncate(2 * words);
    put(&mut out, 21, 11, words as u32 - 1);
    let most = r.pick(&[0, 1, 100, 16_383, 16_383]);
    put(&mut out, 16 * words - 18, 1, r.below(2) as u32);
    put(&mut out, 16 * words - 32, 14, if r.chance(1, 2) { most } else { r.below(most as usize + 1) as u32 });
    out
}

fn main() {
    let args: Vec<String> = std::env::args().skip(1).collect();
    let number = |k: usize, or: u64| args.get(k).map_or(or, |a: &String| a.parse().expect("a number"));
    let (count, seed) = (number(0, 1_000_000), number(1, 1));
    let mut c = Compare {
        rooms: Rooms::new(), ours: Vec::new(), theirs: Vec::new(), out: [Vec::new(), Vec::new()], left: Vec::new(), s: State::new(), calls: 0, differ: 0, numbers: [[0; 64]; 3],
        cases: [0; CASES.len()], offsets: [[0; 8]; 2], beyond: [[0; 8]; 2], encinfo: [[0; 2]; 2],
    };
    let mut r = Random(seed);
    let mut d = Drawer::new(r.next());
    edges(|src| if r.chance(1, 16) { c.about(&mut r, src, 1) });
    println!("edges: {} calls, {} differ", c.calls, c.differ);
    if let Some(folder) = args.get(2) {
        let (before, frames) = (c.calls, real::frames(folder));
        assert!(!frames.is_empty(), "no frames in {folder}");
        for (_, f) in &frames {
            c.about(&mut r, f, 6)
        }
        println!("real frames: {}, {} calls, {} differ", frames.len(), c.calls - before, c.differ);
    }
    let before = c.calls;
    let most = loop {
        let mut f = d.frame(Kind::Smallest);
        f.resize_with(4096, || r.next() as u8);
        put(&mut f, 21, 11, 2047);
        put(&mut f, 8 * 4096 - 18, 1, 0);
        let of = c.read(&f);
        if of.answer[0] == 0 && of.space() >= 14 + MOST_BITS as usize {
            break f;
        }
    };
    c.lengths(&mut r, &most);
    println!("every length: {} calls, {} differ", c.calls - before, c.differ);
    let first = c.calls;
    let kinds = [Kind::Any, Kind::Any, Kind::Any, Kind::Hybrid, Kind::Extension, Kind::Coupling, Kind::Smallest, Kind::Smallest];
    let mut drawn = 0u64;
    while c.calls - first < count {
        let kind = r.pick(&kinds);
        let mut frame = d.frame(kind);
        drawn += 1;
        if r.chance(1, 4) {
            frame = stretched(&mut r, &frame)
        }
        c.about(&mut r, &frame, 8);
        let records = c.left.clone();
        let other = damage(&mut r, &frame, &records);
        c.about(&mut r, &other, 2);
    }
    println!("drawn: {} calls about {drawn} frames, seed {seed}", c.calls - first);
    let reader = [0].into_iter().chain(1..=13).chain(20..=33);
    let mut told: Vec<(String, Vec<(String, u64)>)> = Vec::new();
    for (k, own) in [&[53][..], &[51, 52], &[]].into_iter().enumerate() {
        let all = reader.clone().chain(own.iter().copied());
        told.push((format!("answers, {}", ENTRIES[k]), all.map(|n: usize| (n.to_string(), c.numbers[k][n])).collect()));
    }
    for k in 0..2 {
        told.push((format!("first bit of the payload in its byte, {}", ENTRIES[k]), (0..8).map(|n| (n.to_string(), c.offsets[k][n])).collect()));
        told.push((format!("bits beyond whole bytes, {}", ENTRIES[k]), (0..8).map(|n| (n.to_string(), c.beyond[k][n])).collect()));
        told.push((format!("encinfo, {}", ENTRIES[k + 1]), (0..2).map(|n| (n.to_string(), c.encinfo[k][n])).collect()));
    }
    told.push(("cases".to_string(), CASES.iter().zip(c.cases).map(|(w, n)| (w.to_string(), n)).collect()));
    let mut unmet = Vec::new();
    for (title, of) in told {
        println!("{title}: {}", of.iter().map(|(what, n)| format!("{what}: {n}")).collect::<Vec<_>>().join(", "));
        unmet.extend(of.into_iter().filter(|x| x.1 == 0).map(|x| format!("{title} {}", x.0)));
    }
    println!("{} calls in all, {} differ", c.calls, c.differ);
    if !unmet.is_empty() {
        println!("not met: {}", unmet.join("; "));
    }
    std::process::exit(i32::from(c.differ != 0 || count >= ENOUGH && !unmet.is_empty()));
}
