//! Draws captures and what they are searched with; all of it follows from a seed. A capture is frames, whole, damaged or cut at the
//! end, with junk between them: any bytes, bytes of the sync word, and false sync words with a good or another bsid and sizes
//! that pass the end or not.
use crate::generate::{damage, Drawer, Kind, Random};
use crate::numbered::{read, Record, Seen, State};
use crate::searching::Found;

pub struct Capture {
    pub bytes: Vec<u8>,
    /// Where its pieces begin.
    pub pieces: Vec<usize>,
    /// The last piece is a frame without its end.
    pub cut: bool,
}

/// Where frames are taken from.
pub struct Pool {
    drawer: Drawer,
    s: State,
    records: Vec<Record>,
    pub real: Vec<Vec<u8>>,
}

impl Pool {
    pub fn new(seed: u64, real: Vec<Vec<u8>>) -> Pool {
        Pool { drawer: Drawer::new(seed), s: State::new(), records: Vec::new(), real }
    }

    fn frame(&mut self, r: &mut Random, most: usize) -> Vec<u8> {
        loop {
            let frame = match r.below(8) {
                0 if !self.real.is_empty() => self.real[r.below(self.real.len())].clone(),
                0..=2 => self.drawer.frame(Kind::Any),
                _ => self.drawer.frame(Kind::Smallest),
            };
            if frame.len() <= most {
                return frame;
            }
        }
    }

    fn damaged(&mut self, r: &mut Random, most: usize) -> Vec<u8> {
        let frame = self.frame(r, most);
        read(&frame, usize::MAX, &mut self.records, &mut self.s, &mut Seen::default());
        damage(r, &frame, &self.records)
    }
}

/// The sync word and five more bytes, or less: with any size, any type, and a bsid of E-AC-3 or not.
fn false_word(r: &mut Random, to: &mut Vec<u8>) {
    let words = r.pick(&[0, 1, 2, 3, 10, 100, 2047, r.0 as usize % 2048]);
    let bsid = if r.chance(2, 3) { 11 + r.below(6) } else { r.pick(&[0, 6, 8, 10, 17, 31]) };
    let header = [0x0b, 0x77, (r.below(4) << 6 | r.below(8) << 3 | words >> 8) as u8, words as u8, r.next() as u8, (bsid << 3 | r.below(8)) as u8, r.next() as u8];
    to.extend(&header[..r.pick(&[7, 7, 7, 6, 5, 3, 2, 1])]);
}

fn junk(r: &mut Random, most: usize) -> Vec<u8> {
    let n = r.pick(&[0, 1, 2, 5, 6, r.0 as usize % 40, r.0 as usize % 40, r.0 as usize % 300]).min(most);
    let kind = r.below(6);
    let mut out = Vec::new();
    while out.len() < n {
        match kind {
            0 => out.push(0x0b),
            1 => out.push(r.pick(&[0x0b, 0x77])),
            2 => out.push(0),
            3 if r.chance(1, 12) => false_word(r, &mut out),
            4 => false_word(r, &mut out),
            _ => out.push(r.next() as u8),
        }
    }
    out
}

pub fn some_capture(r: &mut Random, pool: &mut Pool) -> Capture {
    let mut c = Capture { bytes: Vec::new(), pieces: Vec::new(), cut: false };
    if r.chance(1, 12) {
        let whole = pool.frame(r, 60);
        let mut bytes = match r.below(3) {
            0 => whole,
            1 => (0..8).map(|_| r.pick(&[0x0b, 0x77])).collect(),
            _ => (0..8).map(|_| r.next() as u8).collect(),
        };
        bytes.truncate(r.below(8));
        c.bytes = bytes;
        return c;
    }
    let most = if r.chance(1, 80) { 9000 } else { r.pick(&[60, 100, 200, 300, 300, 600, 600]) };
    let frames = 1 + r.below(4);
    for _ in 0..frames {
        let more = match r.below(8) {
            0..=2 => junk(r, most),
            3 => pool.damaged(r, most),
            _ => pool.frame(r, most),
        };
        if c.bytes.len() + more.len() > most.max(100) {
            continue;
        }
        c.pieces.push(c.bytes.len());
        c.bytes.extend(more);
    }
    if r.chance(1, 4) {
        let frame = pool.frame(r, 600);
        c.pieces.push(c.bytes.len());
        c.bytes.extend(&frame[..frame.len() - 1 - r.pick(&[0, 1, r.0 as usize % (frame.len() - 1)])]);
        c.cut = true;
    }
    // a stretch of a thousand bytes and more now and then
    if r.chance(1, 60) {
        let n = 1000 + r.below(3000);
        let at = r.pick(&[0, c.bytes.len()]);
        let some: Vec<u8> = (0..n).map(|_| r.next() as u8).collect();
        if at == 0 {
            c.pieces.iter_mut().for_each(|p| *p += n)
        }
        c.cut &= at == 0;
        c.bytes.splice(at..at, some);
    }
    c
}

pub fn some_start(r: &mut Random, c: &Capture) -> usize {
    let n = c.bytes.len();
    match r.below(16) {
        0 => r.pick(&[n, n, n + 1, n + 7, usize::MAX, usize::MAX - n, usize::MAX / 2, 1 << 32]),
        1 => n.saturating_sub(1 + r.below(8)),
        2..=4 => r.below(n + 1),
        5 | 6 if !c.pieces.is_empty() => r.pick(&c.pieces) + r.below(3),
        _ => 0,
    }
}

/// `open` is the search from this start with enough room and allowance.
pub fn some_most(r: &mut Random, c: &Capture, start: usize, open: &Found) -> usize {
    let tried = open[77] as usize;
    let left = c.bytes.len().saturating_sub(start);
    match r.below(16) {
        0 => r.pick(&[0, 0, 1, 2]),
        1 | 2 => tried,
        3 => tried.saturating_sub(1),
        4 => tried + 1,
        5 => r.pick(&[left, left.saturating_sub(1), left + 1]),
        6 => r.below(tried + 2),
        7 => r.pick(&[1 << 32, usize::MAX / 2, usize::MAX - start.min(left), usize::MAX - 1]),
        _ => usize::MAX,
    }
}

/// Rooms around the records of a frame, or short ones, mostly of unequal lengths.
pub fn some_rooms(r: &mut Random, n: usize) -> [usize; 6] {
    let room = match r.below(16) {
        0 => 0,
        1 => 1 + r.below(8),
        2 => r.below(60),
        3 => r.below(n + 1),
        4 => n.saturating_sub(1),
        5 | 6 => n,
        _ => n + r.below(40),
    };
    if r.chance(1, 3) {
        return [room; 6];
    }
    let mut len = [0; 6].map(|_| room + r.pick(&[0, 0, 1, 2, 9, 40]));
    len[r.below(6)] = room;
    len
}
