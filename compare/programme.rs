//! Compares `eac3_programme` and `eac3_pick` with the reference of compare/programmes.rs: the whole answer and every entry of the seven
//! rooms and beyond, over programmes of drawn, damaged and real frames with every refusal at every ordinal, bytes behind the last
//! frame and frames that are cut, and every kind of room; and over two such buffers with types and numbers at and past the limits.
//! usage: programme COUNT SEED [FOLDER]: COUNT calls, half of each entry; FOLDER has real frames.
#![allow(dead_code)]
mod both;
mod features;
mod generate;
mod names;
mod numbered;
mod pointers;
mod programmes;
mod real;
mod standard;
mod streams;
mod theirs;
use both::{short_seventh, Rooms, MOST, PATTERNS};
use generate::Random;
use numbered::{Record, State};
use programmes::{pick, programme, Listed, Picked};
use streams::{some_lengths, some_stream, Stock, Stream};

#[allow(improper_ctypes)]
extern "C" {
    fn eac3_programme(
        src: &[u8], names: &mut [u8], blocks: &mut [i8], indexes: &mut [i16], firsts: &mut [u16], widths: &mut [u16], values: &mut [u32],
        ordinals: &mut [u32], answer: &mut Listed,
    ) -> u8;
    fn eac3_pick(
        independent: &[u8], dependent: &[u8], names: &mut [u8], blocks: &mut [i8], indexes: &mut [i16], firsts: &mut [u16],
        widths: &mut [u16], values: &mut [u32], ordinals: &mut [u32], strmtyp: u8, substreamid: u8, answer: &mut Picked,
    ) -> u8;
}

/// Calls from which on everything must have been met.
const ENOUGH: u64 = 100_000;

/// Frames of a programme that are more than 16 bits count.
const LONG: usize = 66_000;

const LISTS: [&str; 24] = [
    "an empty programme", "an empty programme without room", "one frame", "two to nine frames", "ten frames and more", "refused at ordinal 0", "at ordinal 1", "at ordinals 2 to 9",
    "at ordinals from 10 on", "a refused frame with records behind accepted ones", "less than 6 bytes behind the last frame", "more bytes behind it", "a last frame that is cut",
    "33 at a frame's first record", "33 inside a later frame", "room for the list alone", "one entry less", "no room", "rooms of unequal lengths", "33 with the seventh room alone short",
    "the same frame twice", "a frame above 2,048 bytes behind another", "a refused frame between two", "frames of all types",
];

const PICKS: [&str; 32] = [
    "49 by the type", "49 by the number", "49 by both", "49 without a buffer", "49 without room", "type 3 asked", "number 8 asked", "255 asked", "the first frame", "a later frame",
    "behind one of another type with the number", "behind one of the type with another number", "the first of two such frames", "bytes behind the part", "the last frame of the buffer",
    "the first frame refused", "refused on the way", "refused with the frame asked for behind", "33 at the frame asked for", "33 before it", "33 with the seventh room alone short", "no room",
    "50 with records", "50 of an empty buffer", "50, the frame in the other buffer", "the other buffer refused", "the other buffer empty", "both buffers empty",
    "an entry that an earlier reading left", "rooms of unequal lengths", "50 without room", "room for the largest list alone",
];

struct Compare {
    rooms: Rooms,
    list: Vec<Record>,
    ordinals: Vec<u32>,
    s: State,
    calls: u64,
    frames: u64,
    differ: u64,
    /// Of programmes by number, at the ordinal 0 and behind a frame; of picks.
    numbers: [[u64; 64]; 3],
    /// Handed back, by type and number.
    handed: [[u64; 8]; 3],
    lists: [u64; LISTS.len()],
    picks: [u64; PICKS.len()],
}

/// The programme of a stream with enough room: the records up to the end of each accepted frame, and those of all.
struct Open {
    answer: Listed,
    ends: Vec<usize>,
}

fn count(cases: &[bool], of: &mut [u64]) {
    assert_eq!(cases.len(), of.len());
    cases.iter().zip(of).for_each(|(&yes, n)| *n += u64::from(yes));
}

impl Compare {
    fn open(&mut self, src: &[u8]) -> Open {
        let answer = programme(src, usize::MAX, &mut self.list, &mut self.ordinals, &mut self.s);
        let ends = (0..answer[3] as u32).map(|k| self.ordinals.partition_point(|&o| o <= k)).collect();
        Open { answer, ends }
    }

    fn tell(&mut self, what: Option<String>, asked: String, buffers: &[&[u8]]) {
        let Some(what) = what else { return };
        self.differ += 1;
        println!("difference {}: {asked}: {what}", self.differ);
        for b in buffers {
            println!("  {} bytes: {}", b.len(), b.iter().map(|b| format!("{b:02x}")).collect::<String>());
        }
        if self.differ == 5 {
            println!("stopped after {} calls", self.calls);
            std::process::exit(1);
        }
    }

    fn listed(&mut self, stream: &Stream, len: [usize; 7], open: &Open, want: &Listed) {
        let (n, room) = (stream.bytes.len(), *len.iter().min().unwrap());
        let [number, place, records, frames] = *want;
        self.frames += frames;
        self.numbers[usize::from(frames > 0)][number as usize] += 1;
        let refused = number != 0;
        let own = self.ordinals.iter().filter(|&&o| u64::from(o) == frames).count();
        let first = |k: usize| stream.pieces.get(k).map_or(n, |p| p.first);
        let piece = |k: usize| &stream.bytes[first(k)..first(k + 1)];
        let read = frames as usize;
        let broken = stream.pieces.iter().position(|p| p.frame.is_none());
        let types = (0..3).all(|t| stream.pieces[..read.min(stream.pieces.len())].iter().any(|p| p.frame.is_some_and(|f| f.0 == t)));
        let cases = [
            n == 0, n == 0 && room == 0, !refused && frames == 1, !refused && (2..10).contains(&frames), !refused && frames >= 10, refused && frames == 0, refused && frames == 1,
            refused && (2..10).contains(&frames), refused && frames >= 10, refused && frames > 0 && own > 0, number == 1 && frames > 0, number == 2 && frames > 0, number == 4 && frames > 0,
            number == 33 && frames > 0 && place == 0, number == 33 && frames > 0 && place > 0, !refused && n > 0 && room as u64 == records,
            open.answer[0] == 0 && room as u64 + 1 == open.answer[2], room == 0, len.iter().any(|&l| l != room), number == 33 && short_seventh(len, room + 1),
            read >= 2 && (1..read).any(|k| piece(k - 1) == piece(k)), !refused && (1..read).any(|k| piece(k).len() > 2048),
            refused && broken == Some(read) && read + 1 < stream.pieces.len() && read > 0, types,
        ];
        count(&cases, &mut self.lists);
    }

    fn list(&mut self, stream: &Stream, len: [usize; 7], open: &Open) {
        self.calls += 1;
        let room = *len.iter().min().unwrap();
        let want = programme(&stream.bytes, room, &mut self.list, &mut self.ordinals, &mut self.s);
        self.listed(stream, len, open, &want);
        let pattern = PATTERNS[self.calls as usize % 2];
        self.rooms.fill(len, &pattern);
        let mut got = [0x5555_5555_5555_5555; 4];
        let r = &mut self.rooms;
        // The entry has no premises.
        let number = unsafe {
            eac3_programme(
                &stream.bytes, &mut r.names[..len[0]], &mut r.blocks[..len[1]], &mut r.indexes[..len[2]], &mut r.firsts[..len[3]],
                &mut r.widths[..len[4]], &mut r.values[..len[5]], &mut r.ordinals[..len[6]], &mut got,
            )
        };
        let what = if u64::from(number) != want[0] || got != want {
            Some(format!("our entry returned {number} and gave {got:?}, the reference {want:?}"))
        } else {
            let k = self.rooms.differs_by(len, &self.list, |k| self.ordinals[k], &pattern);
            k.map(|k| format!("entry {k} of the rooms: ours {:?}, the reference has {} records, {:?} {:?}", self.rooms.entry(k), self.list.len(), self.list.get(k), self.ordinals.get(k)))
        };
        self.tell(what, format!("a programme, rooms {len:?}"), &[&stream.bytes]);
    }

    fn picked(&mut self, buffers: [&Stream; 2], len: [usize; 7], asked: (u8, u8), most: usize, want: &Picked) {
        let room = *len.iter().min().unwrap();
        let [number, _, records, first, bytes] = *want;
        self.numbers[2][number as usize] += 1;
        let (this, other) = if asked.0 == 1 { (buffers[1], buffers[0]) } else { (buffers[0], buffers[1]) };
        let handed = number == 0;
        if handed {
            self.handed[usize::from(asked.0)][usize::from(asked.1)] += 1
        }
        // what was read: the pieces before the one that ended it
        let at = this.pieces.iter().position(|p| p.frame.is_none() || p.frame == Some(asked)).unwrap_or(this.pieces.len());
        let before = &this.pieces[..at];
        let has = |s: &Stream| s.pieces.iter().take_while(|p| p.frame.is_some()).any(|p| p.frame == Some(asked));
        let behind = this.pieces.get(at + 1..).unwrap_or_default().iter().any(|p| p.frame == Some(asked));
        let wanted = this.pieces.get(at).is_some_and(|p| p.frame == Some(asked));
        let no_frame = this.pieces.get(at).is_some_and(|p| p.frame.is_none());
        let refused = number != 0 && number < 49;
        let of_type = before.iter().any(|p| p.frame.is_some_and(|f| f.0 == asked.0 && f.1 != asked.1));
        let of_number = before.iter().any(|p| p.frame.is_some_and(|f| f.0 != asked.0 && f.1 == asked.1));
        let short = number == 33;
        let end = (first + bytes) as usize;
        let [wrong, high] = [asked.0 > 2, asked.1 > 7];
        let cases = [
            wrong && !high, !wrong && high, wrong && high, number == 49 && this.bytes.is_empty() && other.bytes.is_empty(), number == 49 && room == 0, asked.0 == 3, asked.1 == 8,
            asked.0 == 255 || asked.1 == 255, handed && first == 0, handed && first > 0, handed && of_number, handed && of_type, handed && behind, handed && end < this.bytes.len(),
            handed && first > 0 && end == this.bytes.len(), refused && !short && at == 0, refused && !short && at > 0, refused && !short && no_frame && behind, short && wanted && this.pieces.len() > 1 && room > 60,
            short && room < 20, short && short_seventh(len, room + 1), room == 0, number == 50 && records > 0, number == 50 && this.bytes.is_empty(), number == 50 && has(other),
            (handed || number == 50) && other.pieces.first().is_some_and(|p| p.frame.is_none()), handed && other.bytes.is_empty(), number == 50 && this.bytes.is_empty() && other.bytes.is_empty(),
            self.list.len() as u64 > records, len.iter().any(|&l| l != room), number == 50 && room == 0, handed && room == most,
        ];
        count(&cases, &mut self.picks);
    }

    fn pick(&mut self, buffers: [&Stream; 2], len: [usize; 7], asked: (u8, u8), most: usize) {
        self.calls += 1;
        let room = *len.iter().min().unwrap();
        let want = pick(&buffers[0].bytes, &buffers[1].bytes, room, asked.0, asked.1, &mut self.list, &mut self.s);
        self.picked(buffers, len, asked, most, &want);
        let pattern = PATTERNS[self.calls as usize % 2];
        self.rooms.fill(len, &pattern);
        let mut got = [0x5555_5555_5555_5555; 5];
        let r = &mut self.rooms;
        // The entry has no premises.
        let number = unsafe {
            eac3_pick(
                &buffers[0].bytes, &buffers[1].bytes, &mut r.names[..len[0]], &mut r.blocks[..len[1]], &mut r.indexes[..len[2]],
                &mut r.firsts[..len[3]], &mut r.widths[..len[4]], &mut r.values[..len[5]], &mut r.ordinals[..len[6]], asked.0, asked.1, &mut got,
            )
        };
        let what = if u64::from(number) != want[0] || got != want {
            Some(format!("our entry returned {number} and gave {got:?}, the reference {want:?}"))
        } else {
            self.rooms.differs(len, &self.list, &pattern).map(|k| format!("entry {k} of the rooms: ours {:?}, the reference has {} entries, {:?}", self.rooms.entry(k), self.list.len(), self.list.get(k)))
        };
        self.tell(what, format!("type {} and number {}, rooms {len:?}", asked.0, asked.1), &[&buffers[0].bytes, &buffers[1].bytes]);
    }

    fn lists_of(&mut self, r: &mut Random, stream: &Stream, calls: usize) {
        let open = self.open(&stream.bytes);
        let n = open.answer[2] as usize;
        if n + 50 > MOST {
            return;
        }
        for _ in 0..calls {
            self.list(stream, some_lengths(r, n, &open.ends), &open)
        }
    }

    fn picks_of(&mut self, r: &mut Random, buffers: [&Stream; 2], calls: usize) {
        let frames: Vec<(u8, u8)> = buffers.iter().flat_map(|b| b.pieces.iter().filter_map(|p| p.frame)).collect();
        // the records of each reading that there can be
        let mut counts = vec![0];
        for b in buffers {
            let open = self.open(&b.bytes);
            counts.extend(open.ends.iter().enumerate().map(|(k, &e)| if k == 0 { e } else { e - open.ends[k - 1] }));
        }
        let most = counts.iter().copied().max().unwrap();
        for _ in 0..calls {
            let any = (r.below(3) as u8, r.below(8) as u8);
            let asked = match r.below(16) {
                0 => (r.pick(&[3, 3, 4, 255]), any.1),
                1 => (any.0, r.pick(&[8, 8, 9, 255])),
                2 => (r.pick(&[3, 4, 255]), r.pick(&[8, 9, 255])),
                3 | 4 => any,
                _ if !frames.is_empty() => r.pick(&frames),
                _ => any,
            };
            self.pick(buffers, some_lengths(r, most, &counts), asked, most)
        }
    }

    /// More frames than 16 bits count.
    fn long(&mut self, stock: &mut Stock, r: &mut Random) {
        let (mut records, mut smallest) = (Vec::new(), Vec::new());
        for _ in 0..400 {
            let s = some_stream(r, stock);
            for (k, p) in s.pieces.iter().enumerate().filter(|x| x.1.frame.is_some()) {
                let frame = &s.bytes[p.first..s.pieces.get(k + 1).map_or(s.bytes.len(), |q| q.first)];
                if smallest.is_empty() || frame.len() < smallest.len() {
                    smallest = frame.to_vec();
                }
            }
        }
        let answer = numbered::read(&smallest, usize::MAX, &mut records, &mut self.s, &mut numbered::Seen::default());
        assert_eq!((answer[0], answer[3] as usize), (0, smallest.len()));
        let (n, bytes) = (records.len(), smallest.repeat(LONG));
        let pattern = PATTERNS[0];
        let mut rooms = Rooms::of(n * LONG);
        let len = [n * LONG; 7];
        rooms.fill(len, &pattern);
        let mut got = [0; 4];
        // The entry has no premises.
        unsafe {
            eac3_programme(
                &bytes, &mut rooms.names[..len[0]], &mut rooms.blocks[..len[1]], &mut rooms.indexes[..len[2]], &mut rooms.firsts[..len[3]],
                &mut rooms.widths[..len[4]], &mut rooms.values[..len[5]], &mut rooms.ordinals[..len[6]], &mut got,
            )
        };
        let list = records.repeat(LONG);
        let bad = rooms.differs_by(len, &list, |k| (k / n) as u32, &pattern);
        println!("a programme of {LONG} frames of {} bytes: our entry gave {got:?}, first entry that differs {bad:?}", smallest.len());
        self.differ += u64::from(got != [0, 0, (n * LONG) as u64, LONG as u64] || bad.is_some());
    }
}

fn main() {
    let args: Vec<String> = std::env::args().skip(1).collect();
    let number = |k: usize, or: u64| args.get(k).map_or(or, |a: &String| a.parse().expect("a number"));
    let (count, seed) = (number(0, 1_000_000), number(1, 1));
    let mut c = Compare {
        rooms: Rooms::new(), list: Vec::new(), ordinals: Vec::new(), s: State::new(), calls: 0, frames: 0, differ: 0, numbers: [[0; 64]; 3], handed: [[0; 8]; 3], lists: [0; LISTS.len()],
        picks: [0; PICKS.len()],
    };
    let mut r = Random(seed);
    let real: Vec<Vec<u8>> = args.get(2).map_or(Vec::new(), |folder| real::frames(folder).into_iter().map(|f| f.1).collect());
    let at_hand = real.len();
    let mut stock = Stock::new(&mut r, real);
    let mut streams = 0u64;
    while c.calls < count {
        let (a, b) = (some_stream(&mut r, &mut stock), some_stream(&mut r, &mut stock));
        streams += 2;
        c.lists_of(&mut r, &a, 3);
        c.lists_of(&mut r, &b, 3);
        c.picks_of(&mut r, [&a, &b], 6);
    }
    println!("{} calls about {streams} programmes, {} frames listed, {at_hand} real frames at hand, seed {seed}", c.calls, c.frames);
    let scope = || [0].into_iter().chain(1..=13).chain(20..=33);
    let by = |of: [u64; 64], more: &[usize]| -> Vec<(String, u64)> { scope().chain(more.iter().copied()).map(|k| (k.to_string(), of[k])).collect() };
    let handed = c.handed.iter().enumerate().flat_map(|(t, of)| of.iter().enumerate().map(move |(k, &n)| (format!("{t} {k}"), n))).collect();
    let cases = |names: &[&str], of: &[u64]| -> Vec<(String, u64)> { names.iter().zip(of).map(|(w, &n)| (w.to_string(), n)).collect() };
    let mut unmet = Vec::new();
    for (title, of) in [
        ("programmes, at the first frame", by(c.numbers[0], &[])), ("programmes, behind a frame", by(c.numbers[1], &[])), ("picks", by(c.numbers[2], &[49, 50])),
        ("handed back, by type and number", handed), ("cases of programmes", cases(&LISTS, &c.lists)), ("cases of picks", cases(&PICKS, &c.picks)),
    ] {
        println!("{title}: {}", of.iter().map(|(what, n)| format!("{what}: {n}")).collect::<Vec<_>>().join(", "));
        unmet.extend(of.into_iter().filter(|x| x.1 == 0).map(|x| format!("{title} {}", x.0)));
    }
    if count >= ENOUGH {
        c.long(&mut stock, &mut r)
    }
    println!("{} calls in all, {} differ", c.calls, c.differ);
    if !unmet.is_empty() {
        println!("not met: {}", unmet.join("; "));
    }
    std::process::exit(i32::from(c.differ != 0 || count >= ENOUGH && !unmet.is_empty()));
}
