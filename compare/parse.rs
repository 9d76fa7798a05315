//! Compares our reader with the unchanged Rust's `eac3::parse`: drawn frames, damaged ones, real ones, and every kind of room.
//! usage: parse COUNT SEED [FOLDER]: COUNT inputs besides the edges and the real frames of the folder.
mod both;
mod features;
mod generate;
mod names;
mod numbered;
mod pointers;
mod real;
#[allow(dead_code)]
mod standard;
mod theirs;
use both::{Both, MOST};
use features::FEATURES;
use generate::{damage, edges, Drawer, Kind, Random};
use names::NAMES;
use numbered::SILENCE;
use std::collections::BTreeMap;

/// Inputs from which on everything must have been met.
const ENOUGH: u64 = 20_000;

struct Compare {
    both: Both,
    differ: u64,
    /// Frames that were accepted before any damage.
    sound: u64,
}

impl Compare {
    fn tell(&mut self, src: &[u8], what: String) {
        self.differ += 1;
        println!("difference {}: {what}", self.differ);
        println!("  {} bytes: {}", src.len(), src.iter().map(|b| format!("{b:02x}")).collect::<String>());
        if self.differ == 5 {
            println!("stopped after {} inputs", self.both.met.inputs);
            std::process::exit(1);
        }
    }

    fn whole(&mut self, src: &[u8], more: [usize; 6]) {
        if let Err(what) = self.both.whole(src, more) {
            self.tell(src, what)
        }
    }

    fn roomed(&mut self, src: &[u8], len: [usize; 6]) {
        if let Err(what) = self.both.roomed(src, len) {
            self.tell(src, format!("rooms {len:?}: {what}"))
        }
    }

    /// Rooms around the count of records, or any, with one of the six the shortest.
    fn some_room(&mut self, r: &mut Random, src: &[u8], count: usize) {
        let room = match r.below(8) {
            0 => r.below(3),
            1..=3 => (count + r.below(5)).saturating_sub(2),
            _ => r.below(count + 1),
        };
        let mut len = [0; 6].map(|_| room + r.pick(&[0, 0, 1, 2, 9, 40]));
        len[r.below(6)] = room;
        self.roomed(src, len);
    }

    /// A frame, with rooms, and damaged.
    fn about(&mut self, r: &mut Random, frame: &[u8]) {
        let more = if r.chance(1, 4) { [0; 6] } else { [0; 6].map(|_| r.below(4)) };
        let before = self.both.met.accepted;
        self.whole(frame, more);
        self.sound += self.both.met.accepted - before;
        let records = self.both.records.clone();
        if records.len() < 80 && r.chance(1, 64) {
            for room in 0..records.len() + 3 {
                self.roomed(frame, [room; 6])
            }
        }
        for _ in 0..r.below(3) {
            self.some_room(r, frame, records.len())
        }
        for _ in 0..1 + r.below(4) {
            let other = damage(r, frame, &records);
            self.whole(&other, [r.below(3); 6]);
            if r.chance(1, 8) {
                let count = self.both.records.len();
                self.some_room(r, &other, count)
            }
        }
    }

    /// Slices and rooms longer than 16 bits can count.
    fn long(&mut self, d: &mut Drawer) {
        for bytes in [65534, 65535, 65536, 65537, 65542, 131071, 131072, 1 << 20] {
            let mut src = d.frame(Kind::Any);
            src.resize(bytes, 0);
            self.whole(&src, [0; 6]);
            self.roomed(&src, [65536; 6]);
        }
        for room in [32768, 32782, 65535, 65536, 65537, MOST - 1, MOST] {
            let src = d.frame(Kind::Any);
            self.roomed(&src, [room; 6]);
            self.roomed(&src, [room, MOST, MOST, MOST, MOST, MOST]);
            self.roomed(&src, [MOST, MOST, MOST, MOST, MOST, room]);
        }
    }
}

fn counts(title: &str, of: impl Iterator<Item = (String, u64)>, unmet: &mut Vec<String>) {
    let all: Vec<_> = of.collect();
    println!("{title}: {}", all.iter().map(|(what, n)| format!("{what} {n}")).collect::<Vec<_>>().join(", "));
    unmet.extend(all.iter().filter(|x| x.1 == 0).map(|x| format!("{title} {}", x.0)));
}

fn report(c: &Compare) -> Vec<String> {
    let m = &c.both.met;
    let mut unmet = Vec::new();
    let plain = |a: &[u64]| a.iter().enumerate().map(|(k, &n)| (format!("{k}:"), n)).collect::<Vec<_>>().into_iter();
    let refusals = (1..=13).chain(20..=33).map(|k: usize| (format!("{k}:"), m.numbers[k]));
    counts("refusals", refusals, &mut unmet);
    let others = [3, 4, 5, 6, 8].map(|k: usize| (format!("{k}:"), m.others[k]));
    counts("of the 6 in the Rust", others.into_iter().chain([("rooms of 1 to 8:".to_string(), m.small_rooms)]), &mut unmet);
    counts("of the accepted", FEATURES.iter().zip(m.features).map(|(f, n)| (format!("{f}:"), n)), &mut unmet);
    counts("bap", plain(&m.seen.bap), &mut unmet);
    counts("hebap", plain(&m.seen.hebap), &mut unmet);
    counts("gaqmod", plain(&m.seen.gaqmod), &mut unmet);
    let gains = [(1, 0), (1, 1), (2, 0), (2, 2), (3, 0), (3, 1), (3, 2)];
    counts("gains", gains.into_iter().map(|(mode, g)| (format!("{} under gaqmod {mode}:", 1 << g), m.seen.gain[mode][g])), &mut unmet);
    counts("tags", [("gain 2:", 0), ("gain 4:", 1)].into_iter().map(|(t, k)| (t.to_string(), m.seen.tag[k])), &mut unmet);
    counts("silent blocks", [(String::new(), m.seen.silent)].into_iter(), &mut unmet);
    counts("csnroffst 0 with a pointer above 0 unless silent, fine offsets above 0 in", SILENCE.iter().zip(m.seen.silence).map(|(what, n)| (format!("{what}:"), n)), &mut unmet);
    let decided = ["inputs:", "with enough room:", "of these accepted:", "of these with another answer by the Rust's rule:"];
    counts("decided by the silence rule", decided.iter().zip(m.decided).map(|(what, n)| (what.to_string(), n)), &mut unmet);
    counts("slots with a group of the slot before", [(String::new(), m.seen.across)].into_iter(), &mut unmet);
    counts("records", NAMES.iter().zip(m.names).map(|(name, n)| (name.to_string(), n)), &mut unmet);
    unmet
}

fn main() {
    let args: Vec<String> = std::env::args().skip(1).collect();
    let number = |k: usize, or: u64| args.get(k).map_or(or, |a: &String| a.parse().expect("a number"));
    let (count, seed) = (number(0, 1_000_000), number(1, 1));
    assert!(NAMES.windows(2).all(|w| w[0].as_bytes() < w[1].as_bytes()), "names are not in byte order");
    let mut c = Compare { both: Both::new(), differ: 0, sound: 0 };
    let mut r = Random(seed);
    let mut d = Drawer::new(r.next());
    edges(|src| {
        c.whole(src, [1; 6]);
        if src.len() > 2 {
            c.roomed(src, [src.len() % 4; 6])
        }
    });
    c.long(&mut d);
    println!("edges: {} inputs, {} differ", c.both.met.inputs, c.differ);
    if let Some(folder) = args.get(2) {
        let (before, frames) = (c.both.met.inputs, real::frames(folder));
        let mut sizes = BTreeMap::new();
        for (_, f) in &frames {
            c.about(&mut r, f);
            *sizes.entry((f[2] >> 6, f[4] >> 6, f[4] >> 4 & 3, f[4] >> 1 & 7, f[4] & 1)).or_insert(0) += 1;
        }
        println!("real frames: {} from {folder}, {} inputs, {} differ", frames.len(), c.both.met.inputs - before, c.differ);
        for ((strmtyp, fscod, numblkscod, acmod, lfeon), n) in sizes {
            println!("  strmtyp {strmtyp} fscod {fscod} numblkscod {numblkscod} acmod {acmod} lfeon {lfeon}: {n}");
        }
        assert!(!frames.is_empty(), "no frames in {folder}");
    }
    let (first, accepted) = (c.both.met.inputs, c.both.met.accepted);
    c.sound = 0;
    let kinds = [Kind::Any, Kind::Any, Kind::Any, Kind::Any, Kind::Any, Kind::Any, Kind::Hybrid, Kind::Extension, Kind::Coupling, Kind::Smallest, Kind::Faint];
    let mut drawn = 0u64;
    while c.both.met.inputs - first < count {
        let kind = r.pick(&kinds);
        let frame = d.frame(kind);
        drawn += 1;
        c.about(&mut r, &frame);
    }
    println!(
        "drawn: {} inputs about {drawn} frames, seed {seed}; {} of the frames accepted, {} inputs with enough room",
        c.both.met.inputs - first, c.sound, c.both.met.accepted - accepted
    );
    let unmet = report(&c);
    println!("{} inputs in all, {} differ", c.both.met.inputs, c.differ);
    if !unmet.is_empty() {
        println!("not met: {}", unmet.join("; "));
    }
    std::process::exit(i32::from(c.differ != 0 || count >= ENOUGH && !unmet.is_empty()));
}
