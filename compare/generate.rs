//! Draws frames, damages them, and chooses rooms; all of it follows from a seed. A frame is drawn by the numbered walk, with
//! a source that chooses each value and writes it. A plan made beforehand keeps most frames in order, so that they are
//! accepted; some plans aim at a refusal.
use crate::names::*;
use crate::numbered::{bits, Inside, Record, Seen, Source, State, Stop, Walk, CPL, LFE, SPX_BEGIN, SPX_END};
use crate::standard::{FRAME_EXPSTR, NFCHANS};

pub struct Random(pub u64);

impl Random {
    pub fn next(&mut self) -> u64 {
        self.0 = self.0.wrapping_add(0x9e37_79b9_7f4a_7c15);
        let mut z = self.0;
        z = (z ^ (z >> 30)).wrapping_mul(0xbf58_476d_1ce4_e5b9);
        z = (z ^ (z >> 27)).wrapping_mul(0x94d0_49bb_1331_11eb);
        z ^ (z >> 31)
    }
    /// A number below n.
    pub fn below(&mut self, n: usize) -> usize {
        ((u128::from(self.next()) * n as u128) >> 64) as usize
    }
    /// True k times in n.
    pub fn chance(&mut self, k: usize, n: usize) -> bool {
        self.below(n) < k
    }
    pub fn pick<T: Copy>(&mut self, from: &[T]) -> T {
        from[self.below(from.len())]
    }
}

/// Writes bits, high bit first.
pub fn put(to: &mut [u8], first: usize, width: usize, value: u32) {
    for k in 0..width {
        let (at, bit) = (first + k, 128 >> ((first + k) % 8));
        if value >> (width - 1 - k) & 1 == 1 {
            to[at / 8] |= bit
        } else {
            to[at / 8] &= !bit
        }
    }
}

/// Some bsid that are not E-AC-3's.
const OTHERS: [u32; 9] = [0, 6, 8, 9, 10, 17, 18, 24, 31];

/// What a frame is drawn for.
#[derive(Clone, Copy, PartialEq, Eq, Debug)]
pub enum Kind {
    Any,
    Hybrid,
    Extension,
    Coupling,
    Smallest,
    /// csnroffst 0, fine offsets above 0 in some slots alone, and pointers above 0 through fast gains and deltas.
    Faint,
    /// Two programmes and six blocks, with all or most of the words that a frame can hold.
    Worded,
}

/// The slots of a faint frame that have fine offsets above 0.
#[derive(Clone, Copy, PartialEq, Eq)]
enum Loud {
    None,
    Hybrid,
    Others,
    Coupling,
}

/// What is settled before a frame is drawn.
struct Plan {
    kind: Kind,
    /// The refusal that is aimed at; 0 for none.
    aim: u8,
    strmtyp: u32,
    fscod: u32,
    numblkscod: u32,
    acmod: u32,
    nfchans: usize,
    numblks: usize,
    lfeon: bool,
    /// How often metadata is there, in 16.
    often: usize,
    expstre: bool,
    ahte: bool,
    snroffststr: u32,
    bamode: bool,
    dbaflde: bool,
    skipflde: bool,
    blkstrtinfoe: bool,
    cplstre: [bool; 6],
    cplinu: [bool; 6],
    /// The frame strategies by channel and of coupling, where expstre is 0.
    code: [usize; 6],
    cplexpstr: [u8; 6],
    chexpstr: [[u8; 5]; 6],
    lfeexpstr: [u8; 6],
    /// How often spectral extension and coupling are in use, in 16.
    spx: usize,
    cpl: usize,
    /// No channel is coupled.
    bare: bool,
    /// csnroffst is below this; where it is 0, fine offsets are 0 too unless the plan is faint.
    csnr: usize,
    faint: bool,
    loud: Loud,
    /// chbwcod is at most this.
    bandwidth: usize,
    /// How lively exponents are, 0 to 3.
    lively: usize,
    /// The words that the frame announces while it is drawn.
    words: usize,
}

const AIMS: [u8; 26] = [2, 3, 5, 6, 7, 8, 9, 10, 11, 12, 13, 20, 21, 22, 23, 24, 25, 26, 27, 28, 29, 30, 31, 32, 25, 24];

fn plan(r: &mut Random, kind: Kind) -> Plan {
    let aim = if kind == Kind::Any && r.chance(1, 6) { r.pick(&AIMS) } else { 0 };
    let mut p = Plan {
        kind, aim,
        strmtyp: r.pick(&[0, 0, 1, 2]), fscod: r.below(3) as u32, numblkscod: r.pick(&[0, 0, 1, 1, 2, 2, 3, 3, 3]), acmod: r.below(8) as u32,
        nfchans: 0, numblks: 0, lfeon: r.chance(1, 3), often: r.pick(&[0, 2, 8, 12]),
        expstre: true, ahte: false, snroffststr: r.below(3) as u32, bamode: r.chance(1, 2), dbaflde: r.chance(1, 4), skipflde: r.chance(1, 4),
        blkstrtinfoe: r.chance(1, 6), cplstre: [false; 6], cplinu: [false; 6], code: [0; 6], cplexpstr: [0; 6], chexpstr: [[0; 5]; 6],
        lfeexpstr: [0; 6], spx: r.pick(&[0, 0, 8, 15]), cpl: r.pick(&[0, 0, 8, 15]), bare: r.chance(1, 16), csnr: 0, faint: r.chance(1, 3), loud: Loud::None,
        bandwidth: r.pick(&[0, 8, 8, 20, 60]), lively: r.below(4), words: 2048,
    };
    match aim {
        9 | 22 | 24 => (p.acmod, p.cpl) = (2 + r.below(6) as u32, 16),
        12 | 28 => p.dbaflde = true,
        13 => (p.numblkscod, p.fscod) = (3, 0),
        20 => p.strmtyp = 0,
        21 => p.spx = 16,
        10 | 23 => (p.spx, p.cpl) = (0, 0),
        25 => (p.spx, p.cpl) = (r.pick(&[0, 16]), r.pick(&[0, 16])),
        26 => p.lfeon = true,
        29 => p.bamode = true,
        _ => (),
    }
    match kind {
        Kind::Any => (),
        Kind::Hybrid => (p.numblkscod, p.often) = (3, 2),
        Kind::Extension => (p.spx, p.cpl, p.often) = (16, 0, 2),
        Kind::Coupling => (p.spx, p.cpl, p.acmod, p.bare, p.often) = (0, 16, 2 + r.below(6) as u32, false, 2),
        Kind::Smallest => {
            (p.numblkscod, p.acmod, p.lfeon, p.often, p.spx, p.cpl, p.bandwidth) = (0, 1, false, 0, 0, 0, 0);
            (p.strmtyp, p.bamode, p.dbaflde, p.skipflde, p.blkstrtinfoe, p.snroffststr) = (1, false, false, false, false, 0);
        }
        Kind::Worded => (p.numblkscod, p.acmod, p.lfeon, p.often, p.spx, p.cpl, p.bandwidth) = (3, 0, false, r.pick(&[14, 16, 16]), 0, 0, 0),
        Kind::Faint => {
            p.loud = r.pick(&[Loud::Hybrid, Loud::Hybrid, Loud::Hybrid, Loud::Coupling, Loud::Others, Loud::None]);
            (p.numblkscod, p.snroffststr, p.often, p.bare, p.acmod) = (3, 2, 1, false, 1 + r.below(7) as u32);
            (p.dbaflde, p.lfeon, p.cpl) = (r.chance(1, 2), r.chance(1, 2), if p.loud == Loud::Coupling { 8 } else { r.pick(&[0, 0, 16]) });
        }
    }
    p.nfchans = usize::from(NFCHANS[p.acmod as usize]);
    p.numblks = [1, 2, 3, 6][p.numblkscod as usize];
    if p.numblkscod == 3 {
        p.ahte = aim == 13 || kind == Kind::Hybrid || kind == Kind::Any && r.chance(2, 3) || kind == Kind::Faint && p.loud != Loud::Coupling;
        p.expstre = r.chance(1, 2) || [23, 24, 25].contains(&aim);
    }
    let most = match p.nfchans * p.numblks {
        _ if p.nfchans == 1 => 64,
        0..=2 => 64,
        3..=6 => 40,
        7..=12 => 30,
        _ => 24,
    };
    p.csnr = if kind == Kind::Smallest || kind == Kind::Faint || r.chance(1, 10) { 0 } else { 1 + r.below(most) };
    if p.blkstrtinfoe && p.numblkscod != 0 {
        p.words = r.pick(&[64, 128, 256, 512, 512, 1024, 1024, 2048]);
    }
    strategies(&mut p, r);
    p
}

/// Strategies, and where coupling changes: both in blocks where every set is sent anew.
fn strategies(p: &mut Plan, r: &mut Random) {
    let once = p.ahte;
    for ch in 0..5 {
        p.code[ch] = if once && r.chance(3, 4) { 0 } else { r.below(32) };
    }
    p.code[CPL] = if once && r.chance(3, 4) { 0 } else { r.below(32) };
    let brisk = r.chance(1, 5);
    let anew: [bool; 6] = std::array::from_fn(|blk| blk == 0 || brisk || r.chance(1, 3));
    let alone: [bool; 6] = std::array::from_fn(|_| once && r.chance(3, 4));
    for blk in 0..6 {
        for ch in 0..5 {
            p.chexpstr[blk][ch] = if !p.expstre {
                FRAME_EXPSTR[6 * p.code[ch] + blk]
            } else if blk == 0 || !alone[ch] && (anew[blk] || r.chance(1, 4)) {
                1 + r.below(3) as u8
            } else {
                0
            };
        }
        p.cplexpstr[blk] = if !p.expstre {
            FRAME_EXPSTR[6 * p.code[CPL] + blk]
        } else if blk == 0 || !alone[CPL] && (anew[blk] || r.chance(1, 4)) {
            1 + r.below(3) as u8
        } else {
            0
        };
        let fresh = p.chexpstr[blk][..p.nfchans].iter().all(|&x| x > 0);
        let before = blk > 0 && p.cplinu[blk - 1];
        p.cplstre[blk] = blk == 0 || if fresh && p.cplexpstr[blk] > 0 { r.chance(1, 2) } else { r.chance(1, 24) };
        p.cplinu[blk] = match (blk == 0 || fresh && p.cplexpstr[blk] > 0 && p.cplstre[blk], p.cpl) {
            (false, _) => before,
            // on and off
            (true, 8) => r.chance(if before { 1 } else { 3 }, 4),
            (true, often) => r.chance(often, 16),
        };
        p.lfeexpstr[blk] = u8::from(blk == 0 || r.chance(1, if once { 16 } else { 3 }));
    }
    match p.aim {
        23 | 25 => p.chexpstr[0][r.below(p.nfchans)] = 0,
        24 => p.cplexpstr[r.pick(&[0, 0, 1, 2])] = 0,
        26 => p.lfeexpstr[0] = 0,
        _ => (),
    }
}

/// A source that chooses.
pub struct Draw {
    pub r: Random,
    pub buf: Vec<u8>,
    plan: Plan,
    /// The channel whose strategy comes next, and the block that it is of.
    turn: (i16, usize),
}

impl Source for Draw {
    fn bytes(&self) -> usize {
        4096
    }
    fn element(&mut self, s: &State, name: u8, index: i16, first: usize, width: usize) -> u32 {
        let value = self.choose(s, name, index, width);
        put(&mut self.buf, first, width, value);
        value
    }
    fn inside(&mut self, what: Inside, first: usize, width: usize) -> u32 {
        let bad = self.plan.aim == 13;
        let value = match what {
            Inside::Gaqmod if bad => 3,
            Inside::Composite if bad && self.r.chance(1, 6) => 27 + self.r.below(5) as u32,
            Inside::Composite => self.r.below(27) as u32,
            Inside::Small if self.r.chance(1, 8) => 1 << (width - 1),
            Inside::Bsid if self.plan.aim == 6 => self.r.pick(&OTHERS),
            Inside::Bsid => self.r.pick(&[16, 16, 16, 11, 12, 13, 14, 15]),
            _ => self.r.below(1 << width) as u32,
        };
        put(&mut self.buf, first, width, value);
        value
    }
}

impl Draw {
    fn flag(&mut self, k: usize, n: usize) -> u32 {
        u32::from(self.r.chance(k, n))
    }

    /// Whether a channel's exponents are of an earlier block, so that its range must stay.
    fn reused(&self, s: &State, ch: usize) -> bool {
        s.blk > 0 && s.chexpstr[s.blk][ch] == 0 && self.plan.aim != 25
    }

    fn choose(&mut self, s: &State, name: u8, index: i16, width: usize) -> u32 {
        let aim = self.plan.aim;
        let nth = index.max(0) as usize;
        if self.plan.kind == Kind::Faint {
            if let Some(value) = self.faint(s, name, nth) {
                return value;
            }
        }
        match name {
            SYNCWORD => if aim == 2 { self.r.below(65536) as u32 } else { 0x0b77 },
            STRMTYP => if aim == 3 { 3 } else { self.plan.strmtyp },
            FRMSIZ => self.plan.words as u32 - 1,
            FSCOD => if aim == 5 { 3 } else { self.plan.fscod },
            NUMBLKSCOD => self.plan.numblkscod,
            ACMOD => self.plan.acmod,
            LFEON => self.plan.lfeon.into(),
            // as it was looked at ahead
            BSID => bits(&self.buf, 40, width),
            MIXMDATE => if aim == 20 { 1 } else { self.flag(self.plan.often, 16) },
            COMPRE | COMPR2E | CHANMAPE | INFOMDATE | ADDBSIE | PGMSCLE | PGMSCL2E | EXTPGMSCLE | PANINFOE | PANINFO2E | FRMMIXCFGINFOE
            | AUDPRODIE | AUDPRODI2E | TRANSPROCE | SPXATTENE | DYNRNGE | DYNRNG2E | CONVSNROFFSTE => self.flag(self.plan.often, 16),
            ADDBSIL => self.short(width),
            MIXDEF => if aim == 20 { 3 } else { self.r.below(4) as u32 },
            MIXDEFLEN => if aim == 20 { self.r.below(3) as u32 } else if self.r.chance(3, 4) { 8 + self.r.below(4) as u32 } else { self.r.below(32) as u32 },
            MIXDATA2E if aim == 20 => 1,
            EXPSTRE => self.plan.expstre.into(),
            AHTE => self.plan.ahte.into(),
            SNROFFSTSTR => if aim == 7 { 3 } else { self.plan.snroffststr },
            BLKSWE | DITHFLAGE => self.flag(if self.plan.kind == Kind::Smallest { 0 } else { 1 }, 3),
            BAMODE => self.plan.bamode.into(),
            DBAFLDE => self.plan.dbaflde.into(),
            SKIPFLDE => self.plan.skipflde.into(),
            CPLSTRE => self.plan.cplstre[nth].into(),
            CPLINU => self.plan.cplinu[nth].into(),
            CPLEXPSTR => self.plan.cplexpstr[nth].into(),
            CHEXPSTR => {
                let ch = if self.turn.0 == index { self.turn.1 } else { 0 };
                self.turn = (index, ch + 1);
                self.plan.chexpstr[nth][ch].into()
            }
            FRMCPLEXPSTR => self.plan.code[CPL] as u32,
            FRMCHEXPSTR => self.plan.code[nth] as u32,
            LFEEXPSTR => self.plan.lfeexpstr[nth].into(),
            CPLAHTINU | CHAHTINU | LFEAHTINU => self.flag(3, 4),
            FRMCSNROFFST | CSNROFFST => self.coarse(),
            FRMFSNROFFST | BLKFSNROFFST | CPLFSNROFFST | FSNROFFST | LFEFSNROFFST => self.fine(),
            BLKSTRTINFOE => self.plan.blkstrtinfoe.into(),
            SPXSTRE => self.flag(1, 3),
            SPXINU | CHINSPX | SPXBEGF | SPXENDF => self.extension(s, name, nth),
            ECPLINU => (aim == 9).into(),
            CHINCPL | CPLBEGF | CPLENDF => self.coupling(s, name, nth),
            CHBWCOD => if aim == 10 && self.r.chance(1, 2) { 61 + self.r.below(3) as u32 } else { self.r.below(self.plan.bandwidth + 1) as u32 },
            CPLABSEXP => if self.r.chance(1, 64) { self.r.below(16) as u32 } else { self.r.below(13) as u32 },
            EXPS_CH | CPLEXPS | LFEEXPS => self.group(s),
            BAIE => if s.codes.is_none() { (aim != 29).into() } else { self.flag(1, 3) },
            DELTBAIE => self.flag(2, 3),
            DELTBAE | CPLDELTBAE => match aim {
                12 if self.r.chance(1, 3) => 3,
                28 if self.r.chance(1, 2) => 0,
                _ if s.blk == 0 => 1 + self.r.below(2) as u32,
                _ => self.r.below(3) as u32,
            },
            DELTNSEG | CPLDELTNSEG => self.r.pick(&[0, 0, 1, 1, 2, 3, 7]),
            DELTOFFST | CPLDELTOFFST => if self.r.chance(1, 2) { self.r.below(8) as u32 } else { self.r.below(32) as u32 },
            SKIPLE => self.flag(1, 3),
            SKIPL => self.short(width),
            _ => self.r.below(1 << width) as u32,
        }
    }

    /// A length: mostly short.
    fn short(&mut self, width: usize) -> u32 {
        if self.r.chance(1, 16) { self.r.below(1 << width) as u32 } else { self.r.below(5) as u32 }
    }

    fn coarse(&mut self) -> u32 {
        let most = self.plan.csnr;
        if most == 0 { 0 } else { (most / 2 + self.r.below(most - most / 2)) as u32 }
    }

    fn fine(&mut self) -> u32 {
        if self.plan.csnr == 0 && !(self.plan.faint && self.r.chance(1, 3)) { 0 } else { self.r.below(16) as u32 }
    }

    /// What a faint frame has of its own.
    fn faint(&mut self, s: &State, name: u8, nth: usize) -> Option<u32> {
        let slot = match name {
            CPLFSNROFFST => CPL,
            LFEFSNROFFST => LFE,
            FSNROFFST => nth,
            CPLAHTINU | CHAHTINU | LFEAHTINU => return Some(self.flag(1, 2)),
            FRMFGAINCODE | FGAINCODE => return Some(self.flag(7, 8)),
            CPLFGAINCOD | FGAINCOD | LFEFGAINCOD => return Some(self.r.pick(&[7, 7, 7, 6, 0])),
            CPLDELTBA | DELTBA => return Some(self.r.pick(&[0, 0, 0, 1, 3, 7])),
            EXPS_CH_0 | LFEEXPS_0 => return Some(self.r.below(8) as u32),
            CPLABSEXP => return Some(self.r.below(4) as u32),
            _ => return None,
        };
        let loud = match self.plan.loud {
            Loud::None => false,
            Loud::Hybrid => s.ahtinu[slot],
            Loud::Others => !s.ahtinu[slot],
            Loud::Coupling => slot == CPL,
        };
        Some(if loud && self.r.chance(1, 2) { 1 + self.r.below(15) as u32 } else { 0 })
    }

    fn extension(&mut self, s: &State, name: u8, ch: usize) -> u32 {
        let held = |d: &Draw| s.spxinu && (0..s.nfchans).any(|c| s.chinspx[c] && d.reused(s, c));
        match name {
            SPXINU if s.acmod == 1 && self.reused(s, 0) => s.spxinu.into(),
            SPXINU => if held(self) { 1 } else { self.flag(self.plan.spx, 16) },
            CHINSPX => if self.reused(s, ch) { s.chinspx[ch].into() } else { self.flag(3, 4) },
            SPXBEGF if self.plan.aim == 21 => 3 + self.r.below(5) as u32,
            SPXBEGF => if held(self) { s.spxbegf as u32 } else { self.r.below(8) as u32 },
            _ => {
                let begin = SPX_BEGIN[s.spxbegf];
                let bad = self.plan.aim == 21 && self.r.chance(3, 4);
                let from: Vec<u32> = (0..8).filter(|&e| (SPX_END[e as usize] > begin) != bad).collect();
                self.r.pick(&from)
            }
        }
    }

    fn coupling(&mut self, s: &State, name: u8, ch: usize) -> u32 {
        let held = s.cplpast > 0 && s.blk > 0 && (s.cplexpstr[s.blk] == 0 || (0..s.nfchans).any(|c| s.chincpl[c] && self.reused(s, c)));
        let held = held && !(self.plan.aim == 24 && self.r.chance(1, 2));
        match name {
            CHINCPL => if self.reused(s, ch) { s.chincpl[ch].into() } else { self.flag(if self.plan.bare { 0 } else { 3 }, 4) },
            CPLBEGF if self.plan.aim == 22 => if s.spxinu { self.r.below(16) as u32 } else { 3 + self.r.below(13) as u32 },
            CPLBEGF if held => s.cplbegf as u32,
            CPLBEGF if s.spxinu => self.r.below(SPX_BEGIN[s.spxbegf] - 1) as u32,
            CPLBEGF => self.r.pick(&[0, 0, 1, 2, 3, 4, 6, 8, 10, 12, 15]),
            _ if self.plan.aim == 22 => self.r.below(s.cplbegf - 2) as u32,
            _ if held => s.cplpast.saturating_sub(3) as u32,
            _ => {
                let least = s.cplbegf.saturating_sub(2);
                (least + self.r.below(16 - least)) as u32
            }
        }
    }

    /// Three steps that keep the exponent from 0 to 24.
    fn group(&mut self, s: &State) -> u32 {
        match self.plan.aim {
            11 if self.r.chance(1, 12) => return 125 + self.r.below(3) as u32,
            27 if self.r.chance(1, 6) => return self.r.below(125) as u32,
            _ => (),
        }
        let mut at = s.prev;
        let mut group = 0;
        for _ in 0..3 {
            let step = match self.plan.lively {
                0 => 2,
                1 => self.r.pick(&[2, 2, 2, 2, 1, 3]),
                2 => self.r.pick(&[0, 1, 2, 3, 4]),
                _ => self.r.pick(&[0, 1, 2, 3, 3, 4, 4]),
            };
            let low = (2 - at).clamp(0, 4);
            let high = (26 - at).clamp(0, 4);
            let step = step.clamp(low.min(high), high);
            at += step - 2;
            group = 5 * group + step as u32;
        }
        group
    }
}

/// Draws a frame. The buffers are reused from frame to frame.
pub struct Drawer {
    pub r: Random,
    buf: Vec<u8>,
    s: State,
    seen: Seen,
    records: Vec<Record>,
}

impl Drawer {
    pub fn new(seed: u64) -> Drawer {
        Drawer { r: Random(seed), buf: vec![0; 4096], s: State::new(), seen: Seen::default(), records: Vec::new() }
    }

    pub fn frame(&mut self, kind: Kind) -> Vec<u8> {
        loop {
            if let Some(frame) = self.attempt(kind) {
                return frame;
            }
        }
    }

    fn attempt(&mut self, kind: Kind) -> Option<Vec<u8>> {
        let plan = plan(&mut self.r, kind);
        let mut buf = std::mem::take(&mut self.buf);
        fill(&mut self.r, &mut buf);
        let mut d = Draw { r: Random(self.r.next()), buf, plan, turn: (-1, 0) };
        self.s = State::new();
        self.records.clear();
        let mut w = Walk { src: &mut d, s: &mut self.s, seen: &mut self.seen, records: &mut self.records, room: usize::MAX, at: 0, limit: 8 * 4096, greatest: 4096, block: -1, by_request: false };
        let end = w.audio();
        let at = w.at;
        let Draw { mut r, buf, plan, .. } = d;
        self.buf = buf;
        let bits = match end {
            Ok(()) => self.finish(&mut r, &plan),
            // one that outgrew its frame is kept now and then
            Err(Stop(8, _)) if !r.chance(1, 8) || kind != Kind::Any => return None,
            Err(Stop(8, _)) => 16 * plan.words,
            Err(_) => (at + r.below(400)).clamp(48, 32768).next_multiple_of(16),
        };
        put(&mut self.buf, 21, 11, bits as u32 / 16 - 1);
        Some(self.buf[..bits / 8].to_vec())
    }

    /// Settles the size of a frame whose audio is drawn, and its tail.
    fn finish(&mut self, r: &mut Random, plan: &Plan) -> usize {
        let end = self.s.audio_end;
        let sent = plan.blkstrtinfoe && plan.numblkscod != 0;
        let least = if sent { 8 * plan.words + 16 } else { 48 };
        let most = 16 * plan.words;
        let fit = |bits: usize| bits.next_multiple_of(16).clamp(least, most);
        let bits = match plan.aim {
            8 => fit(48 + r.below(end)),
            30 => fit(end + r.below(18)),
            31 => fit(end + 18),
            32 => fit(end + 32 + r.below(64)),
            _ => match r.below(8) {
                0..=3 => fit(end + 18),
                4 | 5 => fit(end + 32),
                6 => fit(end + 32 + r.below(800)),
                _ => if r.chance(1, 8) { most } else { fit(end + 32 + r.below(8000)) },
            },
        };
        let left = bits.saturating_sub(end);
        let auxdatae = match plan.aim {
            31 | 32 => true,
            _ => left >= 32 && r.chance(1, 2),
        };
        if left < 18 {
            return bits;
        }
        put(&mut self.buf, bits - 18, 1, auxdatae.into());
        if auxdatae && left >= 32 {
            let auxbits = left - 32;
            let auxdatal = match plan.aim {
                32 => (auxbits + 1 + r.below(100)).min(16383),
                _ => r.pick(&[0, auxbits, auxbits / 2, r.0 as usize % (auxbits + 1)]).min(16383),
            };
            put(&mut self.buf, bits - 32, 14, auxdatal as u32);
        }
        bits
    }
}

/// What lies under the frame shows in its mantissas and spans.
fn fill(r: &mut Random, buf: &mut [u8]) {
    for eight in buf.chunks_exact_mut(8) {
        eight.copy_from_slice(&r.next().to_be_bytes())
    }
}

/// A damaged copy. `records` are those of the frame, as far as it can be read.
pub fn damage(r: &mut Random, frame: &[u8], records: &[Record]) -> Vec<u8> {
    let mut out = frame.to_vec();
    if frame.len() < 6 || records.is_empty() {
        return out;
    }
    let inside = |x: &Record| x.width > 0 && x.width <= 32;
    let any = |r: &mut Random| loop {
        let x = records[r.below(records.len())];
        if inside(&x) {
            return x;
        }
    };
    let flip = |out: &mut Vec<u8>, bit: usize| {
        if bit < 8 * out.len() {
            out[bit / 8] ^= 128 >> (bit % 8)
        }
    };
    let announce = |out: &mut Vec<u8>, words: usize| put(out, 21, 11, words.clamp(1, 2048) as u32 - 1);
    match r.below(13) {
        0..=2 => {
            let x = any(r);
            flip(&mut out, usize::from(x.first) + r.below(x.width.into()))
        }
        3 => {
            for _ in 0..1 + r.below(4) {
                let x = any(r);
                flip(&mut out, usize::from(x.first) + r.below(x.width.into()))
            }
        }
        4 => {
            let x = any(r);
            let value = r.next() as u32;
            put(&mut out, x.first.into(), x.width.into(), value >> (32 - x.width))
        }
        5 => flip(&mut out, r.below(8 * frame.len())),
        // the slice is cut, or goes on after the frame
        6 => out.truncate(r.pick(&[frame.len() - 1, frame.len() - 2, r.0 as usize % frame.len()])),
        7 => {
            for _ in 0..1 + r.below(6) {
                out.push(r.next() as u8)
            }
        }
        // the frame announces another size; the slice has it or not
        8 => {
            let words = (frame.len() / 2 + r.pick(&[0, 1, 2, 3, 4])).saturating_sub(2);
            announce(&mut out, words);
            if r.chance(1, 2) {
                out.resize(2 * words.max(3), 0x5a)
            }
        }
        // the frame ends near an element
        9 | 10 => {
            let x = records[r.below(records.len())];
            let bit = usize::from(x.first) + r.below(usize::from(x.width) + 1);
            announce(&mut out, (bit + r.below(16)) / 16)
        }
        11 => put(&mut out, 40, 5, r.pick(&OTHERS)),
        // other bits from an element on
        _ => {
            let first = usize::from(any(r).first).max(45) / 8 + 1;
            let ones = r.below(3);
            for byte in out.iter_mut().skip(first) {
                *byte = match ones {
                    0 => 0,
                    1 => (r.next() & r.next() & r.next()) as u8,
                    _ => r.next() as u8,
                }
            }
        }
    }
    out
}

/// Slices at the edges: all of at most two bytes; all of six bytes with a frame of six bytes; the shortest prefixes and
/// sizes of some patterns.
pub fn edges(mut each: impl FnMut(&[u8])) {
    each(&[]);
    for a in 0..=255u8 {
        each(&[a]);
        for b in 0..=255u8 {
            each(&[a, b]);
            each(&[0x0b, 0x77, 0, 2, a, b]);
        }
    }
    for strmtyp in 0..4u8 {
        for frmsiz in 0..8u8 {
            for last in [0x00, 0x58, 0x80, 0x87, 0xff] {
                let whole = [0x0b, 0x77, strmtyp << 6, frmsiz, 0x3e, last, 0, 0x10, 0, 0, 0xff, 0, 0, 0, 0, 0, 0, 0];
                for n in 0..=whole.len() {
                    each(&whole[..n]);
                    let mut other = whole;
                    other[4] = last;
                    each(&other[..n]);
                }
            }
        }
    }
}
