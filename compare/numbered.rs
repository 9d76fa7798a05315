//! A numbered reading of an E-AC-3 syncframe (A/52 Annex E), written for the comparison. For every slice and every room it
//! gives what the Rust does not: the number of a refusal, its place, and the records kept. It agrees with the Rust on all
//! that the Rust gives, but where a request departs from it: bsid is looked at first, and silence goes by every slot in use.
//! The bits come from a source, so that the same walk also draws frames (generate.rs).
use crate::names::*;
use crate::pointers::{pointers, snroffset, Delta, Request};
use crate::standard::*;

/// The slots: channels 0 to 4, coupling, LFE.
pub const CPL: usize = 5;
pub const LFE: usize = 6;

#[derive(Clone, Copy, PartialEq, Eq, Debug, Default)]
pub struct Record {
    pub name: u8,
    pub block: i8,
    pub index: i16,
    pub first: u16,
    pub width: u16,
    pub value: u32,
}

/// Bits that are looked at inside a span, or ahead.
#[derive(Clone, Copy, PartialEq, Eq)]
pub enum Inside {
    Gaqmod,
    Gain,
    Composite,
    Small,
    Auxdatae,
    Bsid,
}

/// Where the bits come from.
pub trait Source {
    /// The bytes that are there.
    fn bytes(&self) -> usize;
    /// The value of an element. `s` is all that the walk knows before it.
    fn element(&mut self, s: &State, name: u8, index: i16, first: usize, width: usize) -> u32;
    fn inside(&mut self, what: Inside, first: usize, width: usize) -> u32;
}

/// A slice that is read.
pub struct Slice<'a>(pub &'a [u8]);

/// Up to 32 bits from a place on, high bit first; all of them are there.
pub fn bits(src: &[u8], first: usize, width: usize) -> u32 {
    let byte = first / 8;
    let word = match src.get(byte..byte + 8) {
        Some(eight) => u64::from_be_bytes(eight.try_into().unwrap()),
        None => {
            let mut eight = [0; 8];
            eight[..src.len() - byte].copy_from_slice(&src[byte..]);
            u64::from_be_bytes(eight)
        }
    };
    ((word << (first % 8)) >> 1 >> (63 - width)) as u32
}

impl Source for Slice<'_> {
    fn bytes(&self) -> usize {
        self.0.len()
    }
    fn element(&mut self, _: &State, _: u8, _: i16, first: usize, width: usize) -> u32 {
        bits(self.0, first, width)
    }
    fn inside(&mut self, _: Inside, first: usize, width: usize) -> u32 {
        bits(self.0, first, width)
    }
}

/// What was met on the way.
#[derive(Clone, Default)]
pub struct Seen {
    pub bap: [u64; 16],
    pub hebap: [u64; 20],
    pub gaqmod: [u64; 4],
    /// By gaqmod and gain 1, 2, 4.
    pub gain: [[u64; 3]; 4],
    /// Tags by gain 2 and 4.
    pub tag: [u64; 2],
    /// Blocks whose offsets are all 0.
    pub silent: u64,
    /// What the silence rule goes by, of blocks with a pointer above 0 without it.
    pub silence: [u64; SILENCE.len()],
    /// Slots that go on with a group of mantissas that a slot before them opened.
    pub across: u64,
}

/// What the silence rule goes by in a block with csnroffst 0, in which a slot that is asked for has a pointer above 0 where the
/// block is not silent. The first `DECIDED` are silent by the slots that are asked for alone, and not by those in use.
pub const SILENCE: [&str; 8] = [
    "channels read before", "coupling read before", "LFE read before", "several of these", "a slot that is asked for",
    "none, coupling not in use", "none, slots read before", "none",
];
pub const DECIDED: usize = 4;

impl Seen {
    /// Blocks that the Rust takes for silent, and the rule does not, with a pointer above 0.
    pub fn decided(&self) -> u64 {
        self.silence[..DECIDED].iter().sum()
    }
}

/// All that the walk knows. Places in arrays go by block, channel or slot.
#[derive(Clone)]
pub struct State {
    pub strmtyp: u32,
    pub substreamid: u32,
    pub frmsiz: usize,
    pub fscod: usize,
    pub numblkscod: u32,
    pub numblks: usize,
    pub acmod: u32,
    pub nfchans: usize,
    pub lfeon: bool,
    pub bsid: u32,
    pub expstre: bool,
    pub ahte: bool,
    pub snroffststr: u32,
    pub transproce: bool,
    pub blkswe: bool,
    pub dithflage: bool,
    pub bamode: bool,
    pub frmfgaincode: bool,
    pub dbaflde: bool,
    pub skipflde: bool,
    pub spxattene: bool,
    pub cplstre: [bool; 6],
    pub cplinu: [bool; 6],
    pub cplexpstr: [u8; 6],
    pub chexpstr: [[u8; 5]; 6],
    pub lfeexpstr: [u8; 6],
    pub ahtinu: [bool; 7],
    pub blk: usize,
    pub spxinu: bool,
    pub chinspx: [bool; 5],
    pub spxbegf: usize,
    pub spx_begin: usize,
    pub spx_end: usize,
    pub spxbndstrc: [u8; 17],
    pub firstspxcos: [bool; 5],
    pub chincpl: [bool; 5],
    pub phsflginu: bool,
    pub cplbegf: usize,
    /// The first coupling sub-band past the range: cplendf + 3.
    pub cplpast: usize,
    pub cplbndstrc: [u8; 18],
    pub ncplbnd: usize,
    pub firstcplcos: [bool; 5],
    pub firstcplleak: bool,
    pub chbwcod: [Option<usize>; 5],
    pub cplstrt: usize,
    pub cplend: usize,
    pub endmant: [usize; 5],
    /// The exponent before the next one, while a set is read.
    pub prev: i32,
    pub exps: [[u8; 256]; 7],
    /// The range of the exponents that are held; empty for none.
    pub held: [(usize, usize); 7],
    pub codes: Option<[u8; 5]>,
    pub csnroffst: u8,
    pub fsnroffst: [u8; 7],
    pub fgaincod: [u8; 7],
    pub leak: (u8, u8),
    pub deltas: [[Delta; 8]; 7],
    pub ndeltas: [usize; 7],
    pub baps: [[u8; 256]; 7],
    pub aht_read: [bool; 7],
    pub aht_tags: u64,
    pub spx_blocks: u64,
    pub cpl_blocks: u64,
    pub block_starts: [usize; 6],
    pub mantissa_starts: [usize; 6],
    pub audio_end: usize,
    /// The bits that each slot took, by block.
    pub slot_bits: [[usize; 7]; 6],
}

impl State {
    pub fn new() -> State {
        State {
            strmtyp: 0, substreamid: 0, frmsiz: 0, fscod: 0, numblkscod: 0, numblks: 0, acmod: 0, nfchans: 0, lfeon: false, bsid: 0,
            expstre: true, ahte: false, snroffststr: 0, transproce: false, blkswe: false, dithflage: false, bamode: false,
            frmfgaincode: false, dbaflde: false, skipflde: false, spxattene: false, cplstre: [false; 6], cplinu: [false; 6],
            cplexpstr: [0; 6], chexpstr: [[0; 5]; 6], lfeexpstr: [0; 6], ahtinu: [false; 7], blk: 0, spxinu: false,
            chinspx: [false; 5], spxbegf: 0, spx_begin: 0, spx_end: 0, spxbndstrc: DEF_SPX_BNDSTRC, firstspxcos: [true; 5],
            chincpl: [false; 5], phsflginu: false, cplbegf: 0, cplpast: 0, cplbndstrc: DEF_CPL_BNDSTRC, ncplbnd: 0,
            firstcplcos: [true; 5], firstcplleak: true, chbwcod: [None; 5], cplstrt: 0, cplend: 0, endmant: [0; 5], prev: 0,
            exps: [[0; 256]; 7], held: [(0, 0); 7], codes: None, csnroffst: 0, fsnroffst: [0; 7], fgaincod: [0; 7], leak: (0, 0),
            deltas: [[Delta::default(); 8]; 7], ndeltas: [0; 7], baps: [[0; 256]; 7], aht_read: [false; 7], aht_tags: 0,
            spx_blocks: 0, cpl_blocks: 0, block_starts: [0; 6], mantissa_starts: [0; 6], audio_end: 0,
            slot_bits: [[0; 7]; 6],
        }
    }

    /// The bins of a slot in this block.
    pub fn range(&self, slot: usize) -> (usize, usize) {
        match slot {
            CPL => (self.cplstrt, self.cplend),
            LFE => (0, 7),
            _ => (0, self.endmant[slot]),
        }
    }
}

/// A refusal: its number and its place.
pub struct Stop(pub u8, pub usize);

type Step<T> = Result<T, Stop>;

pub struct Walk<'a, S> {
    pub src: &'a mut S,
    pub s: &'a mut State,
    pub seen: &'a mut Seen,
    pub records: &'a mut Vec<Record>,
    pub room: usize,
    pub at: usize,
    pub limit: usize,
    /// The bytes of the longest frame that is taken.
    pub greatest: usize,
    pub block: i8,
    /// The silence rule of the Rust, which looks at the slots that are asked for alone.
    pub by_request: bool,
}

/// The 76 numbers of an answer: number, place, records, and the frame, of which the last 42 are bits by block and slot.
pub type Answer = [u64; 76];

/// The bytes of the longest frame, and of the longest that the settop entry takes.
pub const FULL: usize = 4096;
pub const SETTOP: usize = 1536;

/// Reads a slice with a room.
pub fn read(src: &[u8], room: usize, records: &mut Vec<Record>, s: &mut State, seen: &mut Seen) -> Answer {
    read_as(src, FULL, false, room, records, s, seen)
}

/// Likewise, where longer frames are refused.
pub fn read_up_to(src: &[u8], greatest: usize, room: usize, records: &mut Vec<Record>, s: &mut State, seen: &mut Seen) -> Answer {
    read_as(src, greatest, false, room, records, s, seen)
}

/// Likewise, with the silence rule of the Rust.
pub fn read_by_request(src: &[u8], room: usize, records: &mut Vec<Record>, s: &mut State, seen: &mut Seen) -> Answer {
    read_as(src, FULL, true, room, records, s, seen)
}

fn read_as(src: &[u8], greatest: usize, by_request: bool, room: usize, records: &mut Vec<Record>, s: &mut State, seen: &mut Seen) -> Answer {
    records.clear();
    *s = State::new();
    let mut w = Walk { src: &mut Slice(src), s, seen, records, room, at: 0, limit: 8 * src.len(), greatest, block: -1, by_request };
    let end = w.audio().and_then(|()| w.tail());
    let mut answer = [0; 76];
    match end {
        Err(Stop(number, place)) => (answer[0], answer[1]) = (u64::from(number), place as u64),
        Ok(()) => {
            answer[1] = w.at as u64;
            frame(s, &mut answer);
        }
    }
    answer[2] = records.len() as u64;
    answer
}

fn frame(s: &State, a: &mut Answer) {
    let whole = [2 * (s.frmsiz + 1), s.bsid as usize, s.acmod as usize, s.lfeon as usize, s.fscod, s.strmtyp as usize, s.substreamid as usize, s.numblks];
    for (k, v) in whole.into_iter().chain(s.block_starts).chain(s.mantissa_starts).chain([s.audio_end]).enumerate() {
        a[3 + k] = v as u64
    }
    a[24] = s.aht_tags;
    for slot in 0..7 {
        a[25 + slot] = u64::from(s.ahtinu[slot])
    }
    (a[32], a[33]) = (s.spx_blocks, s.cpl_blocks);
    for (k, &bits) in s.slot_bits.iter().flatten().enumerate() {
        a[34 + k] = bits as u64
    }
}

impl<S: Source> Walk<'_, S> {
    fn stop<T>(&self, number: u8) -> Step<T> {
        Err(Stop(number, self.at))
    }

    fn fits(&self, width: usize) -> Step<()> {
        if self.at + width > self.limit { self.stop(8) } else { Ok(()) }
    }

    fn keep(&mut self, name: u8, index: i16, first: usize, value: u32) -> Step<()> {
        if self.records.len() == self.room {
            return Err(Stop(33, first));
        }
        self.records.push(Record { name, block: self.block, index, first: first as u16, width: (self.at - first) as u16, value });
        Ok(())
    }

    fn element(&mut self, name: u8, index: i16, width: usize) -> Step<u32> {
        self.fits(width)?;
        let first = self.at;
        let value = self.src.element(self.s, name, index, first, width);
        self.at += width;
        self.keep(name, index, first, value)?;
        Ok(value)
    }

    fn n(&mut self, name: u8, width: usize) -> Step<u32> {
        self.element(name, -1, width)
    }

    fn nth(&mut self, name: u8, index: usize, width: usize) -> Step<u32> {
        self.element(name, index as i16, width)
    }

    fn flag(&mut self, name: u8) -> Step<bool> {
        Ok(self.n(name, 1)? == 1)
    }

    fn nth_flag(&mut self, name: u8, index: usize) -> Step<bool> {
        Ok(self.nth(name, index, 1)? == 1)
    }

    fn span(&mut self, name: u8, width: usize) -> Step<()> {
        self.fits(width)?;
        let first = self.at;
        self.at += width;
        self.keep(name, -1, first, 0)
    }

    /// An element behind its flag.
    fn maybe(&mut self, flag: u8, name: u8, width: usize) -> Step<bool> {
        let there = self.flag(flag)?;
        if there {
            self.n(name, width)?;
        }
        Ok(there)
    }

    /// A flag for each channel.
    fn flags(&mut self, name: u8) -> Step<()> {
        for ch in 0..self.s.nfchans {
            self.nth(name, ch, 1)?;
        }
        Ok(())
    }

    /// All up to the last block's end.
    pub fn audio(&mut self) -> Step<()> {
        self.syncinfo()?;
        self.bsi()?;
        self.audfrm()?;
        for blk in 0..self.s.numblks {
            self.s.blk = blk;
            self.block = blk as i8;
            self.audblk()?;
        }
        self.block = -1;
        self.s.audio_end = self.at;
        Ok(())
    }

    fn syncinfo(&mut self) -> Step<()> {
        if self.src.bytes() < 6 {
            return self.stop(1);
        }
        if self.n(SYNCWORD, 16)? != 0x0b77 {
            return self.stop(2);
        }
        // AC-3 and E-AC-3 have bsid at the same place
        if !(11..=16).contains(&self.src.inside(Inside::Bsid, 40, 5)) {
            return Err(Stop(6, 45));
        }
        self.s.strmtyp = self.n(STRMTYP, 2)?;
        self.s.substreamid = self.n(SUBSTREAMID, 3)?;
        self.s.frmsiz = self.n(FRMSIZ, 11)? as usize;
        if self.s.strmtyp == 3 {
            return self.stop(3);
        }
        let bytes = 2 * (self.s.frmsiz + 1);
        if bytes > self.greatest {
            return self.stop(46);
        }
        if self.src.bytes() < bytes {
            return self.stop(4);
        }
        self.limit = 8 * bytes;
        Ok(())
    }

    fn bsi(&mut self) -> Step<()> {
        self.s.fscod = self.n(FSCOD, 2)? as usize;
        if self.s.fscod == 3 {
            return self.stop(5);
        }
        self.s.numblkscod = self.n(NUMBLKSCOD, 2)?;
        self.s.numblks = [1, 2, 3, 6][self.s.numblkscod as usize];
        self.s.acmod = self.n(ACMOD, 3)?;
        self.s.nfchans = usize::from(NFCHANS[self.s.acmod as usize]);
        self.s.lfeon = self.flag(LFEON)?;
        self.s.bsid = self.n(BSID, 5)?;
        let dual = self.s.acmod == 0;
        self.n(DIALNORM, 5)?;
        self.maybe(COMPRE, COMPR, 8)?;
        if dual {
            self.n(DIALNORM2, 5)?;
            self.maybe(COMPR2E, COMPR2, 8)?;
        }
        if self.s.strmtyp == 1 {
            self.maybe(CHANMAPE, CHANMAP, 16)?;
        }
        if self.flag(MIXMDATE)? {
            self.mixing()?;
        }
        if self.flag(INFOMDATE)? {
            self.information()?;
        }
        if self.s.strmtyp == 0 && self.s.numblkscod != 3 {
            self.n(CONVSYNC, 1)?;
        }
        if self.s.strmtyp == 2 && (self.s.numblkscod == 3 || self.flag(BLKID)?) {
            self.n(FRMSIZECOD, 6)?;
        }
        if self.flag(ADDBSIE)? {
            let addbsil = self.n(ADDBSIL, 6)? as usize;
            self.span(ADDBSI, 8 * (addbsil + 1))?;
        }
        Ok(())
    }

    fn mixing(&mut self) -> Step<()> {
        let (centre, surround) = (self.s.acmod & 1 != 0, self.s.acmod & 4 != 0);
        if self.s.acmod > 2 {
            self.n(DMIXMOD, 2)?;
            if centre {
                self.n(LTRTCMIXLEV, 3)?;
                self.n(LOROCMIXLEV, 3)?;
            }
        }
        if surround {
            self.n(LTRTSURMIXLEV, 3)?;
            self.n(LOROSURMIXLEV, 3)?;
        }
        if self.s.lfeon {
            self.maybe(LFEMIXLEVCODE, LFEMIXLEVCOD, 5)?;
        }
        if self.s.strmtyp == 0 { self.programme() } else { Ok(()) }
    }

    /// The mixing metadata of an independent substream.
    fn programme(&mut self) -> Step<()> {
        let dual = self.s.acmod == 0;
        self.maybe(PGMSCLE, PGMSCL, 6)?;
        if dual {
            self.maybe(PGMSCL2E, PGMSCL2, 6)?;
        }
        self.maybe(EXTPGMSCLE, EXTPGMSCL, 6)?;
        match self.n(MIXDEF, 2)? {
            1 => self.premix()?,
            2 => {
                self.n(MIXDATA, 12)?;
            }
            3 => self.mixdata()?,
            _ => (),
        }
        if self.s.acmod < 2 {
            self.pan(PANINFOE, PANMEAN, PANINFO)?;
            if dual {
                self.pan(PANINFO2E, PANMEAN2, PANINFO2)?;
            }
        }
        if !self.flag(FRMMIXCFGINFOE)? {
            return Ok(());
        }
        if self.s.numblkscod == 0 {
            self.n(BLKMIXCFGINFO, 5)?;
            return Ok(());
        }
        for blk in 0..self.s.numblks {
            if self.nth_flag(BLKMIXCFGINFOE, blk)? {
                self.nth(BLKMIXCFGINFO, blk, 5)?;
            }
        }
        Ok(())
    }

    fn premix(&mut self) -> Step<()> {
        self.n(PREMIXCMPSEL, 1)?;
        self.n(DRCSRC, 1)?;
        self.n(PREMIXCMPSCL, 3)?;
        Ok(())
    }

    fn pan(&mut self, flag: u8, mean: u8, info: u8) -> Step<()> {
        if self.maybe(flag, mean, 8)? {
            self.n(info, 6)?;
        }
        Ok(())
    }

    fn mixdata(&mut self) -> Step<()> {
        let bits = 8 * (self.n(MIXDEFLEN, 5)? as usize + 2);
        let past = self.at + bits;
        if self.flag(MIXDATA2E)? {
            self.premix()?;
            for scale in [EXTPGMLSCL, EXTPGMCSCL, EXTPGMRSCL, EXTPGMLSSCL, EXTPGMRSSCL, EXTPGMLFESCL, DMIXSCL] {
                self.maybe(SCALE_EXISTS, scale, 4)?;
            }
            if self.flag(ADDCHE)? {
                self.maybe(SCALE_EXISTS, EXTPGMAUX1SCL, 4)?;
                self.maybe(SCALE_EXISTS, EXTPGMAUX2SCL, 4)?;
            }
        }
        if self.flag(MIXDATA3E)? {
            self.n(SPCHDAT, 5)?;
            if self.maybe(ADDSPCHDATE, SPCHDAT1, 5)? {
                self.n(SPCHAN1ATT, 2)?;
                if self.maybe(ADDSPCHDAT1E, SPCHDAT2, 5)? {
                    self.n(SPCHAN2ATT, 3)?;
                }
            }
        }
        if self.at > past {
            return self.stop(20);
        }
        self.span(MIXDATA, past - self.at)
    }

    fn information(&mut self) -> Step<()> {
        self.n(BSMOD, 3)?;
        self.n(COPYRIGHTB, 1)?;
        self.n(ORIGBS, 1)?;
        if self.s.acmod == 2 {
            self.n(DSURMOD, 2)?;
            self.n(DHEADPHONMOD, 2)?;
        }
        if self.s.acmod > 5 {
            self.n(DSUREXMOD, 2)?;
        }
        if self.maybe(AUDPRODIE, MIXLEVEL, 5)? {
            self.n(ROOMTYP, 2)?;
            self.n(ADCONVTYP, 1)?;
        }
        if self.s.acmod == 0 && self.maybe(AUDPRODI2E, MIXLEVEL2, 5)? {
            self.n(ROOMTYP2, 2)?;
            self.n(ADCONVTYP2, 1)?;
        }
        self.n(SOURCEFSCOD, 1)?;
        Ok(())
    }

    fn audfrm(&mut self) -> Step<()> {
        if self.s.numblkscod == 3 {
            self.s.expstre = self.flag(EXPSTRE)?;
            self.s.ahte = self.flag(AHTE)?;
        }
        self.s.snroffststr = self.n(SNROFFSTSTR, 2)?;
        if self.s.snroffststr == 3 {
            return self.stop(7);
        }
        self.s.transproce = self.flag(TRANSPROCE)?;
        self.s.blkswe = self.flag(BLKSWE)?;
        self.s.dithflage = self.flag(DITHFLAGE)?;
        self.s.bamode = self.flag(BAMODE)?;
        self.s.frmfgaincode = self.flag(FRMFGAINCODE)?;
        self.s.dbaflde = self.flag(DBAFLDE)?;
        self.s.skipflde = self.flag(SKIPFLDE)?;
        self.s.spxattene = self.flag(SPXATTENE)?;
        self.coupling_in_use()?;
        self.strategies()?;
        if self.s.strmtyp == 0 && (self.s.numblkscod == 3 || self.flag(CONVEXPSTRE)?) {
            for ch in 0..self.s.nfchans {
                self.nth(CONVEXPSTR, ch, 5)?;
            }
        }
        if self.s.ahte {
            self.hybrid_in_use()?;
        }
        if self.s.snroffststr == 0 {
            self.s.csnroffst = self.n(FRMCSNROFFST, 6)? as u8;
            self.s.fsnroffst = [self.n(FRMFSNROFFST, 4)? as u8; 7];
        }
        for ch in 0..if self.s.transproce { self.s.nfchans } else { 0 } {
            if self.nth_flag(CHINTRANSPROC, ch)? {
                self.nth(TRANSPROCLOC, ch, 10)?;
                self.nth(TRANSPROCLEN, ch, 8)?;
            }
        }
        for ch in 0..if self.s.spxattene { self.s.nfchans } else { 0 } {
            if self.nth_flag(CHINSPXATTEN, ch)? {
                self.nth(SPXATTENCOD, ch, 5)?;
            }
        }
        if self.s.numblkscod != 0 && self.flag(BLKSTRTINFOE)? {
            // 4 bits and those of a number below the frame's words, for each block but the first
            let words = self.s.frmsiz as u32 + 1;
            let width = 4 + (32 - (words - 1).leading_zeros()) as usize;
            self.span(BLKSTRTINFO, (self.s.numblks - 1) * width)?;
        }
        Ok(())
    }

    fn coupling_in_use(&mut self) -> Step<()> {
        if self.s.acmod < 2 {
            return Ok(());
        }
        for blk in 0..self.s.numblks {
            self.s.cplstre[blk] = blk == 0 || self.nth_flag(CPLSTRE, blk)?;
            self.s.cplinu[blk] = if self.s.cplstre[blk] { self.nth_flag(CPLINU, blk)? } else { self.s.cplinu[blk - 1] };
        }
        Ok(())
    }

    fn strategies(&mut self) -> Step<()> {
        let six = |code: u32| -> [u8; 6] { FRAME_EXPSTR[6 * code as usize..][..6].try_into().unwrap() };
        if self.s.expstre {
            for blk in 0..self.s.numblks {
                if self.s.cplinu[blk] {
                    self.s.cplexpstr[blk] = self.nth(CPLEXPSTR, blk, 2)? as u8;
                }
                for ch in 0..self.s.nfchans {
                    self.s.chexpstr[blk][ch] = self.nth(CHEXPSTR, blk, 2)? as u8;
                }
            }
        } else {
            if self.s.cplinu.contains(&true) {
                self.s.cplexpstr = six(self.n(FRMCPLEXPSTR, 5)?);
            }
            for ch in 0..self.s.nfchans {
                let code = self.nth(FRMCHEXPSTR, ch, 5)?;
                for blk in 0..6 {
                    self.s.chexpstr[blk][ch] = six(code)[blk];
                }
            }
        }
        for blk in 0..if self.s.lfeon { self.s.numblks } else { 0 } {
            self.s.lfeexpstr[blk] = self.nth(LFEEXPSTR, blk, 1)? as u8;
        }
        Ok(())
    }

    /// A slot may use the transform where its exponents are sent once in the six blocks.
    fn hybrid_in_use(&mut self) -> Step<()> {
        let coupled = self.s.cplinu == [true; 6];
        if coupled && (0..6).filter(|&b| self.s.cplstre[b] || self.s.cplexpstr[b] > 0).count() == 1 {
            self.s.ahtinu[CPL] = self.flag(CPLAHTINU)?;
        }
        for ch in 0..self.s.nfchans {
            if (0..6).filter(|&b| self.s.chexpstr[b][ch] > 0).count() == 1 {
                self.s.ahtinu[ch] = self.nth_flag(CHAHTINU, ch)?;
            }
        }
        if self.s.lfeon && self.s.lfeexpstr.iter().filter(|&&x| x > 0).count() == 1 {
            self.s.ahtinu[LFE] = self.flag(LFEAHTINU)?;
        }
        Ok(())
    }

    fn audblk(&mut self) -> Step<()> {
        self.s.block_starts[self.s.blk] = self.at;
        self.dynamics()?;
        self.spx_strategy()?;
        self.spx_coordinates()?;
        self.cpl_strategy()?;
        self.cpl_coordinates()?;
        self.rematrixing()?;
        self.bandwidths()?;
        self.exponents()?;
        self.parameters()?;
        if self.s.dbaflde && self.flag(DELTBAIE)? {
            self.deltas()?;
        }
        if self.s.skipflde && self.flag(SKIPLE)? {
            let skipl = self.n(SKIPL, 9)? as usize;
            self.span(SKIPFLD, 8 * skipl)?;
        }
        self.allocate()?;
        self.s.mantissa_starts[self.s.blk] = self.at;
        self.mantissas()
    }

    fn dynamics(&mut self) -> Step<()> {
        if self.s.blkswe {
            self.flags(BLKSW)?;
        }
        if self.s.dithflage {
            self.flags(DITHFLAG)?;
        }
        self.maybe(DYNRNGE, DYNRNG, 8)?;
        if self.s.acmod == 0 {
            self.maybe(DYNRNG2E, DYNRNG2, 8)?;
        }
        Ok(())
    }

    fn spx_strategy(&mut self) -> Step<()> {
        if self.s.blk != 0 && !self.flag(SPXSTRE)? {
            return Ok(());
        }
        self.s.spxinu = self.flag(SPXINU)?;
        if !self.s.spxinu {
            self.s.chinspx = [false; 5];
            self.s.firstspxcos = [true; 5];
            return Ok(());
        }
        for ch in 0..self.s.nfchans {
            self.s.chinspx[ch] = self.s.acmod == 1 || self.nth_flag(CHINSPX, ch)?;
        }
        self.n(SPXSTRTF, 2)?;
        self.s.spxbegf = self.n(SPXBEGF, 3)? as usize;
        let spxendf = self.n(SPXENDF, 3)? as usize;
        self.s.spx_begin = SPX_BEGIN[self.s.spxbegf];
        self.s.spx_end = SPX_END[spxendf];
        if self.s.spx_begin >= self.s.spx_end {
            return self.stop(21);
        }
        if self.flag(SPXBNDSTRCE)? {
            for bnd in self.s.spx_begin + 1..self.s.spx_end {
                self.s.spxbndstrc[bnd] = self.nth(SPXBNDSTRC, bnd, 1)? as u8;
            }
        }
        Ok(())
    }

    fn spx_coordinates(&mut self) -> Step<()> {
        if !self.s.spxinu {
            return Ok(());
        }
        self.s.spx_blocks += 1;
        let joined = &self.s.spxbndstrc[self.s.spx_begin + 1..self.s.spx_end];
        let bands = 1 + joined.iter().filter(|&&j| j == 0).count();
        for ch in 0..self.s.nfchans {
            let first = std::mem::replace(&mut self.s.firstspxcos[ch], !self.s.chinspx[ch]);
            if self.s.chinspx[ch] && (first || self.nth_flag(SPXCOE, ch)?) {
                self.nth(SPXBLND, ch, 5)?;
                self.nth(MSTRSPXCO, ch, 2)?;
                for _ in 0..bands {
                    self.nth(SPXCOEXP, ch, 4)?;
                    self.nth(SPXCOMANT, ch, 2)?;
                }
            }
        }
        Ok(())
    }

    fn cpl_strategy(&mut self) -> Step<()> {
        if !self.s.cplstre[self.s.blk] {
            return Ok(());
        }
        if !self.s.cplinu[self.s.blk] {
            self.s.chincpl = [false; 5];
            self.s.firstcplcos = [true; 5];
            self.s.firstcplleak = true;
            self.s.phsflginu = false;
            return Ok(());
        }
        if self.flag(ECPLINU)? {
            return self.stop(9);
        }
        let stereo = self.s.acmod == 2;
        for ch in 0..self.s.nfchans {
            self.s.chincpl[ch] = stereo || self.nth_flag(CHINCPL, ch)?;
        }
        self.s.phsflginu = stereo && self.flag(PHSFLGINU)?;
        self.s.cplbegf = self.n(CPLBEGF, 4)? as usize;
        // Coupling ends where spectral extension begins; its first sub-band is two further up.
        self.s.cplpast = if self.s.spxinu { SPX_BEGIN[self.s.spxbegf] - 1 } else { 3 + self.n(CPLENDF, 4)? as usize };
        if self.s.cplbegf >= self.s.cplpast {
            return self.stop(22);
        }
        if self.flag(CPLBNDSTRCE)? {
            for bnd in 1..self.s.cplpast - self.s.cplbegf {
                self.s.cplbndstrc[self.s.cplbegf + bnd] = self.nth(CPLBNDSTRC, bnd, 1)? as u8;
            }
        }
        let joined = &self.s.cplbndstrc[self.s.cplbegf + 1..self.s.cplpast];
        self.s.ncplbnd = 1 + joined.iter().filter(|&&j| j == 0).count();
        Ok(())
    }

    fn cpl_coordinates(&mut self) -> Step<()> {
        if !self.s.cplinu[self.s.blk] {
            return Ok(());
        }
        self.s.cpl_blocks += 1;
        let mut sent = false;
        for ch in 0..self.s.nfchans {
            let first = std::mem::replace(&mut self.s.firstcplcos[ch], !self.s.chincpl[ch]);
            if self.s.chincpl[ch] && (first || self.nth_flag(CPLCOE, ch)?) {
                sent = true;
                self.nth(MSTRCPLCO, ch, 2)?;
                for _ in 0..self.s.ncplbnd {
                    self.nth(CPLCOEXP, ch, 4)?;
                    self.nth(CPLCOMANT, ch, 4)?;
                }
            }
        }
        for bnd in 0..if sent && self.s.phsflginu { self.s.ncplbnd } else { 0 } {
            self.nth(PHSFLG, bnd, 1)?;
        }
        Ok(())
    }

    fn rematrixing(&mut self) -> Step<()> {
        if self.s.acmod != 2 || self.s.blk != 0 && !self.flag(REMATSTR)? {
            return Ok(());
        }
        let bands = match (self.s.cplinu[self.s.blk], self.s.spxinu) {
            (true, _) => [2, 3, 3, 4][self.s.cplbegf.min(3)],
            (false, true) if self.s.spxbegf < 2 => 3,
            _ => 4,
        };
        for bnd in 0..bands {
            self.nth(REMATFLG, bnd, 1)?;
        }
        Ok(())
    }

    fn bandwidths(&mut self) -> Step<()> {
        let blk = self.s.blk;
        for ch in 0..self.s.nfchans {
            if self.s.chexpstr[blk][ch] > 0 && !self.s.chincpl[ch] && !self.s.chinspx[ch] {
                let chbwcod = self.nth(CHBWCOD, ch, 6)? as usize;
                if chbwcod > 60 {
                    return self.stop(10);
                }
                self.s.chbwcod[ch] = Some(chbwcod);
            }
        }
        (self.s.cplstrt, self.s.cplend) = (37 + 12 * self.s.cplbegf, 37 + 12 * self.s.cplpast);
        for ch in 0..self.s.nfchans {
            self.s.endmant[ch] = if self.s.chincpl[ch] {
                self.s.cplstrt
            } else if self.s.chinspx[ch] {
                25 + 12 * self.s.spx_begin
            } else if let Some(chbwcod) = self.s.chbwcod[ch] {
                73 + 3 * chbwcod
            } else {
                return self.stop(23);
            };
        }
        Ok(())
    }

    fn exponents(&mut self) -> Step<()> {
        let blk = self.s.blk;
        if self.s.cplinu[blk] {
            self.slot_exponents(CPL, self.s.cplexpstr[blk], 24)?;
        }
        for ch in 0..self.s.nfchans {
            self.slot_exponents(ch, self.s.chexpstr[blk][ch], 25)?;
            if self.s.chexpstr[blk][ch] > 0 {
                self.nth(GAINRNG, ch, 2)?;
            }
        }
        if self.s.lfeon {
            self.slot_exponents(LFE, self.s.lfeexpstr[blk], 26)?;
        }
        Ok(())
    }

    fn slot_exponents(&mut self, slot: usize, strategy: u8, unheld: u8) -> Step<()> {
        let range = self.s.range(slot);
        if strategy > 0 {
            self.exponent_set(slot, strategy, range)?;
            self.s.held[slot] = range;
        } else if self.s.held[slot] != range {
            return self.stop(unheld);
        }
        Ok(())
    }

    fn exponent_set(&mut self, slot: usize, strategy: u8, (start, end): (usize, usize)) -> Step<()> {
        let same = 1 << (strategy - 1);
        let (first, group, index) = match slot {
            CPL => (CPLABSEXP, CPLEXPS, 0),
            LFE => (LFEEXPS_0, LFEEXPS, 0),
            ch => (EXPS_CH_0, EXPS_CH, ch),
        };
        let mut bin = start;
        let absolute = self.nth(first, index, 4)? as i32;
        if slot == CPL {
            self.s.prev = 2 * absolute;
        } else {
            self.s.prev = absolute;
            self.s.exps[slot][0] = absolute as u8;
            bin = 1;
        }
        while bin < end {
            let g = self.nth(group, index, 7)? as i32;
            if g > 124 {
                return self.stop(11);
            }
            for step in [g / 25, g / 5 % 5, g % 5] {
                self.s.prev += step - 2;
                if self.s.prev < 0 || self.s.prev > 24 {
                    return self.stop(27);
                }
                let stop = (bin + same).min(256);
                self.s.exps[slot][bin.min(256)..stop].fill(self.s.prev as u8);
                bin += same;
            }
        }
        Ok(())
    }

    fn parameters(&mut self) -> Step<()> {
        let coupled = self.s.cplinu[self.s.blk];
        if !self.s.bamode {
            self.s.codes = Some([2, 1, 1, 2, 7]);
        } else if self.flag(BAIE)? {
            let mut codes = [0; 5];
            for (code, (name, width)) in codes.iter_mut().zip([(SDCYCOD, 2), (FDCYCOD, 2), (SGAINCOD, 2), (DBPBCOD, 2), (FLOORCOD, 3)]) {
                *code = self.n(name, width)? as u8;
            }
            self.s.codes = Some(codes);
        }
        if self.s.snroffststr > 0 && (self.s.blk == 0 || self.flag(SNROFFSTE)?) {
            self.s.csnroffst = self.n(CSNROFFST, 6)? as u8;
            if self.s.snroffststr == 1 {
                self.s.fsnroffst = [self.n(BLKFSNROFFST, 4)? as u8; 7];
            } else {
                let mut to = self.s.fsnroffst;
                self.by_slot(coupled, [CPLFSNROFFST, FSNROFFST, LFEFSNROFFST], 4, &mut to)?;
                self.s.fsnroffst = to;
            }
        }
        let mut gains = [4; 7];
        if self.s.frmfgaincode && self.flag(FGAINCODE)? {
            gains = self.s.fgaincod;
            self.by_slot(coupled, [CPLFGAINCOD, FGAINCOD, LFEFGAINCOD], 3, &mut gains)?;
        }
        self.s.fgaincod = gains;
        if self.s.strmtyp == 0 {
            self.maybe(CONVSNROFFSTE, CONVSNROFFST, 10)?;
        }
        if coupled && (std::mem::take(&mut self.s.firstcplleak) || self.flag(CPLLEAKE)?) {
            self.s.leak = (self.n(CPLFLEAK, 3)? as u8, self.n(CPLSLEAK, 3)? as u8);
        }
        Ok(())
    }

    /// One value for coupling, each channel and LFE, where in use.
    fn by_slot(&mut self, coupled: bool, names: [u8; 3], width: usize, to: &mut [u8; 7]) -> Step<()> {
        if coupled {
            to[CPL] = self.n(names[0], width)? as u8;
        }
        for ch in 0..self.s.nfchans {
            to[ch] = self.nth(names[1], ch, width)? as u8;
        }
        if self.s.lfeon {
            to[LFE] = self.n(names[2], width)? as u8;
        }
        Ok(())
    }

    fn deltas(&mut self) -> Step<()> {
        let coupled = self.s.cplinu[self.s.blk];
        let mut code = [2; 7];
        if coupled {
            let c = self.n(CPLDELTBAE, 2)?;
            code[CPL] = self.delta_code(CPL, c)?;
        }
        for ch in 0..self.s.nfchans {
            let c = self.nth(DELTBAE, ch, 2)?;
            code[ch] = self.delta_code(ch, c)?;
        }
        if coupled && code[CPL] == 1 {
            self.segments(CPL, [CPLDELTNSEG, CPLDELTOFFST, CPLDELTLEN, CPLDELTBA])?;
        }
        for ch in 0..self.s.nfchans {
            if code[ch] == 1 {
                self.segments(ch, [DELTNSEG, DELTOFFST, DELTLEN, DELTBA])?;
            }
        }
        Ok(())
    }

    fn delta_code(&mut self, slot: usize, code: u32) -> Step<u32> {
        match code {
            3 => return self.stop(12),
            2 => self.s.ndeltas[slot] = 0,
            0 if self.s.blk == 0 => return self.stop(28),
            _ => (),
        }
        Ok(code)
    }

    fn segments(&mut self, slot: usize, names: [u8; 4]) -> Step<()> {
        let n = self.nth(names[0], slot, 3)? as usize + 1;
        for k in 0..n {
            let offset = self.nth(names[1], slot, 5)? as u8;
            let len = self.nth(names[2], slot, 4)? as u8;
            let ba = self.nth(names[3], slot, 3)? as u8;
            self.s.deltas[slot][k] = Delta { offset, len, ba };
        }
        self.s.ndeltas[slot] = n;
        Ok(())
    }

    /// The slots that this block has.
    fn in_use(&self) -> [bool; 7] {
        std::array::from_fn(|slot| match slot {
            CPL => self.s.cplinu[self.s.blk],
            LFE => self.s.lfeon,
            ch => ch < self.s.nfchans,
        })
    }

    /// Those of them whose mantissas are not read yet.
    fn asked(&self) -> [bool; 7] {
        let in_use = self.in_use();
        std::array::from_fn(|slot| in_use[slot] && !(self.s.ahtinu[slot] && self.s.aht_read[slot]))
    }

    /// Whether the coarse offset is 0, and the fine ones of these slots.
    fn zero(&self, slots: [bool; 7]) -> bool {
        self.s.csnroffst == 0 && (0..7).all(|slot| !slots[slot] || self.s.fsnroffst[slot] == 0)
    }

    /// What the silence rule goes by, in a block with csnroffst 0.
    fn ruled(&self, in_use: [bool; 7], asked: [bool; 7]) -> usize {
        let [cpl, lfe] = [CPL, LFE].map(|slot| in_use[slot] && self.s.fsnroffst[slot] > 0);
        let channels = (0..self.s.nfchans).any(|ch| self.s.fsnroffst[ch] > 0);
        match (self.zero(asked), self.zero(in_use)) {
            (false, _) => 4,
            (_, false) => match (channels, cpl, lfe) {
                (true, false, false) => 0,
                (false, true, false) => 1,
                (false, false, true) => 2,
                _ => 3,
            },
            _ if self.s.fsnroffst[CPL] > 0 => 5,
            _ if asked != in_use => 6,
            _ => 7,
        }
    }

    fn allocate(&mut self) -> Step<()> {
        let Some(codes) = self.s.codes else { return self.stop(29) };
        let (in_use, asked) = (self.in_use(), self.asked());
        let looked_at = if self.by_request { asked } else { in_use };
        let silent = self.zero(looked_at);
        self.seen.silent += u64::from(silent);
        let mut above = false;
        for slot in (0..7).filter(|&slot| asked[slot]) {
            let (start, end) = self.s.range(slot);
            let q = Request {
                exps: &self.s.exps[slot],
                start,
                end,
                fscod: self.s.fscod,
                codes,
                fgaincod: self.s.fgaincod[slot],
                snroffset: snroffset(self.s.csnroffst, self.s.fsnroffst[slot]),
                leak: (slot == CPL).then_some(self.s.leak),
                deltas: &self.s.deltas[slot][..self.s.ndeltas[slot]],
                hebap: self.s.ahtinu[slot],
            };
            pointers(&q, &mut self.s.baps[slot]);
            above |= self.s.baps[slot][start..end].iter().any(|&p| p > 0);
            if silent {
                self.s.baps[slot] = [0; 256]
            }
        }
        if above && self.s.csnroffst == 0 {
            self.seen.silence[self.ruled(in_use, asked)] += 1
        }
        Ok(())
    }

    fn mantissas(&mut self) -> Step<()> {
        let first = self.at;
        // how many of the grouped mantissas are still to come without bits, for bap 1, 2 and 4
        let mut left = [0u8; 3];
        let mut coupling = self.s.cplinu[self.s.blk];
        for ch in 0..self.s.nfchans {
            self.slot_mantissas(ch, &mut left)?;
            if coupling && self.s.chincpl[ch] {
                coupling = false;
                self.slot_mantissas(CPL, &mut left)?;
            }
        }
        if self.s.lfeon {
            self.slot_mantissas(LFE, &mut left)?;
        }
        self.keep(MANTISSAS, -1, first, 0)
    }

    /// A grouped mantissa counts for the slot that opens the group: its bits are read there.
    fn slot_mantissas(&mut self, slot: usize, left: &mut [u8; 3]) -> Step<()> {
        let first = self.at;
        if !self.s.ahtinu[slot] {
            self.conventional(slot, left)?;
        } else if !self.s.aht_read[slot] {
            self.s.aht_tags += self.hybrid(slot)?;
            self.s.aht_read[slot] = true;
        }
        self.s.slot_bits[self.s.blk][slot] = self.at - first;
        Ok(())
    }

    fn pass(&mut self, width: usize) -> Step<()> {
        self.fits(width)?;
        self.at += width;
        Ok(())
    }

    fn conventional(&mut self, slot: usize, left: &mut [u8; 3]) -> Step<()> {
        let (start, end) = self.s.range(slot);
        let (mut open, mut across) = (left.map(|n| n > 0), false);
        for bin in start..end {
            let bap = self.s.baps[slot][bin];
            self.seen.bap[usize::from(bap)] += 1;
            let (group, width, size) = match bap {
                1 => (0, 5, 3),
                2 => (1, 7, 3),
                4 => (2, 7, 2),
                _ => {
                    self.pass(usize::from(BAP_BITS[usize::from(bap)]))?;
                    continue;
                }
            };
            if left[group] == 0 {
                self.pass(width)?;
                left[group] = size;
                open[group] = false;
            }
            left[group] -= 1;
            across |= open[group];
        }
        self.seen.across += u64::from(across);
        Ok(())
    }

    fn inside(&mut self, what: Inside, width: usize) -> Step<u32> {
        self.fits(width)?;
        let value = self.src.inside(what, self.at, width);
        self.at += width;
        Ok(value)
    }

    /// The gains and mantissas of a slot for all six blocks; gives how many tags there were.
    fn hybrid(&mut self, slot: usize) -> Step<u64> {
        let (start, end) = self.s.range(slot);
        let gaqmod = self.inside(Inside::Gaqmod, 2)? as usize;
        self.seen.gaqmod[gaqmod] += 1;
        let past = if gaqmod < 2 { 12 } else { 17 };
        let quantized = |h: u8| gaqmod > 0 && h > 7 && h < past;
        let mut gains = [0u8; 256];
        let n = (start..end).filter(|&bin| quantized(self.s.baps[slot][bin])).count();
        let mut k = 0;
        while k < n {
            if gaqmod == 3 {
                let three = self.inside(Inside::Composite, 5)?;
                if three > 26 {
                    return self.stop(13);
                }
                for g in [three / 9, three / 3 % 3, three % 3] {
                    gains[k] = [1, 2, 4][g as usize];
                    k += 1;
                }
            } else {
                let one = self.inside(Inside::Gain, 1)?;
                gains[k] = [1, [2, 4][gaqmod - 1]][one as usize];
                k += 1;
            }
        }
        let (mut next, mut tags) = (0, 0);
        for bin in start..end {
            let h = self.s.baps[slot][bin];
            self.seen.hebap[usize::from(h)] += 1;
            if h < 8 {
                self.pass(usize::from(VQ_BITS[usize::from(h)]))?;
                continue;
            }
            let m = usize::from(GAQ_BITS[usize::from(h) - 8]);
            let mut gain = 1;
            if quantized(h) {
                gain = gains[next];
                next += 1;
                self.seen.gain[gaqmod][usize::from(gain) / 2] += 1;
            }
            let (small, large) = match gain {
                1 => (m, None),
                2 => (m - 1, Some(m - 1)),
                _ => (m - 2, Some(m)),
            };
            for _ in 0..6 {
                let Some(large) = large else {
                    self.pass(small)?;
                    continue;
                };
                if self.inside(Inside::Small, small)? == 1 << (small - 1) {
                    self.pass(large)?;
                    tags += 1;
                    self.seen.tag[usize::from(gain) / 4] += 1;
                }
            }
        }
        Ok(tags)
    }

    fn tail(&mut self) -> Step<()> {
        let left = self.limit - self.at;
        if left < 18 {
            return self.stop(30);
        }
        let sent = self.src.inside(Inside::Auxdatae, self.limit - 18, 1) == 1;
        let after = self.limit - 17;
        if sent && left < 32 {
            return Err(Stop(31, after));
        }
        let auxbits = left - if sent { 32 } else { 18 };
        self.span(AUXBITS, auxbits)?;
        if sent && self.n(AUXDATAL, 14)? as usize > auxbits {
            return Err(Stop(32, after));
        }
        self.n(AUXDATAE, 1)?;
        self.n(ENCINFO, 1)?;
        self.n(CRC2, 16)?;
        Ok(())
    }
}

/// The first spectral extension sub-band by spxbegf, and the first past the last by spxendf.
pub const SPX_BEGIN: [usize; 8] = [2, 3, 4, 5, 6, 7, 9, 11];
pub const SPX_END: [usize; 8] = [5, 6, 7, 9, 11, 13, 15, 17];
