//! The E-AC-3 syncframe reader for Rust, what finds the next frame of a capture, and what changes a frame: a safe wrapper of the static library (sh tools/library), without allocation.

#[allow(improper_ctypes)]
extern "C" {
    fn eac3_parse(
        data: &[u8], names: &mut [u8], blocks: &mut [i8], indexes: &mut [i16], firsts: &mut [u16], widths: &mut [u16], values: &mut [u32],
        answer: &mut [u64; 76],
    ) -> u8;
    fn eac3_parse_settop(
        data: &[u8], names: &mut [u8], blocks: &mut [i8], indexes: &mut [i16], firsts: &mut [u16], widths: &mut [u16], values: &mut [u32],
        answer: &mut [u64; 76],
    ) -> u8;
    fn eac3_set_word(
        frame: &mut [u8], names: &mut [u8], blocks: &mut [i8], indexes: &mut [i16], firsts: &mut [u16], widths: &mut [u16], values: &mut [u32],
        place: usize, value: u32, answer: &mut [u64; 76],
    ) -> u8;
    fn eac3_set_words(
        frame: &mut [u8], names: &mut [u8], blocks: &mut [i8], indexes: &mut [i16], firsts: &mut [u16], widths: &mut [u16], values: &mut [u32],
        places: &[usize], words: &[u32], answer: &mut [u64; 76],
    ) -> u8;
    fn eac3_find(
        capture: &[u8], names: &mut [u8], blocks: &mut [i8], indexes: &mut [i16], firsts: &mut [u16], widths: &mut [u16], values: &mut [u32],
        start: usize, most: usize, answer: &mut [u64; 78],
    ) -> u8;
    fn eac3_gain_range(
        frame: &[u8], names: &mut [u8], blocks: &mut [i8], indexes: &mut [i16], firsts: &mut [u16], widths: &mut [u16], values: &mut [u32],
        factors: &mut [f64; 8], answer: &mut [u64; 11],
    ) -> u8;
}

/// The room for records that always suffices.
pub const RECORDS: usize = 32_782;

/// The longest frame, in bytes.
pub const BYTES: usize = 4_096;

/// The same for `parse_settop`.
pub const SETTOP_RECORDS: usize = 12_289;
pub const SETTOP_BYTES: usize = 1_536;

/// Room for `N` records; it is the caller's, and is lent for each reading.
pub struct Room<const N: usize> {
    pub names: [u8; N],
    pub blocks: [i8; N],
    pub indexes: [i16; N],
    pub firsts: [u16; N],
    pub widths: [u16; N],
    pub values: [u32; N],
}

/// One record: block and index are -1 for none; a span has the value 0.
#[derive(Clone, Copy, Debug, PartialEq, Eq)]
pub struct Record {
    pub name: u8,
    pub block: i8,
    pub index: i16,
    pub first: u16,
    pub width: u16,
    pub value: u32,
}

impl<const N: usize> Room<N> {
    pub const fn new() -> Self {
        Room { names: [0; N], blocks: [0; N], indexes: [0; N], firsts: [0; N], widths: [0; N], values: [0; N] }
    }

    /// The record at a place, where there is room for it.
    pub fn record(&self, i: usize) -> Option<Record> {
        (i < N).then(|| Record {
            name: self.names[i],
            block: self.blocks[i],
            index: self.indexes[i],
            first: self.firsts[i],
            width: self.widths[i],
            value: self.values[i],
        })
    }
}

impl<const N: usize> Default for Room<N> {
    fn default() -> Self {
        Self::new()
    }
}

/// An accepted frame. Bit places count from its first bit; places of blocks that it has not are 0.
#[derive(Clone, Copy, Debug, PartialEq, Eq)]
pub struct Frame {
    pub bytes: u16,
    pub records: usize,
    pub bsid: u8,
    pub acmod: u8,
    pub lfeon: bool,
    pub fscod: u8,
    pub strmtyp: u8,
    pub substreamid: u8,
    pub numblks: u8,
    pub block_starts: [u16; 6],
    pub mantissa_starts: [u16; 6],
    pub audio_end: u16,
    pub aht_tags: u16,
    /// Channels 0 to 4, coupling, LFE.
    pub aht_slots: [bool; 7],
    pub spx_blocks: u8,
    pub cpl_blocks: u8,
    /// The bits of mantissas of each block, by slot as in `aht_slots`.
    pub slot_bits: [[u16; 7]; 6],
}

/// A refusal (docs/REFUSALS.md): its number, its bit place, and the records that were written before.
#[derive(Clone, Copy, Debug, PartialEq, Eq)]
pub struct Refusal {
    pub number: u8,
    pub place: u16,
    pub records: usize,
}

/// Reads the frame at the beginning of `data`; its records stand in the room afterwards.
pub fn parse<const N: usize>(data: &[u8], room: &mut Room<N>) -> Result<Frame, Refusal> {
    let mut a = [0u64; 76];
    // The function meets no premise of its caller: it is proved for every slice and every room.
    let number = unsafe {
        eac3_parse(
            data, &mut room.names, &mut room.blocks, &mut room.indexes, &mut room.firsts, &mut room.widths, &mut room.values, &mut a,
        )
    };
    told(number, &a)
}

/// Reads a frame of at most 1,536 bytes. A longer one, by its header, is refused with 46; the other answers are those of `parse`.
/// No byte behind the first 1,536 is read.
pub fn parse_settop<const N: usize>(data: &[u8], room: &mut Room<N>) -> Result<Frame, Refusal> {
    let mut a = [0u64; 76];
    // Likewise, for every slice and every room.
    let number = unsafe {
        eac3_parse_settop(
            data, &mut room.names, &mut room.blocks, &mut room.indexes, &mut room.firsts, &mut room.widths, &mut room.values, &mut a,
        )
    };
    told(number, &a)
}

/// Sets one loudness word of the frame at the beginning of `data`, by its place in the list, and puts crc2 right. The frame and
/// the records in the room are those of the new frame; a refusal changes no byte.
pub fn set_word<const N: usize>(data: &mut [u8], room: &mut Room<N>, place: usize, value: u32) -> Result<Frame, Refusal> {
    let mut a = [0u64; 76];
    // Likewise, for every place and every value.
    let number = unsafe {
        eac3_set_word(
            data, &mut room.names, &mut room.blocks, &mut room.indexes, &mut room.firsts, &mut room.widths, &mut room.values, place, value,
            &mut a,
        )
    };
    told(number, &a)
}

/// The most loudness words that a frame holds, and that `set_words` sets.
pub const WORDS: usize = 16;

/// Sets up to 16 loudness words of the frame at the beginning of `data`, or none of them: each item is a place in the list and a value. crc2
/// is put right, also where there is no item. The frame and the records in the room are those of the new frame; a refusal changes no byte.
pub fn set_words<const N: usize>(data: &mut [u8], room: &mut Room<N>, items: &[(usize, u32)]) -> Result<Frame, Refusal> {
    let (mut places, mut words) = ([0usize; WORDS + 1], [0u32; WORDS + 1]);
    // one more than may be set is enough to be told of
    let n = items.len().min(WORDS + 1);
    for (k, &(place, value)) in items[..n].iter().enumerate() {
        (places[k], words[k]) = (place, value);
    }
    let mut a = [0u64; 76];
    // Likewise, for all places and values.
    let number = unsafe {
        eac3_set_words(
            data, &mut room.names, &mut room.blocks, &mut room.indexes, &mut room.firsts, &mut room.widths, &mut room.values, &places[..n],
            &words[..n], &mut a,
        )
    };
    told(number, &a)
}

/// What a frame says of one of its gain words: the lowest and the highest factor where it was sent, and the range record, which holds
/// 1, 1 and 0 where it was not. The factors are exact.
#[derive(Clone, Copy, Debug, PartialEq)]
pub struct Gain {
    pub factors: Option<(f64, f64)>,
    pub low: f64,
    pub high: f64,
    pub words: usize,
}

/// The gain words of a frame: those of the first programme, and of the second. A refused frame has sent none.
#[derive(Clone, Copy, Debug, PartialEq)]
pub struct Gains {
    /// The records in the room, or the refusal.
    pub answer: Result<usize, Refusal>,
    pub dynrng: Gain,
    pub compr: Gain,
    pub dynrng2: Gain,
    pub compr2: Gain,
}

/// Reads the frame at the beginning of `data`, as `parse` does, and tells the range of its gain words.
pub fn gain_range<const N: usize>(data: &[u8], room: &mut Room<N>) -> Gains {
    let (mut f, mut a) = ([0.0; 8], [0u64; 11]);
    // Likewise, for every slice and every room.
    let number = unsafe {
        eac3_gain_range(
            data, &mut room.names, &mut room.blocks, &mut room.indexes, &mut room.firsts, &mut room.widths, &mut room.values,
            &mut f, &mut a,
        )
    };
    let gain = |k: usize| Gain {
        factors: (a[3 + 2 * k] == 1).then_some((f[2 * k], f[2 * k + 1])),
        low: f[2 * k],
        high: f[2 * k + 1],
        words: a[4 + 2 * k] as usize,
    };
    let answer = if number == 0 { Ok(a[2] as usize) } else { Err(Refusal { number, place: a[1] as u16, records: a[2] as usize }) };
    Gains { answer, dynrng: gain(0), compr: gain(1), dynrng2: gain(2), compr2: gain(3) }
}

/// What a search ends with: a frame, or the refusal 33, at a position of the capture; or the refusal 44, no position is left, or 45, the
/// allowance is used up, both with the position 0. `tried` positions were read.
#[derive(Clone, Copy, Debug, PartialEq, Eq)]
pub struct Found {
    pub answer: Result<Frame, Refusal>,
    pub position: usize,
    pub tried: usize,
}

/// Finds the next frame of a capture: the positions from `start` on are read in order, at most `most` of them. The records of the frame
/// stand in the room afterwards, and behind them what the readings before left.
pub fn find<const N: usize>(capture: &[u8], room: &mut Room<N>, start: usize, most: usize) -> Found {
    let mut a = [0u64; 78];
    // Likewise, for every start and every allowance.
    let number = unsafe {
        eac3_find(
            capture, &mut room.names, &mut room.blocks, &mut room.indexes, &mut room.firsts, &mut room.widths, &mut room.values, start, most,
            &mut a,
        )
    };
    Found { answer: told(number, &a[..76]), position: a[76] as usize, tried: a[77] as usize }
}

/// The frames of a capture in their order, each with its position: the search goes on behind each frame, and over what holds none. It
/// stops at the capture's end, or at the first frame whose records the room does not hold, which it hands out as the refusal 33. The
/// records of the frame that was handed out last stand in `room`.
pub struct Frames<'a, const N: usize> {
    capture: &'a [u8],
    pub room: &'a mut Room<N>,
    start: usize,
}

pub fn frames<'a, const N: usize>(capture: &'a [u8], room: &'a mut Room<N>) -> Frames<'a, N> {
    Frames { capture, room, start: 0 }
}

impl<const N: usize> Iterator for Frames<'_, N> {
    type Item = (usize, Result<Frame, Refusal>);

    fn next(&mut self) -> Option<Self::Item> {
        let found = find(self.capture, self.room, self.start, usize::MAX);
        match found.answer {
            Ok(frame) => self.start = found.position + usize::from(frame.bytes),
            Err(refusal) => {
                self.start = self.capture.len();
                if refusal.number != 33 {
                    return None;
                }
            }
        }
        Some((found.position, found.answer))
    }
}

/// What an answer says.
fn told(number: u8, a: &[u64]) -> Result<Frame, Refusal> {
    if number != 0 {
        return Err(Refusal { number, place: a[1] as u16, records: a[2] as usize });
    }
    let six = |from: usize| std::array::from_fn(|i| a[from + i] as u16);
    Ok(Frame {
        bytes: a[3] as u16,
        records: a[2] as usize,
        bsid: a[4] as u8,
        acmod: a[5] as u8,
        lfeon: a[6] == 1,
        fscod: a[7] as u8,
        strmtyp: a[8] as u8,
        substreamid: a[9] as u8,
        numblks: a[10] as u8,
        block_starts: six(11),
        mantissa_starts: six(17),
        audio_end: a[23] as u16,
        aht_tags: a[24] as u16,
        aht_slots: std::array::from_fn(|i| a[25 + i] == 1),
        spx_blocks: a[32] as u8,
        cpl_blocks: a[33] as u8,
        slot_bits: std::array::from_fn(|b| std::array::from_fn(|slot| a[34 + 7 * b + slot] as u16)),
    })
}
