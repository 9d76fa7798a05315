//! The gain range of a frame, written from the text of the request: the list is that of the numbered walk, and each factor is a
//! fraction of whole numbers, compared by multiplying out, and turned into an f64 by its bits.
use crate::names::*;
use crate::numbered::{read, Answer, Record, Seen, State};

/// The four words in their order: the name, and the bits of X and of Y.
pub const WORDS: [(u8, u32, u32); 4] = [(DYNRNG, 3, 5), (COMPR, 4, 4), (DYNRNG2, 3, 5), (COMPR2, 4, 4)];

/// A factor as numerator and denominator.
pub type Ratio = (u64, u64);

/// The factor of a word: the top bits signed are X, the low bits Y, and it is (2^y + Y) * 2^(X + 1) / 2^(y + 1).
pub fn factor(word: u32, x: u32, y: u32) -> Ratio {
    let (high, low) = (i64::from(word >> y), u64::from(word % (1 << y)));
    let shift = if high >> (x - 1) == 1 { high - (1 << x) } else { high } + 1;
    let (over, under) = ((1 << y) + low, 1 << (y + 1));
    if shift >= 0 { (over << shift, under) } else { (over, under << -shift) }
}

fn less(a: Ratio, b: Ratio) -> bool {
    a.0 * b.1 < b.0 * a.1
}

/// The f64 that is just this fraction, whose denominator is a power of two: sign 0, the exponent and the fraction's bits.
pub fn exact(r: Ratio) -> f64 {
    let (mut over, mut exponent) = (r.0, -i64::from(r.1.trailing_zeros()));
    assert!(r.1.is_power_of_two() && over > 0);
    while over >> 52 == 0 {
        over <<= 1;
        exponent -= 1;
    }
    assert!(over >> 53 == 0);
    f64::from_bits(((exponent + 52 + 1023) as u64) << 52 | over & ((1 << 52) - 1))
}

/// What is told of one of the four: the lowest and the highest factor, and how many words there were.
#[derive(Clone, Copy, Debug, PartialEq)]
pub struct Told {
    pub present: bool,
    pub low: Ratio,
    pub high: Ratio,
    pub words: u64,
}

/// Of the records of an accepted frame; under a refusal no word was sent.
pub fn told(accepted: bool, records: &[Record]) -> [Told; 4] {
    WORDS.map(|(name, x, y)| {
        let mut t = Told { present: false, low: (1, 1), high: (1, 1), words: 0 };
        for r in records.iter().filter(|r| accepted && r.name == name) {
            let f = factor(r.value, x, y);
            if !t.present || less(f, t.low) {
                t.low = f
            }
            if !t.present || less(t.high, f) {
                t.high = f
            }
            t.present = true;
            t.words += 1;
        }
        t
    })
}

/// The factors in their order, and the numbers of the answer.
pub fn laid(answer: &Answer, four: &[Told; 4]) -> ([f64; 8], [u64; 11]) {
    let (mut factors, mut numbers) = ([0.0; 8], [0; 11]);
    numbers[..3].copy_from_slice(&answer[..3]);
    for (k, t) in four.iter().enumerate() {
        factors[2 * k] = exact(t.low);
        factors[2 * k + 1] = exact(t.high);
        numbers[3 + 2 * k] = u64::from(t.present);
        numbers[4 + 2 * k] = t.words;
    }
    (factors, numbers)
}

/// The gain range of the frame at the beginning of a slice. The records are left in `records`.
pub fn gain_range(src: &[u8], room: usize, records: &mut Vec<Record>, s: &mut State) -> ([f64; 8], [u64; 11], [Told; 4]) {
    let answer = read(src, room, records, s, &mut Seen::default());
    let four = told(answer[0] == 0, records);
    let (factors, numbers) = laid(&answer, &four);
    (factors, numbers, four)
}
