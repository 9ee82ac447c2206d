//! Codewords by the sums at the roots, and every codeword of codes 1 and 2.

use crate::codes::Code;

/// The sum of c_i·α^(i·t), at every root α^t, is zero.
pub fn is_codeword(code: &Code, word: &[u8]) -> bool {
    (1..=code.roots).all(|t| value(code, t, word) == 0)
}

/// The sum of c_i·α^(i·t).
pub fn value(code: &Code, t: usize, word: &[u8]) -> usize {
    word.iter().enumerate().fold(0, |sum, (i, c)| sum ^ code.times(*c as usize, code.alpha(i * t)))
}

/// The word whose bit b is bit b of a number.
pub fn unpacked(code: &Code, bits: u32) -> Vec<u8> {
    (0..code.n).map(|i| (bits >> (i * code.m)) as u8 & ((1 << code.m) - 1)).collect()
}

/// The best metric, the first and the last word that have it when symbols are compared from position 0, and every soft output.
#[derive(Debug, PartialEq)]
pub struct Best {
    pub metric: i32,
    pub first: Vec<u8>,
    pub last: Vec<u8>,
    pub soft: Vec<i16>,
}

/// Every codeword of a code of 21 bits.
pub struct Every {
    pub code: Code,
    pub codewords: Vec<u32>,
}

impl Every {
    /// All 2^21 words are tried.
    pub fn new(number: u32) -> Every {
        let code = Code::of(number);
        assert_eq!(code.bits(), 21);
        let values = |i: usize, c: usize| (1..=code.roots).fold(0, |h, t| h << code.m | code.times(c, code.alpha(i * t)));
        let table: Vec<Vec<usize>> = (0..code.n).map(|i| (0..1 << code.m).map(|c| values(i, c)).collect()).collect();
        let zero = |bits: &u32| (0..code.n).fold(0, |h, i| h ^ table[i][(bits >> (3 * i)) as usize & 7]) == 0;
        let codewords = (0..1u32 << 21).filter(zero).collect();
        Every { code, codewords }
    }

    pub fn best(&self, row: &[i16]) -> Best {
        // the metric of each seven bits, so that a word takes three sums
        let part =
            |from: usize, bits: usize| -> i32 { (0..7).map(|b| i32::from(row[from + b]) * if bits >> b & 1 == 0 { 1 } else { -1 }).sum() };
        let parts: Vec<[i32; 128]> = (0..3).map(|p| std::array::from_fn(|bits| part(7 * p, bits))).collect();
        let own = |word: u32| -> i32 { (0..3).map(|p| parts[p][(word >> (7 * p)) as usize & 127]).sum() };
        let mut greatest = [[i32::MIN; 2]; 21];
        for word in &self.codewords {
            let metric = own(*word);
            for (b, held) in greatest.iter_mut().enumerate() {
                let held = &mut held[(word >> b) as usize & 1];
                *held = metric.max(*held);
            }
        }
        let metric = greatest[0][0].max(greatest[0][1]);
        // vectors are in the order of words: the first entry that differs decides
        let best = || self.codewords.iter().filter(|w| own(**w) == metric).map(|w| unpacked(&self.code, *w));
        let (first, last) = (best().min().expect("a word"), best().max().expect("a word"));
        Best { metric, first, last, soft: greatest.iter().map(|[zero, one]| (zero - one) as i16).collect() }
    }
}
