//! A Wolf trellis of the whole code: its states are the values at all roots, and it knows no layers. It reads a symbol's highest bit first,
//! so that a trace from the front that takes 0 where it can gives the first best word.

use crate::codes::{verdict, Code};

pub struct Wolf {
    code: Code,
    states: usize,
    /// The bits in the order of reading, each with what a 1 there adds to the values at all roots.
    steps: Vec<(usize, usize)>,
    /// One table a step and one behind the last: the greatest metric of the bits from there on that lead from a state to 0.
    tables: Vec<i32>,
    carried: Vec<i32>,
    next: Vec<i32>,
}

const NEVER: i32 = -1_000_000;

impl Wolf {
    pub fn new(number: u32) -> Wolf {
        let code = Code::of(number);
        let states = 1 << (code.m * code.roots);
        let step = |(i, j)| (i * code.m + j, code.column(i, j));
        let steps = (0..code.n).flat_map(|i| (0..code.m).rev().map(move |j| (i, j))).map(step).collect();
        let tables = vec![0; (code.bits() + 1) * states];
        Wolf { steps, states, tables, carried: vec![0; states], next: vec![0; states], code }
    }

    pub fn decode(&mut self, row: &[i16], word: &mut [u8], soft: &mut [i16]) -> i32 {
        self.make_tables(row);
        self.trace(row, word, |zero, one| zero < one);
        self.soft(row, soft);
        self.tables[0]
    }

    /// The last best word of the row that was decoded before. It is the first one too where no other word ties. The tests of the Rust package ask for it.
    #[allow(dead_code)]
    pub fn last(&self, row: &[i16], word: &mut [u8]) {
        self.trace(row, word, |zero, one| zero <= one);
    }

    pub fn mark(&mut self, row: &[i16], word: &[u8]) -> (u32, i32) {
        self.make_tables(row);
        verdict(self.is_codeword(word), self.tables[0], self.code.metric(row, word))
    }

    pub fn is_codeword(&self, word: &[u8]) -> bool {
        let m = self.code.m;
        let ones = self.steps.iter().filter(|(b, _)| word[b / m] >> (b % m) & 1 == 1);
        ones.fold(0, |s, (_, h)| s ^ h) == 0
    }

    fn make_tables(&mut self, row: &[i16]) {
        let (bits, size) = (self.code.bits(), self.states);
        self.tables[bits * size..].fill(NEVER);
        self.tables[bits * size] = 0;
        for (k, &(b, h)) in self.steps.iter().enumerate().rev() {
            let r = i32::from(row[b]);
            let (here, behind) = self.tables[k * size..(k + 2) * size].split_at_mut(size);
            for s in 0..size {
                here[s] = (behind[s] + r).max(behind[s ^ h] - r);
            }
        }
    }

    /// A best word: it has a 1 where that is taken, by the greatest metric with a 0 there and that with a 1.
    fn trace(&self, row: &[i16], word: &mut [u8], takes_one: impl Fn(i32, i32) -> bool) {
        let (m, size) = (self.code.m, self.states);
        word.fill(0);
        let mut s = 0;
        for (k, &(b, h)) in self.steps.iter().enumerate() {
            let r = i32::from(row[b]);
            let behind = &self.tables[(k + 1) * size..(k + 2) * size];
            if takes_one(behind[s] + r, behind[s ^ h] - r) {
                word[b / m] |= 1 << (b % m);
                s ^= h;
            }
        }
    }

    fn soft(&mut self, row: &[i16], soft: &mut [i16]) {
        let size = self.states;
        self.carried.fill(NEVER);
        self.carried[0] = 0;
        for (k, &(b, h)) in self.steps.iter().enumerate() {
            let r = i32::from(row[b]);
            let behind = &self.tables[(k + 1) * size..(k + 2) * size];
            let (mut zero, mut one) = (NEVER, NEVER);
            for s in 0..size {
                let x = self.carried[s] + r;
                let y = self.carried[s ^ h] - r;
                zero = zero.max(x + behind[s]);
                one = one.max(y + behind[s]);
                self.next[s] = x.max(y);
            }
            std::mem::swap(&mut self.carried, &mut self.next);
            soft[b] = (zero - one) as i16;
        }
    }
}
