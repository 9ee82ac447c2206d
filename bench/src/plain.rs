//! The library's algorithm in plain Rust: a trellis of each layer over syndromes, a walk over the valid configurations, the first word of
//! those that tie, and soft outputs where the walk's marginals, carried forward, meet the tables of the layer. Tables of the code are made
//! once, and buffers are kept.

use crate::codes::{verdict, Code};
use std::ops::Add;

pub struct Plain {
    code: Code,
    cosets: usize,
    columns: Vec<usize>,
    configurations: Vec<[usize; 4]>,
    /// What a 1 at each bit adds to the values at all roots.
    checks: Vec<usize>,
    /// For each layer n + 1 tables: the greatest metric of the bits from a position on that add up to a syndrome.
    tables: Vec<Vec<i32>>,
    marginals: Vec<Vec<i32>>,
    /// The configurations with the greatest total.
    tied: Vec<[usize; 4]>,
    /// For each layer and syndrome the number of the first best word.
    numbers: Vec<Vec<u64>>,
    spare: Vec<u64>,
    carried: Vec<i32>,
    next: Vec<i32>,
}

const NEVER: i32 = -1_000_000;

impl Plain {
    pub fn new(number: u32) -> Plain {
        let code = Code::of(number);
        // the value at α, from three roots on that at α^3, and from five on the number of that at α^5; the others are powers of these
        let syndrome = |i: usize| {
            let mut s = code.alpha(i);
            if code.roots > 2 {
                s |= code.alpha(3 * i) << code.m;
            }
            if code.roots > 4 {
                s |= fifth_number(code.alpha(5 * i)) << (2 * code.m);
            }
            s
        };
        let columns: Vec<usize> = (0..code.n).map(syndrome).collect();
        let syndrome_bits = [code.m, 2 * code.m, 2 * code.m + 2][(code.roots - 1) / 2];
        let cosets = 1 << syndrome_bits;
        let configurations = configurations(&code, syndrome_bits);
        let checks = (0..code.bits()).map(|b| code.column(b / code.m, b % code.m)).collect();
        let tables = vec![vec![0; (code.n + 1) * cosets]; code.m];
        let marginals = vec![vec![0; cosets]; code.m];
        let tied = Vec::with_capacity(configurations.len());
        let numbers = vec![vec![0; cosets]; code.m];
        let spare = vec![0; cosets];
        let (carried, next) = (vec![0; cosets], vec![0; cosets]);
        Plain { columns, cosets, configurations, checks, tables, marginals, tied, numbers, spare, carried, next, code }
    }

    pub fn decode(&mut self, row: &[i16], word: &mut [u8], soft: &mut [i16]) -> i32 {
        self.make_tables(row);
        let best = if self.is_long() { self.long_walk() } else { self.walk() };
        let (m, mut left) = (self.code.m, self.first(row));
        for symbol in word.iter_mut().rev() {
            *symbol = left as u8 & ((1 << m) - 1);
            left >>= m;
        }
        for j in 0..m {
            self.soft(row, j, soft);
        }
        best
    }

    pub fn mark(&mut self, row: &[i16], word: &[u8]) -> (u32, i32) {
        self.make_tables(row);
        let best = if self.is_long() {
            let tables = four(&self.tables, self.cosets);
            self.configurations.iter().map(|c| four_total(&tables, c)).max().unwrap()
        } else {
            self.configurations.iter().map(|c| total(&self.tables, c)).max().unwrap()
        };
        verdict(self.is_codeword(word), best, self.code.metric(row, word))
    }

    /// Codes 4 and 5: with 65,536 configurations the walk is nearly all of a call, and it is written out for their four layers.
    fn is_long(&self) -> bool {
        self.cosets > 64
    }

    fn is_codeword(&self, word: &[u8]) -> bool {
        let m = self.code.m;
        let ones = self.checks.iter().enumerate().filter(|(b, _)| word[b / m] >> (b % m) & 1 == 1);
        ones.fold(0, |s, (_, h)| s ^ h) == 0
    }

    fn make_tables(&mut self, row: &[i16]) {
        let (m, n, size) = (self.code.m, self.code.n, self.cosets);
        for (j, table) in self.tables.iter_mut().enumerate() {
            table[n * size..].fill(NEVER);
            table[n * size] = 0;
            for i in (0..n).rev() {
                let r = i32::from(row[i * m + j]);
                let h = self.columns[i];
                let (here, behind) = table[i * size..(i + 2) * size].split_at_mut(size);
                for s in 0..size {
                    here[s] = (behind[s] + r).max(behind[s ^ h] - r);
                }
            }
        }
    }

    /// The greatest total, with the configurations that have it; for each layer and syndrome, the greatest total of the other layers.
    fn walk(&mut self) -> i32 {
        for marginal in &mut self.marginals {
            marginal.fill(NEVER);
        }
        let mut best = NEVER;
        for c in &self.configurations {
            let sum = total(&self.tables, c);
            if sum >= best {
                if sum > best {
                    best = sum;
                    self.tied.clear();
                }
                self.tied.push(*c);
            }
            for ((table, marginal), &s) in self.tables.iter().zip(&mut self.marginals).zip(c) {
                marginal[s] = marginal[s].max(sum - table[s]);
            }
        }
        best
    }

    /// The same for a long code.
    fn long_walk(&mut self) -> i32 {
        let size = self.cosets;
        for marginal in &mut self.marginals {
            marginal.fill(NEVER);
        }
        let tables = four(&self.tables, size);
        let [m0, m1, m2, m3] = &mut self.marginals[..] else { unreachable!() };
        let marginals = [&mut m0[..size], &mut m1[..size], &mut m2[..size], &mut m3[..size]];
        let mut best = NEVER;
        for c in &self.configurations {
            let own = [tables[0][c[0]], tables[1][c[1]], tables[2][c[2]], tables[3][c[3]]];
            let sum = own[0] + own[1] + own[2] + own[3];
            if sum >= best {
                if sum > best {
                    best = sum;
                    self.tied.clear();
                }
                self.tied.push(*c);
            }
            for j in 0..4 {
                let others = sum - own[j];
                if others > marginals[j][c[j]] {
                    marginals[j][c[j]] = others;
                }
            }
        }
        best
    }

    /// The least number of a best word: its symbols are the digits, position 0 leading, so that words are ordered as their numbers. That of a
    /// configuration is the sum over its layers.
    fn first(&mut self, row: &[i16]) -> u64 {
        if let [only] = self.tied[..] {
            return (0..self.code.m).map(|j| self.trace(row, j, only[j])).sum();
        }
        self.make_numbers(row);
        if self.is_long() {
            let numbers = four(&self.numbers, self.cosets);
            return self.tied.iter().map(|c| four_total(&numbers, c)).min().unwrap();
        }
        let number = |c: &[usize; 4]| self.numbers.iter().zip(c).map(|(numbers, &s)| numbers[s]).sum();
        self.tied.iter().map(number).min().unwrap()
    }

    /// The number of a layer's first best word with a syndrome: 0 bits where they attain the greatest metric.
    fn trace(&self, row: &[i16], j: usize, from: usize) -> u64 {
        let (m, size) = (self.code.m, self.cosets);
        let (mut s, mut number) = (from, 0);
        for (i, &h) in self.columns.iter().enumerate() {
            let r = i32::from(row[i * m + j]);
            let behind = &self.tables[j][(i + 1) * size..(i + 2) * size];
            number <<= m;
            if behind[s] + r < behind[s ^ h] - r {
                number |= 1 << j;
                s ^= h;
            }
        }
        number
    }

    /// The same for all syndromes, from the back.
    fn make_numbers(&mut self, row: &[i16]) {
        let (m, size) = (self.code.m, self.cosets);
        for (j, numbers) in self.numbers.iter_mut().enumerate() {
            numbers.fill(0);
            let mut one = 1 << j;
            for (i, &h) in self.columns.iter().enumerate().rev() {
                let r = i32::from(row[i * m + j]);
                let behind = &self.tables[j][(i + 1) * size..(i + 2) * size];
                for s in 0..size {
                    self.spare[s] = if behind[s] + r < behind[s ^ h] - r { numbers[s ^ h] | one } else { numbers[s] };
                }
                std::mem::swap(numbers, &mut self.spare);
                one <<= m;
            }
        }
    }

    fn soft(&mut self, row: &[i16], j: usize, soft: &mut [i16]) {
        let (m, size) = (self.code.m, self.cosets);
        self.carried.copy_from_slice(&self.marginals[j]);
        for (i, &h) in self.columns.iter().enumerate() {
            let r = i32::from(row[i * m + j]);
            let behind = &self.tables[j][(i + 1) * size..(i + 2) * size];
            let (mut zero, mut one) = (NEVER, NEVER);
            for s in 0..size {
                let a = self.carried[s] + r;
                let b = self.carried[s ^ h] - r;
                zero = zero.max(a + behind[s]);
                one = one.max(b + behind[s]);
                self.next[s] = a.max(b);
            }
            std::mem::swap(&mut self.carried, &mut self.next);
            soft[i * m + j] = (zero - one) as i16;
        }
    }
}

fn total(tables: &[Vec<i32>], c: &[usize; 4]) -> i32 {
    tables.iter().zip(c).map(|(table, &s)| table[s]).sum()
}

/// The entries of four layers for all syndromes.
#[inline]
fn four<T>(layers: &[Vec<T>], size: usize) -> [&[T]; 4] {
    [&layers[0][..size], &layers[1][..size], &layers[2][..size], &layers[3][..size]]
}

#[inline]
fn four_total<T: Copy + Add<Output = T>>(layers: &[&[T]; 4], c: &[usize; 4]) -> T {
    layers[0][c[0]] + layers[1][c[1]] + layers[2][c[2]] + layers[3][c[3]]
}

/// 0 and the powers of α^5 for m = 4, by their numbers, which add as these do.
const FIFTHS: [usize; 4] = [0, 1, 6, 7];

fn fifth_number(value: usize) -> usize {
    FIFTHS.iter().position(|x| *x == value).unwrap()
}

/// The tuples of syndromes at which, at every root, the sum of α^j times the layer's value is zero, in order. The sum is linear in the bits
/// of the syndromes: each bit is reduced by those before it; what sums to zero then is such a tuple, and all are sums of these.
fn configurations(code: &Code, syndrome_bits: usize) -> Vec<[usize; 4]> {
    let mask = (1 << code.m) - 1;
    let value = |s: usize, t: usize| {
        let square = |x| code.times(x, x);
        let (first, third) = (s & mask, s >> code.m & mask);
        match t {
            1 => first,
            2 => square(first),
            3 => third,
            4 => square(square(first)),
            5 => FIFTHS[s >> (2 * code.m)],
            _ => square(third),
        }
    };
    let (mut reduced, mut tuples) = (vec![], vec![[0; 4]]);
    for (j, b) in (0..code.m).flat_map(|j| (0..syndrome_bits).map(move |b| (j, b))) {
        let at_root = |t| code.times(code.alpha(j), value(1 << b, t));
        let mut sum = (1..=code.roots).fold(0, |h, t| h << code.m | at_root(t));
        let mut c = [0; 4];
        c[j] = 1 << b;
        for &(other, d) in &reduced {
            if sum ^ other < sum {
                sum ^= other;
                c = added(c, d);
            }
        }
        if sum != 0 {
            reduced.push((sum, c));
        } else {
            let sums: Vec<[usize; 4]> = tuples.iter().map(|&d| added(c, d)).collect();
            tuples.extend(sums);
        }
    }
    tuples.sort_unstable();
    tuples
}

fn added(c: [usize; 4], d: [usize; 4]) -> [usize; 4] {
    [0, 1, 2, 3].map(|j| c[j] ^ d[j])
}
