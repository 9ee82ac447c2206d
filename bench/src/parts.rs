//! The split and the join in plain Rust, as one would write them: tables of the code made once, words of bits as numbers. A refusal is `None`.

use crate::codes::Code;

pub struct Parts {
    code: Code,
    /// What a 1 at a position adds to a layer's syndrome, and the leader of each coset.
    columns: Vec<usize>,
    leaders: Vec<usize>,
    /// The values at all roots that a bit adds, m bits to a position.
    values: Vec<usize>,
}

impl Parts {
    pub fn new(code: Code) -> Parts {
        let (m, n, roots) = (code.m, code.n, code.roots);
        let column = |i: usize| {
            let third = if roots > 2 { code.alpha(3 * i) << m } else { 0 };
            let v = code.alpha(5 * i);
            let fifth = if roots > 4 && m == 4 { (v % 2 + 2 * (v / 4 % 2)) << (2 * m) } else { 0 };
            code.alpha(i) | third | fifth
        };
        let columns: Vec<usize> = (0..n).map(column).collect();
        let syndrome = |w: usize| (0..n).filter(|i| w >> i & 1 == 1).fold(0, |s, i| s ^ columns[i]);
        let mut leaders = vec![usize::MAX; columns.iter().max().unwrap().next_power_of_two()];
        for w in 0..1usize << n {
            let s = syndrome(w);
            if leaders[s] == usize::MAX || w.count_ones() < leaders[s].count_ones() {
                leaders[s] = w;
            }
        }
        let values = (0..code.bits()).map(|b| code.column(b / m, b % m)).collect();
        Parts { code, columns, leaders, values }
    }

    fn syndrome(&self, layer: usize) -> usize {
        self.columns.iter().enumerate().fold(0, |s, (i, c)| s ^ if layer >> i & 1 == 1 { *c } else { 0 })
    }

    fn is_codeword(&self, word: &[u8]) -> bool {
        let m = self.code.m;
        self.values.iter().enumerate().fold(0, |v, (b, x)| v ^ if word[b / m] >> (b % m) & 1 == 1 { *x } else { 0 }) == 0
    }

    pub fn split(&self, word: &[u8], bch: &mut [u8]) -> Option<[u16; 4]> {
        let (m, n) = (self.code.m, self.code.n);
        if word.len() != n || bch.len() != n * m || word.iter().any(|c| c >> m != 0) || !self.is_codeword(word) {
            return None;
        }
        let mut configuration = [0; 4];
        for (j, left) in bch.chunks_mut(n).enumerate() {
            let layer = word.iter().rev().fold(0, |w, c| 2 * w + usize::from(c >> j & 1));
            let s = self.syndrome(layer);
            configuration[j] = s as u16;
            let rest = layer ^ self.leaders[s];
            left.iter_mut().enumerate().for_each(|(i, b)| *b = (rest >> i & 1) as u8);
        }
        Some(configuration)
    }

    pub fn join(&self, configuration: [u16; 4], bch: &[u8], output: &mut [u8]) -> Option<()> {
        let (m, n) = (self.code.m, self.code.n);
        if bch.len() != n * m || output.len() != n || bch.iter().any(|b| *b > 1) {
            return None;
        }
        let mut word = [0; 15];
        for (j, layer) in bch.chunks(n).enumerate() {
            let w = layer.iter().rev().fold(0, |w, b| 2 * w + usize::from(*b));
            if self.syndrome(w) != 0 {
                return None;
            }
            let joined = w ^ self.leaders.get(usize::from(configuration[j]))?;
            word.iter_mut().take(n).enumerate().for_each(|(i, c)| *c |= ((joined >> i & 1) as u8) << j);
        }
        if configuration[m..].iter().any(|s| *s != 0) || !self.is_codeword(&word[..n]) {
            return None;
        }
        output.copy_from_slice(&word[..n]);
        Some(())
    }
}
