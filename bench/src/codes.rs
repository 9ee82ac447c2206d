//! The five codes, from their roots: written apart from the library, to compare with it.

pub struct Code {
    /// Bits to a symbol.
    pub m: usize,
    /// Symbols to a word.
    pub n: usize,
    /// The roots are α to α^roots.
    pub roots: usize,
}

impl Code {
    pub fn of(number: u32) -> Code {
        let (m, roots) = match number {
            1 => (3, 2),
            2 => (3, 4),
            3 => (4, 2),
            4 => (4, 4),
            5 => (4, 6),
            _ => panic!("no code {number}"),
        };
        Code { m, n: (1 << m) - 1, roots }
    }

    pub fn bits(&self) -> usize {
        self.n * self.m
    }

    /// The product of two field elements.
    pub fn times(&self, mut a: usize, mut b: usize) -> usize {
        let modulus = if self.m == 3 { 0b1011 } else { 0b10011 };
        let mut product = 0;
        while b != 0 {
            if b & 1 == 1 {
                product ^= a;
            }
            a <<= 1;
            if a >> self.m != 0 {
                a ^= modulus;
            }
            b >>= 1;
        }
        product
    }

    /// α^e.
    pub fn alpha(&self, e: usize) -> usize {
        (0..e).fold(1, |x, _| self.times(x, 2))
    }

    /// The values at all roots of the word whose only 1 is bit j of position i, side by side.
    pub fn column(&self, i: usize, j: usize) -> usize {
        (1..=self.roots).fold(0, |h, t| {
            let value = self.times(self.alpha(j), self.alpha(i * t));
            h | value << (self.m * (t - 1))
        })
    }

    /// Whether a word has the value 0 at every root.
    pub fn is_codeword(&self, word: &[u8]) -> bool {
        (1..=self.roots).all(|t| (0..self.n).fold(0, |x, i| x ^ self.times(word[i].into(), self.alpha(i * t))) == 0)
    }

    pub fn metric(&self, row: &[i16], word: &[u8]) -> i32 {
        (0..self.bits())
            .map(|b| {
                let r = i32::from(row[b]);
                if word[b / self.m] >> (b % self.m) & 1 == 0 { r } else { -r }
            })
            .sum()
    }
}

/// 0 none, 1 short, 2 best, as the library numbers them, with the shortfall.
pub fn verdict(is_codeword: bool, best: i32, own: i32) -> (u32, i32) {
    match (is_codeword, best - own) {
        (false, _) => (0, 0),
        (true, 0) => (2, 0),
        (true, short) => (1, short),
    }
}
