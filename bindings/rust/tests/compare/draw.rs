//! Numbers drawn by xorshift, the same in every run, and rows of every kind.

pub struct Draw(u64);

impl Draw {
    pub fn new(seed: u64) -> Draw {
        Draw(0x9E37_79B9_7F4A_7C15 ^ seed.wrapping_mul(0xD134_2543_DE82_EF95))
    }

    pub fn next(&mut self) -> u64 {
        self.0 ^= self.0 << 13;
        self.0 ^= self.0 >> 7;
        self.0 ^= self.0 << 17;
        self.0 >> 11
    }

    pub fn below(&mut self, n: usize) -> usize {
        (self.next() % n as u64) as usize
    }

    /// A reliability of at most this size.
    pub fn within(&mut self, size: i16) -> i16 {
        self.below(2 * size as usize + 1) as i16 - size
    }

    /// One of these.
    pub fn of<T: Copy>(&mut self, these: &[T]) -> T {
        these[self.below(these.len())]
    }

    pub fn word(&mut self, n: usize, m: usize) -> Vec<u8> {
        (0..n).map(|_| self.below(1 << m) as u8).collect()
    }

    /// Row number k: all zero, all alike, tied often, extreme, few that are not zero, near a word, or any.
    pub fn row(&mut self, k: usize, m: usize, near: &[u8]) -> Vec<i16> {
        let bits = near.len() * m;
        let all = [0, 1, -1, 10, -10, 127, -127, 64];
        if k < all.len() {
            return vec![all[k]; bits];
        }
        let towards = |b: usize| if near[b / m] >> (b % m) & 1 == 0 { 1 } else { -1 };
        match k % 8 {
            0 => (0..bits).map(|_| self.within(1)).collect(),
            1 => (0..bits).map(|_| self.within(3)).collect(),
            2 => (0..bits).map(|_| self.of(&[-127, 127])).collect(),
            3 => (0..bits).map(|_| if self.below(8) == 0 { self.within(127) } else { 0 }).collect(),
            4 => (0..bits).map(|b| (40 * towards(b) + self.within(60)).clamp(-127, 127)).collect(),
            5 => (0..bits).map(|b| 127 * towards(b) * if self.below(10) == 0 { -1 } else { 1 }).collect(),
            _ => (0..bits).map(|_| self.within(127)).collect(),
        }
    }
}
