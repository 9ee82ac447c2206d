// Compares the built `tugzeck_quantise` with two implementations that share nothing with it: one counts thresholds, one rounds in f64.
// Without an argument: 1,048,576 bit patterns, 2,048 for each sign and exponent, and the floats around every half over 32. With `all`: every bit pattern.
use std::process::exit;

extern "C" {
    fn tugzeck_quantise(code: u32, samples: *const u32, samples_len: usize, row: *mut i16, row_len: usize) -> u32;
}

// Samples go by their bits, so that Rust cannot change a NaN on the way.
fn quantise(code: u32, samples: &[u32], row: &mut [i16]) -> u32 {
    unsafe { tugzeck_quantise(code, samples.as_ptr(), samples.len(), row.as_mut_ptr(), row.len()) }
}

// The sizes at which the next whole number begins: (k - 1/2) / 32 for k from 1 to 127. An f64 holds each of them, and each f32, exactly.
fn thresholds() -> Vec<f64> {
    (1..=127).map(|k| f64::from(2 * k - 1) / 64.0).collect()
}

// How many thresholds the sample reaches, with its sign.
fn by_thresholds(thresholds: &[f64], x: f32) -> i16 {
    let size = thresholds.partition_point(|t| *t <= f64::from(x).abs()) as i16;
    if x < 0.0 { -size } else { size }
}

// 32 times an f32 is exact in an f64, and `round` takes halves away from zero.
fn by_f64(x: f32) -> i16 {
    (f64::from(x) * 32.0).round().clamp(-127.0, 127.0) as i16
}

const KEPT: i16 = -12345;

struct Comparison {
    thresholds: Vec<f64>,
    batch: Vec<u32>,
    turn: usize,
    numbers: u64,
    nans: u64,
    refusals: u64,
}

impl Comparison {
    fn new() -> Self {
        Comparison { thresholds: thresholds(), batch: Vec::new(), turn: 0, numbers: 0, nans: 0, refusals: 0 }
    }

    // The codes in turn: n·m is 21 for codes 1 and 2, and 60 for codes 3 to 5.
    fn code(&self) -> (u32, usize) {
        [(1, 21), (2, 21), (3, 60), (4, 60), (5, 60)][self.turn % 5]
    }

    fn pattern(&mut self, bits: u32) {
        if f32::from_bits(bits).is_nan() {
            self.nan(bits);
            return;
        }
        self.batch.push(bits);
        if self.batch.len() == self.code().1 {
            self.numbers();
        }
    }

    // A row of numbers: 0, and every place as both implementations have it.
    fn numbers(&mut self) {
        let (code, long) = self.code();
        let mut row = [KEPT; 60];
        let answer = quantise(code, &self.batch, &mut row[..long]);
        expect(answer == 0, format_args!("code {code} refused numbers by {answer}"));
        for (bits, got) in self.batch.iter().zip(&row) {
            let x = f32::from_bits(*bits);
            let a = by_thresholds(&self.thresholds, x);
            let b = by_f64(x);
            expect(*got == a && *got == b, format_args!("{bits:#010x} ({x:e}) gave {got}; by thresholds {a}, by f64 {b}"));
        }
        expect(row[long..].iter().all(|r| *r == KEPT), format_args!("a place past the row was written"));
        self.numbers += long as u64;
        self.batch.clear();
        self.turn += 1;
    }

    // A NaN at some place of a row: 7, and no place written.
    fn nan(&mut self, bits: u32) {
        let (code, long) = self.code();
        let mut samples = [0x3f80_0000; 60];
        samples[self.nans as usize % long] = bits;
        self.refused(code, &samples[..long], long, 7);
        self.nans += 1;
    }

    fn refused(&mut self, code: u32, samples: &[u32], output: usize, number: u32) {
        let mut row = [KEPT; 64];
        let answer = quantise(code, samples, &mut row[..output]);
        expect(answer == number, format_args!("code {code}, {} samples, {output} places: {answer} and not {number}", samples.len()));
        expect(row.iter().all(|r| *r == KEPT), format_args!("refused by {number}, and the row was written"));
        self.refusals += 1;
    }

    // What is left of a batch goes out with zeros.
    fn finish(&mut self) {
        while !self.batch.is_empty() {
            self.pattern(0);
        }
    }
}

fn expect(ok: bool, what: std::fmt::Arguments) {
    if !ok {
        println!("differs: {what}");
        exit(1);
    }
}

// 2,048 significands for each sign and exponent, both ends of the range among them, with all low bits in use.
fn steps(c: &mut Comparison) {
    for sign_exponent in 0..512u32 {
        for j in 0..2048u32 {
            let low = match j {
                0 => 0,
                2047 => 4095,
                _ => j.wrapping_mul(2654435761) >> 20,
            };
            c.pattern(sign_exponent << 23 | j << 12 | low);
        }
    }
}

// Every half and whole number up to 128, over 32, with the two floats on either side, of both signs.
fn halves(c: &mut Comparison) {
    for k in 1..=256u32 {
        let bits = (k as f32 / 64.0).to_bits();
        for near in bits - 2..=bits + 2 {
            c.pattern(near);
            c.pattern(1 << 31 | near);
        }
    }
}

// Refusals in their order: code, samples, output, a NaN; with wrong things after the one that counts.
fn refusals(c: &mut Comparison) {
    let one = [0x3f80_0000u32; 64];
    let nan = [0x7fc0_0000u32; 64];
    for code in [0, 6, 7, 255, 256, 257, u32::MAX] {
        for long in [0, 7, 21, 60] {
            c.refused(code, &one[..long], long, 1);
            c.refused(code, &nan[..long], 3, 1);
        }
    }
    for (code, n, long) in [(1, 7, 21), (2, 7, 21), (3, 15, 60), (4, 15, 60), (5, 15, 60)] {
        for count in (0..64).filter(|count| *count != long) {
            c.refused(code, &one[..count], long, 2);
            c.refused(code, &nan[..count], n, 2);
            c.refused(code, &one[..long], count, 4);
            c.refused(code, &nan[..long], count, 4);
        }
    }
}

fn main() {
    let mut c = Comparison::new();
    refusals(&mut c);
    halves(&mut c);
    if std::env::args().nth(1).as_deref() == Some("all") {
        (0..=u32::MAX).for_each(|bits| c.pattern(bits));
    } else {
        steps(&mut c);
    }
    c.finish();
    println!("{} numbers quantised alike, {} NaNs refused by 7, {} refusals in all", c.numbers, c.nans, c.refusals);
}
