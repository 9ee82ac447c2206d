//! Received symbols: the row by a plain reading of kinds and samples, and the first refusal.

use crate::draw::Draw;
use crate::rows::by_f64;
use crate::{number, Output, CODES, NO_CODES};

/// Bits of a kind's symbol, and the samples that it takes.
const BITS: [usize; 4] = [1, 2, 1, 2];
const SAMPLES: [usize; 4] = [0, 0, 1, 2];

/// The row of kinds 0 to 3, from the end: each symbol takes the last samples that are left, so that nothing is shared with a reading from the front.
fn row_of(kinds: &[u8], samples: &[f32]) -> Vec<i16> {
    let mut left = samples.to_vec();
    let mut row = Vec::new();
    for kind in kinds.iter().rev() {
        for bit in (0..BITS[usize::from(*kind)]).rev() {
            row.push(if SAMPLES[usize::from(*kind)] > bit { by_f64(left.pop().expect("a sample")) } else { 0 });
        }
    }
    assert!(left.is_empty());
    row.reverse();
    row
}

fn total(each: [usize; 4], kinds: &[u8]) -> usize {
    kinds.iter().map(|k| each[usize::from(*k).min(3)]).sum()
}

/// The first refusal, by the conditions in their order.
fn refusal(code: u32, bits: usize, kinds: &[u8], samples: &[f32], output: usize) -> u32 {
    if !CODES.contains(&code) {
        1
    } else if output != bits {
        4
    } else if kinds.iter().any(|k| *k > 3) {
        14
    } else if total(BITS, kinds) != bits || total(SAMPLES, kinds) != samples.len() {
        15
    } else if samples.iter().any(|x| x.is_nan()) {
        7
    } else {
        0
    }
}

#[derive(Default)]
struct Counts {
    taken: usize,
    refused: usize,
}

impl Counts {
    /// One call against the plain reading.
    fn call(&mut self, code: u32, bits: usize, kinds: &[u8], samples: &[f32], output: usize) -> u32 {
        let expected = refusal(code, bits, kinds, samples, output);
        let mut row = Output::new(output);
        let answer = tugzeck::receive(code, kinds, samples, row.lent());
        assert_eq!(number(answer), expected, "code {code}, {kinds:?}, {} samples, {output} places", samples.len());
        if expected == 0 {
            assert_eq!(row.left(), row_of(kinds, samples), "code {code}, {kinds:?}, {samples:?}");
            self.taken += 1;
        } else {
            row.kept();
            self.refused += 1;
        }
        expected
    }
}

/// A test of every code, by its number and the length of its rows.
fn every_code(seed: u64, what: &str, mut test: impl FnMut(&mut Draw, &mut Counts, u32, usize)) {
    let (mut draw, mut counts) = (Draw::new(seed), Counts::default());
    CODES.iter().for_each(|code| test(&mut draw, &mut counts, *code, tugzeck::row_length(*code)));
    println!("compared: {what}: {} rows received, {} calls refused", counts.taken, counts.refused);
}

/// Kinds that fill so many bits.
fn filling(draw: &mut Draw, bits: usize) -> Vec<u8> {
    let mut kinds = Vec::new();
    let mut left = bits;
    while left > 0 {
        let kind = draw.below(4) as u8;
        if BITS[usize::from(kind)] <= left {
            left -= BITS[usize::from(kind)];
            kinds.push(kind);
        }
    }
    kinds
}

/// Samples on both sides of the clip, infinities among them.
fn samples(draw: &mut Draw, count: usize) -> Vec<f32> {
    (0..count)
        .map(|_| match draw.below(16) {
            0 => f32::INFINITY,
            1 => f32::NEG_INFINITY,
            _ => draw.within(150) as f32 / 32.0 + draw.within(100) as f32 / 4096.0,
        })
        .collect()
}

/// Symbols that fill so many bits: their kinds, and the samples that they take.
fn symbols(draw: &mut Draw, bits: usize) -> (Vec<u8>, Vec<f32>) {
    let kinds = filling(draw, bits);
    let samples = samples(draw, total(SAMPLES, &kinds));
    (kinds, samples)
}

#[test]
fn rows_received() {
    every_code(50, "symbols of every kind at every place", |draw, counts, code, bits| {
        for _ in 0..5_000 {
            let (kinds, samples) = symbols(draw, bits);
            assert_eq!(counts.call(code, bits, &kinds, &samples, bits), 0);
        }
        // every kind at every place of the row, among symbols of every other kind
        for kind in 0..4u8 {
            for before in (0..4u8).flat_map(|other| (0..=bits).map(move |count| vec![other; count])) {
                let Some(behind) = bits.checked_sub(total(BITS, &before) + BITS[usize::from(kind)]) else { continue };
                let kinds = [before, vec![kind], filling(draw, behind)].concat();
                let samples = samples(draw, total(SAMPLES, &kinds));
                assert_eq!(counts.call(code, bits, &kinds, &samples, bits), 0);
            }
        }
        // single samples are quantised
        for _ in 0..1_000 {
            let samples = samples(draw, bits);
            let mut row = Output::new(bits);
            assert_eq!(tugzeck::quantise(code, &samples, row.lent()), Ok(()));
            assert_eq!(row.left(), row_of(&vec![2; bits], &samples));
            assert_eq!(counts.call(code, bits, &vec![2; bits], &samples, bits), 0);
        }
    });
}

#[test]
fn left_over_and_missing() {
    every_code(51, "bits and samples left over and missing", |draw, counts, code, bits| {
        for _ in 0..500 {
            let (kinds, taken) = symbols(draw, bits);
            let all = [taken, samples(draw, 2)].concat();
            let (right, fewer) = (all.len() - 2, kinds.len() - 1);
            // a bit or two left over, and the last symbol missing, with its samples and without them
            for kind in 0..4u8 {
                let more = [&kinds[..], &[kind]].concat();
                assert_eq!(counts.call(code, bits, &more, &all[..total(SAMPLES, &more)], bits), 15);
                assert_eq!(counts.call(code, bits, &more, &all[..right], bits), 15);
            }
            assert_eq!(counts.call(code, bits, &kinds[..fewer], &all[..total(SAMPLES, &kinds[..fewer])], bits), 15);
            assert_eq!(counts.call(code, bits, &kinds[..fewer], &all[..right], bits), 15);
            // samples left over and missing, by one and by more
            for count in [0, right.wrapping_sub(2), right.wrapping_sub(1), right + 1, right + 2] {
                if count < all.len() + 1 && count != right {
                    assert_eq!(counts.call(code, bits, &kinds, &all[..count], bits), 15);
                }
            }
            // the row of another code
            for other in CODES {
                counts.call(other, tugzeck::row_length(other), &kinds, &all[..right], tugzeck::row_length(other));
            }
        }
        // no symbols, very many, and as many as make the counts of bits or samples come round in 8 bits
        for kinds in [vec![], vec![0; 1_000_000], vec![3; 1_000_000], vec![0; bits + 256], vec![1; bits / 2 + 128], vec![3; 256]] {
            for samples in [vec![], vec![0.5; bits], vec![0.5; bits + 256], vec![0.5; 2 * kinds.len()]] {
                assert_eq!(counts.call(code, bits, &kinds, &samples, bits), 15);
            }
        }
    });
}

#[test]
fn first_refusals_of_received() {
    let mut met = [0; 16];
    every_code(52, "the first refusal of received symbols", |draw, counts, code, bits| {
        // a NaN at every sample, and a bad kind at every symbol
        for _ in 0..20 {
            let (kinds, good) = symbols(draw, bits);
            for at in 0..good.len() {
                let mut bad = good.clone();
                bad[at] = f32::from_bits(draw.of(&[0x7f80_0001, 0x7fc0_0000, 0x7fff_ffff, 0xff80_0001, 0xffc0_0000, 0xffff_ffff]));
                assert_eq!(counts.call(code, bits, &kinds, &bad, bits), 7);
            }
            for at in 0..kinds.len() {
                let mut bad = kinds.clone();
                bad[at] = draw.of(&[4, 5, 7, 8, 127, 128, 254, 255]);
                assert_eq!(counts.call(code, bits, &bad, &good, bits), 14);
            }
        }
        // all ways to break some of the rules at once
        for broken in 0..64 {
            let breaks = |rule: usize| broken >> rule & 1 == 1;
            for _ in 0..20 {
                let (mut kinds, mut samples) = symbols(draw, bits);
                if breaks(0) {
                    let at = draw.below(samples.len().max(1));
                    if let Some(x) = samples.get_mut(at) {
                        *x = f32::NAN;
                    }
                }
                if breaks(1) {
                    samples.extend([0.0, f32::NAN].iter().take(1 + draw.below(2)));
                }
                if breaks(2) {
                    kinds.push(draw.below(4) as u8);
                }
                if breaks(3) {
                    let at = draw.below(kinds.len());
                    kinds[at] = draw.of(&[4, 6, 255]);
                }
                let output = if breaks(4) { draw.of(&[0, bits - 1, bits + 1, 81 - bits]) } else { bits };
                let asked = if breaks(5) { draw.of(&NO_CODES) } else { code };
                met[counts.call(asked, bits, &kinds, &samples, output) as usize] += 1;
            }
        }
    });
    assert!([0, 1, 4, 7, 14, 15].iter().all(|n| met[*n] > 0), "{met:?}");
}
