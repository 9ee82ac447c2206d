//! The quantiser, the decoder with its soft outputs, and the marker.

use crate::codes::{verdict, Code};
use crate::draw::Draw;
use crate::every::{is_codeword, unpacked, Best, Every};
use crate::wolf::Wolf;
use crate::{scratch, Output, CODES};
use tugzeck::{Refusal, Verdict};

/// The verdict as the library's Rust has it.
fn expected_verdict(code: &Code, best: i32, row: &[i16], word: &[u8]) -> Verdict {
    match verdict(is_codeword(code, word), best, code.metric(row, word)) {
        (0, _) => Verdict::None,
        (1, short) => Verdict::Short(short),
        (_, _) => Verdict::Best,
    }
}

#[derive(Default)]
struct Counts {
    rows: usize,
    ties: usize,
    verdicts: [usize; 3],
}

/// Decodes and marks `count` rows; `best` says what the best metric, the best words and the soft outputs are, `other` gives words to mark.
fn rows(number: u32, count: usize, best: impl Fn(&[i16]) -> Best, mut other: impl FnMut(&mut Draw) -> Vec<u8>) -> Counts {
    let code = Code::of(number);
    let mut wolf = Wolf::new(number);
    let mut draw = Draw::new(10 + u64::from(number));
    let mut counts = Counts::default();
    for k in 0..count {
        let near = other(&mut draw);
        let row = draw.row(k, code.m, &near);
        let expected = best(&row);

        let mut word = Output::new(code.n);
        let mut soft = Output::new(code.bits());
        let mut room = scratch();
        let metric = tugzeck::decode(number, &row, word.lent(), soft.lent(), room.lent());
        room.cleared();
        assert_eq!(metric, Ok(expected.metric), "code {number}, {row:?}");
        assert_eq!(word.left(), expected.first, "code {number}, {row:?}");
        assert_eq!(soft.left(), expected.soft, "code {number}, {row:?}");

        // the trellis of the whole code says the same
        assert_eq!(by_trellis(&mut wolf, &code, &row), expected, "code {number}, {row:?}");
        let tied = expected.first != expected.last;
        assert_eq!(tied, expected.soft.contains(&0), "code {number}, {row:?}");
        counts.ties += usize::from(tied);
        counts.rows += 1;

        let mut turned = word.left().to_vec();
        turned[k % code.n] ^= 1 << (k % code.m);
        let any = draw.word(code.n, code.m);
        for handed in [word.left(), &expected.last, &near, &turned, &any, &other(&mut draw)] {
            let expected = expected_verdict(&code, expected.metric, &row, handed);
            let mut room = scratch();
            assert_eq!(tugzeck::mark(number, &row, handed, room.lent()), Ok(expected), "code {number}, {row:?}, {handed:?}");
            room.cleared();
            counts.verdicts[match expected {
                Verdict::None => 0,
                Verdict::Short(_) => 1,
                Verdict::Best => 2,
            }] += 1;
        }
    }
    counts
}

/// What the trellis of the whole code says of a row.
fn by_trellis(wolf: &mut Wolf, code: &Code, row: &[i16]) -> Best {
    let (mut first, mut last, mut soft) = (vec![0; code.n], vec![0; code.n], vec![0; code.bits()]);
    let metric = wolf.decode(row, &mut first, &mut soft);
    wolf.last(row, &mut last);
    for word in [&first, &last] {
        assert!(is_codeword(code, word) && code.metric(row, word) == metric);
    }
    Best { metric, first, last, soft }
}

fn said(number: u32, against: &str, counts: Counts) {
    let Counts { rows, ties, verdicts: [none, short, best] } = counts;
    println!("compared: code {number}, {rows} rows decoded against {against}, {ties} with another tied word");
    println!("compared: code {number}, {best} best, {short} short and {none} other words marked");
    assert!(ties > 0 && none > 0 && short > 0 && best > 0);
}

fn against_every_codeword(number: u32, count: usize) {
    let every = Every::new(number);
    let words = |draw: &mut Draw| unpacked(&every.code, draw.of(&every.codewords));
    said(number, "every codeword", rows(number, count, |row| every.best(row), words));
}

#[test]
fn rows_of_code_1() {
    against_every_codeword(1, 5_000);
}

#[test]
fn rows_of_code_2() {
    against_every_codeword(2, 5_000);
}

#[test]
fn rows_of_code_3() {
    let best = |row: &[i16]| by_trellis(&mut Wolf::new(3), &Code::of(3), row);
    // codewords of this code are the best words of rows, by the trellis
    let mut wolf = Wolf::new(3);
    let words = |draw: &mut Draw| {
        let row: Vec<i16> = (0..60).map(|_| draw.within(127)).collect();
        let (mut word, mut soft) = (vec![0; 15], vec![0; 60]);
        wolf.decode(&row, &mut word, &mut soft);
        word
    };
    said(3, "the trellis of the whole code", rows(3, 5_000, best, words));
}

#[test]
fn recorded_rows() {
    let (mut word, mut soft) = ([9; 7], [9; 21]);
    let mut scratch = vec![9; tugzeck::SCRATCH];
    let mut row = [10; 21];
    assert_eq!(tugzeck::decode(1, &row, &mut word, &mut soft, &mut scratch), Ok(210));
    assert_eq!((word, soft), ([0; 7], [60; 21]));
    row[0] = -10;
    assert_eq!(tugzeck::decode(1, &row, &mut word, &mut soft, &mut scratch), Ok(190));
    assert_eq!(word, [0; 7]);
    assert!((0..7).all(|i| soft[3 * i] == 20));
    assert_eq!(tugzeck::decode(1, &[-10; 21], &mut word, &mut soft, &mut scratch), Ok(210));
    assert_eq!((word, soft), ([7; 7], [-60; 21]));
    assert_eq!(tugzeck::decode(1, &[0; 21], &mut word, &mut soft, &mut scratch), Ok(0));
    assert_eq!((word, soft), ([0; 7], [0; 21]));
    assert_eq!(tugzeck::mark(1, &[0; 21], &[7; 7], &mut scratch), Ok(Verdict::Best));
}

/// 32 times an f32 is exact in an f64, and `round` takes halves away from zero.
pub fn by_f64(x: f32) -> i16 {
    (f64::from(x) * 32.0).round().clamp(-127.0, 127.0) as i16
}

#[test]
fn samples() {
    let mut draw = Draw::new(20);
    let mut all =
        vec![0.0, -0.0, f32::INFINITY, f32::NEG_INFINITY, f32::MIN_POSITIVE, f32::MAX, f32::MIN, 1.0, 1.0 / 64.0, -1.0 / 64.0, 3.984375];
    // denormals
    all.extend([1, 2, 0x007f_ffff, 0x8000_0001, 0x807f_ffff].map(f32::from_bits));
    // halves and whole numbers over 32, and the floats on either side
    for k in 1..=258 {
        let bits = (k as f32 / 64.0).to_bits();
        all.extend([bits - 1, bits, bits + 1].iter().flat_map(|b| [f32::from_bits(*b), -f32::from_bits(*b)]));
    }
    all.extend((0..60_000).map(|_| draw.within(127) as f32 / 64.0 + draw.next() as f32 / 2f32.powi(60)));
    all.extend((0..60_000).map(|_| f32::from_bits(draw.next() as u32)).filter(|x| !x.is_nan()));
    let mut count = 0;
    for number in CODES {
        let long = tugzeck::row_length(number);
        for samples in all.chunks_exact(long) {
            let mut row = Output::new(long);
            assert_eq!(tugzeck::quantise(number, samples, row.lent()), Ok(()));
            for (x, r) in samples.iter().zip(row.left()) {
                assert_eq!(*r, by_f64(*x), "code {number}: {x:e}");
            }
            count += long;
        }
        let mut first = Output::new(long);
        assert_eq!(
            tugzeck::quantise(number, &[&[1.0, 1.0 / 64.0, -1.0 / 64.0, 3.984375], &vec![0.0; long - 4][..]].concat(), first.lent()),
            Ok(())
        );
        assert_eq!(first.left()[..4], [32, 1, -1, 127]);
    }
    let mut nans = 0;
    for number in CODES {
        let long = tugzeck::row_length(number);
        for bits in [0x7f80_0001, 0x7fc0_0000, 0x7fff_ffff, 0xff80_0001, 0xffc0_0000, 0xffff_ffff] {
            for at in 0..long {
                let mut samples = vec![1.0; long];
                samples[at] = f32::from_bits(bits);
                let mut row = Output::new(long);
                assert_eq!(tugzeck::quantise(number, &samples, row.lent()), Err(Refusal::Sample));
                row.kept();
                nans += 1;
            }
        }
    }
    println!("compared: {count} samples quantised, {nans} NaNs refused");
}
