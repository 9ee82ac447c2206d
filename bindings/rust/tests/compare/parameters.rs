//! The calls by m and r: the ten codes that may be chosen, with independent encoding, syndromes and leaders, and the refusals of every pair near them.

use crate::codes::Code;
use crate::draw::Draw;
use crate::every::{is_codeword, value};
use crate::rows::by_f64;
use crate::{number, Output};
use tugzeck::Refusal;

/// The codes that may be chosen.
pub const TEN: [(u32, u32); 10] = [(3, 1), (3, 2), (3, 3), (3, 4), (3, 5), (3, 6), (4, 1), (4, 2), (4, 4), (4, 6)];

/// Those with a number, code 1 first.
pub const NUMBERED: [(u32, u32); 5] = [(3, 2), (3, 4), (4, 2), (4, 4), (4, 6)];

pub fn code_of(m: u32, r: u32) -> Code {
    Code { m: m as usize, n: (1 << m) - 1, roots: r as usize }
}

/// The code of a number.
pub fn numbered(number: u32) -> Code {
    let (m, r) = NUMBERED[number as usize - 1];
    code_of(m, r)
}

/// What the choice of m and r is refused by, from the dimensions: that of the BCH code by the conjugates of its roots.
pub fn refusal(m: u32, r: u32) -> u32 {
    if m != 3 && m != 4 {
        return 1;
    }
    if !(1..=6).contains(&r) {
        return 16;
    }
    let n = (1u32 << m) - 1;
    let mut zeros = vec![false; n as usize];
    for t in 1..=r {
        (0..m).for_each(|k| zeros[(t << k) as usize % n as usize] = true);
    }
    let bch = zeros.iter().filter(|z| !**z).count() as u32;
    if m * ((n - r) - bch) > 16 {
        16
    } else {
        0
    }
}

/// The codeword of a message, by division by the generator.
pub fn encoded(code: &Code, message: &[u8]) -> Vec<u8> {
    let mut generator = vec![1];
    for t in 1..=code.roots {
        let mut next = vec![0; generator.len() + 1];
        for (i, c) in generator.iter().enumerate() {
            next[i + 1] ^= c;
            next[i] ^= code.times(code.alpha(t), *c);
        }
        generator = next;
    }
    let mut rest = vec![0usize; code.roots];
    rest.extend(message.iter().map(|c| usize::from(*c)));
    for i in (code.roots..code.n).rev() {
        let c = rest[i];
        for (j, g) in generator.iter().enumerate() {
            rest[i - code.roots + j] ^= code.times(c, *g);
        }
    }
    rest[..code.roots].iter().map(|c| *c as u8).chain(message.iter().copied()).collect()
}

/// The syndrome of a binary word by the paper's numbering.
pub fn syndrome(code: &Code, layer: &[u8]) -> usize {
    let mut s = value(code, 1, layer);
    if code.roots >= 3 {
        s += value(code, 3, layer) << code.m;
    }
    if code.roots >= 5 && code.m == 4 {
        s += 256 * [0, 1, 6, 7].iter().position(|v| *v == value(code, 5, layer)).expect("a value of the field of 4");
    }
    s
}

/// The coset of every binary word, position i weighing 2^i.
pub fn cosets(code: &Code) -> Vec<usize> {
    let columns: Vec<usize> = (0..code.n).map(|i| syndrome(code, &bits(code.n, 1 << i))).collect();
    (0..1u32 << code.n).map(|word| (0..code.n).filter(|i| word >> i & 1 == 1).fold(0, |s, i| s ^ columns[i])).collect()
}

/// The leader of every coset with its weight, of all binary words: least weight, then the smallest number.
pub fn leaders(code: &Code) -> Vec<(u32, u32)> {
    let cosets = cosets(code);
    let mut least = vec![(u32::MAX, 0); cosets.iter().max().expect("a word") + 1];
    for (word, s) in (0u32..).zip(cosets) {
        least[s] = least[s].min((word.count_ones(), word));
    }
    least
}

/// The parts of a word: the syndromes of its layers, and what is left of each layer when its leader is added, layer 1 first.
pub fn parts(code: &Code, leaders: &[(u32, u32)], word: &[u8]) -> ([u16; 4], Vec<u8>) {
    let mut tuple = [0u16; 4];
    let mut left = Vec::new();
    for (j, place) in tuple.iter_mut().enumerate().take(code.m) {
        let layer: Vec<u8> = word.iter().map(|c| c >> j & 1).collect();
        let s = syndrome(code, &layer);
        *place = s as u16;
        left.extend(layer.iter().zip(bits(code.n, leaders[s].1)).map(|(a, b)| a ^ b));
    }
    (tuple, left)
}

pub fn bits(n: usize, word: u32) -> Vec<u8> {
    (0..n).map(|i| (word >> i & 1) as u8).collect()
}

#[test]
fn words_and_splits() {
    let mut draw = Draw::new(31);
    let (mut count, mut refused) = (0, 0);
    let mut heaviest = 0;
    for (m, r) in TEN {
        let code = code_of(m, r);
        let leaders = leaders(&code);
        heaviest = heaviest.max(leaders.iter().map(|l| l.0).max().expect("a leader"));
        assert_eq!(tugzeck::word_length_by(m), code.n);
        assert_eq!(tugzeck::message_length_by(m, r), code.n - code.roots);
        assert_eq!(tugzeck::row_length_by(m), code.bits());
        for _ in 0..3_000 {
            let message = draw.word(code.n - code.roots, code.m);
            let expected = encoded(&code, &message);
            let mut word = Output::new(code.n);
            assert_eq!(tugzeck::encode_by(m, r, &message, word.lent()), Ok(()));
            assert_eq!(word.left(), expected, "({m}, {r}), {message:?}");
            let mut read = Output::new(message.len());
            assert_eq!(tugzeck::read_word_by(m, r, &expected, read.lent()), Ok(()));
            assert_eq!(read.left(), message);
            assert_eq!(tugzeck::check_word_by(m, r, &expected), Ok(true));

            let mut bch = Output::new(code.bits());
            let configuration = tugzeck::split_by(m, r, &expected, bch.lent()).expect("a codeword");
            let (tuple, left) = parts(&code, &leaders, &expected);
            assert_eq!(configuration, tuple, "({m}, {r}), {expected:?}");
            assert_eq!(bch.left(), left, "({m}, {r}), {expected:?}");
            count += 1;

            let mut other = expected.clone();
            other[draw.below(code.n)] ^= 1 << draw.below(code.m);
            assert!(!is_codeword(&code, &other));
            assert_eq!(tugzeck::check_word_by(m, r, &other), Ok(false));
            let (mut read, mut bch) = (Output::new(message.len()), Output::new(code.bits()));
            assert_eq!(tugzeck::read_word_by(m, r, &other, read.lent()), Err(Refusal::NoCodeword));
            assert_eq!(tugzeck::split_by(m, r, &other, bch.lent()), Err(Refusal::NoCodeword));
            read.kept();
            bch.kept();
            refused += 1;
        }
    }
    assert_eq!(heaviest, 5);
    println!("compared: {count} codewords of the ten codes by parameters encoded, read and split, {refused} other words refused");
}

/// The leader of every coset that codewords have in layer 1, as often as they are drawn.
#[test]
fn every_coset() {
    let mut draw = Draw::new(32);
    let mut count = 0;
    for (m, r) in TEN {
        let code = code_of(m, r);
        let leaders = leaders(&code);
        let mut met = vec![false; leaders.len()];
        for _ in 0..200_000 {
            if met.iter().all(|s| *s) {
                break;
            }
            let word = encoded(&code, &draw.word(code.n - code.roots, code.m));
            let layer: Vec<u8> = word.iter().map(|c| c & 1).collect();
            let s = syndrome(&code, &layer);
            if met[s] {
                continue;
            }
            met[s] = true;
            let mut bch = vec![0; code.bits()];
            let configuration = tugzeck::split_by(m, r, &word, &mut bch).expect("a codeword");
            assert_eq!(usize::from(configuration[0]), s);
            let left: Vec<u8> = layer.iter().zip(bits(code.n, leaders[s].1)).map(|(a, b)| a ^ b).collect();
            assert_eq!(bch[..code.n], left, "({m}, {r}), coset {s}");
            count += 1;
        }
    }
    println!("compared: the leaders of {count} cosets of the ten codes");
}

#[test]
fn choices() {
    let mut met = [0; 17];
    let mut taken = Vec::new();
    let near: Vec<(u32, u32)> = (0..=6).flat_map(|m| (0..=8).map(move |r| (m, r))).collect();
    let far = [(3, 257), (4, 260), (259, 2), (260, 4), (3, u32::MAX), (u32::MAX, 2), (4, 1 << 31)];
    for (m, r) in near.into_iter().chain(far) {
        let expected = refusal(m, r);
        let code = if expected == 0 { code_of(m, r) } else { code_of(4, 4) };
        let (message, word) = (vec![0u8; code.n - code.roots], vec![0u8; code.n]);
        let samples = vec![0.0f32; code.bits()];
        let kinds = vec![tugzeck::SINGLE; code.bits()];
        let (mut a, mut b, mut c) = (Output::new(code.n), Output::new(message.len()), Output::new(code.bits()));
        let (mut d, mut e, mut f) = (Output::<i16>::new(code.bits()), Output::<i16>::new(code.bits()), Output::new(code.n));
        assert_eq!(number(tugzeck::encode_by(m, r, &message, a.lent())), expected, "({m}, {r})");
        assert_eq!(number(tugzeck::read_word_by(m, r, &word, b.lent())), expected, "({m}, {r})");
        assert_eq!(number(tugzeck::check_word_by(m, r, &word)), expected, "({m}, {r})");
        assert_eq!(number(tugzeck::split_by(m, r, &word, c.lent())), expected, "({m}, {r})");
        assert_eq!(number(tugzeck::join_by(m, r, [0; 4], &vec![0; code.bits()], f.lent())), expected, "({m}, {r})");
        assert_eq!(number(tugzeck::quantise_by(m, r, &samples, d.lent())), expected, "({m}, {r})");
        assert_eq!(number(tugzeck::receive_by(m, r, &kinds, &samples, e.lent())), expected, "({m}, {r})");
        // The choice is refused before anything else is looked at.
        let mut none = Output::new(1);
        let first = |own: u32| if expected == 0 { own } else { expected };
        assert_eq!(number(tugzeck::encode_by(m, r, &[255; 20], none.lent())), first(3));
        assert_eq!(number(tugzeck::read_word_by(m, r, &[255; 20], none.lent())), first(3));
        assert_eq!(number(tugzeck::check_word_by(m, r, &[255; 20])), first(3));
        assert_eq!(number(tugzeck::split_by(m, r, &[255; 20], none.lent())), first(3));
        assert_eq!(number(tugzeck::join_by(m, r, [u16::MAX; 4], &[255; 20], none.lent())), first(3));
        let mut row = Output::<i16>::new(1);
        assert_eq!(number(tugzeck::quantise_by(m, r, &[f32::NAN; 20], row.lent())), first(2));
        assert_eq!(number(tugzeck::receive_by(m, r, &[4; 20], &[f32::NAN; 20], row.lent())), first(4));
        none.kept();
        row.kept();
        met[expected as usize] += 1;
        if expected == 0 {
            taken.push((m, r));
        } else {
            a.kept();
            b.kept();
            c.kept();
            d.kept();
            e.kept();
            f.kept();
        }
    }
    assert_eq!(taken, TEN);
    println!("compared: the choice of m and r: {} taken, {} refused by 1, {} by 16", met[0], met[1], met[16]);
}

#[test]
fn rows() {
    let mut draw = Draw::new(33);
    let mut count = 0;
    for (m, r) in TEN {
        let bits = tugzeck::row_length_by(m);
        for _ in 0..500 {
            let samples: Vec<f32> = (0..bits).map(|_| f32::from(draw.within(300)) / 64.0).collect();
            let expected: Vec<i16> = samples.iter().map(|x| by_f64(*x)).collect();
            let mut row = Output::new(bits);
            assert_eq!(tugzeck::quantise_by(m, r, &samples, row.lent()), Ok(()));
            assert_eq!(row.left(), expected);
            let mut row = Output::new(bits);
            assert_eq!(tugzeck::receive_by(m, r, &vec![tugzeck::SINGLE; bits], &samples, row.lent()), Ok(()));
            assert_eq!(row.left(), expected);
            count += 1;
        }
    }
    println!("compared: {count} rows quantised and received by parameters");
}

/// The codes that have a number too: both forms of a call answer the same, refused or not.
#[test]
fn both_forms() {
    let mut draw = Draw::new(34);
    let mut count = 0;
    for (code, (m, r)) in (1..).zip(NUMBERED) {
        let (n, k, long) = (tugzeck::word_length(code), tugzeck::message_length(code), tugzeck::row_length(code));
        assert_eq!((n, k, long), (tugzeck::word_length_by(m), tugzeck::message_length_by(m, r), tugzeck::row_length_by(m)));
        for i in 0..2_000 {
            let mut word = draw.word(n, m as usize);
            if i % 3 == 0 {
                word = encoded(&numbered(code), &word[r as usize..]);
            }
            if i % 7 == 0 {
                word[draw.below(n)] = 1 << m;
            }
            if i % 11 == 0 {
                word.pop();
            }
            let message = &word[word.len() - k..];
            let (mut a, mut b) = (Output::new(n), Output::new(n));
            assert_eq!(tugzeck::encode(code, message, a.lent()), tugzeck::encode_by(m, r, message, b.lent()));
            assert_eq!(a.left(), b.left());
            let (mut a, mut b) = (Output::new(k), Output::new(k));
            assert_eq!(tugzeck::read_word(code, &word, a.lent()), tugzeck::read_word_by(m, r, &word, b.lent()));
            assert_eq!(a.left(), b.left());
            let (mut a, mut b) = (Output::new(long), Output::new(long));
            let split = tugzeck::split(code, &word, a.lent());
            assert_eq!(split, tugzeck::split_by(m, r, &word, b.lent()));
            assert_eq!(a.left(), b.left());
            let mut configuration = split.unwrap_or_default();
            configuration[0] ^= u16::from(i % 5 == 0);
            let (bch, mut a, mut b) = (a.left(), Output::new(n), Output::new(n));
            let joined = tugzeck::join(code, configuration, bch, a.lent());
            assert_eq!(joined, tugzeck::join_by(m, r, configuration, bch, b.lent()));
            assert_eq!(a.left(), b.left());
            assert_eq!(tugzeck::check_word(code, &word), tugzeck::check_word_by(m, r, &word));

            let samples: Vec<f32> = (0..long + i % 5 / 4).map(|_| f32::from(draw.within(300)) / 64.0).collect();
            let (mut a, mut b) = (Output::<i16>::new(long), Output::<i16>::new(long));
            assert_eq!(tugzeck::quantise(code, &samples, a.lent()), tugzeck::quantise_by(m, r, &samples, b.lent()));
            assert_eq!(a.left(), b.left());
            let kinds = vec![tugzeck::SINGLE; long];
            let (mut a, mut b) = (Output::<i16>::new(long), Output::<i16>::new(long));
            assert_eq!(tugzeck::receive(code, &kinds, &samples, a.lent()), tugzeck::receive_by(m, r, &kinds, &samples, b.lent()));
            assert_eq!(a.left(), b.left());
            count += 1;
        }
    }
    println!("compared: {count} words and rows by a code's number and by its parameters");
}
