//! The encoder, the message reader, the codeword test and the split.

use crate::codes::Code;
use crate::draw::Draw;
use crate::every::{is_codeword, unpacked, Every};
use crate::parameters::{leaders, numbered, parts};
use crate::{Output, CODES};
use tugzeck::Refusal;

fn encoded(number: u32, code: &Code, message: &[u8]) -> Vec<u8> {
    let mut word = Output::new(code.n);
    assert_eq!(tugzeck::encode(number, message, word.lent()), Ok(()));
    word.left().to_vec()
}

fn round_trip(number: u32, code: &Code, message: &[u8]) -> Vec<u8> {
    let word = encoded(number, code, message);
    assert!(is_codeword(code, &word), "code {number}: {message:?} gave {word:?}");
    assert_eq!(word[code.roots..], *message);
    let mut read = Output::new(message.len());
    assert_eq!(tugzeck::read_word(number, &word, read.lent()), Ok(()));
    assert_eq!(read.left(), message);
    word
}

#[test]
fn messages() {
    let mut draw = Draw::new(1);
    let mut count = 0;
    for number in [1, 2] {
        let every = Every::new(number);
        let code = &every.code;
        let k = code.n - code.roots;
        assert_eq!(every.codewords.len(), 1 << (k * code.m));
        for bits in &every.codewords {
            let word = unpacked(code, *bits);
            assert_eq!(round_trip(number, code, &word[code.roots..]), word);
            count += 1;
        }
    }
    for number in [3, 4, 5] {
        let code = numbered(number);
        for _ in 0..20_000 {
            let message = draw.word(code.n - code.roots, code.m);
            round_trip(number, &code, &message);
            count += 1;
        }
    }
    println!("compared: {count} messages encoded and read back, every one of codes 1 and 2");
}

/// Message 1 then zeros gives the generator. Those of codes 4 and 5 are not on record; they are the ones that textbooks print.
#[test]
fn recorded_words() {
    let generators: [&[u8]; 5] = [&[3, 6, 1], &[3, 2, 1, 3, 1], &[8, 6, 1], &[7, 8, 12, 13, 1], &[12, 10, 12, 3, 9, 7, 1]];
    for (number, generator) in CODES.into_iter().zip(generators) {
        let code = numbered(number);
        let mut message = vec![0; tugzeck::message_length(number)];
        message[0] = 1;
        let mut word = generator.to_vec();
        word.resize(tugzeck::word_length(number), 0);
        assert_eq!(encoded(number, &code, &message), word);
    }
    let mut bch = [0; 21];
    assert_eq!(tugzeck::split(1, &[3, 6, 1, 0, 0, 0, 0], &mut bch), Ok([5, 3, 2, 0]));
    assert_eq!(tugzeck::split(1, &[1, 1, 5, 4, 6, 2, 2], &mut bch), Ok([7, 4, 1, 0]));
    assert_eq!(tugzeck::check_word(1, &[1, 0, 0, 0, 0, 0, 0]), Ok(false));
}

#[test]
fn membership() {
    let mut draw = Draw::new(2);
    let (mut inside, mut outside) = (0, 0);
    for number in CODES {
        let code = numbered(number);
        for k in 0..30_000 {
            let mut word = draw.word(code.n, code.m);
            if k % 2 == 0 {
                word = encoded(number, &code, &word[code.roots..]);
            }
            if k % 4 == 0 {
                let i = draw.below(code.n);
                word[i] ^= 1 << draw.below(code.m);
            }
            let expected = is_codeword(&code, &word);
            assert_eq!(tugzeck::check_word(number, &word), Ok(expected), "code {number}, {word:?}");
            let mut message = Output::new(code.n - code.roots);
            let read = tugzeck::read_word(number, &word, message.lent());
            let mut bch = Output::new(code.bits());
            let split = tugzeck::split(number, &word, bch.lent());
            if expected {
                inside += 1;
                assert_eq!(read, Ok(()));
                assert_eq!(*message.left(), word[code.roots..]);
                assert!(split.is_ok());
            } else {
                outside += 1;
                assert_eq!((read, split), (Err(Refusal::NoCodeword), Err(Refusal::NoCodeword)));
                message.kept();
                bch.kept();
            }
        }
    }
    println!("compared: the codeword test on {inside} codewords and {outside} other words");
}

#[test]
fn splits() {
    let mut draw = Draw::new(3);
    let mut count = 0;
    for number in CODES {
        let code = numbered(number);
        let leaders = leaders(&code);
        let words: Vec<Vec<u8>> = if number > 2 {
            (0..20_000).map(|_| encoded(number, &code, &draw.word(code.n - code.roots, code.m))).collect()
        } else {
            Every::new(number).codewords.iter().map(|b| unpacked(&code, *b)).collect()
        };
        for word in words {
            let mut bch = Output::new(code.bits());
            let configuration = tugzeck::split(number, &word, bch.lent()).expect("a codeword");
            let (expected, left) = parts(&code, &leaders, &word);
            assert_eq!(configuration, expected, "code {number}, {word:?}");
            assert_eq!(bch.left(), left, "code {number}, {word:?}");
            count += 1;
        }
    }
    println!("compared: {count} codewords split, every one of codes 1 and 2");
}
