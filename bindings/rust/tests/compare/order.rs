//! Which refusal comes first, for the calls on words and rows: all combinations of wrong codes, wrong lengths and bad contents. Each expected
//! number is that of the first condition met, in the order of the paper's table. No output of a refused call is written.

use crate::codes::Code;
use crate::draw::Draw;
use crate::every::is_codeword;
use crate::joins::Joiner;
use crate::named::Named;
use crate::parameters::{code_of, numbered, refusal, TEN};
use crate::{number, Output, CODES, NO_CODES};

/// The first condition that is met.
fn first(conditions: &[(u32, bool)]) -> u32 {
    conditions.iter().find(|c| c.1).map_or(0, |c| c.0)
}

/// Every code with its own lengths, and numbers of no code with the lengths of some code.
fn codes() -> Vec<(u32, Code)> {
    let own = CODES.map(|c| (c, numbered(c)));
    let none = NO_CODES.iter().flat_map(|c| CODES.map(|like| (*c, numbered(like))));
    own.into_iter().chain(none).collect()
}

fn lengths(right: usize) -> [usize; 5] {
    [right, right - 1, right + 1, 0, 2 * right]
}

/// A scratch of the right length and of others, each lent to call after call.
fn scratches() -> [Output<i32>; 4] {
    [tugzeck::SCRATCH, tugzeck::SCRATCH - 1, tugzeck::SCRATCH + 1, 0].map(Output::new)
}

/// Lends a scratch to a call. The refused calls before an accepted one have kept it, and that one clears it; then there is a new one.
fn lend<T>(scratch: &mut Output<i32>, expected: u32, call: impl FnOnce(&mut [i32]) -> T) -> T {
    if expected != 0 {
        return call(scratch.lent());
    }
    scratch.kept();
    let answer = call(scratch.lent());
    scratch.cleared();
    *scratch = crate::scratch();
    answer
}

/// Symbols that fit, but at one place, if there is one.
fn symbols(draw: &mut Draw, code: &Code, long: usize) -> Vec<Vec<u8>> {
    let good = draw.word(long, code.m);
    let bad = [1u8 << code.m, 255];
    let at = |i: usize, s: u8| {
        let mut word = good.clone();
        if let Some(place) = word.get_mut(i) {
            *place = s;
        }
        word
    };
    vec![good.clone(), at(0, bad[0]), at(long.saturating_sub(1), bad[1]), at(long / 2, bad[0]), vec![0; long]]
}

/// Reliabilities that fit, but at one place, if there is one.
fn reliabilities(draw: &mut Draw, long: usize) -> Vec<Vec<i16>> {
    let good: Vec<i16> = (0..long).map(|_| draw.within(127)).collect();
    let at = |i: usize, r: i16| {
        let mut row = good.clone();
        if let Some(place) = row.get_mut(i) {
            *place = r;
        }
        row
    };
    let last = long.saturating_sub(1);
    vec![good.clone(), at(0, 128), at(last, -128), at(long / 2, i16::MIN), at(last, 127), at(0, -127)]
}

fn is_code(code: u32) -> bool {
    (1..=5).contains(&code)
}

fn unfit(code: &Code, word: &[u8]) -> bool {
    word.iter().any(|s| s >> code.m != 0)
}

fn outside(row: &[i16]) -> bool {
    row.iter().any(|r| *r < -127 || *r > 127)
}

#[derive(Default)]
struct Counts {
    calls: usize,
    refused: usize,
}

impl Counts {
    /// An output of a refused call is kept.
    fn met<T>(&mut self, answer: Result<T, tugzeck::Refusal>, expected: u32, what: &str) -> bool {
        assert_eq!(number(answer), expected, "{what}");
        self.calls += 1;
        self.refused += usize::from(expected != 0);
        expected != 0
    }
}

#[test]
fn first_refusals_of_words() {
    let mut draw = Draw::new(40);
    let mut counts = Counts::default();
    for (c, code) in codes() {
        let k = code.n - code.roots;
        for long in lengths(k) {
            for message in symbols(&mut draw, &code, long) {
                for output in lengths(code.n) {
                    let expected = first(&[(1, !is_code(c)), (3, long != k), (4, output != code.n), (6, unfit(&code, &message))]);
                    let mut to = Output::new(output);
                    if counts.met(tugzeck::encode(c, &message, to.lent()), expected, "encode") {
                        to.kept();
                    }
                }
            }
        }
        for long in lengths(code.n) {
            for word in symbols(&mut draw, &code, long) {
                let none = !is_codeword(&code, &word);
                for output in lengths(k) {
                    let expected = first(&[(1, !is_code(c)), (3, long != code.n), (4, output != k), (6, unfit(&code, &word)), (8, none)]);
                    let mut to = Output::new(output);
                    if counts.met(tugzeck::read_word(c, &word, to.lent()), expected, "read_word") {
                        to.kept();
                    }
                }
                for output in lengths(code.bits()) {
                    let lengths = [(1, !is_code(c)), (3, long != code.n), (4, output != code.bits())];
                    let expected = first(&[&lengths[..], &[(6, unfit(&code, &word)), (8, none)]].concat());
                    let mut to = Output::new(output);
                    if counts.met(tugzeck::split(c, &word, to.lent()), expected, "split") {
                        to.kept();
                    }
                }
                let expected = first(&[(1, !is_code(c)), (3, long != code.n), (6, unfit(&code, &word))]);
                counts.met(tugzeck::check_word(c, &word), expected, "check_word");
            }
        }
    }
    println!("compared: the first refusal of {} calls on words, {} of them refused", counts.calls, counts.refused);
}

#[test]
fn first_refusals_of_joins() {
    let mut draw = Draw::new(42);
    let mut counts = Counts::default();
    let numbers = codes().into_iter().map(|(c, code)| (Named::Number(c), u32::from(!is_code(c)), code));
    let chosen = TEN.into_iter().map(|(m, r)| (Named::By(m, r), 0, code_of(m, r)));
    let refused = [(0, 0), (2, 2), (5, 4), (260, 4), (3, 0), (3, 7), (4, 3), (4, 5), (4, 260)];
    let not_chosen = refused.into_iter().flat_map(|(m, r)| CODES.map(|like| (Named::By(m, r), refusal(m, r), numbered(like))));
    for (name, choice, code) in numbers.chain(chosen).chain(not_chosen) {
        let joiner = Joiner::new(code);
        let (n, long) = (joiner.code.n, joiner.code.bits());
        let (own, bch) = joiner.drawn(&mut draw);
        let with = |j: usize, s: u16| std::array::from_fn(|i| if i == j { s } else { own[i] });
        let size = joiner.size() as u16;
        let tuples = [own, [0; 4], with(0, size), with(1, own[1] ^ 1), with(2, u16::MAX), with(3, own[3] ^ 1)];
        for count in lengths(long) {
            let good: Vec<u8> = bch.iter().copied().cycle().take(count).collect();
            let at = |i: usize, value: u8| good.iter().enumerate().map(|(k, b)| if k == i { value } else { *b }).collect::<Vec<u8>>();
            for layers in [good.clone(), vec![0; count], at(0, 2), at(long - 1, 255), at(n, bch[n] ^ 1)] {
                for output in lengths(n) {
                    for tuple in tuples {
                        let lengths = [(choice, choice != 0), (3, count != long), (4, output != n)];
                        let expected = first(&[&lengths[..], &[(18, !joiner.all_bch(&layers)), (19, !joiner.is_valid(tuple))]].concat());
                        let mut to = Output::new(output);
                        if counts.met(name.join(tuple, &layers, to.lent()), expected, "join") {
                            to.kept();
                        }
                    }
                }
            }
        }
    }
    println!("compared: the first refusal of {} joins, {} of them refused", counts.calls, counts.refused);
}

#[test]
fn first_refusals_of_rows() {
    let mut draw = Draw::new(41);
    let mut counts = Counts::default();
    for (c, code) in codes() {
        for long in lengths(code.bits()) {
            for row in reliabilities(&mut draw, long) {
                let mut scratches = scratches();
                for (words, softs) in lengths(code.n).into_iter().flat_map(|w| lengths(code.bits()).map(|s| (w, s))) {
                    for scratch in &mut scratches {
                        let wrong = words != code.n || softs != code.bits();
                        let other = scratch.lent().len() != tugzeck::SCRATCH;
                        let lengths = [(1, !is_code(c)), (2, long != code.bits()), (4, wrong), (17, other)];
                        let expected = first(&[&lengths[..], &[(5, outside(&row))]].concat());
                        let (mut word, mut soft) = (Output::new(words), Output::new(softs));
                        let answer = lend(scratch, expected, |room| tugzeck::decode(c, &row, word.lent(), soft.lent(), room));
                        if counts.met(answer, expected, "decode") {
                            word.kept();
                            soft.kept();
                        }
                    }
                }
                for words in lengths(code.n) {
                    for word in symbols(&mut draw, &code, words) {
                        for scratch in &mut scratches {
                            let other = scratch.lent().len() != tugzeck::SCRATCH;
                            let lengths = [(1, !is_code(c)), (2, long != code.bits()), (3, words != code.n), (17, other)];
                            let expected = first(&[&lengths[..], &[(5, outside(&row)), (6, unfit(&code, &word))]].concat());
                            counts.met(lend(scratch, expected, |room| tugzeck::mark(c, &row, &word, room)), expected, "mark");
                        }
                    }
                }
                scratches.iter().for_each(Output::kept);
            }
            let good = vec![0.5f32; long];
            let mut not_a_number = good.clone();
            if let Some(last) = not_a_number.last_mut() {
                *last = f32::NAN;
            }
            for samples in [good, not_a_number] {
                for output in lengths(code.bits()) {
                    let nan = samples.iter().any(|x| x.is_nan());
                    let expected = first(&[(1, !is_code(c)), (2, long != code.bits()), (4, output != code.bits()), (7, nan)]);
                    let mut to = Output::new(output);
                    if counts.met(tugzeck::quantise(c, &samples, to.lent()), expected, "quantise") {
                        to.kept();
                    }
                }
            }
        }
    }
    println!("compared: the first refusal of {} calls on rows, {} of them refused", counts.calls, counts.refused);
}
