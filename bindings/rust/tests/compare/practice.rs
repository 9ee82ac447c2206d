//! Practice sheets: drawn by the words that ask for them, written by the paper's writer, and read back.

use crate::draw::Draw;
use crate::paper::{self, Question};
use crate::parameters::numbered;
use crate::raw_results::drawn;
use crate::sheets::judged;
use crate::{scratch, Output, CODES, NO_CODES};
use std::collections::{BTreeMap, BTreeSet};

/// A state. It is kept in more bits than it has, so that nothing wraps by itself.
struct Drill(u64);

impl Drill {
    fn reliability(&mut self) -> i16 {
        self.0 = (self.0 + 0x9E37_79B9) % (1 << 32);
        let draw = self.0 ^ (self.0 >> 16);
        (draw % 255) as i16 - 127
    }

    fn questions(&mut self, code: u32, count: u32) -> Vec<Question> {
        let shape = numbered(code);
        let row = |drill: &mut Drill| (0..shape.bits()).map(|_| drill.reliability()).collect();
        (1..=count).map(|number| Question { code, number, row: row(self), word: vec![0; shape.n] }).collect()
    }
}

/// The questions drawn from a state, and the state after the last draw.
fn expected(code: u32, count: u32, state: u32) -> (Vec<Question>, u32) {
    let mut drill = Drill(state.into());
    let questions = drill.questions(code, count);
    (questions, drill.0 as u32)
}

/// The sheet that the call writes, and the state that it hands back.
fn practised(code: u32, count: u32, state: u32) -> (Vec<u8>, u32) {
    let mut output = Output::new(tugzeck::practice_length(code, count));
    let last = tugzeck::practice(code, count, state, output.lent()).expect("nothing to refuse");
    (output.left().to_vec(), last)
}

const COUNTS: [u32; 6] = [0, 1, 2, 7, 199, 200];

/// The greatest and the least, around the shift and the sign, and those that advance to 0 and to the greatest.
const SEEDS: [u32; 8] = [0, 1, (1 << 16) - 1, 1 << 16, 1 << 31, u32::MAX, 0x61C8_8647, u32::MAX - 0x9E37_79B9];

/// Compares a sheet, every byte of it, and the state. Answers its questions and its bytes.
fn compared(code: u32, count: u32, state: u32) -> (Vec<Question>, Vec<u8>) {
    let (questions, after) = expected(code, count, state);
    let (sheet, last) = practised(code, count, state);
    assert_eq!(last, after, "the state after {count} questions of code {code} from {state:#x}");
    assert_eq!(sheet, paper::write(&questions), "{count} questions of code {code} from {state:#x}");
    (questions, sheet)
}

#[test]
fn by_hand() {
    // 0x9E3779B9: its draw is 0x9E37E78E, and 0x9E + 0x37 + 0xE7 + 0x8E = 2 * 255 + 76; twice that is 0x3C6EF372, with the draw 0x3C6ECF1C
    for (state, row) in [(0, [76 - 127, 150 - 127]), (0x61C8_8647, [-127, 76 - 127]), (u32::MAX - 0x9E37_79B9, [-127, 77 - 127])] {
        assert_eq!(expected(1, 1, state).0[0].row[..2], row);
        assert_eq!(paper::read(&practised(1, 1, state).0).expect("a sheet")[0].row[..2], row);
    }
    // no questions: the end alone, and the state as it was
    for code in CODES {
        assert_eq!(practised(code, 0, 0x1234_5678), (vec![0, 0, 0, 0xF0], 0x1234_5678));
    }
    assert_eq!(practised(3, 200, 0), (paper::write(&expected(3, 200, 0).0), 0x6869_BFE0));
    let lengths = [(1, 0), (2, 1), (3, 0), (4, 1), (5, 200)].map(|(code, count)| tugzeck::practice_length(code, count));
    assert_eq!(lengths, [4, 44, 4, 100, 19_204]);
}

#[test]
fn every_byte() {
    let mut draw = Draw::new(50);
    let (mut sheets, mut questions) = (0, 0);
    let mut met = BTreeSet::new();
    let listed = SEEDS.iter().flat_map(|seed| COUNTS.map(|count| (*seed, count)));
    let any: Vec<(u32, u32)> = (0..600).map(|k| (draw.next() as u32, if k < 201 { k } else { draw.below(201) as u32 })).collect();
    for (state, count) in listed.chain(any) {
        for code in CODES {
            let (list, sheet) = compared(code, count, state);
            met.extend(list.iter().flat_map(|q| q.row.iter().map(|r| (code, *r))));
            assert_eq!(tugzeck::judge_sheet(&sheet), Ok(count));
            assert_eq!(sheet.len(), tugzeck::sheet_length(&vec![code; count as usize]));
            sheets += 1;
            questions += count;
        }
    }
    assert_eq!(sheets, 5 * (8 * 6 + 600));
    assert!(questions > 5 * (8 * 409 + 201 * 100));
    // each of the 255 reliabilities in each code
    assert_eq!(met.len(), 5 * 255);
    println!("compared: {sheets} practice sheets of {questions} questions, every byte and the state");
}

/// Sheets read back question by question, and their rows decoded and marked.
#[test]
fn read_back() {
    let mut draw = Draw::new(51);
    let mut scratch = scratch();
    let (mut asked, mut marked) = (0, 0);
    for code in CODES {
        let (n, bits) = (tugzeck::word_length(code), tugzeck::row_length(code));
        for state in SEEDS.into_iter().chain((0..12).map(|_| draw.next() as u32)) {
            for count in COUNTS {
                let (list, sheet) = compared(code, count, state);
                let indices: Vec<usize> = (0..=count as usize).chain([usize::MAX]).collect();
                assert_eq!(judged(&sheet, &indices), 0);
                for (index, q) in list.iter().enumerate() {
                    let (mut row, mut word) = (Output::new(bits), Output::new(n));
                    let number = index as u32 + 1;
                    assert_eq!(tugzeck::question(&sheet, index, row.lent(), word.lent()), Ok(Some(tugzeck::Question { code, number })));
                    assert_eq!((row.left(), word.left()), (&q.row[..], &vec![0; n][..]));
                    asked += 1;
                    // the rows of fewer questions are among these
                    if count < 200 {
                        continue;
                    }
                    let (mut best, mut soft) = (Output::new(n), Output::new(bits));
                    let metric = tugzeck::decode(code, row.left(), best.lent(), soft.lent(), scratch.lent()).expect("a good row");
                    // the zero word is a codeword, and the sum of the row its metric
                    let own: i32 = q.row.iter().map(|r| i32::from(*r)).sum();
                    let verdict = if own == metric { tugzeck::Verdict::Best } else { tugzeck::Verdict::Short(metric - own) };
                    assert_eq!(tugzeck::mark(code, row.left(), word.left(), scratch.lent()), Ok(verdict));
                    assert_eq!(tugzeck::mark(code, row.left(), best.left(), scratch.lent()), Ok(tugzeck::Verdict::Best));
                    marked += 1;
                }
            }
        }
    }
    assert_eq!((asked, marked), (5 * 20 * 409, 5 * 20 * 200));
    println!("compared: {asked} questions of practice sheets read by number, {marked} of their rows decoded and marked");
}

/// The rows of a sheet, in order.
fn rows(sheet: &[u8]) -> Vec<Vec<i16>> {
    paper::read(sheet).expect("a sheet").into_iter().map(|q| q.row).collect()
}

/// Some questions, and then others from the state handed back.
#[test]
fn one_after_another() {
    let mut draw = Draw::new(52);
    let mut splits = 0;
    for code in CODES {
        for state in SEEDS.into_iter().chain((0..12).map(|_| draw.next() as u32)) {
            let (whole, last) = practised(code, 50, state);
            assert_eq!(rows(&whole).len(), 50);
            for a in 0..=50 {
                let (first, between) = practised(code, a, state);
                let (second, end) = practised(code, 50 - a, between);
                assert_eq!(end, last);
                assert_eq!([rows(&first), rows(&second)].concat(), rows(&whole));
                splits += 1;
            }
        }
    }
    assert_eq!(splits, 5 * 20 * 51);
    println!("compared: {splits} drills of 50 questions, drawn in two parts, with those drawn at once");
}

/// What a call is refused by, or 0.
fn refusal(code: u32, count: u32, long: usize) -> u32 {
    match (count, code) {
        (201.., _) => 12,
        (_, 1 | 2) if long == 40 * count as usize + 4 => 0,
        (_, 3..=5) if long == 96 * count as usize + 4 => 0,
        (_, 1..=5) => 4,
        _ => 1,
    }
}

/// The number that the call answers, through both ways to it. Refused, the output and the state are kept.
fn refused(code: u32, count: u32, state: u32, long: usize) -> u32 {
    let mut output = Output::new(long);
    let answer = tugzeck::practice(code, count, state, output.lent());
    let mut again = Output::new(long);
    let (number, handed_back) = drawn(code, count, state, again.lent());
    assert_eq!(output.left(), again.left());
    match answer {
        Ok(last) => assert_eq!((number, handed_back), (0, last)),
        Err(refusal) => {
            assert_eq!((number, handed_back), (refusal.number(), state));
            output.kept();
            again.kept();
        }
    }
    number
}

#[test]
fn refusals() {
    assert_eq!(refused(0, 201, 9, 7), 12);
    assert_eq!(refused(0, u32::MAX, 9, 7), 12);
    for code in [0, 6, u32::MAX] {
        assert_eq!([4, 5].map(|long| refused(code, 0, 9, long)), [1, 1]);
    }
    assert_eq!([0, 3, 5, 4].map(|long| refused(3, 0, 9, long)), [4, 4, 4, 0]);
    assert_eq!([19_203, 19_205, 19_204].map(|long| refused(3, 200, 9, long)), [4, 4, 0]);

    let mut draw = Draw::new(53);
    let mut refusals = BTreeMap::new();
    // some of these counts are within 200 when cut to a byte or two, and some of their lengths those of few questions when cut to 32 bits
    let counts = [0, 1, 2, 199, 200, 201, 202, 256, 257, 1 << 16, 1 << 24, 1 << 27, 1 << 29, 1 << 31, (1 << 31) + 1, u32::MAX];
    for (code, count) in CODES.into_iter().chain(NO_CODES).flat_map(|code| counts.map(|count| (code, count))) {
        let right = [40, 96].map(|each: u32| (each.wrapping_mul(count) as usize + 4).min(25_000));
        let longs = right.into_iter().flat_map(|long| [long, long + 1, long - 1, long + 4, long - 4, long + 40, long + 96]);
        for long in longs.chain([0, 3, 4, 5, 8, 19_204]) {
            for state in [0, u32::MAX, draw.next() as u32] {
                let number = refused(code, count, state, long);
                assert_eq!(number, refusal(code, count, long), "{count} questions of code {code}, {long} bytes");
                *refusals.entry(number).or_insert(0usize) += 1;
            }
        }
    }
    assert_eq!(refusals.keys().copied().collect::<Vec<_>>(), [0, 1, 4, 12]);
    assert!(refusals.values().all(|met| *met > 100), "{refusals:?}");
    let each: Vec<String> = refusals.iter().map(|(n, count)| format!("{n}: {count}")).collect();
    println!("compared: {} practice sheets asked for (refusal: how many): {}", refusals.values().sum::<usize>(), each.join(", "));
}
