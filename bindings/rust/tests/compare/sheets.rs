//! Sheets: judged, read by number, written and listed.

use crate::draw::Draw;
use crate::paper::{self, List, Question};
use crate::parameters::{encoded, numbered};
use crate::{number, Output, CODES};
use std::collections::BTreeMap;

fn any_question(draw: &mut Draw, number: u32) -> Question {
    let code = numbered(number);
    let near = draw.word(code.n, code.m);
    let k = 8 + draw.below(1000);
    Question { code: number, number: draw.below(1 << 24) as u32, row: draw.row(k, code.m, &near), word: draw.word(code.n, code.m) }
}

fn any_questions(draw: &mut Draw, count: usize) -> Vec<Question> {
    (0..count)
        .map(|_| {
            let code = draw.of(&CODES);
            any_question(draw, code)
        })
        .collect()
}

/// The sheet of 31 words that the paper prints.
fn paper_sheet() -> Vec<u8> {
    let words = [0x3000_0000u32, 0x3000_0163, 0x3000_0001].iter().zip(1..).flat_map(|(first, number)| {
        let head = 0x1100_0000 + number;
        [head].into_iter().chain([0x200A_0A0A; 7]).chain([*first, 0x3000_0000])
    });
    words.chain([0xF000_0003]).flat_map(u32::to_le_bytes).collect()
}

const PAPER_LISTING: &str = "question code best verdict short bits least
1 1 210 best 0 000000000000000000000 60
2 1 210 short 100 000000000000000000000 60
3 1 210 none - 000000000000000000000 60
3 questions
";

fn listed(sheet: &[u8]) -> String {
    let mut output = Output::new(tugzeck::LISTING);
    let long = tugzeck::list(sheet, output.lent()).expect("an output of the right length");
    output.kept_from(long);
    String::from_utf8(output.left()[..long].to_vec()).expect("text")
}

/// Judges a sheet and reads it at some indices; everything as the independent judge says. Answers its refusal, or 0.
pub fn judged(sheet: &[u8], indices: &[usize]) -> u32 {
    let expected = paper::read(sheet);
    let count = expected.as_ref().map(|q| q.len() as u32).map_err(|e| *e);
    assert_eq!(tugzeck::judge_sheet(sheet).map_err(tugzeck::Refusal::number), count, "{sheet:02x?}");
    for &index in indices {
        let found = expected.as_ref().map(|questions| questions.get(index)).map_err(|e| *e);
        let code = found.ok().flatten().map_or(1, |q| q.code);
        let mut row = Output::new(tugzeck::row_length(code));
        let mut word = Output::new(tugzeck::word_length(code));
        let answer = tugzeck::question(sheet, index, row.lent(), word.lent()).map_err(tugzeck::Refusal::number);
        assert_eq!(answer, found.map(|q| q.map(|q| tugzeck::Question { code: q.code, number: q.number })), "{index}: {sheet:02x?}");
        match found {
            Ok(Some(q)) => assert_eq!((row.left(), word.left()), (&q.row[..], &q.word[..])),
            _ => {
                row.kept();
                word.kept();
            }
        }
    }
    expected.err().unwrap_or(0)
}

fn written(list: &List, output: usize) -> Result<Vec<u8>, u32> {
    let mut to = Output::new(output);
    let answer = tugzeck::write_sheet(&list.codes, &list.numbers, &list.rows, &list.words, to.lent());
    match answer {
        Ok(()) => Ok(to.left().to_vec()),
        Err(refusal) => {
            to.kept();
            Err(refusal.number())
        }
    }
}

#[test]
fn the_paper() {
    let sheet = paper_sheet();
    assert_eq!(sheet.len(), 31 * 4);
    assert_eq!(listed(&sheet), PAPER_LISTING);
    assert_eq!(paper::listing(&sheet), PAPER_LISTING);
    assert_eq!(judged(&sheet, &[0, 1, 2, 3, 4, usize::MAX]), 0);
    assert_eq!(written(&List::of(&paper::read(&sheet).unwrap()), 124), Ok(sheet));
    assert_eq!(listed(&[]), "refused 9\n");
}

#[test]
fn round_trips() {
    let mut draw = Draw::new(30);
    let (mut sheets, mut questions) = (0, 0);
    let counts = (0..40).chain([0, 1, 100, 199, 200]);
    for count in counts {
        let list = any_questions(&mut draw, count);
        let sheet = paper::write(&list);
        assert_eq!(sheet.len(), tugzeck::sheet_length(&List::of(&list).codes));
        assert_eq!(paper::read(&sheet).as_ref(), Ok(&list));
        assert_eq!(written(&List::of(&list), sheet.len()), Ok(sheet.clone()));
        let indices: Vec<usize> = (0..=count + 1).chain([1 << 32, usize::MAX]).collect();
        assert_eq!(judged(&sheet, &indices), 0);
        sheets += 1;
        questions += count;
    }
    println!("compared: {sheets} sheets of {questions} questions written, judged and read by number");
}

#[test]
fn listings() {
    let mut draw = Draw::new(31);
    let mut lines = 0;
    let mut verdicts = [[0; 3]; 5];
    let mut marks = [[0; 2]; 5];
    for count in (0..25).chain([200]) {
        let mut list = any_questions(&mut draw, count);
        // one word handed in of three is the best word of its row, and one a codeword
        for (i, q) in list.iter_mut().enumerate() {
            let code = numbered(q.code);
            match i % 3 {
                0 => q.word = paper::decoded(q.code, &q.row).1,
                1 => q.word = encoded(&code, &q.word[code.roots..]),
                _ => {}
            }
        }
        let sheet = paper::write(&list);
        let text = paper::listing(&sheet);
        assert_eq!(listed(&sheet), text);
        for (q, line) in list.iter().zip(text.lines().skip(1)) {
            let verdict = ["none", "short", "best"].iter().position(|v| line.contains(v)).expect("a verdict");
            verdicts[q.code as usize - 1][verdict] += 1;
            marks[q.code as usize - 1][usize::from(line.contains('?'))] += 1;
        }
        lines += count;
    }
    assert!(verdicts.concat().iter().chain(&marks.concat()).all(|met| *met > 0), "{verdicts:?} {marks:?}");
    // the longest listings of codes 3 to 5: numbers of 8 digits, metrics of 4, shortfalls of 5
    for code in 3..=5 {
        let longest = Question { code, number: (1 << 24) - 1, row: vec![127; 60], word: vec![15; 15] };
        let sheet = paper::write(&vec![longest; 200]);
        assert_eq!(sheet.len(), tugzeck::MOST_SHEET);
        assert_eq!(listed(&sheet), paper::listing(&sheet));
        lines += 200;
    }
    println!("compared: listings of {lines} questions, line by line");
}

/// Every byte of a sheet at every value, every beginning of it, and what is longer.
fn damaged(sheet: &[u8], refusals: &mut BTreeMap<u32, usize>) {
    let mut met = |number| *refusals.entry(number).or_default() += 1;
    for at in 0..sheet.len() {
        let mut other = sheet.to_vec();
        for value in 0..=255 {
            other[at] = value;
            met(judged(&other, &[0, 1]));
        }
    }
    for long in 0..sheet.len() {
        met(judged(&sheet[..long], &[0]));
        met(judged(&sheet[long..], &[0]));
    }
    for more in 1..=8 {
        met(judged(&[sheet, &vec![0; more][..]].concat(), &[0]));
        met(judged(&[sheet, &sheet[..more.min(sheet.len())]].concat(), &[0]));
    }
}

fn said(what: &str, refusals: &BTreeMap<u32, usize>) {
    let total: usize = refusals.values().sum();
    let each: Vec<String> = refusals.iter().map(|(n, count)| format!("{n}: {count}")).collect();
    println!("compared: the judge on {total} {what} (refusal: how many): {}", each.join(", "));
}

#[test]
fn damaged_sheets() {
    let mut draw = Draw::new(32);
    let mut refusals = BTreeMap::new();
    damaged(&paper::write(&[]), &mut refusals);
    for code in CODES {
        damaged(&paper::write(&[any_question(&mut draw, code)]), &mut refusals);
    }
    damaged(&paper::write(&[any_question(&mut draw, 3), any_question(&mut draw, 1)]), &mut refusals);
    damaged(&paper::write(&[any_question(&mut draw, 2), any_question(&mut draw, 5), any_question(&mut draw, 4)]), &mut refusals);
    damaged(&paper_sheet(), &mut refusals);
    said("damaged sheets", &refusals);
    assert_eq!(refusals.keys().copied().collect::<Vec<_>>(), [0, 1, 5, 6, 9, 10, 11, 12, 13]);
}

/// Sheets with words changed, taken out, put in twice and swapped.
#[test]
fn shuffled_sheets() {
    let mut draw = Draw::new(33);
    let mut refusals = BTreeMap::new();
    for _ in 0..40_000 {
        let count = draw.below(4);
        let sheet = paper::write(&any_questions(&mut draw, count));
        let mut words: Vec<&[u8]> = sheet.chunks(4).collect();
        let head = draw
            .of(&[
                0x1100_0001u32,
                0x1000_0001,
                0x1400_0001,
                0x1600_0001,
                0xF000_0000,
                0xF000_0001,
                0xF100_0001,
                0x2080_8080,
                0x30FF_FFFF,
                0,
            ])
            .to_le_bytes();
        for _ in 0..1 + draw.below(2) {
            let (a, b) = (draw.below(words.len()), draw.below(words.len()));
            match draw.below(4) {
                0 => words[a] = &head,
                1 if words.len() > 1 => drop(words.remove(a)),
                2 => words.insert(a, words[b]),
                _ => words.swap(a, b),
            }
        }
        *refusals.entry(judged(&words.concat(), &[0, 1])).or_default() += 1;
    }
    said("shuffled sheets", &refusals);
}

#[test]
fn many_questions() {
    let mut draw = Draw::new(34);
    for code in CODES {
        let mut list: Vec<Question> = (0..200).map(|_| any_question(&mut draw, code)).collect();
        let good = paper::write(&list);
        assert_eq!(judged(&good, &[0, 199, 200]), 0);
        list.push(any_question(&mut draw, code));
        let sheet = paper::write(&list);
        assert_eq!(judged(&sheet, &[0, 200]), 12);
        assert_eq!(written(&List::of(&list), sheet.len()), Err(12));
        // a 201st head counts before its own code, and not before another kind
        let mut at = sheet.clone();
        at[good.len() - 1] = 0x1F;
        assert_eq!(judged(&at, &[]), 12);
        at[good.len() - 1] = 0x21;
        assert_eq!(judged(&at, &[]), 10);
    }
}

#[test]
fn outputs_of_other_lengths() {
    let mut draw = Draw::new(35);
    let mut count = 0;
    let list = any_questions(&mut draw, 5);
    let sheet = paper::write(&list);
    for long in [0, 1, 15, 19_057, 19_059, 20_000] {
        let mut output = Output::new(long);
        assert_eq!(number(tugzeck::list(&sheet, output.lent())), 4);
        assert_eq!(number(tugzeck::list(&sheet[1..], output.lent())), 4);
        output.kept();
    }
    for (rows, words) in (0..62).flat_map(|r| (0..17).map(move |w| (r, w))) {
        for index in 0..6 {
            let right = list.get(index).map(|q| (q.row.len(), q.word.len()) == (rows, words));
            let (mut row, mut word) = (Output::new(rows), Output::new(words));
            let answer = tugzeck::question(&sheet, index, row.lent(), word.lent());
            match right {
                Some(true) => assert!(answer.is_ok_and(|a| a.is_some())),
                Some(false) => assert_eq!(number(answer), 4),
                None => assert_eq!(answer, Ok(None)),
            }
            if right != Some(true) {
                row.kept();
                word.kept();
            }
            // the sheet's refusal comes first
            let refused = tugzeck::question(&sheet[..sheet.len() - 4], index, row.lent(), word.lent());
            assert_eq!(number(refused), 9);
            count += 2;
        }
    }
    println!("compared: {count} questions asked for with outputs of every length");
}

/// A list with up to three things wrong with it.
fn faulty(draw: &mut Draw) -> (List, usize) {
    let count = draw.below(5);
    let mut list = List::of(&any_questions(draw, count));
    let mut output = tugzeck::sheet_length(&list.codes);
    for _ in 0..draw.below(4) {
        let place = draw.next() as usize;
        match draw.below(11) {
            0 if count > 0 => list.codes[place % count] = draw.of(&crate::NO_CODES),
            1 if count > 0 => list.codes[place % count] = draw.of(&CODES),
            2 if !list.numbers.is_empty() => {
                let at = place % list.numbers.len();
                list.numbers[at] = draw.of(&[1 << 24, (1 << 24) - 1, u32::MAX]);
            }
            3 => drop(list.numbers.pop()),
            4 => list.numbers.push(0),
            5 => drop(list.rows.pop()),
            6 => list.rows.push(draw.of(&[0, 128])),
            7 => drop(list.words.pop()),
            8 => list.words.push(draw.of(&[0, 16])),
            9 if !list.rows.is_empty() => {
                let at = place % list.rows.len();
                list.rows[at] = draw.of(&[128, -128, i16::MAX, i16::MIN, 127]);
            }
            10 if !list.words.is_empty() => {
                let at = place % list.words.len();
                list.words[at] = draw.of(&[7, 8, 15, 16, 255]);
            }
            _ => output = draw.of(&[output + 1, output.saturating_sub(1), 0, output + 4]),
        }
    }
    (list, output)
}

#[test]
fn faulty_lists() {
    let mut draw = Draw::new(36);
    let mut refusals = BTreeMap::new();
    for _ in 0..60_000 {
        let (list, output) = faulty(&mut draw);
        let expected = list.questions().and_then(|questions| {
            let sheet = paper::write(&questions);
            if sheet.len() == output {
                Ok(sheet)
            } else {
                Err(4)
            }
        });
        let number = *expected.as_ref().err().unwrap_or(&0);
        assert_eq!(written(&list, output), expected, "{list:?}, {output}");
        *refusals.entry(number).or_insert(0usize) += 1;
    }
    let each: Vec<String> = refusals.iter().map(|(n, count)| format!("{n}: {count}")).collect();
    println!("compared: the writer on {} lists (refusal: how many): {}", refusals.values().sum::<usize>(), each.join(", "));
    assert_eq!(refusals.keys().copied().collect::<Vec<_>>(), [0, 1, 2, 3, 4, 5, 6, 11, 12]);
}
