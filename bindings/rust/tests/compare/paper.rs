//! Sheets by the paper that says what they are: read, judged, written and listed, with none of the library's code.

use crate::codes::verdict;
use crate::configured::Search;
use crate::every::is_codeword;
use crate::parameters::numbered;
use crate::wolf::Wolf;
use crate::CODES;
use std::sync::OnceLock;

#[derive(Clone, Debug, PartialEq)]
pub struct Question {
    pub code: u32,
    pub number: u32,
    pub row: Vec<i16>,
    pub word: Vec<u8>,
}

const MOST: usize = 200;

/// Takes `count` items of `size` bits out of the words of a kind. Refuses by 9, 10, 11.
struct Items<'a> {
    words: &'a [u32],
    at: usize,
}

impl Items<'_> {
    fn next(&mut self) -> Result<u32, u32> {
        let word = *self.words.get(self.at).ok_or(9u32)?;
        self.at += 1;
        Ok(word)
    }

    fn take(&mut self, kind: u32, size: u32, count: usize, good: impl Fn(u32) -> Result<(), u32>) -> Result<Vec<u32>, u32> {
        let each = (24 / size) as usize;
        let mut items = Vec::new();
        while items.len() < count {
            let word = self.next()?;
            if word >> 28 != kind {
                return Err(10);
            }
            let here = each.min(count - items.len());
            let body = u64::from(word & 0x0fff_ffff);
            if body >> (size as usize * here) != 0 {
                return Err(11);
            }
            for i in 0..here {
                let item = (body >> (size as usize * i)) as u32 & ((1 << size) - 1);
                good(item)?;
                items.push(item);
            }
        }
        Ok(items)
    }
}

/// The questions of a sheet, or what it is refused by.
pub fn read(bytes: &[u8]) -> Result<Vec<Question>, u32> {
    if bytes.len() % 4 != 0 {
        return Err(9);
    }
    let words: Vec<u32> = bytes.chunks(4).map(|b| u32::from_le_bytes([b[0], b[1], b[2], b[3]])).collect();
    let mut items = Items { words: &words, at: 0 };
    let mut questions = Vec::new();
    loop {
        let word = items.next()?;
        let (middle, low) = (word >> 24 & 15, word & 0x00ff_ffff);
        match word >> 28 {
            15 if middle != 0 => return Err(11),
            15 if low as usize != questions.len() => return Err(12),
            15 if items.at < words.len() => return Err(13),
            15 => return Ok(questions),
            1 if questions.len() == MOST => return Err(12),
            1 if !CODES.contains(&middle) => return Err(1),
            1 => {
                let code = numbered(middle);
                let row = items.take(2, 8, code.bits(), |r| if r == 0x80 { Err(5) } else { Ok(()) })?;
                let word = items.take(3, 4, code.n, |s| if s >> code.m == 0 { Ok(()) } else { Err(6) })?;
                questions.push(Question {
                    code: middle,
                    number: low,
                    row: row.iter().map(|r| i16::from(*r as u8 as i8)).collect(),
                    word: word.iter().map(|s| *s as u8).collect(),
                });
            }
            _ => return Err(10),
        }
    }
}

pub fn write(questions: &[Question]) -> Vec<u8> {
    let mut words = Vec::new();
    for q in questions {
        words.push(1 << 28 | q.code << 24 | q.number);
        words.extend(q.row.chunks(3).map(|c| c.iter().rev().fold(0, |w, r| w << 8 | u32::from(*r as u8)) | 2 << 28));
        words.extend(q.word.chunks(6).map(|c| c.iter().rev().fold(0, |w, s| w << 4 | u32::from(*s)) | 3 << 28));
    }
    words.push(15 << 28 | questions.len() as u32);
    words.iter().flat_map(|w| w.to_le_bytes()).collect()
}

/// The best metric, the first best word and the soft outputs: by the trellis of the whole code, for codes 4 and 5 by the search over configurations.
pub fn decoded(number: u32, row: &[i16]) -> (i32, Vec<u8>, Vec<i16>) {
    static SEARCHES: [OnceLock<Search>; 2] = [OnceLock::new(), OnceLock::new()];
    let code = numbered(number);
    if number > 3 {
        return SEARCHES[number as usize - 4].get_or_init(|| Search::new(code)).decode(row).0;
    }
    let (mut word, mut soft) = (vec![0; code.n], vec![0; code.bits()]);
    let best = Wolf::new(number).decode(row, &mut word, &mut soft);
    (best, word, soft)
}

/// The listing of a sheet.
pub fn listing(bytes: &[u8]) -> String {
    let questions = match read(bytes) {
        Ok(questions) => questions,
        Err(number) => return format!("refused {number}\n"),
    };
    let mut text = String::from("question code best verdict short bits least\n");
    for q in &questions {
        let code = numbered(q.code);
        let (best, _, soft) = decoded(q.code, &q.row);
        let marked = match verdict(is_codeword(&code, &q.word), best, code.metric(&q.row, &q.word)) {
            (0, _) => String::from("none -"),
            (1, short) => format!("short {short}"),
            (_, _) => String::from("best 0"),
        };
        let bits: String = soft.iter().map(|s| ['1', '?', '0'][(s.signum() + 1) as usize]).collect();
        let least = soft.iter().map(|s| s.abs()).min().expect("a soft output");
        text += &format!("{} {} {best} {marked} {bits} {least}\n", q.number, q.code);
    }
    text + &format!("{} questions\n", questions.len())
}

/// A question list as it is lent: its codes, its numbers, all rows and all words end to end.
#[derive(Clone, Debug, Default)]
pub struct List {
    pub codes: Vec<u32>,
    pub numbers: Vec<u32>,
    pub rows: Vec<i16>,
    pub words: Vec<u8>,
}

impl List {
    pub fn of(questions: &[Question]) -> List {
        List {
            codes: questions.iter().map(|q| q.code).collect(),
            numbers: questions.iter().map(|q| q.number).collect(),
            rows: questions.iter().flat_map(|q| q.row.clone()).collect(),
            words: questions.iter().flat_map(|q| q.word.clone()).collect(),
        }
    }

    /// The questions of a list, or what its writing is refused by, but for the output.
    pub fn questions(&self) -> Result<Vec<Question>, u32> {
        if self.codes.len() > MOST || self.codes.len() != self.numbers.len() {
            return Err(12);
        }
        let (mut rows, mut words) = (&self.rows[..], &self.words[..]);
        let mut questions = Vec::new();
        for (i, (&number, &question)) in self.codes.iter().zip(&self.numbers).enumerate() {
            let last = i + 1 == self.codes.len();
            if !CODES.contains(&number) {
                return Err(1);
            }
            if question >> 24 != 0 {
                return Err(11);
            }
            let code = numbered(number);
            let fits = |left: usize, needed: usize| if last { left == needed } else { left >= needed };
            if !fits(rows.len(), code.bits()) {
                return Err(2);
            }
            if !fits(words.len(), code.n) {
                return Err(3);
            }
            let (row, word);
            (row, rows) = rows.split_at(code.bits());
            (word, words) = words.split_at(code.n);
            if row.iter().any(|r| !(-127..=127).contains(r)) {
                return Err(5);
            }
            if word.iter().any(|s| s >> code.m != 0) {
                return Err(6);
            }
            questions.push(Question { code: number, number: question, row: row.to_vec(), word: word.to_vec() });
        }
        match (rows.is_empty(), words.is_empty()) {
            (false, _) => Err(2),
            (true, false) => Err(3),
            (true, true) => Ok(questions),
        }
    }
}
