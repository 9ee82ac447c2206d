//! Most-likely words of ten short Reed-Solomon codes, each by its parameters and five by a number too: safe calls over the static library, which is
//! proved for every input. One function a call; a call takes any input, refuses bad input by the first [`Refusal`] in the order stated, and
//! changes no output then. Outputs are lent, each with exactly its length. Nothing is allocated, and there is no global state.
//!
//! What the proofs do not cover is this package: that it declares the calls as they are, and hands slices over as pointers and counts and a
//! configuration as a pointer.
//! Its tests compare every call with independent Rust.
//!
//! The codes are numbered 1 to 5: (7, 5), (7, 3), (15, 13), (15, 11) and (15, 9). A word has [`word_length`] symbols (n) of m bits, a row
//! [`row_length`] reliabilities (n·m): entry i·m + (j - 1) belongs to layer j, the bit of weight 2^(j-1), at position i. A positive reliability
//! favours 0.
//!
//! A function whose name ends in `_by` takes a code's parameters in place of its number: m, 3 or 4, and r, the number of its roots α to α^r. With m = 3 each
//! r from 1 to 6 may be chosen, with m = 4 the r 1, 2, 4 and 6. It does what the function without `_by` does; only, its code is refused by 1 for another m,
//! and directly after that by 16 for another r.
//!
//! ```
//! let row = [10i16; 21];
//! let (mut word, mut soft, mut scratch) = ([0u8; 7], [0i16; 21], vec![0i32; tugzeck::SCRATCH]);
//! assert_eq!(tugzeck::decode(1, &row, &mut word, &mut soft, &mut scratch), Ok(210));
//! assert_eq!((word, soft), ([0; 7], [60; 21]));
//! assert_eq!(tugzeck::mark(1, &row, &[3, 6, 1, 0, 0, 0, 0], &mut scratch), Ok(tugzeck::Verdict::Short(100)));
//! ```

mod raw;

use std::fmt;

/// Numbers of a scratch, which decoder and marker are lent: they may hold anything, and are all 0 after the call, unchanged where it refuses.
pub const SCRATCH: usize = 16_384;

/// The greatest size of a reliability.
pub const MOST_RELIABILITY: i16 = 127;

/// The most questions of a sheet.
pub const MOST_QUESTIONS: usize = 200;

/// Bytes of the longest sheet.
pub const MOST_SHEET: usize = 19_204;

/// How long the output of [`list`] is: room for the longest listing.
pub const LISTING: usize = 19_058;

/// The kind of a received symbol that is lost, with one bit.
pub const LOST_ONE: u8 = 0;

/// The kind of a received symbol that is lost, with two bits.
pub const LOST_TWO: u8 = 1;

/// The kind of a received symbol of one bit, by one sample.
pub const SINGLE: u8 = 2;

/// The kind of a received symbol of two bits, by an in-phase sample and then a quadrature sample.
pub const PAIR: u8 = 3;

/// Symbols to a word (n). Codes are 1 to 5; of other numbers this says nothing.
pub const fn word_length(code: u32) -> usize {
    if code < 3 {
        7
    } else {
        15
    }
}

/// Symbols to a message (k). Codes are 1 to 5; of other numbers this says nothing.
pub const fn message_length(code: u32) -> usize {
    match code {
        1 => 5,
        2 => 3,
        3 => 13,
        4 => 11,
        _ => 9,
    }
}

/// Bits to a word, and reliabilities to a row (n·m). Codes are 1 to 5; of other numbers this says nothing.
pub const fn row_length(code: u32) -> usize {
    if code < 3 {
        21
    } else {
        60
    }
}

/// Symbols to a word (n), by m. Widths are 3 and 4; of other numbers this says nothing.
pub const fn word_length_by(m: u32) -> usize {
    if m == 4 {
        15
    } else {
        7
    }
}

/// Symbols to a message (k), by m and r. Of numbers that no code has this says nothing.
pub const fn message_length_by(m: u32, r: u32) -> usize {
    word_length_by(m).saturating_sub(r as usize)
}

/// Bits to a word, and reliabilities to a row (n·m), by m. Widths are 3 and 4; of other numbers this says nothing.
pub const fn row_length_by(m: u32) -> usize {
    if m == 4 {
        60
    } else {
        21
    }
}

const fn question_length(code: u32) -> usize {
    if code < 3 {
        40
    } else {
        96
    }
}

/// Bytes of the sheet that holds questions of these codes. Codes are 1 to 5; of other numbers this says nothing.
pub fn sheet_length(codes: &[u32]) -> usize {
    codes.iter().map(|code| question_length(*code)).sum::<usize>() + 4
}

/// Bytes of the practice sheet of so many questions of a code; of no questions 4. Codes are 1 to 5 and questions at most 200; of other numbers this
/// says nothing.
pub const fn practice_length(code: u32, count: u32) -> usize {
    question_length(code) * count as usize + 4
}

/// Why a call is refused, with its number.
#[derive(Clone, Copy, Debug, PartialEq, Eq, Hash)]
#[repr(u32)]
pub enum Refusal {
    /// The code is not 1 to 5, or m is not 3 or 4.
    Code = 1,
    /// A row is not n·m long.
    RowLength = 2,
    /// A word is not n, a message not k, or BCH words end to end not n·m, long.
    WordLength = 3,
    /// An output has not exactly its length.
    Output = 4,
    /// A reliability is outside -127..=127.
    Reliability = 5,
    /// A symbol is not below 2^m.
    Symbol = 6,
    /// A sample is not a number.
    Sample = 7,
    /// A word to be read or split is no codeword.
    NoCodeword = 8,
    /// The bytes of a sheet are no multiple of four, or its words run out.
    RunsOut = 9,
    /// Wrong kind at a word of a sheet.
    Kind = 10,
    /// Unused bits of a sheet are not zero.
    UnusedBits = 11,
    /// A 201st question, or a count that differs.
    Count = 12,
    /// Words after the end of a sheet.
    AfterEnd = 13,
    /// A received symbol's kind is above 3.
    SymbolKind = 14,
    /// Received symbols and samples do not fill the row exactly.
    Fill = 15,
    /// With this m, a code of r roots may not be chosen.
    Roots = 16,
    /// A scratch is not [`SCRATCH`] long.
    Scratch = 17,
    /// A layer has a value other than 0 and 1, or is no BCH word.
    NoBchWord = 18,
    /// A configuration is not valid: no codeword has it.
    Configuration = 19,
}

impl Refusal {
    /// Every refusal, by its number.
    pub const ALL: [Refusal; 19] = [
        Refusal::Code,
        Refusal::RowLength,
        Refusal::WordLength,
        Refusal::Output,
        Refusal::Reliability,
        Refusal::Symbol,
        Refusal::Sample,
        Refusal::NoCodeword,
        Refusal::RunsOut,
        Refusal::Kind,
        Refusal::UnusedBits,
        Refusal::Count,
        Refusal::AfterEnd,
        Refusal::SymbolKind,
        Refusal::Fill,
        Refusal::Roots,
        Refusal::Scratch,
        Refusal::NoBchWord,
        Refusal::Configuration,
    ];

    /// The number that the library answers.
    pub const fn number(self) -> u32 {
        self as u32
    }
}

impl fmt::Display for Refusal {
    fn fmt(&self, f: &mut fmt::Formatter<'_>) -> fmt::Result {
        let met = match self {
            Refusal::Code => "no such code",
            Refusal::RowLength => "a row of another length",
            Refusal::WordLength => "a word, a message or BCH words of another length",
            Refusal::Output => "an output of another length",
            Refusal::Reliability => "a reliability outside -127..127",
            Refusal::Symbol => "a symbol that does not fit",
            Refusal::Sample => "a sample that is not a number",
            Refusal::NoCodeword => "no codeword",
            Refusal::RunsOut => "a sheet that runs out",
            Refusal::Kind => "a word of the wrong kind in a sheet",
            Refusal::UnusedBits => "unused bits that are not zero",
            Refusal::Count => "too many questions, or a count that differs",
            Refusal::AfterEnd => "words after the end of a sheet",
            Refusal::SymbolKind => "a received symbol of no kind",
            Refusal::Fill => "received symbols that do not fill the row exactly",
            Refusal::Roots => "no code with so many roots",
            Refusal::Scratch => "a scratch of the wrong length",
            Refusal::NoBchWord => "a layer that is no BCH word",
            Refusal::Configuration => "a configuration that is not valid",
        };
        write!(f, "refused by {}: {met}", self.number())
    }
}

impl std::error::Error for Refusal {}

/// What a word handed in is worth.
#[derive(Clone, Copy, Debug, PartialEq, Eq, Hash)]
pub enum Verdict {
    /// It is no codeword.
    None,
    /// It is a codeword, and the best metric is so much more than its own.
    Short(i32),
    /// It is a codeword with the best metric.
    Best,
}

/// The head of a question: its code and its number.
#[derive(Clone, Copy, Debug, PartialEq, Eq, Hash)]
pub struct Question {
    pub code: u32,
    pub number: u32,
}

fn unless_refused<T>(number: u32, value: T) -> Result<T, Refusal> {
    match number {
        0 => Ok(value),
        n => Err(Refusal::ALL[n as usize - 1]),
    }
}

/// Writes the codeword of a message of k symbols into n places. Refuses by 1, 3, 4, 6.
pub fn encode(code: u32, message: &[u8], output: &mut [u8]) -> Result<(), Refusal> {
    // SAFETY: both are slices, and the output is borrowed alone.
    let number = unsafe { raw::tugzeck_encode(code, message.as_ptr(), message.len(), output.as_mut_ptr(), output.len()) };
    unless_refused(number, ())
}

/// [`encode`], by m and r. Refuses by 1, 16, 3, 4, 6.
///
/// ```
/// let (mut message, mut word) = ([0u8; 11], [0u8; 15]);
/// message[0] = 1;
/// assert_eq!(tugzeck::encode_by(4, 4, &message, &mut word), Ok(()));
/// assert_eq!(word[..5], [7, 8, 12, 13, 1]);
/// assert_eq!(tugzeck::encode_by(4, 3, &message, &mut word), Err(tugzeck::Refusal::Roots));
/// ```
pub fn encode_by(m: u32, r: u32, message: &[u8], output: &mut [u8]) -> Result<(), Refusal> {
    // SAFETY: both are slices, and the output is borrowed alone.
    let number = unsafe { raw::tugzeck_encode_by(m, r, message.as_ptr(), message.len(), output.as_mut_ptr(), output.len()) };
    unless_refused(number, ())
}

/// Writes the message of a codeword into k places. Refuses by 1, 3, 4, 6, 8.
pub fn read_word(code: u32, word: &[u8], output: &mut [u8]) -> Result<(), Refusal> {
    // SAFETY: both are slices, and the output is borrowed alone.
    let number = unsafe { raw::tugzeck_read_word(code, word.as_ptr(), word.len(), output.as_mut_ptr(), output.len()) };
    unless_refused(number, ())
}

/// [`read_word`], by m and r. Refuses by 1, 16, 3, 4, 6, 8.
pub fn read_word_by(m: u32, r: u32, word: &[u8], output: &mut [u8]) -> Result<(), Refusal> {
    // SAFETY: both are slices, and the output is borrowed alone.
    let number = unsafe { raw::tugzeck_read_word_by(m, r, word.as_ptr(), word.len(), output.as_mut_ptr(), output.len()) };
    unless_refused(number, ())
}

/// Whether a word is a codeword. Refuses by 1, 3, 6.
pub fn check_word(code: u32, word: &[u8]) -> Result<bool, Refusal> {
    // SAFETY: it is a slice.
    match unsafe { raw::tugzeck_check_word(code, word.as_ptr(), word.len()) } {
        8 => Ok(false),
        number => unless_refused(number, true),
    }
}

/// [`check_word`], by m and r. Refuses by 1, 16, 3, 6.
pub fn check_word_by(m: u32, r: u32, word: &[u8]) -> Result<bool, Refusal> {
    // SAFETY: it is a slice.
    match unsafe { raw::tugzeck_check_word_by(m, r, word.as_ptr(), word.len()) } {
        8 => Ok(false),
        number => unless_refused(number, true),
    }
}

/// Splits a codeword into layers: answers its configuration (with m = 3 the fourth place is 0), and writes into n·m places, layer 1 first,
/// the BCH word that is left of each layer when the leader of its coset is added: of the coset's words of least weight the one with the smallest number,
/// position i weighing 2^i. A syndrome is the value at α, from three roots on + 2^m times that at α^3, and for m = 4 from five on + 256 times the number of
/// that at α^5, where 0, 1, 6, 7 are numbered 0 to 3. Refuses by 1, 3, 4, 6, 8.
pub fn split(code: u32, word: &[u8], bch: &mut [u8]) -> Result<[u16; 4], Refusal> {
    // SAFETY: both are slices, and the output is borrowed alone.
    let s = unsafe { raw::tugzeck_split(code, word.as_ptr(), word.len(), bch.as_mut_ptr(), bch.len()) };
    unless_refused(s.number, s.configuration)
}

/// [`split`], by m and r. Refuses by 1, 16, 3, 4, 6, 8.
pub fn split_by(m: u32, r: u32, word: &[u8], bch: &mut [u8]) -> Result<[u16; 4], Refusal> {
    // SAFETY: both are slices, and the output is borrowed alone.
    let s = unsafe { raw::tugzeck_split_by(m, r, word.as_ptr(), word.len(), bch.as_mut_ptr(), bch.len()) };
    unless_refused(s.number, s.configuration)
}

/// Joins what was split, edited or not: writes into n places the codeword whose layer j is BCH word j with the leader of the coset of syndrome j added.
/// The configuration is as [`split`] answers it; the m BCH words of n values stand end to end, layer 1 first. Splitting what was joined gives the same
/// parts, and joining the parts of a codeword gives that codeword. Refuses by 1, 3 (BCH words), 4, 18, 19 (a place that is no syndrome, with m = 3 a
/// fourth other than 0, or syndromes that no codeword has together).
///
/// ```
/// let (mut bch, mut word) = ([0u8; 21], [0u8; 7]);
/// let configuration = tugzeck::split(1, &[3, 6, 1, 0, 0, 0, 0], &mut bch)?;
/// // A lecturer's edit: another BCH word in layer 2.
/// bch[7..14].copy_from_slice(&[1, 1, 0, 1, 0, 0, 0]);
/// tugzeck::join(1, configuration, &bch, &mut word)?;
/// assert_eq!(tugzeck::check_word(1, &word), Ok(true));
/// bch[7] = 0;
/// assert_eq!(tugzeck::join(1, configuration, &bch, &mut word), Err(tugzeck::Refusal::NoBchWord));
/// # Ok::<(), tugzeck::Refusal>(())
/// ```
pub fn join(code: u32, configuration: [u16; 4], bch: &[u8], output: &mut [u8]) -> Result<(), Refusal> {
    // SAFETY: the configuration has four numbers, the others are slices, and the output is borrowed alone.
    let number = unsafe { raw::tugzeck_join(code, &configuration, bch.as_ptr(), bch.len(), output.as_mut_ptr(), output.len()) };
    unless_refused(number, ())
}

/// [`join`], by m and r. Refuses by 1, 16, 3 (BCH words), 4, 18, 19.
pub fn join_by(m: u32, r: u32, configuration: [u16; 4], bch: &[u8], output: &mut [u8]) -> Result<(), Refusal> {
    // SAFETY: the configuration has four numbers, the others are slices, and the output is borrowed alone.
    let number = unsafe { raw::tugzeck_join_by(m, r, &configuration, bch.as_ptr(), bch.len(), output.as_mut_ptr(), output.len()) };
    unless_refused(number, ())
}

/// Turns the n·m samples of a row into reliabilities: each the nearest whole number to 32 times the sample, halves away from zero, clipped to
/// -127 or 127. Refuses by 1, 2 (samples), 4 (row), 7.
pub fn quantise(code: u32, samples: &[f32], row: &mut [i16]) -> Result<(), Refusal> {
    // SAFETY: both are slices, and the output is borrowed alone.
    let number = unsafe { raw::tugzeck_quantise(code, samples.as_ptr(), samples.len(), row.as_mut_ptr(), row.len()) };
    unless_refused(number, ())
}

/// [`quantise`], by m and r. Refuses by 1, 16, 2 (samples), 4 (row), 7.
pub fn quantise_by(m: u32, r: u32, samples: &[f32], row: &mut [i16]) -> Result<(), Refusal> {
    // SAFETY: both are slices, and the output is borrowed alone.
    let number = unsafe { raw::tugzeck_quantise_by(m, r, samples.as_ptr(), samples.len(), row.as_mut_ptr(), row.len()) };
    unless_refused(number, ())
}

/// Turns received symbols into the n·m reliabilities of a row, one symbol after another. Each has a kind ([`LOST_ONE`], [`LOST_TWO`], [`SINGLE`] or
/// [`PAIR`]) and takes the samples that come next. A lost bit gives 0, a sample what [`quantise`] gives it, a pair in-phase first. Refuses by 1,
/// 4, 14, 15 (the symbols have more or fewer than n·m bits, or take more or fewer samples than there are), 7.
///
/// ```
/// use tugzeck::{LOST_ONE, LOST_TWO, PAIR, SINGLE};
/// let kinds = [PAIR, LOST_TWO, SINGLE, PAIR, PAIR, PAIR, PAIR, PAIR, PAIR, PAIR, LOST_ONE, LOST_ONE];
/// let mut row = [0; 21];
/// assert_eq!(tugzeck::receive(1, &kinds, &[1.0; 17], &mut row), Ok(()));
/// assert_eq!(row[..6], [32, 32, 0, 0, 32, 32]);
/// assert_eq!(tugzeck::receive(1, &kinds, &[1.0; 16], &mut row), Err(tugzeck::Refusal::Fill));
/// ```
pub fn receive(code: u32, kinds: &[u8], samples: &[f32], row: &mut [i16]) -> Result<(), Refusal> {
    // SAFETY: all are slices, and the output is borrowed alone.
    let number =
        unsafe { raw::tugzeck_receive(code, kinds.as_ptr(), kinds.len(), samples.as_ptr(), samples.len(), row.as_mut_ptr(), row.len()) };
    unless_refused(number, ())
}

/// [`receive`], by m and r. Refuses by 1, 16, 4, 14, 15, 7.
pub fn receive_by(m: u32, r: u32, kinds: &[u8], samples: &[f32], row: &mut [i16]) -> Result<(), Refusal> {
    // SAFETY: all are slices, and the output is borrowed alone.
    let number =
        unsafe { raw::tugzeck_receive_by(m, r, kinds.as_ptr(), kinds.len(), samples.as_ptr(), samples.len(), row.as_mut_ptr(), row.len()) };
    unless_refused(number, ())
}

/// Decodes a row of n·m reliabilities: answers the best metric, and writes the codeword that has it into n places (of several, the first when
/// symbols are compared from position 0) and the soft outputs into n·m: the greatest metric of a codeword with 0 at that bit less the greatest
/// with 1. The scratch has [`SCRATCH`] numbers. Refuses by 1, 2, 4, 17, 5.
///
/// A bit is decided as 1 where its soft output is negative and as 0 where it is positive, which every codeword with the best metric then has
/// there; where it is 0 the bit is undecided, and some of them have 0 there and some 1. So no soft output is 0 exactly when one codeword has the
/// best metric, and the decided bits are then its bits.
///
/// ```
/// // the zero word and 1 1 0 1 0 0 0 have the best metric, and differ in bits 0, 3 and 9
/// let mut row = [10; 21];
/// (row[0], row[3], row[9]) = (2, -1, -1);
/// let (mut word, mut soft, mut scratch) = ([0u8; 7], [0i16; 21], vec![0i32; tugzeck::SCRATCH]);
/// assert_eq!(tugzeck::decode(1, &row, &mut word, &mut soft, &mut scratch), Ok(180));
/// assert_eq!(word, [0; 7]);
/// assert!((0..21).all(|b| if [0, 3, 9].contains(&b) { soft[b] == 0 } else { soft[b] > 0 }));
/// ```
pub fn decode(code: u32, row: &[i16], word: &mut [u8], soft: &mut [i16], scratch: &mut [i32]) -> Result<i32, Refusal> {
    // SAFETY: all are slices, and the outputs and the scratch are borrowed apart.
    let d = unsafe {
        raw::tugzeck_decode(
            code,
            row.as_ptr(),
            row.len(),
            word.as_mut_ptr(),
            word.len(),
            soft.as_mut_ptr(),
            soft.len(),
            scratch.as_mut_ptr(),
            scratch.len(),
        )
    };
    unless_refused(d.number, d.metric)
}

/// [`decode`], by m and r. Refuses by 1, 16, 2, 4, 17, 5.
///
/// ```
/// let (mut word, mut soft, mut scratch) = ([0u8; 15], [0i16; 60], vec![0i32; tugzeck::SCRATCH]);
/// assert_eq!(tugzeck::decode_by(4, 4, &[10; 60], &mut word, &mut soft, &mut scratch), Ok(600));
/// assert_eq!(word, [0; 15]);
/// ```
pub fn decode_by(m: u32, r: u32, row: &[i16], word: &mut [u8], soft: &mut [i16], scratch: &mut [i32]) -> Result<i32, Refusal> {
    // SAFETY: all are slices, and the outputs and the scratch are borrowed apart.
    let d = unsafe {
        raw::tugzeck_decode_by(
            m,
            r,
            row.as_ptr(),
            row.len(),
            word.as_mut_ptr(),
            word.len(),
            soft.as_mut_ptr(),
            soft.len(),
            scratch.as_mut_ptr(),
            scratch.len(),
        )
    };
    unless_refused(d.number, d.metric)
}

/// Marks a word of n symbols, handed in for a row of n·m reliabilities. Every codeword with the best metric is `Best`. The scratch has [`SCRATCH`]
/// numbers. Refuses by 1, 2, 3, 17, 5, 6.
pub fn mark(code: u32, row: &[i16], word: &[u8], scratch: &mut [i32]) -> Result<Verdict, Refusal> {
    // SAFETY: all are slices, and the scratch is borrowed alone.
    verdict(unsafe { raw::tugzeck_mark(code, row.as_ptr(), row.len(), word.as_ptr(), word.len(), scratch.as_mut_ptr(), scratch.len()) })
}

/// [`mark`], by m and r. Refuses by 1, 16, 2, 3, 17, 5, 6.
pub fn mark_by(m: u32, r: u32, row: &[i16], word: &[u8], scratch: &mut [i32]) -> Result<Verdict, Refusal> {
    // SAFETY: all are slices, and the scratch is borrowed alone.
    verdict(unsafe { raw::tugzeck_mark_by(m, r, row.as_ptr(), row.len(), word.as_ptr(), word.len(), scratch.as_mut_ptr(), scratch.len()) })
}

fn verdict(m: raw::Marking) -> Result<Verdict, Refusal> {
    let verdict = match m.verdict {
        0 => Verdict::None,
        1 => Verdict::Short(m.shortfall),
        _ => Verdict::Best,
    };
    unless_refused(m.number, verdict)
}

/// Judges a whole sheet: answers the count of its questions. Refuses by 9 for the byte count, then by the first offending word: 9 where words
/// run out, and within a word 10, 12 (a 201st head), 11, 1, then 5 or 6, then 12 (the end's count); last 13.
pub fn judge_sheet(sheet: &[u8]) -> Result<u32, Refusal> {
    // SAFETY: it is a slice.
    let j = unsafe { raw::tugzeck_judge_sheet(sheet.as_ptr(), sheet.len()) };
    unless_refused(j.number, j.questions)
}

/// Reads the question that has `index` others before it, its row into n·m places and the word handed in into n; answers `None` where there is
/// none, whatever the outputs. Refuses by the sheet's refusal, then by 4. The whole sheet is judged at every call.
pub fn question(sheet: &[u8], index: usize, row: &mut [i16], word: &mut [u8]) -> Result<Option<Question>, Refusal> {
    // SAFETY: all are slices, and the two outputs are borrowed apart.
    let a =
        unsafe { raw::tugzeck_question(sheet.as_ptr(), sheet.len(), index, row.as_mut_ptr(), row.len(), word.as_mut_ptr(), word.len()) };
    unless_refused(a.number, (a.found == 1).then_some(Question { code: a.code, number: a.question }))
}

/// Writes a question list as a sheet into [`sheet_length`] places. The list is its codes, its question numbers, all rows end to end and all
/// handed-in words end to end. Refuses by 12 (more than 200 codes, or another count of numbers); then, question by question, by 1, 11 (a
/// number of 2^24 or more), 2 and 3 (the row or the word runs short, or something is left over after the last), 5, 6; then by 4.
pub fn write_sheet(codes: &[u32], numbers: &[u32], rows: &[i16], words: &[u8], output: &mut [u8]) -> Result<(), Refusal> {
    // SAFETY: all are slices, and the output is borrowed alone.
    let number = unsafe {
        raw::tugzeck_write_sheet(
            codes.as_ptr(),
            codes.len(),
            numbers.as_ptr(),
            numbers.len(),
            rows.as_ptr(),
            rows.len(),
            words.as_ptr(),
            words.len(),
            output.as_mut_ptr(),
            output.len(),
        )
    };
    unless_refused(number, ())
}

/// Writes a practice sheet into [`practice_length`] places: `count` questions of one code, 0 to 200, numbered from 1, with rows drawn from a state, any
/// number, and zero words as the words handed in. Answers the state after the last draw. Refuses by 12 (more than 200 questions), 1 (even for no
/// questions), 4.
///
/// For each reliability, question by question and entry by entry, the state advances by 0x9E3779B9, wrapping at 2^32; the draw is the new state, exclusive
/// or with itself shifted right by 16, and its remainder by 255, less 127, is the reliability. So 20 questions, and then 30 from the state that is
/// answered, have the rows of 50.
///
/// ```
/// // The rows of a sheet of code 1.
/// fn rows(sheet: &[u8]) -> Result<Vec<[i16; 21]>, tugzeck::Refusal> {
///     let (mut rows, mut row, mut word) = (Vec::new(), [0; 21], [0; 7]);
///     while tugzeck::question(sheet, rows.len(), &mut row, &mut word)?.is_some() {
///         rows.push(row);
///     }
///     Ok(rows)
/// }
///
/// let [mut class, mut first, mut second] = [50, 20, 30].map(|count| vec![0; tugzeck::practice_length(1, count)]);
/// let last = tugzeck::practice(1, 50, 42, &mut class)?;
/// let state = tugzeck::practice(1, 20, 42, &mut first)?;
/// assert_eq!(tugzeck::practice(1, 30, state, &mut second), Ok(last));
/// assert_eq!(rows(&class)?.len(), 50);
/// assert_eq!(rows(&class)?, [rows(&first)?, rows(&second)?].concat());
/// assert_eq!(tugzeck::practice(1, 201, 42, &mut class), Err(tugzeck::Refusal::Count));
/// # Ok::<(), tugzeck::Refusal>(())
/// ```
pub fn practice(code: u32, count: u32, state: u32, output: &mut [u8]) -> Result<u32, Refusal> {
    // SAFETY: it is a slice, borrowed alone.
    let d = unsafe { raw::tugzeck_practice(code, count, state, output.as_mut_ptr(), output.len()) };
    unless_refused(d.number, d.state)
}

/// Writes the listing of a sheet at the start of [`LISTING`] bytes and answers the length of its text; the bytes behind it are kept. Decided
/// bits (see [`decode`]) show as 0 and 1, undecided ones as a question mark. The listing of a refused sheet is the line `refused N`. Refuses by 4
/// alone.
pub fn list(sheet: &[u8], output: &mut [u8]) -> Result<usize, Refusal> {
    // SAFETY: both are slices, and the output is borrowed alone.
    let l = unsafe { raw::tugzeck_list(sheet.as_ptr(), sheet.len(), output.as_mut_ptr(), output.len()) };
    unless_refused(l.number, l.length)
}
