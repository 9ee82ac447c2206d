//! The library's calls, over its static archive. What is counted beside other programs is called as C calls it, a slice being a pointer and a
//! length; sheets by the Rust package.

#[allow(dead_code)]
#[path = "../../bindings/rust/src/lib.rs"]
mod package;

#[repr(C)]
pub struct Decoding {
    pub number: u32,
    pub metric: i32,
}

#[repr(C)]
pub struct Mark {
    pub number: u32,
    pub verdict: u32,
    pub shortfall: i32,
}

extern "C" {
    fn tugzeck_decode(
        code: u32,
        row: *const i16,
        row_length: usize,
        word: *mut u8,
        word_length: usize,
        soft: *mut i16,
        soft_length: usize,
        scratch: *mut i32,
        scratch_length: usize,
    ) -> Decoding;

    fn tugzeck_mark(
        code: u32,
        row: *const i16,
        row_length: usize,
        word: *const u8,
        word_length: usize,
        scratch: *mut i32,
        scratch_length: usize,
    ) -> Mark;
}

pub fn decode(code: u32, row: &[i16], word: &mut [u8], soft: &mut [i16], scratch: &mut [i32]) -> i32 {
    // SAFETY: each pointer is valid for its length, and the outputs and the scratch are borrowed apart.
    let d = unsafe {
        tugzeck_decode(
            code,
            row.as_ptr(),
            row.len(),
            word.as_mut_ptr(),
            word.len(),
            soft.as_mut_ptr(),
            soft.len(),
            scratch.as_mut_ptr(),
            scratch.len(),
        )
    };
    assert_eq!(d.number, 0);
    d.metric
}

pub fn mark(code: u32, row: &[i16], word: &[u8], scratch: &mut [i32]) -> (u32, i32) {
    // SAFETY: each pointer is valid for its length, and the scratch is borrowed alone.
    let m = unsafe { tugzeck_mark(code, row.as_ptr(), row.len(), word.as_ptr(), word.len(), scratch.as_mut_ptr(), scratch.len()) };
    assert_eq!(m.number, 0);
    (m.verdict, m.shortfall)
}

/// The sheet of these questions, all of one code.
pub fn sheet(code: u32, questions: &[(Vec<i16>, Vec<u8>)]) -> Vec<u8> {
    let codes = vec![code; questions.len()];
    let numbers: Vec<u32> = (1..).take(questions.len()).collect();
    let rows: Vec<i16> = questions.iter().flat_map(|(row, _)| row.iter().copied()).collect();
    let words: Vec<u8> = questions.iter().flat_map(|(_, word)| word.iter().copied()).collect();
    let mut output = vec![0; package::sheet_length(&codes)];
    package::write_sheet(&codes, &numbers, &rows, &words, &mut output).expect("a sheet");
    output
}

pub use package::{join, list, practice, practice_length, quantise, receive, split, LISTING, SCRATCH};
