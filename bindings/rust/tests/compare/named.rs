//! How a code is named to a call: by its parameters, or by its number.

use crate::parameters::NUMBERED;
use tugzeck::{Refusal, Verdict};

#[derive(Clone, Copy, Debug)]
pub enum Named {
    By(u32, u32),
    Number(u32),
}

impl Named {
    pub fn split(self, word: &[u8], bch: &mut [u8]) -> Result<[u16; 4], Refusal> {
        match self {
            Named::By(m, r) => tugzeck::split_by(m, r, word, bch),
            Named::Number(code) => tugzeck::split(code, word, bch),
        }
    }

    pub fn join(self, configuration: [u16; 4], bch: &[u8], output: &mut [u8]) -> Result<(), Refusal> {
        match self {
            Named::By(m, r) => tugzeck::join_by(m, r, configuration, bch, output),
            Named::Number(code) => tugzeck::join(code, configuration, bch, output),
        }
    }

    pub fn decode(self, row: &[i16], word: &mut [u8], soft: &mut [i16], scratch: &mut [i32]) -> Result<i32, Refusal> {
        match self {
            Named::By(m, r) => tugzeck::decode_by(m, r, row, word, soft, scratch),
            Named::Number(code) => tugzeck::decode(code, row, word, soft, scratch),
        }
    }

    pub fn mark(self, row: &[i16], word: &[u8], scratch: &mut [i32]) -> Result<Verdict, Refusal> {
        match self {
            Named::By(m, r) => tugzeck::mark_by(m, r, row, word, scratch),
            Named::Number(code) => tugzeck::mark(code, row, word, scratch),
        }
    }
}

/// The parameters, and the number where there is one.
pub fn names(m: u32, r: u32) -> Vec<Named> {
    let number = (1..).zip(NUMBERED).find(|(_, by)| *by == (m, r)).map(|(code, _)| Named::Number(code));
    [Named::By(m, r)].into_iter().chain(number).collect()
}
