//! Compares every call of the library with independent Rust, written from the paper on the codes and not from the library: every codeword of
//! codes 1 and 2, a Wolf trellis of the whole of code 3 (shared with the bench), a search over the configurations of every code, layers joined bit by
//! bit, a judge and a writer of sheets, rows drawn from a seed, plain f64 arithmetic, received symbols read from the end.
//! Each test prints what it compared; `cargo test -- --nocapture` shows it.

#[path = "../../../../bench/src/codes.rs"]
#[allow(dead_code)]
#[rustfmt::skip]
mod codes;
#[path = "../../../../bench/src/wolf.rs"]
#[allow(dead_code)]
#[rustfmt::skip]
mod wolf;

mod configured;
mod draw;
mod every;
mod joins;
mod named;
mod order;
mod paper;
mod parameters;
mod practice;
mod raw_results;
mod received;
mod rows;
mod sheets;
mod threads;
mod words;

/// What an output holds before a call, so that a byte that is written shows.
pub trait Mark: Copy + PartialEq + std::fmt::Debug {
    fn at(i: usize) -> Self;
}

impl Mark for u8 {
    fn at(i: usize) -> u8 {
        0xA0 | (i % 16) as u8
    }
}

impl Mark for i16 {
    fn at(i: usize) -> i16 {
        -30_000 + i as i16
    }
}

impl Mark for i32 {
    fn at(i: usize) -> i32 {
        (i as i32 + 1).wrapping_mul(-0x61c8_8647)
    }
}

/// An output of a length, with marks in it and on both sides.
pub struct Output<T> {
    all: Vec<T>,
    long: usize,
}

const SIDE: usize = 16;

impl<T: Mark> Output<T> {
    pub fn new(long: usize) -> Output<T> {
        Output { all: (0..long + 2 * SIDE).map(T::at).collect(), long }
    }

    pub fn lent(&mut self) -> &mut [T] {
        &mut self.all[SIDE..SIDE + self.long]
    }

    /// What the call has left in it. Nothing beside it may be written.
    pub fn left(&self) -> &[T] {
        self.same(0..SIDE);
        self.same(SIDE + self.long..self.all.len());
        &self.all[SIDE..SIDE + self.long]
    }

    /// From an index of the output on, nothing is written.
    pub fn kept_from(&self, i: usize) {
        self.same(SIDE + i..self.all.len());
    }

    pub fn kept(&self) {
        self.same(0..self.all.len());
    }

    fn same(&self, places: std::ops::Range<usize>) {
        places.for_each(|i| assert_eq!(self.all[i], T::at(i), "place {} is written", i as isize - SIDE as isize));
    }
}

/// A scratch of the right length, full of marks.
pub fn scratch() -> Output<i32> {
    Output::new(tugzeck::SCRATCH)
}

impl Output<i32> {
    /// A scratch after an accepted call.
    pub fn cleared(&self) {
        assert!(self.left().iter().all(|x| *x == 0), "the scratch is not zero");
    }
}

/// A result by its number.
pub fn number<T>(result: Result<T, tugzeck::Refusal>) -> u32 {
    result.map_or_else(tugzeck::Refusal::number, |_| 0)
}

/// The numbers of the codes.
pub const CODES: [u32; 5] = [1, 2, 3, 4, 5];

/// Numbers of no code: near the codes, and near their multiples by bytes.
pub const NO_CODES: [u32; 8] = [0, 6, 7, 255, 257, 0x0100_0003, 0x0100_0005, u32::MAX];
