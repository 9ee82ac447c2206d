//! The structs as the library answers them: every field, refused or not.

#[path = "../../src/raw.rs"]
#[allow(dead_code)]
mod raw;

use raw::*;

/// What the library answers for a practice sheet: the number and the state, refused or not.
pub fn drawn(code: u32, count: u32, state: u32, output: &mut [u8]) -> (u32, u32) {
    // SAFETY: it is a slice, borrowed alone.
    let Drawn { number, state } = unsafe { tugzeck_practice(code, count, state, output.as_mut_ptr(), output.len()) };
    (number, state)
}

#[test]
fn every_field() {
    let word = [3u8, 6, 1, 0, 0, 0, 0];
    let row = [10i16; 21];
    let (mut bytes, mut numbers, mut scratch) = ([0u8; 21], [0i16; 21], vec![0i32; tugzeck::SCRATCH]);
    let (b, n, s, long) = (bytes.as_mut_ptr(), numbers.as_mut_ptr(), scratch.as_mut_ptr(), scratch.len());
    let (w, r) = (word.as_ptr(), row.as_ptr());
    // SAFETY: no count is above its array's length, and the outputs and the scratch are arrays of their own.
    unsafe {
        let Splitting { number, configuration } = tugzeck_split(1, w, 7, b, 21);
        assert_eq!((number, configuration), (0, [5, 3, 2, 0]));
        let Splitting { number, configuration } = tugzeck_split(1, w, 7, b, 20);
        assert_eq!((number, configuration), (4, [0; 4]));

        let Decoding { number, metric } = tugzeck_decode(1, r, 21, b, 7, n, 21, s, long);
        assert_eq!((number, metric), (0, 210));
        let Decoding { number, metric } = tugzeck_decode(1, r, 20, b, 7, n, 21, s, long);
        assert_eq!((number, metric), (2, 0));
        let Decoding { number, metric } = tugzeck_decode(1, r, 21, b, 7, n, 21, s, long - 1);
        assert_eq!((number, metric), (17, 0));

        let Marking { number, verdict, shortfall } = tugzeck_mark(1, r, 21, w, 7, s, long);
        assert_eq!((number, verdict, shortfall), (0, 1, 100));
        let Marking { number, verdict, shortfall } = tugzeck_mark(1, r, 21, [0u8; 7].as_ptr(), 7, s, long);
        assert_eq!((number, verdict, shortfall), (0, 2, 0));
        let Marking { number, verdict, shortfall } = tugzeck_mark(1, r, 21, [1u8; 7].as_ptr(), 6, s, long);
        assert_eq!((number, verdict, shortfall), (3, 0, 0));
        let Marking { number, verdict, shortfall } = tugzeck_mark(1, r, 21, [1u8, 0, 0, 0, 0, 0, 0].as_ptr(), 7, s, long);
        assert_eq!((number, verdict, shortfall), (0, 0, 0));
        let Marking { number, verdict, shortfall } = tugzeck_mark(1, r, 21, w, 7, s, 0);
        assert_eq!((number, verdict, shortfall), (17, 0, 0));
    }

    let mut sheet = [0u8; 44];
    let mut text = vec![0u8; tugzeck::LISTING];
    tugzeck::write_sheet(&[1], &[77], &row, &word, &mut sheet).expect("a good list");
    let mut drill = [0u8; 84];
    let (s, d) = (sheet.as_ptr(), drill.as_mut_ptr());
    // SAFETY: as above.
    unsafe {
        let Judgement { number, questions } = tugzeck_judge_sheet(s, 44);
        assert_eq!((number, questions), (0, 1));
        let Judgement { number, questions } = tugzeck_judge_sheet(s, 40);
        assert_eq!((number, questions), (9, 0));

        let Asked { number, found, code, question } = tugzeck_question(s, 44, 0, n, 21, b, 7);
        assert_eq!((number, found, code, question), (0, 1, 1, 77));
        let Asked { number, found, code, question } = tugzeck_question(s, 44, 1, n, 21, b, 7);
        assert_eq!((number, found, code, question), (0, 0, 0, 0));
        let Asked { number, found, code, question } = tugzeck_question(s, 44, 0, n, 21, b, 6);
        assert_eq!((number, found, code, question), (4, 0, 0, 0));
        let Asked { number, found, code, question } = tugzeck_question(s, 43, 0, n, 21, b, 7);
        assert_eq!((number, found, code, question), (9, 0, 0, 0));

        let Drawn { number, state } = tugzeck_practice(1, 2, 42, d, 84);
        assert_eq!((number, state), (0, 0xF519_F884));
        let Drawn { number, state } = tugzeck_practice(1, 0, 42, d, 4);
        assert_eq!((number, state), (0, 42));
        let Drawn { number, state } = tugzeck_practice(6, 201, 42, d, 3);
        assert_eq!((number, state), (12, 42));
        let Drawn { number, state } = tugzeck_practice(6, 0, u32::MAX, d, 3);
        assert_eq!((number, state), (1, u32::MAX));
        let Drawn { number, state } = tugzeck_practice(1, 2, 42, d, 83);
        assert_eq!((number, state), (4, 42));

        let Listed { number, length } = tugzeck_list(s, 44, text.as_mut_ptr(), text.len());
        assert_eq!((number, length), (0, text.iter().position(|c| *c == 0).expect("an end")));
        let Listed { number, length } = tugzeck_list(s, 44, text.as_mut_ptr(), text.len() - 1);
        assert_eq!((number, length), (4, 0));
    }
}
