//! Calls from several threads at once, each with a small stack.

use crate::draw::Draw;
use crate::parameters::TEN;
use std::thread::Builder;

/// What a call may take of the stack, with room for what the test itself takes.
const STACK: usize = 64 * 1024;

/// The same for the listing.
const LIST_STACK: usize = 192 * 1024;

/// What every call by parameters answers, for thirty rows.
fn results_by(seed: u64) -> Vec<String> {
    let mut draw = Draw::new(seed);
    let mut scratch = vec![0; tugzeck::SCRATCH];
    TEN.iter()
        .cycle()
        .take(30)
        .map(|&(m, r)| {
            let (n, bits) = (tugzeck::word_length_by(m), tugzeck::row_length_by(m));
            let samples: Vec<f32> = (0..bits).map(|_| f32::from(draw.within(127)) / 32.0).collect();
            let (mut row, mut word, mut soft) = (vec![0; bits], vec![0; n], vec![0; bits]);
            let (mut message, mut bch) = (vec![0; tugzeck::message_length_by(m, r)], vec![0; bits]);
            let answers = (
                tugzeck::quantise_by(m, r, &samples, &mut row),
                tugzeck::receive_by(m, r, &vec![2; bits], &samples, &mut row),
                tugzeck::decode_by(m, r, &row, &mut word, &mut soft, &mut scratch),
                tugzeck::check_word_by(m, r, &word),
                tugzeck::read_word_by(m, r, &word, &mut message),
                tugzeck::encode_by(m, r, &message, &mut word),
                tugzeck::split_by(m, r, &word, &mut bch),
                tugzeck::mark_by(m, r, &row, &word, &mut scratch),
            );
            assert!(answers.0.is_ok() && answers.2.is_ok() && answers.7 == Ok(tugzeck::Verdict::Best));
            let mut joined = vec![0; n];
            assert_eq!(answers.6.and_then(|configuration| tugzeck::join_by(m, r, configuration, &bch, &mut joined)), Ok(()));
            assert_eq!(joined, word);
            format!("{answers:?} {row:?} {word:?} {soft:?} {message:?} {bch:?}")
        })
        .collect()
}

/// What every call by number answers, for sixty rows, and the sheets of each.
fn results(seed: u64) -> (Vec<String>, Vec<Vec<u8>>) {
    let mut draw = Draw::new(seed);
    let mut scratch = vec![0; tugzeck::SCRATCH];
    (0..60)
        .map(|k| {
            let code = k % 5 + 1;
            let (n, bits) = (tugzeck::word_length(code), tugzeck::row_length(code));
            let samples: Vec<f32> = (0..bits).map(|_| f32::from(draw.within(127)) / 32.0).collect();
            let (mut row, mut word, mut soft) = (vec![0; bits], vec![0; n], vec![0; bits]);
            let (mut message, mut bch) = (vec![0; tugzeck::message_length(code)], vec![0; bits]);
            let mut sheet = vec![0; tugzeck::sheet_length(&[code])];
            let mut drill = vec![0; tugzeck::practice_length(code, k)];
            let answers = (
                tugzeck::quantise(code, &samples, &mut row),
                tugzeck::receive(code, &vec![2; bits], &samples, &mut row),
                tugzeck::decode(code, &row, &mut word, &mut soft, &mut scratch),
                tugzeck::check_word(code, &word),
                tugzeck::read_word(code, &word, &mut message),
                tugzeck::encode(code, &message, &mut word),
                tugzeck::split(code, &word, &mut bch),
                tugzeck::mark(code, &row, &word, &mut scratch),
                tugzeck::write_sheet(&[code], &[k], &row, &word, &mut sheet),
                tugzeck::judge_sheet(&sheet),
                tugzeck::question(&sheet, 0, &mut row, &mut word),
                tugzeck::practice(code, k, seed as u32, &mut drill),
            );
            assert!(answers.0.is_ok() && answers.2.is_ok() && answers.7 == Ok(tugzeck::Verdict::Best));
            assert_eq!(answers.10, Ok(Some(tugzeck::Question { code, number: k })));
            assert!(answers.11.is_ok());
            let mut joined = vec![0; n];
            assert_eq!(answers.6.and_then(|configuration| tugzeck::join(code, configuration, &bch, &mut joined)), Ok(()));
            assert_eq!(joined, word);
            (format!("{answers:?} {row:?} {word:?} {soft:?} {message:?} {bch:?} {sheet:?} {drill:?}"), sheet)
        })
        .unzip()
}

/// The listings of sheets.
fn listings(sheets: &[Vec<u8>]) -> Vec<Vec<u8>> {
    let listed = |sheet: &Vec<u8>| {
        let mut text = vec![0; tugzeck::LISTING];
        let long = tugzeck::list(sheet, &mut text).expect("an output of the right length");
        text.truncate(long);
        text
    };
    sheets.iter().map(listed).collect()
}

/// Runs it for eight seeds, alone and from eight threads at once.
fn both_ways<T: PartialEq + std::fmt::Debug + Send + 'static>(stack: usize, run: impl Fn(u64) -> T + Clone + Send + 'static) {
    let alone: Vec<T> = (0..8).map(&run).collect();
    let spawned = |seed| {
        let run = run.clone();
        Builder::new().stack_size(stack).spawn(move || run(seed)).expect("a thread")
    };
    let threads: Vec<_> = (0..8).map(spawned).collect();
    let at_once: Vec<T> = threads.into_iter().map(|t| t.join().expect("it ends")).collect();
    assert_eq!(alone, at_once);
}

#[test]
fn at_once_on_small_stacks() {
    both_ways(STACK, |seed| (results(seed), results_by(seed)));
    let sheets: Vec<Vec<Vec<u8>>> = (0..8).map(|seed| results(seed).1).collect();
    both_ways(LIST_STACK, move |seed| listings(&sheets[seed as usize]));
    println!(
        "compared: every call from 8 threads at once, each with a stack of {} KiB ({} KiB for the listing), and from one thread",
        STACK / 1024,
        LIST_STACK / 1024
    );
}
