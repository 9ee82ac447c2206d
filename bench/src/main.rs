//! Compares this library with plain Rust of the same algorithm and, for codes 1 to 3, with a Wolf trellis of the whole code.
//!
//!     bench check CODE COUNT               all of them agree on that many rows
//!     bench call WHICH CALL CODE N [ROWS]  N calls on rows of one pool, for a count of instructions
//!     bench time WHICH CALL CODE N [ROWS]  nanoseconds a call but split, join and practice, the least of five runs of N calls
//!
//! WHICH is library, plain or, for codes 1 to 3, wolf; CALL is decode or mark, for library and plain also quantise, receive, split, join or practice, a
//! practice sheet of 200 questions, for the library alone list, a listing of the whole pool, or paper, one of 200 questions, the pool again and again.
//! ROWS is random, as where none is named, or zero, sparse or small (of -1, 0 and 1).

mod codes;
mod drill;
mod front;
mod library;
mod parts;
mod plain;
mod wolf;

use codes::Code;
use parts::Parts;
use plain::Plain;
use std::hint::black_box;
use std::time::Instant;
use wolf::Wolf;

/// As many rows are made before any call, so that a call's cost is the difference of two runs.
const POOL: usize = 32;
const PAPER: usize = 200;

struct Decoders {
    number: u32,
    scratch: Vec<i32>,
    plain: Plain,
    /// None for codes 4 and 5, whose trellises have 16^4 and 16^6 states.
    wolf: Option<Wolf>,
}

impl Decoders {
    fn new(number: u32) -> Decoders {
        let scratch = vec![0; library::SCRATCH];
        Decoders { number, scratch, plain: Plain::new(number), wolf: (number < 4).then(|| Wolf::new(number)) }
    }

    fn wolf(&mut self) -> &mut Wolf {
        self.wolf.as_mut().unwrap_or_else(|| usage())
    }

    fn decode(&mut self, which: &str, row: &[i16], word: &mut [u8], soft: &mut [i16]) -> i32 {
        match which {
            "library" => library::decode(self.number, row, word, soft, &mut self.scratch),
            "plain" => self.plain.decode(row, word, soft),
            "wolf" => self.wolf().decode(row, word, soft),
            _ => usage(),
        }
    }

    fn mark(&mut self, which: &str, row: &[i16], word: &[u8]) -> (u32, i32) {
        match which {
            "library" => library::mark(self.number, row, word, &mut self.scratch),
            "plain" => self.plain.mark(row, word),
            "wolf" => self.wolf().mark(row, word),
            _ => usage(),
        }
    }
}

/// A row as samples, and as received symbols: kinds drawn until they fill it, with samples where they are not lost.
struct Front {
    bits: usize,
    samples: Vec<Vec<f32>>,
    received: Vec<(Vec<u8>, Vec<f32>)>,
}

impl Front {
    fn new(bits: usize) -> Front {
        let mut rows = Rows::new(bits);
        let samples: Vec<Vec<f32>> = (0..POOL).map(|_| rows.within(150).iter().map(|r| f32::from(*r) / 32.0 + 0.01).collect()).collect();
        let received = samples.iter().map(|all| symbols(&mut rows, bits, all)).collect();
        Front { bits, samples, received }
    }

    fn quantise(&self, which: &str, code: u32, k: usize, row: &mut [i16]) {
        let samples = black_box(&self.samples[k % POOL]);
        let done = match which {
            "library" => library::quantise(code, samples, row).ok(),
            "plain" => front::quantise(self.bits, samples, row),
            _ => usage(),
        };
        done.expect("samples of a row");
    }

    fn receive(&self, which: &str, code: u32, k: usize, row: &mut [i16]) {
        let (kinds, samples) = black_box(&self.received[k % POOL]);
        let done = match which {
            "library" => library::receive(code, kinds, samples, row).ok(),
            "plain" => front::receive(self.bits, kinds, samples, row),
            _ => usage(),
        };
        done.expect("symbols of a row");
    }
}

/// The words to mark, and what they split into.
struct Layers {
    parts: Parts,
    words: Vec<(Vec<u8>, [u16; 4], Vec<u8>)>,
}

impl Layers {
    fn new(number: u32, pool: &[(Vec<i16>, Vec<u8>)]) -> Layers {
        let parts = Parts::new(Code::of(number));
        let part = |word: &Vec<u8>| {
            let mut bch = vec![0; Code::of(number).bits()];
            (word.clone(), parts.split(word, &mut bch).expect("a codeword"), bch)
        };
        let words = pool.iter().map(|(_, word)| part(word)).collect();
        Layers { parts, words }
    }

    fn split(&self, which: &str, code: u32, k: usize, bch: &mut [u8]) -> [u16; 4] {
        let word = black_box(&self.words[k % POOL].0);
        let found = match which {
            "library" => library::split(code, word, bch).ok(),
            "plain" => self.parts.split(word, bch),
            _ => usage(),
        };
        found.expect("a codeword")
    }

    fn join(&self, which: &str, code: u32, k: usize, word: &mut [u8]) {
        let (_, configuration, bch) = black_box(&self.words[k % POOL]);
        let done = match which {
            "library" => library::join(code, *configuration, bch, word).ok(),
            "plain" => self.parts.join(*configuration, bch, word),
            _ => usage(),
        };
        done.expect("the parts of a codeword");
    }
}

fn symbols(rows: &mut Rows, bits: usize, samples: &[f32]) -> (Vec<u8>, Vec<f32>) {
    let (mut kinds, mut held, mut at) = (vec![], vec![], 0);
    while at < bits {
        let kind = rows.draw() as u8 % 4;
        let has = 1 + usize::from(kind % 2);
        if at + has <= bits {
            kinds.push(kind);
            held.extend(samples[at..at + has].iter().filter(|_| kind > 1));
            at += has;
        }
    }
    (kinds, held)
}

fn usage() -> ! {
    eprintln!("bench check CODE COUNT | call WHICH CALL CODE N [ROWS] | time WHICH CALL CODE N [ROWS]");
    std::process::exit(2)
}

/// Reliabilities from -127 to 127, by xorshift.
struct Rows {
    state: u64,
    bits: usize,
}

impl Rows {
    fn new(bits: usize) -> Rows {
        Rows { state: 0x9E37_79B9_7F4A_7C15, bits }
    }

    fn draw(&mut self) -> u64 {
        self.state ^= self.state << 13;
        self.state ^= self.state >> 7;
        self.state ^= self.state << 17;
        self.state >> 11
    }

    fn entry(&mut self, size: u64) -> i16 {
        (self.draw() % (2 * size + 1)) as i16 - size as i16
    }

    fn within(&mut self, size: u64) -> Vec<i16> {
        (0..self.bits).map(|_| self.entry(size)).collect()
    }

    /// A row of a kind. In a sparse one each entry is 0 with probability 7/8.
    fn row(&mut self, kind: &str) -> Vec<i16> {
        match kind {
            "random" => self.within(127),
            "small" => self.within(1),
            "zero" => vec![0; self.bits],
            "sparse" => (0..self.bits).map(|_| if self.draw() % 8 == 0 { self.entry(127) } else { 0 }).collect(),
            _ => usage(),
        }
    }
}

/// Rows of a kind with the words to mark for them: each is the best word of the row before.
fn pool(number: u32, kind: &str) -> Vec<(Vec<i16>, Vec<u8>)> {
    let code = Code::of(number);
    let mut rows = Rows::new(code.bits());
    let mut plain = Plain::new(number);
    let mut soft = vec![0; code.bits()];
    let mut handed = vec![0; code.n];
    (0..POOL)
        .map(|_| {
            let row = rows.row(kind);
            let word = handed.clone();
            plain.decode(&row, &mut handed, &mut soft);
            (row, word)
        })
        .collect()
}

fn layer_calls(which: &str, call: &str, number: u32, pool: &[(Vec<i16>, Vec<u8>)], n: usize) {
    let layers = Layers::new(number, pool);
    let code = Code::of(number);
    let (mut bch, mut word) = (vec![0; code.bits()], vec![0; code.n]);
    for k in 0..n {
        if call == "split" {
            black_box(layers.split(which, number, k, &mut bch));
            black_box(&bch);
        } else {
            layers.join(which, number, k, &mut word);
            black_box(&word);
        }
    }
}

/// One practice sheet, of so many questions as the longest has.
fn drilled(which: &str, code: u32, seed: u32, output: &mut [u8]) -> u32 {
    let state = match which {
        "library" => library::practice(code, PAPER as u32, seed, output).ok(),
        "plain" => drill::practice(code, PAPER as u32, seed, output).ok(),
        _ => usage(),
    };
    state.expect("a sheet")
}

fn drill_calls(which: &str, code: u32, n: usize) {
    let mut output = vec![0; library::practice_length(code, PAPER as u32)];
    for k in 0..n {
        black_box(drilled(which, code, black_box(k as u32), &mut output));
        black_box(&output);
    }
}

fn calls(which: &str, call: &str, decoders: &mut Decoders, pool: &[(Vec<i16>, Vec<u8>)], n: usize) {
    let code = Code::of(decoders.number);
    let mut word = vec![0; code.n];
    let mut soft = vec![0; code.bits()];
    let questions: Vec<_> = match call {
        "list" => pool.to_vec(),
        "paper" => pool.iter().cycle().take(PAPER).cloned().collect(),
        _ => vec![],
    };
    let sheet = library::sheet(decoders.number, &questions);
    let mut text = vec![0; library::LISTING];
    let front = Front::new(code.bits());
    for (k, (row, handed)) in pool.iter().cycle().take(n).enumerate() {
        match call {
            "quantise" => {
                front.quantise(which, decoders.number, k, &mut soft);
                black_box(&soft);
            }
            "receive" => {
                front.receive(which, decoders.number, k, &mut soft);
                black_box(&soft);
            }
            "list" | "paper" => {
                black_box(library::list(black_box(&sheet), &mut text).expect("a listing"));
            }
            "decode" => {
                black_box(decoders.decode(which, black_box(row), &mut word, &mut soft));
                black_box((&word, &soft));
            }
            "mark" => {
                black_box(decoders.mark(which, black_box(row), black_box(handed)));
            }
            _ => usage(),
        }
    }
}

/// Random rows, and rows that tie often: of -1, 0 and 1, sparse, zero. Metrics, words, soft outputs and marks are the same; a word is a
/// codeword with the metric. Another word ties where a soft output is 0.
fn check(number: u32, count: usize) {
    let code = Code::of(number);
    let mut rows = Rows::new(code.bits());
    let mut decoders = Decoders::new(number);
    let all: &[&str] = if decoders.wolf.is_some() { &["library", "plain", "wolf"] } else { &["library", "plain"] };
    let mut handed = vec![0; code.n];
    let (mut ties, mut verdicts) = (0, [0; 3]);
    for k in 0..count {
        let row = rows.row(["random", "small", "sparse", "random", "small", "sparse", "random", "zero"][k % 8]);
        let mut seen = None;
        for which in all {
            let mut word = vec![0; code.n];
            let mut soft = vec![0; code.bits()];
            let metric = decoders.decode(which, &row, &mut word, &mut soft);
            assert!(code.is_codeword(&word), "{which}: no codeword for row {k}");
            assert_eq!(code.metric(&row, &word), metric, "{which}: metric of row {k}");
            let mut turned = handed.clone();
            turned[k % code.n] ^= 1;
            let marks = [&handed, &word, &turned].map(|w| decoders.mark(which, &row, w));
            let result = (metric, word, soft, marks);
            match &seen {
                None => seen = Some(result),
                Some(first) => assert_eq!(*first, result, "{which}: row {k}"),
            }
        }
        if let Some((_, word, soft, marks)) = seen {
            marks.iter().for_each(|m| verdicts[m.0 as usize] += 1);
            ties += usize::from(soft.contains(&0));
            handed = word;
        }
    }
    let front = Front::new(code.bits());
    for k in 0..POOL {
        let rows = ["library", "plain"].map(|which| {
            let (mut quantised, mut received) = (vec![0; code.bits()], vec![0; code.bits()]);
            front.quantise(which, number, k, &mut quantised);
            front.receive(which, number, k, &mut received);
            (quantised, received)
        });
        assert_eq!(rows[0], rows[1], "quantised and received, row {k}");
    }
    let words = pool(number, "random");
    let layers = Layers::new(number, &words);
    for (k, (_, word)) in words.iter().enumerate() {
        for which in ["library", "plain"] {
            let (mut bch, mut joined) = (vec![0; code.bits()], vec![0; code.n]);
            let configuration = layers.split(which, number, k, &mut bch);
            layers.join(which, number, k, &mut joined);
            assert_eq!((word.clone(), configuration, bch), layers.words[k], "{which}: the parts of word {k}");
            assert_eq!(joined, *word, "{which}: word {k} joined");
        }
    }
    for seed in (0..POOL as u32).map(|k| k.wrapping_mul(0x85EB_CA6B)) {
        let sheets = ["library", "plain"].map(|which| {
            let mut output = vec![0; library::practice_length(number, PAPER as u32)];
            (drilled(which, number, seed, &mut output), output)
        });
        assert_eq!(sheets[0], sheets[1], "the practice sheet from {seed}");
    }
    let [none, short, best] = verdicts;
    print!("code {number}: {} agree on {count} rows, {ties} with another tied word, ", all.join(", "));
    println!("and on marks of {best} best, {short} short and {none} other words");
}

fn main() {
    let args: Vec<String> = std::env::args().skip(1).collect();
    let args: Vec<&str> = args.iter().map(String::as_str).collect();
    let number = |s: &str| s.parse::<u32>().unwrap_or_else(|_| usage());
    let kind = args.get(5).unwrap_or(&"random");
    match args[..] {
        ["check", code, count] => check(number(code), number(count) as usize),
        ["call", which, call @ ("split" | "join"), code, n] | ["call", which, call @ ("split" | "join"), code, n, _] => {
            let code = number(code);
            layer_calls(which, call, code, &pool(code, kind), number(n) as usize);
        }
        ["call", which, "practice", code, n] | ["call", which, "practice", code, n, _] => {
            drill_calls(which, number(code), number(n) as usize);
        }
        ["call", which, call, code, n] | ["call", which, call, code, n, _] => {
            let code = number(code);
            calls(which, call, &mut Decoders::new(code), &pool(code, kind), number(n) as usize);
        }
        ["time", which, call, code, n] | ["time", which, call, code, n, _] => {
            let (code, n) = (number(code), number(n) as usize);
            let (mut decoders, pool) = (Decoders::new(code), pool(code, kind));
            let run = |_| {
                let start = Instant::now();
                calls(which, call, &mut decoders, &pool, n);
                start.elapsed().as_nanos() as usize / n
            };
            println!("{}", (0..5).map(run).min().unwrap());
        }
        _ => usage(),
    }
}
