//! Decoder and marker, by m and r and by number, against an independent search over the configurations of each of the ten codes: every word of every coset
//! is tried, layer by layer, and the configurations are the layers of the codewords that are zero at all but the last positions, made by encoding and moved.

use crate::codes::Code;
use crate::draw::Draw;
use crate::named::{names, Named};
use crate::parameters::{code_of, cosets, encoded, refusal, syndrome, NUMBERED, TEN};
use crate::{number, scratch, Output, CODES, NO_CODES};
use tugzeck::{Refusal, Verdict};

pub struct Search {
    code: Code,
    /// The coset of every binary word, position i weighing 2^i, and how many cosets there are.
    cosets: Vec<usize>,
    size: usize,
    configurations: Vec<[usize; 4]>,
}

/// For each layer and coset: the least cost, the first word that has it (position 0 compared first), how many have it, and the least with each bit held.
struct Tables {
    least: Vec<Vec<u32>>,
    first: Vec<Vec<u32>>,
    words: Vec<Vec<u64>>,
    held: Vec<Vec<[[u32; 2]; 15]>>,
}

impl Search {
    pub fn new(code: Code) -> Search {
        let cosets = cosets(&code);
        let size = cosets.iter().max().expect("a word") + 1;
        let q = size.ilog2() as usize;
        let free = q - code.roots;
        let configurations = (0..1usize << (free * code.m))
            .map(|k| {
                // A message that is zero in its last n - q symbols gives a word that is zero in its last n - q, and moved one that is zero in its first.
                let mut message = vec![0u8; code.n - code.roots];
                (0..free).for_each(|i| message[i] = (k >> (i * code.m) & ((1 << code.m) - 1)) as u8);
                let mut word = encoded(&code, &message);
                word.rotate_right(code.n - q);
                let mut tuple = [0; 4];
                for (j, s) in tuple.iter_mut().enumerate().take(code.m) {
                    *s = syndrome(&code, &word.iter().map(|c| c >> j & 1).collect::<Vec<u8>>());
                }
                tuple
            })
            .collect();
        Search { code, cosets, size, configurations }
    }

    fn tables(&self, row: &[i16]) -> Tables {
        let code = &self.code;
        let mut t = Tables { least: vec![], first: vec![], words: vec![], held: vec![] };
        for j in 0..code.m {
            let mut least = vec![u32::MAX; self.size];
            let mut first = vec![0u32; self.size];
            let mut words = vec![0u64; self.size];
            let mut held = vec![[[u32::MAX; 2]; 15]; self.size];
            for (w, s) in self.cosets.iter().enumerate() {
                let cost: u32 = (0..code.n).map(|i| against(row[i * code.m + j], w >> i & 1)).sum();
                // The words as numbers whose leading bit is position 0.
                let turned = (w as u32).reverse_bits() >> (32 - code.n);
                if cost < least[*s] {
                    words[*s] = 0;
                }
                words[*s] += u64::from(cost <= least[*s]);
                if (cost, turned) < (least[*s], first[*s]) || least[*s] == u32::MAX {
                    (least[*s], first[*s]) = (cost, turned);
                }
                (0..code.n).for_each(|i| held[*s][i][w >> i & 1] = held[*s][i][w >> i & 1].min(cost));
            }
            t.least.push(least);
            t.first.push(first);
            t.words.push(words);
            t.held.push(held);
        }
        t
    }

    /// The best metric, the first best word and every soft output; and how many best words there are.
    pub fn decode(&self, row: &[i16]) -> ((i32, Vec<u8>, Vec<i16>), u64) {
        let (code, t) = (&self.code, self.tables(row));
        let total = |c: &[usize; 4]| (0..code.m).map(|j| t.least[j][c[j]]).sum::<u32>();
        let least = self.configurations.iter().map(total).min().expect("a configuration");
        let weight: i32 = row.iter().map(|r| i32::from(r.abs())).sum();
        let word = |c: &[usize; 4]| -> Vec<u8> {
            (0..code.n).map(|i| (0..code.m).map(|j| ((t.first[j][c[j]] >> (code.n - 1 - i) & 1) as u8) << j).sum()).collect()
        };
        let best = || self.configurations.iter().filter(|c| total(c) == least);
        let first = best().map(word).min().expect("a configuration");
        let words = best().map(|c| (0..code.m).map(|j| t.words[j][c[j]]).product::<u64>()).sum();
        // For each layer and coset: the least cost of the other layers, over the configurations with that coset there.
        let mut others = vec![vec![u32::MAX; self.size]; code.m];
        for c in &self.configurations {
            let sum = total(c);
            for j in 0..code.m {
                others[j][c[j]] = others[j][c[j]].min(sum - t.least[j][c[j]]);
            }
        }
        let mut pairs = vec![[u32::MAX; 2]; code.bits()];
        for (j, (rest, held)) in others.iter().zip(&t.held).enumerate() {
            for (rest, held) in rest.iter().zip(held).filter(|(rest, _)| **rest != u32::MAX) {
                for (i, own) in held.iter().enumerate().take(code.n) {
                    for v in (0..2).filter(|v| own[*v] != u32::MAX) {
                        pairs[i * code.m + j][v] = pairs[i * code.m + j][v].min(rest + own[v]);
                    }
                }
            }
        }
        let soft = pairs.iter().map(|p| (2 * p[1] as i32 - 2 * p[0] as i32) as i16).collect();
        ((weight - 2 * least as i32, first, soft), words)
    }
}

fn against(r: i16, bit: usize) -> u32 {
    if (bit == 1) == (r > 0) && r != 0 {
        u32::from(r.unsigned_abs())
    } else {
        0
    }
}

fn metric(code: &Code, row: &[i16], word: &[u8]) -> i32 {
    (0..code.bits()).map(|b| if word[b / code.m] >> (b % code.m) & 1 == 0 { i32::from(row[b]) } else { -i32::from(row[b]) }).sum()
}

#[test]
fn decodings_and_marks() {
    let mut draw = Draw::new(33);
    let (mut count, mut numbered, mut marks, mut shown) = (0, 0, [0; 3], [0; 2]);
    for (m, r) in TEN {
        let search = Search::new(code_of(m, r));
        let code = &search.code;
        for k in 0..if m == 3 { 60 } else { 40 } {
            let near = encoded(code, &draw.word(code.n - code.roots, code.m));
            let row = draw.row(k, code.m, &near);
            let ((best, first, soft), words) = search.decode(&row);
            // No bit is undecided exactly when one word is best, and a decided bit is that of a best word.
            assert_eq!(words == 1, !soft.contains(&0), "({m}, {r}), {row:?}: {words} best words");
            let bit = |b: usize| first[b / code.m] >> (b % code.m) & 1;
            assert!((0..code.bits()).all(|b| soft[b] == 0 || bit(b) == u8::from(soft[b] < 0)), "({m}, {r}), {row:?}");
            shown[usize::from(words == 1)] += 1;
            for name in names(m, r) {
                let (mut word, mut out, mut room) = (Output::new(code.n), Output::<i16>::new(code.bits()), scratch());
                assert_eq!(name.decode(&row, word.lent(), out.lent(), room.lent()), Ok(best), "{name:?}, {row:?}");
                assert_eq!(word.left(), first, "{name:?}, {row:?}");
                assert_eq!(out.left(), soft, "{name:?}, {row:?}");
                room.cleared();
                count += 1;
                numbered += usize::from(matches!(name, Named::Number(_)));
            }

            let mut none = first.clone();
            none[draw.below(code.n)] ^= 1;
            for handed in [first, near, none] {
                let expected = if !crate::every::is_codeword(code, &handed) {
                    Verdict::None
                } else if metric(code, &row, &handed) == best {
                    Verdict::Best
                } else {
                    Verdict::Short(best - metric(code, &row, &handed))
                };
                for name in names(m, r) {
                    let mut room = scratch();
                    assert_eq!(name.mark(&row, &handed, room.lent()), Ok(expected), "{name:?}, {row:?}");
                    room.cleared();
                    marks[match expected {
                        Verdict::None => 0,
                        Verdict::Short(_) => 1,
                        Verdict::Best => 2,
                    }] += 1;
                }
            }
        }
    }
    println!(
        "compared: {count} decodings against a search over the configurations of the ten codes, {numbered} of them by number; {} best, {} short and {} other words marked",
        marks[2], marks[1], marks[0]
    );
    assert!(shown.iter().all(|rows| *rows > 0));
    println!("compared: undecided bits with the number of best words: {} rows of one best word, {} of several", shown[1], shown[0]);
}

#[test]
fn refusals() {
    let mut count = 0;
    let chosen = (0..=6).flat_map(|m| (0..=8).map(move |r| (Named::By(m, r), refusal(m, r), (m, r))));
    let numbers = (1..).zip(NUMBERED).map(|(code, by)| (Named::Number(code), 0, by));
    let no_numbers = NO_CODES.iter().flat_map(|c| CODES.map(|like| (Named::Number(*c), 1, NUMBERED[like as usize - 1])));
    for (name, choice, (m, r)) in chosen.chain(numbers).chain(no_numbers) {
        let code = if refusal(m, r) == 0 { code_of(m, r) } else { code_of(4, 4) };
        let first = |own: u32| if choice == 0 { own } else { choice };
        for (row, word, soft, scratch, value, own) in [
            (code.bits() + 1, code.n, code.bits(), tugzeck::SCRATCH, 0, 2),
            (code.bits(), code.n - 1, code.bits(), tugzeck::SCRATCH - 1, 0, 4),
            (code.bits(), code.n, code.bits() + 1, 0, 0, 4),
            (code.bits(), code.n, code.bits(), 0, 0, 17),
            (code.bits(), code.n, code.bits(), tugzeck::SCRATCH - 1, 128, 17),
            (code.bits(), code.n, code.bits(), tugzeck::SCRATCH + 1, 0, 17),
            (code.bits(), code.n, code.bits(), tugzeck::SCRATCH, -128, 5),
        ] {
            let row = vec![value; row];
            let (mut a, mut b, mut room) = (Output::new(word), Output::<i16>::new(soft), Output::new(scratch));
            assert_eq!(number(name.decode(&row, a.lent(), b.lent(), room.lent())), first(own), "{name:?}");
            a.kept();
            b.kept();
            room.kept();
            count += 1;
        }
        for (row, word, scratch, value, symbol, own) in [
            (code.bits() + 1, code.n + 1, 0, 128, 16, 2),
            (code.bits(), code.n + 1, 0, 128, 16, 3),
            (code.bits(), code.n, 0, 128, 16, 17),
            (code.bits(), code.n, tugzeck::SCRATCH - 1, 0, 0, 17),
            (code.bits(), code.n, tugzeck::SCRATCH + 1, 0, 0, 17),
            (code.bits(), code.n, tugzeck::SCRATCH, 128, 16, 5),
            (code.bits(), code.n, tugzeck::SCRATCH, 127, 16, 6),
        ] {
            let (row, word) = (vec![value; row], vec![symbol; word]);
            let mut room = Output::new(scratch);
            assert_eq!(number(name.mark(&row, &word, room.lent())), first(own), "{name:?}");
            room.kept();
            count += 1;
        }
    }
    assert_eq!(Refusal::Scratch.number(), 17);
    println!("compared: {count} refusals of decoder and marker, by parameters and by number");
}
