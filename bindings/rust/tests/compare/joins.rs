//! The join, by m and r and by number, against an independent one: each layer is its BCH word with the leader of its coset added, and a configuration is
//! valid when, from the syndromes alone, the sum over the layers is zero at every root.

use crate::codes::Code;
use crate::draw::Draw;
use crate::every::{is_codeword, unpacked, Every};
use crate::named::{names, Named};
use crate::parameters::{bits, code_of, cosets, encoded, leaders, parts, NUMBERED, TEN};
use crate::Output;
use tugzeck::Refusal;

pub struct Joiner {
    pub code: Code,
    /// The coset of every binary word, and the leader of every coset with its weight.
    cosets: Vec<usize>,
    leaders: Vec<(u32, u32)>,
}

impl Joiner {
    pub fn new(code: Code) -> Joiner {
        let (cosets, leaders) = (cosets(&code), leaders(&code));
        Joiner { code, cosets, leaders }
    }

    /// How many syndromes there are.
    pub fn size(&self) -> usize {
        self.leaders.len()
    }

    /// A layer's value at α^t, from its syndrome.
    fn value(&self, t: usize, s: usize) -> usize {
        let (code, top) = (&self.code, 1 << self.code.m);
        let square = |x: usize| code.times(x, x);
        match (t, code.m) {
            (1, _) => s % top,
            (3, _) => s / top % top,
            (5, 4) => [0, 1, 6, 7][s / 256],
            (5, _) => square(square(self.value(3, s))),
            _ => square(self.value(t / 2, s)),
        }
    }

    /// The places of the layers are syndromes, any other is 0, and at every root the sum of α^(j-1) times layer j's value is zero.
    pub fn is_valid(&self, configuration: [u16; 4]) -> bool {
        let code = &self.code;
        let places = configuration.map(usize::from);
        let (own, rest) = places.split_at(code.m);
        let sum = |t: usize| (0..code.m).fold(0, |sum, j| sum ^ code.times(1 << j, self.value(t, own[j])));
        own.iter().all(|s| *s < self.size()) && rest.iter().all(|s| *s == 0) && (1..=code.roots).all(|t| sum(t) == 0)
    }

    /// Each layer has 0 and 1 alone, and is in the coset of the zero word.
    pub fn all_bch(&self, bch: &[u8]) -> bool {
        let number = |layer: &[u8]| layer.iter().rev().fold(0, |w, b| 2 * w + usize::from(*b));
        bch.iter().all(|b| *b < 2) && bch.chunks(self.code.n).all(|layer| self.cosets[number(layer)] == 0)
    }

    fn bch_words(&self) -> Vec<Vec<u8>> {
        (0u32..).zip(&self.cosets).filter(|(_, s)| **s == 0).map(|(w, _)| bits(self.code.n, w)).collect()
    }

    /// What n·m values and a configuration join to, or are refused by.
    fn joined(&self, configuration: [u16; 4], bch: &[u8]) -> Result<Vec<u8>, Refusal> {
        if !self.all_bch(bch) {
            return Err(Refusal::NoBchWord);
        }
        if !self.is_valid(configuration) {
            return Err(Refusal::Configuration);
        }
        let mut word = vec![0; self.code.n];
        for (j, layer) in bch.chunks(self.code.n).enumerate() {
            let leader = self.leaders[usize::from(configuration[j])].1;
            (0..self.code.n).for_each(|i| word[i] += (layer[i] ^ (leader >> i & 1) as u8) << j);
        }
        Ok(word)
    }

    /// The call answers and writes the same, and keeps its output where it refuses.
    fn same(&self, name: Named, configuration: [u16; 4], bch: &[u8]) -> Result<Vec<u8>, Refusal> {
        let mut word = Output::new(self.code.n);
        let answer = name.join(configuration, bch, word.lent());
        let expected = self.joined(configuration, bch);
        assert_eq!(answer, expected.clone().map(|_| ()), "{name:?}, {configuration:?}, {bch:?}");
        match &expected {
            Ok(joined) => assert_eq!(word.left(), joined, "{name:?}, {configuration:?}, {bch:?}"),
            Err(_) => word.kept(),
        }
        expected
    }

    /// The same of parts that join, to a codeword that splits into them again.
    fn there_and_back(&self, name: Named, configuration: [u16; 4], bch: &[u8]) -> Vec<u8> {
        let word = self.same(name, configuration, bch).expect("parts that join");
        let mut left = Output::new(self.code.bits());
        assert_eq!(name.split(&word, left.lent()), Ok(configuration), "{name:?}, {word:?}");
        assert_eq!(left.left(), bch, "{name:?}, {word:?}");
        word
    }

    fn codeword(&self, draw: &mut Draw) -> Vec<u8> {
        encoded(&self.code, &draw.word(self.code.n - self.code.roots, self.code.m))
    }

    /// The parts of a codeword.
    pub fn drawn(&self, draw: &mut Draw) -> ([u16; 4], Vec<u8>) {
        parts(&self.code, &self.leaders, &self.codeword(draw))
    }
}

/// Every three of these, in order.
fn triples<T: Copy>(these: &[T]) -> Vec<[T; 3]> {
    let pairs: Vec<[T; 2]> = these.iter().flat_map(|a| these.iter().map(|b| [*a, *b])).collect();
    pairs.iter().flat_map(|[a, b]| these.iter().map(|c| [*a, *b, *c])).collect()
}

#[test]
fn codewords_back() {
    let mut draw = Draw::new(50);
    let (mut count, mut numbered) = (0, 0);
    for (m, r) in TEN {
        let joiner = Joiner::new(code_of(m, r));
        let words: Vec<Vec<u8>> = match (1..).zip(NUMBERED).find(|(_, by)| *by == (m, r)) {
            Some((number @ 1..=2, _)) => Every::new(number).codewords.iter().map(|b| unpacked(&joiner.code, *b)).collect(),
            _ => (0..5_000).map(|_| joiner.codeword(&mut draw)).collect(),
        };
        for word in words {
            let (configuration, bch) = parts(&joiner.code, &joiner.leaders, &word);
            for name in names(m, r) {
                assert_eq!(joiner.there_and_back(name, configuration, &bch), word);
                count += 1;
                numbered += usize::from(matches!(name, Named::Number(_)));
            }
        }
    }
    println!(
        "compared: {count} codewords of the ten codes joined and split back, {numbered} of them by number, every one of codes 1 and 2"
    );
}

/// All BCH words under all valid configurations: every codeword of the codes of seven symbols, and none twice.
#[test]
fn every_choice_of_parts() {
    let mut count = 0;
    for (m, r) in TEN.into_iter().filter(|(m, _)| *m == 3) {
        let joiner = Joiner::new(code_of(m, r));
        let (words, syndromes) = (joiner.bch_words(), (0..joiner.size() as u16).collect::<Vec<u16>>());
        let choices = triples(&words.iter().collect::<Vec<_>>());
        let mut met = vec![false; 1 << 21];
        for [a, b, c] in triples(&syndromes).into_iter().filter(|[a, b, c]| joiner.is_valid([*a, *b, *c, 0])) {
            for layers in &choices {
                let word = joiner.there_and_back(Named::By(m, r), [a, b, c, 0], &layers.map(|w| &w[..]).concat());
                assert!(is_codeword(&joiner.code, &word), "({m}, {r}), {word:?}");
                let met = &mut met[word.iter().fold(0, |x, c| 8 * x + usize::from(*c))];
                assert!(!*met, "({m}, {r}), {word:?} twice");
                *met = true;
            }
        }
        let found = met.iter().filter(|w| **w).count();
        assert_eq!(found, 8usize.pow(7 - r));
        count += found;
    }
    println!(
        "compared: all BCH words under all configurations of the six codes of seven symbols, joined to all {count} codewords, none twice"
    );
}

/// A lecturer's edits: one layer's BCH word is replaced by another, and all of them at once.
#[test]
fn edited_layers() {
    let mut draw = Draw::new(51);
    let (mut one, mut all) = (0, 0);
    for (m, r) in TEN {
        let joiner = Joiner::new(code_of(m, r));
        let n = joiner.code.n;
        let words = joiner.bch_words();
        for _ in 0..30 {
            let word = joiner.codeword(&mut draw);
            let (configuration, bch) = parts(&joiner.code, &joiner.leaders, &word);
            for j in 0..joiner.code.m {
                let elsewhere = |w: &[u8]| w.iter().map(|c| c & !(1 << j)).collect::<Vec<u8>>();
                // Each word, or so many that are drawn.
                for k in 0..words.len().min(128) {
                    let other = if words.len() > 128 { draw.below(words.len()) } else { k };
                    let mut edited = bch.clone();
                    edited[j * n..(j + 1) * n].copy_from_slice(&words[other]);
                    for name in names(m, r) {
                        let joined = joiner.there_and_back(name, configuration, &edited);
                        assert_eq!(elsewhere(&joined), elsewhere(&word), "{name:?}: an edit of layer {} shows in another", j + 1);
                        one += 1;
                    }
                }
            }
            for _ in 0..30 {
                let edited: Vec<u8> = (0..m).flat_map(|_| words[draw.below(words.len())].clone()).collect();
                for name in names(m, r) {
                    joiner.there_and_back(name, configuration, &edited);
                    all += 1;
                }
            }
        }
    }
    println!("compared: {one} codewords joined with one layer's BCH word replaced, {all} with every layer's");
}

/// Every change of one bit of the BCH words, and values other than 0 and 1 at every place.
#[test]
fn changed_places() {
    let mut draw = Draw::new(52);
    let (mut joined, mut changed, mut values) = (0, 0, 0);
    for (m, r) in TEN {
        let joiner = Joiner::new(code_of(m, r));
        for k in 0..200 {
            let (mut configuration, mut bch) = joiner.drawn(&mut draw);
            // The configuration is looked at after the BCH words.
            if k % 4 == 0 {
                configuration = [u16::MAX; 4];
            }
            for i in 0..bch.len() {
                let own = bch[i];
                for name in names(m, r) {
                    bch[i] = own ^ 1;
                    match joiner.same(name, configuration, &bch) {
                        Ok(_) => joined += 1,
                        Err(refusal) => assert_eq!(refusal, Refusal::NoBchWord),
                    }
                    changed += 1;
                    for value in [2 + own, 3 - own, 128 + own, 255] {
                        bch[i] = value;
                        assert_eq!(joiner.same(name, configuration, &bch), Err(Refusal::NoBchWord));
                        values += 1;
                    }
                }
                bch[i] = own;
            }
        }
    }
    // Two words of a BCH code differ at three places or more.
    assert_eq!(joined, 0);
    println!("compared: {changed} BCH words with one bit changed and {values} with a value other than 0 and 1, all refused");
}

/// One layer's BCH word is moved to every coset, or replaced by a codeword that has 0 and 1 at all places but r.
#[test]
fn other_layers() {
    let mut draw = Draw::new(54);
    let (mut joined, mut refused) = (0, 0);
    for (m, r) in TEN {
        let joiner = Joiner::new(code_of(m, r));
        let n = joiner.code.n;
        for j in 0..joiner.code.m {
            let (configuration, bch) = joiner.drawn(&mut draw);
            let own = &bch[j * n..(j + 1) * n];
            let moved = |leader: u32| own.iter().zip(bits(n, leader)).map(|(a, b)| a ^ b).collect::<Vec<u8>>();
            let mut layers: Vec<Vec<u8>> = joiner.leaders.iter().map(|l| moved(l.1)).collect();
            for _ in 0..1_000 {
                let mut codeword = encoded(&joiner.code, &draw.word(n - joiner.code.roots, 1));
                codeword.rotate_right(draw.below(n));
                layers.push(codeword);
            }
            for (layer, name) in layers.iter().flat_map(|layer| names(m, r).into_iter().map(move |name| (layer, name))) {
                let mut edited = bch.clone();
                edited[j * n..(j + 1) * n].copy_from_slice(layer);
                match joiner.same(name, configuration, &edited) {
                    Ok(_) => joined += 1,
                    Err(refusal) => {
                        assert_eq!(refusal, Refusal::NoBchWord);
                        refused += 1;
                    }
                }
            }
        }
    }
    println!("compared: layers of every coset, and codewords for a layer: {joined} joined, {refused} refused");
}

/// Tuples with zero BCH words: for the codes of seven symbols every one of syndromes and two other numbers, for those of fifteen drawn ones.
#[test]
fn configurations() {
    let mut draw = Draw::new(53);
    let (mut valid, mut refused) = (0, 0);
    for (m, r) in TEN {
        let joiner = Joiner::new(code_of(m, r));
        let (code, size) = (&joiner.code, joiner.size() as u16);
        let zeros = vec![0; code.bits()];
        let mut joins = |configuration: [u16; 4]| {
            let mut answers = names(m, r).into_iter().map(|name| joiner.same(name, configuration, &zeros));
            let answer = answers.next().expect("a name");
            assert!(answers.all(|other| other == answer));
            match &answer {
                Ok(word) => assert!(is_codeword(code, word), "({m}, {r}), {configuration:?}"),
                Err(refusal) => assert_eq!(*refusal, Refusal::Configuration),
            }
            *if answer.is_ok() { &mut valid } else { &mut refused } += 1;
            answer.is_ok()
        };
        if m == 3 {
            let places: Vec<u16> = (0..=size).chain([u16::MAX]).collect();
            let found: Vec<[u16; 3]> = triples(&places).into_iter().filter(|[a, b, c]| joins([*a, *b, *c, 0])).collect();
            assert_eq!(found.len() * joiner.bch_words().len().pow(3), 8usize.pow(7 - r));
            for ([a, b, c], d) in found.iter().flat_map(|f| [1, size - 1, size, u16::MAX].map(|d| (f, d))) {
                assert!(!joins([*a, *b, *c, d]));
            }
            continue;
        }
        for _ in 0..1_000 {
            let (own, _) = joiner.drawn(&mut draw);
            assert!(joins(own));
            for j in 0..4 {
                let with = |s: u16| std::array::from_fn(|i| if i == j { s } else { own[i] });
                assert!(!joins(with(own[j] ^ 1 << draw.below(16))));
                assert!(!joins(with(own[j] + size)));
                assert!(!joins(with(u16::MAX)));
                joins(with(draw.below(usize::from(size)) as u16));
                joins(std::array::from_fn(|_| draw.below(usize::from(size)) as u16));
            }
        }
    }
    println!(
        "compared: {valid} configurations joined with zero BCH words, {refused} other tuples refused, with m = 3 every one of syndromes"
    );
}

/// The configurations on record, with the BCH words of their words.
#[test]
fn recorded_parts() {
    let first = [1, 0, 1, 0, 0, 0, 1, 1, 1, 0, 1, 0, 0, 0, 0, 0, 0, 0, 0, 0, 0];
    let second = [1, 1, 1, 0, 0, 1, 0, 0, 0, 1, 0, 1, 1, 1, 1, 0, 1, 1, 1, 0, 0];
    let mut word = [0; 7];
    assert_eq!(tugzeck::join(1, [5, 3, 2, 0], &first, &mut word), Ok(()));
    assert_eq!(word, [3, 6, 1, 0, 0, 0, 0]);
    assert_eq!(tugzeck::join(1, [7, 4, 1, 0], &second, &mut word), Ok(()));
    assert_eq!(word, [1, 1, 5, 4, 6, 2, 2]);
}
