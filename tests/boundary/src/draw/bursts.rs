//! Words for bursts and games: of drawn codebooks, all words of small ones,
//! and words by the kind of their answer.

use reference::burst::MOST_WORDS;
use reference::generate::{self, Random};

use super::{received, seed, Book, Shelf};
use crate::game::Mixed;

/// The letters of the kinds.
pub const KINDS: [char; 4] = ['C', 'M', 'S', 'X'];

/// A word of any sort, a code word often.
pub fn word(book: &Book, random: &mut Random) -> Vec<u8> {
    match random.below(4) {
        0 => generate::code_word(&book.parts, random),
        _ => received(book, random),
    }
}

/// Codebooks with every L, I and D, and light ones as often, until there were
/// so many or their trials took so many products of symbols, which each tells.
pub fn on_books(
    test: u8,
    (s, p): (u8, u8),
    most: u32,
    products: usize,
    mut trial: impl FnMut(u64, &Book, &mut Random) -> usize,
) {
    let mut random = Random::new(seed(test, s, p, u32::MAX));
    let shelf = Shelf::new(s, p, 60, &mut random);
    let mut spent = 0;
    for number in 0..most {
        if spent > products {
            break;
        }
        let seed = seed(test, s, p, number);
        let mut random = Random::new(seed);
        let book = match number % 2 {
            0 => shelf.take(random.between(1, 32), 100_000, &mut random),
            _ => shelf.light(&mut random),
        };
        spent += trial(seed, &book, &mut random);
    }
}

/// The s and p of `every_small`.
pub const SMALL: [&str; 3] = ["2 1", "2 2", "3 1"];

/// All words of small codebooks, up to 4 at a time.
pub fn every_small(test: u8, mut trial: impl FnMut(u64, &Book, &[Vec<u8>], &mut Random)) {
    for (s, p, most, count) in [(2, 1, 4, 2), (2, 2, 2, 4), (3, 1, 2, 2)] {
        for number in 0..count {
            let seed = seed(test, s, p, number);
            let mut random = Random::new(seed);
            let any = Book::any(s, p, &mut random);
            let (n, q) = (any.parts.n(), usize::from(any.parts.q()));
            let (i, d) = (*random.pick(&[1, 2, 3]), random.between(1, n) as u8);
            let book = any.with(any.parts.l(), i, d);
            for m in 1..=most {
                for number in 0..q.pow((n * m) as u32) {
                    let symbol = |at: usize| (number / q.pow(at as u32) % q) as u8;
                    let word = |m: usize| (0..n).map(|j| symbol(n * m + j)).collect();
                    let words: Vec<Vec<u8>> = (0..m).map(word).collect();
                    trial(seed, &book, &words, &mut random);
                }
            }
        }
    }
}

/// Words of a codebook by the kind of their answer, in the order of `KINDS`.
pub struct Pool([Vec<Vec<u8>>; 4]);

impl Pool {
    /// Words of so many bursts, sorted by what the library says of them.
    pub fn new(seed: u64, book: &Book, bursts: usize, random: &mut Random) -> Pool {
        let mut pool = Pool(Default::default());
        for _ in 0..bursts {
            let words: Vec<Vec<u8>> = (0..MOST_WORDS).map(|_| word(book, random)).collect();
            let records = Mixed::new(seed, book, &words).burst().records;
            for (record, word) in records.iter().zip(words) {
                let kind = KINDS.iter().position(|&kind| kind == record[0].into());
                pool.0[kind.expect("a kind")].push(word);
            }
        }
        pool
    }

    /// So many words of the kinds given; none where the pool has none.
    pub fn words(&self, kinds: &str, count: usize, random: &mut Random) -> Option<Vec<Vec<u8>>> {
        let sorts = KINDS.iter().zip(&self.0);
        let wanted = sorts.filter(|(kind, words)| kinds.contains(**kind) && !words.is_empty());
        let wanted: Vec<&Vec<Vec<u8>>> = wanted.map(|(_, words)| words).collect();
        let word = |_| {
            let words = wanted[random.below(wanted.len())];
            words[random.below(words.len())].clone()
        };
        (!wanted.is_empty()).then(|| (0..count).map(word).collect())
    }
}
