//! Buffers of a codebook for calls with M words, refused ones most of all.

use reference::burst::MOST_WORDS;
use reference::generate::{self, Random, SHAPES};
use reference::packed::Record;

use crate::burst::Burst;
use crate::compare::Trial;
use crate::counts::{apply, distinct, names, refused_counts, sets, sizes, Sizes, SORTS};
use crate::draw::{self, Book};
use crate::tally::Tally;
use crate::Operation;

/// The largest buffers of a codebook, of which calls take as much as they
/// want.
pub struct Room {
    pub seed: u64,
    pub book: Book,
    pub symbols: Vec<u8>,
    pub bytes: Vec<u8>,
    pub records: Vec<Record>,
}

impl Room {
    pub fn new(seed: u64, book: Book, random: &mut Random) -> Room {
        let most = 18 * book.parts.n();
        let symbol = |_| random.symbol(0, book.parts.q());
        Room {
            seed,
            symbols: (0..most).map(symbol).collect(),
            bytes: draw::bytes(most, random),
            records: draw::records(3 * 18, random),
            book,
        }
    }

    /// A burst with answers and list of the sizes.
    pub fn burst<'a>(&'a self, words: u32, received: &'a [u8], sizes: [usize; 2]) -> Burst<'a> {
        Burst {
            seed: self.seed,
            book: &self.book.bytes,
            words,
            received,
            answers: &self.bytes[..sizes[0]],
            records: &self.records[..sizes[1]],
        }
    }

    /// A game with messages of the size.
    pub fn game<'a>(&'a self, words: u32, received: &'a [u8], size: usize) -> Trial<'a> {
        Trial {
            seed: self.seed,
            operation: Operation::Game(words),
            book: &self.book.bytes,
            input: received,
            held: &self.bytes[..size],
        }
    }

    /// Sizes of input or answers.
    pub fn sizes(&self, words: u32) -> Sizes {
        let n = self.book.parts.n();
        distinct(sizes(n, words as usize), 18 * n)
    }

    /// Inputs of every size, by its sort, without and with a bad symbol.
    pub fn inputs(&self, words: u32, random: &mut Random) -> Vec<(&'static str, Vec<u8>)> {
        let both = |(sort, size): (&'static str, usize)| {
            let right = self.symbols[..size].to_vec();
            let bad = generate::bad_symbol(right.clone(), self.book.parts.q(), random);
            [(sort, right), (sort, bad)]
        };
        self.sizes(words).into_iter().flat_map(both).collect()
    }

    /// The number that is due by sizes and symbols alone, counted with all
    /// others that apply.
    pub fn due(&self, words: u32, received: &[u8], exact: bool, tally: &mut Tally) -> u8 {
        let numbers = apply(&self.book.parts, words, received, exact);
        tally.tried();
        tally.count("numbers that apply", names(&numbers));
        tally.count("s and p", self.book.shape());
        if numbers.is_empty() {
            tally.count("M, accepted", words);
        }
        numbers.first().copied().unwrap_or(0)
    }

    /// Inputs for the M with a bad symbol at every place in turn, counted.
    /// Each is too long by one symbol.
    pub fn bad_inputs(&self, words: u32, random: &mut Random, tally: &mut Tally) -> Vec<Vec<u8>> {
        let (q, size) = (self.book.parts.q(), self.book.parts.n() * words as usize);
        let input = |place: usize| {
            let mut received = self.symbols[..=size].to_vec();
            received[place] = random.between(q.into(), 255) as u8;
            tally.tried();
            tally.count("M", words);
            tally.count("word", place % words as usize);
            let symbol = if received[place] == q { "q" } else { "above q" };
            tally.count("symbol", symbol);
            tally.count("s and p", self.book.shape());
            received
        };
        (0..size).map(input).collect()
    }
}

/// A tally of calls of every size with every M.
pub fn sizes_tally(title: &'static str) -> Tally {
    Tally::new(title)
        .due("s and p", draw::shapes())
        .due("numbers that apply", sets())
        .due("M, accepted", 1..=MOST_WORDS)
        .due("M, refused", refused_counts(3).map(|(_, name)| name))
        .due("9, input", SORTS)
}

/// Every M, with rooms of two codebooks of every s and p.
pub fn every_count(
    test: u8,
    tally: &mut Tally,
    calls: impl Fn(&Room, u32, &mut Random, &mut Tally),
) {
    for (s, p) in SHAPES {
        for (seed, mut random, book) in draw::quick_books(test, s, p, 2) {
            let room = Room::new(seed, book, &mut random);
            for words in 1..=MOST_WORDS {
                calls(&room, words, &mut random, tally);
            }
            for (words, name) in refused_counts(room.book.parts.n()) {
                calls(&room, words, &mut random, tally);
                tally.count("M, refused", name);
            }
        }
    }
}

/// A tally of calls with a bad symbol at every place.
pub fn places_tally(title: &'static str) -> Tally {
    Tally::new(title)
        .due("s and p", draw::shapes())
        .due("M", 1..=MOST_WORDS)
        .due("word", 0..MOST_WORDS)
        .due("symbol", ["q", "above q"])
}

/// Every M that is accepted, with a room of a codebook of every s and p, and
/// the codebook damaged by 1 to 8.
pub fn every_accepted_count(
    test: u8,
    tally: &mut Tally,
    calls: impl Fn(&Room, u32, &[Vec<u8>], &mut Random, &mut Tally),
) {
    for (s, p) in SHAPES {
        for (seed, mut random, book) in draw::quick_books(test, s, p, 1) {
            let damaged = draw::damaged(&book, &mut random);
            let room = Room::new(seed, book, &mut random);
            for words in 1..=MOST_WORDS {
                calls(&room, words, &damaged, &mut random, tally);
            }
        }
    }
}
