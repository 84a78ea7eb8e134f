//! What the tests draw: codebooks with the L, I and D wanted, and buffers.

pub mod bursts;

use reference::books;
use reference::codebook::{check, Codebook};
use reference::generate::{self, Random, SHAPES};
use reference::packed::Record;

/// The seed of a trial: a number for the test, s, p, and the trial's number.
pub fn seed(test: u8, s: u8, p: u8, trial: u32) -> u64 {
    let [a, b, c, d] = trial.to_be_bytes();
    u64::from_be_bytes([0, test, s, p, a, b, c, d])
}

/// Any bytes, for what a buffer holds before it is written.
pub fn bytes(size: usize, random: &mut Random) -> Vec<u8> {
    (0..size).map(|_| random.byte()).collect()
}

/// The same for a list of records.
pub fn records(size: usize, random: &mut Random) -> Vec<Record> {
    (0..size).map(|_| [(); 3].map(|()| random.byte())).collect()
}

/// A size that need not be the exact one, but often is nearly.
pub fn size(exact: usize, random: &mut Random) -> usize {
    let any = random.between(0, 2 * exact + 8);
    let near = [exact.saturating_sub(1), exact + 1, 2 * exact];
    *random.pick(&[0, near[0], near[1], near[2], 63, 255, any])
}

/// The names of all s and p.
pub fn shapes() -> [String; 17] {
    SHAPES.map(|(s, p)| format!("{s} {p}"))
}

/// A codebook's bytes and its parts.
#[derive(Clone, Debug)]
pub struct Book {
    pub bytes: Vec<u8>,
    pub parts: Codebook,
}

impl Book {
    pub fn new(bytes: Vec<u8>) -> Book {
        let parts = check(&bytes).expect("an accepted codebook");
        Book { bytes, parts }
    }

    /// An accepted codebook of the s and p.
    pub fn any(s: u8, p: u8, random: &mut Random) -> Book {
        Book::new(generate::book(s, p, random).expect("s and p of a codebook"))
    }

    /// The stored codebooks of the s and p: all of the long form.
    pub fn stored(s: u8, p: u8) -> impl Iterator<Item = Book> {
        let all = books::LONG.into_iter();
        all.map(|(_, bytes)| Book::new(bytes.to_vec()))
            .filter(move |book| (book.parts.s(), book.parts.field().p()) == (s, p))
    }

    /// s and p, as the tests name them.
    pub fn shape(&self) -> String {
        format!("{} {}", self.parts.s(), self.parts.field().p())
    }

    /// The same with the first so many dual words, and other I and D.
    pub fn with(&self, l: usize, i: u8, d: u8) -> Book {
        let form = self.parts.form();
        let mut bytes = self.bytes[..form.length(l)].to_vec();
        let limits = form.limits();
        bytes[limits + 1..limits + 3].copy_from_slice(&[i, d]);
        Book::new(bytes)
    }

    /// How many products of symbols so many rounds with so many dual words
    /// take where a matrix is made as the scope says it: what the time of
    /// a decode goes by.
    pub fn products(&self, l: usize, rounds: u8) -> usize {
        let weight = self.parts.weight();
        l * weight * weight * self.parts.n() * usize::from(rounds)
    }
}

/// A word of n symbols with errors: few, somewhat more than D, or any number;
/// now and then an arbitrary one.
pub fn received(book: &Book, random: &mut Random) -> Vec<u8> {
    let n = book.parts.n();
    let d = usize::from(book.parts.most_places());
    let errors = match random.below(8) {
        0 => random.between(0, n),
        1..=3 => random.between(1, n.min(4)),
        _ => n.min(d + random.below(3)),
    };
    match random.below(8) {
        0 => generate::arbitrary(n, book.parts.q(), random),
        _ => generate::damaged_code_word(&book.parts, errors, random),
    }
}

/// I or D: 1, the most, any, and often a small one.
fn limit(most: usize, random: &mut Random) -> u8 {
    let small = most.min(2 + random.below(4));
    let any = random.between(1, most);
    *random.pick(&[1, most, any, small, small]) as u8
}

/// How often a codebook with the L wanted is looked for.
const TRIES: usize = 200;

/// Codebooks of one s and p, to be taken with the L, I and D wanted.
#[derive(Clone, Debug)]
pub struct Shelf {
    any: Vec<Book>,
    light: Vec<Book>,
}

impl Shelf {
    /// Half of the codebooks are light: short messages, and few or light
    /// dual words. Their rounds take little time, and they are the ones that
    /// take more than one round to mend. Of the long form those are stored,
    /// since one that is drawn seldom is.
    pub fn new(s: u8, p: u8, count: usize, random: &mut Random) -> Shelf {
        let (mut any, mut light) = (Vec::new(), Vec::new());
        light.extend(Book::stored(s, p).filter(|book| book.products(book.parts.l(), 1) < 300_000));
        let wanted = if s > 6 { count / 2 } else { count };
        while any.len() + light.len() < wanted {
            let book = Book::any(s, p, random);
            let short = 2 * book.parts.k() <= book.parts.n();
            let few = book.products(book.parts.l(), 1) <= 60_000;
            let books = if short && few { &mut light } else { &mut any };
            if books.len() < count / 2 {
                books.push(book);
            }
        }
        Shelf { any, light }
    }

    /// A codebook whose decodes take at most so many products: with the L
    /// given if one is found, and else with any.
    pub fn take(&self, l: usize, products: usize, random: &mut Random) -> Book {
        for tries in 0.. {
            let books = *random.pick(&[&self.any, &self.light]);
            let book = &books[random.below(books.len())];
            let most = book.parts.l();
            let any = random.between(1, most);
            let l = if tries < TRIES { l } else { any };
            let (i, d) = (limit(63, random), limit(book.parts.n(), random));
            if l <= most && book.products(l, i) <= products {
                return book.with(l, i, d);
            }
        }
        unreachable!("the tries do not end")
    }

    /// A light codebook with all of its dual words, some rounds, and D above
    /// 1, which is what later rounds need.
    pub fn light(&self, random: &mut Random) -> Book {
        let book = &self.light[random.below(self.light.len())];
        let d = book.parts.n().min(2 + random.below(3));
        book.with(book.parts.l(), random.between(2, 12) as u8, d as u8)
    }

    /// The codebook with the largest columns, L times the weight, among
    /// those whose weight is at most so many parts of n in four.
    pub fn largest(&self, quarters: usize) -> Option<&Book> {
        let column = |book: &&Book| book.parts.l() * book.parts.weight();
        let books = self.any.iter().chain(&self.light);
        let within = |book: &&Book| 4 * book.parts.weight() <= quarters * book.parts.n();
        books.filter(within).max_by_key(column)
    }
}

/// Codebooks of the s and p whose decodes take little time.
pub fn quick_books(
    test: u8,
    s: u8,
    p: u8,
    count: u32,
) -> impl Iterator<Item = (u64, Random, Book)> {
    let mut random = Random::new(seed(test, s, p, u32::MAX));
    let shelf = Shelf::new(s, p, 30, &mut random);
    (0..count).map(move |trial| {
        let seed = seed(test, s, p, trial);
        let mut random = Random::new(seed);
        let book = shelf.take(1 + random.below(4), 200_000, &mut random);
        (seed, random, book)
    })
}

/// The codebook damaged in each way, by 1 to 8.
pub fn damaged(book: &Book, random: &mut Random) -> Vec<Vec<u8>> {
    let damaged = |fault| {
        let mut bytes = book.bytes.clone();
        generate::damage(&mut bytes, fault, random);
        bytes
    };
    (1..=8).map(damaged).collect()
}
