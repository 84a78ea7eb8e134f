//! One error at every place of words of every length: a round's sum changes
//! each of its packed places and each of its single ones.

use boundary::compare::Trial;
use boundary::draw::{self, Book};
use boundary::tally::Tally;
use boundary::{changed, kind, Operation};
use reference::generate::{self, Random, SHAPES};

/// How many codebooks are drawn to find one that mends an error.
const TRIES: usize = 40;

/// The most products of symbols that a decode takes on the other side.
const PRODUCTS: usize = 300_000;

/// How the place of a word of n symbols is added.
fn way(n: usize, place: usize) -> &'static str {
    if place < n / 8 * 8 {
        "packed"
    } else {
        "single"
    }
}

/// A code word with one error, on both sides: whether it is mended.
fn mends(book: &Book, place: usize, random: &mut Random) -> bool {
    let parts = &book.parts;
    let sent = generate::code_word(parts, random);
    let mut word = sent.clone();
    word[place] ^= 1 + random.below(usize::from(parts.q()) - 1) as u8;
    let held = draw::bytes(parts.n(), random);
    let trial = Trial {
        seed: 0,
        operation: Operation::Decode,
        book: &book.bytes,
        input: &word,
        held: &held,
    };
    let given = trial.compare();
    kind(given.result) == 'M' && changed(given.result) == 1 && given.output == sent
}

/// A codebook of the shape that mends an error at place 0 in one round.
fn mending(s: u8, p: u8, random: &mut Random) -> Option<Book> {
    let mut stored: Vec<Book> = Book::stored(s, p).collect();
    (0..TRIES).find_map(|_| {
        let book = stored.pop().unwrap_or_else(|| Book::any(s, p, random));
        let l = PRODUCTS / book.products(1, 1).max(1);
        let book = book.with(l.clamp(1, book.parts.l()), 1, 1);
        mends(&book, 0, random).then_some(book)
    })
}

#[test]
fn an_error_at_every_place() {
    let lengths = [3, 7, 15, 31, 63, 127, 255];
    let packed = lengths[2..].iter().map(|n| format!("packed {n}"));
    let single = lengths.iter().map(|n| format!("single {n}"));
    let mut tally = Tally::new("an error at every place").due("place", packed.chain(single));
    for (s, p) in SHAPES {
        let random = &mut Random::new(draw::seed(12, s, p, 0));
        let Some(book) = mending(s, p, random) else {
            tally.count("no codebook", format!("s {s} p {p}"));
            continue;
        };
        let n = book.parts.n();
        for place in 0..n {
            // What is mended at place 0 is mended at every other.
            assert!(mends(&book, place, random), "s {s} p {p}, place {place}");
            tally.tried();
            tally.count("place", format!("{} {n}", way(n, place)));
        }
    }
    tally.finish(3);
}
