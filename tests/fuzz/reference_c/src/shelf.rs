//! Accepted codebooks of every s and p, by number.

use reference::books;
use reference::codebook::check;
use reference::generate::{self, Random, SHAPES};

/// The scope's codebooks, and those with another D that its cases use.
const BY_HAND: usize = 6;

/// How many of each s and p of the short form are drawn.
const EACH: usize = 12;

/// How many shapes the short form has.
const SHORT: usize = 13;

/// How many of each s and p of the long form there are: few, since the second
/// implementation is slow with them.
const EACH_LONG: usize = 6;

/// The most products of symbols that a decode may take.
const MOST: usize = 250_000;

/// Up to which number they are drawn, and how many there are.
const DRAWN: usize = BY_HAND + EACH * SHORT;
const BOOKS: usize = DRAWN + EACH_LONG * (SHAPES.len() - SHORT);

/// The codebook of a number, the same one every time.
pub fn book(number: usize) -> Option<Vec<u8>> {
    match number {
        0 => Some(books::a()),
        1 => Some(books::b()),
        2 => Some(books::c()),
        3 => Some(books::a_with(6)),
        4 => Some(books::a_with(7)),
        5 => Some(books::c_with(3)),
        BY_HAND..DRAWN => Some(drawn(number - BY_HAND)),
        DRAWN..BOOKS => Some(long(number - DRAWN)),
        _ => None,
    }
}

/// A codebook of the generator. Half of them have short messages and few
/// rounds with D above 1: those take more than one round to mend a word.
fn drawn(number: usize) -> Vec<u8> {
    let (s, p) = SHAPES[number % SHORT];
    let which = number / SHORT;
    let products = if which == 0 { 150_000 } else { 25_000 };
    let mut random = Random::new(number as u64);
    loop {
        let book = generate::book(s, p, &mut random).expect("s and p of a codebook");
        let Some(mut book) = cheap(book, products) else {
            continue;
        };
        let parts = check(&book).expect("an accepted codebook");
        if which.is_multiple_of(2) {
            return book;
        }
        if 2 * parts.k() <= parts.n() {
            let limits = parts.form().limits();
            book[limits + 1] = random.between(2, 12) as u8;
            book[limits + 2] = random.between(2, parts.n().min(5)) as u8;
            return book;
        }
    }
}

/// The codebook with the first of its dual words, so that a round takes at
/// most so many products of symbols, and with an I that the decode ends in
/// time; none where one dual word is too many.
fn cheap(mut book: Vec<u8>, products: usize) -> Option<Vec<u8>> {
    let parts = check(&book).expect("an accepted codebook");
    let one = parts.n() * parts.weight() * parts.weight();
    let l = (products / one).min(parts.l());
    if l == 0 {
        return None;
    }
    book.truncate(parts.form().length(l));
    let rounds = &mut book[parts.form().limits() + 1];
    *rounds = (*rounds).min((MOST / (l * one)).clamp(1, 63) as u8);
    Some(book)
}

/// A codebook of the long form: stored ones, whose dual words are light, and
/// others by turns.
fn long(number: usize) -> Vec<u8> {
    let (s, p) = SHAPES[SHORT + number / EACH_LONG];
    let which = number % EACH_LONG;
    let stored: Vec<Vec<u8>> = books::LONG
        .iter()
        .filter(|(_, book)| (book[1], book[2]) == (s, p))
        .filter_map(|(_, book)| cheap(book.to_vec(), 150_000))
        .collect();
    match which {
        0..=2 => stored[which % stored.len()].clone(),
        _ => repeated(s, p, [1, 3, 1][which - 3], [1, 4, 12][which - 3]),
    }
}

/// One symbol in all places. The dual words have 1 at the first places, so
/// many of them, an odd number, and at one more.
fn repeated(s: u8, p: u8, ones: usize, d: u8) -> Vec<u8> {
    let n = (1 << s) - 1;
    let words: Vec<Vec<u8>> = (0..8)
        .map(|place| {
            let mut word = vec![1; ones];
            word.resize(ones + 2 * place, 0);
            word.push(1);
            word
        })
        .collect();
    books::write(s, p, &vec![1; n], 6, d, &words)
}
