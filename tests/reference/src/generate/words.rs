//! Messages and words for an accepted codebook.

use super::random::Random;
use crate::codebook::Codebook;
use crate::word;

/// Symbols of every sort, now and then few of them nonzero.
pub fn arbitrary(length: usize, q: u8, random: &mut Random) -> Vec<u8> {
    let sparse = random.once_in(4);
    (0..length)
        .map(|_| match sparse && !random.once_in(4) {
            true => 0,
            false => random.symbol(0, q),
        })
        .collect()
}

/// A message of k symbols, a full one.
pub fn message(book: &Codebook, random: &mut Random) -> Vec<u8> {
    arbitrary(book.k(), book.q(), random)
}

/// A message of 1 to k symbols, both ends met often.
pub fn short_message(book: &Codebook, random: &mut Random) -> Vec<u8> {
    arbitrary(random.between(1, book.k()), book.q(), random)
}

/// A multiple of g.
pub fn code_word(book: &Codebook, random: &mut Random) -> Vec<u8> {
    let message = message(book, random);
    word::product(book.field(), book.generator(), &message)
}

/// A code word with errors in just so many places, at most n.
pub fn damaged_code_word(book: &Codebook, errors: usize, random: &mut Random) -> Vec<u8> {
    let mut word = code_word(book, random);
    let mut places: Vec<usize> = (0..book.n()).collect();
    random.shuffle(&mut places);
    for place in places.into_iter().take(errors) {
        let error = random.symbol(1, book.q());
        word[place] = book.field().sum(word[place], error);
    }
    word
}

/// The symbols given with one or more of them q or more; none if empty.
pub fn bad_symbol(mut symbols: Vec<u8>, q: u8, random: &mut Random) -> Vec<u8> {
    let count = random.between(1, 3);
    for _ in 0..count.min(symbols.len()) {
        let place = random.between(0, symbols.len() - 1);
        symbols[place] = random.between(usize::from(q), 255) as u8;
    }
    symbols
}

/// The symbols given cut or lengthened, never as long as they were. No word
/// may be; a message that is cut may still be coded.
pub fn wrong_length(mut symbols: Vec<u8>, q: u8, random: &mut Random) -> Vec<u8> {
    let length = symbols.len();
    if random.once_in(2) && length > 0 {
        symbols.truncate(random.between(0, length - 1));
    } else {
        let more = random.between(1, 70);
        symbols.extend((0..more).map(|_| random.symbol(0, q)));
    }
    symbols
}

/// A word of any sort: mostly of n symbols, code words, code words with 0
/// to n errors (few more often) and arbitrary ones; now and then refused.
pub fn any_word(book: &Codebook, random: &mut Random) -> Vec<u8> {
    match random.below(16) {
        0 => code_word(book, random),
        1..=7 => {
            let few = random.between(0, book.n().min(4));
            damaged_code_word(book, few, random)
        }
        8..=10 => {
            let errors = random.between(0, book.n());
            damaged_code_word(book, errors, random)
        }
        11..=13 => arbitrary(book.n(), book.q(), random),
        14 => bad_symbol(code_word(book, random), book.q(), random),
        _ => wrong_length(code_word(book, random), book.q(), random),
    }
}

/// A word of any sort that no operation but read refuses: of n symbols.
pub fn good_word(book: &Codebook, random: &mut Random) -> Vec<u8> {
    loop {
        let word = any_word(book, random);
        if word.len() == book.n() && word.iter().all(|&symbol| symbol < book.q()) {
            return word;
        }
    }
}

/// A message of any sort: full, short, with bad symbols, too long, or none.
pub fn any_message(book: &Codebook, random: &mut Random) -> Vec<u8> {
    let full = message(book, random);
    let short = short_message(book, random);
    match random.below(8) {
        0 => bad_symbol(full, book.q(), random),
        1 => bad_symbol(short, book.q(), random),
        2 => wrong_length(full, book.q(), random),
        3 => Vec::new(),
        4 | 5 => short,
        _ => full,
    }
}
