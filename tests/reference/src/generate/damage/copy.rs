//! Fault 8, a word that is alike to a dual word of the book, and how a copy
//! comes into a book.

use super::{Book, Random};
use crate::generate::copies::from_place;

/// The most dual words a book can have.
const MOST: usize = 32;

/// A dual word and an equal one, a turned one, or one turned and multiplied
/// by another symbol than 1, where the word has a place for it.
pub fn damage(book: &mut Book, random: &mut Random) {
    let one = random.between(0, book.count - 1);
    let word = dual_word(book, one);
    let way = random.below(3);
    let places: Vec<usize> = (1..book.n)
        .filter(|&place| match way {
            0 => false,
            1 => word[place] == 1,
            _ => word[place] > 1,
        })
        .collect();
    let place = match places.len() {
        0 => 0,
        count => places[random.below(count)],
    };
    let copy = from_place(book.field, &word, place).unwrap_or(word);
    put(book, one, &copy, random);
}

/// The n places of a dual word.
pub fn dual_word(book: &Book, index: usize) -> Vec<u8> {
    let from = book.form.body(index);
    book.bytes[from..from + book.n].to_vec()
}

/// A copy of dual word `one` added to the book, or put in the place of any
/// other dual word.
pub fn put(book: &mut Book, one: usize, copy: &[u8], random: &mut Random) {
    let added = book.count == 1 || book.count < MOST && random.once_in(3);
    let other = if added {
        book.bytes.push(book.form.dual_word);
        let end = book.bytes.len() + book.form.width;
        book.bytes.resize(end, 0);
        book.count += 1;
        book.count - 1
    } else {
        (one + random.between(1, book.count - 1)) % book.count
    };
    let to = book.form.body(other);
    book.bytes[to..to + book.n].copy_from_slice(copy);
}
