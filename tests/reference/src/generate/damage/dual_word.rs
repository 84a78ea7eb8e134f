//! Fault 7: place 0, the product with g, or the weight of any dual word.

use super::{copy, Book, Random, GENERATOR};
use crate::generate::copies::from_place;
use crate::word;

/// How often a word that meets all but one condition is looked for.
const TRIES: usize = 32;

/// One of the three conditions of a dual word broken, the others left to
/// hold where the code has a word for it.
pub fn damage(book: &mut Book, random: &mut Random) {
    match random.below(4) {
        0 => place_0(book, random),
        1 => product(book, random),
        2 => weight(book, random),
        _ => scaled_copy(book, random),
    }
}

/// Where any dual word lies.
fn any_word(book: &Book, random: &mut Random) -> std::ops::Range<usize> {
    let from = book.form.body(random.between(0, book.count - 1));
    from..from + book.n
}

/// Place 0 not 1: the word scaled, the word turned, or the place alone.
fn place_0(book: &mut Book, random: &mut Random) {
    let at = any_word(book, random);
    let q = book.field.q();
    let word = &mut book.bytes[at];
    let zero = word.iter().position(|&symbol| symbol == 0);
    match (random.below(3), zero) {
        (0, _) if q > 2 => {
            let c = random.symbol(2, q);
            let scaled = word::scale(book.field, word, c);
            word.copy_from_slice(&scaled);
        }
        (1, Some(zero)) => word.rotate_left(zero),
        _ => {}
    }
    if word[0] == 1 {
        word[0] = match random.symbol(1, q) {
            1 => 0,
            symbol => symbol,
        };
    }
}

/// A dual word and the same times a symbol other than 1, which takes a third
/// symbol. The two are alike, but place 0 is looked at before that.
fn scaled_copy(book: &mut Book, random: &mut Random) {
    let q = book.field.q();
    if q == 2 {
        return place_0(book, random);
    }
    let one = random.between(0, book.count - 1);
    let word = copy::dual_word(book, one);
    let scaled = word::scale(book.field, &word, random.symbol(2, q));
    copy::put(book, one, &scaled, random);
}

/// The product with g not zero: other nonzero symbols at other places if
/// that can be, and else one place changed.
fn product(book: &mut Book, random: &mut Random) {
    let at = any_word(book, random);
    let (field, q) = (book.field, book.field.q());
    let g = book.bytes[GENERATOR..GENERATOR + book.n].to_vec();
    let whole = |word: &[u8]| word::weight(&word::product(field, word, &g)) == 0;
    let word = &mut book.bytes[at];
    for _ in 0..TRIES {
        let mut changed = word.to_vec();
        if random.once_in(2) {
            random.shuffle(&mut changed[1..]);
        } else {
            let nonzero = changed[1..].iter_mut().filter(|symbol| **symbol != 0);
            nonzero.for_each(|symbol| *symbol = random.symbol(1, q));
        }
        if !whole(&changed) {
            return word.copy_from_slice(&changed);
        }
    }
    if whole(word) {
        let place = random.between(1, word.len() - 1);
        word[place] = field.sum(word[place], random.symbol(1, q));
    }
}

/// The weight not that of the others, of which there is at least one: a
/// multiple of (x^n - 1) / g if there is one, and else one place changed.
fn weight(book: &mut Book, random: &mut Random) {
    if book.count == 1 {
        let from = book.form.dual_words();
        book.bytes.extend_from_within(from..);
        book.count = 2;
    }
    let at = any_word(book, random);
    let (n, field, q) = (book.n, book.field, book.field.q());
    let g = &book.bytes[GENERATOR..GENERATOR + n];
    let division = word::divide(field, &word::whole(n), g);
    let word = &mut book.bytes[at];
    let weight = word::weight(word);
    for _ in 0..TRIES {
        let Some(division) = &division else { break };
        let factor: Vec<u8> = (0..n).map(|_| random.symbol(0, q)).collect();
        let multiple = word::product(field, &factor, &division.quotient);
        let Some(place) = multiple.iter().position(|&symbol| symbol != 0) else {
            continue;
        };
        let Some(multiple) = from_place(field, &multiple, place) else {
            continue;
        };
        if word::weight(&multiple) != weight {
            return word.copy_from_slice(&multiple);
        }
    }
    let place = random.between(1, n - 1);
    word[place] = u8::from(word[place] == 0);
}
