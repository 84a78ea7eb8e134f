//! The ways of damage, and the lengths of a message, so that a test can tell
//! that it met every one.

use reference::form::{Form, LONG, SHORT};
use reference::generate::likeness;
use reference::word;

use crate::draw::Book;

/// All the ways in which a codebook can meet a condition, of either form.
pub const WAYS: [&str; 41] = [
    "1 empty",
    "1 fewer than 4 bytes",
    "1 short",
    "1 no dual word",
    "1 odd",
    "1 long",
    "1 length of the other form",
    "1 byte 3 of the other form",
    "2 first",
    "2 second",
    "2 third",
    "2 dual word",
    "3 s",
    "3 s of the other form",
    "3 p",
    "3 both",
    "4 generator symbol",
    "4 generator place",
    "4 dual word symbol",
    "4 dual word place",
    "5 zero",
    "5 degree",
    "5 lead",
    "5 divisor",
    "6 I",
    "6 D",
    "6 both",
    "7 first place 0",
    "7 later place 0",
    "7 first product",
    "7 later product",
    "7 first weight",
    "7 later weight",
    "7 scaled copy added",
    "7 scaled copy replaced",
    "8 equal copy added",
    "8 equal copy replaced",
    "8 turned copy added",
    "8 turned copy replaced",
    "8 turned and scaled copy added",
    "8 turned and scaled copy replaced",
];

/// Every number that code can return for every sort of length, if nothing is
/// wrong with the codebook.
pub const LENGTHS: [&str; 15] = [
    "0 k is 1",
    "0 one symbol",
    "0 short",
    "0 full",
    "9 length 0",
    "9 k + 1",
    "9 above k + 1",
    "10 k is 1",
    "10 one symbol",
    "10 short",
    "10 full",
    "11 k is 1",
    "11 one symbol",
    "11 short",
    "11 full",
];

/// The sort of a message's length. Where k is 1, one symbol is not short.
pub fn length(k: usize, message: &[u8]) -> &'static str {
    match message.len() {
        0 => "length 0",
        1 if k == 1 => "k is 1",
        length if length == k => "full",
        1 => "one symbol",
        length if length < k => "short",
        length if length == k + 1 => "k + 1",
        _ => "above k + 1",
    }
}

/// In which way an accepted codebook was damaged so that the condition holds.
pub fn way(book: &Book, fault: u8, damaged: &[u8]) -> String {
    let (n, form) = (book.parts.n(), book.parts.form());
    let limits = form.limits();
    let way = match fault {
        1 => length_way(form, damaged),
        2 => match (damaged[0], damaged[3], damaged[limits]) {
            (1, kind, 3) if kind == form.generator => "dual word",
            (1, kind, _) if kind == form.generator => "third",
            (1, _, _) => "second",
            _ => "first",
        },
        3 => match (damaged[1], damaged[2]) {
            (s, _) if form.sizes.contains(&s) => "p",
            (2..=8, 1..=6) => "s of the other form",
            (_, 1..=6) => "s",
            (_, _) => "both",
        },
        4 => place_way(book, damaged),
        5 => match word::degree(&damaged[4..limits]) {
            None => "zero",
            Some(0) => "degree",
            Some(lead) if damaged[4 + lead] != 1 => "lead",
            Some(_) => "divisor",
        },
        6 => match ((1..=63).contains(&damaged[limits + 1]), damaged[limits + 2]) {
            (true, _) => "D",
            (false, d) if (1..=n).contains(&d.into()) => "I",
            (false, _) => "both",
        },
        7 => return format!("7 {}", dual_word_way(book, damaged)),
        _ => return format!("8 {}", copy_way(book, damaged)),
    };
    format!("{fault} {way}")
}

/// Which length a codebook of the form has that is none of the form's.
fn length_way(form: &Form, damaged: &[u8]) -> &'static str {
    let other = if form == &SHORT { &LONG } else { &SHORT };
    match damaged.len() {
        0 => "empty",
        1..4 => "fewer than 4 bytes",
        _ if damaged[3] == other.generator => "byte 3 of the other form",
        length if length == form.length(0) => "no dual word",
        length if other.count(length).is_some() => "length of the other form",
        length if length < form.length(1) => "short",
        length if length > form.length(32) => "long",
        _ => "odd",
    }
}

/// In which body a symbol is q or more, or a place from n on is not zero.
fn place_way(book: &Book, damaged: &[u8]) -> &'static str {
    let (n, q, form) = (book.parts.n(), book.parts.q(), book.parts.form());
    let symbol = |body: &[u8]| body[..n].iter().any(|&symbol| symbol >= q);
    let place = |body: &[u8]| body[n..].iter().any(|&byte| byte != 0);
    let generator = &damaged[4..form.limits()];
    if symbol(generator) {
        "generator symbol"
    } else if place(generator) {
        "generator place"
    } else if bodies(form, damaged).any(symbol) {
        "dual word symbol"
    } else {
        "dual word place"
    }
}

/// The bodies of the dual words.
fn bodies<'a>(form: &Form, book: &'a [u8]) -> impl Iterator<Item = &'a [u8]> {
    let records = book[form.dual_words()..].chunks(form.record());
    records.map(|record| &record[1..])
}

/// The ways in which a dual word can be a copy that condition 8 finds.
pub const COPIES: [&str; 3] = ["equal", "turned", "turned and scaled"];

/// In which way one dual word is a copy of another.
pub fn copy(book: &Book, damaged: &[u8]) -> Option<&'static str> {
    let (field, n, form) = (book.parts.field(), book.parts.n(), book.parts.form());
    let words: Vec<&[u8]> = bodies(form, damaged).map(|body| &body[..n]).collect();
    (0..words.len())
        .flat_map(|one| (0..one).map(move |other| (one, other)))
        .find(|&(one, other)| word::alike(field, words[one], words[other]))
        .and_then(|(one, other)| likeness(field, words[one], words[other]))
}

/// The same, and whether it came in the place of another dual word.
fn copy_way(book: &Book, damaged: &[u8]) -> String {
    let added = match damaged.len() > book.bytes.len() {
        true => "added",
        false => "replaced",
    };
    format!("{} copy {added}", copy(book, damaged).unwrap_or("no"))
}

/// Which of the conditions of a dual word fails, in the first one or in a
/// later one, or that it is a scaled copy. Of two weights either may be the
/// wrong one: the later.
fn dual_word_way(book: &Book, damaged: &[u8]) -> String {
    let (field, n, form) = (book.parts.field(), book.parts.n(), book.parts.form());
    let copy = copy_way(book, damaged);
    if copy.starts_with("scaled") {
        return copy;
    }
    let words: Vec<&[u8]> = bodies(form, damaged).map(|body| &body[..n]).collect();
    let product = |b: &[u8]| word::weight(&word::product(field, b, &damaged[4..4 + n]));
    let which = |index| if index == 0 { "first" } else { "later" };
    if let Some(index) = words.iter().position(|b| b[0] != 1) {
        return format!("{} place 0", which(index));
    }
    if let Some(index) = words.iter().position(|b| product(b) != 0) {
        return format!("{} product", which(index));
    }
    let weights: Vec<usize> = words.iter().map(|b| word::weight(b)).collect();
    let alike = weights[1..].iter().all(|&weight| weight == weights[1]);
    format!("{} weight", which(usize::from(words.len() == 2 || !alike)))
}
