//! Books A, B, C and E of the scope, and how a book is written down.

use crate::form::Form;

/// Symbols as the scope prints them, one decimal digit each; other
/// characters are left out.
pub fn symbols(digits: &str) -> Vec<u8> {
    digits
        .chars()
        .filter_map(|digit| digit.to_digit(10))
        .map(|digit| digit as u8)
        .collect()
}

/// The records in their order, in the form that has the s, the bodies filled
/// up with zeros.
pub fn write(s: u8, p: u8, g: &[u8], i: u8, d: u8, dual_words: &[Vec<u8>]) -> Vec<u8> {
    let form = Form::with_size(s);
    let mut book = vec![1, s, p, form.generator];
    book.extend(body(form, g));
    book.extend([3, i, d]);
    for dual_word in dual_words {
        book.push(form.dual_word);
        book.extend(body(form, dual_word));
    }
    book
}

fn body<'a>(form: &Form, word: &'a [u8]) -> impl Iterator<Item = u8> + 'a {
    let zeros = std::iter::repeat(0);
    word.iter().copied().chain(zeros).take(form.width)
}

/// "Book A: s 3, p 1, g 1101, I 3, D 1, dual word 1110100", with another D.
pub fn a_with(d: u8) -> Vec<u8> {
    write(3, 1, &symbols("1101"), 3, d, &[symbols("1110100")])
}

/// Book A.
pub fn a() -> Vec<u8> {
    a_with(1)
}

/// "Book B: s 2, p 2, g 111, I 3, D 1, dual word 110", with another D.
pub fn b_with(d: u8) -> Vec<u8> {
    write(2, 2, &symbols("111"), 3, d, &[symbols("110")])
}

/// Book B.
pub fn b() -> Vec<u8> {
    b_with(1)
}

/// "Book C: s 2, p 2, g 21, I 3, D 2, dual word 132", with another D.
pub fn c_with(d: u8) -> Vec<u8> {
    write(2, 2, &symbols("21"), 3, d, &[symbols("132")])
}

/// Book C.
pub fn c() -> Vec<u8> {
    c_with(2)
}

/// Book E's generator as a word: the quotient of x^127 - 1 by 1 + x + x^7.
pub fn generator_e() -> Vec<u8> {
    symbols(
        "11111110101010011001110111010010 11000110111101101011011001001000
         11100001011111001010111001101000 1001111000101000011000001000000",
    )
}

/// Book E, of the long form: "s 7, p 1, I 3, D 2, dual word 11000001".
pub fn e() -> Vec<u8> {
    write(7, 1, &generator_e(), 3, 2, &[symbols("11000001")])
}

/// The stored codebooks of the long form, by name; `tests/find_long_books.py`
/// says how they were found.
pub const LONG: [(&str, &[u8]); 8] = [
    ("n127p1", include_bytes!("../../books/n127p1.book")),
    (
        "n127p1_high",
        include_bytes!("../../books/n127p1_high.book"),
    ),
    ("n255p1", include_bytes!("../../books/n255p1.book")),
    (
        "n255p1_lines",
        include_bytes!("../../books/n255p1_lines.book"),
    ),
    ("n255p2", include_bytes!("../../books/n255p2.book")),
    ("n255p2_two", include_bytes!("../../books/n255p2_two.book")),
    ("n255p4", include_bytes!("../../books/n255p4.book")),
    (
        "n255p4_whole",
        include_bytes!("../../books/n255p4_whole.book"),
    ),
];

/// A stored codebook of the long form.
pub fn long(name: &str) -> Vec<u8> {
    let found = LONG.iter().find(|(known, _)| *known == name);
    found.map_or(Vec::new(), |(_, book)| book.to_vec())
}
