//! The scope, "What the coder declines, in order": every row, the order,
//! and that a refused call writes nothing.

use reference::books::{self, symbols};
use reference::codebook::check;
use reference::coder::{code, read, remainder};
use reference::decode::decode;
use reference::field::{inverse, product, sum};
use reference::matrix::matrix;

/// Each operation refuses by the number and leaves its buffers as they were.
fn refused_code(book: &[u8], message: &[u8], size: usize, number: u8) {
    let mut word = vec![0xa5; size];
    assert_eq!(code(book, message, &mut word), Err(number));
    assert_eq!(word, vec![0xa5; size]);
}

fn refused_read(book: &[u8], word: &[u8], size: usize, number: u8) {
    let mut message = vec![0xa5; size];
    assert_eq!(read(book, word, &mut message), Err(number));
    assert_eq!(message, vec![0xa5; size]);
}

fn refused_remainder(book: &[u8], word: &[u8], size: usize, number: u8) {
    let mut rest = vec![0xa5; size];
    assert_eq!(remainder(book, word, &mut rest), Err(number));
    assert_eq!(rest, vec![0xa5; size]);
}

fn refused_matrix(book: &[u8], word: &[u8], size: usize, number: u8) {
    let mut entries = vec![0xa5a5; size];
    assert_eq!(matrix(book, word, &mut entries), Err(number));
    assert_eq!(entries, vec![0xa5a5; size]);
}

fn refused_decode(book: &[u8], word: &[u8], sizes: (usize, usize), number: u8) {
    let (mut answer, mut entries) = (vec![0xa5; sizes.0], vec![0xa5a5; sizes.1]);
    assert_eq!(decode(book, word, &mut answer, &mut entries), Err(number));
    assert_eq!(answer, vec![0xa5; sizes.0]);
    assert_eq!(entries, vec![0xa5a5; sizes.1]);
}

/// A refused book is refused by every operation, whatever the call is else.
fn refused_book(book: &[u8], number: u8) {
    assert_eq!(check(book).err(), Some(number));
    let (good, bad) = (symbols("1101000"), symbols("29"));
    refused_code(book, &symbols("1000"), 7, number);
    refused_code(book, &bad, 0, number);
    refused_read(book, &good, 4, number);
    refused_read(book, &bad, 0, number);
    refused_remainder(book, &good, 3, number);
    refused_remainder(book, &bad, 0, number);
    refused_matrix(book, &good, 14, number);
    refused_matrix(book, &bad, 13, number);
    refused_decode(book, &good, (7, 14), number);
    refused_decode(book, &bad, (6, 13), number);
}

/// Book A with other parts.
fn a_with(g: &str, i: u8, d: u8, dual_words: &[&str]) -> Vec<u8> {
    let dual_words: Vec<Vec<u8>> = dual_words.iter().map(|b| symbols(b)).collect();
    books::write(3, 1, &symbols(g), i, d, &dual_words)
}

/// A generator for which every word of even weight is a dual word, and four
/// such words, no two alike; the second and the third are mirror images.
const EVEN: &str = "1111111";
const DUAL_WORDS: [&str; 4] = ["1111000", "1110100", "1110010", "1101100"];

/// Book A with that generator and those dual words.
fn with_four() -> Vec<u8> {
    a_with(EVEN, 3, 1, &DUAL_WORDS)
}

fn set(mut book: Vec<u8>, at: usize, byte: u8) -> Vec<u8> {
    book[at] = byte;
    book
}

#[test]
fn the_books_themselves_are_accepted() {
    for (book, l) in [(books::a(), 1), (books::b(), 1), (books::c(), 1)] {
        assert_eq!(check(&book).map(|book| book.l()), Ok(l));
    }
    assert_eq!(check(&with_four()).map(|book| book.l()), Ok(4));
}

#[test]
fn row_1_codebook_length() {
    refused_book(&books::a()[..133], 1);
    for length in [0, 1, 3, 69, 70, 71, 132] {
        refused_book(&books::a()[..length], 1);
    }
    for more in [1, 2, 63, 65, 64 * 32, 64 * 32 + 1, 65402] {
        let mut book = books::a();
        book.resize(134 + more, 0);
        refused_book(&book, 1);
    }
}

#[test]
fn row_2_kind_bytes() {
    refused_book(&set(books::a(), 0, 2), 2);
    for at in [0, 3, 67, 70, 134, 198, 262] {
        for kind in [0, 1, 2, 3, 4, 5, 255] {
            let book = set(with_four(), at, kind);
            // Byte 3 of the long form, which has no book of 326 bytes.
            let number = if (at, kind) == (3, 5) { 1 } else { 2 };
            if book != with_four() {
                refused_book(&book, number);
            }
        }
    }
}

#[test]
fn row_3_s_or_p() {
    refused_book(&set(books::a(), 2, 2), 3);
    for s in [0, 1, 7, 8, 12, 255] {
        refused_book(&set(books::a(), 1, s), 3);
    }
    for p in [0, 4, 5, 6, 7, 9, 255] {
        refused_book(&set(books::a(), 2, p), 3);
    }
    // Every pair but those with s from 2 to 6 and p a divisor of s.
    let mut left = 0;
    for (s, p) in (0..=255).flat_map(|s| (0..=255).map(move |p| (s, p))) {
        let book = set(set(books::a(), 1, s), 2, p);
        let divides = (1..=6).any(|times| times * u32::from(p) == u32::from(s));
        if (2..=6).contains(&s) && divides {
            assert_ne!(check(&book).err(), Some(3), "s {s}, p {p}");
            left += 1;
        } else {
            assert_eq!(check(&book).err(), Some(3), "s {s}, p {p}");
        }
    }
    assert_eq!(left, 13);
}

#[test]
fn row_3_field_operations() {
    for p in [0, 7, 8, 255] {
        for symbol in [0, 1, 255] {
            assert_eq!(sum(p, symbol, 0), Err(3));
            assert_eq!(product(p, symbol, 1), Err(3));
            assert_eq!(inverse(p, symbol), Err(3));
        }
    }
}

#[test]
fn row_4_book_symbols_and_places() {
    refused_book(&a_with("1201", 3, 1, &["1110100"]), 4);
    // Any place of any body, the first and the last word alike.
    for body in [4, 71, 71 + 64, 71 + 128, 71 + 192] {
        for place in 0..63 {
            let wrong = if place < 7 { 2 } else { 1 };
            refused_book(&set(with_four(), body + place, wrong), 4);
            refused_book(&set(with_four(), body + place, 255), 4);
        }
    }
    refused_book(&set(books::b(), 4, 4), 4);
    refused_book(&set(books::c(), 73, 4), 4);
}

#[test]
fn row_5_generator() {
    refused_book(&a_with("101", 3, 1, &["1110100"]), 5);
    for g in ["0000000", "1000000", "0100000", "1111", "0111", "1110001"] {
        refused_book(&a_with(g, 3, 1, &["1110100"]), 5);
    }
    // Leading coefficient 2 and 3: divisors all the same.
    for g in ["222", "333", "32", "03", "2", "3"] {
        let book = books::write(2, 2, &symbols(g), 3, 1, &[symbols("110")]);
        refused_book(&book, 5);
    }
}

#[test]
fn row_6_limits() {
    refused_book(&books::a_with(8), 6);
    for d in [0, 9, 63, 64, 255] {
        refused_book(&books::a_with(d), 6);
    }
    for i in [0, 64, 65, 255] {
        refused_book(&a_with("1101", i, 1, &["1110100"]), 6);
    }
    for (i, d) in [(1, 1), (1, 7), (63, 1), (63, 7)] {
        assert!(check(&a_with("1101", i, d, &["1110100"])).is_ok());
    }
}

#[test]
fn row_7_dual_words() {
    refused_book(&a_with("1101", 3, 1, &["1101000"]), 7);
    // Place 0: a turned word, the zero word, and a scaled one.
    refused_book(&a_with("1101", 3, 1, &["0111010"]), 7);
    refused_book(&a_with("1101", 3, 1, &["0000000"]), 7);
    refused_book(
        &books::write(2, 2, &symbols("111"), 3, 1, &[symbols("220")]),
        7,
    );
    // The product.
    refused_book(&a_with("1101", 3, 1, &["1000000"]), 7);
    refused_book(
        &books::write(2, 2, &symbols("21"), 3, 2, &[symbols("123")]),
        7,
    );
    // The weight alone.
    let even = ["11", "101", "110110"];
    assert!(check(&a_with(EVEN, 3, 1, &even[..2])).is_ok());
    assert!(check(&a_with(EVEN, 3, 1, &even[2..])).is_ok());
    refused_book(&a_with(EVEN, 3, 1, &even), 7);
    refused_book(&a_with(EVEN, 3, 1, &[even[2], even[0]]), 7);
    // A word and the same scaled: alike, but place 0 is looked at before.
    for scaled in ["210", "320"] {
        refused_book(&over_4("231", &["120", scaled]), 7);
    }
    // Any word of the book.
    for index in 0..4 {
        let mut words = DUAL_WORDS;
        words[index] = "0111010";
        refused_book(&a_with(EVEN, 3, 1, &words), 7);
        words[index] = "1101000";
        refused_book(&a_with(EVEN, 3, 1, &words), 7);
        words[index] = "1000000";
        refused_book(&a_with(EVEN, 3, 1, &words), 7);
    }
}

/// A book of length 3 over GF(4), I 3 and D 1.
fn over_4(g: &str, dual_words: &[&str]) -> Vec<u8> {
    let dual_words: Vec<Vec<u8>> = dual_words.iter().map(|b| symbols(b)).collect();
    books::write(2, 2, &symbols(g), 3, 1, &dual_words)
}

#[test]
fn row_8_alike_dual_words() {
    refused_book(&a_with("1101", 3, 1, &["1110100", "1110100"]), 8);
    // The installer's book, the other two turns with 1 at place 0, and all.
    for turned in ["1101001", "1010011", "1001110"] {
        refused_book(&a_with("1101", 3, 1, &["1110100", turned]), 8);
        refused_book(&a_with("1101", 3, 1, &[turned, "1110100"]), 8);
    }
    let all = ["1110100", "1101001", "1010011", "1001110"];
    refused_book(&a_with("1101", 3, 1, &all), 8);
    // Turned and scaled at once: 120 turned by 2 is 201, which times 3 is 103.
    refused_book(&over_4("231", &["120", "103"]), 8);
    refused_book(&over_4("231", &["103", "120"]), 8);
    // 123 turned by 1 is 312, which times 2 is 123: itself, and not 132.
    refused_book(&over_4("111", &["123", "123"]), 8);
    assert!(check(&over_4("111", &["123", "132"])).is_ok());
}

#[test]
fn row_8_any_two_dual_words() {
    for one in 0..4 {
        for other in (0..4).filter(|&other| other != one) {
            for turned_by in 0..7 {
                let mut words = DUAL_WORDS;
                let word = words[other];
                let turned = [&word[7 - turned_by..], &word[..7 - turned_by]].concat();
                words[one] = &turned;
                // Not 1 at place 0 is 7.
                let number = if turned.starts_with('1') { 8 } else { 7 };
                refused_book(&a_with(EVEN, 3, 1, &words), number);
            }
        }
    }
}

#[test]
fn row_9_input_length() {
    let book = books::a();
    refused_code(&book, &symbols("10000"), 7, 9);
    for length in [0, 5, 6, 7, 8, 63, 64, 200] {
        refused_code(&book, &vec![0; length], 7, 9);
    }
    // Up to k, which is 4, no length is.
    for length in 1..=4 {
        assert_eq!(code(&book, &vec![0; length], &mut [0xa5; 7]), Ok(()));
    }
    for length in [0, 1, 4, 6, 8, 63, 300] {
        refused_read(&book, &vec![0; length], 4, 9);
        refused_remainder(&book, &vec![0; length], 3, 9);
        refused_matrix(&book, &vec![0; length], 14, 9);
        refused_decode(&book, &vec![0; length], (7, 14), 9);
    }
}

#[test]
fn row_10_output_size() {
    let book = books::a();
    let word = symbols("1101000");
    refused_matrix(&book, &word, 13, 10);
    for size in [0, 1, 7, 13, 15, 28] {
        refused_matrix(&book, &word, size, 10);
        refused_decode(&book, &word, (7, size), 10);
    }
    for size in [0, 1, 4, 6, 8, 63] {
        for message in ["1", "01", "101", "1000"] {
            refused_code(&book, &symbols(message), size, 10);
        }
        refused_decode(&book, &word, (size, 14), 10);
        refused_decode(&book, &word, (size, 13), 10);
    }
    for size in [0, 1, 3, 5, 7] {
        refused_read(&book, &word, size, 10);
    }
    for size in [0, 1, 2, 4, 7, 63] {
        refused_remainder(&book, &word, size, 10);
        refused_remainder(&book, &symbols("1000000"), size, 10);
    }
}

#[test]
fn row_11_input_symbols() {
    let book = books::a();
    let bad = ["2000000", "0000002", "0009000", "3333333"];
    for word in bad.map(symbols) {
        refused_read(&book, &word, 4, 11);
        refused_remainder(&book, &word, 3, 11);
        refused_matrix(&book, &word, 14, 11);
        refused_decode(&book, &word, (7, 14), 11);
    }
    for message in ["0002", "2", "3", "12", "20", "002", "020"] {
        refused_code(&book, &symbols(message), 7, 11);
    }
    refused_code(&book, &[255, 0, 0, 0], 7, 11);
    refused_code(&book, &[255], 7, 11);
    refused_code(&books::c(), &symbols("4"), 3, 11);
    refused_remainder(&books::b(), &symbols("141"), 2, 11);
    refused_decode(&books::b(), &symbols("141"), (3, 12), 11);
    for p in 1..=6 {
        let q = 1 << p;
        for bad in [q, q + 1, 255] {
            assert_eq!(sum(p, bad, 0), Err(11));
            assert_eq!(sum(p, 0, bad), Err(11));
            assert_eq!(product(p, bad, 0), Err(11));
            assert_eq!(product(p, 0, bad), Err(11));
            assert_eq!(inverse(p, bad), Err(11));
        }
    }
}

#[test]
fn row_12_read_of_no_code_word() {
    refused_read(&books::a(), &symbols("1000000"), 4, 12);
    refused_read(&books::a(), &symbols("0000001"), 4, 12);
    refused_read(&books::b(), &symbols("120"), 1, 12);
    refused_read(&books::c(), &symbols("100"), 2, 12);
}

#[test]
fn row_12_is_reads_alone() {
    // What read refuses so is what a remainder is for.
    for (book, word, size) in [
        (books::a(), "1000000", 3),
        (books::a(), "0000001", 3),
        (books::b(), "120", 2),
        (books::c(), "100", 1),
    ] {
        let mut rest = vec![0xa5; size];
        assert_eq!(remainder(&book, &symbols(word), &mut rest), Ok(()));
        assert_ne!(rest, vec![0; size]);
    }
}

#[test]
fn row_13_inverse_of_zero() {
    assert_eq!(inverse(2, 0), Err(13));
    for p in 1..=6 {
        assert_eq!(inverse(p, 0), Err(13));
        assert_eq!(inverse(p, 1), Ok(1));
    }
}

/// One way for each of the conditions 1 to 8, so placed in the book with
/// four dual words that any two stand together.
fn with_fault(mut book: Vec<u8>, fault: u8) -> Vec<u8> {
    match fault {
        1 => book.push(0),
        2 => book[262] = 5,
        3 => book[2] = 2,
        4 => book[263 + 62] = 1,
        5 => book[4..8].copy_from_slice(&symbols("1010")),
        6 => book[69] = 8,
        7 => book[263..270].copy_from_slice(&symbols("1101000")),
        8 => book[135..142].copy_from_slice(&symbols("1100011")),
        _ => panic!("no such fault"),
    }
    book
}

#[test]
fn of_two_faults_the_smaller_number_is_returned() {
    for one in 1..=8 {
        refused_book(&with_fault(with_four(), one), one);
        for other in one + 1..=8 {
            let book = with_fault(with_fault(with_four(), other), one);
            refused_book(&book, one);
            // Both stand: without the smaller, the larger is returned.
            refused_book(&with_fault(with_four(), other), other);
        }
    }
    let mut book = with_four();
    for fault in (1..=8).rev() {
        book = with_fault(book, fault);
        refused_book(&book, fault);
    }
}

#[test]
fn condition_4_is_looked_for_over_the_whole_book_before_5() {
    let book = with_fault(with_four(), 5);
    refused_book(&set(book, 263 + 6, 2), 4);
}

#[test]
fn condition_7_is_looked_for_over_the_whole_book_before_8() {
    // Word 1 is word 0 turned, word 3 is no dual word.
    let book = with_fault(with_four(), 8);
    refused_book(&with_fault(book, 7), 7);
}

#[test]
fn of_two_faults_in_a_call_the_smaller_number_is_returned() {
    let book = books::a();
    let (long, bad, no_code_word) = (symbols("20000000"), symbols("2000000"), symbols("1000000"));
    // 9 before 10 and 11.
    refused_code(&book, &long, 6, 9);
    refused_code(&book, &symbols("20000"), 7, 9);
    refused_code(&book, &symbols("20000"), 6, 9);
    refused_code(&book, &[], 6, 9);
    refused_read(&book, &long, 5, 9);
    refused_remainder(&book, &long, 4, 9);
    refused_matrix(&book, &long, 13, 9);
    refused_decode(&book, &long, (6, 13), 9);
    // 10 before 11 and 12.
    refused_code(&book, &symbols("2000"), 6, 10);
    refused_code(&book, &symbols("2"), 6, 10);
    refused_code(&book, &symbols("12"), 8, 10);
    refused_read(&book, &bad, 5, 10);
    refused_read(&book, &no_code_word, 5, 10);
    refused_remainder(&book, &bad, 4, 10);
    refused_matrix(&book, &bad, 13, 10);
    refused_decode(&book, &bad, (7, 13), 10);
    refused_decode(&book, &bad, (6, 14), 10);
    // 11 before 12.
    refused_read(&book, &bad, 4, 11);
    // 3 before 11 and 13.
    assert_eq!(inverse(0, 255), Err(3));
    assert_eq!(inverse(7, 0), Err(3));
}
