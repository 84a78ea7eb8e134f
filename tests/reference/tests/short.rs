//! Messages of every length: short ones, of which "the missing high ones are
//! zero", full ones, and those that are refused.
//!
//! Products here are made without `word`, which the coder goes by.

use std::collections::BTreeSet;

use reference::books::{self, symbols};
use reference::codebook::{check, Codebook};
use reference::coder;
use reference::field;
use reference::generate::{self, Random, SHAPES};

/// What code returns for a message, and the word where there is one. A word
/// that is not written must be as it was.
fn code(book: &Codebook, message: &[u8]) -> Result<Vec<u8>, u8> {
    let mut word = vec![0xa5; book.n()];
    let coded = book.code(message, &mut word);
    assert!(coded.is_ok() || word == vec![0xa5; book.n()]);
    coded.map(|()| word)
}

fn read(book: &Codebook, word: &[u8]) -> Vec<u8> {
    let mut message = vec![0xa5; book.k()];
    assert_eq!(book.read(word, &mut message), Ok(()));
    message
}

/// The message with its missing high symbols.
fn filled(book: &Codebook, message: &[u8]) -> Vec<u8> {
    let zeros = vec![0; book.k() - message.len()];
    [message, &zeros].concat()
}

/// The sum of g moved up by each place of the message and multiplied by the
/// symbol there: n places hold all of it.
fn times_g(book: &Codebook, message: &[u8]) -> Vec<u8> {
    let p = book.field().p();
    let mut product = vec![0; book.n()];
    for (u, &symbol) in message.iter().enumerate() {
        for (j, &g) in book.generator()[..=book.n() - book.k()].iter().enumerate() {
            product[u + j] ^= field::product(p, symbol, g).expect("symbols");
        }
    }
    product
}

/// Every message of so many symbols.
fn all_messages(length: usize, q: u8) -> Vec<Vec<u8>> {
    let q = usize::from(q);
    let digit = |message: usize, u: usize| (message / q.pow(u as u32) % q) as u8;
    (0..q.pow(length as u32))
        .map(|message| (0..length).map(|u| digit(message, u)).collect())
        .collect()
}

#[test]
fn followed_by_hand() {
    let cases = [
        // By 1 + x + x^3: its sums with itself moved up.
        (books::a(), "1", "1101000", "1000"),
        (books::a(), "11", "1011100", "1100"),
        (books::a(), "01", "0110100", "0100"),
        (books::a(), "001", "0011010", "0010"),
        (books::a(), "101", "1110010", "1010"),
        (books::a(), "10", "1101000", "1000"),
        (books::a(), "100", "1101000", "1000"),
        (books::a(), "0", "0000000", "0000"),
        // By 2 + x, where 2 x 2 is 3 and 3 x 2 is 1.
        (books::c(), "1", "210", "10"),
        (books::c(), "2", "320", "20"),
        (books::c(), "3", "130", "30"),
        (books::c(), "0", "000", "00"),
    ];
    for (book, message, word, full) in cases {
        let (message, word, full) = (symbols(message), symbols(word), symbols(full));
        let (mut coded, mut whole) = (vec![255; word.len()], vec![255; word.len()]);
        assert_eq!(coder::code(&book, &message, &mut coded), Ok(()));
        assert_eq!(coded, word, "{message:?}");
        assert_eq!(coder::code(&book, &full, &mut whole), Ok(()));
        assert_eq!(whole, word, "{full:?}");
        let mut back = vec![255; full.len()];
        assert_eq!(coder::read(&book, &word, &mut back), Ok(()));
        assert_eq!(back, full, "{message:?}");
    }
}

#[test]
fn where_k_is_1_there_is_no_short_length() {
    let book = check(&books::b()).expect("accepted");
    assert_eq!(book.k(), 1);
    for symbol in 0..4 {
        assert_eq!(code(&book, &[symbol]), Ok(vec![symbol; 3]));
    }
    for message in ["", "10", "00", "111", "4", "40"].map(symbols) {
        let number = if message == [4] { 11 } else { 9 };
        assert_eq!(code(&book, &message), Err(number), "{message:?}");
    }
}

#[test]
fn the_words_of_a_length_are_those_of_the_next_whose_last_symbol_is_zero() {
    let (mut coded, mut refused) = (0, 0);
    for (s, p, books) in [(2, 1, 10), (2, 2, 20), (3, 1, 20)] {
        let mut random = Random::new(u64::from(s) << 8 | u64::from(p));
        for _ in 0..books {
            let bytes = generate::book(s, p, &mut random).expect("a shape");
            let book = check(&bytes).expect("accepted");
            let mut shorter: BTreeSet<Vec<u8>> = BTreeSet::from([vec![0; book.n()]]);
            for length in 1..=book.k() {
                let messages = all_messages(length, book.q());
                let mut words = BTreeSet::new();
                for message in &messages {
                    let word = code(&book, message).expect("coded");
                    assert_eq!(shorter.contains(&word), message.ends_with(&[0]));
                    words.insert(word);
                }
                assert_eq!(words.len(), messages.len());
                coded += messages.len();
                shorter = words;
            }
            for length in [0, book.k() + 1] {
                for message in all_messages(length, book.q()) {
                    assert_eq!(code(&book, &message), Err(9));
                    refused += 1;
                }
            }
        }
    }
    println!("all messages: {coded} coded, {refused} refused");
    assert!(coded > 500 && refused > 500);
}

#[test]
fn every_length_for_generated_codebooks() {
    let (mut short, mut full, mut refused, mut k_1) = (0, 0, 0, 0);
    for (s, p) in SHAPES {
        let mut random = Random::new(u64::from(s) << 8 | u64::from(p));
        for _ in 0..20 {
            let bytes = generate::book(s, p, &mut random).expect("a shape");
            let book = check(&bytes).expect("accepted");
            let (n, k) = (book.n(), book.k());
            for length in (0..=k + 1).chain([k + 2, n, n + 1, n + 64, n + 200]) {
                let message = generate::arbitrary(length, book.q(), &mut random);
                if length == 0 || length > k {
                    assert_eq!(code(&book, &message), Err(9), "{length} of {k}");
                    refused += 1;
                    continue;
                }
                let word = code(&book, &message).expect("coded");
                assert_eq!(word, times_g(&book, &message));
                let whole = filled(&book, &message);
                assert_eq!(code(&book, &whole), Ok(word.clone()));
                assert_eq!(read(&book, &word), whole);
                short += usize::from(length < k);
                full += usize::from(length == k);
            }
            k_1 += usize::from(k == 1);
        }
    }
    println!("lengths: {short} short, {full} full, {refused} refused; k 1 {k_1} times");
    assert_eq!(full, 20 * SHAPES.len());
    assert!(short > 1000 && refused > 1000 && k_1 > 10);
}

#[test]
fn the_low_symbols_are_the_ones_given() {
    let mut moved = 0;
    for (s, p) in SHAPES {
        let mut random = Random::new(u64::from(p) << 8 | u64::from(s));
        for _ in 0..20 {
            let bytes = generate::book(s, p, &mut random).expect("a shape");
            let book = check(&bytes).expect("accepted");
            let message = generate::short_message(&book, &mut random);
            let word = code(&book, &message).expect("coded");
            // Zeros before them instead: the word moved up, so another one
            // unless it is zero.
            let before = book.k() - message.len();
            let high = [vec![0; before], message.clone()].concat();
            let other = code(&book, &high).expect("coded");
            let differs = before > 0 && message.iter().any(|&symbol| symbol != 0);
            assert_eq!(other != word, differs);
            assert_eq!(other[before..], word[..book.n() - before]);
            moved += usize::from(differs);
        }
    }
    assert!(moved > 50, "{moved}");
}
