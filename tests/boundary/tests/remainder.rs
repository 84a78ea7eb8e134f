//! What a remainder is for, at the C boundary: words that differ by a code
//! word have one remainder, others have not, and zero is that of code words.

use std::collections::{BTreeMap, BTreeSet};

use boundary::compare::hex;
use boundary::draw::{self, Book};
use boundary::tally::Tally;
use boundary::{code, decode, guarded, kind, read, refusal, Operation};
use reference::generate::{self, Random, SHAPES};
use reference::word;

/// How many codebooks of an s and p are drawn; those of many places take
/// long.
fn books(s: u8) -> u32 {
    match s {
        6.. => 12,
        5 => 30,
        _ => 60,
    }
}

/// The remainder of a word, by the library, between guards and into a buffer
/// that holds other bytes each time.
fn remainder(book: &Book, word: &[u8], random: &mut Random) -> Vec<u8> {
    let held = draw::bytes(book.parts.n() - book.parts.k(), random);
    let given = guarded(Operation::Remainder, &book.bytes, word, &held)
        .unwrap_or_else(|touched| panic!("written to: {touched:?}\n{}", shown(book, &[word])));
    assert!(given.result == 0, "{}", shown(book, &[word]));
    given.output
}

/// The code word of a message, by the library.
fn coded(book: &Book, message: &[u8]) -> Vec<u8> {
    let mut word = vec![255; book.parts.n()];
    let result = code(&book.bytes, message, &mut word);
    assert!(result == 0, "{}", shown(book, &[message]));
    word
}

fn zero(symbols: &[u8]) -> bool {
    word::weight(symbols) == 0
}

/// What is needed to try it again.
fn shown(book: &Book, words: &[&[u8]]) -> String {
    let words: Vec<String> = words.iter().map(|word| hex(word)).collect();
    format!("codebook {}\n{}", hex(&book.bytes), words.join("\n"))
}

/// Error patterns and words of every sort, of n symbols below q.
fn drawn(book: &Book, random: &mut Random, tally: &mut Tally) -> Vec<u8> {
    let (n, q) = (book.parts.n(), book.parts.q());
    let errors = match random.below(4) {
        0 => 1,
        1 => random.between(2, n.min(4)),
        2 => random.between(2, n),
        _ => {
            tally.count("word", "arbitrary");
            return generate::arbitrary(n, q, random);
        }
    };
    let sort = if errors == 1 { "1 error" } else { "more" };
    tally.count("word", sort);
    let mut places: Vec<usize> = (0..n).collect();
    random.shuffle(&mut places);
    let mut pattern = vec![0; n];
    for place in places.into_iter().take(errors) {
        pattern[place] = random.symbol(1, q);
    }
    pattern
}

/// No code word: a code word with other symbols below the degree of g, where
/// two code words do not differ alone.
fn no_code_word(book: &Book, random: &mut Random) -> Vec<u8> {
    let (n, k, q) = (book.parts.n(), book.parts.k(), book.parts.q());
    let mut low = match random.below(3) {
        0 => generate::arbitrary(n - k, q, random),
        _ => vec![0; n - k],
    };
    let end = random.between(0, n - k - 1);
    low[end] = random.symbol(1, q);
    low.resize(n, 0);
    let word = generate::code_word(&book.parts, random);
    word::add(book.parts.field(), &word, &low)
}

#[test]
fn words_have_one_remainder_exactly_if_they_differ_by_a_code_word() {
    let mut tally = Tally::new("remainder, two calls")
        .due("s and p", SHAPES.map(|(s, p)| format!("{s} {p}")))
        .due("word", ["1 error", "more", "arbitrary"])
        .due("code word added", ["zero", "not zero"])
        .due("remainders", ["equal", "unequal"]);
    for (s, p) in SHAPES {
        for trial in 0..books(s) {
            let mut random = Random::new(draw::seed(1, s, p, trial));
            let book = Book::any(s, p, &mut random);
            let field = book.parts.field();
            for _ in 0..8 {
                let first = drawn(&book, &mut random, &mut tally);
                let rest = remainder(&book, &first, &mut random);

                let message = generate::message(&book.parts, &mut random);
                let sent = coded(&book, &message);
                let same = word::add(field, &first, &sent);
                let same_rest = remainder(&book, &same, &mut random);
                assert!(same_rest == rest, "{}", shown(&book, &[&first, &same]));
                let added = if zero(&sent) { "zero" } else { "not zero" };
                tally.count("code word added", added);
                tally.count("remainders", "equal");

                let other = no_code_word(&book, &mut random);
                let other = word::add(field, &first, &other);
                let other_rest = remainder(&book, &other, &mut random);
                assert!(other_rest != rest, "{}", shown(&book, &[&first, &other]));
                tally.count("remainders", "unequal");
                tally.count("s and p", format!("{s} {p}"));
                tally.tried();
            }
        }
    }
    tally.finish(90);
}

#[test]
fn all_words_of_small_codebooks_fall_into_classes() {
    let mut tally = Tally::new("remainder, all words of small codebooks")
        .due("s and p", ["2 1", "2 2", "3 1"])
        .due("words of a class", [2, 4, 8, 16, 64]);
    let all = |length: usize, q: u8| {
        let q = usize::from(q);
        let digit = move |word: usize, j: usize| (word / q.pow(j as u32) % q) as u8;
        (0..q.pow(length as u32))
            .map(move |word| -> Vec<u8> { (0..length).map(|j| digit(word, j)).collect() })
    };
    for (s, p, count) in [(2, 1, 12), (2, 2, 24), (3, 1, 24)] {
        for trial in 0..count {
            let mut random = Random::new(draw::seed(2, s, p, trial));
            let book = Book::any(s, p, &mut random);
            let (n, k, q) = (book.parts.n(), book.parts.k(), book.parts.q());
            let mut classes: BTreeMap<Vec<u8>, Vec<Vec<u8>>> = BTreeMap::new();
            for word in all(n, q) {
                let rest = remainder(&book, &word, &mut random);
                classes.entry(rest).or_default().push(word);
                tally.count("s and p", format!("{s} {p}"));
                tally.tried();
            }
            assert_eq!(classes.len(), all(n - k, q).count());
            let code_words: BTreeSet<Vec<u8>> =
                all(k, q).map(|message| coded(&book, &message)).collect();
            let field = book.parts.field();
            for (rest, words) in &classes {
                // From its first word, a class is all code words away.
                let away: BTreeSet<Vec<u8>> = words
                    .iter()
                    .map(|word| word::add(field, &words[0], word))
                    .collect();
                assert!(away == code_words, "{}", shown(&book, &[rest, &words[0]]));
                assert_eq!(code_words.contains(&words[0]), zero(rest));
                tally.count("words of a class", words.len());
            }
        }
    }
    tally.finish(1);
}

#[test]
fn zero_is_the_remainder_of_code_words() {
    let mut tally = Tally::new("remainder, read and decode")
        .due("s and p", SHAPES.map(|(s, p)| format!("{s} {p}")))
        .due("remainder", ["zero", "not zero"])
        .due("read", [0, 12])
        .due("decode", ['C', 'M', 'S', 'X']);
    for (s, p) in SHAPES {
        for trial in 0..books(s) {
            let mut random = Random::new(draw::seed(3, s, p, trial));
            let book = Book::any(s, p, &mut random);
            // One or two rounds are enough: a Clean word takes none.
            let (l, d) = (book.parts.l().min(4), book.parts.most_places());
            let book = book.with(l, 1 + (trial % 2) as u8, d);
            let (n, k) = (book.parts.n(), book.parts.k());
            for _ in 0..8 {
                let word = match random.below(4) {
                    0 => generate::code_word(&book.parts, &mut random),
                    1 => no_code_word(&book, &mut random),
                    2 => generate::damaged_code_word(&book.parts, 1, &mut random),
                    _ => drawn(&book, &mut random, &mut tally),
                };
                let clean = zero(&remainder(&book, &word, &mut random));
                let number = refusal(read(&book.bytes, &word, &mut vec![0; k]));
                let result = decode(&book.bytes, &word, &mut vec![0; n]);
                let decoded = kind(result);
                assert!(
                    refusal(result) == 0
                        && number == if clean { 0 } else { 12 }
                        && clean == (decoded == 'C'),
                    "read {number}, decode {decoded}\n{}",
                    shown(&book, &[&word])
                );
                tally.count("remainder", if clean { "zero" } else { "not zero" });
                tally.count("read", number);
                tally.count("decode", decoded);
                tally.count("s and p", format!("{s} {p}"));
                tally.tried();
            }
        }
    }
    tally.finish(40);
}

#[test]
fn symbols_below_the_degree_are_their_own_remainder() {
    let mut tally = Tally::new("remainder, symbols below the degree")
        .due("s and p", SHAPES.map(|(s, p)| format!("{s} {p}")))
        .due("n - k", ["1", "between", "n - 1"]);
    for (s, p) in SHAPES {
        for trial in 0..books(s) {
            let mut random = Random::new(draw::seed(4, s, p, trial));
            let book = Book::any(s, p, &mut random);
            let (n, q) = (book.parts.n(), book.parts.q());
            let degree = n - book.parts.k();
            for _ in 0..4 {
                let mut word = generate::arbitrary(degree, q, &mut random);
                let low = word.clone();
                word.resize(n, 0);
                let rest = remainder(&book, &word, &mut random);
                assert!(rest == low, "{}", shown(&book, &[&word, &rest]));
                let end = match degree {
                    1 => "1",
                    degree if degree == n - 1 => "n - 1",
                    _ => "between",
                };
                tally.count("n - k", end);
                tally.count("s and p", format!("{s} {p}"));
                tally.tried();
            }
        }
    }
    tally.finish(40);
}
