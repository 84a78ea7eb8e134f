//! The remainder on division by g: words followed by hand, and its laws on
//! all words of small codebooks and on words of generated ones.
//!
//! Products here are made without `word`, whose division is what is tested.

use std::collections::{BTreeMap, BTreeSet};

use reference::books::{self, symbols};
use reference::codebook::{check, Codebook};
use reference::coder;
use reference::field;
use reference::generate::{self, Random, SHAPES};

/// The remainder, by a call into a buffer that holds something else before.
fn remainder(book: &Codebook, word: &[u8]) -> Vec<u8> {
    let mut remainder = vec![0xa5; book.n() - book.k()];
    assert_eq!(book.remainder(word, &mut remainder), Ok(()));
    remainder
}

/// Place by place; the shorter one is taken to go on with zeros.
fn sum(a: &[u8], b: &[u8]) -> Vec<u8> {
    let at = |word: &[u8], j: usize| word.get(j).copied().unwrap_or(0);
    (0..a.len().max(b.len()))
        .map(|j| at(a, j) ^ at(b, j))
        .collect()
}

/// The product of g and k symbols: n places hold all of it.
fn times_g(book: &Codebook, factor: &[u8]) -> Vec<u8> {
    let p = book.field().p();
    let mut product = vec![0; book.n()];
    for (i, &a) in factor.iter().enumerate() {
        for (j, &b) in book.generator()[..=book.n() - book.k()].iter().enumerate() {
            product[i + j] ^= field::product(p, a, b).expect("symbols");
        }
    }
    product
}

/// Every word of so many symbols.
fn all_words(length: usize, q: u8) -> Vec<Vec<u8>> {
    let count = usize::from(q).pow(length as u32);
    let digit = |word: usize, j: usize| word / usize::from(q).pow(j as u32) % usize::from(q);
    (0..count)
        .map(|word| (0..length).map(|j| digit(word, j) as u8).collect())
        .collect()
}

#[test]
fn followed_by_hand() {
    let cases = [
        // Modulo 1 + x + x^3: the powers of x, then sums of them.
        (books::a(), "1000000", "100"),
        (books::a(), "0100000", "010"),
        (books::a(), "0010000", "001"),
        (books::a(), "0001000", "110"),
        (books::a(), "0000100", "011"),
        (books::a(), "0000010", "111"),
        (books::a(), "0000001", "101"),
        (books::a(), "1100000", "110"),
        (books::a(), "0000011", "010"),
        (books::a(), "1111111", "000"),
        (books::a(), "1101000", "000"),
        (books::a(), "0000000", "000"),
        // Modulo 1 + x + x^2, where x^2 is 1 + x.
        (books::b(), "120", "12"),
        (books::b(), "132", "31"),
        (books::b(), "311", "20"),
        (books::b(), "003", "33"),
        (books::b(), "222", "00"),
        // Modulo 2 + x, where x is 2 and x^2 is 3.
        (books::c(), "100", "1"),
        (books::c(), "010", "2"),
        (books::c(), "001", "3"),
        (books::c(), "003", "2"),
        (books::c(), "111", "0"),
        (books::c(), "021", "0"),
    ];
    for (book, word, due) in cases {
        let (word, due) = (symbols(word), symbols(due));
        let mut written = vec![255; due.len()];
        assert_eq!(coder::remainder(&book, &word, &mut written), Ok(()));
        assert_eq!(written, due, "{word:?}");
    }
}

#[test]
fn all_words_of_small_codebooks_fall_into_the_classes_of_code_words() {
    let (mut pairs_alike, mut pairs_unlike) = (0u32, 0u32);
    for (s, p, seeds) in [(2, 1, 12), (2, 2, 24), (3, 1, 24)] {
        for seed in 0..seeds {
            let bytes = generate::book(s, p, &mut Random::new(seed)).expect("a shape");
            let book = check(&bytes).expect("accepted");
            let (n, k, q) = (book.n(), book.k(), book.q());
            let messages = all_words(k, q);
            let code_words: BTreeSet<Vec<u8>> =
                messages.iter().map(|f| times_g(&book, f)).collect();
            assert_eq!(code_words.len(), messages.len());
            let words: Vec<(Vec<u8>, Vec<u8>)> = all_words(n, q)
                .into_iter()
                .map(|word| (remainder(&book, &word), word))
                .collect();
            let mut classes: BTreeMap<&[u8], usize> = BTreeMap::new();
            for (rest, word) in &words {
                *classes.entry(rest).or_default() += 1;
                assert_eq!(rest.iter().all(|&x| x == 0), code_words.contains(word));
            }
            // Every remainder there can be, each as often as any.
            assert_eq!(classes.len(), all_words(n - k, q).len());
            assert!(classes.values().all(|&count| count == messages.len()));
            for (one_rest, one) in &words {
                for (other_rest, other) in &words {
                    let alike = code_words.contains(&sum(one, other));
                    assert_eq!(one_rest == other_rest, alike, "{one:?} {other:?}");
                    pairs_alike += u32::from(alike);
                    pairs_unlike += u32::from(!alike);
                }
            }
        }
    }
    println!("pairs of words: {pairs_alike} alike, {pairs_unlike} not");
    assert!(pairs_alike > 50_000 && pairs_unlike > 50_000);
}

/// Runs the trial on words of generated books of every s and p.
fn on_words(mut trial: impl FnMut(&Codebook, &[u8], &mut Random)) {
    for (s, p) in SHAPES {
        let mut random = Random::new(u64::from(s) << 8 | u64::from(p));
        for _ in 0..20 {
            let bytes = generate::book(s, p, &mut random).expect("a shape");
            let book = check(&bytes).expect("accepted");
            for _ in 0..8 {
                let word = generate::good_word(&book, &mut random);
                trial(&book, &word, &mut random);
            }
        }
    }
}

#[test]
fn a_word_is_its_quotient_times_g_and_its_remainder() {
    let (mut zero, mut not_zero) = (0, 0);
    on_words(|book, word, _| {
        let rest = remainder(book, word);
        // What is left without it can be read: the quotient.
        let mut quotient = vec![0xa5; book.k()];
        assert_eq!(book.read(&sum(word, &rest), &mut quotient), Ok(()));
        assert_eq!(sum(&times_g(book, &quotient), &rest), word);
        // There is no other: n - k symbols are below the degree of g.
        assert_eq!(rest.len(), book.n() - book.k());
        match rest.iter().all(|&x| x == 0) {
            true => zero += 1,
            false => not_zero += 1,
        }
    });
    println!("remainders: {zero} zero, {not_zero} not");
    assert_eq!(zero + not_zero, 20 * 8 * SHAPES.len());
    assert!(zero > 200 && not_zero > 200);
}

#[test]
fn words_have_one_remainder_exactly_if_they_differ_by_a_code_word() {
    let mut tried = 0;
    on_words(|book, word, random| {
        let rest = remainder(book, word);
        let code_word = times_g(book, &generate::message(book, random));
        assert_eq!(remainder(book, &code_word), vec![0; rest.len()]);
        let alike = sum(word, &code_word);
        assert_eq!(remainder(book, &alike), rest);
        // Any word but those differs from one of them in places below the
        // degree of g alone, and no code word but zero lies there.
        let mut low = generate::arbitrary(rest.len(), book.q(), random);
        low[random.below(rest.len())] = random.symbol(1, book.q());
        let unlike = sum(&alike, &low);
        assert_ne!(remainder(book, &unlike), rest);
        let mut message = vec![0; book.k()];
        assert_eq!(book.read(&sum(word, &unlike), &mut message), Err(12));
        tried += 1;
    });
    assert_eq!(tried, 20 * 8 * SHAPES.len());
}

#[test]
fn a_code_word_is_one_whose_remainder_is_zero() {
    let (mut read, mut refused) = (0, 0);
    on_words(|book, word, _| {
        let zero = remainder(book, word).iter().all(|&x| x == 0);
        assert_eq!(book.is_code_word(word), zero);
        match book.read(word, &mut vec![0; book.k()]) {
            Ok(()) => {
                assert!(zero);
                read += 1;
            }
            Err(number) => {
                assert!(number == 12 && !zero);
                refused += 1;
            }
        }
    });
    println!("read: {read} code words, {refused} refused");
    assert!(read > 200 && refused > 200);
}
