//! The two forms of a codebook: byte 3 chooses, and the lengths, kinds, s, p
//! and places of each.

use std::collections::BTreeSet;

use reference::books::{self, long, symbols};
use reference::codebook::{check, Codebook};
use reference::decode::Kind;
use reference::form::{Form, FORMS, LONG, SHORT};
use reference::generate::{self, Random, SHAPES};
use reference::{burst, coder, decode, matrix, packed, word};

/// What check finds, and that every operation refuses by the same number and
/// writes nothing.
fn number(book: &[u8]) -> u8 {
    let number = check(book).err();
    if number.is_some() {
        let (input, mut word, mut entries) = ([1; 7], [0xa5; 7], [0xa5a5; 14]);
        let found = [
            coder::code(book, &input, &mut word).err(),
            coder::read(book, &input, &mut word).err(),
            coder::remainder(book, &input, &mut word).err(),
            matrix::matrix(book, &input, &mut entries).err(),
            decode::decode(book, &input, &mut word, &mut entries).err(),
            burst::burst(book, 1, &input, &mut word, &mut [], &mut entries).err(),
        ];
        assert_eq!(found, [number; 6]);
        assert_eq!((word, entries), ([0xa5; 7], [0xa5a5; 14]));
    }
    number.unwrap_or(0)
}

fn set(book: &[u8], at: usize, byte: u8) -> Vec<u8> {
    let mut book = book.to_vec();
    book[at] = byte;
    book
}

/// The kinds of the form, as far as so many bytes go, and zeros.
fn kinds(form: &Form, length: usize) -> Vec<u8> {
    let mut book = vec![0; length];
    let bodies = (0..40).map(|index| (form.body(index) - 1, form.dual_word));
    let first = [(0, 1), (3, form.generator), (form.limits(), 3)];
    for (at, kind) in first.into_iter().chain(bodies) {
        if let Some(byte) = book.get_mut(at) {
            *byte = kind;
        }
    }
    book
}

/// 70 + 64 x L and 262 + 256 x L, L from 1 to 32.
fn lengths(first: usize, record: usize) -> BTreeSet<usize> {
    (1..=32).map(|l| first + record * l).collect()
}

#[test]
fn lengths_of_both_forms() {
    let (short, long) = (lengths(70, 64), lengths(262, 256));
    for length in 0..=9000 {
        assert_eq!(SHORT.count(length).is_some(), short.contains(&length));
        assert_eq!(LONG.count(length).is_some(), long.contains(&length));
    }
    let both: Vec<&usize> = short.intersection(&long).collect();
    assert_eq!(both, [&518, &774, &1030, &1286, &1542, &1798, &2054]);
    assert_eq!(long.last(), Some(&8454));
}

#[test]
fn every_length_with_every_sort_of_byte_3() {
    let (short, long) = (lengths(70, 64), lengths(262, 256));
    for length in (0..=2400).chain(8100..=8800).chain([65535]) {
        let fits = [short.contains(&length), long.contains(&length)];
        for (form, fits) in FORMS.into_iter().zip(fits) {
            // s is 0: the next that is wrong.
            assert_eq!(number(&kinds(form, length)), if fits { 3 } else { 1 });
        }
        for byte in [0, 1, 3, 4, 6, 9, 255] {
            let mut book = kinds(&LONG, length);
            if let Some(third) = book.get_mut(3) {
                *third = byte;
            }
            let some = fits[0] || fits[1];
            assert_eq!(number(&book), if some { 2 } else { 1 }, "{length} {byte}");
        }
    }
}

#[test]
fn the_requests_examples() {
    assert_eq!(number(&set(&books::a(), 3, 5)), 1);
    assert_eq!(books::a().len(), 134);
    let mut eight = long("n127p1");
    eight.truncate(2310);
    assert_eq!(packed::check(&eight), 0x800);
    assert_eq!(number(&set(&eight, 3, 9)), 2);
    assert_eq!(number(&set(&eight, 3, 2)), 1);
    // 518 bytes: a short book of L 7, and a long one of L 1.
    let pairs: Vec<Vec<u8>> = (1..=7)
        .map(|place| [vec![1], vec![0; place - 1], vec![1]].concat())
        .collect();
    let seven = books::write(4, 2, &[1; 15], 3, 1, &pairs);
    assert_eq!((seven.len(), seven[3]), (518, 2));
    assert_eq!(packed::check(&seven), 0x700);
    assert_eq!(long("n255p1").len(), 518);
    assert_eq!(packed::check(&long("n255p1")), 0x100);
    // Each with the other's byte 3 is of its length, and has not its kinds.
    assert_eq!(number(&set(&seven, 3, 5)), 2);
    assert_eq!(number(&set(&long("n255p1"), 3, 2)), 2);
}

/// The scope's cases of book E, 8.27.
#[test]
fn book_e() {
    let (book, g) = (books::e(), books::generator_e());
    // 1 + x + x^7 times g is x^127 - 1.
    let mut product = [0; 134];
    for (j, place) in (0..127).flat_map(|j| [(j, j), (j, j + 1), (j, j + 7)]) {
        product[place] ^= g[j];
    }
    let ones: Vec<usize> = (0..134).filter(|&place| product[place] == 1).collect();
    assert_eq!(ones, [0, 127]);
    assert_eq!(packed::check(&book), 0x100);
    let (mut word, mut entries) = ([0xa5; 127], [0xa5a5; 254]);
    assert_eq!(coder::code(&book, &symbols("1000000"), &mut word), Ok(()));
    assert_eq!(word[..], g);
    word[63] ^= 1;
    word[126] ^= 1;
    let mut answer = [0xa5; 127];
    let decoded = decode::decode(&book, &word, &mut answer, &mut entries).expect("accepted");
    let decoded = (decoded.kind, decoded.rounds, decoded.changed);
    assert_eq!(decoded, (Kind::Mended, 1, 2));
    assert_eq!(answer[..], g);
}

#[test]
fn byte_3_of_every_value() {
    let books = [
        books::a(),
        long("n127p1"),
        long("n255p1"),
        long("n127p1_high"),
    ];
    for (book, form) in books.iter().zip([&SHORT, &LONG, &LONG, &LONG]) {
        for byte in 0..=255 {
            let fits = |form: &Form| form.count(book.len()).is_some();
            let due = match byte {
                byte if byte == form.generator => 0,
                2 if !fits(&SHORT) => 1,
                5 if !fits(&LONG) => 1,
                _ => 2,
            };
            assert_eq!(number(&set(book, 3, byte)), due, "{byte}");
        }
    }
}

#[test]
fn every_other_kind_byte_of_every_value() {
    let book = long("n127p1_high");
    let kinds = [(0, 1), (LONG.limits(), 3)];
    let later = (0..6).map(|index| (LONG.body(index) - 1, 6));
    for (at, due) in kinds.into_iter().chain(later) {
        for byte in 0..=255 {
            let found = number(&set(&book, at, byte));
            assert_eq!(found, if byte == due { 0 } else { 2 }, "{at} {byte}");
        }
    }
}

#[test]
fn every_s_and_p_of_both_forms() {
    for (book, form) in [(books::a(), &SHORT), (long("n255p1"), &LONG)] {
        let mut left = Vec::new();
        for (s, p) in (0..=255).flat_map(|s| (0..=255).map(move |p| (s, p))) {
            if check(&set(&set(&book, 1, s), 2, p)).err() != Some(3) {
                left.push((s, p));
            }
        }
        let due = SHAPES
            .into_iter()
            .filter(|(s, _)| (*s > 6) == (form == &LONG));
        assert_eq!(left, due.collect::<Vec<_>>());
    }
    assert_eq!(
        generate::long_shapes().collect::<Vec<_>>(),
        [(7, 1), (8, 1), (8, 2), (8, 4)]
    );
}

#[test]
fn places_from_n_on_and_symbols() {
    for (name, n, q) in [
        ("n127p1_high", 127, 2),
        ("n255p1", 255, 2),
        ("n255p2_two", 255, 4),
        ("n255p4", 255, 16),
    ] {
        let book = long(name);
        let l = LONG.count(book.len()).expect("a length");
        for body in (0..l).map(|index| LONG.body(index)).chain([4]) {
            for place in 0..255 {
                let wrong = if place < n { q } else { 1 };
                assert_eq!(number(&set(&book, body + place, wrong)), 4, "{place}");
                assert_eq!(number(&set(&book, body + place, 255)), 4, "{place}");
            }
        }
    }
}

#[test]
fn limits_of_the_long_form() {
    for (name, n) in [("n127p1_high", 127), ("n255p1", 255)] {
        let (book, at) = (long(name), LONG.limits() + 1);
        for byte in 0..=255 {
            let i = number(&set(&book, at, byte));
            assert_eq!(i, if (1..=63).contains(&byte) { 0 } else { 6 });
            let d = number(&set(&book, at + 1, byte));
            assert_eq!(d, if (1..=n).contains(&byte) { 0 } else { 6 });
        }
    }
}

/// One way for each of the conditions 1 to 8 in a long book of L 6, so placed
/// that any two stand together.
fn with_fault(mut book: Vec<u8>, fault: u8) -> Vec<u8> {
    let last = LONG.body(5);
    match fault {
        1 => book.push(0),
        2 => book[last - 1] = 4,
        3 => book[2] = 4,
        4 => book[last + 254] = 1,
        5 => book[4] ^= 1,
        6 => book[LONG.limits() + 2] = 128,
        7 => book[last] = 0,
        8 => {
            // Another one's place 0 comes to a place that has 1 too.
            let word = book[LONG.body(0)..LONG.body(0) + 127].to_vec();
            let place = (1..127).find(|&j| word[j] == 1).expect("more than one");
            let to = LONG.body(2);
            book[to..to + 127].copy_from_slice(&word::turn(&word, 127 - place));
        }
        _ => panic!("no such fault"),
    }
    book
}

#[test]
fn of_two_faults_the_smaller_number_is_returned() {
    let book = || long("n127p1_high");
    for one in 1..=8 {
        assert_eq!(number(&with_fault(book(), one)), one);
        for other in one + 1..=8 {
            let both = with_fault(with_fault(book(), other), one);
            assert_eq!(number(&both), one, "{one} {other}");
        }
    }
}

#[test]
fn the_stored_books() {
    let sizes = [
        ("n127p1", 127, 29, 8, 32),
        ("n127p1_high", 127, 64, 16, 6),
        ("n255p1", 255, 175, 16, 1),
        ("n255p1_lines", 255, 21, 4, 21),
        ("n255p2", 255, 21, 4, 21),
        ("n255p2_two", 255, 111, 16, 2),
        ("n255p4", 255, 75, 16, 3),
        ("n255p4_whole", 255, 251, 255, 32),
    ];
    assert_eq!(sizes.map(|size| size.0), books::LONG.map(|(name, _)| name));
    for (name, n, k, weight, l) in sizes {
        let book = check(&long(name)).expect("accepted");
        let found = (book.n(), book.k(), book.weight(), book.l());
        assert_eq!(found, (n, k, weight, l), "{name}");
        // Of more than two symbols the dual words have more than 0 and 1.
        let symbols: BTreeSet<u8> = book.dual_words().concat().into_iter().collect();
        assert_eq!(symbols.len() > 2, book.q() > 2, "{name}");
    }
}

/// How many of ten words with so many errors become the word that was sent.
fn mended(book: &Codebook, errors: usize) -> usize {
    let mut random = Random::new(errors as u64);
    let (mut answer, mut entries) = (vec![255; book.n()], vec![0; book.entries()]);
    (0..10)
        .filter(|_| {
            let sent = generate::code_word(book, &mut random.clone());
            let received = generate::damaged_code_word(book, errors, &mut random);
            let decoded = book.decode(&received, &mut answer, &mut entries);
            decoded.is_ok() && answer == sent
        })
        .count()
}

#[test]
fn the_stored_books_mend() {
    for (name, errors) in [
        ("n127p1", 12),
        ("n127p1_high", 5),
        ("n255p1", 8),
        ("n255p1_lines", 40),
        ("n255p2", 40),
        ("n255p2_two", 8),
        ("n255p4", 8),
    ] {
        let book = check(&long(name)).expect("accepted");
        let mended = mended(&book, errors);
        println!("{name}: {mended} of 10 words with {errors} errors mended");
        assert!(mended > 5, "{name}");
    }
}

#[test]
fn the_largest_column() {
    let book = check(&long("n255p4_whole")).expect("accepted");
    assert_eq!(book.l() * book.weight(), 8160);
    assert_eq!(book.entries(), 4080);
}
