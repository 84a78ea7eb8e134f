//! Words that are alike, "when one is a nonzero symbol times a turn of the
//! other", words that nearly are, and books of such.

use std::collections::{BTreeMap, BTreeSet};

use reference::books::{self, symbols};
use reference::codebook::check;
use reference::field::Field;
use reference::generate::{self, Random, SHAPES};
use reference::word;

fn field(p: u8) -> Field {
    Field::new(p).expect("1 to 6")
}

/// Both ways round, which must be the same.
fn alike(p: u8, a: &str, b: &str) -> bool {
    let (a, b) = (symbols(a), symbols(b));
    let found = word::alike(field(p), &a, &b);
    assert_eq!(word::alike(field(p), &b, &a), found);
    found
}

#[test]
fn followed_by_hand() {
    // The installer's two, and every other turn.
    assert!(alike(1, "1110100", "1101001"));
    for turned in ["1110100", "0111010", "0011101", "1001110", "0100111"] {
        assert!(alike(1, "1110100", turned));
    }
    // Over GF(4): 120 turned by 2 is 201, and that times 3 is 103.
    assert!(alike(2, "120", "103"));
    // The four ways alone.
    assert!(alike(2, "120", "120"));
    assert!(alike(2, "120", "012"));
    assert!(alike(2, "120", "310"));
    assert!(alike(2, "120", "031"));
    // Over GF(8): times 2, then turned by 3.
    assert!(alike(3, "1024000", "0002043"));
    assert!(alike(3, "0000000", "0000000"));
}

#[test]
fn near_misses_by_hand() {
    // Equal weights.
    assert!(!alike(1, "1100000", "1010000"));
    assert!(!alike(1, "0000000", "1000000"));
    // Mirror images: gaps 1, 1, 2, 3 and gaps 1, 1, 3, 2.
    assert!(!alike(1, "1110100", "1110010"));
    assert!(!alike(1, "1110100", "1001011"));
    // A mirror image that is a turn as well.
    assert!(alike(1, "1101100", "1001101"));
    // The same places: 1 and 1, or 1 and 2, are 2 and 2, or 2 and 3, by 2.
    assert!(!alike(2, "110", "120"));
    assert!(!alike(2, "220", "120"));
    // The same places and symbols; 123 turned is 312, which times 2 is 123.
    assert!(alike(2, "123", "312"));
    assert!(!alike(2, "123", "132"));
    // The same gaps, turned: 1 and 2 two places on are not 2 and 1 there.
    assert!(alike(3, "1200000", "0012000"));
    assert!(!alike(3, "1200000", "0021000"));
    // One symbol is multiplied by another factor than the rest.
    assert!(alike(3, "1111111", "2222222"));
    assert!(!alike(3, "1111111", "2222223"));
}

/// Every word of so many symbols.
fn all_words(n: usize, q: u8) -> Vec<Vec<u8>> {
    let q = usize::from(q);
    (0..q.pow(n as u32))
        .map(|word| {
            let digit = |j| word / q.pow(j) % q;
            (0..n as u32).map(|j| digit(j) as u8).collect()
        })
        .collect()
}

#[test]
fn all_words_of_small_shapes_fall_into_classes() {
    // How many classes there are, by counting the words that each of the
    // n (q - 1) motions leaves as they are: of n 3, q 2 (8 + 2 + 2) / 3; of
    // n 3, q 4 (64 + 1 + 1 + 6 x 4) / 9; of n 7, q 2 (128 + 6 x 2) / 7.
    for (p, n, count) in [(1, 3, 4), (2, 3, 10), (1, 7, 20)] {
        let words = all_words(n, field(p).q());
        let classes: BTreeSet<Vec<bool>> = words
            .iter()
            .map(|a| words.iter().map(|b| word::alike(field(p), a, b)).collect())
            .collect();
        assert_eq!(classes.len(), count);
        // Each word is in one class: like itself, like what is like it, and
        // like what that is like.
        for b in 0..words.len() {
            assert_eq!(classes.iter().filter(|class| class[b]).count(), 1);
        }
    }
}

/// A word of the shape, not zero, now and then of few symbols or of one.
fn drawn(n: usize, q: u8, random: &mut Random) -> Vec<u8> {
    let mut word = generate::arbitrary(n, q, random);
    if random.once_in(4) {
        let symbol = random.symbol(1, q);
        word.iter_mut().for_each(|x| *x = symbol * (*x).min(1));
    }
    if word::weight(&word) == 0 {
        word[random.below(n)] = random.symbol(1, q);
    }
    word
}

/// The word turned, scaled, both or neither; over GF(2) never scaled.
fn moved(field: Field, word: &[u8], way: usize, random: &mut Random) -> Vec<u8> {
    let (turned, scaled) = (way & 1 == 1, way & 2 == 2);
    let t = if turned {
        random.between(1, word.len() - 1)
    } else {
        0
    };
    let c = if scaled && field.q() > 2 {
        random.symbol(2, field.q())
    } else {
        1
    };
    word::scale(field, &word::turn(word, t), c)
}

#[test]
fn alike_in_each_of_the_four_ways() {
    let mut ways: BTreeMap<&str, usize> = BTreeMap::new();
    for (s, p) in SHAPES {
        let (field, n) = (field(p), (1 << s) - 1);
        let mut random = Random::new(u64::from(s) << 8 | u64::from(p));
        for trial in 0..40 {
            let a = drawn(n, field.q(), &mut random);
            let b = moved(field, &a, trial % 4, &mut random);
            let c = moved(field, &b, random.below(4), &mut random);
            for (one, other) in [(&a, &a), (&a, &b), (&b, &a), (&b, &c), (&a, &c), (&c, &a)] {
                assert!(word::alike(field, one, other), "{one:?} {other:?}");
            }
            let way = generate::likeness(field, &a, &b).expect("a copy");
            *ways.entry(way).or_default() += 1;
        }
    }
    println!("alike: {ways:?}");
    for way in ["equal", "turned", "scaled", "turned and scaled"] {
        assert!(ways[way] > 50, "{ways:?}");
    }
}

/// A word that is nearly a copy of the one given.
fn near(field: Field, a: &[u8], sort: &str, random: &mut Random) -> Vec<u8> {
    let (n, q) = (a.len(), field.q());
    let way = random.below(4);
    let mut b = moved(field, a, way, random);
    let places: Vec<usize> = (0..n).filter(|&j| b[j] != 0).collect();
    let place = places[random.below(places.len())];
    match sort {
        "weight" => random.shuffle(&mut b),
        "symbols" => b.swap(place, random.below(n)),
        "gaps" => b[place] = random.symbol(1, q),
        "support" => {
            b = a.to_vec();
            b.iter_mut()
                .filter(|symbol| **symbol != 0)
                .for_each(|symbol| *symbol = random.symbol(1, q));
        }
        _ => b = (0..n).map(|j| a[(n - j) % n]).collect(),
    }
    b
}

#[test]
fn near_misses_are_not_alike() {
    let mut counts: BTreeMap<(&str, bool), usize> = BTreeMap::new();
    for (s, p) in SHAPES {
        let (field, n) = (field(p), (1 << s) - 1);
        let mut random = Random::new(u64::from(p) << 8 | u64::from(s));
        for _ in 0..if s == 6 { 12 } else { 60 } {
            let a = drawn(n, field.q(), &mut random);
            for sort in ["weight", "symbols", "gaps", "support", "mirror"] {
                let b = near(field, &a, sort, &mut random);
                assert_eq!(word::weight(&a), word::weight(&b));
                let copy = generate::likeness(field, &a, &b).is_some();
                assert_eq!(word::alike(field, &a, &b), copy, "{a:?} {b:?}");
                assert_eq!(word::alike(field, &b, &a), copy, "{a:?} {b:?}");
                *counts.entry((sort, copy)).or_default() += 1;
            }
        }
    }
    println!("near misses, and copies: {counts:?}");
    for sort in ["weight", "symbols", "gaps", "support", "mirror"] {
        assert!(counts[&(sort, false)] > 100, "{sort}: {counts:?}");
    }
}

/// A book whose code words have one symbol in all places, so that the dual
/// words are those whose symbols add up to zero.
fn book(s: u8, p: u8, dual_words: &[Vec<u8>]) -> Vec<u8> {
    books::write(s, p, &vec![1; (1 << s) - 1], 3, 1, dual_words)
}

#[test]
fn every_two_dual_words_of_length_7() {
    // Words of weight 4 with 1 at place 0: by their gaps, five classes of
    // four.
    let words: Vec<Vec<u8>> = all_words(7, 2)
        .into_iter()
        .filter(|b| b[0] == 1 && word::weight(b) == 4)
        .collect();
    let (mut accepted, mut refused) = (0, 0);
    for a in &words {
        for b in &words {
            match check(&book(3, 1, &[a.clone(), b.clone()])) {
                Ok(_) => accepted += 1,
                Err(number) => {
                    assert_eq!(number, 8);
                    refused += 1;
                }
            }
        }
    }
    assert_eq!((accepted, refused), (20 * 16, 20 * 4));
    // One of each class, among them two mirror images; and no word more.
    let five = ["1111000", "1110100", "1110010", "1101100", "1101010"].map(symbols);
    assert_eq!(check(&book(3, 1, &five)).map(|book| book.l()), Ok(5));
    for word in words {
        let six = [&five[..], &[word]].concat();
        assert_eq!(check(&book(3, 1, &six)).err(), Some(8));
    }
}

#[test]
fn books_of_near_misses_are_accepted() {
    let accepted = |s, p, words: &[&str]| {
        let words: Vec<Vec<u8>> = words.iter().map(|b| symbols(b)).collect();
        assert_eq!(
            check(&book(s, p, &words)).map(|book| book.l()),
            Ok(words.len())
        );
    };
    // Mirror images.
    accepted(3, 1, &["1110100", "1110010"]);
    accepted(2, 2, &["123", "132"]);
    // The same places, other symbols.
    accepted(
        3,
        3,
        &["1230000", "1320000", "1450000", "1540000", "1670000"],
    );
    // The same symbols at other places.
    accepted(
        3,
        3,
        &["1230000", "1203000", "1200300", "1200030", "1023000"],
    );
    // The same gaps, turned, other symbols.
    accepted(3, 3, &["1203000", "1030002", "1000230"]);
    // Weight 2 at every distance.
    let pairs: Vec<Vec<u8>> = (1..=31)
        .map(|place| [vec![1], vec![0; place - 1], vec![1]].concat())
        .collect();
    assert_eq!(check(&book(6, 6, &pairs)).map(|book| book.l()), Ok(31));
    // From distance 32 on they come again, turned.
    for place in 32..=62 {
        let more = [
            &pairs[..],
            &[[vec![1], vec![0; place - 1], vec![1]].concat()],
        ]
        .concat();
        assert_eq!(check(&book(6, 6, &more)).err(), Some(8));
    }
}
