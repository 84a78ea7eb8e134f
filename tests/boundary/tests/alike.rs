//! Condition 8 at the C boundary: dual words that are alike, at every two
//! positions of a codebook, and dual words that nearly are.

use boundary::compare::{hex, Trial};
use boundary::draw::{self, Book};
use boundary::tally::Tally;
use boundary::way::COPIES;
use boundary::{refusal, Operation};
use reference::books::{self, symbols};
use reference::field::Field;
use reference::generate::{likeness, Random, SHAPES};
use reference::word;

fn field(p: u8) -> Field {
    Field::new(p).expect("1 to 6")
}

/// The number that library and second implementation return for the bytes.
fn compared(seed: u64, book: &[u8]) -> u8 {
    let trial = Trial {
        seed,
        operation: Operation::Check,
        book,
        input: &[],
        held: &[],
    };
    refusal(trial.compare().result)
}

/// A codebook whose code words have one symbol in all places: its dual words
/// are those whose symbols add up to zero.
fn sums(s: u8, p: u8, dual_words: &[Vec<u8>]) -> Vec<u8> {
    books::write(s, p, &vec![1; (1 << s) - 1], 3, 1, dual_words)
}

#[test]
fn the_examples() {
    let refused = |s, p, g: &str, words: &[&str], number| {
        let words: Vec<Vec<u8>> = words.iter().map(|word| symbols(word)).collect();
        let book = books::write(s, p, &symbols(g), 3, 1, &words);
        assert_eq!(refusal(boundary::check(&book)), number, "{words:?}");
    };
    // Book A with its word twice, and the installer's.
    refused(3, 1, "1101", &["1110100", "1110100"], 8);
    refused(3, 1, "1101", &["1110100", "1101001"], 8);
    refused(3, 1, "1101", &["1110100", "1010011"], 8);
    refused(3, 1, "1101", &["1110100", "1001110"], 8);
    // Over GF(4), turned and scaled at once; and scaled alone, which is 7.
    refused(2, 2, "231", &["120", "103"], 8);
    refused(2, 2, "231", &["103", "120"], 8);
    refused(2, 2, "231", &["120", "310"], 7);
    // Not alike: mirror images, and with the same places.
    refused(3, 1, "1111111", &["1110100", "1110010"], 0);
    refused(2, 2, "111", &["123", "132"], 0);
    println!("check, examples of copies: 9 tried");
}

/// Every word of so many symbols with 1 at place 0 whose symbols add up to
/// zero.
fn all_dual_words(n: usize, q: u8) -> Vec<Vec<u8>> {
    let q = usize::from(q);
    let word = |number: usize| -> Vec<u8> {
        let digit = |j| (number / q.pow(j) % q) as u8;
        (0..n as u32).map(digit).collect()
    };
    (0..q.pow(n as u32))
        .map(word)
        .filter(|word| word[0] == 1 && word.iter().fold(0, |sum, symbol| sum ^ symbol) == 0)
        .collect()
}

#[test]
fn every_two_dual_words_of_small_codebooks() {
    let mut tally = Tally::new("check, every two dual words").due("result", [0, 7, 8]);
    // By hand: of length 7 there are 6, 20 and 6 words of weights 2, 4 and
    // 6, in 3, 5 and 1 classes of alike ones; of length 3 over GF(4) 110 and
    // 101, which are alike, and 123 and 132, which are not.
    for (s, p, counts) in [(3, 1, (344, 552, 128)), (2, 2, (2, 8, 6))] {
        let words = all_dual_words((1 << s) - 1, 1 << p);
        let (mut accepted, mut sevens, mut eights) = (0, 0, 0);
        for a in &words {
            for b in &words {
                let number = compared(0, &sums(s, p, &[a.clone(), b.clone()]));
                tally.tried();
                tally.count("result", number);
                accepted += usize::from(number == 0);
                sevens += usize::from(number == 7);
                eights += usize::from(number == 8);
            }
        }
        assert_eq!((accepted, sevens, eights), counts, "s {s}, p {p}");
    }
    tally.finish(10);
}

/// How a near miss is made from a dual word.
const NEAR: [&str; 5] = ["mirror", "places", "gaps", "symbols", "two symbols"];

/// A dual word for `sums`, of weight 3 or more where n is above 3.
fn dual_word(n: usize, q: u8, random: &mut Random) -> Vec<u8> {
    loop {
        let mut word = vec![0; n];
        let weight = random.between(2, n);
        let mut places: Vec<usize> = (1..n).collect();
        random.shuffle(&mut places);
        for &place in &places[..weight - 1] {
            word[place] = random.symbol(1, q);
        }
        word[0] = 1;
        let last = places[weight - 2];
        word[last] ^= word.iter().fold(0, |sum, symbol| sum ^ symbol);
        if word[last] != 0 && (weight > 2 || n == 3) {
            return word;
        }
    }
}

/// A dual word of the same weight that is nearly alike: the mirror image;
/// other symbols at the same places; the same turned; the same symbols at
/// other places; a copy with two symbols changed. It may be a copy yet.
fn near(field: Field, a: &[u8], sort: &str, random: &mut Random) -> Vec<u8> {
    let n = a.len();
    let mut b = a.to_vec();
    match sort {
        "mirror" => b = (0..n).map(|j| a[(n - j) % n]).collect(),
        "symbols" => random.shuffle(&mut b[1..]),
        "places" => b = other_symbols(a, field.q(), random),
        "gaps" => b = copy(field, &other_symbols(a, field.q(), random), random),
        _ => {
            b = copy(field, a, random);
            let (i, j) = (random.between(1, n - 1), random.between(1, n - 1));
            let error = random.symbol(1, field.q());
            if i != j && b[i] != 0 && b[j] != 0 && b[i] != error && b[j] != error {
                b[i] ^= error;
                b[j] ^= error;
            }
        }
    }
    b
}

/// Other symbols at the same places, with the sum zero again.
fn other_symbols(a: &[u8], q: u8, random: &mut Random) -> Vec<u8> {
    loop {
        let mut b = a.to_vec();
        let nonzero = b[1..].iter_mut().filter(|symbol| **symbol != 0);
        nonzero.for_each(|symbol| *symbol = random.symbol(1, q));
        if b.iter().fold(0, |sum, symbol| sum ^ symbol) == 0 {
            return b;
        }
    }
}

/// The word from any of its places: turned and scaled so that 1 is at 0.
fn copy(field: Field, word: &[u8], random: &mut Random) -> Vec<u8> {
    loop {
        let place = random.below(word.len());
        if let Some(inverse) = field.inverse(word[place]) {
            let turned = word::turn(word, word.len() - place);
            return word::scale(field, &turned, inverse);
        }
    }
}

#[test]
fn near_misses() {
    let mut tally = Tally::new("check, two dual words that are nearly alike")
        .due("accepted", NEAR)
        .due(
            "accepted, s and p",
            SHAPES[1..].iter().map(|(s, p)| format!("{s} {p}")),
        );
    for (s, p) in SHAPES {
        let (field, n) = (field(p), (1 << s) - 1);
        for trial in 0..if s >= 6 { 20 } else { 60 } {
            let seed = draw::seed(1, s, p, trial);
            let mut random = Random::new(seed);
            let a = dual_word(n, field.q(), &mut random);
            for sort in NEAR {
                let b = near(field, &a, sort, &mut random);
                let number = compared(seed, &sums(s, p, &[a.clone(), b.clone()]));
                tally.tried();
                match likeness(field, &a, &b) {
                    None => {
                        assert_eq!(number, 0, "{sort}, {} {}", hex(&a), hex(&b));
                        tally.count("accepted", sort);
                        tally.count("accepted, s and p", format!("{s} {p}"));
                    }
                    Some(way) => {
                        assert_eq!(number, 8, "{sort}, {} {}", hex(&a), hex(&b));
                        tally.count("refused", way);
                    }
                }
            }
        }
    }
    tally.finish(10);
}

#[test]
fn codebooks_of_near_misses() {
    let mut tally = Tally::new("check, many dual words that are nearly alike").due(
        "32 dual words, s and p",
        SHAPES[3..].iter().map(|(s, p)| format!("{s} {p}")),
    );
    for &(s, p) in &SHAPES[3..] {
        let (field, n) = (field(p), (1 << s) - 1);
        for trial in 0..4 {
            let seed = draw::seed(2, s, p, trial);
            let mut random = Random::new(seed);
            let mut words = vec![dual_word(n, field.q(), &mut random)];
            for _ in 0..400 {
                let from = words[random.below(words.len())].clone();
                let sort = NEAR[random.below(NEAR.len())];
                let word = near(field, &from, sort, &mut random);
                let new = !words.iter().any(|known| word::alike(field, known, &word));
                if new && words.len() < 32 {
                    words.push(word);
                }
            }
            assert_eq!(compared(seed, &sums(s, p, &words)), 0, "seed {seed:#x}");
            tally.tried();
            tally.count("L", words.len());
            if words.len() == 32 {
                tally.count("32 dual words, s and p", format!("{s} {p}"));
            }
        }
    }
    tally.finish(1);
}

/// Which two of so many positions.
fn position(one: usize, other: usize, l: usize) -> &'static str {
    match (one, other) {
        (0, other) if other == l - 1 => "first and last",
        (one, other) if other == one + 1 => "neighbours",
        _ => "apart",
    }
}

/// All two positions among 32 where n is below 63, which takes long; for
/// fewer dual words and for n 63 those with the first, with the last, and
/// the neighbours.
fn positions(s: u8, l: usize) -> impl Iterator<Item = (usize, usize)> {
    let all = s < 6 && l == 32;
    let chosen = move |one: usize, other: usize| {
        all || position(one, other, l) != "apart" || l == 32 && (one == 0 || other == l - 1)
    };
    (0..l)
        .flat_map(move |one| (one + 1..l).map(move |other| (one, other)))
        .filter(move |&(one, other)| chosen(one, other))
}

#[test]
fn one_pair_at_every_two_positions() {
    let mut tally = Tally::new("check, one alike pair")
        .due("positions", ["first and last", "neighbours", "apart"])
        .due("way", COPIES)
        .due("L", 2..=32)
        .due("s and p", SHAPES.map(|(s, p)| format!("{s} {p}")));
    for (s, p) in SHAPES {
        let mut random = Random::new(draw::seed(3, s, p, 0));
        let books = (0..80).map(|_| Book::any(s, p, &mut random));
        let book = books.max_by_key(|book| book.parts.l()).expect("some");
        let unlike = book.parts.dual_words();
        // Those of many places take long.
        let few = |l: &usize| s < 7 || [2, 3, 17, 32].contains(l);
        for l in (2..=32.min(unlike.len() + 1)).filter(few) {
            for (one, other) in positions(s, l) {
                // The copy comes between the others, all of which stay.
                let mut words = unlike[..l - 1].to_vec();
                let copy = copy(book.parts.field(), &words[one], &mut random);
                let way = likeness(book.parts.field(), &copy, &words[one]).expect("a copy");
                words.insert(other, copy);
                let (i, d) = (book.parts.most_rounds(), book.parts.most_places());
                let bytes = books::write(s, p, book.parts.generator(), i, d, &words);
                let number = refusal(boundary::check(&bytes));
                assert_eq!(number, 8, "{way} {one} {other}, {}", hex(&bytes));
                tally.tried();
                tally.count("positions", position(one, other, l));
                tally.count("way", way);
                tally.count("L", l);
                tally.count("s and p", format!("{s} {p}"));
            }
        }
    }
    tally.finish(1);
}

/// Codebooks in which the words that are not alike are the hardest to tell:
/// many share the number that the library compares first.
const DEAR: [&str; 7] = [
    "n63p1_light",
    "n63p1_equal",
    "n63p1_dear",
    "n63p2_equal",
    "n63p2_dear",
    "n63p6_equal",
    "n63p6_dear",
];

/// A codebook that the bench has stored.
fn stored(name: &str) -> Book {
    let folder = concat!(env!("CARGO_MANIFEST_DIR"), "/../../bench/books");
    let bytes = std::fs::read(format!("{folder}/{name}.book"));
    Book::new(bytes.expect("a stored codebook"))
}

/// The dear codebooks, and those of the long form that have two dual words.
fn dear() -> impl Iterator<Item = (&'static str, Book)> {
    let long = books::LONG
        .into_iter()
        .map(|(name, bytes)| (name, Book::new(bytes.to_vec())))
        .filter(|(_, book)| book.parts.l() > 1);
    DEAR.into_iter()
        .map(|name| (name, stored(name)))
        .chain(long)
}

#[test]
fn codebooks_that_are_dear_to_compare() {
    let mut tally = Tally::new("check, dear codebooks").due("result", ["accepted", "refused"]);
    for (name, book) in dear() {
        let (words, l, form) = (book.parts.dual_words(), book.parts.l(), book.parts.form());
        assert_eq!(boundary::check(&book.bytes), 256 * l as u32, "{name}");
        tally.tried();
        tally.count("result", "accepted");
        let mut random = Random::new(draw::seed(4, book.parts.s(), book.parts.field().p(), 0));
        for (one, other) in positions(6, l).chain((1..l).map(|one| (one, 0))) {
            let copy = copy(book.parts.field(), &words[one], &mut random);
            let mut damaged = book.bytes.clone();
            let to = form.body(other);
            damaged[to..to + copy.len()].copy_from_slice(&copy);
            let number = refusal(boundary::check(&damaged));
            assert_eq!(number, 8, "{name} {one} {other}");
            tally.tried();
            tally.count("result", "refused");
        }
    }
    tally.finish(7);
}
