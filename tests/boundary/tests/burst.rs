//! Bursts against words mixed by hand, against the second implementation and
//! against single calls of decode, with words of every kind at every place.

use std::ops::RangeInclusive;

use boundary::burst::{Burst, Outcome};
use boundary::draw::bursts::{every_small, on_books, word, KINDS, SMALL};
use boundary::draw::{self, Book};
use boundary::tally::Tally;
use reference::books::{self, symbols};
use reference::burst::{mix, MOST_WORDS};
use reference::generate::{Random, SHAPES};
use reference::packed::Record;

/// A burst against what is known of its words, each written as the program
/// writes it: kind, rounds, changed, answer.
fn followed(book: Vec<u8>, mixed: &str, words: &[&str]) {
    let received = symbols(mixed);
    let burst = Burst {
        seed: 0,
        book: &book,
        words: words.len() as u32,
        received: &received,
        answers: &vec![0xa5; received.len()],
        records: &vec![[0xa5; 3]; words.len()],
    };
    let (mut answers, mut records) = (Vec::new(), Vec::new());
    for word in words {
        let (record, answer) = word.rsplit_once(' ').expect("a record and an answer");
        let numbers = symbols(record);
        records.push([record.as_bytes()[0], numbers[0], numbers[1]]);
        answers.extend(symbols(answer));
    }
    burst.against(&Outcome {
        result: 0,
        answers,
        records,
    });
}

#[test]
fn words_mixed_by_hand() {
    // The program's three words, place by place, and the same the other way
    // round.
    let [one, two, three] = ["M 1 1 0000000", "M 1 1 1101000", "C 0 0 1101000"];
    let mixed = "111 011 000 001 000 000 000";
    followed(books::a(), mixed, &[one, two, three]);
    let mixed = "111 110 000 100 000 000 000";
    followed(books::a(), mixed, &[three, two, one]);
    // One word, and sixteen.
    followed(books::a(), "1100000", &[two]);
    let mixed = ["1".repeat(16), "0".repeat(96)].concat();
    followed(books::a(), &mixed, &[one; 16]);
    // Cases 10 and 11, case 9 before and after a code word, cases 14 and 4.
    followed(books::b(), "31 12 10", &["M 1 1 111", "S 1 0 120"]);
    let mixed = "111 010 000 010 000 000 000";
    let spent = "X 3 0 1000000";
    followed(books::a_with(7), mixed, &[spent, three, spent]);
    followed(books::c_with(3), "10 02 01", &["M 1 3 032", "C 0 0 021"]);
    println!("burst, words mixed by hand: 7 tried");
}

/// The words mixed, on both sides and one by one, twice into buffers that
/// hold different bytes before; how many products of symbols they take.
fn compared(
    seed: u64,
    book: &Book,
    words: &[Vec<u8>],
    random: &mut Random,
    tally: &mut Tally,
) -> usize {
    let received = mix(words);
    let answers = draw::bytes(received.len(), random);
    let records = draw::records(words.len(), random);
    let burst = Burst {
        seed,
        book: &book.bytes,
        words: words.len() as u32,
        received: &received,
        answers: &answers,
        records: &records,
    };
    let given = burst.compare_open(&book.parts);
    burst.compare_singly();
    // Other bytes before at every place.
    let answers: Vec<u8> = answers.iter().map(|byte| !byte).collect();
    let records: Vec<Record> = records
        .iter()
        .map(|record| record.map(|byte| !byte))
        .collect();
    let other = Burst {
        answers: &answers,
        records: &records,
        ..burst
    };
    other.against(&given);

    tally.tried();
    tally.count("M", words.len());
    tally.count("s and p", book.shape());
    let mut products = 0;
    for (m, &[letter, rounds, _]) in given.records.iter().enumerate() {
        let kind = char::from(letter);
        tally.count("kind at each place", format!("{kind} {m}"));
        if m == 0 {
            tally.count("first", kind);
        }
        if m == words.len() - 1 {
            tally.count("last", kind);
        }
        products += book.products(book.parts.l(), rounds);
    }
    products
}

/// Drawn bursts of every s and p given, with every M, and with every kind at
/// each place.
fn bursts(title: &'static str, test: u8, sizes: RangeInclusive<u8>, most: u32, products: usize) {
    let shapes = SHAPES.iter().filter(|(s, _)| sizes.contains(s));
    let places = (0..MOST_WORDS).flat_map(|m| KINDS.map(|kind| format!("{kind} {m}")));
    let mut tally = Tally::new(title)
        .due("s and p", shapes.clone().map(|(s, p)| format!("{s} {p}")))
        .due("M", 1..=MOST_WORDS)
        .due("first", KINDS)
        .due("last", KINDS)
        .due("kind at each place", places);
    for &shape in shapes {
        on_books(test, shape, most, products, |seed, book, random| {
            let count = random.between(1, MOST_WORDS as usize);
            let words: Vec<Vec<u8>> = (0..count).map(|_| word(book, random)).collect();
            compared(seed, book, &words, random, &mut tally)
        });
    }
    tally.finish(5);
}

#[test]
fn bursts_of_s_2_to_5() {
    bursts("burst, s 2 to 5", 4, 2..=5, 300, 12_000_000);
}

#[test]
fn bursts_of_s_6() {
    bursts("burst, s 6", 5, 6..=6, 200, 40_000_000);
}

#[test]
fn bursts_of_s_7_and_8() {
    bursts("burst, s 7 and 8", 6, 7..=8, 200, 200_000_000);
}

#[test]
fn every_burst_of_small_codebooks() {
    let mut tally = Tally::new("burst, every burst of small codebooks")
        .due("s and p", SMALL)
        .due("M", 1..=4)
        .due("first", KINDS)
        .due("last", KINDS);
    every_small(7, |seed, book, words, random| {
        compared(seed, book, words, random, &mut tally);
    });
    tally.finish(1);
}

#[test]
fn sixteen_words_of_every_stored_codebook() {
    let names = books::LONG.map(|(name, _)| name);
    let mut tally = Tally::new("burst, stored codebooks")
        .due("codebook", names)
        .due("kind", KINDS);
    for (at, (name, bytes)) in (0..).zip(books::LONG) {
        let seed = draw::seed(8, 8, 0, at);
        let mut random = Random::new(seed);
        let book = Book::new(bytes.to_vec());
        let words: Vec<Vec<u8>> = (0..MOST_WORDS).map(|_| word(&book, &mut random)).collect();
        let burst = Burst {
            seed,
            book: bytes,
            words: MOST_WORDS,
            received: &mix(&words),
            answers: &draw::bytes(16 * book.parts.n(), &mut random),
            records: &draw::records(16, &mut random),
        };
        // The second implementation takes long by the whole one.
        let given = burst.compare_singly();
        tally.tried();
        tally.count("codebook", name);
        for record in given.records {
            tally.count("kind", char::from(record[0]));
        }
    }
    tally.finish(1);
}
