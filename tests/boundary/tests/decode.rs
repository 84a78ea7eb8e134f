//! Decode against the scope's words followed by hand, and against the
//! second implementation.

use boundary::compare::{hex, Trial};
use boundary::draw::{self, Book, Shelf};
use boundary::tally::Tally;
use boundary::way::{copy, COPIES};
use boundary::{changed, decode, kind, refusal, rounds, Operation};
use reference::books::{self, symbols};
use reference::field::product;
use reference::generate::{self, Random, SHAPES};

/// Decodes on both sides; the result, counted by all that matters of it.
fn compared(seed: u64, book: &Book, received: &[u8], held: &[u8], tally: &mut Tally) -> u32 {
    let trial = Trial {
        seed,
        operation: Operation::Decode,
        book: &book.bytes,
        input: received,
        held,
    };
    let result = trial.compare().result;
    tally.tried();
    if refusal(result) != 0 {
        tally.count("refusal", refusal(result));
        return result;
    }
    let (kind, parts) = (kind(result), &book.parts);
    let (n, i, d) = (parts.n(), parts.most_rounds(), parts.most_places());
    tally.count("kind", kind);
    if rounds(result) >= 2 {
        tally.count("2 rounds or more", kind);
    }
    if kind == 'M' {
        tally.count("changed of M", end(changed(result).into(), n, "n"));
        tally.count("digits of changed", changed(result).to_string().len());
    }
    tally.count("I", end(i.into(), 63, "63"));
    tally.count("D", end(d.into(), n, "n"));
    tally.count("L", end(parts.l(), 32, "32"));
    tally.count("s and p", book.shape());
    result
}

/// At which end a number is, if at one.
fn end(number: usize, most: usize, name: &str) -> &str {
    match number {
        1 => "1",
        number if number == most => name,
        _ => "between",
    }
}

/// What must occur where words are drawn for drawn codebooks.
fn due(tally: Tally) -> Tally {
    tally
        .due("kind", ['C', 'M', 'S', 'X'])
        .due("2 rounds or more", ['M', 'S', 'X'])
        .due("changed of M", ["1", "between", "n"])
        .due("I", ["1", "between", "63"])
        .due("D", ["1", "between", "n"])
        .due("L", ["1", "between", "32"])
        .due("errors", ["0", "1", "between", "n", "arbitrary"])
}

/// How much is tried for an s and p.
struct Extent {
    /// How many codebooks are taken at most.
    books: u32,
    /// How many products of symbols a decode may take; now and then eight
    /// times as many.
    decode: usize,
    /// With how many products of all decodes it ends.
    all: usize,
}

/// Words of every sort for codebooks with every L, I and D, and for light
/// ones as often.
fn drawn_words(test: u8, s: u8, p: u8, extent: &Extent, tally: &mut Tally) {
    let mut random = Random::new(draw::seed(test, s, p, u32::MAX));
    let shelf = Shelf::new(s, p, 100, &mut random);
    let mut spent = 0;
    for trial in 0..extent.books {
        if spent > extent.all {
            break;
        }
        let seed = draw::seed(test, s, p, trial);
        let mut random = Random::new(seed);
        let l = 32 - 11 * trial as usize % 32;
        let most = if trial % 8 == 0 { 8 } else { 1 } * extent.decode;
        let taken = shelf.take(l, most, &mut random);
        tally.count("every L", taken.parts.l());
        for book in [taken, shelf.light(&mut random)] {
            for _ in 0..3 {
                let mut size = book.parts.n();
                if random.once_in(16) {
                    size = draw::size(size, &mut random);
                }
                let received = drawn_word(&book, &mut random, tally);
                let held = draw::bytes(size, &mut random);
                let result = compared(seed, &book, &received, &held, tally);
                spent += book.products(book.parts.l(), rounds(result));
            }
        }
    }
}

/// A word with errors: none, few, somewhat more than D, any number; or an
/// arbitrary one; now and then one to be refused.
fn drawn_word(book: &Book, random: &mut Random, tally: &mut Tally) -> Vec<u8> {
    let parts = &book.parts;
    let (n, d) = (parts.n(), usize::from(parts.most_places()));
    let errors = match random.below(16) {
        0 => return generate::any_word(parts, random),
        1 => {
            tally.count("errors", "arbitrary");
            return generate::arbitrary(n, parts.q(), random);
        }
        2 => 0,
        3..=5 => random.between(0, n),
        6..=10 => random.between(1, n.min(4)),
        _ => n.min(d + random.below(3)),
    };
    match errors {
        0 => tally.count("errors", "0"),
        errors => tally.count("errors", end(errors, n, "n")),
    }
    generate::damaged_code_word(parts, errors, random)
}

#[test]
fn words_of_s_2_to_5() {
    let shapes = SHAPES.iter().filter(|(s, _)| *s < 6);
    let names = shapes.clone().map(|(s, p)| format!("{s} {p}"));
    let mut tally = due(Tally::new("decode, s 2 to 5"))
        .due("s and p", names)
        .due("every L", 1..=32);
    for &(s, p) in shapes {
        let extent = Extent {
            books: 400,
            decode: 100_000,
            all: 16_000_000,
        };
        drawn_words(1, s, p, &extent, &mut tally);
    }
    tally.finish(10);
}

#[test]
fn words_of_s_6() {
    let shapes = SHAPES.iter().filter(|(s, _)| *s == 6);
    let names = shapes.clone().map(|(s, p)| format!("{s} {p}"));
    let mut tally = due(Tally::new("decode, s 6")).due("s and p", names);
    for &(s, p) in shapes {
        let extent = Extent {
            books: 100,
            decode: 400_000,
            all: 25_000_000,
        };
        drawn_words(2, s, p, &extent, &mut tally);
    }
    tally.finish(1);
}

#[test]
fn words_of_s_7_and_8() {
    let names = generate::long_shapes().map(|(s, p)| format!("{s} {p}"));
    let mut tally = due(Tally::new("decode, s 7 and 8"))
        .due("s and p", names)
        .due("digits of changed", [1, 2, 3]);
    for (s, p) in generate::long_shapes() {
        let extent = Extent {
            books: 400,
            decode: 1_000_000,
            all: 600_000_000,
        };
        drawn_words(6, s, p, &extent, &mut tally);
    }
    tally.finish(1);
}

/// A word with one error, on both sides.
fn one_error(seed: u64, book: &Book, random: &mut Random, tally: &mut Tally) {
    let received = generate::damaged_code_word(&book.parts, 1, random);
    let held = draw::bytes(received.len(), random);
    compared(seed, book, &received, &held, tally);
}

#[test]
fn the_largest_column_of_all() {
    let mut tally = Tally::new("decode, a column of 8160").due("s and p", ["8 4"]);
    let book = Book::new(books::long("n255p4_whole"));
    assert_eq!(book.parts.l() * book.parts.weight(), 8160);
    let seed = draw::seed(7, 8, 4, 0);
    one_error(
        seed,
        &book.with(32, 1, 4),
        &mut Random::new(seed),
        &mut tally,
    );
    tally.finish(1);
}

#[test]
fn the_largest_columns() {
    let mut tally = Tally::new("decode, the largest columns")
        .due("kind", ['M'])
        .due("L times weight", ["256 or more"]);
    for (s, p) in [(4, 4), (5, 1), (5, 5), (6, 1), (6, 2), (6, 3), (6, 6)] {
        let seed = draw::seed(3, s, p, 0);
        let mut random = Random::new(seed);
        let shelf = Shelf::new(s, p, 60, &mut random);
        for quarters in [3, 4] {
            let book = shelf.largest(quarters).expect("some");
            let l = book.parts.l();
            let column = match l * book.parts.weight() {
                ..256 => "below 256",
                _ => "256 or more",
            };
            tally.count("L times weight", column);
            one_error(seed, &book.with(l, 1, 1), &mut random, &mut tally);
        }
    }
    tally.finish(5);
}

#[test]
fn every_word_of_small_codebooks() {
    let mut tally = Tally::new("decode, every word of small codebooks")
        .due("kind", ['C', 'M', 'S', 'X'])
        .due("2 rounds or more", ['M', 'S', 'X'])
        .due("s and p", ["2 1", "2 2", "3 1"]);
    for (s, p, count) in [(2, 1, 12), (2, 2, 24), (3, 1, 24)] {
        for trial in 0..count {
            let seed = draw::seed(4, s, p, trial);
            let mut random = Random::new(seed);
            let any = Book::any(s, p, &mut random);
            let (n, q) = (any.parts.n(), any.parts.q());
            for d in 1..=n as u8 {
                let i = *random.pick(&[1, 2, 3, 63]);
                let book = any.with(any.parts.l(), i, d);
                for word in 0..usize::from(q).pow(n as u32) {
                    let digit = |j| word / usize::from(q).pow(j) % usize::from(q);
                    let received: Vec<u8> = (0..n as u32).map(|j| digit(j) as u8).collect();
                    let held = draw::bytes(n, &mut random);
                    compared(seed, &book, &received, &held, &mut tally);
                }
            }
        }
    }
    tally.finish(1);
}

#[test]
fn refusals() {
    let mut tally = Tally::new("decode, refusals")
        .due("refusal", 1..=11)
        .due("copy", COPIES);
    for (s, p) in SHAPES {
        let mut random = Random::new(draw::seed(5, s, p, u32::MAX));
        let shelf = Shelf::new(s, p, 30, &mut random);
        for trial in 0..if s >= 6 { 8 } else { 30 } {
            let seed = draw::seed(5, s, p, trial);
            let mut random = Random::new(seed);
            let book = shelf.take(1 + random.below(4), 500_000, &mut random);
            let (n, q) = (book.parts.n(), book.parts.q());
            for fault in (0..=11).chain([8, 8]) {
                let mut damaged = book.clone();
                generate::damage(&mut damaged.bytes, fault, &mut random);
                if fault == 8 {
                    let copy = copy(&book, &damaged.bytes);
                    tally.count("copy", copy.expect("a copy"));
                }
                let right = generate::damaged_code_word(&book.parts, 1, &mut random);
                let received = match fault {
                    0 => right,
                    9 => generate::wrong_length(right, q, &mut random),
                    11 => generate::bad_symbol(right, q, &mut random),
                    _ => generate::any_word(&book.parts, &mut random),
                };
                let size = match fault {
                    0 | 11 => n,
                    _ => draw::size(n, &mut random),
                };
                let held = draw::bytes(size, &mut random);
                let result = compared(seed, &damaged, &received, &held, &mut tally);
                let meant = matches!(fault, 0 | 10) || refusal(result) == fault;
                assert!(meant, "seed {seed:#x}, fault {fault}: {result:#010x}");
            }
        }
    }
    tally.finish(50);
}

/// The library alone against what is known: kind, rounds, changed, answer.
fn decodes(book: &[u8], received: &[u8], expected: (char, u8, u8), answer: &[u8]) {
    let mut word = vec![255; received.len()];
    let result = decode(book, received, &mut word);
    let found = (kind(result), rounds(result), changed(result));
    assert!(
        refusal(result) == 0 && found == expected && word == answer,
        "{result:#010x} {}, not {expected:?} {}\ncodebook {}\ninput {}",
        hex(&word),
        hex(answer),
        hex(book),
        hex(received)
    );
}

/// The same with words as the scope writes them.
fn followed(book: Vec<u8>, received: &str, expected: (char, u8, u8), answer: &str) {
    decodes(&book, &symbols(received), expected, &symbols(answer));
}

#[test]
fn cases_6_to_14() {
    followed(books::a(), "1000000", ('M', 1, 1), "0000000");
    followed(books::a(), "1100000", ('M', 1, 1), "1101000");
    followed(books::a_with(6), "1000000", ('M', 1, 1), "0000000");
    followed(books::a_with(7), "1000000", ('X', 3, 0), "1000000");
    followed(books::b(), "311", ('M', 1, 1), "111");
    followed(books::b(), "120", ('S', 1, 0), "120");
    followed(books::b(), "132", ('S', 1, 0), "132");
    followed(books::c(), "100", ('S', 1, 0), "100");
    followed(books::c_with(3), "100", ('M', 1, 3), "032");
    // What the program prints third.
    followed(books::a(), "1101000", ('C', 0, 0), "1101000");
    println!("decode, cases 6 to 14 and the program's third word: 10 tried");
}

/// g is book A's times 1 + x, the dual word is A's.
fn smaller(d: u8) -> Vec<u8> {
    books::write(3, 1, &symbols("10111"), 3, d, &[symbols("1110100")])
}

/// Over GF(8), the code whose words have one symbol in all places; with the
/// dual word 11.
fn one_symbol(i: u8, d: u8) -> Vec<u8> {
    books::write(3, 3, &[1; 7], i, d, &[symbols("11")])
}

#[test]
fn more_words_followed_by_hand() {
    // The dual word lies in a smaller code, so that the matrix shows nothing
    // of a word that is no code word, and no peak is 1 or more.
    followed(smaller(1), "1101000", ('S', 1, 0), "1101000");
    followed(smaller(7), "1101000", ('S', 1, 0), "1101000");
    // The count of row 0 alone keeps place 1 out.
    followed(one_symbol(3, 1), "0100230", ('S', 1, 0), "0100230");
    // With the dual word 101 as well, the count of row 0 keeps place 2 out,
    // and that of the peaks places 5 and 6.
    let dual_words = ["11", "101"].map(symbols);
    let book = books::write(3, 3, &[1; 7], 3, 2, &dual_words);
    followed(book, "0010123", ('S', 1, 0), "0010123");
    // A shared peak alone keeps all places of case 11's word out.
    let mut book = books::b();
    book[69] = 3;
    followed(book, "120", ('S', 1, 0), "120");
    // Rounds by way of 0000230 to 0002233, whose update set is empty.
    followed(one_symbol(1, 4), "0100230", ('X', 1, 0), "0100230");
    followed(one_symbol(2, 4), "0100230", ('X', 2, 0), "0100230");
    followed(one_symbol(3, 4), "0100230", ('S', 3, 0), "0100230");
    followed(one_symbol(63, 4), "0100230", ('S', 3, 0), "0100230");
    followed(one_symbol(3, 3), "0100230", ('S', 2, 0), "0100230");
    println!("decode, more words followed by hand: 10 tried");
}

/// A word of S0's example 1: its alpha, symbol 2, to a power at each place
/// named, zero elsewhere.
fn powers(terms: &[(usize, usize)]) -> Vec<u8> {
    let mut word = vec![0; 7];
    for &(place, power) in terms {
        word[place] = (0..power).fold(1, |symbol, _| product(3, symbol, 2).expect("symbols"));
    }
    word
}

#[test]
fn example_1_of_s0() {
    // The product of x - alpha^j for j from 1 to 4.
    let g = powers(&[(0, 3), (1, 1), (2, 0), (3, 3), (4, 0)]);
    let dual_words = [
        powers(&[(0, 0), (1, 1), (2, 5), (6, 2)]),
        powers(&[(0, 0), (1, 0), (3, 0), (6, 0)]),
        powers(&[(0, 0), (2, 2), (3, 5), (6, 1)]),
        powers(&[(0, 0), (1, 2), (2, 4), (5, 3)]),
        powers(&[(0, 0), (2, 3), (4, 5), (6, 6)]),
    ];
    let sent = powers(&[(0, 6), (1, 4), (2, 4), (3, 3), (5, 6), (6, 3)]);
    let received = powers(&[(0, 6), (1, 5), (2, 4), (3, 3), (6, 3)]);
    let book = |d| books::write(3, 3, &g, 3, d, &dual_words);
    decodes(&book(2), &received, ('M', 1, 2), &sent);
    // With D 1 the two places tie.
    decodes(&book(1), &received, ('S', 1, 0), &received);
    decodes(&book(1), &sent, ('C', 0, 0), &sent);
    println!("decode, S0's example 1: 3 tried");
}
