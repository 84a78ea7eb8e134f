//! Check against the second implementation: accepted codebooks, damaged
//! ones, and bytes that are none.

use std::ops::RangeInclusive;

use boundary::compare::Trial;
use boundary::draw::{self, Book};
use boundary::tally::Tally;
use boundary::way::{way, WAYS};
use boundary::{refusal, Operation};
use reference::books;
use reference::form::Form;
use reference::generate::{damage, damage_all, Random, SHAPES};

/// The number that both sides return for the bytes, counted.
fn number(seed: u64, book: &[u8], tally: &mut Tally) -> u8 {
    let trial = Trial {
        seed,
        operation: Operation::Check,
        book,
        input: &[],
        held: &[],
    };
    let number = refusal(trial.compare().result);
    tally.tried();
    match number {
        0 => tally.count("result", "accepted"),
        number => tally.count("result", format!("refusal {number}")),
    }
    number
}

/// Refusals that must occur.
fn refusals(numbers: RangeInclusive<u8>) -> impl Iterator<Item = String> {
    numbers.map(|number| format!("refusal {number}"))
}

/// Checks of many places take long, so that fewer are made.
fn fewer(s: u8, count: u32) -> u32 {
    match s {
        6 => count / 5,
        7.. => count / 2,
        _ => count,
    }
}

/// Where the ways are counted that a codebook of the s is damaged in.
fn ways(s: u8) -> &'static str {
    match s {
        7.. => "way, long form",
        _ => "way",
    }
}

#[test]
fn accepted_and_damaged_codebooks() {
    let mut tally = Tally::new("check, accepted and damaged codebooks")
        .due("result", ["accepted"])
        .due("result", refusals(1..=8))
        .due("way", WAYS)
        .due("way, long form", WAYS);
    for (s, p) in SHAPES {
        for trial in 0..fewer(s, 150) {
            let seed = draw::seed(1, s, p, trial);
            let mut random = Random::new(seed);
            let book = Book::any(s, p, &mut random);
            assert_eq!(number(seed, &book.bytes, &mut tally), 0, "seed {seed:#x}");
            tally.count("accepted, s and p", format!("{s} {p}"));
            for fault in 1..=8 {
                for _ in 0..5 {
                    let mut damaged = book.bytes.clone();
                    damage(&mut damaged, fault, &mut random);
                    assert_eq!(number(seed, &damaged, &mut tally), fault, "seed {seed:#x}");
                    tally.count(ways(s), way(&book, fault, &damaged));
                }
            }
        }
    }
    tally.finish(20);
}

#[test]
fn several_faults_at_once() {
    let mut tally = Tally::new("check, several faults at once")
        .due("result", refusals(1..=8))
        .due("faults", 1..=8);
    for (s, p) in SHAPES {
        let mut random = Random::new(draw::seed(2, s, p, 0));
        let books: Vec<Book> = (0..24).map(|_| Book::any(s, p, &mut random)).collect();
        for faults in 1..=255u8 {
            let seed = draw::seed(2, s, p, faults.into());
            let mut random = Random::new(seed);
            let mut book = books[random.below(books.len())].bytes.clone();
            let faults: Vec<u8> = (1..=8)
                .filter(|fault| faults >> (fault - 1) & 1 == 1)
                .collect();
            damage_all(&mut book, &faults, &mut random);
            assert_eq!(number(seed, &book, &mut tally), faults[0], "seed {seed:#x}");
            tally.count("faults", faults.len());
        }
        // In any order, where a later fault may undo an earlier one.
        for trial in 0..100 {
            let seed = draw::seed(3, s, p, trial);
            let mut random = Random::new(seed);
            let mut book = books[random.below(books.len())].bytes.clone();
            for _ in 0..4 {
                let fault = random.symbol(1, 9);
                damage(&mut book, fault, &mut random);
                number(seed, &book, &mut tally);
            }
        }
    }
    tally.finish(13);
}

#[test]
fn random_bytes_of_every_length() {
    let mut tally = Tally::new("check, random bytes").due("result", refusals(1..=7));
    for length in (0..=2400).chain(8000..=8600) {
        let seed = draw::seed(4, 0, 0, length);
        let mut random = Random::new(seed);
        let book = draw::bytes(length as usize, &mut random);
        number(seed, &book, &mut tally);
    }
    // Random from one condition on, the parts before it being right.
    for (s, p) in SHAPES {
        for trial in 0..32 {
            for condition in 2..=7 {
                let seed = draw::seed(40 + condition, s, p, trial);
                let mut random = Random::new(seed);
                let l = 1 + trial as usize;
                let book = right_before(condition, s, p, l, &mut random);
                number(seed, &book, &mut tally);
            }
        }
    }
    tally.finish(100);
}

/// Random bytes of a codebook's length in which what the conditions before
/// the one given ask for is right.
fn right_before(condition: u8, s: u8, p: u8, l: usize, random: &mut Random) -> Vec<u8> {
    let (form, n) = (Form::with_size(s), (1 << s) - 1);
    let mut book = draw::bytes(form.length(l), random);
    let bodies = || std::iter::once(4).chain((0..l).map(|index| form.body(index)));
    if condition > 2 {
        for (at, kind) in [(0, 1), (3, form.generator), (form.limits(), 3)] {
            book[at] = kind;
        }
        for body in bodies().skip(1) {
            book[body - 1] = form.dual_word;
        }
    }
    if condition > 3 {
        (book[1], book[2]) = (s, p);
    }
    if condition > 4 {
        for body in bodies() {
            book[body..body + n].fill_with(|| random.symbol(0, 1 << p));
            book[body + n..body + form.width].fill(0);
        }
    }
    let limits = form.limits();
    if condition > 5 {
        let right = Book::any(s, p, random).bytes;
        book[4..limits].copy_from_slice(&right[4..limits]);
    }
    if condition > 6 {
        book[limits + 1] = random.between(1, 63) as u8;
        book[limits + 2] = random.between(1, n) as u8;
    }
    book
}

#[test]
fn cut_and_extended_codebooks() {
    let mut tally = Tally::new("check, cut and extended codebooks").due(
        "result",
        ["accepted", "refusal 1", "refusal 2", "refusal 8"],
    );
    for (s, p) in SHAPES {
        let seed = draw::seed(5, s, p, 0);
        let mut random = Random::new(seed);
        let (book, form) = (Book::any(s, p, &mut random).bytes, Form::with_size(s));
        for length in 0..book.len() {
            number(seed, &book[..length], &mut tally);
        }
        let records = &book[form.dual_words()..];
        for more in 1..=form.record() + 8 {
            let zeros = vec![0; more];
            let own = records.iter().copied().cycle().take(more).collect();
            let any = draw::bytes(more, &mut random);
            for tail in [zeros, own, any] {
                number(seed, &[&book[..], &tail].concat(), &mut tally);
            }
        }
        // To 32 dual words and beyond, by the records it has.
        let (first, all) = (&book[..form.dual_words()], records.iter().copied().cycle());
        for l in 30..=36 {
            let records: Vec<u8> = all.clone().take(form.record() * l).collect();
            number(seed, &[first, &records].concat(), &mut tally);
        }
    }
    tally.finish(13);
}

#[test]
fn every_byte_changed() {
    let mut tally = Tally::new("check, every byte changed")
        .due("result", ["accepted"])
        .due("result", refusals(2..=7));
    for (s, p) in SHAPES {
        let seed = draw::seed(6, s, p, 0);
        let mut random = Random::new(seed);
        let book = Book::any(s, p, &mut random);
        let book = book.with(book.parts.l().min(2), 3, 1).bytes;
        for at in 0..book.len() {
            let any = random.byte();
            let values = [0, 1 << p, 255, book[at] ^ 1, any, 1, 2, 3, 5, 63, 64];
            for &byte in &values[..if s > 6 { 4 } else { 11 }] {
                let mut changed = book.clone();
                changed[at] = byte;
                number(seed, &changed, &mut tally);
            }
        }
    }
    tally.finish(1);
}

#[test]
fn every_s_and_p() {
    let mut tally = Tally::new("check, every s and p").due("result", ["accepted", "refusal 3"]);
    for (book, long) in [(books::a(), false), (books::long("n255p1"), true)] {
        let mut left = Vec::new();
        for (s, p) in (0..=255).flat_map(|s| (0..=255).map(move |p| (s, p))) {
            let mut book = book.clone();
            (book[1], book[2]) = (s, p);
            if number(0, &book, &mut tally) != 3 {
                left.push((s, p));
            }
        }
        let due = SHAPES.into_iter().filter(|(s, _)| (*s > 6) == long);
        assert_eq!(left, due.collect::<Vec<_>>());
    }
    tally.finish(1);
}

#[test]
fn the_count_of_dual_words_is_returned() {
    let mut tally = Tally::new("check, the count of dual words").due("L", 1..=32);
    for (s, p) in SHAPES {
        let seed = draw::seed(7, s, p, 0);
        let mut random = Random::new(seed);
        let books = (0..16).map(|_| Book::any(s, p, &mut random));
        let book = books.max_by_key(|book| book.parts.l()).expect("some");
        for l in 1..=book.parts.l() {
            let bytes = &book.bytes[..book.parts.form().length(l)];
            assert_eq!(number(seed, bytes, &mut tally), 0, "seed {seed:#x}");
            assert_eq!(boundary::check(bytes), 256 * l as u32, "seed {seed:#x}");
            tally.count("L", l);
        }
    }
    tally.finish(1);
}
