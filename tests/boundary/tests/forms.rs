//! The two forms of a codebook at the C boundary: byte 3 chooses between
//! them, and lengths, kinds, s, p and places are refused by the form chosen.

use std::collections::BTreeSet;

use boundary::burst::Burst;
use boundary::compare::Trial;
use boundary::draw::{self, Book};
use boundary::tally::Tally;
use boundary::{changed, kind, refusal, rounds, Operation, OPERATIONS};
use reference::books::{self, long, symbols};
use reference::form::{Form, FORMS, LONG, SHORT};
use reference::generate::{self, Random, SHAPES};

/// All operations on the bytes, on both sides. A refused book is refused by
/// every one, whatever the call is else; the number, or 0.
fn number(book: &[u8], random: &mut Random) -> u8 {
    let (input, held) = (draw::bytes(random.below(9), random), draw::bytes(7, random));
    let numbers = OPERATIONS.map(|operation| {
        let trial = Trial {
            seed: 0,
            operation,
            book,
            input: &input,
            held: &held,
        };
        refusal(trial.compare().result)
    });
    let burst = Burst {
        seed: 0,
        book,
        words: random.below(18) as u32,
        received: &input,
        answers: &held,
        records: &draw::records(random.below(3), random),
    };
    let numbers = [&numbers[..], &[refusal(burst.compare().result)]].concat();
    let refused = |number: &u8| (1..=8).contains(number);
    assert!(!numbers.iter().any(refused) || numbers == [numbers[0]; 7]);
    numbers[0]
}

/// A tally of numbers, and random bytes for the rest of the calls.
struct Numbers {
    tally: Tally,
    random: Random,
}

impl Numbers {
    fn new(tally: Tally) -> Numbers {
        let random = Random::new(draw::seed(1, 7, 8, 0));
        Numbers { tally, random }
    }

    /// The number must be the one due.
    fn due(&mut self, book: &[u8], number_due: u8, way: &str) {
        let found = number(book, &mut self.random);
        assert_eq!(found, number_due, "{way}, {} bytes", book.len());
        self.tally.tried();
        self.tally.count("way", format!("{number_due} {way}"));
    }
}

fn set(book: &[u8], at: usize, byte: u8) -> Vec<u8> {
    let mut book = book.to_vec();
    book[at] = byte;
    book
}

/// 70 + 64 x L and 262 + 256 x L, L from 1 to 32.
fn lengths(form: &Form) -> BTreeSet<usize> {
    let (first, record) = if form == &SHORT { (70, 64) } else { (262, 256) };
    (1..=32).map(|l| first + record * l).collect()
}

fn fits(form: &Form, book: &[u8]) -> bool {
    lengths(form).contains(&book.len())
}

/// So many bytes of the book, or more by its records.
fn of_length(book: &[u8], form: &Form, length: usize) -> Vec<u8> {
    let (first, records) = book.split_at(form.dual_words());
    let records = records.iter().cycle();
    first.iter().chain(records).copied().take(length).collect()
}

/// A short book of the s and p with just so many dual words.
fn short(s: u8, p: u8, l: usize) -> Book {
    let mut random = Random::new(draw::seed(2, s, p, l as u32));
    loop {
        let book = Book::any(s, p, &mut random);
        if book.parts.l() >= l {
            return book.with(l, book.parts.most_rounds(), book.parts.most_places());
        }
    }
}

#[test]
fn the_requests_examples() {
    let mut numbers = Numbers::new(Tally::new("forms, the request's examples"));
    assert_eq!(books::a().len(), 134);
    numbers.due(&set(&books::a(), 3, 5), 1, "134 bytes, byte 3 is 5");
    let eight = of_length(&long("n127p1"), &LONG, 2310);
    numbers.due(&eight, 0, "2310 bytes");
    numbers.due(&set(&eight, 3, 9), 2, "2310 bytes, byte 3 is 9");
    numbers.due(&set(&eight, 3, 2), 1, "2310 bytes, byte 3 is 2");
    let seven = short(6, 2, 7).bytes;
    assert_eq!((seven.len(), seven[3]), (518, 2));
    assert_eq!(boundary::check(&seven), 0x700);
    numbers.due(&seven, 0, "518 bytes, byte 3 is 2");
    let one = long("n255p1");
    assert_eq!((one.len(), one[3]), (518, 5));
    assert_eq!(boundary::check(&one), 0x100);
    numbers.due(&one, 0, "518 bytes, byte 3 is 5");
    numbers.tally.finish(1);
}

/// The scope's cases of book E, 8.27.
#[test]
fn book_e() {
    let (book, g) = (books::e(), books::generator_e());
    assert_eq!(boundary::check(&book), 0x100);
    let made = |operation, input: &[u8]| {
        let trial = Trial {
            seed: 0,
            operation,
            book: &book,
            input,
            held: &[0xa5; 127],
        };
        trial.compare()
    };
    let coded = made(Operation::Code, &symbols("1000000"));
    assert_eq!((coded.result, &coded.output), (0, &g));
    let mut received = g.clone();
    received[63] ^= 1;
    received[126] ^= 1;
    let decoded = made(Operation::Decode, &received);
    let result = decoded.result;
    let answered = (kind(result), rounds(result), changed(result));
    assert_eq!(answered, ('M', 1, 2));
    assert_eq!(decoded.output, g);
}

/// Byte 3 as due, the other form's, and neither form's.
const BYTES: [u8; 12] = [2, 5, 0, 1, 3, 4, 6, 7, 9, 34, 37, 255];

#[test]
fn every_length_with_every_sort_of_byte_3() {
    let ways = ["1 2", "1 5", "1 other", "2 other", "1 none"];
    let accepted = ["own length 2", "own length 5"];
    let tally = Tally::new("forms, every length").due("way", ways);
    let mut numbers = Numbers::new(tally.due("byte 3", accepted));
    let near = lengths(&LONG)
        .into_iter()
        .flat_map(|length| length - 2..=length + 2);
    let all = (0..=2400).chain(near).chain(8400..=8800).chain([65535]);
    let all: BTreeSet<usize> = all.collect();
    let full = [short(5, 1, 32).bytes, long("n127p1")];
    for &length in &all {
        for (book, form) in full.iter().zip(FORMS) {
            let book = of_length(book, form, length);
            if length < 4 {
                numbers.due(&book, 1, "none");
                continue;
            }
            for byte in BYTES {
                let book = set(&book, 3, byte);
                let any = fits(&SHORT, &book) || fits(&LONG, &book);
                match byte {
                    2 if !fits(&SHORT, &book) => numbers.due(&book, 1, "2"),
                    5 if !fits(&LONG, &book) => numbers.due(&book, 1, "5"),
                    2 | 5 if byte == form.generator => {
                        numbers.due(&book, 0, "own");
                        numbers.tally.count("byte 3", format!("own length {byte}"));
                    }
                    2 | 5 => numbers.due(&book, 2, "other form's"),
                    _ => numbers.due(&book, if any { 2 } else { 1 }, "other"),
                }
            }
        }
    }
    numbers.tally.finish(7);
}

#[test]
fn byte_3_of_every_value() {
    let ways = ["0 due", "1 other form", "2 other form", "2 none"];
    let mut numbers = Numbers::new(Tally::new("forms, byte 3 of every value").due("way", ways));
    let stored = books::LONG.into_iter().map(|(_, bytes)| bytes.to_vec());
    // Every length of both forms, and others.
    let short = [1, 2, 7, 11, 15, 19, 23, 27, 31, 32].map(|l| short(4, 2, l).bytes);
    for book in stored.chain(short) {
        let form = FORMS[usize::from(book[3] == 5)];
        let other = FORMS[usize::from(book[3] == 2)];
        // The due one is tried elsewhere where a check takes long.
        let whole = book.len() > 6000 && form == &LONG;
        for byte in (0..=255).filter(|&byte| !whole || byte != 5) {
            let changed = set(&book, 3, byte);
            match byte {
                byte if byte == form.generator => numbers.due(&changed, 0, "due"),
                byte if byte == other.generator && fits(other, &book) => {
                    numbers.due(&changed, 2, "other form")
                }
                byte if byte == other.generator => numbers.due(&changed, 1, "other form"),
                _ => numbers.due(&changed, 2, "none"),
            }
        }
    }
    numbers.tally.finish(5);
}

/// Every operation on an accepted book, on both sides: a message, or a word
/// with one error.
fn every_operation(book: &Book, seed: u64, tally: &mut Tally) {
    let mut random = Random::new(seed);
    for operation in OPERATIONS {
        let input = match operation {
            Operation::Code => generate::message(&book.parts, &mut random),
            _ => generate::damaged_code_word(&book.parts, 1, &mut random),
        };
        let trial = Trial {
            seed,
            operation,
            book: &book.bytes,
            input: &input,
            held: &draw::bytes(operation.exact(&book.parts), &mut random),
        };
        let number = refusal(trial.compare().result);
        assert!(number == 0 || number == 12, "{trial}");
        tally.tried();
    }
}

#[test]
fn lengths_of_both_forms() {
    let both: BTreeSet<usize> = &lengths(&SHORT) & &lengths(&LONG);
    let names = both
        .iter()
        .flat_map(|length| [format!("{length} 2"), format!("{length} 5")]);
    let mut tally = Tally::new("forms, lengths of both").due("accepted", names);
    assert_eq!(both.len(), 7);
    for length in both {
        for (s, p) in SHAPES {
            let form = Form::with_size(s);
            let l = form.count(length).expect("a length of both");
            // The whole one takes long to decode by.
            let fits = |book: &Book| book.parts.l() >= l && book.products(1, 1) < 300_000;
            let stored = Book::stored(s, p).find(fits);
            let book = match stored {
                Some(book) => book.with(l, 1, 1),
                None if [(4, 1), (5, 1), (6, 6)].contains(&(s, p)) => short(s, p, l).with(l, 1, 1),
                None => continue,
            };
            every_operation(&book, draw::seed(3, s, p, l as u32), &mut tally);
            tally.count("accepted", format!("{length} {}", form.generator));
        }
    }
    tally.finish(1);
}

#[test]
fn kinds_of_every_value() {
    let ways = [
        "0 due",
        "2 first",
        "2 third",
        "2 dual word",
        "2 other form's",
    ];
    let mut numbers = Numbers::new(Tally::new("forms, kinds of every value").due("way", ways));
    for (book, form) in [(short(5, 1, 7).bytes, &SHORT), (long("n127p1_high"), &LONG)] {
        let other = if form == &SHORT { 6 } else { 4 };
        let l = form.count(book.len()).expect("a length");
        let dual_words = (0..l).map(|index| (form.body(index) - 1, form.dual_word, "dual word"));
        let first = [(0, 1, "first"), (form.limits(), 3, "third")];
        for (at, due, way) in first.into_iter().chain(dual_words) {
            for byte in (0..=255).filter(|&byte| byte != due) {
                let others = way == "dual word" && byte == other;
                let way = if others { "other form's" } else { way };
                numbers.due(&set(&book, at, byte), 2, way);
            }
        }
        numbers.due(&book, 0, "due");
    }
    numbers.tally.finish(1);
}

/// The way in which s and p are wrong in the form.
fn shape_way(form: &Form, s: u8, p: u8) -> &'static str {
    match (s, p) {
        (7 | 8, _) if form == &SHORT => "7 or 8 in the short form",
        (2..=6, _) if form == &LONG => "2 to 6 in the long form",
        (7, _) if form == &LONG => "7 with another p",
        (8, _) if form == &LONG => "8 with another p",
        (2..=6, _) => "no divisor",
        _ => "s",
    }
}

#[test]
fn s_and_p_of_the_other_form() {
    let ways = [
        "3 7 or 8 in the short form",
        "3 2 to 6 in the long form",
        "3 7 with another p",
        "3 8 with another p",
        "3 no divisor",
        "3 s",
    ];
    let mut numbers = Numbers::new(Tally::new("forms, s and p").due("way", ways));
    let short = [1, 7, 32].map(|l| short(5, 1, l).bytes);
    let stored = books::LONG.into_iter().map(|(_, bytes)| bytes.to_vec());
    for book in short.into_iter().chain(stored) {
        let form = FORMS[usize::from(book[3] == 5)];
        for s in (0..=16).chain([63, 64, 127, 255]) {
            for p in (0..=9).chain([16, 64, 255]) {
                let right = SHAPES.contains(&(s, p)) && form.sizes.contains(&s);
                if !right {
                    let book = set(&set(&book, 1, s), 2, p);
                    numbers.due(&book, 3, shape_way(form, s, p));
                }
            }
        }
    }
    numbers.tally.finish(20);
}

#[test]
fn places_from_n_on() {
    let ways = ["4 place n", "4 last place", "4 place", "4 symbol"];
    let mut numbers = Numbers::new(Tally::new("forms, places").due("way", ways));
    for name in ["n127p1_high", "n127p1", "n255p1", "n255p2_two", "n255p4"] {
        let book = Book::new(long(name));
        let (n, q, l) = (book.parts.n(), book.parts.q(), book.parts.l());
        let dual_words = [0, l / 2, l - 1].map(|index| LONG.body(index));
        for body in BTreeSet::from([4, dual_words[0], dual_words[1], dual_words[2]]) {
            for place in 0..255 {
                let (wrong, way) = match place {
                    place if place < n => (q, "symbol"),
                    127 => (1, "place n"),
                    254 => (1, "last place"),
                    _ => (1, "place"),
                };
                numbers.due(&set(&book.bytes, body + place, wrong), 4, way);
                numbers.due(&set(&book.bytes, body + place, 255), 4, way);
            }
        }
    }
    numbers.tally.finish(10);
}

#[test]
fn limits_of_every_value() {
    let ways = ["0 I", "6 I", "0 D", "6 D"];
    let mut numbers = Numbers::new(Tally::new("forms, limits").due("way", ways));
    for (name, n) in [("n127p1_high", 127), ("n255p1", 255), ("n255p4", 255)] {
        let (book, at) = (long(name), LONG.limits() + 1);
        for byte in 0..=255 {
            let i = if (1..=63).contains(&byte) { 0 } else { 6 };
            numbers.due(&set(&book, at, byte), i, "I");
            let d = if (1..=n).contains(&byte) { 0 } else { 6 };
            numbers.due(&set(&book, at + 1, byte), d, "D");
        }
    }
    numbers.tally.finish(3);
}
