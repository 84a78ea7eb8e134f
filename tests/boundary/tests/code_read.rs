//! Code, read and remainder against the second implementation, refused calls
//! among them, and code and read against each other.

use boundary::compare::{hex, Trial};
use boundary::draw::{self, Book};
use boundary::tally::Tally;
use boundary::way::{copy, length, COPIES, LENGTHS};
use boundary::{code, read, refusal, Given, Operation};
use reference::generate::{self, Random, SHAPES};

/// How many codebooks of an s and p are drawn; those of many places take
/// long.
fn books(s: u8) -> u32 {
    match s {
        6.. => 12,
        5 => 30,
        _ => 60,
    }
}

/// Symbols of every sort for the operation's input: of the right length or
/// not, with bad symbols or without, code words or not.
fn input(operation: Operation, book: &Book, random: &mut Random) -> Vec<u8> {
    let (book, q) = (&book.parts, book.parts.q());
    let right = match operation {
        Operation::Code if random.once_in(2) => generate::short_message(book, random),
        Operation::Code => generate::message(book, random),
        _ => generate::code_word(book, random),
    };
    match random.below(8) {
        0 => generate::wrong_length(right, q, random),
        1 => draw::bytes(random.between(0, book.n() + 7), random),
        2 => generate::bad_symbol(right, q, random),
        3 => vec![0; right.len()],
        4 => generate::arbitrary(right.len(), q, random),
        5 if operation != Operation::Code => {
            let errors = random.between(1, book.n());
            generate::damaged_code_word(book, errors, random)
        }
        6 if operation == Operation::Remainder => {
            let few = random.between(1, book.n().min(4));
            generate::damaged_code_word(book, few, random)
        }
        _ => right,
    }
}

/// In which way a codebook that 8 refuses has a copy.
fn sort_of_copy(book: &Book, damaged: &[u8]) -> &'static str {
    copy(book, damaged).expect("a copy")
}

/// Counts a call by its result, and by what was refused.
fn count(trial: &Trial, given: &Given, book: &Book, tally: &mut Tally) {
    let (number, size) = (refusal(given.result), trial.held.len());
    tally.tried();
    tally.count("result", number);
    if trial.operation == Operation::Code && !(1..=8).contains(&number) {
        let sort = length(book.parts.k(), trial.input);
        tally.count("way", format!("{number} {sort}"));
    }
    if number == 0 && trial.operation == Operation::Remainder {
        let zero = given.output.iter().all(|&symbol| symbol == 0);
        tally.count("remainder", if zero { "zero" } else { "not zero" });
    }
    match number {
        0 => tally.count("accepted, s and p", book.shape()),
        8 => tally.count("copy", sort_of_copy(book, trial.book)),
        9 if trial.input.is_empty() => tally.count("input", "empty"),
        10 if size == 0 => tally.count("output", "empty"),
        10 if size < trial.operation.exact(&book.parts) => tally.count("output", "short"),
        10 => tally.count("output", "long"),
        _ => {}
    }
}

/// Calls on accepted codebooks and on ones refused by each number.
fn calls(operation: Operation, test: u8, tally: &mut Tally) {
    for (s, p) in SHAPES {
        for trial in 0..books(s) {
            let seed = draw::seed(test, s, p, trial);
            let mut random = Random::new(seed);
            let book = Book::any(s, p, &mut random);
            let exact = operation.exact(&book.parts);
            for fault in (0..=8).chain([0; 16]) {
                let mut bytes = book.bytes.clone();
                generate::damage(&mut bytes, fault, &mut random);
                let size = match random.below(4) {
                    0 => draw::size(exact, &mut random),
                    _ => exact,
                };
                let trial = Trial {
                    seed,
                    operation,
                    book: &bytes,
                    input: &input(operation, &book, &mut random),
                    held: &draw::bytes(size, &mut random),
                };
                let given = trial.compare();
                let number = refusal(given.result);
                assert!(fault == 0 || number == fault, "{trial}");
                assert!(operation == Operation::Read || number < 12, "{trial}");
                count(&trial, &given, &book, tally);
            }
        }
    }
}

/// What must occur whichever the operation is.
fn due(tally: Tally) -> Tally {
    tally
        .due("accepted, s and p", SHAPES.map(|(s, p)| format!("{s} {p}")))
        .due("copy", COPIES)
        .due("output", ["short", "long", "empty"])
        .due("input", ["empty"])
}

#[test]
fn code_is_the_references() {
    let mut tally = due(Tally::new("code").due("result", 0..=11)).due("way", LENGTHS);
    calls(Operation::Code, 1, &mut tally);
    tally.finish(40);
}

#[test]
fn read_is_the_references() {
    let mut tally = due(Tally::new("read").due("result", 0..=12));
    calls(Operation::Read, 2, &mut tally);
    tally.finish(40);
}

#[test]
fn remainder_is_the_references() {
    let mut tally =
        due(Tally::new("remainder").due("result", 0..=11)).due("remainder", ["zero", "not zero"]);
    calls(Operation::Remainder, 4, &mut tally);
    tally.finish(40);
}

/// The code word of a message, by the library.
fn coded(seed: u64, book: &Book, message: &[u8]) -> Vec<u8> {
    let mut word = vec![255; book.parts.n()];
    let result = code(&book.bytes, message, &mut word);
    assert!(result == 0, "{}", failure(seed, book, message, &word));
    word
}

/// The message of a code word, by the library.
fn message_of(seed: u64, book: &Book, word: &[u8]) -> Vec<u8> {
    let mut message = vec![255; book.parts.k()];
    let result = read(&book.bytes, word, &mut message);
    assert!(result == 0, "{}", failure(seed, book, word, &message));
    message
}

/// What is needed to try it again.
fn failure(seed: u64, book: &Book, input: &[u8], output: &[u8]) -> String {
    let (book, input, output) = (hex(&book.bytes), hex(input), hex(output));
    format!("seed {seed:#x}\ncodebook {book}\ninput  {input}\noutput {output}")
}

#[test]
fn reading_and_coding_undo_each_other() {
    let mut tally = Tally::new("round trips").due("undone", ["code by read", "read by code"]);
    for (s, p) in SHAPES {
        for trial in 0..books(s) {
            let seed = draw::seed(3, s, p, trial);
            let mut random = Random::new(seed);
            let book = Book::any(s, p, &mut random);
            for _ in 0..6 {
                let message = generate::message(&book.parts, &mut random);
                let word = coded(seed, &book, &message);
                let back = message_of(seed, &book, &word);
                assert!(back == message, "{}", failure(seed, &book, &message, &back));
                tally.count("undone", "code by read");

                let word = generate::code_word(&book.parts, &mut random);
                let message = message_of(seed, &book, &word);
                let back = coded(seed, &book, &message);
                assert!(back == word, "{}", failure(seed, &book, &word, &back));
                tally.count("undone", "read by code");
                tally.tried();
            }
        }
    }
    tally.finish(1000);
}
