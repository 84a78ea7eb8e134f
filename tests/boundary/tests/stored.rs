//! Every operation on the stored codebooks of the long form, against the
//! second implementation: thousands of calls at each s and p, with every
//! result that the operation can have.

use boundary::compare::Trial;
use boundary::draw::{self, Book};
use boundary::tally::Tally;
use boundary::{kind, refusal, Operation, OPERATIONS};
use reference::generate::{self, Random};

/// How many calls are made at an s and p.
const CALLS: u32 = 6500;

/// All results of an operation: its refusals, and its kinds of answer.
fn results(operation: Operation) -> Vec<String> {
    let (last, accepted) = match operation {
        Operation::Check => (8, vec!["0"]),
        Operation::Code | Operation::Remainder => (11, vec!["0"]),
        Operation::Read => (12, vec!["0"]),
        Operation::Decode => (11, vec!["C", "M", "S", "X"]),
        Operation::Game(_) => (11, vec!["W", "H"]),
    };
    let refused = (1..=last).map(|number| number.to_string());
    accepted
        .into_iter()
        .map(String::from)
        .chain(refused)
        .collect()
}

/// The name of what a call came to.
fn named(operation: Operation, result: u32) -> String {
    match (refusal(result), operation) {
        (0, Operation::Decode | Operation::Game(_)) => kind(result).to_string(),
        (number, _) => number.to_string(),
    }
}

/// What the operation takes: messages for code, words for the others.
fn input(operation: Operation, book: &Book, random: &mut Random) -> Vec<u8> {
    let parts = &book.parts;
    let d = usize::from(parts.most_places());
    match (operation, random.below(8)) {
        (Operation::Check, _) => Vec::new(),
        (Operation::Code, _) => generate::any_message(parts, random),
        (Operation::Read, 0..=3) => generate::code_word(parts, random),
        (Operation::Decode | Operation::Game(_), 0..=1) => {
            let errors = random.between(1, 12);
            generate::damaged_code_word(parts, errors, random)
        }
        (Operation::Decode, 2..=3) => generate::damaged_code_word(parts, d.min(40), random),
        _ => generate::any_word(parts, random),
    }
}

/// A stored codebook with fewer dual words, and other I and D now and then.
fn book(stored: &[Book], random: &mut Random) -> Book {
    let book = &stored[random.below(stored.len())];
    let (n, most) = (book.parts.n(), book.parts.l());
    let (own, any) = (book.parts.most_places(), random.between(1, n) as u8);
    let d = *random.pick(&[own, own, own, 1, n as u8, any]);
    let fewer = 1 + random.below(most);
    let l = *random.pick(&[most, fewer]);
    book.with(l, random.between(1, 8) as u8, d)
}

/// One call with an accepted codebook.
fn accepted(seed: u64, operation: Operation, book: &Book, random: &mut Random) -> u32 {
    let mut size = operation.exact(&book.parts);
    if random.once_in(10) {
        size = draw::size(size, random);
    }
    let (input, held) = (input(operation, book, random), draw::bytes(size, random));
    let trial = Trial {
        seed,
        operation,
        book: &book.bytes,
        input: &input,
        held: &held,
    };
    trial.compare_open(&book.parts).result
}

/// One call with a codebook that the number refuses.
fn refused(seed: u64, operation: Operation, book: &Book, fault: u8, random: &mut Random) -> u32 {
    let mut damaged = book.bytes.clone();
    generate::damage(&mut damaged, fault, random);
    let trial = Trial {
        seed,
        operation,
        book: &damaged,
        input: &input(operation, book, random),
        held: &draw::bytes(operation.exact(&book.parts), random),
    };
    let result = trial.compare().result;
    assert!(result == u32::from(fault), "{fault}: {trial}");
    result
}

#[test]
fn thousands_of_calls_at_each_s_and_p() {
    let names = || generate::long_shapes().map(|(s, p)| format!("{s} {p}"));
    let all = OPERATIONS.into_iter().flat_map(|operation| {
        let results = results(operation).into_iter();
        results.flat_map(move |result| {
            names().map(move |shape| format!("{shape} {operation:?} {result}"))
        })
    });
    let mut calls = Tally::new("calls at each long s and p").due("s and p", names());
    let mut tally = Tally::new("calls on stored codebooks, by result").due("result", all);
    for (s, p) in generate::long_shapes() {
        // The whole one takes long to decode by.
        let light = |book: &Book| book.products(1, 1) < 300_000;
        let stored: Vec<Book> = Book::stored(s, p).filter(light).collect();
        for trial in 0..CALLS {
            let seed = draw::seed(1, s, p, trial);
            let mut random = Random::new(seed);
            let book = book(&stored, &mut random);
            let operation = OPERATIONS[trial as usize % OPERATIONS.len()];
            let result = match trial as usize / OPERATIONS.len() % 24 {
                fault @ 1..=8 => refused(seed, operation, &book, fault as u8, &mut random),
                _ => accepted(seed, operation, &book, &mut random),
            };
            tally.tried();
            calls.tried();
            calls.count("s and p", book.shape());
            let result = named(operation, result);
            tally.count("result", format!("{} {operation:?} {result}", book.shape()));
        }
    }
    calls.finish(6000);
    tally.finish(5);
}
