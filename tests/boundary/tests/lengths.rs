//! Code at every length of the message: short ones, whose missing high
//! symbols are zero, full ones, and ones that are refused.

use std::collections::{BTreeMap, BTreeSet};

use boundary::compare::{hex, Trial};
use boundary::draw::{self, Book};
use boundary::tally::Tally;
use boundary::way::{length, LENGTHS};
use boundary::{code, read, refusal, Operation};
use reference::generate::{self, Random, SHAPES};

/// How many codebooks of an s and p are drawn; those of many places take
/// long, and have the more lengths.
fn books(s: u8) -> u32 {
    match s {
        7.. => 8,
        5 | 6 => 100,
        _ => 200,
    }
}

/// The message with its missing high symbols.
fn filled(book: &Book, message: &[u8]) -> Vec<u8> {
    let mut full = message.to_vec();
    full.resize(book.parts.k(), 0);
    full
}

/// A codebook, and all that calls with it need.
struct Trials<'a> {
    seed: u64,
    book: Book,
    random: Random,
    tally: &'a mut Tally,
}

impl Trials<'_> {
    fn trial<'a>(&'a self, operation: Operation, input: &'a [u8], held: &'a [u8]) -> Trial<'a> {
        Trial {
            seed: self.seed,
            operation,
            book: &self.book.bytes,
            input,
            held,
        }
    }

    /// Codes on both sides, which must return the number; the output.
    fn code(&mut self, message: &[u8], size: usize, number: u8) -> Vec<u8> {
        let held = draw::bytes(size, &mut self.random);
        let trial = self.trial(Operation::Code, message, &held);
        let given = trial.compare_open(&self.book.parts);
        assert!(refusal(given.result) == number, "{trial}");
        let k = self.book.parts.k();
        let sort = length(k, message);
        self.tally.tried();
        self.tally.count("s and p", self.book.shape());
        self.tally.count("way", format!("{number} {sort}"));
        if k == 1 {
            let symbols = ["0", "1", "2", "more"][message.len().min(3)];
            self.tally.count("k is 1", format!("{number} of {symbols}"));
        }
        given.output
    }

    /// Every length to k + 1, and some far above.
    fn every_length(&mut self) {
        let (n, k) = (self.book.parts.n(), self.book.parts.k());
        let any = self.random.between(k + 2, n + 300);
        for length in (0..=k + 1).chain([k + 2, n, n + 1, n + 64, any]) {
            let message = generate::arbitrary(length, self.book.parts.q(), &mut self.random);
            match (1..=k).contains(&length) {
                true => self.coded(&message),
                false => self.refused(&message),
            }
        }
    }

    /// The message is coded, and refused where something else is wrong.
    fn coded(&mut self, message: &[u8]) {
        let (bad, size) = self.wrong(message);
        let n = self.book.parts.n();
        let word = self.code(message, n, 0);
        self.code(message, size, 10);
        self.code(&bad, size, 10);
        self.code(&bad, n, 11);
        self.back(message, &word);
    }

    /// The message is refused for its length, whatever else is wrong.
    fn refused(&mut self, message: &[u8]) {
        let (bad, size) = self.wrong(message);
        let n = self.book.parts.n();
        let calls = [
            ("nothing", message, n),
            ("size", message, size),
            ("symbol", &bad, n),
            ("size and symbol", &bad, size),
        ];
        // No symbols have no bad one among them.
        let count = if message.is_empty() { 2 } else { 4 };
        for (beside, message, size) in &calls[..count] {
            self.code(message, *size, 9);
            self.tally.count("9, and wrong as well", beside);
        }
    }

    /// The message with a bad symbol, and a size that is not the word's.
    fn wrong(&mut self, message: &[u8]) -> (Vec<u8>, usize) {
        let (n, random) = (self.book.parts.n(), &mut self.random);
        let bad = generate::bad_symbol(message.to_vec(), self.book.parts.q(), random);
        loop {
            let size = draw::size(n, random);
            if size != n {
                return (bad, size);
            }
        }
    }

    /// Read gives the message, then zeros, and with these zeros it is coded
    /// as without.
    fn back(&mut self, message: &[u8], word: &[u8]) {
        let (n, k) = (self.book.parts.n(), self.book.parts.k());
        let (sort, full) = (length(k, message), filled(&self.book, message));
        let held = draw::bytes(k, &mut self.random);
        self.trial(Operation::Read, word, &held).against(0, &full);
        self.tally.count("read back", sort);
        let again = self.code(&full, n, 0);
        assert!(again == word, "{}", shown(&self.book, &[message, word]));
        self.tally.count("coded with its zeros", sort);
        let zero = message.iter().all(|&symbol| symbol == 0);
        self.tally
            .count("message", if zero { "zero" } else { "not zero" });
    }
}

/// What is needed to try it again.
fn shown(book: &Book, words: &[&[u8]]) -> String {
    let words: Vec<String> = words.iter().map(|word| hex(word)).collect();
    format!("codebook {}\n{}", hex(&book.bytes), words.join("\n"))
}

#[test]
fn every_length_is_the_references() {
    let sorts = ["k is 1", "one symbol", "short", "full"];
    let wrong = ["nothing", "size", "symbol", "size and symbol"];
    let mut tally = Tally::new("code, every length")
        .due("s and p", SHAPES.map(|(s, p)| format!("{s} {p}")))
        .due("k", ["1", "between", "n - 1"])
        .due("way", LENGTHS)
        .due("9, and wrong as well", wrong)
        .due("k is 1", ["9 of 0", "0 of 1", "10 of 1", "11 of 1"])
        .due("k is 1", ["9 of 2", "9 of more"])
        .due("message", ["zero", "not zero"])
        .due("read back", sorts)
        .due("coded with its zeros", sorts);
    for (s, p) in SHAPES {
        for trial in 0..books(s) {
            let seed = draw::seed(1, s, p, trial);
            let mut random = Random::new(seed);
            let book = Book::any(s, p, &mut random);
            let end = match book.parts.k() {
                1 => "1",
                k if k == book.parts.n() - 1 => "n - 1",
                _ => "between",
            };
            tally.count("k", end);
            let tally = &mut tally;
            Trials {
                seed,
                book,
                random,
                tally,
            }
            .every_length();
        }
    }
    tally.finish(100);
}

/// The code word of a message, by the library.
fn coded(book: &Book, message: &[u8]) -> Vec<u8> {
    let mut word = vec![255; book.parts.n()];
    let result = code(&book.bytes, message, &mut word);
    assert!(result == 0, "{}", shown(book, &[message]));
    word
}

/// The message of a code word, by the library.
fn message_of(book: &Book, word: &[u8]) -> Vec<u8> {
    let mut message = vec![255; book.parts.k()];
    let result = read(&book.bytes, word, &mut message);
    assert!(result == 0, "{}", shown(book, &[word]));
    message
}

#[test]
fn symbols_behind_a_message_are_not_coded() {
    let mut tally = Tally::new("code, symbols behind the message")
        .due("s and p", SHAPES.map(|(s, p)| format!("{s} {p}")))
        .due("left out", ["none", "1", "more"]);
    for (s, p) in SHAPES {
        for trial in 0..books(s) {
            let mut random = Random::new(draw::seed(2, s, p, trial));
            let book = Book::any(s, p, &mut random);
            let (k, q) = (book.parts.k(), book.parts.q());
            let all: Vec<u8> = (0..k).map(|_| random.symbol(1, q)).collect();
            let whole = coded(&book, &all);
            for length in 1..=k {
                let word = coded(&book, &all[..length]);
                let due = filled(&book, &all[..length]);
                let back = message_of(&book, &word);
                assert!(back == due, "{}", shown(&book, &[&due, &word]));
                assert_eq!(word == whole, length == k, "{}", shown(&book, &[&all]));
                let left_out = match k - length {
                    0 => "none",
                    1 => "1",
                    _ => "more",
                };
                tally.count("left out", left_out);
                tally.count("s and p", format!("{s} {p}"));
                tally.tried();
            }
        }
    }
    tally.finish(100);
}

/// Every message of so many symbols.
fn all(length: usize, q: u8) -> impl Iterator<Item = Vec<u8>> {
    let q = usize::from(q);
    let digit = move |message: usize, u: usize| (message / q.pow(u as u32) % q) as u8;
    (0..q.pow(length as u32)).map(move |message| (0..length).map(|u| digit(message, u)).collect())
}

/// Codes every message of every length to k + 1. The word of each full one,
/// which the short ones that lack just zeros of it must have as well.
fn words_of_all(book: &Book, tally: &mut Tally) -> BTreeMap<Vec<u8>, Vec<u8>> {
    let (n, k, q) = (book.parts.n(), book.parts.k(), book.parts.q());
    let mut words = BTreeMap::new();
    for message in (0..=k + 1).flat_map(|length| all(length, q)) {
        let mut word = vec![255; n];
        let number = refusal(code(&book.bytes, &message, &mut word));
        let due = if (1..=k).contains(&message.len()) {
            0
        } else {
            9
        };
        assert!(number == due, "{number} {}", shown(book, &[&message]));
        if number == 0 {
            let full = filled(book, &message);
            let known = words.entry(full).or_insert(word.clone());
            assert!(*known == word, "{}", shown(book, &[&message, &word]));
        }
        tally.count("symbols", message.len());
        tally.count("result", number);
        tally.tried();
    }
    words
}

#[test]
fn all_messages_of_small_codebooks() {
    let mut tally = Tally::new("code, all messages of small codebooks")
        .due("s and p", ["2 1", "2 2", "3 1"])
        .due("symbols", 0..=7)
        .due("result", [0, 9]);
    for (s, p, count) in [(2, 1, 12), (2, 2, 24), (3, 1, 24)] {
        for trial in 0..count {
            let mut random = Random::new(draw::seed(3, s, p, trial));
            let book = Book::any(s, p, &mut random);
            let words = words_of_all(&book, &mut tally);
            tally.count("s and p", format!("{s} {p}"));
            // One word for each full message, and no word for two.
            assert_eq!(words.len(), all(book.parts.k(), book.parts.q()).count());
            let apart: BTreeSet<&Vec<u8>> = words.values().collect();
            assert_eq!(apart.len(), words.len());
            for (message, word) in &words {
                let back = message_of(&book, word);
                assert!(back == *message, "{}", shown(&book, &[word]));
            }
        }
    }
    tally.finish(1);
}
