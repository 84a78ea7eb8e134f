//! Games, and what the library's burst and read make of the same words.

use reference::burst::mix;
use reference::game::Game;
use reference::generate::Random;
use reference::packed::{pack_game, Record};

use crate::burst::{Burst, Outcome};
use crate::compare::Trial;
use crate::draw::bursts::KINDS;
use crate::draw::{self, Book};
use crate::tally::Tally;
use crate::{read, Operation};

/// Words of a codebook, mixed, and the seed that they were drawn with.
pub struct Mixed<'a> {
    seed: u64,
    book: &'a Book,
    /// M.
    words: u32,
    pub received: Vec<u8>,
}

impl<'a> Mixed<'a> {
    pub fn new(seed: u64, book: &'a Book, words: &[Vec<u8>]) -> Mixed<'a> {
        Mixed {
            seed,
            book,
            words: words.len() as u32,
            received: mix(words),
        }
    }

    /// The game of the words, with messages that hold this before.
    pub fn game<'b>(&'b self, held: &'b [u8]) -> Trial<'b> {
        Trial {
            seed: self.seed,
            operation: Operation::Game(self.words),
            book: &self.book.bytes,
            input: &self.received,
            held,
        }
    }

    /// Any bytes for the messages to hold.
    pub fn before(&self, random: &mut Random) -> Vec<u8> {
        draw::bytes(self.book.parts.k() * self.words as usize, random)
    }

    /// What the library's burst says and writes of the words.
    pub fn burst(&self) -> Outcome {
        let burst = Burst {
            seed: self.seed,
            book: &self.book.bytes,
            words: self.words,
            received: &self.received,
            answers: &vec![0; self.received.len()],
            records: &vec![[0; 3]; self.words as usize],
        };
        burst.call()
    }

    /// Fails unless the game is what the library's burst decodes and its read
    /// reads, whatever the messages held before. The records, counted, and
    /// what the messages hold after the last call.
    pub fn as_burst_and_read(
        &self,
        random: &mut Random,
        tally: &mut Tally,
    ) -> (Vec<Record>, Vec<u8>) {
        let burst = self.burst();
        let before = self.before(random);
        // Other bytes at every place.
        let other: Vec<u8> = before.iter().map(|byte| !byte).collect();
        let (answer, messages) = read_all(self.book, &burst);
        let due = |held| messages.as_deref().unwrap_or(held);
        let result = pack_game(Ok(answer));
        self.game(&before).against(result, due(&before));
        let given = self.game(&other).against(result, due(&other));
        count(self.book, &burst.records, tally);
        (burst.records, given.output)
    }

    /// The same, and against the second implementation; how many products of
    /// symbols it takes.
    pub fn compared(&self, random: &mut Random, tally: &mut Tally) -> usize {
        let (records, _) = self.as_burst_and_read(random, tally);
        self.game(&self.before(random))
            .compare_open(&self.book.parts);
        let rounds = records.iter().map(|record| record[1]);
        let products = rounds.map(|rounds| self.book.products(self.book.parts.l(), rounds));
        products.sum()
    }
}

/// The answer that is due of a burst, and the messages of its answer words if
/// all have one: read refuses just those that are Stalled or Spent.
fn read_all(book: &Book, burst: &Outcome) -> (Game, Option<Vec<u8>>) {
    let (n, k) = (book.parts.n(), book.parts.k());
    let (mut messages, mut held) = (vec![0; k * burst.records.len()], 0);
    let answers = burst.answers.chunks(n).zip(messages.chunks_mut(k));
    for ((answer, message), record) in answers.zip(&burst.records) {
        let number = read(&book.bytes, answer, message);
        assert!(number == if stopped(record) { 12 } else { 0 }, "{burst}");
        held += u8::from(stopped(record));
    }
    match held {
        0 => (Game::Whole, Some(messages)),
        _ => (Game::Held(held), None),
    }
}

/// Whether a word is held.
pub fn stopped(record: &Record) -> bool {
    b"SX".contains(&record[0])
}

/// Counts a game by M, by the kinds of its words, by how many are held, and by
/// which one is where it is the only one.
fn count(book: &Book, records: &[Record], tally: &mut Tally) {
    let has = |kind: &&char| records.iter().any(|record| **kind == record[0].into());
    let held = (0..records.len()).filter(|&m| stopped(&records[m]));
    let held: Vec<usize> = held.collect();
    tally.tried();
    tally.count("s and p", book.shape());
    tally.count("M", records.len());
    tally.count("kinds", KINDS.iter().filter(has).collect::<String>());
    tally.count("held", held.len());
    if let [only] = held[..] {
        tally.count("held alone", format!("{only} of {}", records.len()));
    }
}
