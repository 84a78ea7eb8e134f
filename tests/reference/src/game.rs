//! Game (request K8, "The whole game or none of it").

use crate::codebook::{check, Codebook};
use crate::decode::Decoded;
use crate::refuse;

/// "The answer Whole, exactly if every word is Clean or Mended. Otherwise the
/// answer is Held with the count of Stalled and Spent words."
#[derive(Clone, Copy, Debug, PartialEq, Eq)]
pub enum Game {
    Whole,
    Held(u8),
}

impl Game {
    /// W Whole, H Held.
    pub fn letter(self) -> char {
        match self {
            Game::Whole => 'W',
            Game::Held(_) => 'H',
        }
    }

    /// The count of words held.
    pub fn held(self) -> u8 {
        match self {
            Game::Whole => 0,
            Game::Held(count) => count,
        }
    }
}

/// Game: the refusals of the book, then those of the call.
pub fn game(book: &[u8], words: u32, received: &[u8], messages: &mut [u8]) -> Result<Game, u8> {
    check(book)?.game(words, received, messages)
}

impl Codebook {
    /// "For a burst, write the messages read from the answer words", k x M
    /// symbols in word order, or leave the buffer as it is. "K1's order of
    /// refusals applies, and 10 covers this buffer"; "it is its only output",
    /// so that answers, records and matrix are local.
    pub fn game(&self, words: u32, received: &[u8], messages: &mut [u8]) -> Result<Game, u8> {
        let count = self.count_of_words(words, received)?;
        refuse(10, messages.len() != self.k() * count)?;
        let mut answers = vec![0; received.len()];
        let mut records = vec![Decoded::UNWRITTEN; count];
        let mut entries = vec![0; self.entries()];
        // Of the refusals only 11 is left.
        self.burst(words, received, &mut answers, &mut records, &mut entries)?;
        let stopped = records.iter().filter(|record| !record.kind.reached());
        match stopped.count() {
            0 => self.read_all(&answers, messages),
            held => Ok(Game::Held(held as u8)),
        }
    }

    /// The messages of code words that stand one after another.
    fn read_all(&self, words: &[u8], messages: &mut [u8]) -> Result<Game, u8> {
        let words = words.chunks(self.n());
        for (word, message) in words.zip(messages.chunks_mut(self.k())) {
            self.read(word, message)?;
        }
        Ok(Game::Whole)
    }
}
