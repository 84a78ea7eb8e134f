//! Burst (request K1, "Bursts of a whole game").

use crate::codebook::{check, Codebook};
use crate::decode::Decoded;
use crate::refuse;

/// "It refuses an M of 0 or above 16."
pub const MOST_WORDS: u32 = 16;

/// Burst: the refusals of the book, then those of the call.
pub fn burst(
    book: &[u8],
    words: u32,
    received: &[u8],
    answers: &mut [u8],
    records: &mut [Decoded],
    entries: &mut [u16],
) -> Result<(), u8> {
    check(book)?.burst(words, received, answers, records, entries)
}

impl Codebook {
    /// "One call decodes all M and writes the answer words one after another,
    /// plus one record per word in a lent list", and "the matrix left is the
    /// last word's".
    pub fn burst(
        &self,
        words: u32,
        received: &[u8],
        answers: &mut [u8],
        records: &mut [Decoded],
        entries: &mut [u16],
    ) -> Result<(), u8> {
        let words = self.count_of_words(words, received)?;
        let exact = answers.len() == received.len() && records.len() == words;
        refuse(10, !exact || entries.len() != self.entries())?;
        self.field().admit(received)?;
        // "Those of decoding it singly": nothing is left to be refused.
        for (m, answer) in answers.chunks_mut(self.n()).enumerate() {
            records[m] = self.decode(&unmixed(received, words, m), answer, entries)?;
        }
        Ok(())
    }

    /// M, where it is none of those that 14 refuses, "placed after 8 and
    /// before 9", and "input size is n x M".
    pub(crate) fn count_of_words(&self, words: u32, received: &[u8]) -> Result<usize, u8> {
        refuse(14, words == 0 || words > MOST_WORDS)?;
        let words = words as usize;
        refuse(9, received.len() != self.n() * words)?;
        Ok(words)
    }
}

/// Word m of M: its "symbol j stands at place j x M + m".
pub fn unmixed(mixed: &[u8], words: usize, m: usize) -> Vec<u8> {
    (0..mixed.len() / words)
        .map(|j| mixed[j * words + m])
        .collect()
}

/// The words mixed, all of one length: at each place j the symbols of words 0
/// to M - 1.
pub fn mix(words: &[Vec<u8>]) -> Vec<u8> {
    let n = words.first().map_or(0, Vec::len);
    (0..n)
        .flat_map(|j| words.iter().map(move |word| word[j]))
        .collect()
}
