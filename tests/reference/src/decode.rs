//! Decode (the scope, "Operations").

use crate::codebook::{check, Codebook};
use crate::refuse;

/// "The kind of answer is which of Clean, Mended, Stalled and Spent it is."
#[derive(Clone, Copy, Debug, PartialEq, Eq, PartialOrd, Ord)]
pub enum Kind {
    Clean,
    Mended,
    Stalled,
    Spent,
}

impl Kind {
    /// "C Clean, M Mended, S Stalled, X Spent."
    pub fn letter(self) -> char {
        match self {
            Kind::Clean => 'C',
            Kind::Mended => 'M',
            Kind::Stalled => 'S',
            Kind::Spent => 'X',
        }
    }

    /// Whether the answer is a code word: "the code word reached; for Stalled
    /// and Spent the word as received".
    pub fn reached(self) -> bool {
        matches!(self, Kind::Clean | Kind::Mended)
    }
}

/// What decode returns beside what it writes.
#[derive(Clone, Copy, Debug, PartialEq, Eq)]
pub struct Decoded {
    pub kind: Kind,
    /// "The count of rounds made, a Stalled one's last included."
    pub rounds: u8,
    /// "The count of places where answer and received word differ."
    pub changed: u8,
}

impl Decoded {
    /// A record that no decoding gives: of a list that is not yet written.
    pub const UNWRITTEN: Decoded = Decoded {
        kind: Kind::Spent,
        rounds: 0,
        changed: 0,
    };
}

/// Decode: the refusals of the book, then those of the call.
pub fn decode(
    book: &[u8],
    received: &[u8],
    answer: &mut [u8],
    entries: &mut [u16],
) -> Result<Decoded, u8> {
    check(book)?.decode(received, answer, entries)
}

impl Codebook {
    /// Writes the answer word and "the matrix of its last round".
    pub fn decode(
        &self,
        received: &[u8],
        answer: &mut [u8],
        entries: &mut [u16],
    ) -> Result<Decoded, u8> {
        refuse(9, received.len() != self.n())?;
        let exact = answer.len() == self.n() && entries.len() == self.entries();
        refuse(10, !exact)?;
        self.field().admit(received)?;
        let (kind, rounds, word) = self.rounds(received, entries);
        answer.copy_from_slice(&word);
        let changed = answer.iter().zip(received).map(|(a, r)| u8::from(a != r));
        Ok(Decoded {
            kind,
            rounds,
            changed: changed.sum(),
        })
    }

    /// The kind, the rounds made and the answer word: "the code word
    /// reached; for Stalled and Spent the word as received".
    fn rounds(&self, received: &[u8], entries: &mut [u16]) -> (Kind, u8, Vec<u8>) {
        if self.is_code_word(received) {
            entries.fill(0);
            return (Kind::Clean, 0, received.to_vec());
        }
        let mut word = received.to_vec();
        for round in 1..=self.most_rounds() {
            self.count(&word, entries);
            let updates = self.update_set(entries);
            if updates.is_empty() {
                return (Kind::Stalled, round, received.to_vec());
            }
            for (j, symbol) in updates {
                word[j] = self.field().sum(word[j], symbol);
            }
            if self.is_code_word(&word) {
                return (Kind::Mended, round, word);
            }
        }
        (Kind::Spent, self.most_rounds(), received.to_vec())
    }

    /// The places of the update set, each with the symbol subtracted there.
    fn update_set(&self, entries: &[u16]) -> Vec<(usize, u8)> {
        let (n, most) = (self.n(), usize::from(self.most_places()));
        let entry = |i: u8, j: usize| entries[usize::from(i) * n + j];
        // "The peak of column j is its largest entry over rows 1 to q - 1."
        let peak = |j: usize| (1..self.q()).map(|i| entry(i, j)).max().unwrap_or(0);
        let peaks: Vec<u16> = (0..n).map(peak).collect();
        let mut updates = Vec::new();
        for j in 0..n {
            let low = (0..n).filter(|&o| entry(0, o) <= entry(0, j)).count();
            let high = (0..n).filter(|&o| peaks[o] >= peaks[j]).count();
            let mut having = (1..self.q()).filter(|&i| entry(i, j) == peaks[j]);
            // "All four hold."
            if low <= most && high <= most && peaks[j] >= 1 {
                if let (Some(symbol), None) = (having.next(), having.next()) {
                    updates.push((j, symbol));
                }
            }
        }
        updates
    }
}
