//! Matrix (the scope, "Operations").

use crate::codebook::{check, Codebook};
use crate::refuse;

/// Matrix: the refusals of the book, then those of the call.
pub fn matrix(book: &[u8], received: &[u8], entries: &mut [u16]) -> Result<(), u8> {
    check(book)?.matrix(received, entries)
}

impl Codebook {
    /// "It fills q x n numbers of 16 bits, entry (i, j) at i x n + j."
    pub fn matrix(&self, received: &[u8], entries: &mut [u16]) -> Result<(), u8> {
        refuse(9, received.len() != self.n())?;
        refuse(10, entries.len() != self.entries())?;
        self.field().admit(received)?;
        self.count(received, entries);
        Ok(())
    }

    /// "The entry in row i and column j counts the choices of b and h whose
    /// check value at j is i." Sizes and symbols are checked before.
    pub(crate) fn count(&self, received: &[u8], entries: &mut [u16]) {
        entries.fill(0);
        for b in self.dual_words() {
            let nonzero: Vec<usize> = (0..self.n()).filter(|&place| b[place] != 0).collect();
            for &h in &nonzero {
                let divided = self.field().inverse(b[h]).unwrap_or(0);
                for j in 0..self.n() {
                    let sum = self.check_sum(b, &nonzero, j + h, received);
                    let i = self.field().product(sum, divided);
                    entries[usize::from(i) * self.n() + j] += 1;
                }
            }
        }
    }

    /// "The sum runs over the places u where b is not zero; each adds b's
    /// symbol at u times the received symbol at (j + h - u) mod n."
    fn check_sum(&self, b: &[u8], nonzero: &[usize], j_and_h: usize, received: &[u8]) -> u8 {
        let (field, n) = (self.field(), self.n());
        let mut sum = 0;
        for &u in nonzero {
            let symbol = received[(j_and_h + n - u) % n];
            sum = field.sum(sum, field.product(b[u], symbol));
        }
        sum
    }
}
