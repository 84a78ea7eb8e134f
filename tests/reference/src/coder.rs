//! Code, Read and Remainder (the scope, "Operations").

use crate::codebook::{check, Codebook};
use crate::refuse;
use crate::word::{self, Division};

/// Code: the refusals of the book, then those of the call.
pub fn code(book: &[u8], message: &[u8], word: &mut [u8]) -> Result<(), u8> {
    check(book)?.code(message, word)
}

/// Read: the refusals of the book, then those of the call.
pub fn read(book: &[u8], word: &[u8], message: &mut [u8]) -> Result<(), u8> {
    check(book)?.read(word, message)
}

/// Remainder: the refusals of the book, then those of the call.
pub fn remainder(book: &[u8], word: &[u8], remainder: &mut [u8]) -> Result<(), u8> {
    check(book)?.remainder(word, remainder)
}

impl Codebook {
    /// "Code takes 1 to k symbols; the missing high ones are zero", and
    /// writes f x g. The degree of the product is below n, so that modulo
    /// x^n - 1 nothing wraps round.
    pub fn code(&self, message: &[u8], word: &mut [u8]) -> Result<(), u8> {
        refuse(9, message.is_empty() || message.len() > self.k())?;
        refuse(10, word.len() != self.n())?;
        self.field().admit(message)?;
        let mut full = message.to_vec();
        full.resize(self.k(), 0);
        let product = word::product(self.field(), self.generator(), &full);
        word.copy_from_slice(&product);
        Ok(())
    }

    /// "Read a code word: its quotient by g, k symbols."
    pub fn read(&self, word: &[u8], message: &mut [u8]) -> Result<(), u8> {
        refuse(9, word.len() != self.n())?;
        refuse(10, message.len() != self.k())?;
        self.field().admit(word)?;
        refuse(12, !self.is_code_word(word))?;
        message.copy_from_slice(&self.division(word)?.quotient);
        Ok(())
    }

    /// The remainder of any word on division by g, n - k symbols from x^0.
    /// A word that is no code word is not refused.
    pub fn remainder(&self, word: &[u8], remainder: &mut [u8]) -> Result<(), u8> {
        refuse(9, word.len() != self.n())?;
        refuse(10, remainder.len() != self.n() - self.k())?;
        self.field().admit(word)?;
        remainder.copy_from_slice(&self.division(word)?.remainder);
        Ok(())
    }

    /// A word of n symbols divided by g: k symbols of the quotient and n - k
    /// of the remainder, those above being zero. Refusal 5 where g is zero,
    /// which no accepted book has.
    fn division(&self, word: &[u8]) -> Result<Division, u8> {
        let mut division = word::divide(self.field(), word, self.generator()).ok_or(5)?;
        division.quotient.truncate(self.k());
        division.remainder.truncate(self.n() - self.k());
        Ok(division)
    }

    /// "A word is a code word exactly if all n - k symbols of its remainder on
    /// division by g are zero."
    pub fn is_code_word(&self, word: &[u8]) -> bool {
        self.division(word)
            .is_ok_and(|division| word::weight(&division.remainder) == 0)
    }
}
