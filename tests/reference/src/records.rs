//! The book's bytes cut into records (the scope, "Codebook").

use crate::field::Field;
use crate::form::Form;

/// "A row of records: one byte of kind, then a body whose length the kind
/// fixes", cut where the order of the kinds wants it.
pub struct Records<'a> {
    pub kinds: Vec<u8>,
    pub s: u8,
    pub p: u8,
    pub generator: &'a [u8],
    pub most_rounds: u8,
    pub most_places: u8,
    pub dual_words: Vec<&'a [u8]>,
}

impl<'a> Records<'a> {
    pub fn split(form: &Form, book: &'a [u8]) -> Option<Records<'a>> {
        let (&[kind_1, s, p], book) = book.split_first_chunk()?;
        let (&[kind_2], book) = book.split_first_chunk()?;
        let (generator, book) = book.split_at_checked(form.width)?;
        let (&[kind_3, most_rounds, most_places], mut book) = book.split_first_chunk()?;
        let mut kinds = vec![kind_1, kind_2, kind_3];
        let mut dual_words = Vec::new();
        while let Some((&kind_4, rest)) = book.split_first() {
            let (dual_word, rest) = rest.split_at_checked(form.width)?;
            kinds.push(kind_4);
            dual_words.push(dual_word);
            book = rest;
        }
        Some(Records {
            kinds,
            s,
            p,
            generator,
            most_rounds,
            most_places,
            dual_words,
        })
    }

    /// The bodies that hold symbols: the generator and every dual word.
    pub fn bodies(&self) -> impl Iterator<Item = &'a [u8]> + '_ {
        std::iter::once(self.generator).chain(self.dual_words.iter().copied())
    }
}

/// s and p, and the n and the field they give.
#[derive(Clone, Debug, PartialEq, Eq)]
pub struct Shape {
    pub s: u8,
    pub n: usize,
    pub field: Field,
}

impl Shape {
    /// Condition 3: none unless s is one of the form's and p divides s. With
    /// "p from 1 to 6" that leaves p 1 for s 7, and 1, 2 and 4 for s 8.
    pub fn new(form: &Form, s: u8, p: u8) -> Option<Shape> {
        let field = Field::new(p).ok()?;
        if !form.sizes.contains(&s) || !s.is_multiple_of(p) {
            return None;
        }
        let n = (1 << s) - 1;
        Some(Shape { s, n, field })
    }

    /// The n places of a body that belong to the word; n is at most the
    /// width of the form's bodies.
    pub fn word<'a>(&self, body: &'a [u8]) -> &'a [u8] {
        body.split_at(self.n).0
    }

    pub fn words<'a>(&'a self, records: &'a Records) -> impl Iterator<Item = &'a [u8]> {
        records.dual_words.iter().map(|&body| self.word(body))
    }
}
