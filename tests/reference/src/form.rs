//! The two forms of a codebook: kinds 2 and 4 with bodies of 63 bytes, or
//! kinds 5 and 6, which "replace 2 and 4 there, with bodies of 255 bytes".

use std::ops::RangeInclusive;

use crate::refuse;

/// What the form fixes: two kinds, the length of their bodies, and s.
#[derive(Debug, PartialEq, Eq)]
pub struct Form {
    pub generator: u8,
    pub dual_word: u8,
    pub width: usize,
    pub sizes: RangeInclusive<u8>,
}

pub static SHORT: Form = Form {
    generator: 2,
    dual_word: 4,
    width: 63,
    sizes: 2..=6,
};

pub static LONG: Form = Form {
    generator: 5,
    dual_word: 6,
    width: 255,
    sizes: 7..=8,
};

pub static FORMS: [&Form; 2] = [&SHORT, &LONG];

impl Form {
    /// "Byte 3, the first byte being byte 0, is 2 or 5 and chooses the form
    /// for 1 and 2; fewer than 4 bytes or a length of neither form is 1, then
    /// another byte 3 is 2."
    pub fn of(book: &[u8]) -> Result<&'static Form, u8> {
        let &kind = book.get(3).ok_or(1)?;
        let Some(form) = FORMS.into_iter().find(|form| form.generator == kind) else {
            let neither = FORMS.iter().all(|form| form.count(book.len()).is_none());
            return Err(if neither { 1 } else { 2 });
        };
        refuse(1, form.count(book.len()).is_none())?;
        Ok(form)
    }

    /// The form that has the s; the short one where none has.
    pub fn with_size(s: u8) -> &'static Form {
        let has = |form: &&Form| form.sizes.contains(&s);
        FORMS.into_iter().find(has).unwrap_or(&SHORT)
    }

    /// The bytes of a codebook with L dual words, "70 + 64 x L" or "262 + 256
    /// x L": three records and L more, each a byte longer than its body.
    pub fn length(&self, l: usize) -> usize {
        self.dual_words() + self.record() * l
    }

    /// L, where a codebook of this form has so many bytes; "L from 1 to 32".
    pub fn count(&self, length: usize) -> Option<usize> {
        (1..=32).find(|&l| self.length(l) == length)
    }

    /// The bytes of a record that has symbols.
    pub fn record(&self) -> usize {
        1 + self.width
    }

    /// Where the record of I and D starts.
    pub fn limits(&self) -> usize {
        3 + self.record()
    }

    /// Where the records of the dual words start.
    pub fn dual_words(&self) -> usize {
        self.limits() + 3
    }

    /// Where the body of a dual word starts.
    pub fn body(&self, index: usize) -> usize {
        self.dual_words() + self.record() * index + 1
    }
}
