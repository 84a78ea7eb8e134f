//! The codebook and conditions 1 to 8 on it (the scope, "Codebook" and
//! "What the coder declines, in order").

use crate::field::Field;
use crate::form::Form;
use crate::records::{Records, Shape};
use crate::refuse;
use crate::word;

/// An accepted codebook: "none of the conditions 1 to 8 holds for it".
#[derive(Clone, Debug, PartialEq, Eq)]
pub struct Codebook {
    form: &'static Form,
    shape: Shape,
    generator: Vec<u8>,
    degree: usize,
    most_rounds: u8,
    most_places: u8,
    dual_words: Vec<Vec<u8>>,
}

impl Codebook {
    pub fn form(&self) -> &'static Form {
        self.form
    }

    pub fn s(&self) -> u8 {
        self.shape.s
    }

    pub fn field(&self) -> Field {
        self.shape.field
    }

    /// The length of a word.
    pub fn n(&self) -> usize {
        self.shape.n
    }

    /// The count of symbols, and so of the matrix's rows.
    pub fn q(&self) -> u8 {
        self.shape.field.q()
    }

    /// "k = n - degree", the length of a full message; 1 or more.
    pub fn k(&self) -> usize {
        self.shape.n - self.degree
    }

    /// L, the count of dual words, which is what check gives.
    pub fn l(&self) -> usize {
        self.dual_words.len()
    }

    /// g in its n places.
    pub fn generator(&self) -> &[u8] {
        &self.generator
    }

    /// The dual words in the book's order, n places each.
    pub fn dual_words(&self) -> &[Vec<u8>] {
        &self.dual_words
    }

    /// The one weight that all the dual words have.
    pub fn weight(&self) -> usize {
        self.dual_words.first().map_or(0, |b| word::weight(b))
    }

    /// I.
    pub fn most_rounds(&self) -> u8 {
        self.most_rounds
    }

    /// D.
    pub fn most_places(&self) -> u8 {
        self.most_places
    }

    /// The count of the matrix's entries, "q x n numbers".
    pub fn entries(&self) -> usize {
        usize::from(self.q()) * self.n()
    }
}

/// Check: every condition in the table's order, the first to apply returned.
pub fn check(book: &[u8]) -> Result<Codebook, u8> {
    let form = Form::of(book)?;
    let records = Records::split(form, book).ok_or(1)?;
    refuse(2, wrong_kind(form, &records))?;
    let shape = Shape::new(form, records.s, records.p).ok_or(3)?;
    refuse(4, wrong_place(&records, &shape))?;
    refuse(5, wrong_generator(&records, &shape))?;
    refuse(6, wrong_limit(&records, &shape))?;
    refuse(7, wrong_dual_word(&records, &shape))?;
    refuse(8, alike_dual_words(&records, &shape))?;
    let generator = shape.word(records.generator);
    Ok(Codebook {
        form,
        generator: generator.to_vec(),
        degree: word::degree(generator).ok_or(5)?,
        most_rounds: records.most_rounds,
        most_places: records.most_places,
        dual_words: shape.words(&records).map(<[u8]>::to_vec).collect(),
        shape,
    })
}

/// Condition 2: "a kind byte not as the order wants".
fn wrong_kind(form: &Form, records: &Records) -> bool {
    let order = [1, form.generator, 3]
        .into_iter()
        .chain(std::iter::repeat(form.dual_word));
    records
        .kinds
        .iter()
        .zip(order)
        .any(|(&kind, due)| kind != due)
}

/// Condition 4: "book symbol q or more, or a nonzero place from n on", over
/// the whole book.
fn wrong_place(records: &Records, shape: &Shape) -> bool {
    records.bodies().any(|body| {
        let (word, rest) = body.split_at(shape.n);
        word.iter().any(|&symbol| symbol >= shape.field.q()) || rest.iter().any(|&byte| byte != 0)
    })
}

/// Condition 5: not so that "g has leading coefficient 1, degree 1 or more,
/// and divides x^n - 1". The zero polynomial has no leading coefficient.
fn wrong_generator(records: &Records, shape: &Shape) -> bool {
    let g = shape.word(records.generator);
    let Some(degree) = word::degree(g) else {
        return true;
    };
    let whole = word::whole(shape.n);
    let divides = word::divide(shape.field, &whole, g)
        .is_some_and(|division| word::weight(&division.remainder) == 0);
    g[degree] != 1 || degree < 1 || !divides
}

/// Condition 6: not so that I is "1 to 63" and D "1 to n".
fn wrong_limit(records: &Records, shape: &Shape) -> bool {
    !(1..=63).contains(&records.most_rounds)
        || !(1..=shape.n).contains(&usize::from(records.most_places))
}

/// Condition 7: place 0, the product with g, or the weight, over the whole
/// book. "All dual words of a book have one weight": that of the first.
fn wrong_dual_word(records: &Records, shape: &Shape) -> bool {
    let g = shape.word(records.generator);
    let weight = shape.words(records).next().map(word::weight);
    shape.words(records).any(|b| {
        b.first() != Some(&1)
            || word::weight(&word::product(shape.field, b, g)) != 0
            || Some(word::weight(b)) != weight
    })
}

/// Condition 8: two dual words "alike when one is a nonzero symbol times a
/// turn of the other".
fn alike_dual_words(records: &Records, shape: &Shape) -> bool {
    let words: Vec<&[u8]> = shape.words(records).collect();
    let alike = |one: usize, other: usize| word::alike(shape.field, words[one], words[other]);
    (0..words.len()).any(|one| (0..one).any(|other| alike(one, other)))
}
