//! Test input from a seed: accepted codebooks of every shape, words of every
//! sort, and books with known faults. The same seed gives the same input.

mod copies;
mod damage;
mod random;
mod roots;
mod words;

use std::collections::{BTreeMap, BTreeSet};

pub use copies::likeness;
pub use damage::{damage, damage_all};
pub use random::Random;
pub use words::{any_message, any_word, arbitrary, bad_symbol, code_word, damaged_code_word};
pub use words::{good_word, message, short_message, wrong_length};

use crate::books;
use crate::field::Field;
use crate::word;

/// Every (s, p) with "s from 2 to 6, and p divides s", then "s 7 with p 1, and
/// s 8 with p 1, 2 or 4".
pub const SHAPES: [(u8, u8); 17] = [
    (2, 1),
    (2, 2),
    (3, 1),
    (3, 3),
    (4, 1),
    (4, 2),
    (4, 4),
    (5, 1),
    (5, 5),
    (6, 1),
    (6, 2),
    (6, 3),
    (6, 6),
    (7, 1),
    (8, 1),
    (8, 2),
    (8, 4),
];

/// Those of the long form.
pub fn long_shapes() -> impl Iterator<Item = (u8, u8)> + Clone {
    SHAPES.into_iter().filter(|(s, _)| *s > 6)
}

/// Which weight the dual words of a book are taken from.
#[derive(Clone, Copy)]
enum Taste {
    /// The least weight found.
    Light,
    /// Any weight found.
    Any,
    /// The weight that most of the words found have, so that L is large.
    Many,
}

/// Dual words by their weight, many of them alike.
type Groups = BTreeMap<usize, BTreeSet<Vec<u8>>>;

/// How many multiples are tried where many words of one weight are wanted.
const MOST_ATTEMPTS: usize = 600;

/// A codebook that is accepted. Refusal 3 where s and p are none.
pub fn book(s: u8, p: u8, random: &mut Random) -> Result<Vec<u8>, u8> {
    let (generator, cofactor) = roots::factors(s, p, random)?;
    let taste = *random.pick(&[Taste::Light, Taste::Any, Taste::Many, Taste::Many]);
    let wanted = random.between(1, 32);
    // More than are wanted, since many are alike.
    let at_once = match taste {
        Taste::Many => 3 * wanted,
        Taste::Light | Taste::Any => 1,
    };
    let field = Field::new(p)?;
    let groups = multiples(field, &cofactor, at_once, random);
    let mut group = choose(groups, taste, random);
    random.shuffle(&mut group);
    let dual_words = copies::unlike(field, &group, wanted, random);
    let i = limit(63, random);
    let d = limit(generator.len(), random);
    Ok(books::write(s, p, &generator, i, d, &dual_words))
}

/// A codebook of any shape.
pub fn any_book(random: &mut Random) -> Vec<u8> {
    loop {
        let (s, p) = *random.pick(&SHAPES);
        if let Ok(book) = book(s, p, random) {
            return book;
        }
    }
}

/// I or D: the ends often, small ones often, any of the rest.
fn limit(most: usize, random: &mut Random) -> u8 {
    let limit = match random.below(3) {
        0 => random.between(1, most.min(4)),
        _ => random.between(1, most),
    };
    limit as u8
}

/// Nonzero multiples of h = (x^n - 1) / g by weight: h, and again and again
/// a turn of it, times a symbol, added. Now and then it starts from h anew,
/// which keeps the multiples light. Looked for longer while no weight has
/// the words wanted.
fn multiples(field: Field, cofactor: &[u8], wanted: usize, random: &mut Random) -> Groups {
    let few = random.below(150);
    let mut multiple = cofactor.to_vec();
    let mut groups = Groups::new();
    for attempt in 0..MOST_ATTEMPTS {
        if attempt > few && groups.values().any(|group| group.len() >= wanted) {
            break;
        }
        let weight = word::weight(&multiple);
        if weight > 0 {
            groups.entry(weight).or_default().insert(multiple.clone());
        }
        if random.once_in(6) {
            multiple = cofactor.to_vec();
        }
        let turned = word::turn(cofactor, random.below(cofactor.len()));
        let term = word::scale(field, &turned, random.symbol(1, field.q()));
        multiple = word::add(field, &multiple, &term);
    }
    groups
}

/// The words of one weight.
fn choose(groups: Groups, taste: Taste, random: &mut Random) -> Vec<Vec<u8>> {
    let mut groups: Vec<BTreeSet<Vec<u8>>> = groups.into_values().collect();
    let chosen = match taste {
        Taste::Light => 0,
        Taste::Any => random.below(groups.len()),
        Taste::Many => {
            groups.sort_by_key(BTreeSet::len);
            groups.len() - 1
        }
    };
    groups.swap_remove(chosen).into_iter().collect()
}
