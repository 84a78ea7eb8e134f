//! Words that are alike, with 1 at place 0 as a codebook wants them.

use super::random::Random;
use crate::field::Field;
use crate::word;

/// The word turned and scaled so that its symbol at a place is a 1 at place
/// 0; none where the symbol is zero.
pub fn from_place(field: Field, word: &[u8], place: usize) -> Option<Vec<u8>> {
    let inverse = field.inverse(word[place])?;
    let turned = word::turn(word, word.len() - place);
    Some(word::scale(field, &turned, inverse))
}

/// In which way one word is a copy of another, if it is one: the fewest of
/// turning and scaling that do. Unlike `word::alike` it makes every word.
pub fn likeness(field: Field, a: &[u8], b: &[u8]) -> Option<&'static str> {
    let scaled = |b: &[u8]| (2..field.q()).any(|c| word::scale(field, b, c) == a);
    let turns = || (1..b.len()).map(|t| word::turn(b, t));
    if a == b {
        Some("equal")
    } else if turns().any(|turned| turned == a) {
        Some("turned")
    } else if scaled(b) {
        Some("scaled")
    } else if turns().any(|turned| scaled(&turned)) {
        Some("turned and scaled")
    } else {
        None
    }
}

/// At most so many of the words, no two alike, each turned and scaled at
/// random so that place 0 is 1.
pub fn unlike(field: Field, words: &[Vec<u8>], most: usize, random: &mut Random) -> Vec<Vec<u8>> {
    let mut chosen: Vec<Vec<u8>> = Vec::new();
    for word in words {
        if chosen.len() == most {
            break;
        }
        if !chosen.iter().any(|known| word::alike(field, known, word)) {
            let places: Vec<usize> = (0..word.len()).filter(|&j| word[j] != 0).collect();
            let place = places[random.below(places.len())];
            chosen.extend(from_place(field, word, place));
        }
    }
    chosen
}
