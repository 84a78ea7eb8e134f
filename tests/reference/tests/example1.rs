//! S0's example 1: the RS code of length 7 over GF(8) with five dual words,
//! its whole frequency matrix and the word it mends.

use reference::books;
use reference::codebook::check;
use reference::decode::{decode, Kind};
use reference::field::product;
use reference::matrix::matrix;

/// The powers of S0's alpha, which is symbol 2, from 0 to 6.
fn alpha(power: usize) -> u8 {
    (0..power).fold(1, |symbol, _| product(3, symbol, 2).expect("symbols"))
}

/// A word with alpha to the power at each place named, zero elsewhere.
fn word(terms: &[(usize, usize)]) -> Vec<u8> {
    let mut word = vec![0; 7];
    for &(place, power) in terms {
        word[place] = alpha(power);
    }
    word
}

/// S0, equation 8: the product of x - alpha^j for j from 1 to 4.
fn generator() -> Vec<u8> {
    let mut g = vec![1];
    for j in 1..=4 {
        let shifted = std::iter::once(0).chain(g.iter().copied());
        let scaled = g
            .iter()
            .map(|&symbol| product(3, symbol, alpha(j)).expect("symbols"));
        g = shifted
            .zip(scaled.chain(std::iter::once(0)))
            .map(|(a, b)| a ^ b)
            .collect();
    }
    g
}

fn dual_words() -> [Vec<u8>; 5] {
    [
        word(&[(0, 0), (1, 1), (2, 5), (6, 2)]),
        word(&[(0, 0), (1, 0), (3, 0), (6, 0)]),
        word(&[(0, 0), (2, 2), (3, 5), (6, 1)]),
        word(&[(0, 0), (1, 2), (2, 4), (5, 3)]),
        word(&[(0, 0), (2, 3), (4, 5), (6, 6)]),
    ]
}

fn sent() -> Vec<u8> {
    word(&[(0, 6), (1, 4), (2, 4), (3, 3), (5, 6), (6, 3)])
}

fn received() -> Vec<u8> {
    word(&[(0, 6), (1, 5), (2, 4), (3, 3), (6, 3)])
}

#[rustfmt::skip]
const MATRIX: [u16; 56] = [
    5,  1, 4, 4, 5,  1, 4,
    3, 10, 2, 2, 1,  1, 5,
    2,  1, 3, 2, 2,  1, 1,
    3,  1, 1, 1, 2,  2, 2,
    1,  2, 4, 4, 3,  2, 2,
    2,  2, 2, 2, 2, 10, 2,
    1,  2, 3, 2, 3,  1, 2,
    3,  1, 1, 3, 2,  2, 2,
];

fn book(d: u8) -> Vec<u8> {
    books::write(3, 3, &generator(), 3, d, &dual_words())
}

#[test]
fn s0s_numbering_is_that_of_the_symbols() {
    let powers = [0, 1, 3, 2, 6, 4, 5];
    let numbered: Vec<u8> = powers.iter().map(|&power| alpha(power)).collect();
    assert_eq!(numbered, [1, 2, 3, 4, 5, 6, 7]);
}

#[test]
fn the_book_is_accepted() {
    let book = check(&book(2)).expect("accepted");
    assert_eq!((book.l(), book.n(), book.k()), (5, 7, 3));
    assert_eq!(book.weight(), 4);
    assert!(book.is_code_word(&sent()));
}

#[test]
fn the_whole_matrix() {
    let mut entries = [u16::MAX; 56];
    assert_eq!(matrix(&book(2), &received(), &mut entries), Ok(()));
    for (row, printed) in MATRIX.chunks(7).enumerate() {
        assert_eq!(&entries[7 * row..7 * row + 7], printed, "row {row}");
    }
}

#[test]
fn the_word_sent_is_mended_in_one_round() {
    let (mut answer, mut entries) = ([255; 7], [u16::MAX; 56]);
    let decoded = decode(&book(2), &received(), &mut answer, &mut entries).expect("accepted");
    assert_eq!(
        (decoded.kind, decoded.rounds, decoded.changed),
        (Kind::Mended, 1, 2)
    );
    assert_eq!(answer[..], sent());
    assert_eq!(entries, MATRIX);
}

#[test]
fn with_d_1_both_places_tie_and_it_stalls() {
    let (mut answer, mut entries) = ([255; 7], [u16::MAX; 56]);
    let decoded = decode(&book(1), &received(), &mut answer, &mut entries).expect("accepted");
    assert_eq!(
        (decoded.kind, decoded.rounds, decoded.changed),
        (Kind::Stalled, 1, 0)
    );
    assert_eq!(answer[..], received());
    assert_eq!(entries, MATRIX);
}
