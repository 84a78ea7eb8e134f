//! Games: words followed by hand, one word held at every place, and every
//! number that a game is refused by. `laws.rs` tries games of generated
//! codebooks.

use reference::books::{self, symbols};
use reference::burst::mix;
use reference::by_hand::{games, BEFORE};
use reference::game::{game, Game};
use reference::generate::{damage, damage_all, Random};

/// A game with room for so many symbols, and what it holds after the call.
fn call(book: &[u8], words: u32, received: &[u8], room: usize) -> (Result<Game, u8>, Vec<u8>) {
    let mut messages = vec![BEFORE; room];
    let result = game(book, words, received, &mut messages);
    (result, messages)
}

#[test]
fn games_followed_by_hand() {
    for (at, due) in games().into_iter().enumerate() {
        let given = call(&due.book, due.words, &due.received, due.messages.len());
        assert_eq!(given, (Ok(due.answer), due.messages), "game {at}");
    }
}

#[test]
fn the_letter_and_the_count() {
    assert_eq!((Game::Whole.letter(), Game::Whole.held()), ('W', 0));
    assert_eq!((Game::Held(3).letter(), Game::Held(3).held()), ('H', 3));
}

#[test]
fn one_word_held_at_every_place() {
    // B: 311 is Mended and read as 1, 120 is Stalled.
    for count in 1..=16 {
        let mut words = vec![symbols("311"); count];
        let whole = (Ok(Game::Whole), vec![1; count]);
        assert_eq!(call(&books::b(), count as u32, &mix(&words), count), whole);
        for m in 0..count {
            words[m] = symbols("120");
            let held = (Ok(Game::Held(1)), vec![BEFORE; count]);
            assert_eq!(call(&books::b(), count as u32, &mix(&words), count), held);
            words[m] = symbols("311");
        }
    }
}

/// Refused by the number; the messages stay as they were.
fn refused(book: &[u8], words: u32, received: &[u8], room: usize, number: u8) {
    let due = (Err(number), vec![BEFORE; room]);
    assert_eq!(call(book, words, received, room), due, "M {words}");
}

/// Book A's k x M and n x M for three words.
const ROOM: usize = 12;
const SIZE: usize = 21;

/// 1000000 three times, which is Spent with D 7.
const SPENT: [u8; SIZE] = [
    1, 1, 1, 0, 0, 0, 0, 0, 0, 0, 0, 0, 0, 0, 0, 0, 0, 0, 0, 0, 0,
];

#[test]
fn every_number_in_its_order() {
    // Wrong in every way at first; then one way after another is set right.
    let (bad, random) = ([2; SIZE], &mut Random::new(1));
    for first in 1..=8 {
        let mut book = books::a();
        let faults: Vec<u8> = (first..=8).collect();
        damage_all(&mut book, &faults, random);
        refused(&book, 17, &bad[1..], 11, first);
    }
    let book = books::a();
    refused(&book, 17, &bad[1..], 11, 14);
    refused(&book, 3, &bad[1..], 11, 9);
    refused(&book, 3, &bad, 11, 10);
    refused(&book, 3, &bad, ROOM, 11);
    assert_eq!(call(&book, 3, &[1; SIZE], ROOM).0, Ok(Game::Whole));
}

#[test]
fn a_refused_book_whatever_the_call_is_else() {
    let mut random = Random::new(2);
    for fault in 1..=8 {
        for mut book in [books::a(), books::b(), books::long("n127p1_high")] {
            damage(&mut book, fault, &mut random);
            for words in [0, 1, 3, 17, u32::MAX] {
                refused(&book, words, &[1; SIZE], ROOM, fault);
                refused(&book, words, &[], 0, fault);
            }
        }
    }
}

#[test]
fn row_14_count_of_words() {
    for words in [0, 17, 18, 255, 256, 257, 65_536 + 3, 1 << 31, u32::MAX] {
        refused(&books::a(), words, &[0; SIZE], ROOM, 14);
        refused(&books::a(), words, &[2; SIZE], ROOM, 14);
        refused(&books::a(), words, &[], 0, 14);
    }
    // The sizes that 17 words would have.
    refused(&books::a(), 17, &[0; 119], 68, 14);
}

#[test]
fn row_9_input_size() {
    for length in [0, 1, 3, 7, ROOM, 14, 20, 22, 28, 112, 300] {
        refused(&books::a(), 3, &vec![0; length], ROOM, 9);
        refused(&books::a(), 3, &vec![2; length], ROOM, 9);
        refused(&books::a(), 3, &vec![0; length], 0, 9);
    }
}

#[test]
fn row_10_messages() {
    for room in [0, 1, 3, 4, 8, 11, 13, 16, SIZE, 64] {
        refused(&books::a(), 3, &[0; SIZE], room, 10);
        refused(&books::a(), 3, &[2; SIZE], room, 10);
        // Also where the game would be held.
        refused(&books::a_with(7), 3, &SPENT, room, 10);
    }
}

#[test]
fn row_11_a_symbol_of_any_word() {
    // The game is Whole, or Held, without it.
    for (book, symbols) in [(books::a(), [1; SIZE]), (books::a_with(7), SPENT)] {
        for place in 0..SIZE {
            for bad in [2, 3, 255] {
                let mut received = symbols;
                received[place] = bad;
                refused(&book, 3, &received, ROOM, 11);
            }
        }
    }
    refused(&books::b(), 2, &symbols("31 12 14"), 2, 11);
}
