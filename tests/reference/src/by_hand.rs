//! Games followed by hand, for whatever takes a game.

use crate::books::{self, symbols};
use crate::game::Game;

/// What every byte of the messages holds before the call. No symbol is it.
pub const BEFORE: u8 = 0xa5;

/// A game and what is due of it.
#[derive(Clone, Debug)]
pub struct ByHand {
    pub book: Vec<u8>,
    /// M.
    pub words: u32,
    pub received: Vec<u8>,
    pub answer: Game,
    /// What the messages hold after the call.
    pub messages: Vec<u8>,
}

/// The messages are written, M of them with gaps between.
fn whole(book: Vec<u8>, mixed: &str, messages: &str) -> ByHand {
    ByHand {
        book,
        words: messages.split(' ').count() as u32,
        received: symbols(mixed),
        answer: Game::Whole,
        messages: symbols(messages),
    }
}

/// So many of M words are held, and the messages, k symbols each, are not
/// written.
fn held(book: Vec<u8>, mixed: &str, k: usize, words: u32, count: u8) -> ByHand {
    ByHand {
        book,
        words,
        received: symbols(mixed),
        answer: Game::Held(count),
        messages: vec![BEFORE; k * words as usize],
    }
}

/// 1000000 sixteen times, with other symbols at places 1 and 3.
fn sixteen(places_1_and_3: &str) -> String {
    let (ones, zeros) = ("1".repeat(16), "0".repeat(16));
    let other = places_1_and_3;
    [&ones, other, &zeros, other, &zeros, &zeros, &zeros].concat()
}

/// Books A, B and C, with other D as well; the words are those of the cases.
pub fn games() -> Vec<ByHand> {
    let (a, b, c) = (books::a, books::b, books::c);
    // 1101000 is word 11, and its message is 1000.
    let eleventh = sixteen("00000000000 1 0000");
    let messages = "0000 ".repeat(11) + "1000" + &" 0000".repeat(4);
    vec![
        // Cases 6 and 7, Mended, and the code word of case 2; then backwards.
        whole(a(), "111 011 000 001 000 000 000", "0000 1000 1000"),
        whole(a(), "111 110 000 100 000 000 000", "1000 1000 0000"),
        // The code words of cases 2 and 3, Clean, and case 6.
        whole(a(), "111 100 010 110 010 000 000", "1000 1100 0000"),
        // One word, and sixteen.
        whole(a(), "1011100", "1100"),
        whole(a(), "1100000", "1000"),
        whole(a(), &eleventh, &messages),
        // Case 14, whose answer is (2 + x) 2x, and case 4.
        whole(books::c_with(3), "10 02 01", "02 01"),
        // Cases 10 and 11, and case 11 alone and after itself.
        held(b(), "31 12 10", 1, 2, 1),
        held(b(), "120", 1, 1, 1),
        held(b(), "11 22 00", 1, 2, 2),
        // Case 13 before and after case 4.
        held(c(), "10 02 01", 2, 2, 1),
        held(c(), "01 20 10", 2, 2, 1),
        // Case 9 before and after a code word, and sixteen times.
        held(books::a_with(7), "111 010 000 010 000 000 000", 4, 3, 2),
        held(books::a_with(7), &eleventh, 4, 16, 15),
        held(books::a_with(7), &sixteen(&"0".repeat(16)), 4, 16, 16),
        // With D 3 every round of B turns 100 and 011 over: Spent. 120 is
        // Stalled as ever, and 111 Clean.
        held(books::b_with(3), "111 021 001", 1, 3, 2),
        held(books::b_with(3), "111 112 110", 1, 3, 1),
    ]
}
