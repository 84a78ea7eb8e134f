//! Games that are refused, at the C boundary: every M, sizes that are right or
//! not, and a bad symbol at every place. `burst_refusals.rs` tries refused
//! codebooks.

use boundary::counts::{distinct, refused_counts, sizes, SORTS};
use boundary::refusal;
use boundary::room::{every_accepted_count, every_count, places_tally, sizes_tally, Room};
use boundary::tally::Tally;
use boundary::Operation;
use reference::generate::Random;

/// Every size of input and messages for the M, without and with a bad symbol.
fn every_size(room: &Room, words: u32, random: &mut Random, tally: &mut Tally) {
    let (parts, m) = (&room.book.parts, words as usize);
    let (n, k) = (parts.n(), parts.k());
    let messages = [sizes(k, m), vec![("n M", n * m)]].concat();
    for (input_sort, received) in room.inputs(words, random) {
        for (sort, size) in distinct(messages.clone(), 18 * n) {
            let game = room.game(words, &received, size);
            let given = game.compare_open(parts);
            let number = room.due(words, &received, size == k * m, tally);
            assert!(refusal(given.result) == number, "{game}");
            match number {
                9 => tally.count("9, input", input_sort),
                10 => tally.count("10, messages", sort),
                _ => {}
            }
        }
    }
}

#[test]
fn every_count_of_words_and_every_size() {
    let mut tally = sizes_tally("game, every M and every size")
        .due("10, messages", SORTS)
        .due("10, messages", ["n M"]);
    every_count(10, &mut tally, every_size);
    tally.finish(10);
}

/// The numbers that come before 11, in their order.
const EARLIER: [u8; 11] = [1, 2, 3, 4, 5, 6, 7, 8, 14, 9, 10];

/// A bad symbol at every place of games with the M, alone, and with one of the
/// earlier refusals or with this one and all between.
fn every_place(
    room: &Room,
    words: u32,
    damaged: &[Vec<u8>],
    random: &mut Random,
    tally: &mut Tally,
) {
    let (parts, m) = (&room.book.parts, words as usize);
    let (size, messages) = (parts.n() * m, parts.k() * m);
    for (place, received) in room.bad_inputs(words, random, tally).iter().enumerate() {
        let mut game = room.game(words, &received[..size], messages);
        game.against(11, game.held);

        let first = (place + m) % EARLIER.len();
        let (last, way) = match place % 2 {
            0 => (first, "one"),
            _ => (EARLIER.len() - 1, "all"),
        };
        // The codebook has the first of its faults.
        for &number in EARLIER[first..=last].iter().rev() {
            match number {
                14 => game.operation = Operation::Game(random.pick(&refused_counts(parts.n())).0),
                9 => game.input = received,
                10 => game.held = &room.bytes[..=messages],
                _ => game.book = &damaged[usize::from(number) - 1],
            }
        }
        game.against(EARLIER[first].into(), game.held);
        tally.count("wrong as well", format!("{} {way}", EARLIER[first]));
    }
}

#[test]
fn a_bad_symbol_at_every_place() {
    let ways = EARLIER.map(|number| [format!("{number} one"), format!("{number} all")]);
    let mut tally =
        places_tally("game, a bad symbol at every place").due("wrong as well", ways.as_flattened());
    every_accepted_count(11, &mut tally, every_place);
    tally.finish(10);
}
