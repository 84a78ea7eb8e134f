//! Bursts that are refused, at the C boundary: every M, sizes that are right
//! or not, a bad symbol at every place, and refused codebooks. With a refused
//! codebook a game is tried as well.

use boundary::counts::{any_count, distinct, refused_counts, sizes, SORTS};
use boundary::draw::{self, Book};
use boundary::room::{every_accepted_count, every_count, places_tally, sizes_tally, Room};
use boundary::tally::Tally;
use boundary::way::{copy, COPIES};
use reference::burst::MOST_WORDS;
use reference::generate::{self, Random, SHAPES};

/// Every size of input and outputs for the M, without and with a bad symbol.
fn every_size(room: &Room, words: u32, random: &mut Random, tally: &mut Tally) {
    let (n, m) = (room.book.parts.n(), words as usize);
    let lists = [sizes(1, m), vec![("bytes", 3 * m)]].concat();
    for (input_sort, received) in room.inputs(words, random) {
        for (answers_sort, answers) in room.sizes(words) {
            for (list_sort, list) in distinct(lists.clone(), 3 * 18) {
                let burst = room.burst(words, &received, [answers, list]);
                let given = burst.compare_open(&room.book.parts);
                let exact = answers == n * m && list == m;
                let number = room.due(words, &received, exact, tally);
                assert!(given.result == u32::from(number), "{burst}");
                match number {
                    9 => tally.count("9, input", input_sort),
                    10 if list == m => tally.count("10, answers", answers_sort),
                    10 if answers == n * m => tally.count("10, list", list_sort),
                    _ => {}
                }
            }
        }
    }
}

#[test]
fn every_count_of_words_and_every_size() {
    let mut tally = sizes_tally("burst, every M and every size")
        .due("10, answers", SORTS)
        .due("10, list", SORTS)
        .due("10, list", ["bytes"]);
    every_count(1, &mut tally, every_size);
    tally.finish(10);
}

/// What else is wrong with a burst that has a bad symbol, and the number that
/// it is refused by for that.
const EARLIER: [(&str, u8); 12] = [
    ("book", 1),
    ("book", 2),
    ("book", 3),
    ("book", 4),
    ("book", 5),
    ("book", 6),
    ("book", 7),
    ("book", 8),
    ("M", 14),
    ("input", 9),
    ("answers", 10),
    ("list", 10),
];

/// A bad symbol at every place of bursts with the M, alone and with one of the
/// earlier refusals.
fn every_place(
    room: &Room,
    words: u32,
    damaged: &[Vec<u8>],
    random: &mut Random,
    tally: &mut Tally,
) {
    let (parts, m) = (&room.book.parts, words as usize);
    let size = parts.n() * m;
    for (place, received) in room.bad_inputs(words, random, tally).iter().enumerate() {
        let mut burst = room.burst(words, &received[..size], [size, m]);
        assert_eq!(burst.compare_open(parts).result, 11, "{burst}");

        let (wrong, number) = EARLIER[(place + m) % EARLIER.len()];
        match wrong {
            "book" => burst.book = &damaged[usize::from(number) - 1],
            "M" => burst.words = random.pick(&refused_counts(parts.n())).0,
            "input" => burst.received = received,
            "answers" => burst.answers = &room.bytes[..=size],
            _ => burst.records = &room.records[..=m],
        }
        burst.refused(number);
        tally.count("wrong as well", format!("{wrong} {number}"));
    }
}

#[test]
fn a_bad_symbol_at_every_place() {
    let wrong = EARLIER.map(|(wrong, number)| format!("{wrong} {number}"));
    let mut tally = places_tally("burst, a bad symbol at every place").due("wrong as well", wrong);
    every_accepted_count(2, &mut tally, every_place);
    tally.finish(10);
}

/// A burst and a game with each of the damaged codebooks, whatever is right or
/// wrong with the rest of the call.
fn every_damage(room: &Room, random: &mut Random, tally: &mut Tally) {
    let (n, k) = (room.book.parts.n(), room.book.parts.k());
    for (fault, bytes) in (1u32..).zip(draw::damaged(&room.book, random)) {
        let (words, name) = any_count(n, random);
        let m = words.min(MOST_WORDS) as usize;
        let [input, answers] = [(); 2].map(|()| *random.pick(&[n * m, n * m, n, 0]));
        let list = *random.pick(&[m, m, m + 1, 0]);
        let mut received = room.symbols[..input].to_vec();
        if random.once_in(2) {
            received = generate::bad_symbol(received, room.book.parts.q(), random);
        }
        let mut burst = room.burst(words, &received, [answers, list]);
        burst.book = &bytes;
        assert!(burst.compare().result == fault, "{fault}: {burst}");
        let messages = *random.pick(&[k * m, k * m, n * m, 0]);
        let mut game = room.game(words, &received, messages);
        game.book = &bytes;
        assert!(game.compare().result == fault, "{fault}: {game}");
        if fault == 8 {
            tally.count("copy", copy(&room.book, &bytes).expect("a copy"));
        }
        tally.tried();
        tally.count("refusal", fault);
        tally.count("M", name);
        tally.count("s and p", room.book.shape());
    }
}

#[test]
fn refused_codebooks() {
    let names = refused_counts(3).map(|(_, name)| name);
    let mut tally = Tally::new("burst and game, refused codebooks")
        .due("s and p", draw::shapes())
        .due("refusal", 1..=8)
        .due("copy", COPIES)
        .due("M", names.into_iter().chain(["1 to 16"]));
    for (s, p) in SHAPES {
        for trial in 0..if s < 6 { 40 } else { 12 } {
            let seed = draw::seed(3, s, p, trial);
            let mut random = Random::new(seed);
            let book = Book::any(s, p, &mut random);
            let room = Room::new(seed, book, &mut random);
            every_damage(&room, &mut random, &mut tally);
        }
    }
    tally.finish(10);
}
