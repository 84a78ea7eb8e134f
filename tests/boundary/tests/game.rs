//! Games against words followed by hand, against the second implementation,
//! and against the library's own burst and read, with words of all kinds.

use std::ops::RangeInclusive;

use boundary::compare::Trial;
use boundary::draw::bursts::{every_small, on_books, Pool, SMALL};
use boundary::draw::{self, Book};
use boundary::game::{stopped, Mixed};
use boundary::tally::Tally;
use boundary::{code, Operation};
use reference::books;
use reference::burst::MOST_WORDS;
use reference::by_hand::{games, BEFORE};
use reference::game::Game;
use reference::generate::{self, Random, SHAPES};
use reference::packed::pack_game;

#[test]
fn games_followed_by_hand() {
    let mut tally = Tally::new("game, followed by hand").due("answer", ['W', 'H']);
    for due in games() {
        let game = Trial {
            seed: 0,
            operation: Operation::Game(due.words),
            book: &due.book,
            input: &due.received,
            held: &vec![BEFORE; due.messages.len()],
        };
        game.against(pack_game(Ok(due.answer)), &due.messages);
        tally.tried();
        tally.count("answer", due.answer.letter());
    }
    tally.finish(5);
}

/// All choices of kinds but none at all. The first three make a game Whole,
/// with Clean words alone, with Mended ones alone and with both; the others
/// have it Held, by Stalled words alone, by Spent ones alone or by both.
const CHOICES: [&str; 15] = [
    "C", "M", "CM", "S", "X", "SX", "CS", "CX", "CSX", "MS", "MX", "MSX", "CMS", "CMX", "CMSX",
];

/// Games of every s and p given with words of each choice of kinds, until they
/// took so many products of symbols.
fn drawn_games(title: &'static str, test: u8, sizes: RangeInclusive<u8>, products: usize) {
    let shapes = SHAPES.iter().filter(|(s, _)| sizes.contains(s));
    let mut tally = Tally::new(title)
        .due("s and p", shapes.clone().map(|(s, p)| format!("{s} {p}")))
        .due("M", 1..=MOST_WORDS)
        .due("kinds", CHOICES)
        .due("held", 0..=MOST_WORDS);
    for &shape in shapes {
        on_books(test, shape, 60, products, |seed, book, random| {
            let pool = Pool::new(seed, book, 2, random);
            let mut spent = 0;
            for kinds in CHOICES {
                let count = random.between(1, MOST_WORDS as usize);
                if let Some(words) = pool.words(kinds, count, random) {
                    spent += Mixed::new(seed, book, &words).compared(random, &mut tally);
                }
            }
            spent
        });
    }
    tally.finish(5);
}

#[test]
fn games_of_s_2_to_5() {
    drawn_games("game, s 2 to 5", 1, 2..=5, 12_000_000);
}

#[test]
fn games_of_s_6() {
    drawn_games("game, s 6", 2, 6..=6, 40_000_000);
}

#[test]
fn games_of_s_7_and_8() {
    drawn_games("game, s 7 and 8", 3, 7..=8, 100_000_000);
}

#[test]
fn every_game_of_small_codebooks() {
    let mut tally = Tally::new("game, every game of small codebooks")
        .due("s and p", SMALL)
        .due("M", 1..=4)
        .due("kinds", ["C", "M", "CM", "S", "X", "CS", "CX"])
        .due("held", 0..=4);
    every_small(4, |seed, book, words, random| {
        Mixed::new(seed, book, words).compared(random, &mut tally);
    });
    tally.finish(1);
}

/// With every M, each word in turn as the only one that is held, and then all
/// of them.
fn each_in_turn(seed: u64, book: &Book, pool: &Pool, random: &mut Random, tally: &mut Tally) {
    for m in 1..=MOST_WORDS as usize {
        let taken = pool.words("CM", m, random).expect("code words");
        let Some(held) = pool.words("SX", m, random) else {
            return;
        };
        for (at, word) in held.iter().enumerate() {
            let mut words = taken.clone();
            words[at] = word.clone();
            let (records, _) = Mixed::new(seed, book, &words).as_burst_and_read(random, tally);
            assert!(records.iter().filter(|record| stopped(record)).count() == 1);
        }
        Mixed::new(seed, book, &held).compared(random, tally);
    }
}

#[test]
fn each_word_held_alone() {
    let places = (1..=MOST_WORDS).flat_map(|m| (0..m).map(move |at| format!("{at} of {m}")));
    let mut tally = Tally::new("game, each word held alone")
        .due("s and p", draw::shapes())
        .due("held alone", places)
        .due("held", 1..=MOST_WORDS);
    for (s, p) in SHAPES {
        for (seed, mut random, book) in draw::quick_books(5, s, p, 4) {
            let pool = Pool::new(seed, &book, 2, &mut random);
            each_in_turn(seed, &book, &pool, &mut random, &mut tally);
        }
    }
    tally.finish(10);
}

#[test]
fn sixteen_words_of_every_stored_codebook() {
    let mut tally = Tally::new("game, stored codebooks")
        .due("codebook", books::LONG.map(|(name, _)| name))
        .due("kinds", ["CM", "CMSX"]);
    for (at, (name, bytes)) in (0..).zip(books::LONG) {
        let seed = draw::seed(6, 8, 0, at);
        let mut random = Random::new(seed);
        let book = Book::new(bytes.to_vec());
        let pool = Pool::new(seed, &book, 3, &mut random);
        for kinds in ["CM", "CMSX"] {
            let words = pool.words(kinds, 16, &mut random).expect("code words");
            // The second implementation takes long by the whole one.
            Mixed::new(seed, &book, &words).as_burst_and_read(&mut random, &mut tally);
        }
        tally.count("codebook", name);
    }
    tally.finish(1);
}

/// The code words of messages, by the library.
fn coded(book: &Book, messages: &[Vec<u8>]) -> Vec<Vec<u8>> {
    let coded = |message: &Vec<u8>| {
        let mut word = vec![0; book.parts.n()];
        assert_eq!(code(&book.bytes, message, &mut word), 0);
        word
    };
    messages.iter().map(coded).collect()
}

/// Messages that are coded and sent as a game come back; and what comes of
/// them where up to a dozen symbols in a row are spoiled.
fn sent(seed: u64, book: &Book, m: usize, random: &mut Random, tally: &mut Tally) -> &'static str {
    let messages = (0..m).map(|_| generate::message(&book.parts, random));
    let messages: Vec<Vec<u8>> = messages.collect();
    let mut mixed = Mixed::new(seed, book, &coded(book, &messages));
    let whole = pack_game(Ok(Game::Whole));
    let before = mixed.before(random);
    mixed.game(&before).against(whole, &messages.concat());

    let row = random.between(1, mixed.received.len().min(12));
    let start = random.below(mixed.received.len() + 1 - row);
    for symbol in &mut mixed.received[start..][..row] {
        *symbol ^= random.symbol(1, book.parts.q());
    }
    match mixed.as_burst_and_read(random, tally) {
        (records, _) if records.iter().any(stopped) => "held",
        (_, given) if given == messages.concat() => "came back",
        _ => "others",
    }
}

#[test]
fn messages_come_back() {
    let mut tally = Tally::new("game, round trips")
        .due("s and p", draw::shapes())
        .due("M", 1..=MOST_WORDS)
        .due("spoiled", ["came back", "others", "held"]);
    for (s, p) in SHAPES {
        for (seed, mut random, book) in draw::quick_books(7, s, p, 8) {
            for m in 1..=MOST_WORDS as usize {
                let spoiled = sent(seed, &book, m, &mut random, &mut tally);
                tally.count("spoiled", spoiled);
            }
        }
    }
    tally.finish(50);
}
