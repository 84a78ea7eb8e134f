//! The result of a call as one number, as it crosses the C boundary.
//!
//! The lowest byte is the refusal number or 0. A refused call has the other
//! three bytes 0. Check has L in byte 1; decode has changed in byte 1,
//! rounds in byte 2 and the letter of the kind in byte 3. A burst has the
//! same three in a record for each word; a game has the count held in byte 1
//! and the letter of its answer in byte 3. A field operation, which is exported
//! for tests alone, has its symbol in byte 1.

use crate::codebook::{self, Codebook};
use crate::coder;
use crate::decode::Decoded;
use crate::game::{self, Game};

/// Check, its result packed.
pub fn check(book: &[u8]) -> u32 {
    pack_check(&codebook::check(book))
}

/// Code, its result packed.
pub fn code(book: &[u8], message: &[u8], word: &mut [u8]) -> u32 {
    pack_done(coder::code(book, message, word))
}

/// Read, its result packed.
pub fn read(book: &[u8], word: &[u8], message: &mut [u8]) -> u32 {
    pack_done(coder::read(book, word, message))
}

/// Remainder, its result packed.
pub fn remainder(book: &[u8], word: &[u8], remainder: &mut [u8]) -> u32 {
    pack_done(coder::remainder(book, word, remainder))
}

/// Decode, its result packed; "the matrix is a local buffer behind that
/// boundary", of the exact size.
pub fn decode(book: &[u8], received: &[u8], answer: &mut [u8]) -> u32 {
    pack_decode(codebook::check(book).and_then(|book| {
        let mut entries = vec![0; book.entries()];
        book.decode(received, answer, &mut entries)
    }))
}

/// A record as it crosses the C boundary: the letter of the kind, rounds,
/// changed.
pub type Record = [u8; 3];

/// Burst, its records packed; the matrix is local as decode's is.
pub fn burst(
    book: &[u8],
    words: u32,
    received: &[u8],
    answers: &mut [u8],
    records: &mut [Record],
) -> u32 {
    match codebook::check(book) {
        Ok(book) => open_burst(&book, words, received, answers, records),
        Err(number) => u32::from(number),
    }
}

/// The same for a codebook that is open.
pub fn open_burst(
    book: &Codebook,
    words: u32,
    received: &[u8],
    answers: &mut [u8],
    records: &mut [Record],
) -> u32 {
    let mut list = vec![Decoded::UNWRITTEN; records.len()];
    let mut entries = vec![0; book.entries()];
    let result = book.burst(words, received, answers, &mut list, &mut entries);
    if result.is_ok() {
        for (record, decoded) in records.iter_mut().zip(&list) {
            *record = pack_record(decoded);
        }
    }
    pack_done(result)
}

/// Game, its result packed.
pub fn game(book: &[u8], words: u32, received: &[u8], messages: &mut [u8]) -> u32 {
    pack_game(game::game(book, words, received, messages))
}

fn pack_record(decoded: &Decoded) -> Record {
    [decoded.kind.letter() as u8, decoded.rounds, decoded.changed]
}

/// The number for what check returns.
pub fn pack_check(result: &Result<Codebook, u8>) -> u32 {
    match result {
        Ok(book) => u32::from_le_bytes([0, book.l() as u8, 0, 0]),
        Err(number) => u32::from(*number),
    }
}

/// The number for what code, read, remainder and burst return.
pub fn pack_done(result: Result<(), u8>) -> u32 {
    match result {
        Ok(()) => 0,
        Err(number) => u32::from(number),
    }
}

/// The number for what decode returns.
pub fn pack_decode(result: Result<Decoded, u8>) -> u32 {
    match result {
        Ok(decoded) => {
            let [letter, rounds, changed] = pack_record(&decoded);
            u32::from_le_bytes([0, changed, rounds, letter])
        }
        Err(number) => u32::from(number),
    }
}

/// The number for what game returns.
pub fn pack_game(result: Result<Game, u8>) -> u32 {
    match result {
        Ok(game) => u32::from_le_bytes([0, game.held(), 0, game.letter() as u8]),
        Err(number) => u32::from(number),
    }
}

/// The number for what a field operation returns.
pub fn pack_symbol(result: Result<u8, u8>) -> u32 {
    match result {
        Ok(symbol) => u32::from_le_bytes([0, symbol, 0, 0]),
        Err(number) => u32::from(number),
    }
}
