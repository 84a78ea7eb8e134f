//! The second implementation for a caller in C, and a shelf of codebooks.

mod shelf;

use std::slice;

use reference::packed;

/// Check, its result packed as the library packs it.
///
/// # Safety
///
/// As for the library's functions: a pointer that is not null, and so many
/// bytes behind it as its length says. This holds for all functions here.
#[no_mangle]
pub unsafe extern "C" fn reference_check(book: *const u8, book_len: usize) -> u32 {
    packed::check(slice::from_raw_parts(book, book_len))
}

/// Code, in the form that the functions which write share.
///
/// # Safety
///
/// As above; the output overlaps no other buffer.
#[no_mangle]
pub unsafe extern "C" fn reference_code(
    book: *const u8,
    book_len: usize,
    message: *const u8,
    message_len: usize,
    word: *mut u8,
    word_len: usize,
) -> u32 {
    packed::code(
        slice::from_raw_parts(book, book_len),
        slice::from_raw_parts(message, message_len),
        slice::from_raw_parts_mut(word, word_len),
    )
}

/// Read.
///
/// # Safety
///
/// As above.
#[no_mangle]
pub unsafe extern "C" fn reference_read(
    book: *const u8,
    book_len: usize,
    word: *const u8,
    word_len: usize,
    message: *mut u8,
    message_len: usize,
) -> u32 {
    packed::read(
        slice::from_raw_parts(book, book_len),
        slice::from_raw_parts(word, word_len),
        slice::from_raw_parts_mut(message, message_len),
    )
}

/// Remainder.
///
/// # Safety
///
/// As above.
#[no_mangle]
pub unsafe extern "C" fn reference_remainder(
    book: *const u8,
    book_len: usize,
    word: *const u8,
    word_len: usize,
    remainder: *mut u8,
    remainder_len: usize,
) -> u32 {
    packed::remainder(
        slice::from_raw_parts(book, book_len),
        slice::from_raw_parts(word, word_len),
        slice::from_raw_parts_mut(remainder, remainder_len),
    )
}

/// Decode.
///
/// # Safety
///
/// As above.
#[no_mangle]
pub unsafe extern "C" fn reference_decode(
    book: *const u8,
    book_len: usize,
    received: *const u8,
    received_len: usize,
    answer: *mut u8,
    answer_len: usize,
) -> u32 {
    packed::decode(
        slice::from_raw_parts(book, book_len),
        slice::from_raw_parts(received, received_len),
        slice::from_raw_parts_mut(answer, answer_len),
    )
}

/// Game, in the library's form.
///
/// # Safety
///
/// As above.
#[no_mangle]
pub unsafe extern "C" fn reference_game(
    book: *const u8,
    book_len: usize,
    words: u32,
    received: *const u8,
    received_len: usize,
    messages: *mut u8,
    messages_len: usize,
) -> u32 {
    packed::game(
        slice::from_raw_parts(book, book_len),
        words,
        slice::from_raw_parts(received, received_len),
        slice::from_raw_parts_mut(messages, messages_len),
    )
}

/// Writes a codebook of the shelf and returns its length, 0 where the shelf
/// has none of that number.
///
/// # Safety
///
/// Behind the pointer 8454 bytes may be written.
#[no_mangle]
pub unsafe extern "C" fn reference_shelf(number: usize, book: *mut u8) -> usize {
    let bytes = shelf::book(number).unwrap_or_default();
    slice::from_raw_parts_mut(book, bytes.len()).copy_from_slice(&bytes);
    bytes.len()
}
