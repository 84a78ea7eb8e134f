//! The C boundary as `include/shiftsum.h` declares it, called from Rust so
//! that it can be compared with the second implementation.

pub mod burst;
pub mod compare;
pub mod counts;
pub mod draw;
pub mod game;
mod guard;
pub mod room;
pub mod tally;
pub mod way;

use reference::codebook::Codebook;
use reference::packed::{self, Record};

use guard::Lent;
pub use guard::Touched;

extern "C" {
    fn shiftsum_check(book: *const u8, book_len: usize) -> u32;
    fn shiftsum_code(
        book: *const u8,
        book_len: usize,
        message: *const u8,
        message_len: usize,
        word: *mut u8,
        word_len: usize,
    ) -> u32;
    fn shiftsum_read(
        book: *const u8,
        book_len: usize,
        word: *const u8,
        word_len: usize,
        message: *mut u8,
        message_len: usize,
    ) -> u32;
    fn shiftsum_remainder(
        book: *const u8,
        book_len: usize,
        word: *const u8,
        word_len: usize,
        remainder: *mut u8,
        remainder_len: usize,
    ) -> u32;
    fn shiftsum_decode(
        book: *const u8,
        book_len: usize,
        received: *const u8,
        received_len: usize,
        answer: *mut u8,
        answer_len: usize,
    ) -> u32;
    fn shiftsum_burst(
        book: *const u8,
        book_len: usize,
        words: u32,
        received: *const u8,
        received_len: usize,
        answers: *mut u8,
        answers_len: usize,
        records: *mut Record,
        records_len: usize,
    ) -> u32;
    fn shiftsum_game(
        book: *const u8,
        book_len: usize,
        words: u32,
        received: *const u8,
        received_len: usize,
        messages: *mut u8,
        messages_len: usize,
    ) -> u32;
}

/// Codebook, input and output as the functions take them which write one
/// output: each as a pointer and a length.
struct Slices {
    book: (*const u8, usize),
    input: (*const u8, usize),
    output: (*mut u8, usize),
}

/// The functions of the library but burst, which `burst` is for.
#[derive(Clone, Copy, Debug, PartialEq, Eq)]
pub enum Operation {
    Check,
    Code,
    Read,
    Remainder,
    Decode,
    /// Of M words.
    Game(u32),
}

impl Operation {
    /// The library's function. Check leaves input and output alone.
    unsafe fn library(self, slices: Slices) -> u32 {
        let Slices {
            book: (book, book_len),
            input: (input, input_len),
            output: (output, output_len),
        } = slices;
        let call = match self {
            Operation::Check => return shiftsum_check(book, book_len),
            Operation::Game(m) => {
                return shiftsum_game(book, book_len, m, input, input_len, output, output_len)
            }
            Operation::Code => shiftsum_code,
            Operation::Read => shiftsum_read,
            Operation::Remainder => shiftsum_remainder,
            Operation::Decode => shiftsum_decode,
        };
        call(book, book_len, input, input_len, output, output_len)
    }

    /// The library's function. A slice's pointer is never null, an empty
    /// one's neither, and its length is what may be read or written.
    pub fn call(self, book: &[u8], input: &[u8], output: &mut [u8]) -> u32 {
        let slices = Slices {
            book: (book.as_ptr(), book.len()),
            input: (input.as_ptr(), input.len()),
            output: (output.as_mut_ptr(), output.len()),
        };
        // SAFETY: three slices, of which the borrow lets none that is
        // written overlap another, are all that the header asks for.
        unsafe { self.library(slices) }
    }

    /// The second implementation's function.
    pub fn reference(self, book: &[u8], input: &[u8], output: &mut [u8]) -> u32 {
        match self {
            Operation::Check => packed::check(book),
            Operation::Code => packed::code(book, input, output),
            Operation::Read => packed::read(book, input, output),
            Operation::Remainder => packed::remainder(book, input, output),
            Operation::Decode => packed::decode(book, input, output),
            Operation::Game(words) => packed::game(book, words, input, output),
        }
    }

    /// The same for an accepted codebook that is open.
    pub fn opened(self, book: &Codebook, input: &[u8], output: &mut [u8]) -> u32 {
        match self {
            Operation::Check => packed::pack_check(&Ok(book.clone())),
            Operation::Code => packed::pack_done(book.code(input, output)),
            Operation::Read => packed::pack_done(book.read(input, output)),
            Operation::Remainder => packed::pack_done(book.remainder(input, output)),
            Operation::Decode => {
                let mut entries = vec![0; book.entries()];
                packed::pack_decode(book.decode(input, output, &mut entries))
            }
            Operation::Game(words) => packed::pack_game(book.game(words, input, output)),
        }
    }

    /// The exact size of its output.
    pub fn exact(self, book: &Codebook) -> usize {
        match self {
            Operation::Check => 0,
            Operation::Read => book.k(),
            Operation::Remainder => book.n() - book.k(),
            Operation::Code | Operation::Decode => book.n(),
            Operation::Game(words) => book.k() * words as usize,
        }
    }
}

/// All of them; the game is of one word, and so takes what decode takes.
pub const OPERATIONS: [Operation; 6] = [
    Operation::Check,
    Operation::Code,
    Operation::Read,
    Operation::Remainder,
    Operation::Decode,
    Operation::Game(1),
];

/// Whether a codebook is accepted.
pub fn check(book: &[u8]) -> u32 {
    Operation::Check.call(book, &[], &mut [])
}

/// Writes the code word of a message.
pub fn code(book: &[u8], message: &[u8], word: &mut [u8]) -> u32 {
    Operation::Code.call(book, message, word)
}

/// Writes the message of a code word.
pub fn read(book: &[u8], word: &[u8], message: &mut [u8]) -> u32 {
    Operation::Read.call(book, word, message)
}

/// Decodes a received word.
pub fn decode(book: &[u8], received: &[u8], answer: &mut [u8]) -> u32 {
    Operation::Decode.call(book, received, answer)
}

/// The number of the refusal, or 0.
pub fn refusal(result: u32) -> u8 {
    result.to_le_bytes()[0]
}

/// In how many places the answer of decode differs from the received word.
pub fn changed(result: u32) -> u8 {
    result.to_le_bytes()[1]
}

/// How many rounds decode made.
pub fn rounds(result: u32) -> u8 {
    result.to_le_bytes()[2]
}

/// The letter of decode's kind of answer, or of a game's.
pub fn kind(result: u32) -> char {
    char::from(result.to_le_bytes()[3])
}

/// What a call returned, and what its output held after it.
#[derive(Clone, Debug, PartialEq, Eq)]
pub struct Given {
    pub result: u32,
    pub output: Vec<u8>,
}

/// Lays codebook, input and output between guards, the output holding what
/// is given, makes the call, and finds whether it wrote where it must not.
pub fn guarded(
    operation: Operation,
    book: &[u8],
    input: &[u8],
    held: &[u8],
) -> Result<Given, Touched> {
    // SAFETY: the library's functions keep the header's promises, and what
    // they would still write beside a buffer are guards.
    unsafe { guarded_call(|slices| operation.library(slices), book, input, held) }
}

/// # Safety
///
/// The call writes to no memory but the three buffers and their guards.
unsafe fn guarded_call(
    call: impl FnOnce(Slices) -> u32,
    book: &[u8],
    input: &[u8],
    held: &[u8],
) -> Result<Given, Touched> {
    let mut lent = Lent::new(book, input, [held]);
    let ((book, book_len), (input, input_len)) = (lent.book.lent(), lent.input.lent());
    let result = call(Slices {
        book: (book, book_len),
        input: (input, input_len),
        output: lent.outputs[0].lent(),
    });
    let [output] = lent.after(result)?;
    Ok(Given { result, output })
}

#[cfg(test)]
mod tests {
    use super::*;

    /// A zero written so many places from the start of codebook, input or
    /// output, by a call with the result.
    fn writing(which: usize, place: i8, result: u32) -> Result<Given, Touched> {
        let call = |slices: Slices| {
            let (book, input) = (slices.book.0.cast_mut(), slices.input.0.cast_mut());
            let buffer = [book, input, slices.output.0][which];
            // SAFETY: every place tried is in the buffer or in its guards.
            unsafe { buffer.offset(place.into()).write(0) };
            result
        };
        // SAFETY: as above.
        unsafe { guarded_call(call, &[6, 7, 8, 9], &[1, 2], &[3, 4, 5]) }
    }

    /// Results of a game: refused, held and whole.
    const REFUSED: u32 = 11;
    const HELD: u32 = 0x4800_0100;
    const WHOLE: u32 = 0x5700_0000;

    #[test]
    fn what_a_call_must_not_write_is_found() {
        let mut tried = 0;
        for result in [0, REFUSED, HELD, WHOLE] {
            for place in [-64, -1, 3, 4, 66] {
                assert_eq!(writing(0, place, result), Err(Touched::Book));
                tried += 1;
            }
            for place in [-64, -1, 0, 1, 2, 65] {
                assert_eq!(writing(1, place, result), Err(Touched::Input));
                tried += 1;
            }
            for place in [-64, -1, 3, 4, 66] {
                assert_eq!(writing(2, place, result), Err(Touched::Guard));
                tried += 1;
            }
        }
        for place in 0..3 {
            assert_eq!(writing(2, place, REFUSED), Err(Touched::Kept));
            assert_eq!(writing(2, place, HELD), Err(Touched::Kept));
            tried += 2;
        }
        println!("guards: {tried} forbidden writes found");
    }

    #[test]
    fn what_a_call_may_write_is_given() {
        for place in 0..3 {
            let mut output = vec![3, 4, 5];
            output[usize::try_from(place).expect("not below 0")] = 0;
            for result in [0, WHOLE] {
                let output = output.clone();
                assert_eq!(writing(2, place, result), Ok(Given { result, output }));
            }
        }
    }

    #[test]
    fn the_result_is_cut_as_the_header_cuts_it() {
        let result = 0x4d03_0201;
        assert_eq!((refusal(result), changed(result)), (1, 2));
        assert_eq!((rounds(result), kind(result)), (3, 'M'));
    }
}
