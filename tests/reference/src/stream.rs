//! Program: standard input to standard output (the scope, "Operations").

use std::io::{self, BufRead, BufReader, BufWriter, Read, Write};

use crate::codebook::check;

/// "At most 1000000 words are read."
pub const MOST_WORDS: usize = 1_000_000;

/// "The program takes lengths to 8454"; one above prints `R 1`.
const MOST_BYTES: usize = 8454;

/// The whole run, from the length field to the end of input.
pub fn run(input: &mut dyn Read, output: &mut dyn Write) {
    let mut input = Input {
        source: BufReader::with_capacity(1 << 16, input),
        ended: false,
    };
    let mut output = BufWriter::with_capacity(1 << 16, output);
    // The scope is silent on a failed write: it ends the run.
    let _ = lines(&mut input, &mut output).and_then(|()| output.flush());
}

/// One line for each word, or one for a refused book.
fn lines(input: &mut Input, output: &mut dyn Write) -> io::Result<()> {
    let book = match input.book().and_then(|book| check(&book)) {
        Ok(book) => book,
        Err(number) => return refusal(output, number),
    };
    let mut answer = vec![0; book.n()];
    let mut entries = vec![0; book.entries()];
    for _ in 0..MOST_WORDS {
        let received = input.take(book.n());
        if received.is_empty() {
            break;
        }
        // A piece shorter than n is refused by 9 and is the last there is.
        match book.decode(&received, &mut answer, &mut entries) {
            Ok(decoded) => {
                let letter = decoded.kind.letter();
                write!(output, "{letter} {} {} ", decoded.rounds, decoded.changed)?;
                for symbol in &answer {
                    write!(output, "{symbol:02x}")?;
                }
                writeln!(output)?;
            }
            Err(number) => refusal(output, number)?,
        }
    }
    Ok(())
}

/// "A refusal prints `R`, space, number, line feed."
fn refusal(output: &mut dyn Write, number: u8) -> io::Result<()> {
    writeln!(output, "R {number}")
}

/// Input up to its end, "a failed read" being one, interrupted ones too.
struct Input<'a> {
    source: BufReader<&'a mut dyn Read>,
    ended: bool,
}

impl Input<'_> {
    /// "The codebook's length (two bytes, low first), the codebook." Refusal
    /// 1 for "a missing or short length field or codebook, or a length above
    /// 8454".
    fn book(&mut self) -> Result<Vec<u8>, u8> {
        let length = self.take(2);
        let &[low, high] = length.as_slice() else {
            return Err(1);
        };
        let length = usize::from(u16::from_le_bytes([low, high]));
        if length > MOST_BYTES {
            return Err(1);
        }
        let book = self.take(length);
        if book.len() < length {
            return Err(1);
        }
        Ok(book)
    }

    /// The next bytes, fewer than wanted only at the end of input.
    fn take(&mut self, wanted: usize) -> Vec<u8> {
        let mut piece = Vec::with_capacity(wanted);
        while piece.len() < wanted && !self.ended {
            match self.source.fill_buf() {
                Ok(bytes) if !bytes.is_empty() => {
                    let count = bytes.len().min(wanted - piece.len());
                    piece.extend_from_slice(&bytes[..count]);
                    self.source.consume(count);
                }
                _ => self.ended = true,
            }
        }
        piece
    }
}
