//! Burst, which beside codebook and input has a count of words and two
//! outputs, the answers and the list of records.

use std::fmt;

use reference::burst::unmixed;
use reference::codebook::Codebook;
use reference::packed::{self, Record};

use crate::compare::hex;
use crate::guard::{Lent, Touched};
use crate::{changed, decode, kind, refusal, rounds, shiftsum_burst};

/// The form of the library's function.
type Call = unsafe extern "C" fn(
    *const u8,
    usize,
    u32,
    *const u8,
    usize,
    *mut u8,
    usize,
    *mut Record,
    usize,
) -> u32;

/// A burst, with all that is needed to make it again.
#[derive(Clone, Copy, Debug)]
pub struct Burst<'a> {
    pub seed: u64,
    pub book: &'a [u8],
    /// M.
    pub words: u32,
    pub received: &'a [u8],
    /// What answers and list hold before the call, and so their sizes.
    pub answers: &'a [u8],
    pub records: &'a [Record],
}

/// What a burst returned, and what its outputs held after it.
#[derive(Clone, Debug, PartialEq, Eq)]
pub struct Outcome {
    pub result: u32,
    pub answers: Vec<u8>,
    pub records: Vec<Record>,
}

impl Burst<'_> {
    /// Fails unless library and second implementation return one number and
    /// leave the same answers and records, and the library touches nothing
    /// else.
    pub fn compare(&self) -> Outcome {
        self.against(&self.due(|answers, records| {
            packed::burst(self.book, self.words, self.received, answers, records)
        }))
    }

    /// The same for an accepted codebook that is open, since it takes long to
    /// check it for every call.
    pub fn compare_open(&self, book: &Codebook) -> Outcome {
        self.against(&self.due(|answers, records| {
            packed::open_burst(book, self.words, self.received, answers, records)
        }))
    }

    /// Fails unless the library returns and leaves what calls of its decode,
    /// one for each word, return and write.
    pub fn compare_singly(&self) -> Outcome {
        let words = self.words as usize;
        let n = self.received.len() / words;
        self.against(&self.due(|answers, records| {
            for (m, answer) in answers.chunks_mut(n).enumerate() {
                let result = decode(self.book, &unmixed(self.received, words, m), answer);
                assert!(refusal(result) == 0, "word {m}: {result:#010x}\n{self}");
                records[m] = [kind(result) as u8, rounds(result), changed(result)];
            }
            0
        }))
    }

    /// Fails unless the library refuses it by the number, and touches nothing.
    pub fn refused(&self, number: u8) {
        self.against(&self.due(|_, _| number.into()));
    }

    /// What is returned and written by other means, into outputs that hold
    /// the same before.
    fn due(&self, call: impl FnOnce(&mut [u8], &mut [Record]) -> u32) -> Outcome {
        let (mut answers, mut records) = (self.answers.to_vec(), self.records.to_vec());
        let result = call(&mut answers, &mut records);
        Outcome {
            result,
            answers,
            records,
        }
    }

    /// Fails unless the library returns and leaves what is due, and touches
    /// nothing else.
    pub fn against(&self, due: &Outcome) -> Outcome {
        let given = self.call();
        assert!(given == *due, "library:  {given}\nexpected: {due}\n{self}");
        given
    }

    /// What the library returns and leaves; fails where it touches anything
    /// else.
    pub fn call(&self) -> Outcome {
        // SAFETY: the library keeps the header's promises, and what it would
        // still write beside a buffer are guards.
        unsafe { self.guarded(shiftsum_burst) }
            .unwrap_or_else(|touched| panic!("written to: {touched:?}\n{self}"))
    }

    /// Lays the four buffers between guards, makes the call, and finds whether
    /// it wrote where it must not.
    ///
    /// # Safety
    ///
    /// The call writes to no memory but the four buffers and their guards.
    unsafe fn guarded(&self, call: Call) -> Result<Outcome, Touched> {
        let held = [self.answers, self.records.as_flattened()];
        let mut lent = Lent::new(self.book, self.received, held);
        let (book_at, book_len) = lent.book.lent();
        let (received_at, received_len) = lent.input.lent();
        let [answers, records] = &mut lent.outputs;
        let (answers_at, answers_len) = answers.lent();
        let records_at = records.pointer().cast();
        let result = call(
            book_at,
            book_len,
            self.words,
            received_at,
            received_len,
            answers_at,
            answers_len,
            records_at,
            self.records.len(),
        );
        let [answers, records] = lent.after(result)?;
        let records = records
            .chunks_exact(3)
            .map(|record| [record[0], record[1], record[2]]);
        Ok(Outcome {
            result,
            answers,
            records: records.collect(),
        })
    }
}

impl fmt::Display for Burst<'_> {
    fn fmt(&self, f: &mut fmt::Formatter) -> fmt::Result {
        let (words, count) = (self.words, self.records.len());
        writeln!(
            f,
            "burst, seed {:#x}, M {words}, {count} records",
            self.seed
        )?;
        writeln!(f, "codebook {}", hex(self.book))?;
        writeln!(f, "input    {}", hex(self.received))?;
        writeln!(f, "answers, before the call {}", hex(self.answers))?;
        write!(
            f,
            "list, before the call {}",
            hex(self.records.as_flattened())
        )
    }
}

impl fmt::Display for Outcome {
    fn fmt(&self, f: &mut fmt::Formatter) -> fmt::Result {
        let (answers, records) = (hex(&self.answers), hex(self.records.as_flattened()));
        write!(f, "{:#010x} {answers} {records}", self.result)
    }
}

#[cfg(test)]
mod tests {
    use super::*;

    /// Writes a zero so many places from the start of one of the buffers,
    /// which one and where being what the codebook says, and returns M.
    unsafe extern "C" fn write_a_zero(
        book: *const u8,
        _: usize,
        words: u32,
        received: *const u8,
        _: usize,
        answers: *mut u8,
        _: usize,
        records: *mut Record,
        _: usize,
    ) -> u32 {
        let [which, place] = [*book, *book.add(1)];
        let buffer = match which {
            0 => book.cast_mut(),
            1 => received.cast_mut(),
            2 => answers,
            _ => records.cast(),
        };
        buffer.offset(isize::from(place.cast_signed())).write(0);
        words
    }

    /// A zero written at the place of the buffer, by a call with the result.
    fn writing(which: u8, place: i8, result: u32) -> Result<Outcome, Touched> {
        let burst = Burst {
            seed: 0,
            book: &[which, place.cast_unsigned(), 9],
            words: result,
            received: &[1, 2],
            answers: &[3, 4, 5, 6, 7],
            records: &[[11, 12, 13], [14, 15, 16]],
        };
        // SAFETY: every place tried is in the buffer or in its guards.
        unsafe { burst.guarded(write_a_zero) }
    }

    #[test]
    fn what_a_burst_must_not_write_is_found() {
        let mut tried = 0;
        // The buffer, its size, and what is found where it is written to.
        let buffers = [
            (0, 3, Touched::Book),
            (1, 2, Touched::Input),
            (2, 5, Touched::Guard),
            (3, 6, Touched::Guard),
        ];
        for result in [0, 14] {
            for (which, size, touched) in buffers {
                for place in [-64, -1, size, size + 1, size + 63] {
                    assert_eq!(writing(which, place, result), Err(touched));
                    tried += 1;
                }
            }
        }
        for (which, size, _) in &buffers[2..] {
            for place in 0..*size {
                assert_eq!(writing(*which, place, 14), Err(Touched::Kept));
                tried += 1;
            }
        }
        println!("guards of a burst: {tried} forbidden writes found");
    }

    #[test]
    fn what_a_burst_may_write_is_given() {
        for place in 0..5i8 {
            let given = writing(2, place, 0).expect("allowed");
            let mut answers = vec![3, 4, 5, 6, 7];
            answers[usize::try_from(place).expect("not below 0")] = 0;
            assert_eq!(given.answers, answers);
            assert_eq!(given.records, [[11, 12, 13], [14, 15, 16]]);
        }
        let given = writing(3, 4, 0).expect("allowed");
        assert_eq!(given.records, [[11, 12, 13], [14, 0, 16]]);
        assert_eq!((given.result, given.answers.len()), (0, 5));
    }
}
