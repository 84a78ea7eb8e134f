//! Buffers between guards, so that a call which writes where it must not is
//! found.

use crate::{kind, refusal};

/// What lies on either side of a buffer. No symbol is as large, so that a
/// symbol written there shows.
const GUARD: [u8; 64] = [0xa5; 64];

/// A buffer between guards, and what was laid there before the call.
pub(crate) struct Laid {
    before: Vec<u8>,
    bytes: Vec<u8>,
}

impl Laid {
    fn new(held: &[u8]) -> Laid {
        let before = [&GUARD, held, &GUARD].concat();
        let bytes = before.clone();
        Laid { before, bytes }
    }

    /// Where the buffer starts. The pointer is good for the guards as well,
    /// so that a call which writes there is caught and nothing worse.
    pub(crate) fn pointer(&mut self) -> *mut u8 {
        self.bytes.as_mut_ptr().wrapping_add(GUARD.len())
    }

    fn len(&self) -> usize {
        self.bytes.len() - 2 * GUARD.len()
    }

    /// As a call takes it.
    pub(crate) fn lent(&mut self) -> (*mut u8, usize) {
        (self.pointer(), self.len())
    }

    fn untouched(&self) -> bool {
        self.bytes == self.before
    }

    /// What the buffer holds, or none where a guard was touched.
    fn held(&self) -> Option<&[u8]> {
        self.bytes.strip_prefix(&GUARD)?.strip_suffix(&GUARD)
    }
}

/// What a call wrote to although it must not.
#[derive(Clone, Copy, Debug, PartialEq, Eq)]
pub enum Touched {
    /// The codebook, or what lies beside it.
    Book,
    /// The input, or what lies beside it.
    Input,
    /// What lies beside an output.
    Guard,
    /// An output of a call that is refused, or of a game that is held.
    Kept,
}

/// The buffers of a call, each between guards.
pub(crate) struct Lent<const OUTPUTS: usize> {
    pub(crate) book: Laid,
    pub(crate) input: Laid,
    pub(crate) outputs: [Laid; OUTPUTS],
}

impl<const OUTPUTS: usize> Lent<OUTPUTS> {
    /// Outputs that hold what is given.
    pub(crate) fn new(book: &[u8], input: &[u8], held: [&[u8]; OUTPUTS]) -> Lent<OUTPUTS> {
        Lent {
            book: Laid::new(book),
            input: Laid::new(input),
            outputs: held.map(Laid::new),
        }
    }

    /// What the outputs hold after the call that returned the result, unless
    /// it wrote where it must not.
    pub(crate) fn after(&self, result: u32) -> Result<[Vec<u8>; OUTPUTS], Touched> {
        if !self.book.untouched() {
            return Err(Touched::Book);
        }
        if !self.input.untouched() {
            return Err(Touched::Input);
        }
        let after = self.outputs.each_ref().map(Laid::held);
        if after.iter().any(Option::is_none) {
            return Err(Touched::Guard);
        }
        // No other function's result has this letter.
        let keeps = refusal(result) != 0 || kind(result) == 'H';
        if keeps && !self.outputs.iter().all(Laid::untouched) {
            return Err(Touched::Kept);
        }
        Ok(after.map(|held| held.unwrap_or_default().to_vec()))
    }
}
