//! The shift-sum coder in the plainest reading of the scope.
//!
//! It is there to be compared with: every function follows a sentence of
//! the scope, and none is made faster than the sentence is.

pub mod books;
pub mod burst;
pub mod by_hand;
pub mod codebook;
pub mod coder;
pub mod decode;
pub mod field;
pub mod form;
pub mod game;
pub mod generate;
pub mod matrix;
pub mod packed;
mod records;
pub mod stream;
pub mod word;

/// "The first number in the table's order that applies is returned": one
/// row of the table, to be followed by `?`.
pub(crate) fn refuse(number: u8, applies: bool) -> Result<(), u8> {
    if applies {
        Err(number)
    } else {
        Ok(())
    }
}
