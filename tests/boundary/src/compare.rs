//! One call made on both sides.

use std::fmt;

use reference::codebook::Codebook;

use crate::{guarded, Given, Operation};

/// A call, with all that is needed to make it again.
#[derive(Clone, Copy, Debug)]
pub struct Trial<'a> {
    pub seed: u64,
    pub operation: Operation,
    pub book: &'a [u8],
    pub input: &'a [u8],
    /// What the output holds before the call, and so its size.
    pub held: &'a [u8],
}

impl Trial<'_> {
    /// Fails unless library and second implementation return one number and
    /// leave one output, and the library touches nothing else.
    pub fn compare(&self) -> Given {
        let mut output = self.held.to_vec();
        let result = self.operation.reference(self.book, self.input, &mut output);
        self.against(result, &output)
    }

    /// The same for an accepted codebook that is open, since it takes long to
    /// check it for every call.
    pub fn compare_open(&self, book: &Codebook) -> Given {
        let mut output = self.held.to_vec();
        let result = self.operation.opened(book, self.input, &mut output);
        self.against(result, &output)
    }

    /// Fails unless the library returns the number and leaves the output that
    /// are expected, and touches nothing else.
    pub fn against(&self, result: u32, output: &[u8]) -> Given {
        let given = guarded(self.operation, self.book, self.input, self.held)
            .unwrap_or_else(|touched| panic!("written to: {touched:?}\n{self}"));
        assert!(
            given.result == result && given.output == output,
            "library:  {:#010x} {}\nexpected: {result:#010x} {}\n{self}",
            given.result,
            hex(&given.output),
            hex(output),
        );
        given
    }
}

impl fmt::Display for Trial<'_> {
    fn fmt(&self, f: &mut fmt::Formatter) -> fmt::Result {
        writeln!(f, "{:?}, seed {:#x}", self.operation, self.seed)?;
        writeln!(f, "codebook {}", hex(self.book))?;
        writeln!(f, "input    {}", hex(self.input))?;
        write!(f, "output, before the call {}", hex(self.held))
    }
}

/// Two hexadecimal digits a byte; a dash for no bytes.
pub fn hex(bytes: &[u8]) -> String {
    if bytes.is_empty() {
        return "-".to_string();
    }
    bytes.iter().map(|byte| format!("{byte:02x}")).collect()
}
