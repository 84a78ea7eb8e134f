//! The frequency matrix of the proved library, called from Rust.

extern "C" {
    fn matrix_probe(
        book: *const u8,
        book_len: usize,
        received: *const u8,
        received_len: usize,
        entries: *mut u16,
        entries_len: usize,
    ) -> u32;
}

/// The refusal number, or 0 with the matrix written.
pub fn matrix(book: &[u8], received: &[u8], entries: &mut [u16]) -> u32 {
    // SAFETY: three slices that do not overlap, each with its own length.
    unsafe {
        matrix_probe(
            book.as_ptr(),
            book.len(),
            received.as_ptr(),
            received.len(),
            entries.as_mut_ptr(),
            entries.len(),
        )
    }
}
