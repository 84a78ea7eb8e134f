//! The sum of two words of the proved library, called from Rust.

extern "C" {
    fn sum_probe(
        a: *const u8,
        a_len: usize,
        b: *const u8,
        b_len: usize,
        out: *mut u8,
        out_len: usize,
    ) -> u32;
}

/// 1 with the sum written; 0 where a length is another, or above 255.
pub fn sum(a: &[u8], b: &[u8], out: &mut [u8]) -> u32 {
    // SAFETY: three slices that do not overlap, each with its own length.
    unsafe {
        sum_probe(
            a.as_ptr(),
            a.len(),
            b.as_ptr(),
            b.len(),
            out.as_mut_ptr(),
            out.len(),
        )
    }
}
