//! The field operations of the proved library, called from Rust. Each returns
//! the refusal number in the lowest byte, or the symbol in byte 1.

extern "C" {
    fn field_sum_probe(p: u8, a: u8, b: u8) -> u32;
    fn field_product_probe(p: u8, a: u8, b: u8) -> u32;
    fn field_inverse_probe(p: u8, a: u8) -> u32;
}

pub fn sum(p: u8, a: u8, b: u8) -> u32 {
    // SAFETY: numbers alone are passed.
    unsafe { field_sum_probe(p, a, b) }
}

pub fn product(p: u8, a: u8, b: u8) -> u32 {
    // SAFETY: as above.
    unsafe { field_product_probe(p, a, b) }
}

pub fn inverse(p: u8, a: u8) -> u32 {
    // SAFETY: as above.
    unsafe { field_inverse_probe(p, a) }
}
