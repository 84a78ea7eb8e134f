//! Symbols: the field GF(2^p) (the scope, "Symbols").

use crate::refuse;

/// GF(2^p). Whoever holds one knows that p is 1 to 6.
#[derive(Clone, Copy, Debug, PartialEq, Eq)]
pub struct Field {
    p: u8,
}

impl Field {
    /// Refusal 3: "p not 1 to 6".
    pub fn new(p: u8) -> Result<Field, u8> {
        refuse(3, !(1..=6).contains(&p))?;
        Ok(Field { p })
    }

    pub fn p(self) -> u8 {
        self.p
    }

    /// "A number below q = 2^p", at most 64.
    pub fn q(self) -> u8 {
        1 << self.p
    }

    /// "The polynomial of p, written as a number". For p = 1 the scope
    /// names none: 2 is x, and modulo x "it is the product of 0 and 1".
    pub fn polynomial(self) -> u16 {
        match self.p {
            2 => 7,
            3 => 11,
            4 => 19,
            5 => 37,
            6 => 91,
            _ => 2,
        }
    }

    /// "Adding is exclusive or"; so is subtracting.
    pub fn sum(self, a: u8, b: u8) -> u8 {
        a ^ b
    }

    /// The product of the two polynomials, "reduced by the polynomial of p".
    pub fn product(self, a: u8, b: u8) -> u8 {
        reduced_product(self.p, self.polynomial(), a, b)
    }

    /// "The symbol whose product with the given one is 1"; zero has none.
    pub fn inverse(self, a: u8) -> Option<u8> {
        (0..self.q()).find(|&b| self.product(a, b) == 1)
    }

    /// Refusal 11: "input symbol q or more".
    pub fn admit(self, symbols: &[u8]) -> Result<(), u8> {
        refuse(11, symbols.iter().any(|&symbol| symbol >= self.q()))
    }
}

/// The product of two polynomials of degree below p, which is at most 8,
/// reduced by one of degree p from the highest power down.
pub(crate) fn reduced_product(p: u8, polynomial: u16, a: u8, b: u8) -> u8 {
    let mut product = 0;
    for power in 0..p {
        let coefficient = u16::from(b) >> power & 1;
        product ^= coefficient * (u16::from(a) << power);
    }
    for power in (p..=2 * p - 2).rev() {
        let coefficient = product >> power & 1;
        product ^= coefficient * (polynomial << (power - p));
    }
    (product & 0xff) as u8
}

/// The field operation sum.
pub fn sum(p: u8, a: u8, b: u8) -> Result<u8, u8> {
    let field = Field::new(p)?;
    field.admit(&[a, b])?;
    Ok(field.sum(a, b))
}

/// The field operation product.
pub fn product(p: u8, a: u8, b: u8) -> Result<u8, u8> {
    let field = Field::new(p)?;
    field.admit(&[a, b])?;
    Ok(field.product(a, b))
}

/// The field operation inverse. Refusal 13: "inverse of zero".
pub fn inverse(p: u8, a: u8) -> Result<u8, u8> {
    let field = Field::new(p)?;
    field.admit(&[a])?;
    field.inverse(a).ok_or(13)
}
