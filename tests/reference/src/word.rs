//! Words: n symbols, place j being the coefficient of x^j (the scope,
//! "Words"). The length of the slice is n.

use crate::field::Field;

/// "Turning by t moves place j to (j + t) mod n", whatever t is.
pub fn turn(word: &[u8], t: usize) -> Vec<u8> {
    let n = word.len();
    let mut turned = vec![0; n];
    for (j, &symbol) in word.iter().enumerate() {
        turned[(j + t % n) % n] = symbol;
    }
    turned
}

/// "Multiplying a word by a symbol" works place by place.
pub fn scale(field: Field, word: &[u8], c: u8) -> Vec<u8> {
    word.iter()
        .map(|&symbol| field.product(symbol, c))
        .collect()
}

/// "Adding two words" works place by place.
pub fn add(field: Field, a: &[u8], b: &[u8]) -> Vec<u8> {
    a.iter().zip(b).map(|(&a, &b)| field.sum(a, b)).collect()
}

/// "Eight symbols packed in one number, the lowest place in the lowest byte."
pub fn pack(symbols: [u8; 8]) -> u64 {
    let high_first = symbols.iter().rev();
    high_first.fold(0, |number, &symbol| 256 * number + u64::from(symbol))
}

/// "A packed number gives back its eight symbols."
pub fn unpack(number: u64) -> [u8; 8] {
    let mut left = number;
    [(); 8].map(|()| {
        let symbol = (left % 256) as u8;
        left /= 256;
        symbol
    })
}

/// Two words are "alike when one is a nonzero symbol times a turn of the
/// other": every turn, which "moves place j to (j + t) mod n", and every
/// nonzero symbol is tried. Such a product is zero where the turned word is,
/// and nowhere else, so that most turns need no product to be told.
pub fn alike(field: Field, a: &[u8], b: &[u8]) -> bool {
    let n = b.len();
    (0..n).any(|t| {
        let pairs = || (0..n).map(|j| (a[(j + t) % n], b[j]));
        pairs().all(|(x, y)| (x == 0) == (y == 0))
            && (1..field.q()).any(|c| pairs().all(|(x, y)| x == field.product(c, y)))
    })
}

/// "The weight is the count of nonzero symbols."
pub fn weight(word: &[u8]) -> usize {
    word.iter().filter(|&&symbol| symbol != 0).count()
}

/// "Products of words are taken modulo x^n - 1"; n is the length of `a`. A
/// zero symbol of `a` would add nothing.
pub fn product(field: Field, a: &[u8], b: &[u8]) -> Vec<u8> {
    let n = a.len();
    let mut product = vec![0; n];
    for (i, &x) in a.iter().enumerate().filter(|(_, x)| **x != 0) {
        for (j, &y) in b.iter().enumerate() {
            let place = (i + j) % n;
            product[place] = field.sum(product[place], field.product(x, y));
        }
    }
    product
}

/// The place of the leading coefficient; the zero polynomial has none.
pub fn degree(polynomial: &[u8]) -> Option<usize> {
    polynomial.iter().rposition(|&symbol| symbol != 0)
}

/// x^n - 1, which is one place longer than a word.
pub fn whole(n: usize) -> Vec<u8> {
    let mut whole = vec![0; n + 1];
    whole[n] = 1;
    whole[0] = 1;
    whole
}

/// What a division leaves, both parts as long as the dividend.
#[derive(Clone, Debug, PartialEq, Eq)]
pub struct Division {
    pub quotient: Vec<u8>,
    pub remainder: Vec<u8>,
}

/// Long division of polynomials; none by the zero polynomial.
pub fn divide(field: Field, dividend: &[u8], divisor: &[u8]) -> Option<Division> {
    let degree = degree(divisor)?;
    let divisor = divisor.get(..=degree)?;
    let inverse = field.inverse(*divisor.last()?)?;
    let mut quotient = vec![0; dividend.len()];
    let mut remainder = dividend.to_vec();
    for power in (0..dividend.len().saturating_sub(degree)).rev() {
        let factor = field.product(remainder[power + degree], inverse);
        quotient[power] = factor;
        for (j, &symbol) in divisor.iter().enumerate() {
            let place = power + j;
            remainder[place] = field.sum(remainder[place], field.product(factor, symbol));
        }
    }
    Some(Division {
        quotient,
        remainder,
    })
}
