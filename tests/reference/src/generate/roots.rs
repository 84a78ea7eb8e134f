//! Divisors of x^n - 1 over GF(2^p), by their roots in GF(2^s).

use super::random::Random;
use crate::field::{reduced_product, Field};
use crate::refuse;

/// GF(2^s), in which the roots lie: s is up to 8, and so no field of symbols
/// need have as many.
#[derive(Clone, Copy)]
struct Large {
    s: u8,
    polynomial: u16,
}

impl Large {
    /// By the scope's polynomial, and where it has none by any irreducible
    /// one: x^7 + x + 1, and x^8 + x^4 + x^3 + x^2 + 1.
    fn new(s: u8) -> Result<Large, u8> {
        let polynomial = match s {
            7 => 131,
            8 => 285,
            _ => Field::new(s)?.polynomial(),
        };
        Ok(Large { s, polynomial })
    }

    /// The largest element, and the count of those that are not zero.
    fn last(self) -> u8 {
        u8::MAX >> (8 - self.s)
    }

    fn sum(self, a: u8, b: u8) -> u8 {
        a ^ b
    }

    fn product(self, a: u8, b: u8) -> u8 {
        reduced_product(self.s, self.polynomial, a, b)
    }
}

/// A generator g of degree 1 to n - 1 and h = (x^n - 1) / g, n places each.
/// The roots of g are the powers of a primitive n-th root of unity whose
/// exponents a random proper nonempty union of cosets holds.
pub fn factors(s: u8, p: u8, random: &mut Random) -> Result<(Vec<u8>, Vec<u8>), u8> {
    refuse(3, !super::SHAPES.contains(&(s, p)))?;
    let (large, small) = (Large::new(s)?, Field::new(p)?);
    let n = usize::from(large.last());
    let powers = powers(large, n, random).ok_or(3)?;
    let images = images(large, small).ok_or(3)?;
    let mut cosets = cosets(n, usize::from(small.q()));
    random.shuffle(&mut cosets);
    let mut chosen = random.between(1, cosets.len() - 1);
    if s > 6 && random.once_in(5) {
        chosen = least(&mut cosets, random);
    }
    let (chosen, left) = cosets.split_at(chosen);
    let factor = |cosets: &[Vec<usize>]| {
        let roots: Vec<u8> = cosets.iter().flatten().map(|&e| powers[e]).collect();
        back(&images, &with_roots(large, n, &roots))
    };
    Ok((factor(chosen).ok_or(3)?, factor(left).ok_or(3)?))
}

/// The least of the cosets, with the exponent 0 alone, on one side: degree 1
/// or n - 1, which among many cosets are not met by chance. How many cosets
/// come before the cut.
fn least(cosets: &mut [Vec<usize>], random: &mut Random) -> usize {
    cosets.sort_by_key(Vec::len);
    if random.once_in(2) {
        return 1;
    }
    cosets.reverse();
    cosets.len() - 1
}

/// The powers of a random element of order n.
fn powers(large: Large, n: usize, random: &mut Random) -> Option<Vec<u8>> {
    let mut elements: Vec<u8> = (1..=large.last()).collect();
    random.shuffle(&mut elements);
    elements.into_iter().find_map(|root| {
        let mut powers = vec![1];
        while powers.len() < n {
            match large.product(powers[powers.len() - 1], root) {
                1 => return None,
                power => powers.push(power),
            }
        }
        Some(powers)
    })
}

/// Where the symbols of the small field lie in the large one: symbol x goes
/// to an element that satisfies the small field's polynomial.
fn images(large: Large, small: Field) -> Option<Vec<u8>> {
    let evaluate = |digits: u16, x: u8| {
        let next = |value, power| {
            let digit = (digits >> power & 1) as u8;
            large.sum(large.product(value, x), digit)
        };
        (0..=small.p()).rev().fold(0, next)
    };
    let x = (0..=large.last()).find(|&x| evaluate(small.polynomial(), x) == 0)?;
    Some((0..small.q()).map(|a| evaluate(a.into(), x)).collect())
}

/// The exponents below n, split by multiplying with q modulo n.
fn cosets(n: usize, q: usize) -> Vec<Vec<usize>> {
    let mut cosets: Vec<Vec<usize>> = Vec::new();
    for exponent in 0..n {
        if !cosets.iter().flatten().any(|&known| known == exponent) {
            let mut coset = vec![exponent];
            let mut next = exponent * q % n;
            while next != exponent {
                coset.push(next);
                next = next * q % n;
            }
            cosets.push(coset);
        }
    }
    cosets
}

/// The product of x - root over the roots, fewer than n, in n places.
fn with_roots(large: Large, n: usize, roots: &[u8]) -> Vec<u8> {
    let mut product = vec![0; n];
    product[0] = 1;
    for &root in roots {
        for place in (0..n).rev() {
            let shifted = if place > 0 { product[place - 1] } else { 0 };
            product[place] = large.sum(shifted, large.product(product[place], root));
        }
    }
    product
}

/// The coefficients as symbols of the small field; none if one is not.
fn back(images: &[u8], polynomial: &[u8]) -> Option<Vec<u8>> {
    let symbol = |&element: &u8| images.iter().position(|&image| image == element);
    let symbols = polynomial
        .iter()
        .map(|element| symbol(element).map(|a| a as u8));
    symbols.collect()
}
