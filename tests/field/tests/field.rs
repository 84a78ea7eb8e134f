//! The field operations against the second implementation, for every value of
//! their parameters: all bytes as p and as symbols, bad ones included.

use field_test::{inverse, product, sum};
use reference::field;
use reference::packed::pack_symbol;

/// How many results had each refusal number, 0 for those with a symbol.
type Counts = [usize; 14];

/// Fails unless just these numbers came.
fn met(operation: &str, counts: &Counts, numbers: &[usize]) {
    println!("{operation}, by refusal number: {counts:?}");
    for (number, &count) in counts.iter().enumerate() {
        let can_be = numbers.contains(&number);
        assert_eq!(
            count > 0,
            can_be,
            "{operation}: {number} came {count} times"
        );
    }
}

/// All p, a and b: ours, and the second implementation's.
fn compare_pairs(
    operation: &str,
    ours: fn(u8, u8, u8) -> u32,
    theirs: fn(u8, u8, u8) -> Result<u8, u8>,
) -> Counts {
    let mut counts = [0; 14];
    for p in 0..=255 {
        for a in 0..=255 {
            for b in 0..=255 {
                let result = ours(p, a, b);
                let wanted = pack_symbol(theirs(p, a, b));
                assert_eq!(result, wanted, "{operation}: p {p}, {a} and {b}");
                counts[(result & 0xff) as usize] += 1;
            }
        }
    }
    counts
}

/// The pairs of symbols of p 1 to 6, which are the pairs that no refusal meets.
const PAIRS: usize = 4 + 16 + 64 + 256 + 1024 + 4096;

#[test]
fn every_sum() {
    let counts = compare_pairs("sum", sum, field::sum);
    met("sum", &counts, &[0, 3, 11]);
    assert_eq!(counts[0], PAIRS);
}

#[test]
fn every_product() {
    let counts = compare_pairs("product", product, field::product);
    met("product", &counts, &[0, 3, 11]);
    assert_eq!(counts[0], PAIRS);
}

#[test]
fn every_inverse() {
    let mut counts = [0; 14];
    for p in 0..=255 {
        for a in 0..=255 {
            let result = inverse(p, a);
            let wanted = pack_symbol(field::inverse(p, a));
            assert_eq!(result, wanted, "inverse: p {p}, {a}");
            counts[(result & 0xff) as usize] += 1;
        }
    }
    met("inverse", &counts, &[0, 3, 11, 13]);
    assert_eq!(counts[0], 1 + 3 + 7 + 15 + 31 + 63);
    assert_eq!(counts[13], 6);
}

/// The scope's case 1, and its examples of refusals.
#[test]
fn worked_numbers() {
    assert_eq!(product(2, 2, 3), 0x0100);
    assert_eq!(product(2, 2, 2), 0x0300);
    assert_eq!(inverse(2, 0), 13);
    assert_eq!(inverse(2, 4), 11);
    assert_eq!(sum(0, 0, 0), 3);
    assert_eq!(sum(7, 200, 0), 3);
}
