//! The laws of the field for every p and of the words over it.

use reference::field::{inverse, product, sum, Field};
use reference::generate::{arbitrary, Random, SHAPES};
use reference::word;

#[test]
fn field_laws() {
    for p in 1..=6 {
        let field = Field::new(p).expect("1 to 6");
        let q = field.q();
        assert_eq!(u32::from(q), 2u32.pow(p.into()));
        for a in 0..q {
            assert_eq!(sum(p, a, a), Ok(0));
            assert_eq!(product(p, a, 0), Ok(0));
            assert_eq!(product(p, a, 1), Ok(a));
            if a != 0 {
                let inverse = inverse(p, a).expect("not zero");
                assert_eq!(product(p, a, inverse), Ok(1));
            }
            for b in 0..q {
                assert!(sum(p, a, b).expect("symbols") < q);
                assert!(product(p, a, b).expect("symbols") < q);
                assert_eq!(sum(p, a, b), sum(p, b, a));
                assert_eq!(product(p, a, b), product(p, b, a));
                assert_eq!(product(p, a, b) == Ok(0), a == 0 || b == 0);
                for c in 0..q {
                    let (ab, bc) = (field.product(a, b), field.product(b, c));
                    assert_eq!(field.product(ab, c), field.product(a, bc));
                    let sum = field.sum(ab, field.product(a, c));
                    assert_eq!(field.product(a, field.sum(b, c)), sum);
                }
            }
        }
    }
}

#[test]
fn products_by_hand() {
    // x times the highest power of x is the polynomial without its lead.
    for (p, polynomial) in [(2, 7), (3, 11), (4, 19), (5, 37), (6, 91)] {
        let highest = 1 << (p - 1);
        assert_eq!(product(p, 2, highest), Ok(polynomial - (1 << p)));
    }
    assert_eq!(product(3, 7, 5), Ok(6));
    assert_eq!(product(4, 9, 9), Ok(13));
    assert_eq!(product(1, 1, 1), Ok(1));
    assert_eq!(inverse(3, 2), Ok(5));
    assert_eq!(sum(6, 63, 21), Ok(42));
}

#[test]
fn word_laws() {
    let mut random = Random::new(7);
    let mut tried = 0;
    for (s, p) in SHAPES {
        let (field, n) = (Field::new(p).expect("1 to 6"), (1 << s) - 1);
        for _ in 0..40 {
            let a = arbitrary(n, field.q(), &mut random);
            let b = arbitrary(n, field.q(), &mut random);
            let t = random.below(5 * n);
            let turned = word::turn(&a, t);
            for j in 0..n {
                assert_eq!(turned[(j + t) % n], a[j]);
            }
            assert_eq!(word::weight(&turned), word::weight(&a));
            // Turning is multiplying by x^t.
            let mut power = vec![0; n];
            power[t % n] = 1;
            assert_eq!(word::product(field, &a, &power), turned);
            let product = word::product(field, &a, &b);
            assert_eq!(product, word::product(field, &b, &a));
            assert_eq!(word::product(field, &turned, &b), word::turn(&product, t));
            let c = random.symbol(0, field.q());
            let scaled = word::scale(field, &a, c);
            assert_eq!(
                word::product(field, &scaled, &b),
                word::scale(field, &product, c)
            );
            assert_eq!(word::add(field, &a, &a), vec![0; n]);
            tried += 1;
        }
    }
    assert_eq!(tried, 40 * SHAPES.len());
}

#[test]
fn division_leaves_quotient_and_remainder() {
    let mut random = Random::new(8);
    let mut tried = 0;
    for (s, p) in SHAPES {
        let (field, n) = (Field::new(p).expect("1 to 6"), (1 << s) - 1);
        for _ in 0..40 {
            let dividend = arbitrary(n, field.q(), &mut random);
            let mut divisor = arbitrary(n, field.q(), &mut random);
            divisor.truncate(random.between(1, n));
            let Some(degree) = word::degree(&divisor) else {
                assert_eq!(word::divide(field, &dividend, &divisor), None);
                continue;
            };
            let division = word::divide(field, &dividend, &divisor).expect("not by zero");
            assert!(word::degree(&division.remainder).is_none_or(|rest| rest < degree));
            // The product has no degree above the dividend's, so none wraps.
            let back = word::product(field, &division.quotient, &divisor);
            assert_eq!(word::add(field, &back, &division.remainder), dividend);
            tried += 1;
        }
    }
    assert!(tried > 20 * SHAPES.len(), "{tried}");
}
