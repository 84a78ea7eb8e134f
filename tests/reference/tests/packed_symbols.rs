//! Symbols packed in a number: the scope's worked numbers, and that packing
//! is undone, both ways, and adds the symbols.

use reference::field::Field;
use reference::generate::Random;
use reference::word::{add, pack, unpack};

#[test]
fn worked_numbers() {
    assert_eq!(pack([1, 2, 3, 0, 0, 0, 0, 0]), 197_121);
    assert_eq!(pack([0, 0, 0, 0, 0, 0, 0, 1]), 72_057_594_037_927_936);
    assert_eq!(unpack(197_121), [1, 2, 3, 0, 0, 0, 0, 0]);
    assert_eq!(unpack(u64::MAX), [255; 8]);
    let sum = pack([1, 2, 3, 0, 0, 0, 0, 0]) ^ pack([2, 2, 1, 0, 0, 0, 0, 63]);
    assert_eq!(unpack(sum), [3, 0, 2, 0, 0, 0, 0, 63]);
}

#[test]
fn packing_is_undone_and_adds() {
    let field = Field::new(6).expect("a field");
    let mut random = Random::new(8);
    for _ in 0..10_000 {
        let (x, y) = (random.draw(), random.draw());
        assert_eq!(pack(unpack(x)), x);
        assert_eq!(unpack(x).to_vec(), x.to_le_bytes());
        assert_eq!(unpack(x ^ y).to_vec(), add(field, &unpack(x), &unpack(y)));
    }
}
