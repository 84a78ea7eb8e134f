//! The sum of two words against the second implementation: at every length,
//! so that eights are followed by each count of single places, and from every
//! start, so that they lie across the bounds of machine words.

use reference::field::Field;
use reference::generate::Random;
use reference::word::add;
use sum_test::sum;

/// What the room and the bytes about it hold before a call.
const BEFORE: u8 = 0xa5;

/// The lengths of words.
const LENGTHS: [usize; 7] = [3, 7, 15, 31, 63, 127, 255];

/// Any bytes, symbols or not.
fn bytes(count: usize, random: &mut Random) -> Vec<u8> {
    (0..count).map(|_| random.draw() as u8).collect()
}

/// The sum in a room that starts `at` places into other bytes.
fn compare(a: &[u8], b: &[u8], at: usize) {
    let field = Field::new(6).expect("a field");
    let room = at..at + a.len();
    let mut ours = vec![BEFORE; room.end + 16];
    let mut theirs = ours.clone();
    theirs[room.clone()].copy_from_slice(&add(field, a, b));
    assert_eq!(sum(a, b, &mut ours[room]), 1);
    assert_eq!(ours, theirs, "{a:02x?} and {b:02x?}, at {at}");
}

#[test]
fn every_length_from_every_start() {
    let mut random = Random::new(3);
    for n in 0..=255 {
        for start in 0..8 {
            let a = bytes(n + start, &mut random);
            let b = bytes(n + 7 - start, &mut random);
            compare(&a[start..], &b[7 - start..], random.below(8));
        }
    }
}

#[test]
fn every_digit_of_every_place() {
    let mut random = Random::new(64);
    for n in LENGTHS {
        for digit in 0..8 * n {
            let mut a = vec![0; n];
            a[digit / 8] = 1 << (digit % 8);
            compare(&a, &bytes(n, &mut random), 0);
            compare(&bytes(n, &mut random), &a, 0);
        }
    }
}

#[test]
fn other_lengths_write_nothing() {
    let mut random = Random::new(10);
    let mut refused = |a: usize, b: usize, room: usize| {
        let (a, b) = (bytes(a, &mut random), bytes(b, &mut random));
        let mut out = vec![BEFORE; room];
        assert_eq!(sum(&a, &b, &mut out), 0);
        assert!(
            out.iter().all(|&byte| byte == BEFORE),
            "{}, {}",
            a.len(),
            b.len()
        );
    };
    for n in LENGTHS {
        refused(n - 1, n, n);
        refused(n + 1, n, n);
        refused(n, n - 1, n);
        refused(n, n + 1, n);
        refused(n, n, n - 1);
        refused(n, n, n + 1);
        refused(0, n, n);
        refused(n, n, 0);
    }
    refused(256, 256, 256);
    refused(264, 264, 264);
    refused(1000, 1000, 1000);
}
