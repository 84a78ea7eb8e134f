//! The result of a call as one number.

use reference::books::{self, symbols};
use reference::field;
use reference::packed;

#[test]
fn check_has_l_in_byte_1() {
    assert_eq!(packed::check(&books::a()), 0x0000_0100);
    let words = ["11", "101", "1001"].map(symbols);
    let book = books::write(3, 1, &[1; 7], 3, 1, &words);
    assert_eq!(packed::check(&book), 0x0000_0300);
    assert_eq!(packed::check(&books::a_with(8)), 6);
    assert_eq!(packed::check(&[]), 1);
}

#[test]
fn code_read_and_remainder_have_nothing_more() {
    let (mut word, mut message, mut rest) = ([255; 7], [255; 4], [255; 3]);
    assert_eq!(packed::code(&books::a(), &symbols("1000"), &mut word), 0);
    assert_eq!(word[..], symbols("1101000"));
    assert_eq!(packed::read(&books::a(), &word, &mut message), 0);
    assert_eq!(message[..], symbols("1000"));
    assert_eq!(packed::code(&books::a(), &symbols("11"), &mut word), 0);
    assert_eq!(word[..], symbols("1011100"));
    assert_eq!(packed::code(&books::a(), &symbols("2"), &mut word), 11);
    assert_eq!(packed::code(&books::a(), &[], &mut word), 9);
    assert_eq!(packed::code(&books::a(), &symbols("10000"), &mut word), 9);
    assert_eq!(packed::code(&[], &symbols("1000"), &mut word), 1);
    assert_eq!(
        packed::read(&books::a(), &symbols("1000000"), &mut message),
        12
    );
    assert_eq!(
        packed::read(&books::a(), &symbols("2000000"), &mut message),
        11
    );
    assert_eq!(message[..], symbols("1000"));
    let mut remainder =
        |book: &[u8], word: &str| (packed::remainder(book, &symbols(word), &mut rest), rest);
    assert_eq!(remainder(&books::a(), "1101100"), (0, [0, 1, 1]));
    assert_eq!(remainder(&books::a(), "110100"), (9, [0, 1, 1]));
    assert_eq!(remainder(&books::a(), "2101000"), (11, [0, 1, 1]));
    assert_eq!(remainder(&books::a_with(8), "1101000"), (6, [0, 1, 1]));
    assert_eq!(remainder(&books::b(), "111"), (10, [0, 1, 1]));
    assert_eq!(remainder(&books::a(), "1101000"), (0, [0, 0, 0]));
}

#[test]
fn decode_has_changed_rounds_and_letter() {
    let number = |letter: u8, rounds: u32, changed: u32| {
        u32::from(letter) << 24 | rounds << 16 | changed << 8
    };
    let cases = [
        (books::a(), "1101000", number(b'C', 0, 0), "1101000"),
        (books::a(), "1100000", number(b'M', 1, 1), "1101000"),
        (books::b(), "120", number(b'S', 1, 0), "120"),
        (books::a_with(7), "1000000", number(b'X', 3, 0), "1000000"),
        (books::c_with(3), "100", number(b'M', 1, 3), "032"),
    ];
    for (book, received, number, answer) in cases {
        let mut word = vec![255; received.len()];
        assert_eq!(packed::decode(&book, &symbols(received), &mut word), number);
        assert_eq!(word, symbols(answer));
    }
}

#[test]
fn a_refused_decode_has_the_number_alone() {
    let mut word = [255; 7];
    let bad = symbols("2000000");
    assert_eq!(packed::decode(&books::a(), &bad, &mut word), 11);
    assert_eq!(packed::decode(&books::a(), &bad[..6], &mut word), 9);
    assert_eq!(packed::decode(&books::a(), &bad, &mut word[..6]), 10);
    assert_eq!(packed::decode(&books::a_with(8), &bad, &mut word), 6);
    assert_eq!(word, [255; 7]);
}

#[test]
fn a_burst_has_its_numbers_in_records() {
    let (mut answers, mut records) = ([255; 6], [[0xa5; 3]; 2]);
    let mut burst = |words: u32, mixed: &str| {
        let received = symbols(mixed);
        let result = packed::burst(&books::b(), words, &received, &mut answers, &mut records);
        (result, answers.to_vec(), records)
    };
    // Cases 10 and 11, of which nothing is written where it is refused.
    let held = (vec![255; 6], [[0xa5; 3]; 2]);
    for (words, mixed, number) in [(17, "31 12 10", 14), (2, "31", 9), (2, "31 12 14", 11)] {
        assert_eq!(burst(words, mixed), (number, held.0.clone(), held.1));
    }
    let answers = symbols("111 120");
    assert_eq!(
        burst(2, "31 12 10"),
        (0, answers, [[b'M', 1, 1], [b'S', 1, 0]])
    );
    let result = packed::burst(&[], 2, &[], &mut [], &mut []);
    assert_eq!(result, 1);
}

#[test]
fn a_game_has_the_count_held_and_a_letter() {
    let mut messages = [255; 2];
    let mut game = |book: &[u8], words: u32, mixed: &str| {
        let result = packed::game(book, words, &symbols(mixed), &mut messages);
        (result, messages)
    };
    // Cases 10 and 11 of book B, and case 11 twice.
    assert_eq!(game(&books::b(), 2, "31 12 10"), (0x4800_0100, [255; 2]));
    assert_eq!(game(&books::b(), 2, "11 22 00"), (0x4800_0200, [255; 2]));
    for (words, mixed, number) in [(17, "31 12 10", 14), (2, "31", 9), (2, "31 12 14", 11)] {
        assert_eq!(game(&books::b(), words, mixed), (number, [255; 2]));
    }
    assert_eq!(game(&books::b(), 1, "311"), (10, [255; 2]));
    assert_eq!(game(&[], 2, "31 12 10"), (1, [255; 2]));
    // Case 10 before and after 333.
    assert_eq!(game(&books::b(), 2, "33 13 13"), (0x5700_0000, [1, 3]));
    assert_eq!(game(&books::b(), 2, "33 31 31"), (0x5700_0000, [3, 1]));
}

#[test]
fn a_field_operation_has_its_symbol_in_byte_1() {
    assert_eq!(packed::pack_symbol(field::product(2, 2, 2)), 0x0000_0300);
    assert_eq!(packed::pack_symbol(field::sum(6, 63, 0)), 0x0000_3f00);
    assert_eq!(packed::pack_symbol(field::inverse(2, 0)), 13);
}
