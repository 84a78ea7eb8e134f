//! The scope, "Words followed by hand": cases 1 to 14.

use reference::books::{self, symbols};
use reference::coder;
use reference::decode::{decode, Kind};
use reference::field;
use reference::matrix::matrix;

/// Codes and reads back, since the message is what the word's quotient is.
fn codes(book: &[u8], message: &str, word: &str) {
    let (message, word) = (symbols(message), symbols(word));
    let mut coded = vec![255; word.len()];
    assert_eq!(coder::code(book, &message, &mut coded), Ok(()));
    assert_eq!(coded, word);
    let mut read = vec![255; message.len()];
    assert_eq!(coder::read(book, &word, &mut read), Ok(()));
    assert_eq!(read, message);
}

/// All of what decode returns and writes, the matrix being that of the word
/// which the last round started from.
fn decodes_from(book: &[u8], received: &str, last: &str, expected: (Kind, u8, u8), answer: &str) {
    let (received, last) = (symbols(received), symbols(last));
    let mut word = vec![255; received.len()];
    let mut entries = vec![u16::MAX; received.len() << book[2]];
    let decoded = decode(book, &received, &mut word, &mut entries).expect("accepted");
    let decoded = (decoded.kind, decoded.rounds, decoded.changed);
    assert_eq!(decoded, expected);
    assert_eq!(word, symbols(answer));
    let mut matrix_of_last = vec![u16::MAX; entries.len()];
    assert_eq!(matrix(book, &last, &mut matrix_of_last), Ok(()));
    assert_eq!(entries, matrix_of_last);
}

/// The same where the last round, the first or another like it, starts from
/// the received word.
fn decodes(book: &[u8], received: &str, kind: Kind, rounds: u8, changed: u8, answer: &str) {
    decodes_from(book, received, received, (kind, rounds, changed), answer);
}

#[test]
fn case_1_products() {
    assert_eq!(field::product(2, 2, 3), Ok(1));
    assert_eq!(field::product(2, 2, 2), Ok(3));
}

#[test]
fn case_2_a_codes_1000() {
    codes(&books::a(), "1000", "1101000");
}

#[test]
fn case_3_a_codes_1100() {
    codes(&books::a(), "1100", "1011100");
}

#[test]
fn case_4_c_codes_01() {
    codes(&books::c(), "01", "021");
}

#[test]
fn case_5_a_matrix() {
    let mut entries = [u16::MAX; 14];
    let received = symbols("1000000");
    assert_eq!(matrix(&books::a(), &received, &mut entries), Ok(()));
    assert_eq!(entries[..7], [0, 2, 2, 2, 2, 2, 2]);
    assert_eq!(entries[7..], [4, 2, 2, 2, 2, 2, 2]);
}

#[test]
fn case_6_a_one_error() {
    decodes(&books::a(), "1000000", Kind::Mended, 1, 1, "0000000");
}

#[test]
fn case_7_a_two_errors() {
    decodes(&books::a(), "1100000", Kind::Mended, 1, 1, "1101000");
}

#[test]
fn case_8_a_with_d_6() {
    decodes(&books::a_with(6), "1000000", Kind::Mended, 1, 1, "0000000");
}

#[test]
fn case_9_a_with_d_7() {
    decodes(&books::a_with(7), "1000000", Kind::Spent, 3, 0, "1000000");
}

#[test]
fn case_10_b_mended() {
    decodes(&books::b(), "311", Kind::Mended, 1, 1, "111");
}

#[test]
fn case_11_b_every_peak_shared() {
    decodes(&books::b(), "120", Kind::Stalled, 1, 0, "120");
}

#[test]
fn case_12_b_turned_scaled_and_moved() {
    decodes(&books::b(), "132", Kind::Stalled, 1, 0, "132");
}

#[test]
fn case_13_c_stalled() {
    decodes(&books::c(), "100", Kind::Stalled, 1, 0, "100");
}

#[test]
fn case_14_c_with_d_3() {
    decodes(&books::c_with(3), "100", Kind::Mended, 1, 3, "032");
}

#[test]
fn a_code_word_is_clean_and_its_matrix_all_zero() {
    let (mut answer, mut entries) = ([255; 7], [u16::MAX; 14]);
    let received = symbols("1101000");
    let decoded = decode(&books::a(), &received, &mut answer, &mut entries).expect("accepted");
    assert_eq!(
        (decoded.kind, decoded.rounds, decoded.changed),
        (Kind::Clean, 0, 0)
    );
    assert_eq!(answer[..], received);
    assert_eq!(entries, [0; 14]);
    // The operation matrix, on the other hand, counts it: all in row 0.
    assert_eq!(matrix(&books::a(), &received, &mut entries), Ok(()));
    assert_eq!(entries[..7], [4; 7]);
    assert_eq!(entries[7..], [0; 7]);
}

/// Over GF(8), the code whose words have one symbol in all places. With the
/// dual word 11 the check values at a place are its differences to the
/// places before and after it, with 101 those to the second before and after.
fn one_symbol(i: u8, d: u8, dual_words: &[&str]) -> Vec<u8> {
    let dual_words: Vec<Vec<u8>> = dual_words.iter().map(|b| symbols(b)).collect();
    books::write(3, 3, &[1; 7], i, d, &dual_words)
}

#[test]
fn one_place_unlike_its_neighbours_is_mended() {
    let book = one_symbol(3, 1, &["11"]);
    decodes(&book, "0100000", Kind::Mended, 1, 1, "0000000");
    decodes(&book, "5525555", Kind::Mended, 1, 1, "5555555");
}

#[test]
fn count_of_row_0_alone_keeps_a_place_out() {
    // Place 1 has the one peak of 2, but places 4 and 5 have row 0 at 0 too.
    let book = one_symbol(3, 1, &["11"]);
    decodes(&book, "0100230", Kind::Stalled, 1, 0, "0100230");
}

#[test]
fn either_count_alone_keeps_a_place_out() {
    let book = one_symbol(3, 2, &["11", "101"]);
    let received = symbols("0010123");
    let mut entries = [u16::MAX; 56];
    assert_eq!(matrix(&book, &received, &mut entries), Ok(()));
    let peaks = [0, 1, 2, 3, 4, 5, 6].map(|j| (1..8).map(|i| entries[7 * i + j]).max());
    // Places 5 and 6 have few at row 0, place 2 has few at its peak.
    assert_eq!(entries[..7], [1, 2, 1, 1, 1, 0, 0]);
    assert_eq!(peaks, [1, 1, 3, 2, 1, 2, 2].map(Some));
    decodes(&book, "0010123", Kind::Stalled, 1, 0, "0010123");
}

#[test]
fn a_shared_peak_alone_keeps_a_place_out() {
    // Case 11's word: with D 3 neither count keeps its places out.
    let mut book = books::b();
    book[69] = 3;
    decodes(&book, "120", Kind::Stalled, 1, 0, "120");
}

#[test]
fn later_rounds_start_from_the_updated_word() {
    // With D 4: 0100230, then 0000230, then 0002233, whose set is empty.
    let book = |i| one_symbol(i, 4, &["11"]);
    let received = "0100230";
    decodes_from(&book(1), received, received, (Kind::Spent, 1, 0), received);
    decodes_from(&book(2), received, "0000230", (Kind::Spent, 2, 0), received);
    decodes_from(
        &book(3),
        received,
        "0002233",
        (Kind::Stalled, 3, 0),
        received,
    );
    decodes_from(
        &book(63),
        received,
        "0002233",
        (Kind::Stalled, 3, 0),
        received,
    );
    // With D 3 the second word's set is empty: four places share its peak.
    let book = one_symbol(3, 3, &["11"]);
    decodes_from(&book, received, "0000230", (Kind::Stalled, 2, 0), received);
}

/// g is A's generator times 1 + x; the dual word is A's, so that the dual
/// words lie in a smaller code and 1101000 shows nothing in the matrix.
fn a_and_parity(d: u8) -> Vec<u8> {
    books::write(3, 1, &symbols("10111"), 3, d, &[symbols("1110100")])
}

#[test]
fn slip_one_dual_word_does_not_show_a_code_word() {
    let mut entries = [u16::MAX; 14];
    let received = symbols("1101000");
    assert_eq!(matrix(&a_and_parity(1), &received, &mut entries), Ok(()));
    assert_eq!(entries[..7], [4; 7]);
    assert_eq!(entries[7..], [0; 7]);
    decodes(&a_and_parity(1), "1101000", Kind::Stalled, 1, 0, "1101000");
}

#[test]
fn a_peak_of_zero_is_no_update() {
    // With D 7 no count keeps a place out, and row 1 has the peak alone.
    decodes(&a_and_parity(7), "1101000", Kind::Stalled, 1, 0, "1101000");
}
