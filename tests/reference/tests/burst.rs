//! Bursts: words mixed by hand, which place is whose, and every number that
//! a burst is refused by. `laws.rs` tries bursts of generated codebooks.

use reference::books::{self, symbols};
use reference::burst::{burst, mix, unmixed};
use reference::decode::{Decoded, Kind};
use reference::generate::{damage, damage_all, Random};

/// What answers, list and matrix hold.
type Outputs = (Vec<u8>, Vec<Decoded>, Vec<u16>);

/// Outputs of these sizes before a call.
fn before(sizes: [usize; 3]) -> Outputs {
    let [answers, records, entries] = sizes;
    (
        vec![0xa5; answers],
        vec![Decoded::UNWRITTEN; records],
        vec![0xa5a5; entries],
    )
}

/// A burst with outputs of these sizes, and what they hold after it.
fn call(book: &[u8], words: u32, received: &[u8], sizes: [usize; 3]) -> (Result<(), u8>, Outputs) {
    let mut outputs = before(sizes);
    let (answers, records, entries) = (&mut outputs.0, &mut outputs.1, &mut outputs.2);
    let result = burst(book, words, received, answers, records, entries);
    (result, outputs)
}

/// A record and the answer word that belongs to it.
type Word<'a> = (Kind, u8, u8, &'a str);

/// All of what a burst writes: the words' answers and records in their order,
/// and the matrix, whose entries are written as digits, row after row.
fn decodes(book: &[u8], mixed: &str, words: &[Word], matrix: &str) {
    let answers: String = words.iter().map(|(_, _, _, answer)| *answer).collect();
    let records = words.iter().map(|&(kind, rounds, changed, _)| Decoded {
        kind,
        rounds,
        changed,
    });
    let entries = symbols(matrix).into_iter().map(u16::from);
    let due = (symbols(&answers), records.collect(), entries.collect());
    let (received, count) = (symbols(mixed), words.len() as u32);
    let sizes = [received.len(), words.len(), symbols(matrix).len()];
    assert_eq!(call(book, count, &received, sizes), (Ok(()), due));
}

/// The words of cases 6 and 7, and the code word that case 7 reaches, as a
/// burst of book A leaves them; the matrix of case 5.
const CASE_6: Word = (Kind::Mended, 1, 1, "0000000");
const CASE_7: Word = (Kind::Mended, 1, 1, "1101000");
const CODE_WORD: Word = (Kind::Clean, 0, 0, "1101000");
const CASE_5: &str = "0222222 4222222";

#[test]
fn three_words_of_book_a_mixed_by_hand() {
    // Place 0 of the three words 1000000, 1100000 and 1101000, then place 1,
    // and so on. The last one is Clean, and so the matrix is all zero.
    let mixed = "111 011 000 001 000 000 000";
    let words = [CASE_6, CASE_7, CODE_WORD];
    decodes(&books::a(), mixed, &words, "0000000 0000000");
    // The same words from the last to the first.
    let mixed = "111 110 000 100 000 000 000";
    let words = [CODE_WORD, CASE_7, CASE_6];
    decodes(&books::a(), mixed, &words, CASE_5);
}

#[test]
fn one_word_and_sixteen() {
    decodes(&books::a(), "1000000", &[CASE_6], CASE_5);
    let clean = "0000000 0000000";
    decodes(&books::a(), "1101000", &[CODE_WORD], clean);
    // 1000000 sixteen times, and then with a code word as word 11.
    let one = ["1".repeat(16), "0".repeat(96)].concat();
    decodes(&books::a(), &one, &[CASE_6; 16], CASE_5);
    let mut mixed = symbols(&one);
    mixed[16 + 11] = 1;
    mixed[3 * 16 + 11] = 1;
    let mixed: String = mixed.iter().map(u8::to_string).collect();
    let mut words = [CASE_6; 16];
    words[11] = CODE_WORD;
    decodes(&books::a(), &mixed, &words, CASE_5);
}

#[test]
fn words_of_every_kind_mixed_by_hand() {
    // B, cases 10 and 11. The check values of 120 are the sums of neighbours:
    // 1 and 3 at place 0, 3 and 2 at place 1, 2 and 1 at place 2.
    let mended = (Kind::Mended, 1, 1, "111");
    let stalled = (Kind::Stalled, 1, 0, "120");
    let matrix = "000 101 011 110";
    decodes(&books::b(), "31 12 10", &[mended, stalled], matrix);
    // A with D 7, case 9's word before and after a code word. A round turns
    // all symbols over, which adds a code word and leaves the matrix.
    let spent = (Kind::Spent, 3, 0, "1000000");
    let mixed = "111 010 000 010 000 000 000";
    let words = [spent, CODE_WORD, spent];
    decodes(&books::a_with(7), mixed, &words, CASE_5);
    // C with D 3, case 14 and case 4's code word.
    let mended = (Kind::Mended, 1, 3, "032");
    let clean = (Kind::Clean, 0, 0, "021");
    let matrix = "000 000 000 000";
    decodes(&books::c_with(3), "10 02 01", &[mended, clean], matrix);
}

#[test]
fn symbol_j_of_word_m_stands_at_place_j_times_all_and_m() {
    let words = [
        vec![10, 11, 12, 13],
        vec![20, 21, 22, 23],
        vec![30, 31, 32, 33],
    ];
    let mixed = [10, 20, 30, 11, 21, 31, 12, 22, 32, 13, 23, 33];
    assert_eq!(mix(&words), mixed);
    for count in 1..=16 {
        for n in [3, 7, 15] {
            let symbol = |m: usize, j: usize| (16 * m + j) as u8;
            let word = |m: usize| -> Vec<u8> { (0..n).map(|j| symbol(m, j)).collect() };
            let words: Vec<Vec<u8>> = (0..count).map(word).collect();
            let mixed = mix(&words);
            assert_eq!(mixed.len(), n * count);
            for (m, word) in words.iter().enumerate() {
                for (j, symbol) in word.iter().enumerate() {
                    assert_eq!(mixed[j * count + m], *symbol);
                }
                assert_eq!(unmixed(&mixed, count, m), *word);
            }
        }
    }
}

/// Refused by the number; answers, list and matrix, of the sizes given, stay
/// as they were.
fn refused(book: &[u8], words: u32, received: &[u8], sizes: [usize; 3], number: u8) {
    let due = (Err(number), before(sizes));
    assert_eq!(call(book, words, received, sizes), due, "M {words}");
}

/// What book A wants for three words.
const EXACT: [usize; 3] = [21, 3, 14];

#[test]
fn every_number_in_its_order() {
    // Wrong in every way at first; then one way after another is set right.
    let (bad, random) = (vec![2; 21], &mut Random::new(1));
    for first in 1..=8 {
        let mut book = books::a();
        let faults: Vec<u8> = (first..=8).collect();
        damage_all(&mut book, &faults, random);
        refused(&book, 17, &bad[..20], [20, 2, 13], first);
    }
    let book = books::a();
    refused(&book, 17, &bad[..20], [20, 2, 13], 14);
    refused(&book, 3, &bad[..20], [20, 2, 13], 9);
    refused(&book, 3, &bad, [20, 2, 13], 10);
    refused(&book, 3, &bad, [21, 2, 13], 10);
    refused(&book, 3, &bad, [21, 3, 13], 10);
    refused(&book, 3, &bad, EXACT, 11);
    assert_eq!(call(&book, 3, &[1; 21], EXACT).0, Ok(()));
}

#[test]
fn a_refused_book_whatever_the_call_is_else() {
    let mut random = Random::new(2);
    for fault in 1..=8 {
        for book in [books::a(), books::b(), books::long("n127p1_high")] {
            let mut damaged = book;
            damage(&mut damaged, fault, &mut random);
            refused(&damaged, 3, &[1; 21], EXACT, fault);
            for words in [0, 1, 17, u32::MAX] {
                refused(&damaged, words, &[1; 21], EXACT, fault);
            }
            refused(&damaged, 3, &[], [0, 0, 0], fault);
        }
    }
}

#[test]
fn row_14_count_of_words() {
    let book = books::a();
    let large = [17, 18, 32, 255, 256, 257, 65_536 + 3, 1 << 31, u32::MAX];
    for words in large.into_iter().chain([0]) {
        refused(&book, words, &[0; 21], EXACT, 14);
        refused(&book, words, &[], [0, 0, 14], 14);
        refused(&book, words, &[2; 21], EXACT, 14);
    }
    // The sizes that 17 words would have.
    refused(&book, 17, &[0; 119], [119, 17, 14], 14);
}

#[test]
fn row_9_input_size() {
    let book = books::a();
    for length in [0, 1, 3, 7, 14, 20, 22, 28, 112, 300] {
        refused(&book, 3, &vec![0; length], EXACT, 9);
        // Outputs that fit the input do not help, nor does a bad symbol.
        refused(&book, 3, &vec![0; length], [length, 3, 14], 9);
        refused(&book, 3, &vec![2; length], EXACT, 9);
    }
}

#[test]
fn row_10_answers_list_and_matrix() {
    let (book, received) = (books::a(), vec![0; 21]);
    for size in [0, 1, 3, 7, 14, 20, 22, 28, 42] {
        refused(&book, 3, &received, [size, 3, 14], 10);
        refused(&book, 3, &[2; 21], [size, 3, 14], 10);
    }
    for size in [0, 1, 2, 4, 7, 9, 16, 21] {
        refused(&book, 3, &received, [21, size, 14], 10);
        refused(&book, 3, &[2; 21], [21, size, 14], 10);
    }
    // The matrix is that of one word.
    for size in [0, 1, 13, 15, 42] {
        refused(&book, 3, &received, [21, 3, size], 10);
        refused(&book, 3, &[2; 21], [21, 3, size], 10);
    }
}

#[test]
fn row_11_a_symbol_of_any_word() {
    for place in 0..21 {
        for bad in [2, 3, 255] {
            let mut received = vec![0; 21];
            received[place] = bad;
            refused(&books::a(), 3, &received, EXACT, 11);
        }
    }
    refused(&books::b(), 2, &symbols("31 12 14"), [6, 2, 12], 11);
}
