//! Every entry of the matrix against the second implementation, and that a
//! refused call leaves the buffer.

use matrix_test::matrix;
use reference::books;
use reference::codebook::check;
use reference::generate::{self, Random, SHAPES};

/// What an entry holds before a call: no count reaches it.
const BEFORE: u16 = 0xa5a5;

fn compare(book: &[u8], received: &[u8], room: usize, numbers: &mut [usize; 14]) {
    let mut ours = vec![BEFORE; room];
    let mut theirs = vec![BEFORE; room];
    let number = matrix(book, received, &mut ours);
    let wanted = match reference::matrix::matrix(book, received, &mut theirs) {
        Ok(()) => 0,
        Err(refusal) => u32::from(refusal),
    };
    assert_eq!(number, wanted, "book {book:02x?}, word {received:02x?}");
    assert_eq!(ours, theirs, "book {book:02x?}, word {received:02x?}");
    numbers[number as usize] += 1;
}

/// The codebook with the first of its dual words, so that a matrix takes no
/// more products of symbols than the second implementation makes in time.
fn cut(mut book: Vec<u8>) -> Vec<u8> {
    let code = check(&book).expect("an accepted book");
    let one = code.n() * code.weight() * code.weight();
    let l = (5_000_000 / one).clamp(1, code.l());
    book.truncate(code.form().length(l));
    book
}

/// Generated codebooks, and for the long form the stored ones as well.
fn books_of(s: u8, p: u8, random: &mut Random) -> Vec<Vec<u8>> {
    let count = if s < 6 { 60 } else { 8 };
    let stored = books::LONG.iter().map(|(_, book)| book.to_vec());
    let mut books: Vec<Vec<u8>> = stored.filter(|book| (book[1], book[2]) == (s, p)).collect();
    books.resize_with(books.len() + count, || {
        generate::book(s, p, random).expect("a book of this shape")
    });
    books.into_iter().map(cut).collect()
}

/// Words of every sort, rooms of wrong sizes, and a fault of the codebook.
fn calls(mut book: Vec<u8>, random: &mut Random, numbers: &mut [usize; 14]) {
    let code = check(&book).expect("an accepted book");
    for _ in 0..4 {
        let word = generate::any_word(&code, random);
        compare(&book, &word, code.entries(), numbers);
    }
    let word = generate::code_word(&code, random);
    compare(&book, &word, code.entries(), numbers);
    compare(&book, &word, code.entries() - 1, numbers);
    compare(&book, &word, code.entries() + 1, numbers);
    compare(&book, &word[1..], code.entries(), numbers);
    let bad = generate::bad_symbol(word.clone(), code.q(), random);
    compare(&book, &bad, code.entries(), numbers);
    let fault = 1 + (numbers[0] % 8) as u8;
    generate::damage(&mut book, fault, random);
    compare(&book, &word, code.entries(), numbers);
}

#[test]
fn every_entry_of_generated_books() {
    let mut random = Random::new(20);
    // Of the short form, and of the long one.
    let mut numbers = [[0; 14]; 2];
    for (s, p) in SHAPES {
        for book in books_of(s, p, &mut random) {
            calls(book, &mut random, &mut numbers[usize::from(s > 6)]);
        }
    }
    println!("matrix, by refusal number: {numbers:?}");
    for (form, numbers) in numbers.iter().enumerate() {
        for number in 0..=11 {
            assert!(numbers[number] > 0, "form {form}, refusal {number}");
        }
    }
}

#[test]
fn the_largest_column() {
    let book = books::long("n255p4_whole");
    let code = check(&book).expect("an accepted book");
    let mut random = Random::new(8160);
    let word = generate::damaged_code_word(&code, 1, &mut random);
    let mut entries = vec![BEFORE; 4080];
    assert_eq!(matrix(&book, &word, &mut entries), 0);
    for j in 0..code.n() {
        let column = entries.iter().skip(j).step_by(code.n());
        assert_eq!(column.map(|&entry| u32::from(entry)).sum::<u32>(), 8160);
    }
    compare(&book, &word, code.entries(), &mut [0; 14]);
}
