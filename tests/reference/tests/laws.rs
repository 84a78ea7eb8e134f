//! What follows from the scope for every codebook, tried on generated ones
//! of every s and p.

use std::collections::BTreeMap;

use reference::burst::{mix, MOST_WORDS};
use reference::codebook::{check, Codebook};
use reference::decode::{Decoded, Kind};
use reference::game::Game;
use reference::generate::{self, Random, SHAPES};
use reference::word;

/// Runs the trial on so many books of every s and p whose matrix takes no
/// more products than given for all of I rounds.
fn on_books(books: u64, products: usize, mut trial: impl FnMut(&Codebook, &mut Random)) {
    for (s, p) in SHAPES {
        let mut random = Random::new(u64::from(s) << 8 | u64::from(p));
        let mut left = books;
        while left > 0 {
            let bytes = generate::book(s, p, &mut random).expect("a shape");
            let book = check(&bytes).expect("accepted");
            assert_eq!((book.s(), book.field().p()), (s, p));
            if matrix_products(&book) * usize::from(book.most_rounds()) <= products {
                trial(&book, &mut random);
                left -= 1;
            }
        }
    }
}

/// How many products of symbols the check values of one matrix take.
fn matrix_products(book: &Codebook) -> usize {
    book.l() * book.weight() * book.weight() * book.n()
}

/// At least one trial, and more where the matrix is light.
fn trials(book: &Codebook, most: usize) -> usize {
    (most * 5_000 / matrix_products(book)).clamp(1, most)
}

/// Decode with buffers that hold something else before.
fn decode(book: &Codebook, received: &[u8], held: u8) -> (Decoded, Vec<u8>, Vec<u16>) {
    let mut answer = vec![held; book.n()];
    let mut entries = vec![u16::from(held) << 5; book.entries()];
    let decoded = book.decode(received, &mut answer, &mut entries);
    (decoded.expect("not refused"), answer, entries)
}

fn matrix(book: &Codebook, received: &[u8], held: u16) -> Vec<u16> {
    let mut entries = vec![held; book.entries()];
    assert_eq!(book.matrix(received, &mut entries), Ok(()));
    entries
}

#[test]
fn reading_and_coding_undo_each_other() {
    let (mut read_back, mut coded_back, mut refused) = (0, 0, 0);
    on_books(20, usize::MAX, |book, random| {
        for _ in 0..8 {
            let message = generate::message(book, random);
            let (mut word, mut read) = (vec![255; book.n()], vec![255; book.k()]);
            assert_eq!(book.code(&message, &mut word), Ok(()));
            assert_eq!(book.read(&word, &mut read), Ok(()));
            assert_eq!(read, message);
            read_back += 1;

            let word = generate::good_word(book, random);
            match book.read(&word, &mut read) {
                Ok(()) => {
                    let mut coded = vec![255; book.n()];
                    assert_eq!(book.code(&read, &mut coded), Ok(()));
                    assert_eq!(coded, word);
                    coded_back += 1;
                }
                Err(number) => {
                    assert_eq!(number, 12);
                    // Its product with h = (x^n - 1) / g is not zero.
                    let whole = word::whole(book.n());
                    let division = word::divide(book.field(), &whole, book.generator());
                    let h = division.expect("not by zero").quotient;
                    let product = word::product(book.field(), &word, &h);
                    assert_ne!(word::weight(&product), 0);
                    refused += 1;
                }
            }
        }
    });
    assert_eq!(read_back, 20 * 8 * SHAPES.len());
    assert!(coded_back > 200 && refused > 200, "{coded_back} {refused}");
}

#[test]
fn every_column_adds_up_and_every_entry_is_counted_by_the_product() {
    let mut tried = 0;
    on_books(8, 100_000_000, |book, random| {
        for _ in 0..trials(book, 6) {
            let received = generate::good_word(book, random);
            let (n, field) = (book.n(), book.field());
            let entries = matrix(book, &received, 60_000);
            for j in 0..n {
                let column = entries.iter().skip(j).step_by(n);
                let sum: usize = column.map(|&entry| usize::from(entry)).sum();
                assert_eq!(sum, book.l() * book.weight());
            }
            // S0, equation 17: the check values of b and h are the product
            // of b and the received word, turned back by h and divided.
            let mut counted = vec![0; entries.len()];
            for b in book.dual_words() {
                let product = word::product(field, b, &received);
                for h in (0..n).filter(|&h| b[h] != 0) {
                    let turned = word::turn(&product, n - h);
                    let inverse = field.inverse(b[h]).expect("not zero");
                    let values = word::scale(field, &turned, inverse);
                    for (j, &i) in values.iter().enumerate() {
                        counted[usize::from(i) * n + j] += 1;
                    }
                }
            }
            assert_eq!(entries, counted);
            tried += 1;
        }
    });
    assert!(tried >= 8 * SHAPES.len(), "{tried}");
}

/// Decode once more from outside: the rounds by the operation matrix, the
/// counts by the order of the entries.
fn follow(book: &Codebook, received: &[u8]) -> (Kind, u8, Vec<u8>, Vec<u16>) {
    let (n, d) = (book.n(), usize::from(book.most_places()));
    let mut word = received.to_vec();
    let mut entries = vec![0; book.entries()];
    let mut rounds = 0;
    while !book.is_code_word(&word) {
        if rounds == book.most_rounds() {
            return (Kind::Spent, rounds, received.to_vec(), entries);
        }
        rounds += 1;
        entries = matrix(book, &word, 1);
        let columns: Vec<Vec<u16>> = (0..n)
            .map(|j| entries.iter().skip(j).step_by(n).copied().collect())
            .collect();
        let peak = |column: &Vec<u16>| column[1..].iter().copied().max().expect("q is 2 or more");
        let mut zeros: Vec<u16> = columns.iter().map(|column| column[0]).collect();
        let mut peaks: Vec<u16> = columns.iter().map(peak).collect();
        zeros.sort_unstable();
        peaks.sort_unstable_by(|a, b| b.cmp(a));
        let before = word.clone();
        for (j, column) in columns.iter().enumerate() {
            let top = peak(column);
            let few_zeros = zeros.get(d).is_none_or(|&next| next > column[0]);
            let few_peaks = peaks.get(d).is_none_or(|&next| next < top);
            let shared = column[1..].iter().filter(|&&entry| entry == top).count() != 1;
            if few_zeros && few_peaks && top > 0 && !shared {
                let symbol = (1..column.len()).find(|&i| column[i] == top);
                word[j] ^= symbol.expect("the peak is somewhere") as u8;
            }
        }
        if word == before {
            return (Kind::Stalled, rounds, received.to_vec(), entries);
        }
    }
    let kind = if rounds == 0 {
        Kind::Clean
    } else {
        Kind::Mended
    };
    (kind, rounds, word, entries)
}

#[test]
fn decode_makes_its_rounds() {
    let mut kinds: BTreeMap<Kind, usize> = BTreeMap::new();
    let mut later = 0;
    on_books(16, 500_000, |book, random| {
        for _ in 0..trials(book, 12) {
            let received = generate::good_word(book, random);
            let (decoded, answer, entries) = decode(book, &received, 0xee);
            let (kind, rounds, word, last) = follow(book, &received);
            assert_eq!((decoded.kind, decoded.rounds), (kind, rounds));
            assert_eq!(answer, word);
            assert_eq!(entries, last);
            assert!(decoded.rounds <= book.most_rounds());
            let differing = (0..book.n()).filter(|&j| answer[j] != received[j]).count();
            assert_eq!(usize::from(decoded.changed), differing);
            match kind {
                Kind::Clean => assert!(rounds == 0 && entries.iter().all(|&entry| entry == 0)),
                Kind::Mended => assert!(differing > 0 && book.is_code_word(&answer)),
                Kind::Stalled | Kind::Spent => assert_eq!(differing, 0),
            }
            *kinds.entry(kind).or_default() += 1;
            // Rounds whose matrix is not that of the received word.
            later += usize::from(entries != matrix(book, &received, 0) && rounds > 1);
        }
    });
    assert_eq!(kinds.len(), 4);
    assert!(kinds.values().all(|&count| count > 50), "{kinds:?}");
    assert!(later > 50, "{later}");
}

#[test]
fn demand_3() {
    let mut kinds: BTreeMap<Kind, usize> = BTreeMap::new();
    let (mut turned_far, mut scaled, mut moved) = (0, 0, 0);
    on_books(16, 500_000, |book, random| {
        for _ in 0..trials(book, 12) {
            let (n, field) = (book.n(), book.field());
            let r = generate::good_word(book, random);
            let any = random.below(3 * n);
            let t = *random.pick(&[any, any, 0, 1, n - 1, n, 1000 * n + 1, usize::MAX]);
            let c = random.symbol(1, book.q());
            let v = generate::code_word(book, random);
            let change = |word: &[u8]| {
                let turned = word::turn(word, t);
                word::add(field, &word::scale(field, &turned, c), &v)
            };
            let (first, first_answer, first_entries) = decode(book, &r, 0x11);
            let (second, second_answer, second_entries) = decode(book, &change(&r), 0xfe);
            assert_eq!(first, second);
            assert_eq!(second_answer, change(&first_answer));
            for i in 0..book.q() {
                let row = usize::from(field.product(c, i));
                for j in 0..n {
                    let entry = first_entries[usize::from(i) * n + j];
                    assert_eq!(entry, second_entries[row * n + (j + t % n) % n]);
                }
            }
            *kinds.entry(first.kind).or_default() += 1;
            turned_far += usize::from(t >= n);
            scaled += usize::from(c != 1);
            moved += usize::from(word::weight(&v) > 0);
        }
    });
    assert_eq!(kinds.len(), 4);
    assert!(kinds.values().all(|&count| count > 50), "{kinds:?}");
    assert!(turned_far > 100 && scaled > 100 && moved > 100);
}

#[test]
fn a_burst_is_its_words_decoded_singly() {
    let (mut last, mut made) = (BTreeMap::<Kind, usize>::new(), 0);
    on_books(6, 500_000, |book, random| {
        for _ in 0..trials(book, 4) {
            // Every M as often.
            let (n, words) = (book.n(), 1 + made % MOST_WORDS);
            let count = words as usize;
            let (mut received, mut singly) = (vec![0; n * count], Vec::new());
            for m in 0..count {
                let word = generate::good_word(book, random);
                for (j, &symbol) in word.iter().enumerate() {
                    received[j * count + m] = symbol;
                }
                singly.push(decode(book, &word, 0x11));
            }
            // No round has this number.
            let held = Decoded {
                rounds: 0xa5,
                ..singly[0].0
            };
            let (mut answers, mut records) = (vec![0xfe; n * count], vec![held; count]);
            let mut entries = vec![u16::MAX; book.entries()];
            let result = book.burst(words, &received, &mut answers, &mut records, &mut entries);
            assert_eq!(result, Ok(()));
            for (m, (decoded, answer, _)) in singly.iter().enumerate() {
                assert_eq!(records[m], *decoded);
                assert_eq!(answers[m * n..][..n], *answer);
            }
            let (decoded, _, matrix) = &singly[count - 1];
            assert_eq!(entries, *matrix);
            *last.entry(decoded.kind).or_default() += 1;
            made += 1;
        }
    });
    println!("bursts: {made}, the last word's kind {last:?}");
    assert!(made > 200, "{made}");
    assert_eq!(last.len(), 4);
    assert!(last.values().all(|&count| count > 10), "{last:?}");
}

/// A word of any kind, or one that ends in a code word.
fn drawn(book: &Codebook, reached: bool, random: &mut Random) -> Vec<u8> {
    loop {
        let word = generate::good_word(book, random);
        if !reached || decode(book, &word, 0x11).0.kind.reached() {
            return word;
        }
    }
}

/// The message of the word's answer, none where it is no code word.
fn taken(book: &Codebook, word: &[u8]) -> Option<Vec<u8>> {
    let mut message = vec![0x11; book.k()];
    let (_, answer, _) = decode(book, word, 0x11);
    let result = book.read(&answer, &mut message);
    assert!(result == Ok(()) || result == Err(12));
    result.is_ok().then_some(message)
}

#[test]
fn a_game_is_its_words_decoded_and_read() {
    let (mut whole, mut one, mut several) = (0, 0, 0);
    on_books(6, 200_000, |book, random| {
        for trial in 0..3 * trials(book, 4) {
            // Words that are reached, all but one of them, and any.
            let count = random.between(1, MOST_WORDS as usize);
            let any = random.below(count);
            let reached = |m: usize| trial % 3 == 0 || trial % 3 == 1 && m != any;
            let words = (0..count).map(|m| drawn(book, reached(m), random));
            let words: Vec<Vec<u8>> = words.collect();
            let taken: Vec<_> = words.iter().map(|word| taken(book, word)).collect();
            let mut messages = vec![0xfe; book.k() * count];
            let due = match taken.iter().filter(|message| message.is_none()).count() {
                0 => (Game::Whole, taken.into_iter().flatten().flatten().collect()),
                held => (Game::Held(held as u8), messages.clone()),
            };
            let result = book.game(count as u32, &mix(&words), &mut messages);
            assert_eq!((result, messages), (Ok(due.0), due.1));
            match due.0.held() {
                0 => whole += 1,
                1 => one += 1,
                _ => several += 1,
            }
        }
    });
    println!("games: {whole} whole, {one} with one word held, {several} with several");
    assert!(whole > 200 && one > 50 && several > 50);
}
