//! The generator of test input: what it promises is what check finds.

use std::collections::{BTreeMap, BTreeSet};

use reference::books::symbols;
use reference::codebook::{check, Codebook};
use reference::field::Field;
use reference::form::LONG;
use reference::generate::{self, damage, damage_all, Random, SHAPES};
use reference::{coder, decode, matrix, stream, word};

#[test]
fn generated_books_are_accepted_and_meet_the_ends() {
    for (s, p) in SHAPES {
        let n = (1usize << s) - 1;
        let mut seen: BTreeMap<&str, BTreeSet<usize>> = BTreeMap::new();
        for seed in 0..80 {
            let mut random = Random::new(seed);
            let bytes = generate::book(s, p, &mut random).expect("a shape");
            if seed < 5 {
                let again = generate::book(s, p, &mut Random::new(seed));
                assert_eq!(again.as_ref(), Ok(&bytes));
            }
            let book = check(&bytes).expect("accepted");
            assert_eq!((book.s(), book.field().p()), (s, p));
            let mut see = |what, number| seen.entry(what).or_default().insert(number);
            see("I", book.most_rounds().into());
            see("D", book.most_places().into());
            see("L", book.l());
            see("degree", n - book.k());
            see("weight", book.weight());
        }
        let met = |what: &str, number| seen[what].contains(&number);
        assert!(met("I", 1) && met("I", 63));
        assert!(met("D", 1) && met("D", n));
        assert!(
            met("L", 1) && met("L", most_dual_words(s, p)),
            "s {s}, p {p}"
        );
        assert!(seen["L"].last() <= Some(&most_dual_words(s, p)));
        assert!(met("degree", 1) && met("degree", n - 1), "s {s}, p {p}");
        assert!(n < 15 || seen["weight"].len() > 4);
        assert!(n < 15 || seen["degree"].len() > 4);
    }
    for (s, p) in [
        (0, 1),
        (2, 0),
        (3, 2),
        (7, 7),
        (8, 8),
        (9, 1),
        (6, 4),
        (255, 255),
    ] {
        assert_eq!(generate::book(s, p, &mut Random::new(1)), Err(3));
    }
}

/// The most dual words that a book can have. With few symbols and places
/// there are not 32 words of one weight of which no two are alike.
fn most_dual_words(s: u8, p: u8) -> usize {
    match (s, p) {
        // 11 of weight 2, or 111.
        (2, 1) => 1,
        // 123 and 132 of weight 3. Of weight 2 a code has at most one.
        (2, 2) => 2,
        // 1111, 11101, 111001, 11011 and 110101 of weight 4, where every word
        // of even weight is a dual word. Of weight 2 there are three.
        (3, 1) => 5,
        _ => 32,
    }
}

#[test]
fn dual_words_are_turned_at_random() {
    let mut seen: BTreeSet<Vec<u8>> = BTreeSet::new();
    for seed in 0..200 {
        let bytes = generate::book(3, 1, &mut Random::new(seed)).expect("a shape");
        let book = check(&bytes).expect("accepted");
        seen.extend(book.dual_words().iter().cloned());
    }
    // Of one class, all that have 1 at place 0.
    for word in ["1110100", "1101001", "1010011", "1001110"] {
        assert!(seen.contains(&symbols(word)), "{word}");
    }
}

#[test]
fn damaged_books_are_refused_by_the_number_meant() {
    let mut tried = 0;
    for (s, p) in SHAPES {
        for seed in 0..12 {
            let mut random = Random::new(seed << 8 | u64::from(s));
            let book = generate::book(s, p, &mut random).expect("a shape");
            for fault in 1..=8 {
                for _ in 0..6 {
                    let mut damaged = book.clone();
                    damage(&mut damaged, fault, &mut random);
                    assert_eq!(check(&damaged).err(), Some(fault), "s {s}, p {p}");
                    tried += 1;
                }
            }
        }
    }
    assert_eq!(tried, 12 * 8 * 6 * SHAPES.len());
}

#[test]
fn of_several_faults_the_smallest_is_found() {
    let mut tried = 0;
    for (s, p) in SHAPES {
        let mut random = Random::new(u64::from(s) << 8 | u64::from(p));
        let books: Vec<Vec<u8>> = (0..16)
            .map(|_| generate::book(s, p, &mut random).expect("a shape"))
            .collect();
        for faults in 1..256u32 {
            let faults: Vec<u8> = (1..=8)
                .filter(|fault| faults >> (fault - 1) & 1 == 1)
                .collect();
            let mut book = books[random.below(16)].clone();
            damage_all(&mut book, &faults, &mut random);
            assert_eq!(check(&book).err(), faults.first().copied(), "{faults:?}");
            tried += 1;
        }
        // In any other order the book is refused all the same.
        for _ in 0..100 {
            let mut book = books[random.below(16)].clone();
            for _ in 0..4 {
                damage(&mut book, 1 + random.below(8) as u8, &mut random);
                assert!(check(&book).is_err());
            }
            tried += 1;
        }
    }
    assert_eq!(tried, 355 * SHAPES.len());
}

/// All the ways in which a book can be damaged.
const WAYS: [&str; 40] = [
    "1 byte 3 of the other form",
    "1 empty",
    "1 fewer than 4 bytes",
    "1 length of the other form",
    "1 long",
    "1 no records",
    "1 odd",
    "1 short",
    "2 dual word",
    "2 first",
    "2 second",
    "2 third",
    "3 both",
    "3 p",
    "3 s",
    "4 dual word place",
    "4 dual word symbol",
    "4 generator place",
    "4 generator symbol",
    "5 degree",
    "5 divisor",
    "5 lead",
    "5 zero",
    "6 D",
    "6 I",
    "6 both",
    "7 first place 0",
    "7 first product",
    "7 first weight",
    "7 later place 0",
    "7 later product",
    "7 later weight",
    "7 scaled copy added",
    "7 scaled copy replaced",
    "8 equal copy added",
    "8 equal copy replaced",
    "8 turned copy added",
    "8 turned copy replaced",
    "8 turned and scaled copy added",
    "8 turned and scaled copy replaced",
];

#[test]
fn every_way_of_damage_is_taken() {
    let mut ways: BTreeMap<String, usize> = BTreeMap::new();
    for seed in 0..1500 {
        let mut random = Random::new(seed);
        let book = generate::book(4, 2, &mut random).expect("a shape");
        let good = check(&book).expect("accepted");
        for fault in 1..=8 {
            let mut damaged = book.clone();
            damage(&mut damaged, fault, &mut random);
            let way = way(fault, good.l(), &damaged);
            *ways.entry(format!("{fault} {way}")).or_default() += 1;
        }
    }
    for due in WAYS {
        assert!(ways.remove(due).is_some_and(|count| count >= 10), "{due}");
    }
    assert_eq!(ways.into_keys().next(), None);
}

/// Which way a book of s 4, p 2 was damaged.
fn way(fault: u8, l: usize, book: &[u8]) -> String {
    let field = Field::new(2).expect("1 to 6");
    match fault {
        1 => match book.len() {
            0 => "empty",
            1..4 => "fewer than 4 bytes",
            70 => "no records",
            _ if book[3] == 5 => "byte 3 of the other form",
            length if LONG.count(length).is_some() => "length of the other form",
            4..134 => "short",
            2119.. => "long",
            _ => "odd",
        },
        2 => match (book[0], book[3], book[67]) {
            (1, 2, 3) => "dual word",
            (1, 2, _) => "third",
            (1, _, _) => "second",
            _ => "first",
        },
        3 => match ((2..=6).contains(&book[1]), (1..=6).contains(&book[2])) {
            (true, _) => "p",
            (false, true) => "s",
            (false, false) => "both",
        },
        4 => {
            let wrong = |body: &[u8]| {
                let symbol = body[..15].iter().any(|&symbol| symbol > 3);
                let place = body[15..].iter().any(|&byte| byte != 0);
                (symbol, place)
            };
            match wrong(&book[4..67]) {
                (true, _) => "generator symbol",
                (_, true) => "generator place",
                _ => match (0..l).any(|word| wrong(&book[71 + 64 * word..134 + 64 * word]).0) {
                    true => "dual word symbol",
                    false => "dual word place",
                },
            }
        }
        5 => match word::degree(&book[4..67]) {
            None => "zero",
            Some(0) => "degree",
            Some(lead) if book[4 + lead] != 1 => "lead",
            Some(_) => "divisor",
        },
        6 => match ((1..=63).contains(&book[68]), (1..=15).contains(&book[69])) {
            (true, _) => "D",
            (_, true) => "I",
            _ => "both",
        },
        7 => return dual_word_way(field, l, book),
        _ => return copy_way(field, l, book).expect("a copy"),
    }
    .to_string()
}

/// The dual words, 15 places each.
fn dual_words(book: &[u8]) -> Vec<&[u8]> {
    book[70..].chunks(64).map(|record| &record[1..16]).collect()
}

/// Of which sort the one copy among the dual words is.
fn copy_way(field: Field, l: usize, book: &[u8]) -> Option<String> {
    let words = dual_words(book);
    let sort = (0..words.len())
        .flat_map(|one| (0..one).map(move |other| (one, other)))
        .find_map(|(one, other)| generate::likeness(field, words[one], words[other]))?;
    let added = if words.len() > l { "added" } else { "replaced" };
    Some(format!("{sort} copy {added}"))
}

fn dual_word_way(field: Field, l: usize, book: &[u8]) -> String {
    if let Some(way) = copy_way(field, l, book).filter(|way| way.starts_with("scaled")) {
        return way;
    }
    let words = dual_words(book);
    let product = |b: &[u8]| word::weight(&word::product(field, b, &book[4..19]));
    let where_from = |index| if index == 0 { "first" } else { "later" };
    if let Some(index) = words.iter().position(|b| b[0] != 1) {
        return format!("{} place 0", where_from(index));
    }
    if let Some(index) = words.iter().position(|b| product(b) != 0) {
        return format!("{} product", where_from(index));
    }
    // With two words either may be the one changed: take the later.
    let weights: Vec<usize> = words.iter().map(|b| word::weight(b)).collect();
    let first = weights.len() > 2 && weights[1..].iter().all(|&weight| weight == weights[1]);
    format!("{} weight", if first { "first" } else { "later" })
}

#[test]
fn generated_words_are_what_they_say() {
    let (mut clean, mut erred, mut bad, mut wrong) = (0, 0, 0, 0);
    for seed in 0..200 {
        let mut random = Random::new(seed);
        let bytes = generate::any_book(&mut random);
        let book = check(&bytes).expect("accepted");
        let mut message = vec![0; book.k()];
        let word = generate::code_word(&book, &mut random);
        assert_eq!(coder::read(&bytes, &word, &mut message), Ok(()));
        clean += 1;
        let errors = random.between(1, book.n());
        let mut same = random.clone();
        let word = generate::damaged_code_word(&book, errors, &mut random);
        let sent = generate::code_word(&book, &mut same);
        let difference = word::add(book.field(), &word, &sent);
        assert_eq!(word::weight(&difference), errors);
        erred += 1;
        let mut entries = vec![0; book.entries()];
        let word = generate::bad_symbol(sent.clone(), book.q(), &mut random);
        assert_eq!(matrix::matrix(&bytes, &word, &mut entries), Err(11));
        bad += 1;
        let word = generate::wrong_length(sent, book.q(), &mut random);
        assert_eq!(matrix::matrix(&bytes, &word, &mut entries), Err(9));
        wrong += 1;
    }
    assert_eq!((clean, erred, bad, wrong), (200, 200, 200, 200));
}

/// Runs the trial ten times on each of many codebooks; the answers that it
/// names must be just those due, each many times.
fn answers(due: &[&str], trial: impl Fn(&Codebook, &mut Random) -> Vec<String>) {
    let mut answers: BTreeMap<String, usize> = BTreeMap::new();
    for seed in 0..200 {
        let mut random = Random::new(seed);
        let bytes = generate::any_book(&mut random);
        let book = check(&bytes).expect("accepted");
        for answer in (0..10).flat_map(|_| trial(&book, &mut random)) {
            *answers.entry(answer).or_default() += 1;
        }
    }
    for &due in due {
        let count = answers.remove(due).unwrap_or(0);
        assert!(count > 100, "{due}: {count}");
    }
    assert!(answers.is_empty(), "{answers:?}");
}

#[test]
fn words_of_any_sort_are_of_every_sort() {
    let due = [
        "read Ok(())",
        "read Err(9)",
        "read Err(11)",
        "read Err(12)",
        "remainder Ok(())",
        "remainder Err(9)",
        "remainder Err(11)",
    ];
    answers(&due, |book, random| {
        let (mut message, mut rest) = (vec![0; book.k()], vec![0; book.n() - book.k()]);
        let word = generate::any_word(book, random);
        let read = book.read(&word, &mut message);
        let divided = book.remainder(&word, &mut rest);
        vec![format!("read {read:?}"), format!("remainder {divided:?}")]
    });
}

#[test]
fn messages_of_any_sort_are_of_every_sort() {
    let due = [
        "no symbol Err(9)",
        "short Ok(())",
        "short Err(11)",
        "full Ok(())",
        "full Err(11)",
        "long Err(9)",
    ];
    answers(&due, |book, random| {
        let message = generate::any_message(book, random);
        let length = match message.len() {
            0 => "no symbol",
            length if length < book.k() => "short",
            length if length == book.k() => "full",
            _ => "long",
        };
        let coded = book.code(&message, &mut vec![0; book.n()]);
        vec![format!("{length} {coded:?}")]
    });
}

#[test]
fn any_bytes_are_answered() {
    let (mut accepted, mut refused) = (0, 0);
    let mut random = Random::new(11);
    for _ in 0..5_000 {
        let bytes = any_bytes(&mut random);
        let number = check(&bytes).err();
        let input = generate::arbitrary(random.between(0, 130), 255, &mut random);
        let mut word = vec![0; random.between(0, 130)];
        let mut entries = vec![0; random.between(0, 200)];
        let answers = [
            coder::code(&bytes, &input, &mut word).err(),
            coder::read(&bytes, &input, &mut word).err(),
            coder::remainder(&bytes, &input, &mut word).err(),
            matrix::matrix(&bytes, &input, &mut entries).err(),
            decode::decode(&bytes, &input, &mut word, &mut entries).err(),
        ];
        match number {
            Some(_) => assert!(answers.iter().all(|&answer| answer == number)),
            None => assert!(answers.iter().all(|answer| !matches!(answer, Some(..9)))),
        }
        accepted += usize::from(number.is_none());
        refused += usize::from(number.is_some());
        let length = (bytes.len() as u16).to_le_bytes();
        let stream: Vec<u8> = length.into_iter().chain(bytes).chain(input).collect();
        let mut output = Vec::new();
        stream::run(&mut stream.as_slice(), &mut output);
        if let Some(number) = number {
            assert_eq!(output, format!("R {number}\n").into_bytes());
        }
    }
    assert!(accepted > 100 && refused > 100, "{accepted} {refused}");
}

/// A small book with a few bytes changed, or no book at all.
fn any_bytes(random: &mut Random) -> Vec<u8> {
    if random.once_in(8) {
        let length = *random.pick(&[0, 5, 133, 134, 198, 518, 2118, 2310, 3000]);
        return (0..length).map(|_| random.byte()).collect();
    }
    let (s, p) = *random.pick(&[(2, 1), (2, 2), (3, 1), (3, 3), (7, 1)]);
    let mut book = generate::book(s, p, random).expect("a shape");
    for _ in 0..random.between(0, 3) {
        let place = random.below(book.len().min(80));
        book[place] = *random.pick(&[0, 1, 2, 3, 4, 5, 6, 7, 63, 64, 255]);
    }
    book
}
