//! Demand 3 at the C boundary: decoding a word, and decoding it turned,
//! multiplied by a nonzero symbol and with a code word added; and the same of
//! two bursts.

use std::fmt;

use boundary::burst::{Burst, Outcome};
use boundary::compare::hex;
use boundary::decode;
use boundary::draw::{self, Book, Shelf};
use boundary::tally::Tally;
use boundary::{kind, refusal, rounds};
use reference::burst::{mix, MOST_WORDS};
use reference::generate::{self, Random, SHAPES};
use reference::word;

/// A word and how it is moved.
struct Quadruple {
    seed: u64,
    book: Book,
    r: Vec<u8>,
    t: usize,
    c: u8,
    v: Vec<u8>,
}

impl Quadruple {
    fn new(seed: u64, book: Book, random: &mut Random) -> Quadruple {
        let (n, r) = (book.parts.n(), draw::received(&book, random));
        let (within, any) = (random.below(n), random.draw() as usize);
        let t = *random.pick(&[within, within, any, any, 0, 1, n, usize::MAX]);
        let c = random.symbol(1, book.parts.q());
        let v = generate::code_word(&book.parts, random);
        Quadruple {
            seed,
            book,
            r,
            t,
            c,
            v,
        }
    }

    /// Turned by t, then multiplied by c, then with v added.
    fn moved(&self, word: &[u8]) -> Vec<u8> {
        let field = self.book.parts.field();
        let turned = word::turn(word, self.t);
        word::add(field, &word::scale(field, &turned, self.c), &self.v)
    }

    /// Decodes both words into buffers that hold different bytes before;
    /// fails unless the results are equal as numbers and the second answer
    /// is the first one moved.
    fn decode(&self, tally: &mut Tally) -> u32 {
        let n = self.book.parts.n();
        let (mut first_answer, mut second_answer) = (vec![0x11; n], vec![0xfe; n]);
        let second_received = self.moved(&self.r);
        let first = decode(&self.book.bytes, &self.r, &mut first_answer);
        let second = decode(&self.book.bytes, &second_received, &mut second_answer);
        assert!(
            refusal(first) == 0 && first == second && second_answer == self.moved(&first_answer),
            "first  {first:#010x} {}\nsecond {second:#010x} {}\n{self}",
            hex(&first_answer),
            hex(&second_answer)
        );
        tally.tried();
        self.count(kind(first), rounds(first), tally);
        first
    }

    /// Counts what the word came to, and how it was moved.
    fn count(&self, kind: char, rounds: u8, tally: &mut Tally) {
        tally.count("kind", kind);
        if rounds >= 2 {
            tally.count("2 rounds or more", kind);
        }
        tally.count("s and p", self.book.shape());
        let below = self.t < self.book.parts.n();
        tally.count("t", if below { "below n" } else { "n or more" });
        tally.count("c", if self.c == 1 { "1" } else { "2 or more" });
        let still = word::weight(&self.v) == 0;
        tally.count("v", if still { "zero" } else { "not zero" });
    }
}

impl fmt::Display for Quadruple {
    fn fmt(&self, f: &mut fmt::Formatter) -> fmt::Result {
        writeln!(f, "seed {:#x}, t {}, c {}", self.seed, self.t, self.c)?;
        writeln!(f, "codebook {}", hex(&self.book.bytes))?;
        writeln!(f, "r {}\nv {}", hex(&self.r), hex(&self.v))
    }
}

/// Quadruples for codebooks of every L, I and D and for light ones, until
/// so many are made or they took so many products of symbols.
fn quadruples(s: u8, p: u8, most: u32, products: usize, tally: &mut Tally) {
    let mut random = Random::new(draw::seed(1, s, p, u32::MAX));
    let shelf = Shelf::new(s, p, 60, &mut random);
    let mut spent = 0;
    for trial in 0..most {
        if spent > products {
            break;
        }
        let seed = draw::seed(1, s, p, trial);
        let mut random = Random::new(seed);
        let book = match random.below(2) {
            0 => shelf.take(random.between(1, 32), 150_000, &mut random),
            _ => shelf.light(&mut random),
        };
        let (l, quadruple) = (book.parts.l(), Quadruple::new(seed, book, &mut random));
        let result = quadruple.decode(tally);
        spent += 2 * quadruple.book.products(l, rounds(result));
    }
}

/// What must occur.
fn due(title: &'static str) -> Tally {
    Tally::new(title)
        .due("kind", ['C', 'M', 'S', 'X'])
        .due("2 rounds or more", ['M', 'S', 'X'])
        .due("t", ["below n", "n or more"])
        .due("c", ["1", "2 or more"])
        .due("v", ["zero", "not zero"])
}

#[test]
fn demand_3_for_s_2_to_5() {
    let shapes = SHAPES.iter().filter(|(s, _)| *s < 6);
    let names = shapes.clone().map(|(s, p)| format!("{s} {p}"));
    let mut tally = due("symmetry, s 2 to 5").due("s and p", names);
    for &(s, p) in shapes {
        quadruples(s, p, 1000, 14_000_000, &mut tally);
    }
    tally.finish(20);
}

#[test]
fn demand_3_for_s_6() {
    let shapes = SHAPES.iter().filter(|(s, _)| *s == 6);
    let names = shapes.clone().map(|(s, p)| format!("{s} {p}"));
    let mut tally = due("symmetry, s 6").due("s and p", names);
    for &(s, p) in shapes {
        quadruples(s, p, 300, 25_000_000, &mut tally);
    }
    tally.finish(1);
}

#[test]
fn demand_3_for_s_7_and_8() {
    let names = generate::long_shapes().map(|(s, p)| format!("{s} {p}"));
    let mut tally = due("symmetry, s 7 and 8").due("s and p", names);
    for (s, p) in generate::long_shapes() {
        quadruples(s, p, 400, 400_000_000, &mut tally);
    }
    tally.finish(1);
}

/// A burst of the words into buffers that hold the byte before.
fn burst(seed: u64, book: &Book, words: &[Vec<u8>], held: u8) -> Outcome {
    let received = mix(words);
    let burst = Burst {
        seed,
        book: &book.bytes,
        words: words.len() as u32,
        received: &received,
        answers: &vec![held; received.len()],
        records: &vec![[held; 3]; words.len()],
    };
    burst.call()
}

/// Two bursts, word m of the second being that of the first as quadruple m
/// moves it; fails unless the records are equal and every answer of the
/// second is that of the first, moved as its word is.
fn two_bursts(quadruples: &[Quadruple], tally: &mut Tally) {
    let Quadruple { seed, book, .. } = &quadruples[0];
    let moved = quadruples
        .iter()
        .map(|quadruple| quadruple.moved(&quadruple.r));
    let received: Vec<Vec<u8>> = quadruples
        .iter()
        .map(|quadruple| quadruple.r.clone())
        .collect();
    let first = burst(*seed, book, &received, 0x11);
    let second = burst(*seed, book, &moved.collect::<Vec<_>>(), 0xfe);
    let answers = quadruples.iter().zip(first.answers.chunks(book.parts.n()));
    let answers = answers.flat_map(|(quadruple, answer)| quadruple.moved(answer));
    let due = Outcome {
        answers: answers.collect(),
        ..first
    };
    assert!(
        due.result == 0 && second == due,
        "first, moved {due}\nsecond       {second}\n{}",
        quadruples
            .iter()
            .map(Quadruple::to_string)
            .collect::<String>()
    );
    tally.tried();
    tally.count("M", quadruples.len());
    for (quadruple, [kind, rounds, _]) in quadruples.iter().zip(due.records) {
        quadruple.count(kind.into(), rounds, tally);
    }
}

#[test]
fn demand_3_of_two_bursts() {
    let mut tally = due("symmetry, two bursts")
        .due("s and p", SHAPES.map(|(s, p)| format!("{s} {p}")))
        .due("M", 1..=MOST_WORDS);
    for (s, p) in SHAPES {
        let mut random = Random::new(draw::seed(2, s, p, u32::MAX));
        let shelf = Shelf::new(s, p, 30, &mut random);
        for trial in 0..100 {
            let seed = draw::seed(2, s, p, trial);
            let mut random = Random::new(seed);
            let book = match trial % 2 {
                0 => shelf.take(random.between(1, 32), 150_000, &mut random),
                _ => shelf.light(&mut random),
            };
            let count = random.between(1, MOST_WORDS as usize);
            let quadruple = |_| Quadruple::new(seed, book.clone(), &mut random);
            let quadruples: Vec<Quadruple> = (0..count).map(quadruple).collect();
            two_bursts(&quadruples, &mut tally);
        }
    }
    tally.finish(5);
}
