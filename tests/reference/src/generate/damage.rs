//! Faults put into a codebook, by the number of the condition to be met.

mod copy;
mod dual_word;

use super::random::Random;
use crate::field::Field;
use crate::form::{Form, LONG, SHORT};
use crate::records::Shape;
use crate::word;

/// Where the generator's body starts.
const GENERATOR: usize = 4;

/// What the ways of damage need to know of a book.
struct Book<'a> {
    bytes: &'a mut Vec<u8>,
    form: &'static Form,
    /// L.
    count: usize,
    n: usize,
    field: Field,
}

/// Makes condition `fault`, 1 to 8, hold for the book, in any of the ways
/// the table names. An accepted book is refused by just that number after.
///
/// A book of wrong length or byte 3 is left alone but by fault 1, and one of
/// wrong s or p but by faults 1 to 3, since nothing else can be told of it.
pub fn damage(book: &mut Vec<u8>, fault: u8, random: &mut Random) {
    if fault == 1 {
        return length(book, random);
    }
    let Ok(form) = Form::of(book) else { return };
    match fault {
        2 => return kind(book, form, random),
        3 => return shape(book, form, random),
        _ => {}
    }
    let Some(shape) = Shape::new(form, book[1], book[2]) else {
        return;
    };
    let mut book = Book {
        count: form.count(book.len()).unwrap_or(0),
        bytes: book,
        form,
        n: shape.n,
        field: shape.field,
    };
    match fault {
        4 => place(&mut book, random),
        5 => generator(&mut book, random),
        6 => limit(&mut book, random),
        7 => dual_word::damage(&mut book, random),
        8 => copy::damage(&mut book, random),
        _ => {}
    }
}

/// Several faults in one book, the smallest last, so that it stands: an
/// accepted book is refused by the smallest after.
pub fn damage_all(book: &mut Vec<u8>, faults: &[u8], random: &mut Random) {
    let mut faults = faults.to_vec();
    faults.sort_unstable();
    for &fault in faults.iter().rev() {
        damage(book, fault, random);
    }
}

/// Fault 1: fewer than 4 bytes, too short, too long, of no form's length, or
/// of the other form's but with this one's byte 3, or the other way round.
fn length(book: &mut Vec<u8>, random: &mut Random) {
    let form = Form::of(book).unwrap_or(&SHORT);
    let other = if form == &SHORT { &LONG } else { &SHORT };
    match random.below(6) {
        0 => {
            let (none, least) = (form.length(0), form.length(1));
            let short = [0, 1, 3, none - 1, none, least - 1, random.below(least)];
            book.truncate(*random.pick(&short));
        }
        1 => {
            let (most, more) = (form.length(32), random.below(500));
            let long = [most + 1, form.length(33), form.length(40), most + 1 + more];
            fill(book, form, *random.pick(&long));
        }
        2 => book.truncate(book.len().saturating_sub(random.between(1, form.width))),
        3 => book.resize(book.len() + random.between(1, form.width), 0),
        4 if book.len() > 3 => book[3] = other.generator,
        _ => {
            let length = other.length(random.between(1, 32));
            book.truncate(length);
            fill(book, form, length);
        }
    }
    while Form::of(book).err() != Some(1) {
        book.push(0);
    }
}

/// More bytes, up to so many, by the record of the first dual word.
fn fill(book: &mut Vec<u8>, form: &Form, length: usize) {
    let from = form.dual_words();
    let record = book.get(from..from + form.record());
    let record = record.map_or(vec![0; form.record()], <[u8]>::to_vec);
    let more = length.saturating_sub(book.len());
    book.extend(record.into_iter().cycle().take(more));
}

/// Fault 2: any of the 3 + L kind bytes. Byte 3 becomes no form's, since the
/// other form's would make it a book of that form.
fn kind(book: &mut [u8], form: &Form, random: &mut Random) {
    let count = form.count(book.len()).unwrap_or(0);
    let (at, due) = match random.between(0, 2 + count) {
        0 => (0, [1; 2]),
        1 => (GENERATOR - 1, [SHORT.generator, LONG.generator]),
        2 => (form.limits(), [3; 2]),
        later => (form.body(later - 3) - 1, [form.dual_word; 2]),
    };
    book[at] = due[0];
    while due.contains(&book[at]) {
        let any = random.byte();
        book[at] = *random.pick(&[0, 1, 2, 3, 4, 5, 6, 255, any]);
    }
}

/// Fault 3: s none of the form's, p not 1 to 6, or p no divisor of s.
fn shape(book: &mut [u8], form: &Form, random: &mut Random) {
    while Shape::new(form, book[1], book[2]).is_some() {
        match random.below(5) {
            0 => book[1] = *random.pick(&[0, 1, 9, 12, 255]),
            1 => book[2] = *random.pick(&[0, 7, 8, 255]),
            2 => book[2] = random.symbol(1, 9),
            3 => book[1] = random.symbol(2, 9),
            _ => (book[1], book[2]) = (random.byte(), random.byte()),
        }
    }
}

/// Fault 4: a symbol of q or more or a nonzero place from n on, in the
/// generator or in any dual word.
fn place(book: &mut Book, random: &mut Random) {
    let body = match random.between(0, book.count) {
        0 => GENERATOR,
        later => book.form.body(later - 1),
    };
    let (q, width) = (book.field.q(), book.form.width);
    if book.n < width && random.once_in(2) {
        let place = random.between(book.n, width - 1);
        book.bytes[body + place] = *random.pick(&[1, q - 1, q, 255]);
    } else {
        let place = random.between(0, book.n - 1);
        let any = random.between(usize::from(q), 255) as u8;
        book.bytes[body + place] = any;
    }
}

/// Fault 5: leading coefficient not 1 (which takes a third symbol), degree
/// 0, no divisor of x^n - 1, or the zero polynomial.
fn generator(book: &mut Book, random: &mut Random) {
    let (n, field, q) = (book.n, book.field, book.field.q());
    let body = &mut book.bytes[GENERATOR..GENERATOR + n];
    let lead = word::degree(body);
    match (random.below(5), lead) {
        (0, _) => body.fill(0),
        (1, _) => {
            body.fill(0);
            body[0] = random.symbol(1, q);
        }
        (2, Some(lead)) if q > 2 => body[lead] = random.symbol(2, q),
        (3, Some(_)) if q > 2 => {
            let c = random.symbol(2, q);
            let scaled = word::scale(field, body, c);
            body.copy_from_slice(&scaled);
        }
        _ => loop {
            let degree = random.between(1, n - 1);
            body.fill(0);
            body[..degree].fill_with(|| random.symbol(0, q));
            body[degree] = 1;
            let division = word::divide(field, &word::whole(n), body);
            if division.is_some_and(|division| word::weight(&division.remainder) != 0) {
                break;
            }
        },
    }
}

/// Fault 6: I not 1 to 63, D not 1 to n, or both. No byte is above n 255.
fn limit(book: &mut Book, random: &mut Random) {
    let (which, at) = (random.below(3), book.form.limits() + 1);
    if which != 1 {
        let large = random.between(64, 255) as u8;
        book.bytes[at] = *random.pick(&[0, large]);
    }
    if which != 0 {
        let large = match book.n {
            255 => 0,
            n => random.between(n + 1, 255) as u8,
        };
        book.bytes[at + 1] = *random.pick(&[0, large]);
    }
}
