//! The scope, "Program", byte for byte.

use std::io::{self, Read, Write};
use std::process::{Command, Stdio};

use reference::books::{self, symbols};
use reference::stream::run;

/// The input: the length field, the book and the words.
fn input(book: &[u8], words: &[&str]) -> Vec<u8> {
    let length = u16::try_from(book.len()).expect("two bytes");
    let mut input = length.to_le_bytes().to_vec();
    input.extend(book);
    words.iter().for_each(|word| input.extend(symbols(word)));
    input
}

fn printed(mut input: &[u8]) -> String {
    let mut output = Vec::new();
    run(&mut input, &mut output);
    String::from_utf8(output).expect("text")
}

const EXAMPLE: [&str; 3] = ["1000000", "1100000", "1101000"];

const EXAMPLE_LINES: &str = "\
M 1 1 00000000000000
M 1 1 01010001000000
C 0 0 01010001000000
";

#[test]
fn the_printed_example() {
    assert_eq!(printed(&input(&books::a(), &EXAMPLE)), EXAMPLE_LINES);
}

#[test]
fn the_binary_prints_the_example() {
    let mut program = Command::new(env!("CARGO_BIN_EXE_reference_stream"))
        .stdin(Stdio::piped())
        .stdout(Stdio::piped())
        .spawn()
        .expect("started");
    let mut stdin = program.stdin.take().expect("piped");
    stdin
        .write_all(&input(&books::a(), &EXAMPLE))
        .expect("written");
    drop(stdin);
    let output = program.wait_with_output().expect("ended");
    assert!(output.status.success());
    assert_eq!(output.stdout, EXAMPLE_LINES.as_bytes());
}

#[test]
fn every_letter() {
    let clean_and_stalled = input(&books::b(), &["111", "120", "311"]);
    assert_eq!(
        printed(&clean_and_stalled),
        "C 0 0 010101\nS 1 0 010200\nM 1 1 010101\n"
    );
    let spent = input(&books::a_with(7), &["1000000"]);
    assert_eq!(printed(&spent), "X 3 0 01000000000000\n");
    let three_changed = input(&books::c_with(3), &["100"]);
    assert_eq!(printed(&three_changed), "M 1 3 000302\n");
}

#[test]
fn two_digits_a_symbol_and_decimal_numbers() {
    // Length 63 over GF(64), so that symbols of 16 and more are printed.
    let book = books::write(6, 6, &[1; 63], 12, 63, &[vec![1, 1]]);
    let mut input = input(&book, &[]);
    input.extend([63; 63]);
    input.extend((0..63).map(|symbol| symbol as u8));
    let lines = printed(&input);
    let mut lines = lines.lines();
    assert_eq!(
        lines.next(),
        Some(format!("C 0 0 {}", "3f".repeat(63)).as_str())
    );
    let second = lines.next().expect("a second line");
    let parts: Vec<&str> = second.split(' ').collect();
    assert_eq!(parts.len(), 4);
    assert_eq!(parts[3].len(), 126);
    assert!(parts[3]
        .bytes()
        .all(|byte| b"0123456789abcdef".contains(&byte)));
    assert_eq!(lines.next(), None);
}

/// One symbol in all n places; the sum of all symbols, as g is x + 1, is the
/// one check value there is, and all places are changed by it.
fn all_changed(s: u8, p: u8, error: u8) -> (Vec<u8>, String) {
    let n = (1 << s) - 1;
    let book = books::write(s, p, &[1, 1], 12, n as u8, &[vec![1; n]]);
    let mut input = input(&book, &[]);
    input.extend((0..n).map(|j| if j == 100 { error } else { 0 }));
    input.extend(vec![0; n - 1]);
    let digits = |j| if j == 100 { 0 } else { error };
    let answer: String = (0..n).map(|j| format!("{:02x}", digits(j))).collect();
    (input, format!("M 1 {n} {answer}\nR 9\n"))
}

#[test]
fn long_words_and_three_digits() {
    for (s, p, error) in [(7, 1, 1), (8, 1, 1), (8, 2, 3), (8, 4, 13)] {
        let (input, lines) = all_changed(s, p, error);
        assert_eq!(printed(&input), lines);
    }
    let (input, lines) = all_changed(8, 4, 15);
    assert!(lines.starts_with("M 1 255 0f0f"));
    assert_eq!(lines.lines().next().map(str::len), Some(8 + 510));
    // The length field: 518, a length of both forms.
    assert_eq!(input[..2], [6, 2]);
}

#[test]
fn no_words_print_nothing() {
    assert_eq!(printed(&input(&books::a(), &[])), "");
}

#[test]
fn a_missing_or_short_length_field() {
    assert_eq!(printed(&[]), "R 1\n");
    for byte in [0, 134, 255] {
        assert_eq!(printed(&[byte]), "R 1\n");
    }
}

#[test]
fn a_missing_or_short_codebook() {
    let whole = input(&books::a(), &[]);
    for length in 2..whole.len() {
        assert_eq!(printed(&whole[..length]), "R 1\n", "{length} bytes");
    }
    assert_eq!(printed(&whole), "");
}

#[test]
fn a_length_of_no_codebook() {
    let lengths = [
        0u16, 1, 70, 133, 135, 2117, 2119, 2182, 8453, 8455, 32768, 65535,
    ];
    for length in lengths {
        let mut input = length.to_le_bytes().to_vec();
        input.extend(books::a());
        input.resize(70_000, 0);
        assert_eq!(printed(&input), "R 1\n", "length {length}");
    }
}

#[test]
fn a_length_above_the_most_with_records_to_fill_it() {
    for (mut book, record) in [(books::a(), 64), (books::long("n255p1"), 256)] {
        let one = book.len();
        while book.len() < one + 32 * record {
            book.extend_from_within(one - record..one);
        }
        assert_eq!(printed(&input(&book, &EXAMPLE)), "R 1\n");
        book.truncate(one + 31 * record);
        assert_eq!(printed(&input(&book, &EXAMPLE)), "R 8\n");
    }
}

#[test]
fn a_refused_codebook_ends_the_run() {
    let set = |at: usize, byte| {
        let mut book = books::a();
        book[at] = byte;
        book
    };
    let mut twice = books::a();
    twice.extend_from_within(70..134);
    let mut turned = twice.clone();
    turned[135..142].copy_from_slice(&symbols("1101001"));
    let books = [
        (books::a()[..133].to_vec(), 1),
        (set(0, 2), 2),
        (set(2, 2), 3),
        (set(5, 2), 4),
        (set(6, 1), 5),
        (set(69, 8), 6),
        (set(72, 0), 7),
        (twice, 8),
        (turned, 8),
    ];
    for (book, number) in books {
        let line = format!("R {number}\n");
        assert_eq!(printed(&input(&book, &EXAMPLE)), line);
        assert_eq!(printed(&input(&book, &["2000000", "1"])), line);
        assert_eq!(printed(&input(&book, &[])), line);
    }
}

#[test]
fn a_cut_last_word() {
    for length in 1..7 {
        for piece in ["1101000", "2222222"] {
            let words = [EXAMPLE[0], EXAMPLE[1], EXAMPLE[2], &piece[..length]];
            let lines = format!("{EXAMPLE_LINES}R 9\n");
            assert_eq!(printed(&input(&books::a(), &words)), lines);
        }
        assert_eq!(
            printed(&input(&books::a(), &[&EXAMPLE[0][..length]])),
            "R 9\n"
        );
    }
}

#[test]
fn bad_symbols_among_good_words() {
    let words = ["2000000", "1000000", "0000002", "9999999", "1100000"];
    let more = ["1101000", "0000003"];
    let lines = "\
R 11
M 1 1 00000000000000
R 11
R 11
M 1 1 01010001000000
C 0 0 01010001000000
R 11
";
    let words: Vec<&str> = words.into_iter().chain(more).collect();
    assert_eq!(printed(&input(&books::a(), &words)), lines);
}

#[test]
fn a_million_words_are_answered_and_no_more() {
    // Words of book B: Clean, with a bad symbol, Mended, Stalled, in turn.
    let words = ["111", "114", "311", "120"];
    let lines = [
        "C 0 0 010101\n",
        "R 11\n",
        "M 1 1 010101\n",
        "S 1 0 010200\n",
    ];
    let million = lines.concat().repeat(250_000);
    let start = input(&books::b(), &[]);
    let quarter = words.concat();
    for more in ["1", "114311120"] {
        let mut input = start.clone();
        input.extend(symbols(&quarter).repeat(250_000));
        input.extend(symbols(more));
        assert!(printed(&input) == million, "then {more}");
    }
    // One word less, and the piece after it is still read.
    let mut input = start;
    input.extend(symbols(&quarter).repeat(250_000));
    input.truncate(input.len() - 1);
    let cut = million.len() - lines[3].len();
    assert!(printed(&input) == format!("{}R 9\n", &million[..cut]));
}

/// Gives so many bytes at a time, fails once after `good` bytes, and would
/// give the rest if it were asked again.
struct Failing<'a> {
    bytes: &'a [u8],
    good: usize,
    step: usize,
    failed: Option<io::ErrorKind>,
}

impl Read for Failing<'_> {
    fn read(&mut self, buffer: &mut [u8]) -> io::Result<usize> {
        if self.good == 0 {
            if let Some(kind) = self.failed.take() {
                return Err(kind.into());
            }
            self.good = usize::MAX;
        }
        let count = self
            .step
            .min(self.good)
            .min(self.bytes.len())
            .min(buffer.len());
        buffer[..count].copy_from_slice(&self.bytes[..count]);
        self.bytes = &self.bytes[count..];
        self.good -= count;
        Ok(count)
    }
}

#[test]
fn a_failed_read_counts_as_the_end_of_input() {
    let whole = input(&books::a(), &EXAMPLE);
    let mut tried = 0;
    for kind in [io::ErrorKind::Other, io::ErrorKind::Interrupted] {
        for step in [1, 2, 7, 1000] {
            for good in 0..=whole.len() {
                let mut source = Failing {
                    bytes: &whole,
                    good,
                    step,
                    failed: Some(kind),
                };
                let mut output = Vec::new();
                run(&mut source, &mut output);
                let output = String::from_utf8(output).expect("text");
                assert_eq!(output, printed(&whole[..good]), "{good} bytes");
                tried += 1;
            }
        }
    }
    assert_eq!(tried, 2 * 4 * (whole.len() + 1));
}

#[test]
fn the_size_of_the_pieces_read_does_not_matter() {
    let whole = input(&books::a(), &EXAMPLE);
    for step in [1, 2, 3, 5, 64, 135, 136, 137, 1000] {
        let mut source = Failing {
            bytes: &whole,
            good: usize::MAX,
            step,
            failed: None,
        };
        let mut output = Vec::new();
        run(&mut source, &mut output);
        assert_eq!(output, EXAMPLE_LINES.as_bytes());
    }
}

/// Takes so many bytes and then fails.
struct Full(usize);

impl Write for Full {
    fn write(&mut self, bytes: &[u8]) -> io::Result<usize> {
        let count = bytes.len().min(self.0);
        self.0 -= count;
        match count {
            0 => Err(io::ErrorKind::StorageFull.into()),
            _ => Ok(count),
        }
    }

    fn flush(&mut self) -> io::Result<()> {
        Ok(())
    }
}

#[test]
fn a_failed_write_ends_the_run() {
    let start = input(&books::b(), &[]);
    let mut source = start.chain(io::repeat(1).take(3_000_000));
    let mut output = Full(100_000);
    run(&mut source, &mut output);
    assert_eq!(output.0, 0);
    let (_, unread) = source.into_inner();
    assert!(unread.limit() > 2_000_000);
}
