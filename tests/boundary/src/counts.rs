//! Calls with M words: Ms that are refused, sizes that are right or not, and
//! the numbers that apply.

use reference::burst::MOST_WORDS;
use reference::codebook::Codebook;
use reference::generate::Random;

/// Ms that are refused. Some would pass with fewer digits: 8, 16, 24 or 31 of
/// M's, or 32 of those of n times M.
pub fn refused_counts(n: usize) -> [(u32, &'static str); 15] {
    let wraps = u32::MAX / n as u32 + 1;
    [
        (0, "0"),
        (17, "17"),
        (18, "18"),
        (255, "255"),
        (256, "256"),
        (256 + 3, "256 + 3"),
        (65_536 + 5, "65536 + 5"),
        ((1 << 24) + 16, "2^24 + 16"),
        (1 << 31, "2^31"),
        ((1 << 31) + 1, "2^31 + 1"),
        (wraps, "n M above 2^32"),
        (wraps + 1, "n M above 2^32 + n"),
        (wraps + 15, "n M above 2^32 + 15 n"),
        (u32::MAX - 1, "2^32 - 2"),
        (u32::MAX, "2^32 - 1"),
    ]
}

/// Any M, accepted or not, with what it is called.
pub fn any_count(n: usize, random: &mut Random) -> (u32, &'static str) {
    match random.below(4) {
        0 => *random.pick(&refused_counts(n)),
        _ => (random.between(1, MOST_WORDS as usize) as u32, "1 to 16"),
    }
}

/// Sizes by sort: the exact one, and others that it could be taken for.
pub type Sizes = Vec<(&'static str, usize)>;

/// Sizes for M of something: n symbols, k symbols, or a record.
pub fn sizes(each: usize, m: usize) -> Sizes {
    // Of 1 to 16, and not the next one.
    let another = (m + 4) % 16 + 1;
    let digits = [8, 16, 24, 31].map(|digits| each * (m % (1 << digits)));
    let mut sizes = vec![
        ("exact", each * m),
        ("one less", (each * m).wrapping_sub(1)),
        ("one more", each * m + 1),
        ("none", 0),
        ("one word", each),
        ("another M", each * another),
        ("fewer digits", each * m % (1 << 32)),
    ];
    sizes.extend(digits.map(|size| ("fewer digits", size)));
    sizes
}

/// The sorts that sizes of every M have.
pub const SORTS: [&str; 5] = ["one less", "one more", "none", "one word", "another M"];

/// Every size once, without those that are too large for any accepted call.
pub fn distinct(sizes: Sizes, most: usize) -> Sizes {
    let mut kept: Sizes = Vec::new();
    for (sort, size) in sizes {
        if size <= most && kept.iter().all(|(_, known)| *known != size) {
            kept.push((sort, size));
        }
    }
    kept
}

/// The numbers of 14, 9, 10 and 11 that apply to a call with M words, in this
/// order; whether the outputs are exact tells of 10.
pub fn apply(book: &Codebook, words: u32, received: &[u8], exact: bool) -> Vec<u8> {
    let m = words as usize;
    let rows = [
        (14, m == 0 || m > 16),
        (9, received.len() != book.n() * m),
        (10, !exact),
        (11, received.iter().any(|&symbol| symbol >= book.q())),
    ];
    let apply = rows.iter().filter(|(_, applies)| *applies);
    apply.map(|(number, _)| *number).collect()
}

/// Numbers as they are counted.
pub fn names(numbers: &[u8]) -> String {
    let names: Vec<String> = numbers.iter().map(u8::to_string).collect();
    match numbers {
        [] => "none".to_string(),
        _ => names.join(" "),
    }
}

/// The names of all sets of these numbers.
pub fn sets() -> impl Iterator<Item = String> {
    (0..16usize).map(|set| {
        let chosen = (0..4).filter(|at| set >> at & 1 == 1);
        names(&chosen.map(|at| [14, 9, 10, 11][at]).collect::<Vec<u8>>())
    })
}
