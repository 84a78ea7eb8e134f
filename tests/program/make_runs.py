#!/usr/bin/env python3
"""Writes runs/NAME/stdin of every stored run. What the program must print, runs/NAME/stdout, is not made: it was found by hand from the scope."""

import pathlib


def word(digits, n=None):
    """Symbols as the scope writes them, a digit each."""
    symbols = bytes(int(digit) for digit in digits)
    return symbols.ljust(n or len(symbols), b"\0")


def book(s, p, g, i, d, dual_words):
    """Of the long form where s is 7 or 8."""
    width, kinds = (255, b"\5\6") if s in (7, 8) else (63, b"\2\4")
    records = bytes([1, s, p]) + kinds[:1] + g.ljust(width, b"\0") + bytes([3, i, d])
    for dual_word in dual_words:
        records += kinds[1:] + dual_word.ljust(width, b"\0")
    return records


def a(g="1101", i=3, d=1, dual_words=("1110100",), s=3, p=1):
    return book(s, p, word(g), i, d, [word(b) for b in dual_words])


def b():
    return book(2, 2, word("111"), 3, 1, [word("110")])


def c(d=2):
    return book(2, 2, word("21"), 3, d, [word("132")])


def with_byte(bytes_, at, byte):
    return bytes_[:at] + bytes([byte]) + bytes_[at + 1 :]


def length(count):
    return count.to_bytes(2, "little")


def stdin(book_, *words):
    """The length field, the codebook and the words."""
    return length(len(book_)) + book_ + b"".join(word(w) if isinstance(w, str) else w for w in words)


EXAMPLE = ("1000000", "1100000", "1101000")

# One symbol in all places, 63 of them: g is 1 + x + .. + x^62. The dual words have 1 at place 0 and at one of the places 1 to 31; with a place from
# 32 on they would be the same ones, turned.
TWO_63 = [bytes([1] + [0] * (place - 1) + [1]) for place in range(1, 32)]

# 32 dual words, with 1 at the places 0, 1 and 2 and at one of the places 3 to 34. The fourth is at another distance from the other three each time,
# so that none is another one turned.
FOUR_63 = [bytes([1, 1, 1] + [0] * (place - 3) + [1]) for place in range(3, 35)]


# The same for words of 127 and of 255 symbols: 32 dual words, with 1 at place 0 and at one of the places 1 to 32.
TWO_LONG = [bytes([1] + [0] * (place - 1) + [1]) for place in range(1, 33)]


def one_symbol_63(p, dual_words=TWO_63):
    return book(6, p, bytes([1] * 63), 3, 1, dual_words)


def one_symbol_long(s, p, dual_words=TWO_LONG):
    return book(s, p, bytes([1] * (2**s - 1)), 3, 1, dual_words)


def all_changed(s, p, place, error):
    """g is 1 + x, and the dual word has 1 at all places: every check value is the sum of all symbols, and all places are changed by it."""
    n = 2**s - 1
    return stdin(book(s, p, word("11"), 3, n, [b"\1" * n]), wrong(0x00, place, error, n), bytes(n))


def wrong(symbol, place, error, n=63):
    """n times the symbol, with an error at one place."""
    return with_byte(bytes([symbol] * n), place, symbol ^ error)


def words_long(n, symbol, error, q):
    """A code word, two with an error, one with a bad symbol, and one cut short."""
    bad = with_byte(bytes([symbol] * n), n - 1, q)
    return (bytes([symbol] * n), wrong(symbol, 5, error, n), wrong(0, n - 1, error, n), bad, bytes([symbol] * (n - 1)))


RECORD_A = a()[70:134]

# A code word, two with an error, one with a bad symbol, and one cut short.
WORDS_63 = (b"\x3f" * 63, wrong(0x3F, 5, 0x15), wrong(0x00, 62, 0x2A), wrong(0x10, 62, 0x40 ^ 0x10), b"\x0a" * 62)

RUNS = {
    # The scope's example, and its cases that are decodes.
    "example": stdin(a(), *EXAMPLE),
    "case_8_d_6": stdin(a(d=6), "1000000"),
    "case_9_spent": stdin(a(d=7), "1000000", "1101000"),
    "cases_10_to_12": stdin(b(), "311", "120", "132"),
    "case_13": stdin(c(), "100"),
    "case_14_three_changed": stdin(c(d=3), "100"),
    # All four kinds with one codebook: one symbol in all 7 places over GF(8).
    "every_kind": stdin(book(3, 3, word("1111111"), 3, 4, [word("11")]), "5555555", "7667777", "0100230", "0001000"),
    "rounds_of_two_digits": stdin(a(i=63, d=7), "1000000"),
    "no_words": stdin(a()),
    # The refusals of a codebook, by the scope's examples. What follows a refused one is not answered.
    "refusal_1": stdin(a()[:133], *EXAMPLE),
    "refusal_2": stdin(with_byte(a(), 0, 2), *EXAMPLE),
    "refusal_3": stdin(a(p=2), *EXAMPLE),
    "refusal_4": stdin(a(g="1201"), *EXAMPLE),
    "refusal_5": stdin(a(g="101"), *EXAMPLE),
    "refusal_6": stdin(a(d=8), *EXAMPLE),
    "refusal_7": stdin(a(dual_words=["1101000"]), *EXAMPLE),
    "refusal_8": stdin(a(dual_words=["1110100"] * 2), *EXAMPLE),
    "refusal_8_turned": stdin(a(dual_words=["1110100", "1101001"]), *EXAMPLE),
    "refusal_8_turned_and_scaled": stdin(book(2, 2, word("231"), 3, 1, [word("120"), word("103")]), "120", "111"),
    "refusals_3_6_and_8": stdin(a(p=2, d=8, dual_words=["1110100"] * 2), *EXAMPLE),
    "refusals_6_and_8": stdin(a(d=8, dual_words=["1110100"] * 2), *EXAMPLE),
    "refusal_8_no_words": stdin(a(dual_words=["1110100"] * 2)),
    "refusal_2_cut_word": stdin(with_byte(a(), 67, 4), "1"),
    # The length field.
    "empty": b"",
    "length_of_one_byte": length(134)[:1],
    "length_alone": length(134),
    "length_0": length(0) + a() + word(EXAMPLE[0]),
    "length_0_alone": length(0),
    "length_70": stdin(a()[:70], *EXAMPLE),
    "length_135": stdin(a() + b"\0", *EXAMPLE),
    "length_high_first": length(134)[::-1] + a() + word(EXAMPLE[0]),
    "length_2118": stdin(a()[:70] + RECORD_A * 32, *EXAMPLE),
    "length_2119": stdin(a()[:70] + RECORD_A * 32 + b"\0", *EXAMPLE),
    "length_2182": stdin(a()[:70] + RECORD_A * 33, *EXAMPLE),
    "length_2182_of_134_too": length(2182) + a() + word(EXAMPLE[0]),
    "length_65535": stdin(a() + bytes(65535 - 134), *EXAMPLE),
    # A codebook cut short, a wrong one too.
    "cut_book_133": length(134) + a()[:133],
    "cut_book_1": length(134) + a()[:1],
    "cut_book_of_a_right_length": length(198) + a() + word(EXAMPLE[0]),
    "cut_book_of_a_right_length_alone": length(198) + a(),
    "cut_book_wrong_kind": length(134) + with_byte(a(), 0, 2)[:100],
    # Words cut short.
    "cut_word_1": stdin(a(), *EXAMPLE, "1"),
    "cut_word_6": stdin(a(), *EXAMPLE, "110100"),
    "cut_first_word": stdin(a(), "110100"),
    "cut_word_bad_symbol": stdin(a(), "1101000", "222"),
    # Bad symbols.
    "bad_symbols": stdin(a(), "2000000", "1000000", "0000002", "9999999", "1100000", "1101000", b"\xff" * 7, "0001000"),
    "bad_symbol_then_cut_word": stdin(a(), "1101000", "0200000", "110"),
    # Words of 63 symbols, and a codebook of 2118 bytes.
    "n_63_p_6": stdin(one_symbol_63(6), *WORDS_63),
    "n_63_32_dual_words": stdin(one_symbol_63(6, FOUR_63), *WORDS_63),
    "n_63_p_1": stdin(one_symbol_63(1), b"\1" * 63, wrong(1, 0, 1), wrong(0, 31, 1), wrong(0, 62, 2), b"\1"),
    "n_63_all_changed": all_changed(6, 6, 17, 0x2A),
    # Words of 127 and of 255 symbols, and codebooks of 8454 bytes.
    "n_127": stdin(one_symbol_long(7, 1), *words_long(127, 1, 1, 2)),
    "n_255_p_1": stdin(one_symbol_long(8, 1), *words_long(255, 1, 1, 2)),
    "n_255_p_2": stdin(one_symbol_long(8, 2), *words_long(255, 3, 2, 4)),
    "n_255_p_4": stdin(one_symbol_long(8, 4), *words_long(255, 13, 6, 16)),
    "n_127_all_changed": all_changed(7, 1, 17, 1),
    "n_255_all_changed": all_changed(8, 4, 254, 0xD),
    # The form is chosen by byte 3: 518 bytes are of both forms, 134 and 2310 of one.
    "form_short_518": stdin(one_symbol_63(6, TWO_63[:7]), *WORDS_63),
    "form_long_518": stdin(one_symbol_long(8, 4, TWO_LONG[:1]), bytes([9] * 255), bytes(254)),
    "form_short_518_byte_3_5": stdin(with_byte(one_symbol_63(6, TWO_63[:7]), 3, 5), *WORDS_63),
    "form_long_518_byte_3_2": stdin(with_byte(one_symbol_long(8, 4, TWO_LONG[:1]), 3, 2), bytes(255)),
    "form_134_byte_3_5": stdin(with_byte(a(), 3, 5), *EXAMPLE),
    "form_134_byte_3_9": stdin(with_byte(a(), 3, 9), *EXAMPLE),
    "form_133_byte_3_9": stdin(with_byte(a(), 3, 9)[:133], *EXAMPLE),
    "form_2310": stdin(one_symbol_long(8, 1, TWO_LONG[:8]), bytes(255)),
    "form_2310_byte_3_9": stdin(with_byte(one_symbol_long(8, 1, TWO_LONG[:8]), 3, 9), bytes(255)),
    "form_2310_byte_3_2": stdin(with_byte(one_symbol_long(8, 1, TWO_LONG[:8]), 3, 2), bytes(255)),
    "form_3_bytes": stdin(a()[:3], *EXAMPLE),
    "length_8453": stdin(one_symbol_long(8, 1)[:8453], bytes(255)),
    "length_8455": stdin(one_symbol_long(8, 1) + b"\0", bytes(255)),
    "length_8710": stdin(one_symbol_long(8, 1, TWO_LONG + [TWO_LONG[0]]), bytes(255)),
    "length_8454_of_8453_too": length(8454) + one_symbol_long(8, 1)[:8453],
    # What a codebook of the long form is refused by.
    "long_refusal_2": stdin(with_byte(one_symbol_long(7, 1), 262, 4), bytes(127)),
    "long_refusal_3_s_6": stdin(with_byte(one_symbol_long(7, 1), 1, 6), bytes(127)),
    "long_refusal_3_s_7_p_4": stdin(with_byte(one_symbol_long(7, 1), 2, 4), bytes(127)),
    "long_refusal_3_s_8_p_3": stdin(with_byte(one_symbol_long(8, 1), 2, 3), bytes(255)),
    "long_refusal_4_place_127": stdin(with_byte(one_symbol_long(7, 1), 263 + 127, 1), bytes(127)),
    "long_refusal_4_place_254": stdin(with_byte(one_symbol_long(7, 1), 4 + 254, 1), bytes(127)),
    "long_refusal_5": stdin(with_byte(one_symbol_long(7, 1), 4 + 126, 0), bytes(127)),
    "long_refusal_6": stdin(with_byte(one_symbol_long(7, 1), 261, 128), bytes(127)),
    "long_refusal_7": stdin(with_byte(one_symbol_long(7, 1), 263 + 126, 1), bytes(127)),
    "long_refusal_8": stdin(one_symbol_long(8, 4, [TWO_LONG[0]] * 32), bytes(255)),
    "short_refusal_3_s_7": stdin(with_byte(a(), 1, 7), *EXAMPLE),
    "short_refusal_3_s_8": stdin(with_byte(a(), 1, 8), *EXAMPLE),
}

for name, data in RUNS.items():
    folder = pathlib.Path(__file__).parent / "runs" / name
    folder.mkdir(parents=True, exist_ok=True)
    (folder / "stdin").write_bytes(data)
