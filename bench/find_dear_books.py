"""find_dear_books.py: makes the books of bench/books whose dual words all have one signature and are not alike, so that condition 8 must compare
every two of them. Run once, as find_books.py; the files are kept.

Their generator is (x^n - 1) / (x - 1), whose dual words are all words with symbol sum 0. A signature is read off which symbols are equal, 1, 3, 7, 12
and 20 places apart: the library's, transcribed here. It is the same for every word with equal symbols in the same places; other words are
looked for until one signature has enough. Only the light book is as it comes.
"""
import random
from find_books import Field, normal, write

MARKS = (1, 29), (3, 71), (7, 167), (12, 202), (20, 86)


def signature(w):
    """The sum of the squares of the marks. Digits of all symbols stand in numbers, and so do digits of all marks."""
    n = len(w)
    mask = (1 << n) - 1
    digits = [sum((x >> i & 1) << j for j, x in enumerate(w)) for i in range(max(w).bit_length())]
    marks = [0] * 8
    for apart, mark in MARKS:
        unlike = 0
        for d in digits:
            unlike |= d ^ (d >> apart | d << (n - apart))
        for i in range(8):
            if mark >> i & 1:
                marks[i] ^= ~unlike & mask
    return sum((marks[i] & marks[j]).bit_count() << (i + j + (i < j)) for j in range(8) for i in range(j + 1)) % 65536


def one_signature(f, words, wanted=32):
    """So many words of one signature, no two alike."""
    found = {}
    for w in words:
        same = found.setdefault(signature(w), [])
        same.append(w)
        if len(same) >= wanted:
            classes = {tuple(normal(f, w)): w for w in same}
            if len(classes) == wanted:
                return list(classes.values())


def words_of_weight(f, n, rng, weight):
    """Any words of the weight, each with its square place by place, whose equal symbols stand in the same places."""
    while True:
        w = [0] * n
        for j in rng.sample(range(1, n), weight - 1):
            w[j] = rng.randrange(1, f.q)
        w[0] = 1
        yield w
        if f.q > 2:
            yield [f.mul[x][x] for x in w]


def nearly_level(f, n, rng, others):
    """Symbol 1 nearly everywhere, so that a word and the turns of another differ in few places."""
    rest = [x for x in range(f.q) if x != 1 and (x or f.q == 2)]
    while True:
        w = [1] * n
        for j in rng.sample(range(1, n), others):
            w[j] = rng.choice(rest)
        yield w


def every_symbol(f, n, rng):
    """Every nonzero symbol once: no two places are equal."""
    while True:
        w = list(range(2, f.q))
        rng.shuffle(w)
        yield [1] + w


def renamed(f, n, rng, weight, each):
    """One word whose nonzero symbols stand in `each` places, again and again with other symbols for them."""
    places = [0] + rng.sample(range(1, n), weight - 1)
    while True:
        names = [1] + rng.sample(range(2, f.q), weight // each - 1)
        w = [0] * n
        for i, j in enumerate(places):
            w[j] = names[i // each]
        yield w


def dual_words(words):
    """Those of symbol sum 0."""
    for w in words:
        total = 0
        for x in w:
            total ^= x
        if total == 0:
            yield w


def make(name, s, p, maker, *given):
    f, n, rng = Field(p), (1 << s) - 1, random.Random(name)
    words = one_signature(f, dual_words(maker(f, n, rng, *given)))
    write(name, s, p, [1] * n, 10, 4, words)
    print(name, "weight", n - words[0].count(0), "L", len(words), "signature", signature(words[0]))


if __name__ == "__main__":
    make("n63p1_equal", 6, 1, words_of_weight, 28)
    make("n63p2_equal", 6, 2, words_of_weight, 28)
    make("n63p6_equal", 6, 6, renamed, 48, 3)
    make("n63p1_dear", 6, 1, nearly_level, 3)
    make("n63p2_dear", 6, 2, nearly_level, 4)
    make("n63p6_dear", 6, 6, every_symbol)
    # words of weight 2, of which many share signatures without being looked for
    write("n63p1_light", 6, 1, [1] * 63, 10, 4, [[1] + [int(j == d) for j in range(1, 63)] for d in range(1, 32)])
    make("n127p1_dear", 7, 1, nearly_level, 3)
    make("n255p1_dear", 8, 1, nearly_level, 3)
    make("n255p2_dear", 8, 2, nearly_level, 4)
    make("n255p4_dear", 8, 4, renamed, 240, 16)
