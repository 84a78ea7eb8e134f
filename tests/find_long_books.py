#!/usr/bin/env python3
"""find_long_books.py: makes the codebooks of tests/books, of n 127 and 255. Run once; the files are kept, so that every test has the same books.

The places of a word are the powers z^j of a root z of GF(2^s), taken as the points other than 0 of a space over GF(2), GF(4) or GF(16). A dual word
marks the points of a flat that misses 0: flats of one dimension have one weight, and those through a point meet in few others, which is what makes
the check values at a place tell the error there. `twist` multiplies place j by the power b^j of a symbol, which makes words of more symbols than 0
and 1 and is no turn. `values` has the values of a polynomial without a root, so that no place is zero.

The generator is the product of the minimal polynomials of those powers of z at which some dual word is not zero: the code is the largest that these
dual words allow. No two of them are alike (a symbol times a turn).
"""
import pathlib
import random
from itertools import product as tuples

POLYNOMIAL = {1: 3, 2: 7, 4: 19, 7: 131, 8: 285}


class Field:
    """GF(2^p), of symbols or of the points."""

    def __init__(self, p):
        self.p, self.q = p, 1 << p
        self.power = [1]
        while len(self.power) < self.q - 1:
            up = self.power[-1] << 1
            self.power.append(up ^ (POLYNOMIAL[p] if up >> p else 0))
        self.log = {a: i for i, a in enumerate(self.power)}

    def times(self, a, b):
        return self.power[(self.log[a] + self.log[b]) % (self.q - 1)] if a and b else 0

    def inverse(self, a):
        return self.power[-self.log[a] % (self.q - 1)]

    def value(self, coefficients, x):
        v = 0
        for c in reversed(coefficients):
            v = self.times(v, x) ^ c
        return v


def images(points, symbols):
    """The symbols as elements of the points' field."""
    digits = [POLYNOMIAL[symbols.p] >> i & 1 for i in range(symbols.p + 1)]
    x = 0 if symbols.p == 1 else next(x for x in points.power if points.value(digits, x) == 0)
    return [points.value([a >> i & 1 for i in range(symbols.p)], x) for a in range(symbols.q)]


def generator(points, symbols, words):
    """The least polynomial whose product with every word is zero modulo x^n - 1."""
    image = images(points, symbols)
    elements = [[image[a] for a in word] for word in words]
    g = [1]
    for z in points.power:
        if any(points.value(word, z) for word in elements):
            g = [a ^ points.times(z, b) for a, b in zip([0] + g, g + [0])]
    return [image.index(c) for c in g]


def span(points, scalars, directions):
    """All sums of the directions, each times any of the scalars."""
    sums = [0]
    for d in directions:
        sums = [a ^ points.times(t, d) for a in sums for t in scalars]
    return sums


def flat(points, scalars, directions):
    """The flat through 1 in these directions as a word; none where it has 0 in it, or fewer points than it should."""
    places = {1 ^ a for a in span(points, scalars, directions)}
    if 0 in places or len(places) < len(scalars) ** len(directions):
        return None
    return [int(x in places) for x in points.power]


def normal(field, word):
    """The least of a word's turns and multiples with symbol 1 at place 0: one for all words that are alike."""
    places = [j for j, a in enumerate(word) if a]
    return min([field.times(field.inverse(word[j]), a) for a in word[j:] + word[:j]] for j in places)


def unlike(field, words, most):
    """At most so many of the words, no two alike."""
    found = {}
    for word in words:
        if len(found) == most:
            break
        if word:
            found.setdefault(tuple(normal(field, word)), word)
    return list(found.values())


def twist(field, word, b):
    return [field.times(a, field.power[b * j % (field.q - 1)]) for j, a in enumerate(word)]


def values(field, n, coefficients):
    """The values at the powers of symbol 2, which come again and again, divided by the first; none where one is zero."""
    row = [field.value(coefficients, x) for x in field.power]
    if 0 in row:
        return None
    return [field.times(field.inverse(row[0]), row[j % len(row)]) for j in range(n)]


def write(name, s, p, words, rounds, places):
    points, symbols = Field(s), Field(p)
    g = generator(points, symbols, words)
    assert all(word[0] == 1 for word in words) and len({word.count(0) for word in words}) == 1
    body = lambda word: bytes(word).ljust(255, b"\0")
    book = bytes([1, s, p, 5]) + body(g) + bytes([3, rounds, places]) + b"".join(b"\6" + body(word) for word in words)
    (pathlib.Path(__file__).parent / "books" / (name + ".book")).write_bytes(book)
    print(name, "n", len(words[0]), "p", p, "k", len(words[0]) + 1 - len(g), "weight", sum(a != 0 for a in words[0]), "L", len(words))


def binary_flats(s, dimension, most, seed):
    """Flats over GF(2) in directions that are drawn."""
    points, rng = Field(s), random.Random(seed)
    drawn = (flat(points, [0, 1], rng.sample(points.power, dimension)) for _ in range(50 * most))
    return unlike(Field(1), drawn, most)


def lines(p):
    """A line over GF(2^p) of each class, in the plane or space that GF(256) is."""
    points = Field(8)
    scalars = images(points, Field(p))
    return unlike(Field(1), [flat(points, scalars, [d]) for d in points.power], 32)


if __name__ == "__main__":
    two, four, sixteen = Field(1), Field(2), Field(4)
    write("n127p1", 7, 1, binary_flats(7, 3, 32, 127), 20, 3)
    write("n127p1_high", 7, 1, binary_flats(7, 4, 6, 128), 20, 4)
    write("n255p1", 8, 1, lines(4), 12, 8)
    write("n255p1_lines", 8, 1, lines(2), 20, 24)
    write("n255p2", 8, 2, [twist(four, line, 1) for line in lines(2)], 20, 24)
    write("n255p2_two", 8, 2, [twist(four, line, b) for line in lines(4) for b in (0, 1)], 12, 8)
    write("n255p4", 8, 4, [twist(sixteen, line, b) for line in lines(4) for b in (1, 2, 7)], 12, 8)
    cubics = tuples(range(1, 16), range(16), range(16), [1])
    write("n255p4_whole", 8, 4, unlike(sixteen, (values(sixteen, 255, c) for c in cubics), 32), 3, 4)
