"""find_books.py: makes the books of bench/books. Run once; the files are kept, so that every bench has the same books.

A dual word is a multiple of h = (x^n - 1) / g. Words of one least weight are looked for by information sets (Lee and Brickell: combinations of one
or two rows of a reduced basis, over random column orders), each turned and scaled to have symbol 1 at place 0, and kept only if it is cyclically
different from the others, as S0 wants its dual words. D is a quarter of the distance that the roots of g promise, S0's choice.

At length 255 the light words of most codes are out of such a search's reach. The codes there are punctured generalised Reed-Muller codes, whose light
dual words are known: they stand on flats of the space that GF(2^s) is over GF(2^p). D is less than a quarter from length 127 on, where that would change
more places than are wrong, round after round: it is what mended most words of up to 30 errors in trials.
"""
import random, sys
from itertools import combinations, product

POLY = {1: 3, 2: 7, 3: 11, 4: 19, 5: 37, 6: 91, 7: 131, 8: 285} # 7 and 8 for roots only


class Field:
    def __init__(self, p):
        self.p, self.q = p, 1 << p
        self.mul = [[self.product(a, b) for b in range(self.q)] for a in range(self.q)]
        self.inv = [0] + [next(b for b in range(self.q) if self.mul[a][b] == 1) for a in range(1, self.q)]

    def product(self, a, b):
        if self.p == 1:
            return a & b
        r = 0
        for i in reversed(range(self.p)):
            r <<= 1
            if r >> self.p & 1:
                r ^= POLY[self.p]
            if b >> i & 1:
                r ^= a
        return r


def embedding(big, small):
    """Symbols of the small field as elements of the big one."""
    def value(digits, x):
        v = 0
        for k in reversed(range(small.p + 1)):
            v = big.mul[v][x] ^ (digits >> k & 1)
        return v
    if small.p == 1:
        return [0, 1]
    x = next(x for x in range(big.q) if value(POLY[small.p], x) == 0)
    return [value(a, x) for a in range(small.q)]


def powers(big):
    """The powers of x, which are all nonzero elements."""
    power = [1]
    while len(power) < big.q - 1:
        power.append(big.mul[power[-1]][2])
    assert len(set(power)) == big.q - 1
    return power


def generator(s, p, exponents):
    """The polynomial over GF(2^p) whose roots are the given powers of x, and their conjugates."""
    big, small, n = Field(s), Field(p), (1 << s) - 1
    roots = set()
    for e in exponents:
        while e % n not in roots:
            roots.add(e % n)
            e = e * small.q % n
    power, g = powers(big), [1]
    for e in roots:
        up, times = [0] + g, [big.mul[power[e]][c] for c in g] + [0]
        g = [a ^ b for a, b in zip(up, times)]
    back = {a: i for i, a in enumerate(embedding(big, small))}
    return [back[c] for c in g]


def quotient(f, n, g):
    """(x^n - 1) / g."""
    rest, d, out = [1] + [0] * (n - 1) + [1], len(g) - 1, [0] * (n - len(g) + 2)
    for i in reversed(range(len(out))):
        c = out[i] = rest[i + d]
        for t in range(d + 1):
            rest[i + t] ^= f.mul[c][g[t]]
    assert not any(rest)
    return out


def reduced(f, rows, order):
    """Row reduction with pivots taken in the given order of columns."""
    rows, done = [r[:] for r in rows], 0
    for c in order:
        at = next((i for i in range(done, len(rows)) if rows[i][c]), None)
        if at is None:
            continue
        rows[done], rows[at] = rows[at], rows[done]
        m = f.mul[f.inv[rows[done][c]]]
        rows[done] = [m[x] for x in rows[done]]
        for i in range(len(rows)):
            if i != done and rows[i][c]:
                m = f.mul[rows[i][c]]
                rows[i] = [a ^ m[b] for a, b in zip(rows[i], rows[done])]
        done += 1
        if done == len(rows):
            break
    return rows


def normal(f, w):
    """The least of a word's turns and multiples with symbol 1 at place 0: one for a whole class of cyclically equal words."""
    n = len(w)
    return min([f.mul[f.inv[w[t]]][x] for x in w[t:] + w[:t]] for t in range(n) if w[t])


def light_words(f, n, h, weight, wanted, rng):
    k = n + 1 - len(h)
    rows = [[0] * i + h + [0] * (n - len(h) - i) for i in range(k)]
    found, order = {}, list(range(n))
    while len(found) < wanted:
        rng.shuffle(order)
        rows = reduced(f, rows, order)
        if weight > n // 2 and f.q <= 4: # no search: any words
            tries = []
            for _ in range(100):
                total = [0] * n
                for r in rows:
                    m = f.mul[rng.randrange(f.q)]
                    total = [a ^ m[b] for a, b in zip(total, r)]
                tries.append(total)
        else:
            tries = rows if f.q > 4 else rows + [[a ^ f.mul[c][b] for a, b in zip(x, y)] for x, y in combinations(rows, 2) for c in range(1, f.q)]
        for w in tries:
            if n - w.count(0) == weight:
                found[tuple(normal(f, w))] = True
    return list(found)[:wanted]


def flat_word(f, big, symbols, log, dimension, zeros, rng):
    """A word that stands on a flat, a + c_1 b_1 + c_2 b_2 + .. for all symbols c: its symbol there is the product of c_1 - w, over so many w. A point is
    the place of its inverse's logarithm. None where the b are not independent, or where the symbol at the point zero, which is no place, is not 0."""
    n = big.q - 1
    a, b = rng.randrange(big.q), [rng.randrange(1, big.q) for _ in range(dimension)]
    roots, seen, w = rng.sample(range(f.q), zeros), set(), [0] * n
    for c in product(range(f.q), repeat=dimension):
        point, symbol = a, 1
        for ci, bi in zip(c, b):
            point ^= big.mul[symbols[ci]][bi]
        for root in roots:
            symbol = f.mul[symbol][c[0] ^ root]
        seen.add(point)
        if point:
            w[-log[point] % n] = symbol
        elif symbol:
            return None
    return w if len(seen) == f.q ** dimension else None


def flat_words(s, p, dimension, zeros, wanted, rng):
    """Such words, no two cyclically equal."""
    f, big = Field(p), Field(s)
    symbols, log, found = embedding(big, f), {x: e for e, x in enumerate(powers(big))}, {}
    while len(found) < wanted:
        w = flat_word(f, big, symbols, log, dimension, zeros, rng)
        if w:
            found[tuple(normal(f, w))] = True
    return list(found)


def write(name, s, p, g, rounds, places, words):
    width, kinds = (63, (2, 4)) if s <= 6 else (255, (5, 6))
    record = lambda kind, w: bytes([kind]) + bytes(w) + bytes(width - len(w))
    out = bytes([1, s, p]) + record(kinds[0], g) + bytes([3, rounds, places]) + b"".join(record(kinds[1], w) for w in words)
    open(sys.path[0] + "/books/" + name + ".book", "wb").write(out)


def are_dual(f, n, g, words):
    """Whether all products with g are zero."""
    for w in words:
        total = [0] * n
        for t, c in enumerate(g):
            for u in range(n):
                total[(u + t) % n] ^= f.mul[c][w[u]]
        if any(total):
            return False
    return True


def finish(name, s, p, g, rounds, places, words, rng):
    """Turns the words by chance, and writes the book."""
    f, n, turned = Field(p), (1 << s) - 1, []
    for w in words:
        t = rng.choice([t for t in range(n) if w[t]])
        turned.append([f.mul[f.inv[w[t]]][x] for x in w[t:] + w[:t]])
    assert are_dual(f, n, g, turned)
    write(name, s, p, g, rounds, places, turned)
    print(name, "n", n, "p", p, "k", n + 1 - len(g), "weight", n - turned[0].count(0), "L", len(turned), "I", rounds, "D", places)


def make(name, s, p, exponents, weight, rounds, places, wanted=32):
    f, n, rng = Field(p), (1 << s) - 1, random.Random(name)
    g = generator(s, p, exponents)
    finish(name, s, p, g, rounds, places, light_words(f, n, quotient(f, n, g), weight, wanted, rng), rng)


def make_on_flats(name, s, p, dimension, zeros, rounds, places, wanted=32):
    """The roots are the exponents whose digits by 2^p add up to no more than the degree of the words, as functions of the point."""
    q, m, rng = 1 << p, s // p, random.Random(name)
    degree = (m - dimension) * (q - 1) + zeros
    exponents = [e for e in range(1, (1 << s) - 1) if sum(e >> p * i & q - 1 for i in range(m)) <= degree]
    finish(name, s, p, generator(s, p, exponents), rounds, places, flat_words(s, p, dimension, zeros, wanted, rng), rng)


if __name__ == "__main__":
    write("a", 3, 1, [1, 1, 0, 1], 3, 1, [[1, 1, 1, 0, 1, 0, 0]])
    make("n15p4", 4, 4, range(1, 11), 6, 10, 2)        # RS code (15, 5, 11)
    make("n63p2", 6, 2, range(1, 21), 14, 10, 5)       # NB-BCH code (63, 27, 21)
    make("n63p6", 6, 6, range(1, 17), 48, 10, 4)       # RS code (63, 47, 17)
    make("n63p1", 6, 1, range(1, 15), 8, 10, 3)        # BCH code (63, 24, 15)
    make("n15p1", 4, 1, range(1, 7), 8, 10, 1, 8)      # BCH code (15, 5, 7), and the next, for growth in n
    make("n31p1", 5, 1, range(1, 7), 8, 10, 1, 8)      # BCH code (31, 16, 7)
    for weight in (20, 28, 44):                    # heavier dual words of one code, for growth in the weight
        make("n63p2w%d" % weight, 6, 2, range(1, 21), weight, 10, 5)
    make("n127p1", 7, 1, range(1, 31), 12, 10, 2)      # BCH code (127, 36, 31)
    make_on_flats("n255p1", 8, 1, 4, 0, 10, 2)         # punctured Reed-Muller code (255, 93, 31)
    make_on_flats("n255p2", 8, 2, 2, 1, 10, 5)         # generalised, (255, 66, 47)
    make_on_flats("n255p4", 8, 4, 1, 2, 10, 12)        # generalised, (255, 91, 63)
    make_on_flats("n127p1w8", 7, 1, 3, 0, 10, 2, 8)    # punctured Reed-Muller code (127, 29, 31), and the next, for growth in n
    make_on_flats("n255p1w8", 8, 1, 3, 0, 10, 2, 8)    # (255, 37, 63)
