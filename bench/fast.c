/*
 * The best portable C for the scope's answers. Vectors are the compilers' own (vector_size), so that one source serves every target of little end; no
 * intrinsic. It is compiled for three rooms, the places that a word is padded to: 64 for short books, 128 for n 127 and 256 for n 255.
 *
 * The book is checked in each call, as the C boundary does. What makes it fast:
 *   - a word's multiples by every symbol stand in rows, each row twice in a run, so that a product with a dual word is a sum of rows at offsets;
 *   - for p 1 and 2 a digit of 64 symbols is one number, and a tree of full adders counts all columns at once; a row of several numbers stands there
 *     moved by 0 to 7 places, so that a turn of it is an offset of bytes;
 *   - for p 3 to 5, the marks "a dual word's product is exp e at m" stand in rows, in the order of e and twice, so that dividing by the symbol at h
 *     and turning by h are one offset, and counting is a sum of rows of bytes;
 *   - for p 6 the counts are scattered instead, dividing again being an offset of rows in the order of logarithms;
 *   - "g divides" is asked of k or n - k places of one product, not by division;
 *   - a code word is read by the same product, which is with h = (x^n - 1) / g: its first k places, nothing turned round, are the message;
 *   - a remainder is left by a shift register whose cells stand in p numbers, a digit each;
 *   - a message is coded by products of numbers, a digit of all symbols in each, for p 1 and 2 in short books, and else as a sum of multiples of g at
 *     offsets;
 *   - dual words of p at most 3 are checked several to a byte;
 *   - dual words that are alike have one signature; those that share one are brought to a normal form, once each.
 */
#include "fast.h"

#include "literal.h"

#include <string.h>

#ifdef __AVX2__
#define VB 32
#else
#define VB 16
#endif
typedef uint8_t Vec __attribute__((vector_size(VB)));
typedef uint8_t Loose __attribute__((vector_size(VB), aligned(1), may_alias));
typedef int16_t Wide __attribute__((vector_size(VB), may_alias));
typedef uint16_t Half __attribute__((vector_size(VB), may_alias));
typedef uint64_t Quad __attribute__((vector_size(VB), may_alias));

#define SIZED(b) FAST_SIZED(ROOM, b)
#define INLINE static inline __attribute__((always_inline))
#define ALIGNED __attribute__((aligned(64)))

/* A record has a body and its kind byte. A word is so many limbs of 64 places; a chunk is the vectors of a limb. */
enum { LIMBS = ROOM / 64, CHUNK = 64 / VB, WORD = ROOM / VB, ROW = 2 * ROOM, RECORD = LIMBS == 1 ? 64 : 256, SYMBOLS = LIMBS == 1 ? 64 : 16 };
enum { AT_G = 4, AT_MOST = AT_G + RECORD, AT_DUALS = AT_MOST + 2, G_KIND = LIMBS == 1 ? 2 : 5, DUAL_KIND = LIMBS == 1 ? 4 : 6 };
enum { SCATTER = LIMBS == 1 ? 192 * 64 : 1, MARKS = 32256, PLANES = LIMBS == 1 ? 12 : 13, STREAM = 32 * ROOM, BATCH = LIMBS == 1 ? 1 : 8 };
enum { STEP = LIMBS < VB / 8 ? VB / 8 : LIMBS }; /* numbers from an input of the adders to the next */

static const uint8_t polynomials[7] = {0, 3, 7, 11, 19, 37, 91};

/* A term of a dual word: its offset into the word's multiples, and into the marks of its batch. */
typedef struct {
    uint16_t sum_at, count_at;
} Term;

typedef struct {
    int p, q, n, k, d, duals, weight, rounds, places, vecs, terms, width, batch;
    const uint8_t *book;
    uint16_t test_at[ROOM];        /* the terms of h = (x^n - 1) / g, as offsets into the word's multiples */
    Term lists[32 * ROOM];         /* the dual words' terms, one after the other */
    uint8_t exps[64];
    uint16_t rows[64];             /* where the scattered rows start, by symbol */
    uint8_t multiples[SYMBOLS * ROW] ALIGNED; /* row c: c times the word, twice; or c times g */
    uint8_t marks[MARKS] ALIGNED;
    int16_t counts[SYMBOLS * ROOM] ALIGNED; /* row e: the entries of symbol exp e */
    uint16_t scatter[SCATTER] ALIGNED;
    uint8_t h[ROOM]; /* (x^n - 1) / g */
    uint64_t turns[LIMBS == 1 ? 256 : 3 * ROW / 8], stream[2][STREAM * LIMBS] ALIGNED; /* for p 1 and 2 */
    uint64_t products[BATCH][3 * ROW / 8]; /* for p 1 and 2 where there are several limbs; where there is one, a word's product with h */
    uint64_t steps[SYMBOLS][6][LIMBS]; /* for p 4 to 6: what a step of the shift register subtracts, by the symbol that falls out */
} Fast;

INLINE Vec get(const void *at)
{
    return *(const Loose *)at;
}

INLINE void put(void *at, Vec x)
{
    *(Loose *)at = x;
}

INLINE Vec all(uint8_t x)
{
    return (Vec){0} + x;
}

INLINE uint64_t load64(const uint8_t *at)
{
    uint64_t x;
    memcpy(&x, at, 8);
    return x;
}

INLINE int any(Vec x)
{
    Quad y = (Quad)x;
    uint64_t z = y[0] | y[1];
#if VB == 32
    z |= y[2] | y[3];
#endif
    return z != 0;
}

/* The sum of the bytes, below 256. */
INLINE unsigned byte_sum(Vec x)
{
    Quad y = (Quad)x;
    uint64_t z = y[0] + y[1];
#if VB == 32
    z += y[2] + y[3];
#endif
    return (unsigned)(z * 0x0101010101010101u >> 56);
}

INLINE unsigned wide_sum(Wide x)
{
    Quad y = (Quad)x;
    uint64_t z = y[0] + y[1];
#if VB == 32
    z += y[2] + y[3];
#endif
    return (unsigned)(z * 0x0001000100010001u >> 48);
}

/* The sum modulo 65536. */
INLINE uint16_t half_sum(Half x)
{
    Quad y = ((Quad)x & 0x0000ffff0000ffffu) + ((Quad)x >> 16 & 0x0000ffff0000ffffu);
    uint64_t z = y[0] + y[1];
#if VB == 32
    z += y[2] + y[3];
#endif
    return (uint16_t)(z + (z >> 32));
}

/* Bytes below q, times x. */
INLINE Vec times_x(Vec a, int q, int polynomial)
{
    Vec up = a + a;
    Vec over = (Vec)((up & all((uint8_t)q)) != (Vec){0});
    return up ^ (over & all((uint8_t)polynomial));
}

/* Rows 2 to q - 1 from row 1, `vecs` vectors wide. */
INLINE void multiply(uint8_t *rows, int q, int polynomial, int vecs)
{
    for (int c = 2; c < q; c++) {
        int low = c & -c;
        uint8_t *to = rows + c * ROW;
        const uint8_t *from = rows + (low == c ? c / 2 : c - low) * ROW, *other = rows + low * ROW;
        if (low == c)
            for (int v = 0; v < vecs; v++)
                put(to + v * VB, times_x(get(from + v * VB), q, polynomial));
        else
            for (int v = 0; v < vecs; v++)
                put(to + v * VB, get(from + v * VB) ^ get(other + v * VB));
    }
}

/* Digit k of 64 symbols, as the bits of a number. */
INLINE uint64_t plane(const uint8_t *word, int k)
{
    uint64_t bits = 0;
    for (int i = 0; i < 8; i++) {
        uint64_t x = load64(word + 8 * i) >> k & 0x0101010101010101u;
        bits |= (x * 0x0102040810204080u >> 56) << (8 * i);
    }
    return bits;
}

/* Every digit of the first `length` places, the last of them at the top. */
INLINE void top_planes(const int p, const uint8_t *word, int length, uint64_t (*out)[LIMBS])
{
    uint8_t moved[2 * ROOM];
    const uint8_t *from = word;
    if (LIMBS > 1) { /* the places move as bytes */
        memset(moved, 0, ROOM);
        memcpy(moved + ROOM - length, word, ROOM);
        from = moved;
    }
    for (int a = 0; a < p; a++)
        for (int i = 0; i < LIMBS; i++)
            out[a][i] = plane(from + 64 * i, a) << (LIMBS > 1 ? 0 : 64 - length);
}

/* What a step of the shift register subtracts: multiples of g less its leading coefficient. Up to p 3 only those by powers of x, of which the others
 * are sums. */
INLINE void register_rows(const int p, const uint8_t *g, int d, uint64_t (*rows)[6][LIMBS])
{
    memset(rows[0], 0, sizeof rows[0][0] * (size_t)p);
    top_planes(p, g, d, rows[1]);
    for (int c = 2; c < 1 << p; c++) {
        int low = c & -c;
        if (low != c && p <= 3)
            continue;
        for (int i = 0; i < p; i++)
            for (int z = 0; z < LIMBS; z++)
                rows[c][i][z] = low != c ? rows[c - low][i][z] ^ rows[low][i][z]
                                         : (i ? rows[c / 2][i - 1][z] : 0) ^ (polynomials[p] >> i & 1 ? rows[c / 2][p - 1][z] : 0);
    }
}

/* A step of the shift register, p numbers whose top bits are the next coefficient of the quotient: that coefficient. */
INLINE uint64_t register_step(const int p, uint64_t (*rows)[6][LIMBS], uint64_t (*state)[LIMBS])
{
    const int table = p > 3;
    uint64_t c = 0, add[6][LIMBS] = {{0}};
    for (int a = 0; a < p; a++) {
        c |= (state[a][LIMBS - 1] >> 63) << a;
        for (int b = 0; b < p && !table; b++)
            for (int i = 0; i < LIMBS; i++)
                add[b][i] ^= rows[1 << a][b][i] & (uint64_t)((int64_t)state[a][LIMBS - 1] >> 63);
    }
    for (int a = 0; a < p; a++)
        for (int i = LIMBS - 1; i >= 0; i--)
            state[a][i] = (state[a][i] << 1 | (i ? state[a][i - 1] >> 63 : 0)) ^ (table ? rows[c][a][i] : add[a][i]);
    return c;
}

/* h = (x^n - 1) / g. Says whether nothing is left. */
INLINE int quotient_by(const int p, const uint8_t *g, int d, int k, uint8_t *h, uint64_t (*rows)[6][LIMBS])
{
    uint64_t state[6][LIMBS] = {{0}}, left = 0;
    register_rows(p, g, d, rows);
    state[0][LIMBS - 1] = (uint64_t)1 << 63;
    for (int i = k; i >= 0; i--)
        h[i] = (uint8_t)register_step(p, rows, state);
    for (int i = 0; i < LIMBS; i++)
        state[0][i] ^= LIMBS == 1 || i == (ROOM - d) / 64 ? (uint64_t)1 << (ROOM - d) % 64 : 0;
    for (int a = 0; a < p; a++)
        for (int i = 0; i < LIMBS; i++)
            left |= state[a][i];
    return left == 0;
}

static int quotient(Fast *f, const uint8_t *g, uint8_t *h)
{
    uint64_t few[8][6][LIMBS];
    switch (f->p) {
    case 1: return quotient_by(1, g, f->d, f->k, h, few);
    case 2: return quotient_by(2, g, f->d, f->k, h, few);
    case 4: return quotient_by(4, g, f->d, f->k, h, f->steps);
#if ROOM == 64
    case 3: return quotient_by(3, g, f->d, f->k, h, few);
    case 5: return quotient_by(5, g, f->d, f->k, h, f->steps);
    case 6: return quotient_by(6, g, f->d, f->k, h, f->steps);
#endif
    default: return 0;
    }
}

/* The sum of rows at offsets, of `vecs` vectors, a chunk at most. */
INLINE void sum_rows(const uint8_t *rows, const uint16_t *at, int count, const int vecs, Vec *sum)
{
    Vec s[CHUNK] = {0};
    for (int i = 0; i < count; i++)
        for (int v = 0; v < vecs; v++)
            s[v] ^= get(rows + at[i] + v * VB);
    for (int v = 0; v < vecs; v++)
        sum[v] = s[v];
}

/* Whether the first `places` bytes are zero. */
INLINE int zero_below(const Vec *x, int places, const int vecs)
{
    static const uint8_t ends[2 * VB] = {[0 ... VB - 1] = 255};
    Vec left = {0};
    for (int v = 0; v + 1 < vecs; v++)
        left |= x[v];
    left |= x[vecs - 1] & get(ends + vecs * VB - places);
    return !any(left);
}

/* Twice a vector of packed symbols, p 2 or 3; both polynomials end in x + 1. */
INLINE Vec packed_times_x(Vec a, const int p)
{
    const uint8_t ones = p == 2 ? 0x55 : 0x09;
    Vec top = (Vec)((Quad)a >> (p - 1)) & all(ones), rest = a & all((uint8_t)~(ones << (p - 1)));
    return (rest + rest) ^ top ^ (top + top);
}

/* Rows of the multiples of the dual words from l on, several to a byte. */
INLINE void pack_rows(const Fast *f, int l, const int p, uint8_t *rows)
{
    const int most = 8 / p;
    int words = f->duals - l < most ? f->duals - l : most;
    for (int v = 0; v < WORD; v++) {
        Vec x = {0}, keep = ~(Vec){v == 0 ? 255 : 0}; /* all but the kind byte */
        for (int i = 0; i < words; i++)
            x |= (Vec)((Quad)(get(f->book + AT_DUALS + RECORD * (l + i) + v * VB) & keep) << (p * i));
        put(rows + ROW + v * VB, x);
        if (p > 1) {
            Vec x2 = packed_times_x(x, p);
            put(rows + 2 * ROW + v * VB, x2);
            put(rows + 3 * ROW + v * VB, x ^ x2);
            if (p > 2) {
                Vec x4 = packed_times_x(x2, p);
                put(rows + 4 * ROW + v * VB, x4);
                put(rows + 5 * ROW + v * VB, x ^ x4);
                put(rows + 6 * ROW + v * VB, x2 ^ x4);
                put(rows + 7 * ROW + v * VB, x ^ x2 ^ x4);
            }
        }
    }
}

/* Products with g of dual words packed several to a byte, p at most 3: the places from d to n - 1, which decide. */
INLINE int packed_products(const Fast *f, const uint8_t *g, const int p, const int vecs)
{
    uint8_t rows[2][(1 << p) * ROW] ALIGNED;
    uint16_t at[ROOM];
    int count = 0, turn = 0;
    Vec left[WORD] = {{0}};
    memset(rows, 0, sizeof rows);
    for (int t = 0; t <= f->d; t++) {
        at[count] = (uint16_t)(g[t] * ROW + f->d - t + 1);
        count += g[t] != 0;
    }
    for (int l = 0; l < f->duals; l += 8 / p, turn ^= 1) {
        Vec sum[CHUNK];
        pack_rows(f, l, p, rows[turn]);
        for (int c = 0; c < (LIMBS == 1 ? 1 : f->k); c += 64) {
            sum_rows(rows[turn] + c, at, count, vecs, sum);
            for (int v = 0; v < vecs; v++)
                left[c / VB + v] |= sum[v];
        }
    }
    return zero_below(left, f->k, LIMBS == 1 ? vecs : (f->k + VB - 1) / VB);
}

/* The multiples of a factor of so many places, behind k - 1 zeros, so that an offset turns them. */
static void factor_rows(const Fast *f, const uint8_t *factor, int places, uint8_t *rows)
{
    memset(rows, 0, 2 * ROW);
    memcpy(rows + ROW + f->k - 1, factor, (size_t)places);
    multiply(rows, f->q, polynomials[f->p], 2 * f->vecs);
}

static void generator_rows(Fast *f, const uint8_t *g)
{
    factor_rows(f, g, f->d + 1, f->multiples);
}

/* The nonzero places of a limb of a dual word, as the bits of a number; what its lowest bit is the place of. */
INLINE uint64_t support(const uint8_t *record, int limb, uint32_t *first)
{
    uint64_t bits = 0;
    for (int i = 0; i < 8; i++) {
        uint64_t x = (load64(record + 64 * limb + 8 * i) + 0x7f7f7f7f7f7f7f7fu) >> 7 & 0x0101010101010101u;
        bits |= (x * 0x0102040810204080u >> 56) << (8 * i);
    }
    *first = limb ? 64 * (uint32_t)limb - 1 : 0;
    return limb ? bits : bits >> 1; /* the kind byte falls out */
}

/* Where the multiples of g are that a dual word adds up, without those of zeros. */
INLINE int factors(const Fast *f, const uint8_t *b, uint16_t *at)
{
    int count = 0;
    uint32_t first;
    for (int i = 0; i < LIMBS; i++)
        for (uint64_t left = support(b - 1, i, &first); left; left &= left - 1) {
            int u = (int)first + __builtin_ctzll(left);
            at[count++] = (uint16_t)(f->n - 1 - u + b[u] * ROW);
        }
    return count;
}

/* The same one dual word at a time, by the multiples of g. Where a word is one limb, zeros cost less than to find them. */
INLINE int plain_products(Fast *f, const uint8_t *g, const int vecs)
{
    const uint8_t *rows = f->multiples;
    uint16_t at[ROOM];
    int n = f->n;
    Vec left[WORD] = {{0}};
    generator_rows(f, g);
    for (int l = 0; l < f->duals; l++) {
        const uint8_t *b = f->book + AT_DUALS + 1 + RECORD * l;
        int count = LIMBS == 1 ? n : factors(f, b, at);
        for (int c = 0; c < (LIMBS == 1 ? 1 : f->k); c += 64) {
            Vec sum[CHUNK] = {{0}};
            for (int u = 0; u < count; u++)
                for (int v = 0; v < vecs; v++)
                    sum[v] ^= get((LIMBS == 1 ? rows + n - 1 - u + b[u] * ROW : rows + at[u]) + c + v * VB);
            for (int v = 0; v < vecs; v++)
                left[c / VB + v] |= sum[v];
        }
    }
    return zero_below(left, f->k, LIMBS == 1 ? vecs : (f->k + VB - 1) / VB);
}

/* Kind bytes, symbols, place 0 and weights of the dual words. */
static int dual_words_fit(Fast *f)
{
    uint8_t want[RECORD] ALIGNED = {DUAL_KIND, 1}, care[RECORD] ALIGNED;
    Vec bad = {0};
    unsigned unlike = 0;
    care[0] = 255;
    care[1] = 255;
    for (int j = 1; j < RECORD - 1; j++)
        care[j + 1] = j < f->n ? (uint8_t)~(f->q - 1) : 255;
    for (int l = 0; l < f->duals; l++) {
        const uint8_t *record = f->book + AT_DUALS + RECORD * l;
        Vec nonzero = {0};
        for (int v = 0; v < RECORD / VB; v++) {
            Vec x = get(record + v * VB);
            bad |= (x ^ get(want + v * VB)) & get(care + v * VB);
            nonzero -= (Vec)(x != (Vec){0});
        }
        unsigned weight = (byte_sum(nonzero) - 1) & 255;
        f->weight = l ? f->weight : (int)weight;
        unlike |= weight ^ (unsigned)f->weight;
    }
    return !any(bad) && !unlike;
}

/* The dual words' places again and again, as many as a turn by n - 1 reads. Nothing is read past a record. */
INLINE void lay_rows(const Fast *f, uint8_t (*rows)[ROW], const int vecs)
{
    for (int l = 0; l < f->duals; l++) {
        const uint8_t *word = f->book + AT_DUALS + RECORD * l + 1;
        for (int at = 0; at < f->n + vecs * VB - 1; at += f->n)
            for (int v = 0; v < vecs; v++) {
                int from = v < WORD - 1 ? v * VB : ROOM - 1 - VB;
                put(rows[l] + at + from, get(word + from));
            }
    }
}

/*
 * A number for each dual word that neither a turn nor a factor changes: at each place a mark tells which of four or five other places have its symbol,
 * and the squares of the marks are added up, modulo 65536. All rows are laid before any is read, since a load that spans two fresh stores waits.
 */
INLINE void signatures_in(const Fast *f, uint8_t (*rows)[ROW], uint16_t *out, const int vecs)
{
    static const uint8_t ends[2 * VB] = {[0 ... VB - 1] = 255};
    int n = f->n;
    Vec end = get(ends + vecs * VB - n);
    for (int l = 0; l < f->duals; l++) {
        const uint8_t *row = rows[l];
        Half sum = {0};
        for (int v = 0; v < vecs; v++, row += VB) {
            Vec x = get(row), m = (Vec)(x == get(row + 1)) & all(29);
            m ^= (Vec)(x == get(row + (3 & n))) & all(71);
            m ^= (Vec)(x == get(row + (7 & n))) & all(167);
            m ^= (Vec)(x == get(row + (12 & n))) & all(202);
            if (vecs == 1) /* short words have fewer marks */
                m ^= (Vec)(x == get(row + (20 & n))) & all(86);
            m &= v == vecs - 1 ? end : all(255);
            Half low = (Half)m & 255, high = (Half)m >> 8;
            sum += low * low + high * high;
        }
        out[l] = half_sum(sum);
    }
}

/* Where the rows of the inverses start. Zero has row 0. */
static void inverse_rows(const Fast *f, uint16_t *at)
{
    uint8_t power[64];
    int x = 1, last = f->q - 1;
    for (int e = 0; e < last; e++) {
        power[e] = (uint8_t)x;
        x <<= 1;
        x ^= x & f->q ? polynomials[f->p] : 0;
    }
    at[0] = 0;
    at[1] = ROW;
    for (int e = 1; e < last; e++)
        at[power[e]] = (uint16_t)(power[last - e] * ROW);
}

/* Whether a comes before b, in any one order. */
INLINE int is_before(const uint8_t *a, const uint8_t *b, int n)
{
    uint64_t x = load64(a), y = load64(b);
    for (int j = 8; x == y && j < n; j += 8) {
        x = load64(a + j);
        y = load64(b + j);
    }
    return x < y;
}

/* The first of a word's turns and multiples with symbol 1 at place 0: words are alike if these are equal. Row 0 is after all of them. */
static void normal_form(const Fast *f, const uint16_t *inverses, const uint8_t *row, uint8_t *form)
{
    uint8_t multiples[SYMBOLS * ROW] ALIGNED;
    const uint8_t *first = multiples + ROW;
    memset(multiples, 255, ROW);
    memcpy(multiples + ROW, row, ROW);
    multiply(multiples, f->q, polynomials[f->p], 2 * f->vecs);
    for (int k = 1; k < f->n; k++) {
        const uint8_t *next = multiples + inverses[row[k]] + k;
        if (is_before(next, first, f->n))
            first = next;
    }
    memcpy(form, first, ROOM);
}

/* Exactly, among the words that share a signature. Places from n on go around, and are equal where those before are. */
static int two_alike(const Fast *f, uint8_t (*rows)[ROW], const uint16_t *signature)
{
    uint8_t forms[32][ROOM];
    uint16_t inverses[64];
    uint32_t formed = 0;
    inverse_rows(f, inverses);
    for (int l = 1; l < f->duals; l++)
        for (int m = 0; m < l; m++) {
            if (signature[l] != signature[m])
                continue;
            for (int i = 0; i < 2; i++) {
                int w = i ? l : m;
                if (!(formed >> w & 1))
                    normal_form(f, inverses, rows[w], forms[w]);
                formed |= (uint32_t)1 << w;
            }
            if (memcmp(forms[l], forms[m], (size_t)f->n) == 0)
                return 1;
        }
    return 0;
}

/* Condition 8. */
static int alike(const Fast *f)
{
    uint8_t rows[32][ROW] ALIGNED;
    uint16_t signature[64];
    unsigned same = 0;
    switch (f->vecs) {
    case 1: lay_rows(f, rows, 1); signatures_in(f, rows, signature, 1); break;
#if VB == 16
    case 2: lay_rows(f, rows, 2); signatures_in(f, rows, signature, 2); break;
#endif
    default: lay_rows(f, rows, WORD); signatures_in(f, rows, signature, WORD); break;
    }
    for (int l = f->duals; l < 32; l++)
        signature[l] = (uint16_t)l; /* may be one of the sums: then some are compared for nothing */
    memcpy(signature + 32, signature, 64);
    for (int s = 1; s <= 16; s++)
        for (int l = 0; l < 32; l++)
            same |= signature[l] == signature[l + s];
    return same && two_alike(f, rows, signature);
}

INLINE int products_fit_in(Fast *f, const uint8_t *g, const int vecs)
{
    switch (f->p) {
    case 1: return packed_products(f, g, 1, vecs);
    case 2: return packed_products(f, g, 2, vecs);
    case 3: return packed_products(f, g, 3, vecs);
    default: return plain_products(f, g, vecs);
    }
}

static int products_fit(Fast *f, const uint8_t *g)
{
    switch (LIMBS > 1 ? CHUNK : (f->k + VB - 1) / VB) {
    case 1: return products_fit_in(f, g, 1);
#if VB == 16
    case 2: return products_fit_in(f, g, 2);
    case 3: return products_fit_in(f, g, 3);
#endif
    default: return products_fit_in(f, g, CHUNK);
    }
}

/* Conditions 1 to 3 without the kinds of the dual words. */
static int shape_fits(Fast *f, const uint8_t *book, size_t len)
{
    const int least = ROOM == 64 ? 2 : ROOM == 128 ? 7 : 8, most = ROOM == 64 ? 6 : least;
    int s;
    if (len < AT_DUALS + RECORD || len > AT_DUALS + 32 * RECORD || (len - AT_DUALS) % RECORD != 0)
        return 0;
    if (book[0] != 1 || book[3] != G_KIND || book[AT_MOST - 1] != 3)
        return 0;
    s = book[1];
    f->p = book[2];
    if (s < least || s > most || f->p < 1 || f->p > 6 || s % f->p != 0)
        return 0;
    f->book = book;
    f->duals = (int)(len - AT_DUALS) / RECORD;
    f->q = 1 << f->p;
    f->n = (1 << s) - 1;
    f->rounds = book[AT_MOST];
    f->places = book[AT_MOST + 1];
    f->vecs = (f->n + VB - 1) / VB;
    return 1;
}

/* Conditions 1 to 6, again without those kinds; leaves h. */
static int head_fits(Fast *f, const uint8_t *book, size_t len, uint8_t *g, uint8_t *h)
{
    int bad = 0;
    if (!shape_fits(f, book, len))
        return 0;
    memcpy(g, book + AT_G, RECORD - 1);
    g[RECORD - 1] = 0;
    for (int j = 0; j < RECORD; j++)
        bad |= j < f->n ? g[j] & ~(f->q - 1) : g[j];
    f->d = f->n - 1;
    while (f->d > 0 && g[f->d] == 0)
        f->d--;
    f->k = f->n - f->d;
    if (bad || f->d < 1 || g[f->d] != 1 || f->rounds < 1 || f->rounds > 63 || f->places < 1 || f->places > f->n)
        return 0;
    return quotient(f, g, h);
}

/* Where copies of a row of bits have a symbol's multiple, turned down by so many places, if there are several limbs. */
INLINE int turn_at(int places, int symbol)
{
    return (symbol - 1) * ROW + (places & 7) * (ROW / 8) + (places >> 3);
}

/* Refusal 8 is found here, and any other number by the transcription. */
static unsigned refusal(Fast *f, const uint8_t *book, size_t len)
{
    uint8_t g[RECORD], *h = f->h;
    if (!head_fits(f, book, len, g, h) || !dual_words_fit(f) || !products_fit(f, g))
        return literal_check(book, len);
    if (f->duals > 1 && alike(f))
        return 8;
    f->terms = 0;
    for (int t = 0; t <= f->k; t++) {
        f->test_at[f->terms] = (uint16_t)(LIMBS > 1 && f->p <= 2 ? turn_at(f->n - t, h[t]) : h[t] * ROW + f->k - t);
        f->terms += h[t] != 0;
    }
    return 0;
}

/* Scattering is one step for each place and term; marks are some vectors for each row and term, which is less up to q 32. */
static int scatters(const Fast *f)
{
    return LIMBS == 1 && f->q == 64;
}

/* The lists that counting reads, made only for a word that is not clean. */
static void prepare(Fast *f)
{
    int n = f->n, x = 1;
    uint32_t both[64];
    f->width = 2 * f->vecs * VB;
    f->batch = 255 / f->weight;
    if (f->batch > MARKS / (2 * (f->q - 1) * f->width))
        f->batch = MARKS / (2 * (f->q - 1) * f->width);
    for (int e = 0; e < f->q - 1; e++) {
        f->exps[e] = (uint8_t)x;
        both[x] = (uint32_t)(x * ROW + n) | (uint32_t)(e * (scatters(f) ? ROOM : f->width)) << 16;
        x <<= 1;
        x ^= x & f->q ? polynomials[f->p] : 0;
    }
    Term *to = f->lists;
    for (int l = 0, at = 0; l < f->duals; l++, at++) {
        const uint8_t *b = f->book + AT_DUALS + 1 + RECORD * l;
        uint32_t first;
        at = at < f->batch ? at : 0;
        uint32_t base = scatters(f) ? 0 : (uint32_t)(at * 2 * (f->q - 1) * f->width) << 16;
        for (int i = 0; i < LIMBS; i++)
            for (uint64_t left = support(b - 1, i, &first); left; left &= left - 1) {
                uint32_t u = first + (uint32_t)__builtin_ctzll(left), t = both[b[u]] + base + u * 0xffffu;
                memcpy(to++, &t, 4);
            }
    }
}

/* The word's multiples. */
static void load_word(Fast *f, const uint8_t *word)
{
    uint8_t *row = f->multiples + ROW;
    for (int v = 0; v < 2 * f->vecs; v++)
        put(f->multiples + v * VB, (Vec){0});
    for (int v = 0; v < f->vecs; v++)
        put(row + v * VB, get(word + v * VB));
    for (int v = 0; v < f->vecs; v++)
        put(row + f->n + v * VB, get(word + v * VB));
    switch (f->vecs) {
    case 1: multiply(f->multiples, f->q, polynomials[f->p], 2); break;
    case 2: multiply(f->multiples, f->q, polynomials[f->p], 4); break;
    default: multiply(f->multiples, f->q, polynomials[f->p], 2 * WORD); break;
    }
}

/* Whether the product with h is zero in a chunk, of which so many places are asked. */
INLINE int is_zero_in(const Fast *f, const uint8_t *rows, int places)
{
    Vec sum[CHUNK];
    switch ((places + VB - 1) / VB) {
    case 1: sum_rows(rows, f->test_at, f->terms, 1, sum); return zero_below(sum, places, 1);
#if VB == 16
    case 2: sum_rows(rows, f->test_at, f->terms, 2, sum); return zero_below(sum, places, 2);
    case 3: sum_rows(rows, f->test_at, f->terms, 3, sum); return zero_below(sum, places, 3);
#endif
    default: sum_rows(rows, f->test_at, f->terms, CHUNK, sum); return zero_below(sum, places, CHUNK);
    }
}

static int is_code_word(const Fast *f)
{
    int at = 0;
    for (; LIMBS > 1 && at + 64 < f->d; at += 64)
        if (!is_zero_in(f, f->multiples + at, 64))
            return 0;
    return is_zero_in(f, f->multiples + at, f->d - at);
}

/* The product of a dual word and the word. */
INLINE void sum_terms(const Fast *f, const Term *terms, const int vecs, Vec *sum)
{
    for (int c = 0; c < vecs; c += CHUNK) {
        Vec s[CHUNK] = {0};
        for (int i = 0; i < f->weight; i++)
            for (int v = 0; v < CHUNK && v < vecs; v++)
                s[v] ^= get(f->multiples + terms[i].sum_at + (c + v) * VB);
        for (int v = 0; v < CHUNK && v < vecs; v++)
            sum[c + v] = s[v];
    }
}

/* Marks of one dual word's product: row e, and row e + q - 1, tell where it is exp e. */
INLINE void mark(const Fast *f, uint8_t *row, const Vec *w, const int vecs)
{
    const int width = 2 * vecs * VB;
    int n = f->n, around = (f->q - 1) * width;
    for (int e = 0; e < f->q - 1; e++, row += width) {
        Vec is[WORD], symbol = all(f->exps[e]);
        for (int v = 0; v < vecs; v++) {
            is[v] = (Vec)(w[v] == symbol);
            put(row + v * VB, is[v]);
            put(row + around + v * VB, is[v]);
        }
        for (int v = 0; v < vecs; v++) {
            put(row + n + v * VB, is[v]);
            put(row + around + n + v * VB, is[v]);
        }
    }
}

/* Adds a batch's counts, `rows` rows from row e on, in a chunk's places from `at` on. */
INLINE void add_rows(Fast *f, const Term *terms, int count, int e, int at, const int rows, const int vecs)
{
    const int width = 2 * (LIMBS > 1 ? WORD : vecs) * VB;
    Vec sum[3][CHUNK] = {{{0}}};
    const uint8_t *marks = f->marks + e * width + at;
    for (int i = 0; i < count; i++)
        for (int r = 0; r < rows; r++)
            for (int v = 0; v < vecs; v++)
                sum[r][v] -= get(marks + terms[i].count_at + r * width + v * VB);
    for (int r = 0; r < rows; r++) {
        uint8_t bytes[64] ALIGNED;
        int16_t *to = f->counts + (e + r) * ROOM + at;
        for (int v = 0; v < vecs; v++)
            put(bytes + v * VB, sum[r][v]);
        for (int j = 0; j < vecs * VB; j++)
            to[j] = (int16_t)(to[j] + bytes[j]);
    }
}

/* The matrix by sums of marks, over batches of as many dual words as bytes can count. */
INLINE void count_by_marks(Fast *f, const int vecs)
{
    int rows = f->q - 1, size = 2 * rows * 2 * vecs * VB;
    const Term *terms = f->lists;
    memset(f->counts, 0, (size_t)rows * sizeof *f->counts * ROOM);
    for (int l = 0; l < f->duals; l += f->batch) {
        int words = f->duals - l < f->batch ? f->duals - l : f->batch;
        for (int i = 0; i < words; i++) {
            Vec w[WORD];
            sum_terms(f, terms + i * f->weight, vecs, w);
            mark(f, f->marks + i * size, w, vecs);
        }
        for (int at = 0; at < vecs * VB; at += 64) {
            int e = 0;
            for (; e + 3 <= rows; e += 3)
                add_rows(f, terms, words * f->weight, e, at, 3, vecs < CHUNK ? vecs : CHUNK);
            for (; e < rows; e++)
                add_rows(f, terms, words * f->weight, e, at, 1, vecs < CHUNK ? vecs : CHUNK);
        }
        terms += words * f->weight;
    }
}

/* The offsets of a product's symbols: row log W, a row apart for zero, and the place; twice, so that turning is an offset. */
INLINE void offsets(const Fast *f, const Vec *w, const int n, const int vecs, uint16_t *at)
{
    uint8_t bytes[64] ALIGNED;
    for (int v = 0; v < vecs; v++)
        put(bytes + v * VB, w[v]);
    for (int m = 0; m < n; m++) {
        unsigned to = f->rows[bytes[m]] + (unsigned)m;
        at[m] = (uint16_t)to;
        at[m + n] = (uint16_t)(to + (unsigned)n);
    }
}

/* The matrix by scattering: row log W - log b + q - 1, the rows e and e + q - 1 being one symbol's. Place n is counted too, and never read. */
INLINE void count_by_scatter(Fast *f, const int n, const int vecs)
{
    const int width = n + 1;
    int rows = f->q - 1;
    memset(f->scatter, 0, sizeof(uint16_t) * 2 * (size_t)(rows * width));
    for (int e = 0; e < rows; e++)
        f->rows[f->exps[e]] = (uint16_t)(e * width);
    f->rows[0] = (uint16_t)(2 * rows * width);
    for (int l = 0; l < f->duals; l++) {
        const Term *terms = f->lists + l * f->weight;
        Vec w[WORD];
        uint16_t at[128];
        sum_terms(f, terms, vecs, w);
        offsets(f, w, n, vecs, at);
        for (int i = 0; i < f->weight; i++) {
            const int turn = terms[i].count_at & 63;
            uint16_t *restrict to = f->scatter + (rows - (terms[i].count_at >> 6)) * width - turn;
            const uint16_t *from = at + turn;
            for (int j = 0; j < width; j += 8) { /* eight are read first, or gcc reads each after the store before it */
                unsigned a[8];
                for (int z = 0; z < 8; z++)
                    a[z] = from[j + z];
                for (int z = 0; z < 8; z++)
                    to[a[z]]++;
            }
        }
    }
    for (int e = 0; e < rows; e++)
        for (int j = 0; j < width; j++)
            f->counts[e * 64 + j] = (int16_t)(f->scatter[e * width + j] + f->scatter[(e + rows) * width + j]);
}

static void count(Fast *f)
{
    if (scatters(f))
        count_by_scatter(f, 63, CHUNK);
    else if (f->vecs == 1)
        count_by_marks(f, 1);
    else if (f->vecs == 2)
        count_by_marks(f, 2);
    else
        count_by_marks(f, WORD);
}

/* The largest t such that more than `most` of the numbers are t or more. */
INLINE int threshold(const int16_t *a, int most, int top)
{
    int t = 0;
    for (int bit = top; bit; bit >>= 1) {
        Wide count = {0}, least = (Wide){0} + (int16_t)((t | bit) - 1);
        for (int v = 0; v < 2 * WORD; v++)
            count -= (Wide)(*(const Wide *)(a + v * VB / 2) > least);
        if ((int)wide_sum(count) > most)
            t |= bit;
    }
    return t;
}

/* Subtracts the update set; says whether it was not empty. */
static int update(Fast *f, uint8_t *word)
{
    int16_t peak[ROOM] ALIGNED = {0}, total[ROOM] ALIGNED = {0}, who[ROOM] ALIGNED = {0};
    int top = 1, low, high;
    uint8_t changed = 0;
    for (int e = 0; e < f->q - 1; e++) {
        const int16_t *row = f->counts + e * ROOM;
        int16_t symbol = f->exps[e];
        for (int j = 0; j < ROOM; j++) {
            int16_t x = row[j], old = peak[j];
            total[j] = (int16_t)(total[j] + x);
            who[j] = x > old ? symbol : x == old ? 0 : who[j];
            peak[j] = x > old ? x : old;
        }
    }
    for (int j = f->n; j < ROOM; j++)
        peak[j] = total[j] = 0;
    while (2 * top <= f->duals * f->weight)
        top *= 2;
    low = threshold(total, f->places, top);
    high = threshold(peak, f->places, top);
    for (int j = 0; j < ROOM; j++) {
        uint8_t e = (uint8_t)(who[j] & -((total[j] > low) & (peak[j] > high)));
        word[j] ^= e;
        changed |= e;
    }
    return changed != 0;
}

/*
 * p 1 and 2: a digit of 64 symbols in one number. Check values stand one after the other in a stream, and a tree of full adders counts the stream
 * column by column, all columns at once.
 */
typedef struct {
    uint64_t digit[2][LIMBS];
} Bits;
typedef uint64_t Rows[3][LIMBS][PLANES];
typedef uint64_t Pair __attribute__((vector_size(16), aligned(8), may_alias));

INLINE Bits load_bits(const uint8_t *word, const int p)
{
    Bits r;
    for (int a = 0; a < 2; a++)
        for (int i = 0; i < LIMBS; i++)
            r.digit[a][i] = a < p ? plane(word + 64 * i, a) : 0;
    return r;
}

/* The places of a limb that are below n. */
INLINE uint64_t places_of(const Fast *f, int limb)
{
    return limb < LIMBS - 1 ? ~(uint64_t)0 : ~(uint64_t)0 >> (ROOM - f->n);
}

#if ROOM == 64
/* The digits of the multiples of a word by 1, 2 and 3 are pairs of neighbours here. */
INLINE void spread(const uint64_t *digit, const int p, uint64_t *out)
{
    out[0] = digit[0];
    if (p == 2) {
        out[1] = digit[1];
        out[2] = digit[0] ^ digit[1];
        out[3] = digit[0];
    }
}

/* A term's place and symbol for the product, its place and its symbol's inverse for the count. */
INLINE uint32_t bit_term(uint32_t u, int symbol, const int p)
{
    static const uint32_t both[4] = {0, 0, 1 | 2u << 24, 2 | 1u << 24};
    return (p == 2 ? both[symbol] : 0) + u * (p == 2 ? 0x10004u : 0x10001u);
}

/* Leaves the product, whose first k places are a code word's message. */
INLINE int test_bits(Fast *f, const Bits *r, const int p)
{
    uint64_t s[4], y[2] = {0}, digit[2] = {r->digit[0][0], r->digit[1][0]};
    spread(digit, p, s);
    for (int t = 0; t <= f->k; t++) {
        int c = f->h[t];
        if (p == 1)
            y[0] ^= s[0] << t & -(uint64_t)c;
        else
            for (int i = 0; i < 2 && c; i++)
                y[i] ^= s[c - 1 + i] << t;
    }
    f->products[0][0] = y[0];
    f->products[0][1] = y[1];
    return ((y[0] | y[1]) << (64 - f->n) >> (64 - f->d)) == 0;
}

/* The word turned by every t. */
INLINE void turn_bits(Fast *f, const Bits *r, const int p)
{
    uint64_t mask = places_of(f, 0);
    for (int t = 0; t < f->n; t++) {
        uint64_t turned[2];
        for (int i = 0; i < p; i++)
            turned[i] = (r->digit[i][0] << t | r->digit[i][0] >> (f->n - t)) & mask;
        spread(turned, p, f->turns + t * (p == 2 ? 4 : 1));
    }
}

/* The product of a dual word and the word, spread. */
INLINE void product_bits(const Fast *f, const Term *terms, const int p, uint64_t *s)
{
    uint64_t w[2] = {0};
    Pair both = {0};
    for (int i = 0; i < f->weight; i++)
        if (p == 1)
            w[0] ^= f->turns[terms[i].sum_at];
        else
            both ^= *(const Pair *)(f->turns + terms[i].sum_at);
    if (p == 2) {
        w[0] = both[0];
        w[1] = both[1];
    }
    spread(w, p, s);
}

/* Every dual word's product with the word, divided by each of its symbols and turned, put into the stream. */
INLINE int stream_words(Fast *f, const Bits *r, const int p)
{
    int n = f->n, out = 0;
    const Term *terms = f->lists;
    turn_bits(f, r, p);
    for (int l = 0; l < f->duals; l++, terms += f->weight) {
        uint64_t s[4];
        product_bits(f, terms, p, s);
        for (int i = 0; i < f->weight; i++, out++) {
            int h = terms[i].count_at & 255, c = terms[i].count_at >> 8;
            if (p == 1) {
                f->stream[0][out] = s[0] >> h | s[0] << (n - h);
            } else { /* both digits at once: shifts by a number are slow */
                Pair x = *(const Pair *)(s + c);
                x = x >> h | x << (n - h);
                f->stream[0][out] = x[0];
                f->stream[1][out] = x[1];
            }
        }
    }
    return out;
}
#else
/*
 * A turn of several limbs is a load: a row of bits stands twice over, and that eight times, moved down by 0 to 7 places. For p 2 there are such copies,
 * each a row of bytes long, of three rows; the digits of the multiples by 1, 2 and 3 are neighbours among them, the first being the last one's. Where
 * nothing is to come round, zeros stand for the first of the two.
 */
typedef uint64_t Part __attribute__((vector_size(ROOM / 8 < VB ? ROOM / 8 : VB), aligned(1), may_alias));
enum { PARTS = ROOM / 8 / sizeof(Part) };

INLINE void lay_bits(const uint64_t *w, const int once, uint64_t *out)
{
    uint64_t twice[2 * LIMBS + 1];
    for (int i = 0; i < LIMBS; i++) {
        twice[i] = once ? 0 : w[i];
        twice[LIMBS + i] = w[i] >> 1 | (i + 1 < LIMBS ? w[i + 1] << 63 : 0);
    }
    twice[LIMBS - 1] |= w[0] << 63;
    twice[2 * LIMBS] = 0;
    for (int i = 0; i < 2 * LIMBS; i += VB / 8) {
        Quad low, high; /* put together in registers: a load that spans two fresh stores waits */
        for (int z = 0; z < VB / 8; z++) {
            low[z] = twice[i + z];
            high[z] = twice[i + z + 1];
        }
        put(out + i, (Vec)low);
        for (int down = 1; down < 8; down++)
            put(out + down * 2 * LIMBS + i, (Vec)(low >> down | high << (64 - down)));
    }
}

/* As a limb's spread, of copies. */
INLINE void spread_bits(const Fast *f, const Bits *r, const int p, const int once, uint64_t *out)
{
    uint64_t w[3][LIMBS];
    for (int i = 0; i < LIMBS; i++) {
        w[0][i] = r->digit[0][i] & places_of(f, i);
        w[1][i] = r->digit[1][i] & places_of(f, i);
        w[2][i] = w[0][i] ^ w[1][i];
    }
    for (int a = 0; a < (p == 2 ? 3 : 1); a++)
        lay_bits(w[a], once, out + a * ROW / 8);
}

/* Where a digit of a turned multiple is, the lower one's place being given. */
INLINE const void *digit_at(const uint64_t *rows, int at, int digit)
{
    return (const uint8_t *)rows + (digit == 0 ? at : at < 2 * ROW ? at + ROW : at - 2 * ROW);
}

INLINE uint32_t bit_term(uint32_t u, int symbol, const int p)
{
    int inverse = p == 2 && symbol > 1 ? 5 - symbol : 1;
    return (uint32_t)turn_at(ROOM - 1 - (int)u, symbol) | (uint32_t)turn_at((int)u, inverse) << 16;
}

INLINE void turn_bits(Fast *f, const Bits *r, const int p)
{
    spread_bits(f, r, p, 0, f->turns);
}

/* Adds the digits of a turned multiple, or none of them. */
INLINE void add_turned(const uint64_t *rows, int at, uint64_t keep, const int p, Part (*sum)[PARTS])
{
    for (int a = 0; a < p; a++)
        for (int i = 0; i < PARTS; i++)
            sum[a][i] ^= *((const Part *)digit_at(rows, at, a) + i) & keep;
}

INLINE Bits bits_of(Part (*sum)[PARTS])
{
    Bits w;
    memcpy(&w, sum, sizeof w);
    return w;
}

/* The product with h of the word whose turns are given. */
INLINE Bits test_product(const Fast *f, const uint64_t *turns, const int p)
{
    Part sum[2][PARTS] = {{{0}}};
    for (int t = 0; t < f->terms; t++)
        add_turned(turns, f->test_at[t], ~(uint64_t)0, p, sum);
    return bits_of(sum);
}

/* Leaves the turns of the word, which the products read. */
INLINE int test_bits(Fast *f, const Bits *r, const int p)
{
    uint64_t left = 0;
    turn_bits(f, r, p);
    Bits y = test_product(f, f->turns, p);
    for (int i = 0; i < LIMBS; i++)
        left |= (y.digit[0][i] | y.digit[1][i]) & places_of(f, i);
    return left == 0;
}

/* The product of a dual word and the word, in copies. */
INLINE void product_bits(const Fast *f, const Term *terms, const int p, uint64_t *out)
{
    Part sum[2][PARTS] = {{{0}}};
    for (int i = 0; i < f->weight; i++)
        add_turned(f->turns, terms[i].sum_at, ~(uint64_t)0, p, sum);
    Bits w = bits_of(sum);
    spread_bits(f, &w, p, 0, out);
}

/* As for one limb. Some products are made before any is read, since a load that spans two fresh stores waits. */
INLINE int stream_words(Fast *f, const Bits *r, const int p)
{
    int out = 0;
    (void)r; /* its turns are there since the test */
    for (int l = 0; l < f->duals; l += BATCH) {
        int words = f->duals - l < BATCH ? f->duals - l : BATCH;
        const Term *terms = f->lists + l * f->weight;
        for (int i = 0; i < words; i++)
            product_bits(f, terms + i * f->weight, p, f->products[i]);
        for (int i = 0; i < words; i++)
            for (int z = 0; z < f->weight; z++, out++)
                for (int a = 0; a < p; a++)
                    memcpy(f->stream[a] + out * LIMBS, digit_at(f->products[i], terms[i * f->weight + z].count_at, a), 8 * LIMBS);
    }
    return out;
}
#endif

/* As prepare, the terms those of the digits. */
INLINE void prepare_bits(Fast *f, const int p)
{
    Term *to = f->lists;
    uint32_t first;
    for (int l = 0; l < f->duals; l++) {
        const uint8_t *b = f->book + AT_DUALS + 1 + RECORD * l;
        for (int i = 0; i < LIMBS; i++)
            for (uint64_t left = support(b - 1, i, &first); left; left &= left - 1) {
                uint32_t u = first + (uint32_t)__builtin_ctzll(left), t = bit_term(u, b[u], p);
                memcpy(to++, &t, 4);
            }
    }
}

/* The stream's length in entries; zeros fill it up. */
INLINE int stream_bits(Fast *f, const Bits *r, const int p)
{
    int out = stream_words(f, r, p);
    for (; out * LIMBS % (16 * STEP); out++)
        for (int i = 0; i < LIMBS; i++)
            f->stream[0][out * LIMBS + i] = f->stream[1][out * LIMBS + i] = 0;
    return out;
}

INLINE void add_three(Quad *high, Quad *low, Quad a, Quad b)
{
    Quad u = *low ^ a;
    *high = (*low & a) | (u & b);
    *low = u ^ b;
}

/* Which of the stream's columns are 1 (form 0), 2 (form 1) or 3 (form 2). */
INLINE Quad form_of(const Fast *f, int i, const int p, const int form)
{
    Quad a = *(const Quad *)(f->stream[0] + i), b;
    if (p == 1)
        return a;
    b = *(const Quad *)(f->stream[1] + i);
    return form == 0 ? a & ~b : form == 1 ? b & ~a : a & b;
}

/* Counts of one row of the matrix, digit by digit, each lane for itself; lanes from `first` on, where an entry is longer than a vector. */
INLINE void count_form(const Fast *f, int count, int first, const int p, const int form, Quad *sum)
{
    const int step = STEP;
    Quad c[4] = {{0}};
    for (int i = 4; i < PLANES; i++)
        sum[i] = (Quad){0};
    for (int i = first; i < count * LIMBS; i += 16 * step) {
        Quad eights[2], carry;
        for (int z = 0; z < 2; z++) {
            Quad fours[2];
            for (int y = 0; y < 2; y++) {
                Quad twos[2];
                for (int x = 0; x < 2; x++) {
                    int at = i + (8 * z + 4 * y + 2 * x) * step;
                    add_three(&twos[x], &c[0], form_of(f, at, p, form), form_of(f, at + step, p, form));
                }
                add_three(&fours[y], &c[1], twos[0], twos[1]);
            }
            add_three(&eights[z], &c[2], fours[0], fours[1]);
        }
        add_three(&carry, &c[3], eights[0], eights[1]);
        for (int k = 4; k < PLANES; k++) {
            Quad next = sum[k] & carry;
            sum[k] ^= carry;
            carry = next;
        }
    }
    for (int k = 0; k < 4; k++)
        sum[k] = c[k];
}

INLINE void add_numbers(uint64_t *a, const uint64_t *b)
{
    uint64_t carry = 0;
    for (int k = 0; k < PLANES; k++) {
        uint64_t u = a[k] ^ b[k], next = (a[k] & b[k]) | (u & carry);
        a[k] = u ^ carry;
        carry = next;
    }
}

/* Where a vector has several entries, their counts are added. */
INLINE void count_row(const Fast *f, int count, const int p, const int form, uint64_t (*row)[PLANES])
{
    for (int first = 0; first < LIMBS; first += VB / 8) {
        Quad sum[PLANES];
        uint64_t other[PLANES];
        count_form(f, count, first, p, form, sum);
        for (int lane = 0; lane < VB / 8 && first + lane < LIMBS; lane++)
            for (int k = 0; k < PLANES; k++)
                row[first + lane][k] = sum[k][lane];
        for (int lane = LIMBS; lane < VB / 8; lane++) {
            for (int k = 0; k < PLANES; k++)
                other[k] = sum[k][lane];
            add_numbers(row[lane % LIMBS], other);
        }
    }
}

INLINE int ones(uint64_t x)
{
    x -= x >> 1 & 0x5555555555555555u;
    x = (x & 0x3333333333333333u) + (x >> 2 & 0x3333333333333333u);
    return (int)(((x + (x >> 4)) & 0x0f0f0f0f0f0f0f0fu) * 0x0101010101010101u >> 56);
}

/* The columns below n whose numbers at most `most` columns reach. */
INLINE void highest(const Fast *f, uint64_t (*number)[PLANES], int most, uint64_t *above)
{
    uint64_t level[LIMBS], reach[LIMBS];
    for (int i = 0; i < LIMBS; i++) {
        above[i] = 0;
        level[i] = places_of(f, i);
    }
    for (int k = PLANES - 1; k >= 0; k--) {
        int count = 0;
        for (int i = 0; i < LIMBS; i++) {
            reach[i] = above[i] | (level[i] & number[i][k]);
            count += ones(reach[i]);
        }
        for (int i = 0; i < LIMBS; i++)
            if (count > most) {
                level[i] &= number[i][k];
            } else {
                above[i] = reach[i];
                level[i] &= ~number[i][k];
            }
    }
}

/* Where a is above b, and where they are equal. */
INLINE void compare(const uint64_t *a, const uint64_t *b, uint64_t *above, uint64_t *equal)
{
    *above = 0;
    *equal = ~(uint64_t)0;
    for (int k = 0; k < PLANES; k++) {
        uint64_t unlike = a[k] ^ b[k];
        *above = (*above & ~unlike) | (a[k] & unlike);
        *equal &= ~unlike;
    }
}

INLINE void choose(uint64_t *a, const uint64_t *b, uint64_t keep)
{
    for (int k = 0; k < PLANES; k++)
        a[k] = (a[k] & keep) | (b[k] & ~keep);
}

INLINE void count_bits(const Fast *f, int count, const int p, Rows rows)
{
    count_row(f, count, p, 0, rows[0]);
    if (p == 2) {
        count_row(f, count, p, 1, rows[1]);
        count_row(f, count, p, 2, rows[2]);
    }
}

/* Leaves the largest of a limb's rows in the first, and which symbols' digits it has: none where two rows have it. */
INLINE void peak_bits(Rows rows, int i, uint64_t *low, uint64_t *high)
{
    uint64_t a12, e12, a, e, *peak = rows[0][i];
    compare(peak, rows[1][i], &a12, &e12);
    choose(peak, rows[1][i], a12);
    compare(peak, rows[2][i], &a, &e);
    choose(peak, rows[2][i], a);
    *low = (a & a12) | ~(a | e);
    *high = (a & ~a12 & ~e12) | ~(a | e);
}

/* What to subtract. For p 1 the peak is the sum of the rows and has one holder. */
INLINE Bits update_bits(const Fast *f, Rows rows, const int p)
{
    Bits who = {{{0}}};
    uint64_t total[LIMBS][PLANES], few[LIMBS], many[LIMBS];
    if (p == 1) {
        highest(f, rows[0], f->places, who.digit[0]);
        return who;
    }
    for (int i = 0; i < LIMBS; i++) {
        memcpy(total[i], rows[0][i], sizeof total[i]);
        add_numbers(total[i], rows[1][i]);
        add_numbers(total[i], rows[2][i]);
        peak_bits(rows, i, &who.digit[0][i], &who.digit[1][i]);
    }
    highest(f, total, f->places, few);
    highest(f, rows[0], f->places, many);
    for (int i = 0; i < LIMBS; i++)
        for (int a = 0; a < 2; a++)
            who.digit[a][i] &= few[i] & many[i];
    return who;
}

static uint32_t packed(char kind, int rounds, int changed)
{
    return (uint32_t)changed << 8 | (uint32_t)rounds << 16 | (uint32_t)kind << 24;
}

INLINE void store_bits(const Bits *r, int n, uint8_t *answer)
{
    for (int i = 0; i < LIMBS; i++)
        for (int j = 0; j < (i < LIMBS - 1 ? 64 : n - 64 * i); j++)
            answer[64 * i + j] = (uint8_t)((r->digit[0][i] >> j & 1) | (r->digit[1][i] >> j & 1) << 1);
}

/* Whether anything is changed in the word. */
INLINE int subtract_bits(Bits *r, const Bits *e)
{
    uint64_t any = 0;
    for (int a = 0; a < 2; a++)
        for (int i = 0; i < LIMBS; i++) {
            any |= e->digit[a][i];
            r->digit[a][i] ^= e->digit[a][i];
        }
    return any != 0;
}

INLINE int changed_bits(const Bits *r, const Bits *first)
{
    int count = 0;
    for (int i = 0; i < LIMBS; i++)
        count += ones((r->digit[0][i] ^ first->digit[0][i]) | (r->digit[1][i] ^ first->digit[1][i]));
    return count;
}

INLINE uint32_t run_bits(Fast *f, const uint8_t *received, const uint8_t *word, int *ready, uint8_t *answer, const int p)
{
    Bits r = load_bits(word, p), first = r;
    memcpy(answer, received, (size_t)f->n);
    if (test_bits(f, &r, p))
        return packed('C', 0, 0);
    if (!*ready)
        prepare_bits(f, p);
    *ready = 1;
    for (int round = 1; round <= f->rounds; round++) {
        Rows rows;
        count_bits(f, stream_bits(f, &r, p), p, rows);
        Bits e = update_bits(f, rows, p);
        if (!subtract_bits(&r, &e))
            return packed('S', round, 0);
        if (test_bits(f, &r, p)) {
            store_bits(&r, f->n, answer);
            return packed('M', round, changed_bits(&r, &first));
        }
    }
    return packed('X', f->rounds, 0);
}

static uint32_t run(Fast *f, const uint8_t *received, uint8_t *word, int *ready, uint8_t *answer)
{
    size_t n = (size_t)f->n;
    load_word(f, word);
    memcpy(answer, received, n);
    if (is_code_word(f))
        return packed('C', 0, 0);
    if (!*ready)
        prepare(f);
    *ready = 1;
    for (int round = 1; round <= f->rounds; round++) {
        count(f);
        if (!update(f, word))
            return packed('S', round, 0);
        load_word(f, word);
        if (is_code_word(f)) {
            int changed = 0;
            for (size_t j = 0; j < n; j++)
                changed += word[j] != received[j];
            memcpy(answer, word, n);
            return packed('M', round, changed);
        }
    }
    return packed('X', f->rounds, 0);
}

/* So many symbols and zeros, or refusal 11. */
INLINE unsigned take_symbols(const Fast *f, const uint8_t *given, size_t length, uint8_t *word)
{
    Vec bad = {0};
    memcpy(word, given, length);
    for (int v = 0; v < WORD; v++)
        bad |= get(word + v * VB);
    return any(bad & all((uint8_t)~(f->q - 1))) ? 11 : 0;
}

static uint32_t decode_word(Fast *f, const uint8_t *received, int *ready, uint8_t *answer)
{
    uint8_t word[ROOM] ALIGNED = {0};
    if (take_symbols(f, received, (size_t)f->n, word))
        return 11;
    if (f->p == 1)
        return run_bits(f, received, word, ready, answer, 1);
    if (f->p == 2)
        return run_bits(f, received, word, ready, answer, 2);
    return run(f, received, word, ready, answer);
}

uint32_t SIZED(check)(const uint8_t *book, size_t book_len)
{
    Fast f;
    unsigned number = refusal(&f, book, book_len);
    return number ? number : 256u * (unsigned)f.duals;
}

/* Symbols whose digits stand in p numbers. Eight bits at a time become bytes by a multiplication. */
INLINE void put_symbols(const int p, uint64_t (*digit)[LIMBS], int count, uint8_t *out)
{
    for (int i = 0; i < count; i += 8) {
        uint64_t bytes = 0;
        for (int a = 0; a < p; a++) {
            uint64_t bits = (digit[a][LIMBS == 1 ? 0 : i / 64] >> i % 64 & 255) * 0x0101010101010101u & 0x8040201008040201u;
            bytes |= ((bits + 0x7f7f7f7f7f7f7f7fu) >> 7 & 0x0101010101010101u) << a;
        }
        memcpy(out + i, &bytes, 8);
    }
}

/* The word through the shift register: after k steps its top d bits are what is left. */
INLINE void divide_by(const int p, const Fast *f, const uint8_t *word, uint64_t (*rows)[6][LIMBS], uint8_t *rest)
{
    uint64_t state[6][LIMBS];
    uint8_t cells[ROOM];
    if (p <= 3)
        register_rows(p, f->book + AT_G, f->d, rows);
    top_planes(p, word, f->n, state);
    for (int i = 0; i < f->k; i++)
        register_step(p, rows, state);
    if (LIMBS == 1) {
        for (int a = 0; a < p; a++)
            state[a][0] >>= 64 - f->d;
        put_symbols(p, state, f->d, rest);
    } else {
        put_symbols(p, state, ROOM, cells);
        memcpy(rest, cells + ROOM - f->d, (size_t)f->d);
    }
}

uint32_t SIZED(remainder)(const uint8_t *book, size_t book_len, const uint8_t *word, size_t word_len, uint8_t *remainder, size_t remainder_len)
{
    Fast f;
    uint64_t few[8][6][LIMBS];
    uint8_t padded[ROOM] ALIGNED = {0}, rest[ROOM];
    unsigned number = refusal(&f, book, book_len);
    if (number)
        return number;
    if (word_len != (size_t)f.n)
        return 9;
    if (remainder_len != (size_t)f.d)
        return 10;
    if (take_symbols(&f, word, word_len, padded))
        return 11;
    switch (f.p) {
    case 1: divide_by(1, &f, padded, few, rest); break;
    case 2: divide_by(2, &f, padded, few, rest); break;
    case 4: divide_by(4, &f, padded, f.steps, rest); break;
#if ROOM == 64
    case 3: divide_by(3, &f, padded, few, rest); break;
    case 5: divide_by(5, &f, padded, f.steps, rest); break;
    default: divide_by(6, &f, padded, f.steps, rest); break;
#endif
    }
    memcpy(remainder, rest, remainder_len);
    return 0;
}

#if ROOM == 64
/*
 * A product of polynomials over GF(2), of degree 63 at most, by products of numbers. Factors keep every fourth digit, so that a sum of up to 15
 * ones stays clear of the next column that is read. Only columns at the top have 16, and their carry falls out.
 */
INLINE uint64_t bit_product(uint64_t a, uint64_t b)
{
    const uint64_t kept = 0x1111111111111111u;
    uint64_t product = 0;
    for (int i = 0; i < 4; i++) {
        uint64_t sum = 0;
        for (int j = 0; j < 4; j++)
            sum ^= (a & kept << j) * (b & kept << ((i - j) & 3));
        product |= sum & kept << i;
    }
    return product;
}

/* Message times g, for p 1 and 2. The kind byte before g falls out, and 64 bytes are read. */
INLINE void code_bits(const int p, Fast *f, const uint8_t *message, int length, uint8_t *word)
{
    const uint8_t *g = f->book + AT_G - 1;
    uint64_t low = plane(message, 0), g_low = plane(g, 0) >> 1, digit[2][LIMBS];
    (void)length; /* places that are not given are 0 */
    digit[0][0] = bit_product(low, g_low);
    if (p == 2) {
        uint64_t high = plane(message, 1), g_high = plane(g, 1) >> 1;
        digit[1][0] = digit[0][0] ^ bit_product(low ^ high, g_low ^ g_high);
        digit[0][0] ^= bit_product(high, g_high);
    }
    put_symbols(p, digit, f->n, word);
}

/* The test has left the product. */
INLINE void read_bits(const int p, Fast *f, const uint8_t *word, uint8_t *message)
{
    (void)word;
    put_symbols(p, (uint64_t (*)[LIMBS])f->products[0], f->k, message);
}
#else
/* The same as a sum of turns. What is read behind g is no place. */
INLINE void code_bits(const int p, Fast *f, const uint8_t *message, int length, uint8_t *word)
{
    Part sum[2][PARTS] = {{{0}}};
    Bits bits = load_bits(f->book + AT_G, p);
    turn_bits(f, &bits, p);
    for (int u = 0; u < length; u++)
        add_turned(f->turns, turn_at(f->n - u, message[u] ? message[u] : 1), -(uint64_t)(message[u] != 0), p, sum);
    bits = bits_of(sum);
    put_symbols(p, bits.digit, f->n, word);
}

INLINE void read_bits(const int p, Fast *f, const uint8_t *word, uint8_t *message)
{
    uint64_t turns[3 * ROW / 8];
    Bits bits = load_bits(word, p);
    spread_bits(f, &bits, p, 1, turns);
    bits = test_product(f, turns, p);
    put_symbols(p, bits.digit, f->k, message);
}
#endif

/* Symbols times the factor whose rows are given, as a sum of its multiples, each turned by the symbol's place. */
INLINE void code_rows(const Fast *f, const uint8_t *rows, const uint8_t *message, int length, const int vecs, uint8_t *word)
{
    for (int c = 0; c < vecs; c += CHUNK) {
        Vec sum[CHUNK] = {{0}};
        for (int u = 0; u < length; u++)
            for (int v = 0; v < CHUNK && v < vecs; v++)
                sum[v] ^= get(rows + message[u] * ROW + f->k - 1 - u + (c + v) * VB);
        for (int v = 0; v < CHUNK && v < vecs; v++)
            put(word + (c + v) * VB, sum[v]);
    }
}

static void sum_multiples(const Fast *f, const uint8_t *rows, const uint8_t *message, int length, uint8_t *word)
{
    switch (f->vecs) {
    case 1: code_rows(f, rows, message, length, 1, word); break;
    case 2: code_rows(f, rows, message, length, 2, word); break;
    default: code_rows(f, rows, message, length, WORD, word); break;
    }
}

/* From p 4 on the check has left the rows. */
static void code_symbols(Fast *f, const uint8_t *message, int length, uint8_t *word)
{
    if (f->p <= 3)
        generator_rows(f, f->book + AT_G);
    sum_multiples(f, f->multiples, message, length, word);
}

/* The message of the code word that was decoded last. From p 3 on it takes the multiples of h, made for the first one. */
static void read_word(Fast *f, const uint8_t *word, uint8_t *rows, int first, uint8_t *message)
{
    switch (f->p) {
    case 1: read_bits(1, f, word, message); break;
    case 2: read_bits(2, f, word, message); break;
    default:
        if (first)
            factor_rows(f, f->h, f->k, rows);
        sum_multiples(f, rows, word, f->k, message);
    }
}

uint32_t SIZED(code)(const uint8_t *book, size_t book_len, const uint8_t *message, size_t message_len, uint8_t *word, size_t word_len)
{
    Fast f;
    uint8_t padded[ROOM] ALIGNED = {0}, product[ROOM] ALIGNED;
    unsigned number = refusal(&f, book, book_len);
    if (number)
        return number;
    if (message_len < 1 || message_len > (size_t)f.k)
        return 9;
    if (word_len != (size_t)f.n)
        return 10;
    if (take_symbols(&f, message, message_len, padded))
        return 11;
    switch (f.p) {
    case 1: code_bits(1, &f, padded, (int)message_len, product); break;
    case 2: code_bits(2, &f, padded, (int)message_len, product); break;
    default: code_symbols(&f, padded, (int)message_len, product); break;
    }
    memcpy(word, product, word_len);
    return 0;
}

uint32_t SIZED(decode)(const uint8_t *book, size_t book_len, const uint8_t *received, size_t received_len, uint8_t *answer, size_t answer_len)
{
    Fast f;
    int ready = 0;
    unsigned number = refusal(&f, book, book_len);
    if (number)
        return number;
    if (received_len != (size_t)f.n)
        return 9;
    if (answer_len != (size_t)f.n)
        return 10;
    return decode_word(&f, received, &ready, answer);
}

/* Whether any of so many bytes is no symbol. */
static int has_large(const Fast *f, const uint8_t *given, size_t length)
{
    uint8_t bits = 0;
    for (size_t i = 0; i < length; i++)
        bits |= given[i];
    return (bits & ~(f->q - 1)) != 0;
}

INLINE void unmix(const uint8_t *received, size_t n, const size_t words, uint8_t (*apart)[ROOM])
{
    for (size_t j = 0; j < n; j++)
        for (size_t m = 0; m < words; m++)
            apart[m][j] = *received++;
}

/* The words of a burst, no longer mixed, or its refusal behind those of the book; whether the outputs fit is given. */
static unsigned take_burst(const Fast *f, uint32_t words, const uint8_t *received, size_t received_len, int fit, uint8_t (*apart)[ROOM])
{
    size_t n = (size_t)f->n;
    if (words < 1 || words > SHIFTSUM_BURST_MAX)
        return 14;
    if (received_len != n * words)
        return 9;
    if (!fit)
        return 10;
    if (has_large(f, received, received_len))
        return 11;
    if (words == SHIFTSUM_BURST_MAX) /* a loop whose length the compiler knows */
        unmix(received, n, SHIFTSUM_BURST_MAX, apart);
    else
        unmix(received, n, words, apart);
    return 0;
}

/* The book is checked once, and its terms are listed once, by the first word that needs them. */
uint32_t SIZED(burst)(const uint8_t *book, size_t book_len, uint32_t words, const uint8_t *received, size_t received_len, uint8_t *answers,
                      size_t answers_len, struct shiftsum_record *records, size_t records_len)
{
    Fast f;
    uint8_t apart[SHIFTSUM_BURST_MAX][ROOM];
    int ready = 0;
    unsigned number = refusal(&f, book, book_len);
    if (number)
        return number;
    size_t n = (size_t)f.n;
    number = take_burst(&f, words, received, received_len, answers_len == n * words && records_len == words, apart);
    if (number)
        return number;
    for (size_t m = 0; m < words; m++) {
        uint32_t r = decode_word(&f, apart[m], &ready, answers + m * n);
        records[m] = (struct shiftsum_record){(uint8_t)SHIFTSUM_KIND(r), (uint8_t)SHIFTSUM_ROUNDS(r), (uint8_t)SHIFTSUM_CHANGED(r)};
    }
    return 0;
}

/* Messages are kept apart until no word is left that may be held. */
uint32_t SIZED(game)(const uint8_t *book, size_t book_len, uint32_t words, const uint8_t *received, size_t received_len, uint8_t *messages,
                     size_t messages_len)
{
    Fast f;
    uint8_t apart[SHIFTSUM_BURST_MAX][ROOM], read[SHIFTSUM_BURST_MAX][ROOM], answer[ROOM] ALIGNED = {0}, rows[SYMBOLS * ROW] ALIGNED;
    uint32_t held = 0;
    int ready = 0;
    unsigned number = refusal(&f, book, book_len);
    if (number)
        return number;
    size_t k = (size_t)f.k;
    number = take_burst(&f, words, received, received_len, messages_len == k * words, apart);
    if (number)
        return number;
    for (size_t m = 0; m < words; m++) {
        char kind = SHIFTSUM_KIND(decode_word(&f, apart[m], &ready, answer));
        held += kind == SHIFTSUM_STALLED || kind == SHIFTSUM_SPENT;
        if (held == 0)
            read_word(&f, answer, rows, m == 0, read[m]);
    }
    if (held > 0)
        return held << 8 | (uint32_t)SHIFTSUM_HELD << 24;
    for (size_t m = 0; m < words; m++)
        memcpy(messages + m * k, read[m], k);
    return (uint32_t)SHIFTSUM_WHOLE << 24;
}

typedef struct {
    Fast f;
    int ready;
} Opened;

size_t SIZED(room)(void)
{
    return sizeof(Opened) + 64;
}

static Opened *opened(void *room)
{
    return (Opened *)(((uintptr_t)room + 63) & ~(uintptr_t)63);
}

uint32_t SIZED(open)(void *room, const uint8_t *book, size_t book_len)
{
    Opened *o = opened(room);
    unsigned number = refusal(&o->f, book, book_len);
    o->ready = 0;
    return number ? number : 256u * (unsigned)o->f.duals;
}

uint32_t SIZED(next)(void *room, const uint8_t *received, uint8_t *answer)
{
    Opened *o = opened(room);
    return decode_word(&o->f, received, &o->ready, answer);
}

/* Parts where digits are numbers. What a part finds goes to `seen`, so that it is not left out. */
INLINE void part_bits(Fast *f, enum FastPart part, const uint8_t *word, const int p, Rows rows, uint64_t *seen)
{
    Bits r = load_bits(word, p);
    uint64_t one[4], *s = LIMBS == 1 ? one : f->products[0];
    if (part == FAST_LISTS)
        prepare_bits(f, p);
    else if (part == FAST_TEST)
        *seen += (unsigned)test_bits(f, &r, p);
    else if (part == FAST_PRODUCTS) {
        turn_bits(f, &r, p);
        for (int l = 0; l < f->duals; l++) {
            product_bits(f, f->lists + l * f->weight, p, s);
            *seen += s[0];
        }
    } else if (part == FAST_MATRIX)
        count_bits(f, stream_bits(f, &r, p), p, rows);
    else
        *seen += update_bits(f, rows, p).digit[0][0];
}

static void part_bytes(Fast *f, enum FastPart part, uint8_t *word, uint64_t *seen)
{
    Vec w[WORD];
    if (part == FAST_LISTS)
        prepare(f);
    else if (part == FAST_TEST) {
        load_word(f, word);
        *seen += (unsigned)is_code_word(f);
    } else if (part == FAST_PRODUCTS)
        for (int l = 0; l < f->duals; l++) {
            sum_terms(f, f->lists + l * f->weight, WORD, w);
            *seen += w[0][0];
        }
    else if (part == FAST_MATRIX)
        count(f);
    else
        *seen += (unsigned)update(f, word);
}

static void any_part(Fast *f, enum FastPart part, const uint8_t *book, size_t book_len, uint8_t *word, Rows rows, uint64_t *seen)
{
    if (part == FAST_CHECK)
        *seen += refusal(f, book, book_len);
    else if (f->p == 1)
        part_bits(f, part, word, 1, rows, seen);
    else if (f->p == 2)
        part_bits(f, part, word, 2, rows, seen);
    else
        part_bytes(f, part, word, seen);
}

uint64_t SIZED(part)(void *room, enum FastPart part, const uint8_t *book, size_t book_len, const uint8_t *received, long times)
{
    Fast *f = &opened(room)->f;
    uint8_t word[ROOM] ALIGNED = {0};
    Rows rows = {{{0}}};
    uint64_t seen = 0;
    refusal(f, book, book_len);
    memcpy(word, received, (size_t)f->n);
    for (enum FastPart before = FAST_CHECK; before < part; before++) /* what the part reads */
        any_part(f, before, book, book_len, word, rows, &seen);
    for (long i = 0; i < times; i++)
        any_part(f, part, book, book_len, word, rows, &seen);
    return seen;
}
