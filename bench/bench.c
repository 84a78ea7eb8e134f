/*
 * Measures the library against the transcription (literal.c) and the best C (fast.c, by two compilers, with and without AVX2): whole decodes, checks,
 * rounds, growth, remainders, coding, bursts and games, these two against the library's own calls that would do the same in place of the
 * transcription. Every time is the least of many short runs, taken in turns, since the machine may be shared. First all must agree on every word.
 *
 *   bench BOOKS OUT                       writes OUT/table.txt, OUT/table.md, OUT/table.csv, OUT/growth.csv
 *   bench words BOOKS BOOK CLASS COUNT    the book and words of a class (clean, one), as decode_stream reads them
 */
#define NAME gcc
#include "fast.h"
#include "literal.h"
#include "shiftsum.h"

#include <stdio.h>
#include <stdlib.h>
#include <string.h>
#include <time.h>

#define COMPILED(name) \
    uint32_t name##_check(const uint8_t *, size_t); \
    uint32_t name##_code(const uint8_t *, size_t, const uint8_t *, size_t, uint8_t *, size_t); \
    uint32_t name##_remainder(const uint8_t *, size_t, const uint8_t *, size_t, uint8_t *, size_t); \
    uint32_t name##_decode(const uint8_t *, size_t, const uint8_t *, size_t, uint8_t *, size_t); \
    uint32_t name##_burst(const uint8_t *, size_t, uint32_t, const uint8_t *, size_t, uint8_t *, size_t, struct shiftsum_record *, size_t); \
    uint32_t name##_game(const uint8_t *, size_t, uint32_t, const uint8_t *, size_t, uint8_t *, size_t);
COMPILED(clang)
COMPILED(gcc_avx2)
COMPILED(clang_avx2)

enum { OURS, LITERAL, GCC, CLANG, GCC_AVX2, CLANG_AVX2, WAYS, WORDS = 4, LEAST_TURNS = 60, CLEAN = 0, ONE_ROUND, MOST_ROUNDS, CLASSES };
enum { LONGEST_BOOK = 8454, LONGEST_WORD = 255, SHORT = 63, LONG = 255 };
enum { BURST = 16, RECORD = sizeof(struct shiftsum_record), LONGEST_BURST = BURST * LONGEST_WORD, SPARE = LONGEST_BURST + RECORD * (BURST + 1) + 1 };

typedef uint32_t Check(const uint8_t *, size_t);
typedef uint32_t Call(const uint8_t *, size_t, const uint8_t *, size_t, uint8_t *, size_t);

/* A call by every way, and what is said where two differ. */
typedef struct {
    const char *differ;
    Call *calls[WAYS];
} Operation;

static Check *const checks[WAYS] = {shiftsum_check, literal_check, gcc_check, clang_check, gcc_avx2_check, clang_avx2_check};
static const Operation decoding = {"answers differ", {shiftsum_decode, literal_decode, gcc_decode, clang_decode, gcc_avx2_decode, clang_avx2_decode}};
static const Operation dividing = {"remainders differ", {shiftsum_remainder, literal_remainder, gcc_remainder, clang_remainder, gcc_avx2_remainder,
                                                         clang_avx2_remainder}};
static const Operation coding = {"code words differ", {shiftsum_code, literal_code, gcc_code, clang_code, gcc_avx2_code, clang_avx2_code}};

/* M and the count of records of what follows. Bursts and games are called in the form of the others, a burst's records behind its answers. */
static uint32_t burst_words;
static size_t burst_records;

#define BURSTS(name) \
    static uint32_t name##_taken(const uint8_t *book, size_t len, const uint8_t *received, size_t in, uint8_t *messages, size_t out) \
    { \
        return name##_game(book, len, burst_words, received, in, messages, out); \
    } \
    static uint32_t name##_mixed(const uint8_t *book, size_t len, const uint8_t *received, size_t in, uint8_t *output, size_t out) \
    { \
        const size_t answers = out - RECORD * burst_records; \
        return name##_burst(book, len, burst_words, received, in, output, answers, (struct shiftsum_record *)(output + answers), burst_records); \
    }
BURSTS(shiftsum)
BURSTS(gcc)
BURSTS(clang)
BURSTS(gcc_avx2)
BURSTS(clang_avx2)

/* A burst that is not refused by a call for each word. The words stand behind the burst, one after another, so that no time goes into unmixing. */
static uint32_t singly(const uint8_t *book, size_t len, const uint8_t *received, size_t in, uint8_t *output, size_t out)
{
    const size_t n = in / burst_words;
    struct shiftsum_record *records = (struct shiftsum_record *)(output + in);
    (void)out;
    for (size_t m = 0; m < burst_words; m++) {
        uint32_t r = shiftsum_decode(book, len, received + in + m * n, n, output + m * n, n);
        records[m] = (struct shiftsum_record){(uint8_t)SHIFTSUM_KIND(r), (uint8_t)SHIFTSUM_ROUNDS(r), (uint8_t)SHIFTSUM_CHANGED(r)};
    }
    return 0;
}

/* A game that is not refused by a burst and, where none of its words is held, a read of each. */
static uint32_t burst_and_reads(const uint8_t *book, size_t len, const uint8_t *received, size_t in, uint8_t *messages, size_t out)
{
    const size_t n = in / burst_words, k = out / burst_words;
    struct shiftsum_record records[BURST];
    uint8_t answers[LONGEST_BURST];
    uint32_t held = 0;
    shiftsum_burst(book, len, burst_words, received, in, answers, in, records, burst_words);
    for (size_t m = 0; m < burst_words; m++)
        held += records[m].kind == SHIFTSUM_STALLED || records[m].kind == SHIFTSUM_SPENT;
    for (size_t m = 0; m < burst_words && held == 0; m++)
        shiftsum_read(book, len, answers + m * n, n, messages + m * k, k);
    return held << 8 | (uint32_t)(held > 0 ? SHIFTSUM_HELD : SHIFTSUM_WHOLE) << 24;
}

/* Bursts are held to the library's single decodes, and games to its bursts and reads, where other calls are held to the transcription. */
static const Operation mixing = {"bursts differ", {shiftsum_mixed, singly, gcc_mixed, clang_mixed, gcc_avx2_mixed, clang_avx2_mixed}};
static const Operation taking = {"games differ", {shiftsum_taken, burst_and_reads, gcc_taken, clang_taken, gcc_avx2_taken, clang_avx2_taken}};
static const char *const class_names[CLASSES] = {"clean", "one round", "most rounds"};

/* Width is the length of a body, SHORT or LONG. */
typedef struct {
    char name[32];
    uint8_t bytes[LONGEST_BOOK];
    size_t len, width, n, k;
    unsigned q, duals, weight;
} Book;

/* Words of one class, all with the same number of rounds, or messages, or bursts; what is made of them, and the sizes of input and output. */
typedef struct {
    uint8_t word[WORDS][2 * LONGEST_BURST];
    int count, rounds;
    char kind;
    const Operation *operation;
    size_t in, out;
} Class;

static int ways = WAYS; /* fewer where the machine has no AVX2 */
static uint64_t seed;

static uint64_t random64(void)
{
    uint64_t z = seed += 0x9e3779b97f4a7c15u;
    z = (z ^ (z >> 30)) * 0xbf58476d1ce4e5b9u;
    z = (z ^ (z >> 27)) * 0x94d049bb133111ebu;
    return z ^ (z >> 31);
}

static double microseconds(void)
{
    struct timespec t;
    clock_gettime(CLOCK_MONOTONIC, &t);
    return (double)t.tv_sec * 1e6 + (double)t.tv_nsec * 1e-3;
}

static void fail(const char *what, const char *name)
{
    fprintf(stderr, "bench: %s: %s\n", name, what);
    exit(1);
}

static size_t at_dual_word(const Book *b, unsigned l)
{
    return b->width + 8 + (b->width + 1) * l;
}

/* What is read off a book's bytes; L may be cut down. */
static void describe(Book *b, unsigned duals)
{
    size_t degree;
    b->duals = duals;
    b->len = at_dual_word(b, duals) - 1;
    b->n = ((size_t)1 << b->bytes[1]) - 1;
    b->q = 1u << b->bytes[2];
    for (degree = b->n - 1; b->bytes[4 + degree] == 0; degree--)
        ;
    b->k = b->n - degree;
    b->weight = 0;
    for (size_t j = 0; j < b->n; j++)
        b->weight += b->bytes[at_dual_word(b, 0) + j] != 0;
    for (int w = 0; w < ways; w++)
        if (checks[w](b->bytes, b->len) != 256 * duals)
            fail("not accepted", b->name);
}

static void load(Book *b, const char *folder, const char *name)
{
    char path[512];
    FILE *f;
    snprintf(path, sizeof path, "%s/%s.book", folder, name);
    snprintf(b->name, sizeof b->name, "%s", name);
    f = fopen(path, "rb");
    if (!f)
        fail("no such book", path);
    memset(b->bytes, 0, LONGEST_BOOK);
    b->len = fread(b->bytes, 1, LONGEST_BOOK, f);
    fclose(f);
    b->width = b->bytes[3] == 2 ? SHORT : LONG;
    describe(b, (unsigned)((b->len - b->width - 7) / (b->width + 1)));
}

/* A code word with errors in up to so many places. */
static void make_word(const Book *b, int errors, uint8_t *word)
{
    uint8_t message[LONGEST_WORD];
    for (size_t j = 0; j < b->k; j++)
        message[j] = (uint8_t)(random64() % b->q);
    if (shiftsum_code(b->bytes, b->len, message, b->k, word, b->n) != 0)
        fail("no code word", b->name);
    for (int e = 0; e < errors; e++)
        word[random64() % b->n] ^= (uint8_t)(random64() % b->q);
}

/* Result and output of every way, the transcription's only where it is asked for. */
static uint32_t agreed(const Operation *o, const Book *b, const uint8_t *word, size_t in, size_t out, int with_literal)
{
    uint8_t first[SPARE], other[SPARE];
    memset(first, 0xee, sizeof first); /* a refused call writes nothing */
    uint32_t result = o->calls[GCC](b->bytes, b->len, word, in, first, out);
    for (int w = 0; w < ways; w++) {
        if (w == LITERAL && !with_literal)
            continue;
        memset(other, 0xee, sizeof other);
        if (o->calls[w](b->bytes, b->len, word, in, other, out) != result || memcmp(first, other, sizeof first) != 0)
            fail(o->differ, b->name);
    }
    return result;
}

/* Words of a class: of most rounds, the most that are found in so many trials. */
static void find(const Book *b, int class, int trials, Class *c)
{
    uint8_t word[LONGEST_WORD], answer[LONGEST_WORD];
    c->operation = &decoding;
    c->in = c->out = b->n;
    c->count = 0;
    c->rounds = class == CLEAN ? 0 : 1;
    for (int i = 0; i < trials && (class == MOST_ROUNDS || c->count < WORDS); i++) {
        make_word(b, class == CLEAN ? 0 : 1 + (int)(random64() % (1 + (class == ONE_ROUND ? 2 : b->n / 2))), word);
        uint32_t r = gcc_decode(b->bytes, b->len, word, b->n, answer, b->n);
        int rounds = (int)SHIFTSUM_ROUNDS(r);
        if (class == ONE_ROUND && (SHIFTSUM_KIND(r) != SHIFTSUM_MENDED || rounds != 1))
            continue;
        if (rounds < c->rounds || (rounds == c->rounds && c->count == WORDS) || (class == MOST_ROUNDS && rounds == 0))
            continue;
        if (rounds > c->rounds)
            c->count = 0;
        c->rounds = rounds;
        c->kind = SHIFTSUM_KIND(r);
        memcpy(c->word[c->count++], word, b->n);
    }
    for (int i = 0; i < c->count; i++)
        agreed(&decoding, b, c->word[i], b->n, b->n, i == 0);
}

/* One run of `times` calls; the words in turn. No word: the check. */
static double run(const Book *b, const Class *c, int way, long times)
{
    uint8_t answer[SPARE];
    double start = microseconds();
    for (long i = 0; i < times; i++)
        if (c)
            c->operation->calls[way](b->bytes, b->len, c->word[i % c->count], c->in, answer, c->out);
        else
            checks[way](b->bytes, b->len);
    return (microseconds() - start) / (double)times;
}

/*
 * The least time of a call in microseconds, for every way, in turns. A run has every word as often; a slow transcription has three runs of one word
 * at most, so that its ratios are rough.
 */
static void measure(const Book *b, const Class *c, double budget, double *least)
{
    long times[WAYS];
    int words = c ? c->count : 1, slow;
    double start = microseconds();
    for (int w = 0; w < ways; w++) {
        double t = run(b, c, w, 1);
        times[w] = t < 40 ? ((long)(40 / t) / words + 1) * words : words;
        least[w] = t;
    }
    for (int i = 0; i < 2 && least[LITERAL] > 4000 && least[LITERAL] < 5e5; i++) {
        double t = run(b, c, LITERAL, 1);
        least[LITERAL] = t < least[LITERAL] ? t : least[LITERAL];
    }
    slow = least[LITERAL] > 4000;
    for (int w = 0; w < ways; w++)
        least[w] = w == LITERAL && slow ? least[w] : 1e18;
    for (int turn = 0; turn < LEAST_TURNS || microseconds() - start < budget; turn++)
        for (int w = 0; w < ways; w++) {
            double t = w == LITERAL && slow ? least[w] : run(b, c, w, times[w]);
            least[w] = t < least[w] ? t : least[w];
        }
}

static FILE *text, *markdown, *csv, *growth;

/* Held: what the library is held to, the transcription or its own other calls; it has the second place among the ways. */
static void heading(const char *title, const char *first, const char *second, const char *held)
{
    fprintf(text, "\n%s\n%-12s %-18s %10s  /%-7s %9s %9s %9s\n", title, first, second, "ours, us", held, "/gcc", "/clang", "/AVX2");
    fprintf(markdown, "\n%s\n\n| %s | %s | ours, us | ours / %s | ours / best C, gcc | ours / best C, clang | ours / best C, AVX2 |\n"
            "|---|---|---:|---:|---:|---:|---:|\n", title, first, second, held);
}

static void row(const char *first, const char *second, const double *t)
{
    double avx2 = ways < WAYS ? 0 : t[GCC_AVX2] < t[CLANG_AVX2] ? t[GCC_AVX2] : t[CLANG_AVX2];
    double ratio[4] = {t[OURS] / t[LITERAL], t[OURS] / t[GCC], t[OURS] / t[CLANG], avx2 > 0 ? t[OURS] / avx2 : 0};
    fprintf(text, "%-12s %-18s %10.2f %9.4f %9.1f %9.1f %9.1f\n", first, second, t[OURS], ratio[0], ratio[1], ratio[2], ratio[3]);
    fprintf(markdown, "| %s | %s | %.2f | %.4f | %.1f | %.1f | %.1f |\n", first, second, t[OURS], ratio[0], ratio[1], ratio[2], ratio[3]);
    fprintf(csv, "%s,%s", first, second);
    for (int w = 0; w < WAYS; w++)
        fprintf(csv, ",%.4f", w < ways ? t[w] : 0);
    fprintf(csv, ",%.4f,%.2f,%.2f,%.2f\n", ratio[0], ratio[1], ratio[2], ratio[3]);
    fflush(text);
}

/* The transcription decodes few words of n 63 and more. */
static void random_words_agree(const Book *b)
{
    uint8_t word[LONGEST_WORD];
    for (int i = 0; i < 200; i++) {
        make_word(b, i % 16, word);
        if (i % 40 == 39)
            word[random64() % b->n] = (uint8_t)random64(); /* refused, mostly */
        agreed(&decoding, b, word, b->n, b->n, b->n < 63 || i % 45 == 10);
    }
}

/* The symbol whose product with b is a. */
static uint8_t divided(const Book *book, unsigned a, unsigned b)
{
    static const unsigned polynomials[] = {0, 3, 7, 11, 19, 37, 91};
    for (unsigned c = 0; c < book->q; c++) {
        unsigned product = 0;
        for (int i = 5; i >= 0; i--) {
            product = product << 1 ^ (c >> i & 1 ? b : 0);
            product ^= product & book->q ? polynomials[book->bytes[2]] : 0;
        }
        if (product == a)
            return (uint8_t)c;
    }
    return 0;
}

/* The same refusal, or none, by every way. */
static uint32_t checks_agree(const Book *b)
{
    uint32_t result = literal_check(b->bytes, b->len);
    for (int w = 0; w < ways; w++)
        if (w != LITERAL && checks[w](b->bytes, b->len) != result)
            fail("checks differ", b->name);
    return result;
}

/* One byte changed. */
static void damaged_books_agree(const Book *b)
{
    for (int i = 0; i < 300; i++) {
        Book damaged = *b;
        damaged.bytes[random64() % b->len] ^= (uint8_t)(i % 3 ? 1u << random64() % 8 : random64());
        damaged.len -= i % 50 == 49;
        checks_agree(&damaged);
    }
}

/* Every byte 3, and s of every form, with lengths of the one form, the other, both and neither. */
static void forms_agree(const Book *b)
{
    static const size_t lengths[] = {0, 3, 4, 133, 134, 517, 518, 519, 774, 2054, 2118, 2182, 2310, 8198, 8453, 8454};
    for (unsigned i = 0; i < 10 * sizeof lengths / sizeof *lengths; i++) {
        Book other = *b;
        other.bytes[3] = (uint8_t)(i % 10);
        other.len = lengths[i / 10];
        checks_agree(&other);
        other.len = b->len;
        other.bytes[1] = (uint8_t)(i / 10);
        checks_agree(&other);
        other.bytes[3] = b->bytes[3];
        checks_agree(&other);
    }
}

/* A dual word in place of another, turned and multiplied: refused by 8. With one more symbol changed: by 7, or not at all. */
static void turned_books_agree(const Book *b)
{
    for (int i = 0; i < 40 && b->duals > 1; i++) {
        Book turned = *b;
        unsigned l = (unsigned)(random64() % b->duals), m = (l + 1 + (unsigned)(random64() % (b->duals - 1))) % b->duals;
        const uint8_t *from = b->bytes + at_dual_word(b, m);
        uint8_t *to = turned.bytes + at_dual_word(b, l);
        size_t t = random64() % b->n;
        while (from[t] == 0)
            t = (t + 1) % b->n;
        for (size_t j = 0; j < b->n; j++)
            to[j] = divided(b, from[(t + j) % b->n], from[t]);
        if (i % 4 == 3)
            to[1 + random64() % (b->n - 1)] ^= 1;
        uint32_t result = checks_agree(&turned);
        if (i % 4 != 3 && result != 8)
            fail("a turned copy is not refused", b->name);
    }
}

enum { BOOKS = 9, DEAR = 11 };
static const char *const books[BOOKS] = {"a", "n15p4", "n63p1", "n63p2", "n63p6", "n127p1", "n255p1", "n255p2", "n255p4"};
static const char *const dear[DEAR] = {"n63p1_light", "n63p1_equal", "n63p1_dear", "n63p2_equal", "n63p2_dear", "n63p6_equal", "n63p6_dear",
                                       "n127p1_dear", "n255p1_dear", "n255p2_dear", "n255p4_dear"};

/* Loads a book for some rows. Long books leave the random numbers as they were, so that no row of a short one has other words for them. */
static uint64_t begin(Book *b, const char *folder, const char *name)
{
    load(b, folder, name);
    return seed;
}

static void end(const Book *b, uint64_t kept)
{
    seed = b->width == LONG ? kept : seed;
}

/* Books whose dual words have one signature in the library and are not alike, so that it compares each with each. The best C's signature is another. */
static void dear_checks(const char *folder)
{
    for (int i = 0; i < DEAR; i++) {
        Book b;
        double t[WAYS];
        uint64_t kept = begin(&b, folder, dear[i]);
        turned_books_agree(&b);
        measure(&b, NULL, 4e5, t);
        row(dear[i], "equal signatures", t);
        end(&b, kept);
    }
}

/* A book's decodes, a row for each class, its check, and a round; the count of rounds. */
static int decode_rows(const Book *b, double *checked, double *round)
{
    double decoded[CLASSES][WAYS];
    char label[32];
    Class c;
    random_words_agree(b);
    damaged_books_agree(b);
    forms_agree(b);
    turned_books_agree(b);
    for (int class = CLEAN; class < CLASSES; class++) {
        find(b, class, 4000, &c);
        snprintf(label, sizeof label, "%d rounds (%c)", c.rounds, c.kind);
        measure(b, &c, 6e5, decoded[class]);
        row(b->name, class == MOST_ROUNDS ? label : class_names[class], decoded[class]);
    }
    measure(b, NULL, 4e5, checked);
    for (int w = 0; w < WAYS; w++)
        round[w] = (decoded[MOST_ROUNDS][w] - decoded[CLEAN][w]) / c.rounds;
    return c.rounds;
}

static void whole_decodes(const char *folder)
{
    double checked[BOOKS][WAYS], rounds[BOOKS][WAYS];
    char label[32];
    int per[BOOKS];
    heading("Whole decodes over the C boundary, the book checked in each call", "book", "words", "literal");
    for (int i = 0; i < BOOKS; i++) {
        Book b;
        uint64_t kept = begin(&b, folder, books[i]);
        per[i] = decode_rows(&b, checked[i], rounds[i]);
        end(&b, kept);
    }
    heading("One round: the difference of the words of most rounds and the clean ones, a round", "book", "rounds", "literal");
    for (int i = 0; i < BOOKS; i++) {
        snprintf(label, sizeof label, "%d", per[i]);
        row(books[i], label, rounds[i]);
    }
    heading("The check of a book", "book", "", "literal");
    for (int i = 0; i < BOOKS; i++)
        row(books[i], "check", checked[i]);
    dear_checks(folder);
}

/* The transcription divides few words of n 63 and more. Now and then a word is refused, and an output of another size. */
static void remainders_agree(const Book *b)
{
    uint8_t word[LONGEST_WORD];
    for (int i = 0; i < 400; i++) {
        make_word(b, i % 16, word);
        if (i % 40 == 39)
            word[random64() % b->n] = (uint8_t)random64();
        agreed(&dividing, b, word, b->n, b->n - b->k + (i % 50 == 49), b->n < 63 || i % (b->n > 63 ? 50 : 10) == 9);
    }
}

/* Words with errors, as a receiver sorts them. After the decodes, so that none of their rows has other words for it. */
static void whole_remainders(const char *folder)
{
    double t[WAYS];
    heading("The remainder of a word over the C boundary, the book checked in each call", "book", "", "literal");
    for (int i = 0; i < BOOKS; i++) {
        Book b;
        Class c;
        uint64_t kept = begin(&b, folder, books[i]);
        remainders_agree(&b);
        find(&b, ONE_ROUND, 4000, &c);
        c.operation = &dividing;
        c.out = b.n - b.k;
        measure(&b, &c, 4e5, t);
        row(books[i], "remainder", t);
        end(&b, kept);
    }
}

/* The transcription codes few messages of n 63 and more. No symbol and one too many are refused by 9; now and then a large symbol is, or another size. */
static void codes_agree(const Book *b)
{
    uint8_t message[SPARE];
    for (int i = 0; i < 400; i++) {
        size_t length = i % 40 == 19 ? 0 : i % 40 == 39 ? b->k + 1 : 1 + random64() % b->k;
        for (size_t u = 0; u < length; u++)
            message[u] = (uint8_t)(random64() % (i % 30 == 29 ? 256 : b->q));
        uint32_t result = agreed(&coding, b, message, length, b->n + (i % 50 == 49), b->n < 63 || i % (b->n > 63 ? 50 : 10) == 9);
        if ((result == 9) != (length == 0 || length > b->k))
            fail("the wrong lengths are refused", b->name);
    }
}

/* Random messages of so many symbols. */
static void draw_messages(const Book *b, size_t length, Class *c)
{
    c->operation = &coding;
    c->in = length;
    c->out = b->n;
    c->count = WORDS;
    for (size_t i = 0; i < WORDS * length; i++)
        c->word[i / length][i % length] = (uint8_t)(random64() % b->q);
    for (int i = 0; i < WORDS; i++)
        agreed(&coding, b, c->word[i], length, b->n, i == 0);
}

/* Full messages, half ones and single symbols. After the others, so that no other row has other words for it. */
static void whole_codes(const char *folder)
{
    double t[WAYS];
    char label[32];
    heading("Coding a message over the C boundary, the book checked in each call", "book", "symbols of k", "literal");
    for (int i = 0; i < BOOKS; i++) {
        Book b;
        Class c;
        uint64_t kept = begin(&b, folder, books[i]);
        codes_agree(&b);
        const size_t lengths[3] = {b.k, (b.k + 1) / 2, 1};
        for (int j = 0; j < 3; j++) {
            draw_messages(&b, lengths[j], &c);
            measure(&b, &c, 4e5, t);
            snprintf(label, sizeof label, "%zu of %zu", lengths[j], b.k);
            row(books[i], label, t);
        }
        end(&b, kept);
    }
}

/* Puts a word into a burst, and behind the burst. */
static void put_word(const Book *b, size_t words, size_t m, const uint8_t *word, uint8_t *burst)
{
    for (size_t j = 0; j < b->n; j++)
        burst[j * words + m] = word[j];
    memcpy(burst + (words + m) * b->n, word, b->n);
}

/* The bytes that are made of so many words: of a burst answers and records, of a game messages. */
static size_t made_of(const Operation *o, const Book *b, size_t words)
{
    return words * (o == &mixing ? b->n + RECORD : b->k);
}

/* Refused by the number, and so not tried by the library's other calls. */
static void refused(const Operation *o, const Book *b, uint32_t words, const uint8_t *burst, size_t in, size_t out, uint32_t number)
{
    burst_words = words;
    if (agreed(o, b, burst, in, out, 0) != number)
        fail("refused by another number", b->name);
}

/* Bursts or games of every M, with words of up to seven errors, games also of up to one, and the same refused by a size, a symbol or M. */
static void bursts_agree(const Operation *o, const Book *b)
{
    static const uint32_t wrong[] = {0, BURST + 1, 256 + BURST, UINT32_MAX};
    uint8_t word[LONGEST_WORD], burst[2 * LONGEST_BURST];
    for (uint32_t i = 0; i < 4 * BURST; i++) {
        const uint32_t words = 1 + i % BURST;
        const size_t in = words * b->n, out = made_of(o, b, words);
        for (size_t m = 0; m < words; m++) {
            make_word(b, (int)(random64() % (o == &taking && i < 2 * BURST ? 2 : 8)), word);
            put_word(b, words, m, word, burst);
        }
        burst_words = words;
        burst_records = words;
        agreed(o, b, burst, in, out, 1);
        refused(o, b, words, burst, in - 1, out, 9);
        refused(o, b, words, burst, in, out - 1, 10);
        burst_records = words + 1;
        refused(o, b, words, burst, in, made_of(o, b, words) + RECORD, 10);
        burst_records = words;
        burst[random64() % in] |= (uint8_t)b->q;
        refused(o, b, words, burst, in, out, 11);
        refused(o, b, wrong[i % 4], burst, in, out, 14);
    }
}

/* A burst or a game of words of a class. */
static void draw_burst(const Operation *o, const Book *b, int class, size_t words, Class *c)
{
    Class few;
    for (size_t m = 0; m < words; m++) {
        if (m % WORDS == 0)
            find(b, class, 4000, &few);
        put_word(b, words, m, few.word[m % (size_t)few.count], c->word[0]);
    }
    c->operation = o;
    c->count = 1;
    c->in = words * b->n;
    c->out = made_of(o, b, words);
    burst_words = (uint32_t)words;
    burst_records = words;
    if (SHIFTSUM_REFUSAL(agreed(o, b, c->word[0], c->in, c->out, 1)) != 0)
        fail("refused", b->name);
}

/* Bursts or games of the most words, and of one. Last of all, so that no other row has other words for them. */
static void burst_rows(const Operation *o, const char *folder, const char *const *labels)
{
    static const size_t counts[2] = {BURST, 1};
    double t[WAYS];
    for (int i = 0; i < BOOKS; i++) {
        Book b;
        Class c;
        uint64_t kept = begin(&b, folder, books[i]);
        bursts_agree(o, &b);
        for (int j = 0; j < 4; j++) {
            draw_burst(o, &b, j % 2 ? ONE_ROUND : CLEAN, counts[j / 2], &c);
            measure(&b, &c, 4e5, t);
            row(books[i], labels[j], t);
        }
        end(&b, kept);
    }
}

static void whole_bursts(const char *folder)
{
    static const char *const bursts[] = {"16 clean", "16 mended", "1 clean", "1 mended"};
    static const char *const games[] = {"game of 16 clean", "game of 16 mended", "game of 1 clean", "game of 1 mended"};
    heading("Bursts over the C boundary, the book checked once; singly: the library's decodes of the same words, the book checked in each", "book",
            "words", "singly");
    burst_rows(&mixing, folder, bursts);
    heading("Games over the C boundary, the book checked once; apart: the library's burst and reads of the same words, the book checked in each",
            "book", "words", "apart");
    burst_rows(&taking, folder, games);
}

/* A round's time for each way, and divided by L * weight * n, which should hardly change. */
static void growth_row(const char *by, const Book *b, unsigned rounds, const double *t)
{
    double size = (double)b->duals * b->weight * (double)b->n;
    fprintf(text, "%-7s %-10s %3u %4u %4zu %4u %11.3f %11.4f %11.4f\n", by, b->name, b->duals, b->weight, b->n, rounds, t[OURS],
            1e3 * t[OURS] / size, 1e3 * t[GCC] / size);
    fprintf(markdown, "| %s | %s | %u | %u | %zu | %u | %.3f | %.4f | %.4f |\n", by, b->name, b->duals, b->weight, b->n, rounds, t[OURS],
            1e3 * t[OURS] / size, 1e3 * t[GCC] / size);
    fprintf(growth, "%s,%s,%u,%u,%zu,%u,%.0f,%.5f,%.5f,%.5f\n", by, b->name, b->duals, b->weight, b->n, rounds, size, t[OURS], t[GCC], t[LITERAL]);
    fflush(text);
}

/* Time a round on words of most rounds, less a clean word's. */
static void grow(const char *by, Book *b, int most)
{
    Class clean, long_run;
    double base[WAYS], t[WAYS];
    b->bytes[b->width + 5] = (uint8_t)most;
    find(b, CLEAN, WORDS, &clean);
    find(b, MOST_ROUNDS, 600, &long_run);
    long_run.count = 1; /* the transcription is slow */
    measure(b, &clean, 1.5e5, base);
    measure(b, &long_run, 2.5e5, t);
    for (int w = 0; w < ways; w++)
        t[w] = (t[w] - base[w]) / long_run.rounds;
    growth_row(by, b, (unsigned)long_run.rounds, t);
}

static void growths(const char *folder)
{
    static const char *const heavier[] = {"n63p2", "n63p2w20", "n63p2w28", "n63p2w44"};
    static const char *const longer[] = {"n15p1", "n31p1", "n63p1", "n127p1w8", "n255p1w8"};
    Book b;
    const char *title = "Growth: a round's time, and the same divided by L * weight * n";
    fprintf(text, "\n%s\n%-7s %-10s %3s %4s %4s %4s %11s %11s %11s\n", title, "by", "book", "L", "wt", "n", "rnds", "ours, us", "ours, ns/", "gcc, ns/");
    fprintf(markdown, "\n%s\n\n| by | book | L | weight | n | rounds | ours, us a round | ours, ns / (L weight n) | best C gcc, ns / (L weight n) |\n"
            "|---|---|---:|---:|---:|---:|---:|---:|---:|\n", title);
    for (unsigned l = 1; l <= 32; l *= 2) {
        load(&b, folder, "n63p2");
        describe(&b, l);
        grow("L", &b, 4);
    }
    for (int i = 0; i < 4; i++) {
        load(&b, folder, heavier[i]);
        grow("weight", &b, 4);
    }
    for (int i = 0; i < 5; i++) {
        uint64_t kept = begin(&b, folder, longer[i]);
        describe(&b, 8);
        grow("n", &b, 4);
        end(&b, kept);
    }
    for (int i = 1; i <= 32; i *= 2) {
        load(&b, folder, "n63p2");
        describe(&b, 8);
        grow("rounds", &b, i);
    }
}

/* The least time of one part: of many runs of 40, less that of runs of none. */
static double part_time(void *room, enum FastPart part, const Book *b, const uint8_t *word)
{
    double least[2] = {1e9, 1e9};
    for (int turn = 0; turn < 800; turn++)
        for (int i = 0; i < 2; i++) {
            double start = microseconds();
            gcc_part(room, part, b->bytes, b->len, word, 40 * i);
            double t = microseconds() - start;
            least[i] = t < least[i] ? t : least[i];
        }
    return (least[1] - least[0]) / 40;
}

/* What the best C spends where, in microseconds. */
static void split(const char *folder)
{
    static const char *const names[FAST_PARTS] = {"check", "lists", "test", "products", "matrix", "update"};
    const char *title = "The best C (gcc) by parts, us: check of the book, lists of terms, code word test; a round's products, matrix with its products, update";
    void *room = malloc(gcc_room());
    fprintf(text, "\n%s\n%-10s", title, "book");
    fprintf(markdown, "\n%s\n\n| book |", title);
    for (int i = 0; i < FAST_PARTS; i++) {
        fprintf(text, " %9s", names[i]);
        fprintf(markdown, " %s |", names[i]);
    }
    fprintf(markdown, "\n|---|---:|---:|---:|---:|---:|---:|");
    for (int i = 0; i < BOOKS; i++) {
        Book b;
        Class c;
        uint64_t kept = begin(&b, folder, books[i]);
        find(&b, MOST_ROUNDS, 100, &c);
        fprintf(text, "\n%-10s", books[i]);
        fprintf(markdown, "\n| %s |", books[i]);
        for (enum FastPart part = FAST_CHECK; part < FAST_PARTS; part++) {
            double t = part_time(room, part, &b, c.word[0]);
            fprintf(text, " %9.3f", t);
            fprintf(markdown, " %.3f |", t);
        }
        end(&b, kept);
    }
    fprintf(text, "\n");
    fprintf(markdown, "\n");
    free(room);
}

static FILE *create(const char *folder, const char *name)
{
    char path[512];
    FILE *f;
    snprintf(path, sizeof path, "%s/%s", folder, name);
    f = fopen(path, "w");
    if (!f)
        fail("cannot be written", path);
    return f;
}

/* The book's length, the book, and words of a class. */
static int words(const char *folder, const char *name, int class, long count)
{
    Book b;
    Class c;
    load(&b, folder, name);
    find(&b, class, 4000, &c);
    putchar((int)(b.len & 255));
    putchar((int)(b.len >> 8));
    fwrite(b.bytes, 1, b.len, stdout);
    for (long i = 0; i < count; i++)
        fwrite(c.word[i % c.count], 1, b.n, stdout);
    return 0;
}

int main(int count, char **given)
{
    __builtin_cpu_init();
    ways = __builtin_cpu_supports("avx2") ? WAYS : GCC_AVX2;
    if (count == 6 && strcmp(given[1], "words") == 0)
        return words(given[2], given[3], strcmp(given[4], "clean") == 0 ? CLEAN : ONE_ROUND, atol(given[5]));
    if (count != 3)
        fail("BOOKS OUT, or words BOOKS BOOK CLASS COUNT", "use");
    text = create(given[2], "table.txt");
    markdown = create(given[2], "table.md");
    csv = create(given[2], "table.csv");
    growth = create(given[2], "growth.csv");
    fprintf(csv, "book,words,ours us,literal us,gcc us,clang us,gcc avx2 us,clang avx2 us,ours/literal,ours/gcc,ours/clang,ours/avx2\n");
    fprintf(growth, "by,book,L,weight,n,rounds,L*weight*n,ours us,gcc us,literal us\n");
    whole_decodes(given[1]);
    split(given[1]);
    growths(given[1]);
    whole_remainders(given[1]);
    whole_codes(given[1]);
    whole_bursts(given[1]);
    return 0;
}
