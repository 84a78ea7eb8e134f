/*
 * How much stack the library takes, against the header's SHIFTSUM_STACK for codebooks of the short form and SHIFTSUM_STACK_LONG for those of the long
 * one.
 *
 * Each call is made in a thread whose stack was filled with a pattern; the lowest byte that lost it tells how far the stack was used. What a thread
 * takes that calls a function with an empty body is taken off. Below the stack lies memory that may not be touched. The first call of all has the
 * dynamic linker on its stack too, which then looks for the C library's memcpy and the like.
 *
 * The books ask most: `large` has n 63, q 64 and 32 dual words of weight 63, in the long form n 255, q 16 and 32 of weight 255; `run` makes all 63
 * rounds, in case rounds are nested calls; `late` is refused by the last number there is for a book; `sums` has the longest messages and mends the
 * words that `large` does not, so that a game of them is read.
 */
#define _DEFAULT_SOURCE
#include "shiftsum.h"

#include <pthread.h>
#include <stdio.h>
#include <string.h>
#include <sys/mman.h>

enum { DUAL_WORDS = 32, BELOW = 1 << 16, STACK = 1 << 20, PATTERN = 0xa5 };
enum { AT_S = 1, AT_P = 2, AT_G = 4 };
enum { WORDS = SHIFTSUM_BURST_MAX + 1 }; /* one word more than a burst may have */

struct book {
    uint8_t bytes[SHIFTSUM_BOOK_MAX];
    size_t len, n, k;
};

/* Where the parts of a codebook lie that are behind the generator. */
static const struct form {
    uint8_t generator, dual_word; /* kinds */
    size_t record, i, d, dual_words;
} short_form = {2, 4, 64, 68, 69, 70}, long_form = {5, 6, 256, 260, 261, 262};

typedef uint32_t (*function)(const uint8_t *, size_t, const uint8_t *, size_t, uint8_t *, size_t);

struct call {
    const char *name;
    function called;
    const struct book *book;
    size_t input_len;
    size_t output_len;
    uint32_t refusal; /* expected */
    uint32_t rounds;  /* at least */
    char kind;        /* expected of a game; 0: any */
};

/* A call and then its result. */
struct made {
    const struct call *call;
    uint32_t result;
};

static uint8_t input[WORDS * SHIFTSUM_WORD_MAX], output[WORDS * SHIFTSUM_WORD_MAX];
static struct shiftsum_record records[WORDS];
static unsigned long passed, failed;

static uint32_t check(const uint8_t *book, size_t book_len, const uint8_t *in, size_t in_len, uint8_t *out, size_t out_len)
{
    (void)in, (void)in_len, (void)out, (void)out_len;
    return shiftsum_check(book, book_len);
}

/* As many words as fill the input. The result has the rounds of the last one, as decode's has them; the stack that this takes itself is counted. */
static uint32_t burst(const uint8_t *book, size_t book_len, const uint8_t *in, size_t in_len, uint8_t *out, size_t out_len)
{
    const size_t n = ((size_t)1 << book[AT_S]) - 1, words = in_len / n;
    const uint32_t result = shiftsum_burst(book, book_len, (uint32_t)words, in, in_len, out, out_len, records, words);
    return result != 0 ? result : (uint32_t)records[words - 1].rounds << 16;
}

/* As many words as fill the input. */
static uint32_t game(const uint8_t *book, size_t book_len, const uint8_t *in, size_t in_len, uint8_t *out, size_t out_len)
{
    const size_t n = ((size_t)1 << book[AT_S]) - 1;
    return shiftsum_game(book, book_len, (uint32_t)(in_len / n), in, in_len, out, out_len);
}

static uint32_t nothing(const uint8_t *book, size_t book_len, const uint8_t *in, size_t in_len, uint8_t *out, size_t out_len)
{
    (void)book, (void)book_len, (void)in, (void)in_len, (void)out, (void)out_len;
    return 0;
}

static void *run(void *argument)
{
    struct made *made = argument;
    const struct call *call = made->call;
    function volatile called = call->called; /* not to be inlined */
    made->result = called(call->book->bytes, call->book->len, input, call->input_len, output, call->output_len);
    return NULL;
}

/* The bytes of a painted stack that a thread used for a call; 0 where there is no such thread. */
static size_t measure(struct made *call)
{
    uint8_t *room = mmap(NULL, BELOW + STACK, PROT_READ | PROT_WRITE, MAP_PRIVATE | MAP_ANONYMOUS, -1, 0);
    pthread_attr_t attributes;
    pthread_t thread;
    size_t untouched = 0;
    int made;
    if (room == MAP_FAILED)
        return 0;
    memset(room + BELOW, PATTERN, STACK);
    made = mprotect(room, BELOW, PROT_NONE) == 0 && pthread_attr_init(&attributes) == 0 &&
           pthread_attr_setstack(&attributes, room + BELOW, STACK) == 0 && pthread_create(&thread, &attributes, run, call) == 0 &&
           pthread_join(thread, NULL) == 0;
    while (untouched < STACK && room[BELOW + untouched] == PATTERN)
        untouched++;
    munmap(room, BELOW + STACK);
    return made ? STACK - untouched : 0;
}

static void test(struct call call)
{
    static const struct book none;
    static const struct call empty = {"", nothing, &none, 0, 0, 0, 0, 0};
    struct made alone = {&empty, 0}, made = {&call, 0};
    const size_t bound = call.book->n <= 63 ? SHIFTSUM_STACK : SHIFTSUM_STACK_LONG, thread_alone = measure(&alone);
    size_t used = measure(&made);
    unsigned refusal, rounds;
    used = used == 0 ? 0 : used - thread_alone;
    refusal = SHIFTSUM_REFUSAL(made.result);
    rounds = refusal == 0 ? SHIFTSUM_ROUNDS(made.result) : 0;
    printf("n %3zu, %-32s %6zu bytes of stack, fewer than %zu\n", call.book->n, call.name, used, bound);
    if (used > 0 && used < bound && refusal == call.refusal && rounds >= call.rounds && (call.kind == 0 || SHIFTSUM_KIND(made.result) == call.kind)) {
        passed++;
        return;
    }
    failed++;
    printf("failed: %s: refusal %u, rounds %u, result %#010x\n", call.name, refusal, rounds, (unsigned)made.result);
}

/* Product of GF(2^p), p 4 or 6. */
static unsigned field_product(unsigned p, unsigned a, unsigned b)
{
    unsigned r = 0;
    for (; b != 0; b >>= 1) {
        r ^= b & 1 ? a : 0;
        a = a << 1 ^ (a >> (p - 1) & 1 ? (p == 4 ? 19u : 91u) : 0);
    }
    return r;
}

static unsigned field_inverse(unsigned p, unsigned a)
{
    unsigned r = 1, j;
    for (j = 0; j < (1u << p) - 2; j++)
        r = field_product(p, r, a);
    return r;
}

static unsigned product(unsigned a, unsigned b)
{
    return field_product(6, a, b);
}

static unsigned power(unsigned exponent)
{
    unsigned r = 1;
    while (exponent-- > 0)
        r = product(r, 2);
    return r;
}

/* The kinds, s, p, I and D, and zeros. */
static void make_frame(struct book *book, const struct form *form, unsigned s, unsigned p, unsigned places, size_t dual_words)
{
    size_t word;
    book->len = form->dual_words + form->record * dual_words;
    book->n = ((size_t)1 << s) - 1;
    memset(book->bytes, 0, book->len);
    book->bytes[0] = 1, book->bytes[AT_S] = (uint8_t)s, book->bytes[AT_P] = (uint8_t)p;
    book->bytes[AT_G - 1] = form->generator;
    book->bytes[form->i - 1] = 3, book->bytes[form->i] = 63, book->bytes[form->d] = (uint8_t)places;
    for (word = 0; word < dual_words; word++)
        book->bytes[form->dual_words + form->record * word] = form->dual_word;
}

/* The n values of y^2 + y + b at y = z^j, divided by the first; 0 where one of them is zero. */
static int put_values(uint8_t *body, size_t n, unsigned b)
{
    unsigned j;
    for (j = 0; j < n; j++) {
        body[j] = (uint8_t)product(field_inverse(6, b), power(2 * j % 63) ^ power(j) ^ b);
        if (body[j] == 0)
            return 0;
    }
    return 1;
}

/* The generator's roots are 1, 1 / z and 1 / z^2, so the values of a polynomial of degree 2 at the powers of z are a dual word. Just 32 of the
 * polynomials above have no root; none of their words is a turn or a multiple of another. */
static void make_large(struct book *book)
{
    unsigned r = power(62), t = power(61), b, word = 0;
    uint8_t *g = book->bytes + AT_G;
    make_frame(book, &short_form, 6, 6, 4, DUAL_WORDS);
    book->k = book->n - 3;
    g[0] = (uint8_t)product(r, t), g[1] = (uint8_t)(r ^ t ^ product(r, t)), g[2] = (uint8_t)(1 ^ r ^ t), g[3] = 1;
    for (b = 1; b <= 63 && word < DUAL_WORDS; b++)
        word += (unsigned)put_values(book->bytes + short_form.dual_words + short_form.record * word + 1, book->n, b);
}

/* A stored codebook of the long form, with all 63 rounds allowed. */
static int read_book(struct book *book, const char *name, size_t k)
{
    FILE *file = fopen(name, "rb");
    if (file == NULL) {
        printf("failed: no codebook %s\n", name);
        failed++;
        return 0;
    }
    book->len = fread(book->bytes, 1, sizeof book->bytes, file);
    fclose(file);
    book->bytes[long_form.i] = 63;
    book->n = ((size_t)1 << book->bytes[AT_S]) - 1;
    book->k = k;
    return 1;
}

/* A large one with its first dual word once more as the last, turned by one place and divided by the symbol that comes to place 0. */
static void make_late(struct book *book, const struct book *large, const struct form *form)
{
    const unsigned p = large->bytes[AT_P];
    const uint8_t *first = book->bytes + form->dual_words + 1;
    size_t j;
    *book = *large;
    for (j = 0; j < book->n; j++)
        book->bytes[book->len + 1 - form->record + j] = (uint8_t)field_product(p, field_inverse(p, first[1]), first[(j + 1) % book->n]);
}

/* Symbols 0 and 1, a g whose powers of x are all different, and D n: every round turns all symbols over, and no round reaches a code word. The digits
 * are those of g. */
static void make_run(struct book *book, const struct form *form, unsigned s, unsigned digits)
{
    uint8_t *body = book->bytes + form->dual_words + 1;
    unsigned i;
    size_t j;
    make_frame(book, form, s, 1, (1u << s) - 1, 1);
    book->k = book->n - s;
    for (i = 0; i <= s; i++)
        book->bytes[AT_G + i] = digits >> i & 1;
    /* 1 / g, whose symbols repeat after n places: place j is the sum of the places before it that g says. */
    for (j = 0; j < book->n; j++) {
        body[j] = j == 0;
        for (i = 1; i <= s && i <= j; i++)
            body[j] ^= (uint8_t)((digits >> i & 1) * body[j - i]);
    }
}

/* g is x + 1, and the dual word has 1 at all places: a round subtracts an error at all places, an odd number, and so reaches a code word. */
static void make_sums(struct book *book, const struct form *form, unsigned s, unsigned p)
{
    make_frame(book, form, s, p, (1u << s) - 1, 1);
    book->k = book->n - 1;
    book->bytes[AT_G] = 1, book->bytes[AT_G + 1] = 1;
    memset(book->bytes + form->dual_words + 1, 1, book->n);
}

/* Every function but the game on a large codebook, on one that is refused late, and on one that takes all rounds. */
static void test_all(const struct book *large, const struct book *late, const struct book *run_long)
{
    const size_t n = large->n, k = large->k, most = SHIFTSUM_BURST_MAX;
    memset(input, 0, sizeof input);
    input[0] = 1;
    test((struct call){"check", check, large, 0, 0, 0, 0, 0});
    test((struct call){"check, refused by 8", check, late, 0, 0, 8, 0, 0});
    test((struct call){"code", shiftsum_code, large, k, n, 0, 0, 0});
    test((struct call){"code, one symbol", shiftsum_code, large, 1, n, 0, 0, 0});
    memset(input, 0, sizeof input);
    test((struct call){"read", shiftsum_read, large, n, k, 0, 0, 0});
    input[0] = 1;
    test((struct call){"read, refused by 12", shiftsum_read, large, n, k, 12, 0, 0});
    test((struct call){"remainder", shiftsum_remainder, large, n, n - k, 0, 0, 0});
    test((struct call){"decode, 32 dual words", shiftsum_decode, large, n, n, 0, 1, 0});
    test((struct call){"decode, refused by 8", shiftsum_decode, late, n, n, 8, 0, 0});
    test((struct call){"decode, 63 rounds", shiftsum_decode, run_long, run_long->n, run_long->n, 0, 63, 0});
    /* An error in every word. */
    memset(input, 1, most);
    test((struct call){"burst of 16, 32 dual words", burst, large, most * n, most * n, 0, 1, 0});
    test((struct call){"burst of 16, refused by 8", burst, late, most * n, most * n, 8, 0, 0});
    test((struct call){"burst of 17, refused by 14", burst, large, WORDS * n, WORDS * n, 14, 0, 0});
    test((struct call){"burst of 16, refused by 10", burst, large, most * n, most * n - 1, 10, 0, 0});
    test((struct call){"burst of 16, 63 rounds", burst, run_long, most * run_long->n, most * run_long->n, 0, 63, 0});
    memset(input, 0, sizeof input);
    input[0] = 1;
    test((struct call){"burst of 1, 32 dual words", burst, large, n, n, 0, 1, 0});
}

/* Games as the bursts, and some that are Whole: Clean words, and mended ones. */
static void test_games(const struct book *large, const struct book *late, const struct book *run_long, const struct book *sums)
{
    const size_t n = large->n, k = large->k, most = SHIFTSUM_BURST_MAX;
    memset(input, 0, sizeof input);
    test((struct call){"game of 16, Clean, 32 dual words", game, large, most * n, most * k, 0, 0, SHIFTSUM_WHOLE});
    /* An error in every word. */
    memset(input, 1, most);
    test((struct call){"game of 16, mended", game, sums, most * sums->n, most * sums->k, 0, 0, SHIFTSUM_WHOLE});
    test((struct call){"game of 16, 32 dual words", game, large, most * n, most * k, 0, 0, SHIFTSUM_HELD});
    test((struct call){"game of 16, refused by 8", game, late, most * n, most * k, 8, 0, 0});
    test((struct call){"game of 17, refused by 14", game, large, WORDS * n, WORDS * k, 14, 0, 0});
    test((struct call){"game of 16, refused by 10", game, large, most * n, most * k - 1, 10, 0, 0});
    test((struct call){"game of 16, 63 rounds", game, run_long, most * run_long->n, most * run_long->k, 0, 0, SHIFTSUM_HELD});
    memset(input, 0, sizeof input);
    input[0] = 1;
    test((struct call){"game of 1, mended", game, sums, sums->n, sums->k, 0, 0, SHIFTSUM_WHOLE});
    test((struct call){"game of 1, 32 dual words", game, large, n, k, 0, 0, SHIFTSUM_HELD});
}

int main(void)
{
    static const struct stored {
        const char *name;
        size_t k;
    } stored[] = {{"../books/n127p1.book", 29}, {"../books/n255p1_lines.book", 21}, {"../books/n255p2.book", 21}, {"../books/n255p4.book", 75}};
    static struct book large, late, run_long, sums;
    size_t i;
    make_large(&large);
    make_late(&late, &large, &short_form);
    make_run(&run_long, &short_form, 6, 67);
    make_sums(&sums, &short_form, 6, 6);
    test((struct call){"check, the first call of all", check, &large, 0, 0, 0, 0, 0});
    test_all(&large, &late, &run_long);
    test_games(&large, &late, &run_long, &sums);
    if (read_book(&large, "../books/n255p4_whole.book", 251)) {
        make_late(&late, &large, &long_form);
        make_run(&run_long, &long_form, 8, 285);
        make_sums(&sums, &long_form, 8, 4);
        test_all(&large, &late, &run_long);
        test_games(&large, &late, &run_long, &sums);
    }
    make_run(&run_long, &long_form, 7, 131);
    test((struct call){"decode, 63 rounds", shiftsum_decode, &run_long, run_long.n, run_long.n, 0, 63, 0});
    for (i = 0; i < sizeof stored / sizeof stored[0]; i++)
        if (read_book(&large, stored[i].name, stored[i].k)) {
            test((struct call){"check, stored", check, &large, 0, 0, 0, 0, 0});
            test((struct call){"read, stored, refused by 12", shiftsum_read, &large, large.n, large.k, 12, 0, 0});
            test((struct call){"decode, stored", shiftsum_decode, &large, large.n, large.n, 0, 1, 0});
            test((struct call){"burst, stored", burst, &large, large.n, large.n, 0, 1, 0});
            test((struct call){"game, stored", game, &large, large.n, large.k, 0, 0, SHIFTSUM_WHOLE});
        }
    printf("%lu passed, %lu failed\n", passed, failed);
    return failed == 0 ? 0 : 1;
}
