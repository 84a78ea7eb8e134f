/*
 * The library called from C by its header alone: the scope's codebooks A, B and C, its cases, bursts and games of them, the refusals of its table,
 * and the longest words, bursts, games and codebooks of both forms. It is C++ as well, since the header is.
 *
 * Every input ends where its block of memory ends, so that a memory checker sees a read beyond it. Every output lies between guards.
 */
#define _DEFAULT_SOURCE
#include "shiftsum.h"
#include "shiftsum.h" /* A second time changes nothing. */

#include <assert.h>
#include <stdio.h>
#include <stdlib.h>
#include <string.h>
#include <sys/mman.h>

/* A list of records is as many bytes long as the library takes it to be. */
static_assert(sizeof(struct shiftsum_record) == 3, "a record has three bytes");

enum { BOOK = 134, RECORD = 64, WORD_A = 7, MESSAGE_A = 4, REMAINDER_A = 3, LARGEST = SHIFTSUM_WORD_MAX, GUARD = 32 };
enum { WORDS = SHIFTSUM_BURST_MAX, LARGEST_BURST = WORDS * LARGEST };

/* A codebook of the long form with one dual word, and a record of it; where its I and its dual words lie. */
enum { LONG_BOOK = 518, LONG_RECORD = 256, LONG_I = 260, LONG_DUAL_WORD = 263 };

/* Where the parts of a codebook lie. */
enum { AT_KIND = 0, AT_S = 1, AT_P = 2, AT_G = 4, AT_I = 68, AT_D = 69, AT_DUAL_WORD = 71 };

#define ZEROS_8 0, 0, 0, 0, 0, 0, 0, 0
#define ZEROS_56 ZEROS_8, ZEROS_8, ZEROS_8, ZEROS_8, ZEROS_8, ZEROS_8, ZEROS_8

/* s 3, p 1, g 1101, I 3, D 1, dual word 1110100. */
static const uint8_t book_a[BOOK] = {
    1, 3, 1,
    2, 1, 1, 0, 1, 0, 0, 0, ZEROS_56,
    3, 3, 1,
    4, 1, 1, 1, 0, 1, 0, 0, ZEROS_56,
};

/* s 2, p 2, g 111, I 3, D 1, dual word 110. */
static const uint8_t book_b[BOOK] = {
    1, 2, 2,
    2, 1, 1, 1, 0, 0, 0, 0, ZEROS_56,
    3, 3, 1,
    4, 1, 1, 0, 0, 0, 0, 0, ZEROS_56,
};

/* s 2, p 2, g 21, I 3, D 2, dual word 132. */
static const uint8_t book_c[BOOK] = {
    1, 2, 2,
    2, 2, 1, 0, 0, 0, 0, 0, ZEROS_56,
    3, 3, 2,
    4, 1, 3, 2, 0, 0, 0, 0, ZEROS_56,
};

static unsigned long passed;
static unsigned long failed;

static void print_bytes(const char *what, const uint8_t *bytes, size_t len)
{
    size_t i;
    printf("  %s", what);
    for (i = 0; i < len; i++)
        printf(" %02x", (unsigned)bytes[i]);
    printf("\n");
}

static void expect_number(const char *name, const char *what, unsigned long found, unsigned long expected)
{
    if (found == expected) {
        passed++;
        return;
    }
    failed++;
    printf("failed: %s: %s is %lu (%#lx), not %lu (%#lx)\n", name, what, found, found, expected, expected);
}

static void expect_bytes(const char *name, const char *what, const uint8_t *found, const uint8_t *expected, size_t len)
{
    if (memcmp(found, expected, len) == 0) {
        passed++;
        return;
    }
    failed++;
    printf("failed: %s: %s\n", name, what);
    print_bytes("found   ", found, len);
    print_bytes("expected", expected, len);
}

static uint8_t *allocate(size_t len)
{
    uint8_t *block = (uint8_t *)malloc(len);
    if (block == NULL) {
        printf("no memory\n");
        exit(2);
    }
    return block;
}

/* A copy that ends where its block ends; not null for no bytes either. */
static uint8_t *lend(const uint8_t *bytes, size_t len)
{
    uint8_t *block = allocate(len + 1);
    memcpy(block + 1, bytes, len);
    return block + 1;
}

static void take_back(uint8_t *lent)
{
    free(lent - 1);
}

/* Symbols written as the scope writes them, a digit each. */
static size_t symbols(uint8_t *word, const char *digits)
{
    size_t len = 0;
    for (; digits[len] != '\0'; len++)
        word[len] = (uint8_t)(digits[len] - '0');
    return len;
}

/* An output of so many bytes between guards. */
static uint8_t *lay(size_t len)
{
    uint8_t *block = allocate(GUARD + len + GUARD);
    memset(block, 0xa5, GUARD + len + GUARD);
    return block + GUARD;
}

/* Compares an output and the guards with what is expected, and takes it back; one expected to be NULL must be as it was. */
static void expect_output(const char *name, const char *what, uint8_t *written, const uint8_t *output, size_t len)
{
    uint8_t *before = lay(len);
    expect_bytes(name, what, written, output == NULL ? before : output, len);
    expect_bytes(name, "the bytes before the output", written - GUARD, before, GUARD);
    expect_bytes(name, "the bytes after the output", written + len, before, GUARD);
    free(written - GUARD);
    free(before - GUARD);
}

/* Compares a codebook or an input with what was lent, and takes it back. */
static void expect_lent(const char *name, const char *what, uint8_t *lent, const uint8_t *bytes, size_t len)
{
    expect_bytes(name, what, lent, bytes, len);
    take_back(lent);
}

enum { INPUTS = 2, OUTPUTS = 2 };

/* A call: its number, such as M; its inputs; of each output the bytes that are expected, or NULL where it must be as it was. Lengths are those that
 * the function is given. */
struct call {
    const uint8_t *book;
    size_t book_len;
    uint32_t number;
    const uint8_t *input[INPUTS];
    size_t input_len[INPUTS];
    const uint8_t *output[OUTPUTS];
    size_t output_len[OUTPUTS];
};

/* The functions in one form: what is written comes beside the call. */
typedef uint32_t (*adapter)(const struct call *c, uint8_t *const *output);

static uint32_t call_check(const struct call *c, uint8_t *const *output)
{
    (void)output;
    return shiftsum_check(c->book, c->book_len);
}

static uint32_t call_code(const struct call *c, uint8_t *const *output)
{
    return shiftsum_code(c->book, c->book_len, c->input[0], c->input_len[0], output[0], c->output_len[0]);
}

static uint32_t call_read(const struct call *c, uint8_t *const *output)
{
    return shiftsum_read(c->book, c->book_len, c->input[0], c->input_len[0], output[0], c->output_len[0]);
}

static uint32_t call_remainder(const struct call *c, uint8_t *const *output)
{
    return shiftsum_remainder(c->book, c->book_len, c->input[0], c->input_len[0], output[0], c->output_len[0]);
}

static uint32_t call_decode(const struct call *c, uint8_t *const *output)
{
    return shiftsum_decode(c->book, c->book_len, c->input[0], c->input_len[0], output[0], c->output_len[0]);
}

static uint32_t call_burst(const struct call *c, uint8_t *const *output)
{
    struct shiftsum_record *records = (struct shiftsum_record *)output[1];
    return shiftsum_burst(c->book, c->book_len, c->number, c->input[0], c->input_len[0], output[0], c->output_len[0], records, c->output_len[1]);
}

static uint32_t call_game(const struct call *c, uint8_t *const *output)
{
    return shiftsum_game(c->book, c->book_len, c->number, c->input[0], c->input_len[0], output[0], c->output_len[0]);
}

/* How many elements a buffer has, by n, k and M; TO_K is any count from 1 to k. */
enum size { NONE, OF_N, OF_K, TO_K, OF_REST, N_TIMES_M, K_TIMES_M, OF_M };

static size_t size_of(enum size size, size_t n, size_t k, size_t words)
{
    const size_t sizes[] = {0, n, k, k, n - k, n * words, k * words, words};
    return sizes[size];
}

/* A buffer of a function: the bytes of an element, the refusal of another length, and that of a symbol of q or more, 0 where there is none. */
struct buffer {
    const char *name;
    enum size size;
    size_t element;
    uint32_t length_refusal, symbol_refusal;
};

#define NO_BUFFER {NULL, NONE, 1, 0, 0}

/* A row for each function. Refusals come in the order number, inputs, outputs, symbols. */
enum { CHECK, CODE, READ, REMAINDER, DECODE, BURST, GAME, FUNCTIONS };
static const struct function {
    const char *name;
    adapter call;
    uint32_t number_refusal; /* 0 where it has no number */
    struct buffer input[INPUTS], output[OUTPUTS];
} functions[FUNCTIONS] = {
    {"check", call_check, 0, {NO_BUFFER}, {NO_BUFFER}},
    {"code", call_code, 0, {{"message", TO_K, 1, 9, 11}}, {{"word", OF_N, 1, 10, 0}}},
    {"read", call_read, 0, {{"word", OF_N, 1, 9, 11}}, {{"message", OF_K, 1, 10, 0}}},
    {"remainder", call_remainder, 0, {{"word", OF_N, 1, 9, 11}}, {{"remainder", OF_REST, 1, 10, 0}}},
    {"decode", call_decode, 0, {{"word", OF_N, 1, 9, 11}}, {{"answer", OF_N, 1, 10, 0}}},
    {"burst", call_burst, 14, {{"words", N_TIMES_M, 1, 9, 11}},
     {{"answers", N_TIMES_M, 1, 10, 0}, {"list", OF_M, sizeof(struct shiftsum_record), 10, 0}}},
    {"game", call_game, 14, {{"words", N_TIMES_M, 1, 9, 11}}, {{"messages", K_TIMES_M, 1, 10, 0}}},
};

/* What a test says of a call, good until the next one. */
static const char *of_call(int which, const char *what, const char *buffer)
{
    static char text[64];
    snprintf(text, sizeof text, "%s, %s%s", functions[which].name, what, buffer);
    return text;
}

/* Calls, and compares result and outputs with what is expected, and codebook and inputs with what they were. */
static void run(const char *name, int which, struct call call, uint32_t result)
{
    const struct function *f = &functions[which];
    struct call lent = call;
    uint8_t *book = lend(call.book, call.book_len), *input[INPUTS], *output[OUTPUTS];
    int i;
    lent.book = book;
    for (i = 0; i < INPUTS && f->input[i].size != NONE; i++)
        lent.input[i] = input[i] = lend(call.input[i], call.input_len[i]);
    for (i = 0; i < OUTPUTS && f->output[i].size != NONE; i++)
        output[i] = lay(call.output_len[i] * f->output[i].element);
    expect_number(name, of_call(which, "the result", ""), f->call(&lent, output), result);
    for (i = 0; i < OUTPUTS && f->output[i].size != NONE; i++)
        expect_output(name, of_call(which, "the ", f->output[i].name), output[i], call.output[i], call.output_len[i] * f->output[i].element);
    expect_lent(name, of_call(which, "the codebook after the call", ""), book, call.book, call.book_len);
    for (i = 0; i < INPUTS && f->input[i].size != NONE; i++)
        expect_lent(name, of_call(which, "after the call the ", f->input[i].name), input[i], call.input[i], call.input_len[i]);
}

/* A call with one input and one output. */
static struct call one_by_one(uint32_t number, const uint8_t *book, size_t book_len, const uint8_t *input, size_t input_len, const uint8_t *output,
                              size_t output_len)
{
    const struct call made = {book, book_len, number, {input}, {input_len}, {output}, {output_len}};
    return made;
}

static void call(const char *name, int which, const uint8_t *book, size_t book_len, const uint8_t *input, size_t input_len, const uint8_t *output,
                 size_t output_len, uint32_t result)
{
    run(name, which, one_by_one(0, book, book_len, input, input_len, output, output_len), result);
}

/* A call of game. */
static void call_words(const char *name, uint32_t words, const uint8_t *book, size_t book_len, const uint8_t *received, size_t received_len,
                       const uint8_t *messages, size_t messages_len, uint32_t result)
{
    run(name, GAME, one_by_one(words, book, book_len, received, received_len, messages, messages_len), result);
}

/* A call of burst: answers and records are those that are expected, or NULL where they must be as they were. */
static struct call of_burst(const uint8_t *book, size_t book_len, uint32_t words, const uint8_t *received, size_t received_len, const uint8_t *answers,
                            size_t answers_len, const struct shiftsum_record *records, size_t records_len)
{
    const struct call made = {book, book_len, words, {received}, {received_len}, {answers, (const uint8_t *)records}, {answers_len, records_len}};
    return made;
}

/* The same with input and output as digits, for an accepted call. */
static void gives(const char *name, int called, const uint8_t *book, const char *input, const char *output, uint32_t result)
{
    uint8_t in[LARGEST], out[LARGEST];
    size_t in_len = symbols(in, input);
    size_t out_len = symbols(out, output);
    call(name, called, book, BOOK, in, in_len, out, out_len, result);
}

/* The same for a refused call. */
static void refuses(const char *name, int called, const uint8_t *book, const char *input, size_t output_len, uint32_t number)
{
    uint8_t in[LARGEST];
    size_t in_len = symbols(in, input);
    call(name, called, book, BOOK, in, in_len, NULL, output_len, number);
}

/* A burst with a codebook of one dual word, its symbols as digits, that is accepted. */
static void gives_burst(const char *name, const uint8_t *book, uint32_t words, const char *mixed, const char *answers,
                        const struct shiftsum_record *records)
{
    uint8_t in[LARGEST], out[LARGEST];
    const size_t in_len = symbols(in, mixed), out_len = symbols(out, answers);
    run(name, BURST, of_burst(book, BOOK, words, in, in_len, out, out_len, records, words), 0);
}

/* The same for one that is refused. */
static void refuses_burst(const char *name, const uint8_t *book, uint32_t words, const char *mixed, size_t answers_len, size_t records_len,
                          uint32_t number)
{
    uint8_t in[LARGEST];
    const size_t in_len = symbols(in, mixed);
    run(name, BURST, of_burst(book, BOOK, words, in, in_len, NULL, answers_len, NULL, records_len), number);
}

/* The result of decode, put together from its parts. */
static uint32_t decoded(char kind, unsigned rounds, unsigned changed)
{
    return (uint32_t)(unsigned char)kind << 24 | (uint32_t)rounds << 16 | (uint32_t)changed << 8;
}

/* That of a game: Held with so many words, or Whole with none. */
static uint32_t taken(unsigned held)
{
    return (uint32_t)(unsigned char)(held > 0 ? SHIFTSUM_HELD : SHIFTSUM_WHOLE) << 24 | (uint32_t)held << 8;
}

/* A game with a codebook of one dual word, its symbols as digits, that is accepted. Of one that is Held the messages expected are NULL. */
static void takes(const char *name, const uint8_t *book, uint32_t words, const char *mixed, const uint8_t *messages, size_t len, unsigned held)
{
    uint8_t in[LARGEST], out[LARGEST];
    const size_t in_len = symbols(in, mixed);
    const uint32_t result = shiftsum_game(book, BOOK, words, in, in_len, out, len);
    expect_number(name, "the refusal", SHIFTSUM_REFUSAL(result), 0);
    expect_number(name, "the kind", (unsigned char)SHIFTSUM_KIND(result), held > 0 ? SHIFTSUM_HELD : SHIFTSUM_WHOLE);
    expect_number(name, "the count of words held", SHIFTSUM_HELD_WORDS(result), held);
    call_words(name, words, book, BOOK, in, in_len, messages, len, taken(held));
}

static void whole_game(const char *name, const uint8_t *book, uint32_t words, const char *mixed, const char *messages)
{
    uint8_t out[LARGEST];
    const size_t len = symbols(out, messages);
    takes(name, book, words, mixed, out, len, 0);
}

/* k is the length of a message. */
static void held_game(const char *name, const uint8_t *book, uint32_t words, const char *mixed, size_t k, unsigned held)
{
    takes(name, book, words, mixed, NULL, k * words, held);
}

/* A game that is refused. */
static void refuses_game(const char *name, const uint8_t *book, uint32_t words, const char *mixed, size_t messages_len, uint32_t number)
{
    uint8_t in[LARGEST];
    const size_t in_len = symbols(in, mixed);
    call_words(name, words, book, BOOK, in, in_len, NULL, messages_len, number);
}

static void decodes(const char *name, const uint8_t *book, const char *received, char kind, unsigned rounds, unsigned changed, const char *answer)
{
    uint8_t in[LARGEST], out[LARGEST];
    size_t len = symbols(in, received);
    uint32_t result = shiftsum_decode(book, BOOK, in, len, out, len);
    expect_number(name, "the refusal", SHIFTSUM_REFUSAL(result), 0);
    expect_number(name, "the kind", (unsigned char)SHIFTSUM_KIND(result), (unsigned char)kind);
    expect_number(name, "the count of rounds", SHIFTSUM_ROUNDS(result), rounds);
    expect_number(name, "the count of places changed", SHIFTSUM_CHANGED(result), changed);
    gives(name, DECODE, book, received, answer, decoded(kind, rounds, changed));
}

static void codes(const char *name, const uint8_t *book, const char *message, const char *word)
{
    gives(name, CODE, book, message, word, 0);
    gives(name, READ, book, word, message, 0);
}

/* A short message: its missing high symbols are zero, so that it has the word of the full one, which is the one that read gives. */
static void codes_short(const char *name, const uint8_t *book, const char *message, const char *full, const char *word)
{
    gives(name, CODE, book, message, word, 0);
    codes(name, book, full, word);
}

/* The remainder of a word, which read takes exactly if it is zero; k is the length of a full message. */
static void leaves(const char *name, const uint8_t *book, const char *word, const char *rest, size_t k)
{
    uint8_t in[LARGEST], message[LARGEST];
    size_t len = symbols(in, word);
    gives(name, REMAINDER, book, word, rest, 0);
    expect_number(name, "the result of read", shiftsum_read(book, BOOK, in, len, message, k), strspn(rest, "0") == strlen(rest) ? 0 : 12);
}

/* A copy of a codebook with one byte changed, good until the next one. */
static const uint8_t *with(const uint8_t *book, size_t at, uint8_t byte)
{
    static uint8_t copy[BOOK];
    memmove(copy, book, BOOK);
    copy[at] = byte;
    return copy;
}

/* A copy of a codebook with another generator and two dual words. */
static void two_dual_words(uint8_t *copy, const uint8_t *book, const char *g, const char *one, const char *other)
{
    memcpy(copy, book, BOOK);
    memcpy(copy + BOOK, book + AT_DUAL_WORD - 1, RECORD);
    symbols(copy + AT_G, g);
    symbols(copy + AT_DUAL_WORD, one);
    symbols(copy + BOOK + 1, other);
}

static void test_macros(void)
{
    const uint32_t all = 0x4d3f2001u;
    expect_number("macros", "the refusal", SHIFTSUM_REFUSAL(all), 1);
    expect_number("macros", "the count of dual words", SHIFTSUM_DUAL_WORDS(all), 32);
    expect_number("macros", "the count of places changed", SHIFTSUM_CHANGED(all), 32);
    expect_number("macros", "the count of rounds", SHIFTSUM_ROUNDS(all), 63);
    expect_number("macros", "the kind", (unsigned char)SHIFTSUM_KIND(all), SHIFTSUM_MENDED);
    /* Of an expression, and with every bit of the others set. */
    expect_number("macros", "the refusal", SHIFTSUM_REFUSAL(0xffffff00u | 12u), 12);
    expect_number("macros", "the count of dual words", SHIFTSUM_DUAL_WORDS(0xffff00ffu | 0x100u), 1);
    expect_number("macros", "the count of places changed", SHIFTSUM_CHANGED(0xffff00ffu | 0x3f00u), 63);
    expect_number("macros", "the count of places changed", SHIFTSUM_CHANGED(0x4d01ff00u), SHIFTSUM_WORD_MAX);
    expect_number("macros", "the count of rounds", SHIFTSUM_ROUNDS(0xff00ffffu | 0x10000u), 1);
    expect_number("macros", "the kind", (unsigned char)SHIFTSUM_KIND(0x00ffffffu | 0x58000000u), SHIFTSUM_SPENT);
    expect_number("macros", "Clean", SHIFTSUM_CLEAN, 'C');
    expect_number("macros", "Mended", SHIFTSUM_MENDED, 'M');
    expect_number("macros", "Stalled", SHIFTSUM_STALLED, 'S');
    expect_number("macros", "Spent", SHIFTSUM_SPENT, 'X');
    expect_number("macros", "the count of words held", SHIFTSUM_HELD_WORDS(0x48001000u), SHIFTSUM_BURST_MAX);
    expect_number("macros", "the count of words held", SHIFTSUM_HELD_WORDS(0xffff00ffu | 0x100u), 1);
    expect_number("macros", "the kind of a game", (unsigned char)SHIFTSUM_KIND(0x57000000u), SHIFTSUM_WHOLE);
    expect_number("macros", "the kind of a game", (unsigned char)SHIFTSUM_KIND(0x00ffffffu | 0x48000000u), SHIFTSUM_HELD);
    expect_number("macros", "Whole", SHIFTSUM_WHOLE, 'W');
    expect_number("macros", "Held", SHIFTSUM_HELD, 'H');
}

static void test_check(void)
{
    uint8_t book[BOOK + RECORD];
    uint8_t *lent = lend(book_a, BOOK);
    uint32_t result = shiftsum_check(lent, BOOK);
    expect_number("book A", "the refusal", SHIFTSUM_REFUSAL(result), 0);
    expect_number("book A", "the count of dual words", SHIFTSUM_DUAL_WORDS(result), 1);
    expect_number("book A", "the result", result, 0x100);
    take_back(lent);
    expect_number("book B", "the result", shiftsum_check(book_b, BOOK), 0x100);
    expect_number("book C", "the result", shiftsum_check(book_c, BOOK), 0x100);
    /* Two dual words for a generator that takes all words of even weight: mirror images, which are not alike. */
    two_dual_words(book, book_a, "1111111", "1110100", "1110010");
    expect_number("two mirror images", "the result", shiftsum_check(book, sizeof book), 0x200);
    /* Over GF(4): the same places, and no turn with a factor makes one of the other. */
    two_dual_words(book, book_b, "111", "123", "132");
    expect_number("two words with the same places", "the result", shiftsum_check(book, sizeof book), 0x200);
}

static void test_cases(void)
{
    codes("case 2", book_a, "1000", "1101000");
    codes("case 3", book_a, "1100", "1011100");
    codes("case 4", book_c, "01", "021");
    decodes("case 6", book_a, "1000000", SHIFTSUM_MENDED, 1, 1, "0000000");
    decodes("case 7", book_a, "1100000", SHIFTSUM_MENDED, 1, 1, "1101000");
    decodes("case 8", with(book_a, AT_D, 6), "1000000", SHIFTSUM_MENDED, 1, 1, "0000000");
    decodes("case 9", with(book_a, AT_D, 7), "1000000", SHIFTSUM_SPENT, 3, 0, "1000000");
    decodes("case 10", book_b, "311", SHIFTSUM_MENDED, 1, 1, "111");
    decodes("case 11", book_b, "120", SHIFTSUM_STALLED, 1, 0, "120");
    decodes("case 12", book_b, "132", SHIFTSUM_STALLED, 1, 0, "132");
    decodes("case 13", book_c, "100", SHIFTSUM_STALLED, 1, 0, "100");
    decodes("case 14", with(book_c, AT_D, 3), "100", SHIFTSUM_MENDED, 1, 3, "032");
    decodes("the program's third word", book_a, "1101000", SHIFTSUM_CLEAN, 0, 0, "1101000");
}

/* By hand: A's 1 + x + x^3 and C's 2 + x, moved up, multiplied and added. B has k 1, and so no short message. */
static void test_short_messages(void)
{
    codes_short("A, 1", book_a, "1", "1000", "1101000");
    codes_short("A, 11", book_a, "11", "1100", "1011100");
    codes_short("A, 01", book_a, "01", "0100", "0110100");
    codes_short("A, 101", book_a, "101", "1010", "1110010");
    codes_short("A, 100", book_a, "100", "1000", "1101000");
    codes_short("A, 0", book_a, "0", "0000", "0000000");
    codes_short("C, 1", book_c, "1", "10", "210");
    codes_short("C, 3", book_c, "3", "30", "130");
    codes_short("C, 0", book_c, "0", "00", "000");
    codes("B, 1", book_b, "1", "111");
    codes("B, 2", book_b, "2", "222");
    codes("B, 0", book_b, "0", "000");
}

/* By hand: modulo A's 1 + x + x^3, B's 1 + x + x^2 and C's 2 + x. */
static void test_remainder(void)
{
    leaves("A, 1", book_a, "1000000", "100", MESSAGE_A);
    leaves("A, x", book_a, "0100000", "010", MESSAGE_A);
    leaves("A, x^2", book_a, "0010000", "001", MESSAGE_A);
    leaves("A, x^3", book_a, "0001000", "110", MESSAGE_A);
    leaves("A, x^4", book_a, "0000100", "011", MESSAGE_A);
    leaves("A, x^5", book_a, "0000010", "111", MESSAGE_A);
    leaves("A, x^6", book_a, "0000001", "101", MESSAGE_A);
    /* An error at x^6 on the code words of the cases; two errors that look like one; and the code words alone. */
    leaves("A, case 2 and x^6", book_a, "1101001", "101", MESSAGE_A);
    leaves("A, case 3 and x^6", book_a, "1011101", "101", MESSAGE_A);
    leaves("A, 1 + x, as x^3", book_a, "1100000", "110", MESSAGE_A);
    leaves("A, no error", book_a, "0000000", "000", MESSAGE_A);
    leaves("A, case 2", book_a, "1101000", "000", MESSAGE_A);
    leaves("A, case 3", book_a, "1011100", "000", MESSAGE_A);
    leaves("A, all symbols", book_a, "1111111", "000", MESSAGE_A);
    leaves("B, case 11", book_b, "120", "12", 1);
    leaves("B, case 12", book_b, "132", "31", 1);
    leaves("B, case 10", book_b, "311", "20", 1);
    leaves("B, 3 x^2", book_b, "003", "33", 1);
    leaves("B, a code word", book_b, "222", "00", 1);
    leaves("C, case 13", book_c, "100", "1", 2);
    leaves("C, x", book_c, "010", "2", 2);
    leaves("C, 3 x^2", book_c, "003", "2", 2);
    leaves("C, case 4", book_c, "021", "0", 2);
}

/* The words that the scope's program reads: 1000000, 1100000 and 1101000; place 0 of each word, then place 1, and so on. And the last first. */
static const char *const program_mixed = "111" "011" "000" "001" "000" "000" "000", *const reversed_mixed = "111" "110" "000" "100" "000" "000" "000";

/* 1000000, 1101000, 1000000, and the code word around the other. */
static const char *const around_mixed = "111" "010" "000" "010" "000" "000" "000", *const inside_mixed = "111" "101" "000" "101" "000" "000" "000";

static void test_burst(void)
{
    static const struct shiftsum_record program[] = {{SHIFTSUM_MENDED, 1, 1}, {SHIFTSUM_MENDED, 1, 1}, {SHIFTSUM_CLEAN, 0, 0}};
    static const struct shiftsum_record reversed[] = {{SHIFTSUM_CLEAN, 0, 0}, {SHIFTSUM_MENDED, 1, 1}, {SHIFTSUM_MENDED, 1, 1}};
    static const struct shiftsum_record mended_stalled[] = {{SHIFTSUM_MENDED, 1, 1}, {SHIFTSUM_STALLED, 1, 0}};
    static const struct shiftsum_record around[] = {{SHIFTSUM_SPENT, 3, 0}, {SHIFTSUM_CLEAN, 0, 0}, {SHIFTSUM_SPENT, 3, 0}};
    static const struct shiftsum_record all_changed[] = {{SHIFTSUM_MENDED, 1, 3}, {SHIFTSUM_CLEAN, 0, 0}};
    gives_burst("the program's words", book_a, 3, program_mixed, "0000000" "1101000" "1101000", program);
    gives_burst("the program's words, the last first", book_a, 3, reversed_mixed, "1101000" "1101000" "0000000", reversed);
    gives_burst("case 7 alone", book_a, 1, "1100000", "1101000", program);
    gives_burst("cases 10 and 11", book_b, 2, "31" "12" "10", "111" "120", mended_stalled);
    gives_burst("case 9 around a code word", with(book_a, AT_D, 7), 3, around_mixed, "1000000" "1101000" "1000000", around);
    gives_burst("cases 14 and 4", with(book_c, AT_D, 3), 2, "10" "02" "01", "032" "021", all_changed);
}

/* By hand: A's 0000 is 0000000 and 1000 is 1101000, B's a is aaa, and C's 02 is 032. */
static void test_game(void)
{
    uint8_t in[LARGEST];
    whole_game("the program's words", book_a, 3, program_mixed, "0000" "1000" "1000");
    whole_game("the program's words, the last first", book_a, 3, reversed_mixed, "1000" "1000" "0000");
    whole_game("case 7 alone", book_a, 1, "1100000", "1000");
    whole_game("a code word alone", book_a, 1, "1011100", "1100");
    whole_game("case 10 and a code word", book_b, 2, "32" "12" "12", "1" "2");
    whole_game("cases 14 and 4", with(book_c, AT_D, 3), 2, "10" "02" "01", "02" "01");
    held_game("case 9 alone", with(book_a, AT_D, 7), 1, "1000000", MESSAGE_A, 1);
    held_game("case 9 around a code word", with(book_a, AT_D, 7), 3, around_mixed, MESSAGE_A, 2);
    held_game("case 9 inside of code words", with(book_a, AT_D, 7), 3, inside_mixed, MESSAGE_A, 1);
    held_game("case 11 alone", book_b, 1, "120", 1, 1);
    held_game("cases 10 and 11", book_b, 2, "31" "12" "10", 1, 1);
    held_game("cases 11 and 10", book_b, 2, "13" "21" "01", 1, 1);
    held_game("cases 11, 10 and 12", book_b, 3, "131" "213" "012", 1, 2);
    held_game("cases 4 and 13", book_c, 2, "01" "20" "10", 2, 1);
    /* With D 3 a round subtracts case 10's error at all places, so that it is Spent; case 11 is Stalled as before. */
    held_game("Spent, Stalled and Clean", with(book_b, AT_D, 3), 3, "312" "122" "102", 1, 2);
    memset(in, 0, sizeof in);
    memset(in, 1, WORDS);
    call_words("case 6, 16 times", WORDS, book_a, BOOK, in, WORDS * WORD_A, in + WORDS, WORDS * MESSAGE_A, taken(0));
    call_words("case 9, 16 times", WORDS, with(book_a, AT_D, 7), BOOK, in, WORDS * WORD_A, NULL, WORDS * MESSAGE_A, taken(WORDS));
}

/* A call with inputs of these symbols, as many as are right for n, k and M, whose outputs must stay as they were. */
static struct call refused_call(int which, const uint8_t *book, size_t book_len, const uint8_t *from, size_t n, size_t k, uint32_t words)
{
    struct call made = {book, book_len, words, {from, from}, {0}, {NULL}, {0}};
    int i;
    for (i = 0; i < INPUTS; i++)
        made.input_len[i] = size_of(functions[which].input[i].size, n, k, words);
    for (i = 0; i < OUTPUTS; i++)
        made.output_len[i] = size_of(functions[which].output[i].size, n, k, words);
    return made;
}

/* A refused codebook is refused by every function, whatever the call is else: all right for book A, all wrong, and of no bytes. */
static void refused(const char *name, const uint8_t *book, size_t book_len, uint32_t number)
{
    uint8_t word[WORD_A], bad[WORD_A];
    int which, i;
    symbols(word, "1101000");
    symbols(bad, "2000000");
    for (which = 0; which < FUNCTIONS; which++) {
        struct call wrong = refused_call(which, book, book_len, bad, WORD_A, MESSAGE_A, 1);
        run(name, which, refused_call(which, book, book_len, word, WORD_A, MESSAGE_A, 1), number);
        for (i = 0; i < INPUTS && functions[which].input[i].size != NONE; i++)
            wrong.input_len[i]--;
        for (i = 0; i < OUTPUTS; i++)
            wrong.output_len[i]++;
        wrong.number = 17;
        run(name, which, wrong, number);
        run(name, which, refused_call(which, book, book_len, bad, 0, 0, 0), number);
    }
}

static void test_refused_codebooks(void)
{
    uint8_t book[BOOK];
    refused("refusal 1: 133 bytes", book_a, 133, 1);
    refused("refusal 1: no bytes", book_a, 0, 1);
    refused("refusal 2: first byte 2", with(book_a, AT_KIND, 2), BOOK, 2);
    refused("refusal 3: s 3, p 2", with(book_a, AT_P, 2), BOOK, 3);
    refused("refusal 3: s 7", with(book_a, AT_S, 7), BOOK, 3);
    refused("refusal 4: g 1201", with(book_a, AT_G + 1, 2), BOOK, 4);
    refused("refusal 4: place n of the dual word", with(book_a, AT_DUAL_WORD + WORD_A, 1), BOOK, 4);
    memcpy(book, book_a, BOOK);
    symbols(book + AT_G, "1010");
    refused("refusal 5: g 101", book, BOOK, 5);
    refused("refusal 6: D 8", with(book_a, AT_D, 8), BOOK, 6);
    refused("refusal 6: I 64", with(book_a, AT_I, 64), BOOK, 6);
    memcpy(book, book_a, BOOK);
    symbols(book + AT_DUAL_WORD, "1101000");
    refused("refusal 7: dual word 1101000", book, BOOK, 7);
}

/* Two dual words that are alike, as one is a nonzero symbol times a turn of the other. */
static void test_alike_dual_words(void)
{
    uint8_t book[BOOK + RECORD];
    two_dual_words(book, book_b, "231", "120", "103");
    refused("refusal 8: turned and multiplied", book, sizeof book, 8);
    two_dual_words(book, book_b, "231", "103", "120");
    refused("refusal 8: turned and multiplied, the other way round", book, sizeof book, 8);
    two_dual_words(book, book_b, "231", "120", "310");
    refused("refusal 7: multiplied alone", book, sizeof book, 7);
    two_dual_words(book, book_a, "1101", "1110100", "1110100");
    refused("refusal 8: the dual word twice", book, sizeof book, 8);
    two_dual_words(book, book_a, "1101", "1110100", "1101001");
    refused("refusal 8: turned", book, sizeof book, 8);
    /* Of two the smaller. */
    book[AT_D] = 8;
    refused("refusals 6 and 8", book, sizeof book, 6);
    book[AT_P] = 2;
    refused("refusals 3, 6 and 8", book, sizeof book, 3);
}

static void test_refused_calls(void)
{
    refuses("refusal 9: code 5 symbols", CODE, book_a, "10000", WORD_A, 9);
    refuses("refusal 9: code no symbols", CODE, book_a, "", WORD_A, 9);
    refuses("refusal 9: read 6 symbols", READ, book_a, "110100", MESSAGE_A, 9);
    refuses("refusal 9: the remainder of 6 symbols", REMAINDER, book_a, "110100", REMAINDER_A, 9);
    refuses("refusal 9: the remainder of 8 symbols", REMAINDER, book_a, "11010000", REMAINDER_A, 9);
    refuses("refusal 9: the remainder of no symbols", REMAINDER, book_a, "", REMAINDER_A, 9);
    refuses("refusal 9: decode 8 symbols", DECODE, book_a, "11010000", WORD_A, 9);
    refuses("refusal 9: decode no symbols", DECODE, book_a, "", WORD_A, 9);
    refuses("refusal 10: a word of 6", CODE, book_a, "1000", 6, 10);
    refuses("refusal 10: a word of 8", CODE, book_a, "1000", 8, 10);
    refuses("refusal 10: a message of 3", READ, book_a, "1101000", 3, 10);
    refuses("refusal 10: a message of 7", READ, book_a, "1101000", 7, 10);
    refuses("refusal 10: a remainder of 2", REMAINDER, book_a, "1000000", 2, 10);
    refuses("refusal 10: a remainder of 4", REMAINDER, book_a, "1000000", 4, 10);
    refuses("refusal 10: a remainder of 7", REMAINDER, book_a, "1101000", 7, 10);
    refuses("refusal 10: a remainder of 0", REMAINDER, book_a, "1101000", 0, 10);
    refuses("refusal 10: a remainder of 63", REMAINDER, book_a, "1000000", 63, 10);
    refuses("refusal 10: an answer of 6", DECODE, book_a, "1000000", 6, 10);
    refuses("refusal 10: an answer of 0", DECODE, book_a, "1000000", 0, 10);
    refuses("refusal 10: an answer of 63", DECODE, book_a, "1000000", 63, 10);
    refuses("refusal 11: code 0002", CODE, book_a, "0002", WORD_A, 11);
    refuses("refusal 11: read 2000000", READ, book_a, "2000000", MESSAGE_A, 11);
    refuses("refusal 11: the remainder of 2000000", REMAINDER, book_a, "2000000", REMAINDER_A, 11);
    refuses("refusal 11: the remainder of 1101002", REMAINDER, book_a, "1101002", REMAINDER_A, 11);
    refuses("refusal 11: the remainder of 114", REMAINDER, book_b, "114", 2, 11);
    refuses("refusal 11: decode 2000000", DECODE, book_a, "2000000", WORD_A, 11);
    refuses("refusal 11: decode 114", DECODE, book_b, "114", 3, 11);
    refuses("refusal 12: read 1000000", READ, book_a, "1000000", MESSAGE_A, 12);
    refuses("refusal 12: read 120", READ, book_b, "120", 1, 12);
    /* Of two the smaller. */
    refuses("refusals 9, 10 and 11", DECODE, book_a, "20000000", 6, 9);
    refuses("refusals 9, 10 and 11", REMAINDER, book_a, "20000000", 4, 9);
    refuses("refusals 10 and 11", CODE, book_a, "2000", 6, 10);
    refuses("refusals 10 and 11", REMAINDER, book_a, "2000000", 4, 10);
    refuses("refusals 10 and 12", READ, book_a, "1000000", 5, 10);
}

/* No symbols, more than k, and short messages that are refused for something else. */
static void test_refused_lengths(void)
{
    refuses("refusal 9: A, 7 symbols, as many as a word has", CODE, book_a, "1101000", WORD_A, 9);
    refuses("refusal 9: A, 8 symbols", CODE, book_a, "11010000", WORD_A, 9);
    refuses("refusal 9: B, no symbols", CODE, book_b, "", 3, 9);
    refuses("refusal 9: B, 2 symbols", CODE, book_b, "10", 3, 9);
    refuses("refusal 9: C, no symbols", CODE, book_c, "", 3, 9);
    refuses("refusal 9: C, 3 symbols", CODE, book_c, "100", 3, 9);
    refuses("refusal 10: one symbol to a word of 6", CODE, book_a, "1", 6, 10);
    refuses("refusal 10: one symbol to a word of 1", CODE, book_a, "1", 1, 10);
    refuses("refusal 10: one symbol to no word", CODE, book_a, "1", 0, 10);
    refuses("refusal 11: A, code 2", CODE, book_a, "2", WORD_A, 11);
    refuses("refusal 11: A, code 012", CODE, book_a, "012", WORD_A, 11);
    refuses("refusal 11: C, code 4", CODE, book_c, "4", 3, 11);
    refuses("refusals 9 and 10", CODE, book_a, "", 6, 9);
    refuses("refusals 9 and 10", CODE, book_a, "10000", 8, 9);
    refuses("refusals 9 and 11", CODE, book_a, "20000", WORD_A, 9);
    refuses("refusals 9, 10 and 11", CODE, book_a, "00002", 6, 9);
    refuses("refusals 10 and 11", CODE, book_a, "2", 6, 10);
}

/* What M may not be; and the program's words with a symbol that is none. */
static const uint32_t counts[] = {0, 17, 18, 255, 256, 256 + 3, 65536 + 3, 0x80000000u, 0x80000003u, 0xffffffffu};
static const char *const bad_mixed = "111" "011" "000" "001" "000" "000" "002";

/* Three words of A have 21 symbols. */
static void test_refused_bursts(void)
{
    static const uint8_t zeros[17 * WORD_A] = {0};
    const char *const mixed = program_mixed, *const bad = bad_mixed;
    char name[64];
    size_t i;
    for (i = 0; i < sizeof counts / sizeof counts[0]; i++) {
        snprintf(name, sizeof name, "refusal 14: %lu words", (unsigned long)counts[i]);
        refuses_burst(name, book_a, counts[i], mixed, 21, 3, 14);
        refuses_burst(name, book_a, counts[i], "", 0, 0, 14);
        refuses_burst(name, book_a, counts[i], bad, 20, 4, 14);
    }
    run("refusal 14: 17 words, and buffers for them", BURST, refused_call(BURST, book_a, BOOK, zeros, WORD_A, MESSAGE_A, 17), 14);
    refuses_burst("refusal 9: 20 symbols", book_a, 3, "11101100000100000000", 21, 3, 9);
    refuses_burst("refusal 9: 22 symbols", book_a, 3, "1110110000010000000000", 21, 3, 9);
    refuses_burst("refusal 9: 7 symbols", book_a, 3, "1101000", 21, 3, 9);
    refuses_burst("refusal 9: no symbols", book_a, 3, "", 21, 3, 9);
    refuses_burst("refusal 9: symbols of three words for one", book_a, 1, mixed, 7, 1, 9);
    refuses_burst("refusal 10: answers of 20", book_a, 3, mixed, 20, 3, 10);
    refuses_burst("refusal 10: answers of 22", book_a, 3, mixed, 22, 3, 10);
    refuses_burst("refusal 10: answers of 7", book_a, 3, mixed, 7, 3, 10);
    refuses_burst("refusal 10: no answers", book_a, 3, mixed, 0, 3, 10);
    refuses_burst("refusal 10: a list of 2", book_a, 3, mixed, 21, 2, 10);
    refuses_burst("refusal 10: a list of 4", book_a, 3, mixed, 21, 4, 10);
    refuses_burst("refusal 10: a list of 9, which is the bytes of 3", book_a, 3, mixed, 21, 9, 10);
    refuses_burst("refusal 10: no list", book_a, 3, mixed, 21, 0, 10);
    refuses_burst("refusal 11: a symbol 2", book_a, 3, bad, 21, 3, 11);
    refuses_burst("refusal 11: a symbol 4", book_b, 2, "41" "12" "10", 6, 2, 11);
    /* Of two the first in the table. */
    refuses_burst("refusals 9, 10 and 11", book_a, 2, bad, 21, 3, 9);
    refuses_burst("refusals 9 and 10", book_a, 3, "1101000", 7, 1, 9);
    refuses_burst("refusals 10 and 11", book_a, 3, bad, 20, 3, 10);
    refuses_burst("refusals 10 and 11", book_a, 3, bad, 21, 2, 10);
}

/* Their messages have 12. */
static void test_refused_games(void)
{
    static const uint8_t zeros[17 * WORD_A] = {0};
    const char *const mixed = program_mixed, *const bad = bad_mixed;
    char name[64];
    size_t i;
    for (i = 0; i < sizeof counts / sizeof counts[0]; i++) {
        snprintf(name, sizeof name, "refusal 14: a game of %lu words", (unsigned long)counts[i]);
        refuses_game(name, book_a, counts[i], mixed, 12, 14);
        refuses_game(name, book_a, counts[i], "", 0, 14);
        refuses_game(name, book_a, counts[i], bad, 11, 14);
    }
    run("refusal 14: 17 words, and a buffer for them", GAME, refused_call(GAME, book_a, BOOK, zeros, WORD_A, MESSAGE_A, 17), 14);
    refuses_game("refusal 9: 20 symbols", book_a, 3, "11101100000100000000", 12, 9);
    refuses_game("refusal 9: 22 symbols", book_a, 3, "1110110000010000000000", 12, 9);
    refuses_game("refusal 9: 7 symbols", book_a, 3, "1101000", 12, 9);
    refuses_game("refusal 9: 12 symbols, as many as the messages have", book_a, 3, "111011000001", 12, 9);
    refuses_game("refusal 9: no symbols", book_a, 3, "", 12, 9);
    refuses_game("refusal 9: symbols of three words for one", book_a, 1, mixed, 4, 9);
    refuses_game("refusal 10: messages of 11", book_a, 3, mixed, 11, 10);
    refuses_game("refusal 10: messages of 13", book_a, 3, mixed, 13, 10);
    refuses_game("refusal 10: messages of 4, which is one", book_a, 3, mixed, 4, 10);
    refuses_game("refusal 10: messages of 21, which is three words", book_a, 3, mixed, 21, 10);
    refuses_game("refusal 10: no messages", book_a, 3, mixed, 0, 10);
    refuses_game("refusal 10: a game that would be Held", book_b, 2, "31" "12" "10", 3, 10);
    refuses_game("refusal 11: a symbol 2", book_a, 3, bad, 12, 11);
    refuses_game("refusal 11: a symbol 4", book_b, 2, "41" "12" "10", 2, 11);
    refuses_game("refusal 11: a symbol 4, and case 11 before it", book_b, 2, "13" "21" "04", 2, 11);
    /* Of two the first in the table. */
    refuses_game("refusals 9, 10 and 11", book_a, 2, bad, 12, 9);
    refuses_game("refusals 9 and 10", book_a, 3, "1101000", 4, 9);
    refuses_game("refusals 10 and 11", book_a, 3, bad, 11, 10);
}

/* Faults of a call, one or two of them: the first in the order of the refusals is the one that is told. */
enum { MOST_FAULTS = 64 };

struct fault {
    int rank; /* number, inputs, outputs, symbols */
    uint32_t refusal;
    uint32_t number;         /* rank 0 */
    int buffer;
    size_t at;               /* a length, or the place of a symbol */
};

static struct fault faults[MOST_FAULTS];
static size_t fault_count;

static void add_fault(int rank, uint32_t refusal, uint32_t number, int buffer, size_t at)
{
    const struct fault fault = {rank, refusal, number, buffer, at};
    if (refusal != 0 && fault_count < MOST_FAULTS)
        faults[fault_count++] = fault;
}

enum { NUMBER_RANK, INPUT_RANK, OUTPUT_RANK = INPUT_RANK + INPUTS, SYMBOL_RANK = OUTPUT_RANK + OUTPUTS };

/* The lengths that a buffer of this size may not have. */
static void add_lengths(int rank, int buffer, const struct buffer *row, size_t exact)
{
    add_fault(rank, row->length_refusal, 0, buffer, 0);
    if (row->size != TO_K && exact > 1)
        add_fault(rank, row->length_refusal, 0, buffer, exact - 1);
    add_fault(rank, row->length_refusal, 0, buffer, exact + 1);
    add_fault(rank, row->length_refusal, 0, buffer, 2 * exact);
}

static void list_faults(int which, const struct call *good)
{
    static const uint32_t numbers[] = {0, 17, 0x80000003u};
    const struct function *f = &functions[which];
    size_t j;
    int i;
    fault_count = 0;
    for (j = 0; j < sizeof numbers / sizeof numbers[0]; j++)
        add_fault(NUMBER_RANK, f->number_refusal, numbers[j], 0, 0);
    for (i = 0; i < INPUTS && f->input[i].size != NONE; i++) {
        add_lengths(INPUT_RANK + i, i, &f->input[i], good->input_len[i]);
        add_fault(SYMBOL_RANK + i, f->input[i].symbol_refusal, 0, i, 0);
        add_fault(SYMBOL_RANK + i, f->input[i].symbol_refusal, 0, i, good->input_len[i] - 1);
    }
    for (i = 0; i < OUTPUTS && f->output[i].size != NONE; i++)
        add_lengths(OUTPUT_RANK + i, i, &f->output[i], good->output_len[i]);
}

/* The call with a fault more; the symbols of an input are in its own array. */
static void spoil(struct call *c, const struct fault *fault, uint8_t (*inputs)[2 * LARGEST_BURST], uint8_t symbol)
{
    if (fault->rank == NUMBER_RANK)
        c->number = fault->number;
    else if (fault->rank < OUTPUT_RANK)
        c->input_len[fault->buffer] = fault->at;
    else if (fault->rank < SYMBOL_RANK)
        c->output_len[fault->buffer] = fault->at;
    else
        inputs[fault->buffer][fault->at] = symbol;
}

/* Every fault alone, and with every other one of another rank where pairs are asked for; q is the first symbol that is none. */
static void test_faults(const char *name, const uint8_t *book, size_t book_len, size_t n, size_t k, uint8_t q, uint32_t words, int pairs)
{
    static uint8_t inputs[INPUTS][2 * LARGEST_BURST];
    size_t i, j;
    int which, in;
    for (which = 0; which < FUNCTIONS; which++) {
        struct call good = refused_call(which, book, book_len, NULL, n, k, words);
        for (in = 0; in < INPUTS; in++)
            good.input[in] = inputs[in];
        list_faults(which, &good);
        for (i = 0; i < fault_count; i++)
            for (j = i; j < (pairs ? fault_count : i + 1); j++) {
                struct call spoiled = good;
                if (i != j && faults[i].rank == faults[j].rank)
                    continue;
                memset(inputs, 0, sizeof inputs);
                spoil(&spoiled, &faults[i], inputs, q);
                spoil(&spoiled, &faults[j], inputs, q);
                run(name, which, spoiled, faults[faults[i].rank <= faults[j].rank ? i : j].refusal);
            }
    }
}

/* Lengths that are the right ones and 2^32 more. The room can be read, and takes no memory before that; it cannot be written, which a refused call
 * does not do. */
static void test_lengths_of_33_digits(void)
{
    const size_t more = (size_t)1 << 32, room_len = 3 * (more + 1);
    uint8_t word[WORD_A] = {0}, written[OUTPUTS][WORD_A], *output[OUTPUTS];
    void *const mapped = mmap(NULL, room_len, PROT_READ, MAP_PRIVATE | MAP_ANONYMOUS | MAP_NORESERVE, -1, 0);
    int which, i, j;
    if (mapped == MAP_FAILED) {
        failed++;
        printf("failed: no room of %lu bytes\n", (unsigned long)room_len);
        return;
    }
    fflush(stdout); /* A write to the room ends the run. */
    for (which = 0; which < FUNCTIONS; which++)
        for (i = 0; i < INPUTS + OUTPUTS; i++) {
            const struct buffer *buffer = i < INPUTS ? &functions[which].input[i] : &functions[which].output[i - INPUTS];
            struct call longer = refused_call(which, book_a, BOOK, word, WORD_A, MESSAGE_A, 1);
            if (buffer->size == NONE)
                continue;
            for (j = 0; j < OUTPUTS; j++)
                output[j] = written[j];
            if (i < INPUTS) {
                longer.input[i] = (const uint8_t *)mapped;
                longer.input_len[i] += more;
            } else {
                output[i - INPUTS] = (uint8_t *)mapped;
                longer.output_len[i - INPUTS] += more;
            }
            expect_number("2^32 more", of_call(which, "the result for the ", buffer->name), functions[which].call(&longer, output),
                          buffer->length_refusal);
        }
    munmap(mapped, room_len);
}

/* The longest words of each form, over every field that they can have. */
static const struct shape {
    const char *name;
    uint8_t s, p;
    size_t n, width; /* of a body */
    uint8_t error;   /* a symbol of as many digits as there are */
} shapes[] = {
    {"n 63, q 64", 6, 6, 63, 63, 42}, {"n 127, q 2", 7, 1, 127, 255, 1}, {"n 255, q 2", 8, 1, 255, 255, 1},
    {"n 255, q 4", 8, 2, 255, 255, 3}, {"n 255, q 16", 8, 4, 255, 255, 13},
};

/* The kinds, s, p, I and D of a codebook with so many dual words, and zeros; its length. */
static size_t make_frame(uint8_t *book, const struct shape *shape, unsigned rounds, unsigned places, size_t dual_words)
{
    const size_t limits = 4 + shape->width, record = 1 + shape->width;
    const int is_long = shape->width == LARGEST;
    size_t i;
    memset(book, 0, limits + 3 + record * dual_words);
    book[0] = 1, book[AT_S] = shape->s, book[AT_P] = shape->p;
    book[3] = is_long ? 5 : 2;
    book[limits] = 3, book[limits + 1] = (uint8_t)rounds, book[limits + 2] = (uint8_t)places;
    for (i = 0; i < dual_words; i++)
        book[limits + 3 + record * i] = is_long ? 6 : 4;
    return limits + 3 + record * dual_words;
}

/* g is x + 1, so that place j of a code word is the sum of places j and j - 1 of the message, and the one symbol of a remainder is the sum of all
 * symbols of the word. The dual word has 1 at all places. */
static size_t make_sums(uint8_t *book, const struct shape *shape)
{
    size_t len = make_frame(book, shape, 63, (unsigned)shape->n, 1);
    book[AT_G] = 1, book[AT_G + 1] = 1;
    memset(book + len - shape->width, 1, shape->n);
    return len;
}

/* g has 1 at all places: a message is one symbol, and its word has that symbol at all places. Dual word i has 1 at place 0 and at place i + 1. */
static size_t make_repeats(uint8_t *book, const struct shape *shape, size_t dual_words)
{
    size_t len = make_frame(book, shape, 3, 1, dual_words), i;
    memset(book + AT_G, 1, shape->n);
    for (i = 0; i < dual_words; i++) {
        uint8_t *body = book + len - (1 + shape->width) * (dual_words - i) + 1;
        body[0] = 1, body[i + 1] = 1;
    }
    return len;
}

/* The word of its message, with zeros for the symbols from len on. */
static void put_word(uint8_t *word, uint8_t *message, const struct shape *shape, size_t len)
{
    const size_t n = shape->n;
    size_t j;
    for (j = 0; j < n - 1; j++)
        message[j] = (uint8_t)(j < len ? (n - j) % (1u << shape->p) : 0);
    for (j = 0; j < n; j++)
        word[j] = (uint8_t)((j < n - 1 ? message[j] : 0) ^ (j > 0 ? message[j - 1] : 0));
}

static void test_every_length(const struct shape *shape)
{
    static const uint8_t zeros[LARGEST + 1] = {0};
    uint8_t book[LONG_BOOK], message[LARGEST - 1], word[LARGEST];
    const size_t book_len = make_sums(book, shape), n = shape->n;
    char name[64];
    size_t len;
    call(shape->name, CODE, book, book_len, zeros, 0, NULL, n, 9);
    for (len = 1; len <= n - 1; len++) {
        snprintf(name, sizeof name, "%s, %lu symbols", shape->name, (unsigned long)len);
        put_word(word, message, shape, len);
        call(name, CODE, book, book_len, message, len, word, n, 0);
        call(name, CODE, book, book_len, message, n - 1, word, n, 0);
        call(name, READ, book, book_len, word, n, message, n - 1, 0);
    }
    call(shape->name, CODE, book, book_len, zeros, n, NULL, n, 9);
    call(shape->name, CODE, book, book_len, zeros, n + 1, NULL, n, 9);
}

static void test_largest(const struct shape *shape)
{
    const uint8_t no_error = 0, error = shape->error;
    const char *const is = shape->name;
    uint8_t book[LONG_BOOK], message[LARGEST - 1], word[LARGEST], received[LARGEST], answer[LARGEST];
    const size_t len = make_sums(book, shape), n = shape->n;
    size_t j;
    put_word(word, message, shape, n - 1);
    expect_number(is, "the result of check", shiftsum_check(book, len), 0x100);
    call(is, CODE, book, len, message, n - 1, word, n, 0);
    call(is, READ, book, len, word, n, message, n - 1, 0);
    call(is, REMAINDER, book, len, word, n, &no_error, 1, 0);
    call(is, DECODE, book, len, word, n, word, n, decoded(SHIFTSUM_CLEAN, 0, 0));
    /* Every check value is the sum of all symbols, which is the error; so it is subtracted at all n places, an odd number, and the sum is 0 then. */
    memcpy(received, word, n);
    received[17] ^= error;
    for (j = 0; j < n; j++)
        answer[j] = received[j] ^ error;
    call(is, DECODE, book, len, received, n, answer, n, decoded(SHIFTSUM_MENDED, 1, (unsigned)n));
    call(is, REMAINDER, book, len, received, n, &error, 1, 0);
    call(is, READ, book, len, received, n, NULL, n - 1, 12);
    received[n - 1] = (uint8_t)(1u << shape->p);
    call(is, DECODE, book, len, received, n, NULL, n, 11);
    call(is, REMAINDER, book, len, received, n, NULL, 1, 11);
    call(is, DECODE, book, len, received, n - 1, NULL, n, 9);
    call(is, DECODE, book, len, received, n, NULL, n - 1, 10);
    test_faults(is, book, len, n, n - 1, (uint8_t)(1u << shape->p), WORDS, 0);
}

/* As many words as there may be, every second one with an error, each at another place; a burst of them, and a game. */
static void test_largest_burst(const struct shape *shape)
{
    static uint8_t received[LARGEST_BURST], answers[LARGEST_BURST], messages[LARGEST_BURST];
    uint8_t book[LONG_BOOK], message[LARGEST - 1], word[LARGEST];
    const size_t len = make_sums(book, shape), n = shape->n, k = n - 1, all = WORDS * n;
    struct shiftsum_record records[WORDS];
    size_t m, j;
    for (m = 0; m < WORDS; m++) {
        const uint8_t error = m % 2 == 0 ? shape->error : 0;
        put_word(word, message, shape, 1 + m * (n - 2) / WORDS);
        for (j = 0; j < n; j++) {
            const uint8_t symbol = (uint8_t)(word[j] ^ (j == m ? error : 0));
            received[j * WORDS + m] = symbol;
            answers[m * n + j] = symbol ^ error;
            if (j < k)
                messages[m * k + j] = (uint8_t)(answers[m * n + j] ^ (j > 0 ? messages[m * k + j - 1] : 0));
        }
        records[m].kind = error == 0 ? SHIFTSUM_CLEAN : SHIFTSUM_MENDED;
        records[m].rounds = error != 0;
        records[m].changed = (uint8_t)(error == 0 ? 0 : n);
    }
    run(shape->name, BURST, of_burst(book, len, WORDS, received, all, answers, all, records, WORDS), 0);
    call_words(shape->name, WORDS, book, len, received, all, messages, WORDS * k, taken(0));
    received[all - 1] = (uint8_t)(1u << shape->p);
    run(shape->name, BURST, of_burst(book, len, WORDS, received, all, NULL, all, NULL, WORDS), 11);
    call_words(shape->name, WORDS, book, len, received, all, NULL, WORDS * k, 11);
}

/* A game of as many words as there may be, every second one with an error, which is mended; then of one word more each time, from the last to the
 * first, that is Stalled: of errors with a place between them no check has two, so that they tie, and D is 1. */
static void test_every_count_held(const struct shape *shape)
{
    static uint8_t received[LARGEST_BURST];
    uint8_t book[LONG_BOOK], messages[WORDS];
    const size_t len = make_repeats(book, shape, 1), n = shape->n, all = WORDS * n;
    unsigned held;
    size_t m, j;
    for (m = 0; m < WORDS; m++) {
        messages[m] = (uint8_t)(m % (1u << shape->p));
        for (j = 0; j < n; j++)
            received[j * WORDS + m] = (uint8_t)(messages[m] ^ (m % 2 == 1 && j == m ? shape->error : 0));
    }
    call_words(shape->name, WORDS, book, len, received, all, messages, WORDS, taken(0));
    for (held = 1; held <= WORDS; held++) {
        received[20 * WORDS + WORDS - held] ^= shape->error;
        received[30 * WORDS + WORDS - held] ^= shape->error;
        call_words(shape->name, WORDS, book, len, received, all, NULL, WORDS, taken(held));
    }
}

/* The longest remainder: x^(n - 1) is the sum of the powers below it. */
static void test_longest_remainder(const struct shape *shape)
{
    uint8_t book[LONG_BOOK], word[LARGEST], rest[LARGEST - 1];
    const size_t len = make_repeats(book, shape, 1), n = shape->n;
    size_t j;
    expect_number(shape->name, "the result of check", shiftsum_check(book, len), 0x100);
    for (j = 0; j < n; j++)
        word[j] = (uint8_t)(j % (1u << shape->p));
    for (j = 0; j < n - 1; j++)
        rest[j] = (uint8_t)(word[j] ^ word[n - 1]);
    call(shape->name, REMAINDER, book, len, word, n, rest, n - 1, 0);
    call(shape->name, REMAINDER, book, len, word, n, NULL, n, 10);
    call(shape->name, REMAINDER, book, len, word, n, NULL, 1, 10);
}

/* The longest codebook of each form: 31 or 32 dual words, of which 32 at n 63 would have two alike. */
static void test_longest_book(const struct shape *shape)
{
    uint8_t book[SHIFTSUM_BOOK_MAX], word[LARGEST], received[LARGEST], message;
    const size_t dual_words = shape->width == LARGEST ? 32 : 31;
    const size_t len = make_repeats(book, shape, dual_words), n = shape->n;
    expect_number(shape->name, "the length", len, dual_words == 32 ? SHIFTSUM_BOOK_MAX : 70 + 64 * 31);
    expect_number(shape->name, "the result of check", shiftsum_check(book, len), dual_words << 8);
    memset(word, shape->error, n);
    message = shape->error;
    call(shape->name, CODE, book, len, &message, 1, word, n, 0);
    call(shape->name, READ, book, len, word, n, &message, 1, 0);
    /* Each dual word checks the last place by one before and one after it, and any other place by the last one once at most. */
    memcpy(received, word, n);
    received[n - 1] = 0;
    call(shape->name, DECODE, book, len, received, n, word, n, decoded(SHIFTSUM_MENDED, 1, 1));
    call(shape->name, DECODE, book, len, word, n, word, n, decoded(SHIFTSUM_CLEAN, 0, 0));
    call_words(shape->name, 1, book, len, received, n, &message, 1, taken(0));
}

/* A copy of a codebook of the long form with one byte changed, good until the next one. */
static const uint8_t *with_long(const uint8_t *book, size_t at, uint8_t byte)
{
    static uint8_t copy[SHIFTSUM_BOOK_MAX + LONG_RECORD];
    memmove(copy, book, sizeof copy);
    copy[at] = byte;
    return copy;
}

/* Byte 3 chooses the form, and never the length; 518 bytes are of both. */
static void test_forms(void)
{
    static uint8_t book[SHIFTSUM_BOOK_MAX + LONG_RECORD];
    size_t len;
    refused("134 bytes, byte 3 is 5", with(book_a, 3, 5), BOOK, 1);
    refused("134 bytes, byte 3 is 9", with(book_a, 3, 9), BOOK, 2);
    refused("133 bytes, byte 3 is 9", with(book_a, 3, 9), BOOK - 1, 1);
    refused("3 bytes", book_a, 3, 1);
    refused("4 bytes", book_a, 4, 1);
    refused("short form, s 8", with(book_a, AT_S, 8), BOOK, 3);
    refused("short form, kind 6", with(book_a, AT_DUAL_WORD - 1, 6), BOOK, 2);
    len = make_repeats(book, &shapes[4], 8);
    expect_number("2310 bytes", "the length", len, 2310);
    expect_number("2310 bytes", "the result", shiftsum_check(book, len), 0x800);
    refused("2310 bytes, byte 3 is 9", with_long(book, 3, 9), len, 2);
    refused("2310 bytes, byte 3 is 2", with_long(book, 3, 2), len, 1);
    refused("2309 bytes", book, len - 1, 1);
    refused("2311 bytes", book, len + 1, 1);
    len = make_repeats(book, &shapes[0], 7);
    expect_number("short, 7 dual words", "the length", len, LONG_BOOK);
    expect_number("short, 7 dual words", "the result", shiftsum_check(book, len), 0x700);
    refused("518 bytes of the short form, byte 3 is 5", with_long(book, 3, 5), len, 2);
    len = make_repeats(book, &shapes[4], 1);
    expect_number("long, 1 dual word", "the length", len, LONG_BOOK);
    expect_number("long, 1 dual word", "the result", shiftsum_check(book, len), 0x100);
    refused("518 bytes of the long form, byte 3 is 2", with_long(book, 3, 2), len, 2);
    make_repeats(book, &shapes[4], 32);
    refused("8453 bytes", book, SHIFTSUM_BOOK_MAX - 1, 1);
    refused("8455 bytes", book, SHIFTSUM_BOOK_MAX + 1, 1);
    refused("8710 bytes", book, SHIFTSUM_BOOK_MAX + LONG_RECORD, 1);
}

/* What a codebook of n 127 is refused by. */
static void test_refused_long_codebooks(void)
{
    static uint8_t book[SHIFTSUM_BOOK_MAX + LONG_RECORD];
    const size_t len = make_repeats(book, &shapes[1], 2);
    static const uint8_t sizes[][2] = {{0, 1}, {2, 1}, {6, 1}, {7, 0}, {7, 2}, {7, 4}, {7, 7},
                                       {8, 0}, {8, 3}, {8, 5}, {8, 6}, {8, 7}, {8, 8}, {9, 1}};
    char name[64];
    size_t i;
    expect_number("n 127, 2 dual words", "the result", shiftsum_check(book, len), 0x200);
    refused("long form, kind 4", with_long(book, LONG_DUAL_WORD - 1, 4), len, 2);
    refused("long form, the second kind 4", with_long(book, LONG_DUAL_WORD - 1 + LONG_RECORD, 4), len, 2);
    refused("long form, first byte 2", with_long(book, 0, 2), len, 2);
    for (i = 0; i < sizeof sizes / sizeof sizes[0]; i++) {
        snprintf(name, sizeof name, "long form, s %u, p %u", (unsigned)sizes[i][0], (unsigned)sizes[i][1]);
        memcpy(book + AT_S, sizes[i], 2);
        refused(name, book, len, 3);
    }
    make_repeats(book, &shapes[1], 2);
    refused("place 127 of g", with_long(book, AT_G + 127, 1), len, 4);
    refused("place 254 of g", with_long(book, AT_G + 254, 1), len, 4);
    refused("place 127 of a dual word", with_long(book, LONG_DUAL_WORD + 127, 1), len, 4);
    refused("place 254 of the last dual word", with_long(book, LONG_DUAL_WORD + LONG_RECORD + 254, 1), len, 4);
    refused("a symbol 2", with_long(book, LONG_DUAL_WORD + 126, 2), len, 4);
    refused("g without its lead", with_long(book, AT_G + 126, 0), len, 5);
    refused("I 64", with_long(book, LONG_I, 64), len, 6);
    refused("D 128", with_long(book, LONG_I + 1, 128), len, 6);
    refused("a dual word of weight 3", with_long(book, LONG_DUAL_WORD + 126, 1), len, 7);
    /* 1 at places 0 and 125 is a turn of 1 at places 0 and 2. */
    memset(book + LONG_DUAL_WORD, 0, 127);
    book[LONG_DUAL_WORD] = 1, book[LONG_DUAL_WORD + 125] = 1;
    refused("a dual word turned", book, len, 8);
}

int main(void)
{
    size_t i;
    test_macros();
    test_check();
    test_cases();
    test_short_messages();
    test_remainder();
    test_burst();
    test_game();
    test_refused_codebooks();
    test_alike_dual_words();
    test_refused_calls();
    test_refused_lengths();
    test_refused_bursts();
    test_refused_games();
    test_faults("book A, a word", book_a, BOOK, WORD_A, MESSAGE_A, 2, 1, 1);
    test_faults("book A, three words", book_a, BOOK, WORD_A, MESSAGE_A, 2, 3, 1);
    test_faults("book B, two words", book_b, BOOK, 3, 1, 4, 2, 1);
    test_faults("book C, 16 words", book_c, BOOK, 3, 2, 4, WORDS, 1);
    for (i = 0; i < sizeof shapes / sizeof shapes[0]; i++) {
        test_every_length(&shapes[i]);
        test_largest(&shapes[i]);
        test_largest_burst(&shapes[i]);
        test_every_count_held(&shapes[i]);
        test_longest_remainder(&shapes[i]);
        test_longest_book(&shapes[i]);
    }
    test_forms();
    test_refused_long_codebooks();
    test_lengths_of_33_digits();
    printf("%lu passed, %lu failed\n", passed, failed);
    return failed == 0 ? 0 : 1;
}
