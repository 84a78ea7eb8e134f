/*
 * What the header has beside the library's functions: versions, names of refusals and their texts, which kinds are reached, and n, k and q of every
 * codebook that it is given as a file. It is C++ as well.
 *
 * The library itself says whether n, k and q are right: a message of k symbols is coded, and one of k + 1 refused; and so for n and q.
 */
#include "shiftsum.h"

#include <ctype.h>
#include <stdio.h>
#include <string.h>

enum { LARGEST_REFUSAL = 14 };

static unsigned long passed;
static unsigned long failed;

static void expect(const char *what, const char *of, int holds)
{
    if (holds) {
        passed++;
        return;
    }
    failed++;
    printf("failed: %s: %s\n", of, what);
}

static void test_version(void)
{
    unsigned major, minor, patch;
    expect("the archive's is the header's", "version", shiftsum_version() == SHIFTSUM_VERSION);
    expect("three numbers", "version", sscanf(SHIFTSUM_VERSION_TEXT, "%u.%u.%u", &major, &minor, &patch) == 3);
    expect("a byte each", "version", (major << 16 | minor << 8 | patch) == SHIFTSUM_VERSION && major < 256 && minor < 256 && patch < 256);
}

/* The numbers of the scope's table under their names. */
static void test_names(void)
{
    static const struct {
        unsigned name, number;
        const char *part;
    } names[] = {
        {SHIFTSUM_REFUSED_LENGTH, 1, "length"},
        {SHIFTSUM_REFUSED_KIND, 2, "kinds"},
        {SHIFTSUM_REFUSED_SIZE, 3, "p does not divide s"},
        {SHIFTSUM_REFUSED_SYMBOL, 4, "codebook has a symbol"},
        {SHIFTSUM_REFUSED_GENERATOR, 5, "generator"},
        {SHIFTSUM_REFUSED_LIMIT, 6, "D not 1 to n"},
        {SHIFTSUM_REFUSED_DUAL_WORD, 7, "dual word"},
        {SHIFTSUM_REFUSED_ALIKE, 8, "alike"},
        {SHIFTSUM_REFUSED_INPUT_LENGTH, 9, "n symbols"},
        {SHIFTSUM_REFUSED_OUTPUT_LENGTH, 10, "output"},
        {SHIFTSUM_REFUSED_INPUT_SYMBOL, 11, "input has a symbol"},
        {SHIFTSUM_REFUSED_NO_CODE_WORD, 12, "not a code word"},
        {SHIFTSUM_REFUSED_WORDS, 14, "more than 16"},
    };
    size_t i;
    for (i = 0; i < sizeof names / sizeof names[0]; i++) {
        expect("its number", names[i].part, names[i].name == names[i].number);
        expect("its text", names[i].part, strstr(shiftsum_refusal_text(names[i].number), names[i].part) != NULL);
    }
}

/* Every number has a text of its own, part of a sentence; numbers past the last have one for all. */
static void test_texts(void)
{
    const char *unknown = shiftsum_refusal_text(LARGEST_REFUSAL + 1);
    unsigned one, other;
    for (one = 0; one <= LARGEST_REFUSAL; one++) {
        const char *text = shiftsum_refusal_text(one);
        expect("begins small and ends without a stop", text, islower((unsigned char)text[0]) && text[strlen(text) - 1] != '.');
        for (other = 0; other < one; other++)
            expect("is no other's", text, strcmp(text, shiftsum_refusal_text(other)) != 0);
        expect("is known", text, strcmp(text, unknown) != 0);
    }
    for (one = LARGEST_REFUSAL + 1; one < 300; one++)
        expect("is unknown", "a number", strcmp(shiftsum_refusal_text(one), unknown) == 0);
}

static unsigned calls;

static uint32_t counted(uint32_t result)
{
    calls++;
    return result;
}

static void test_reached(void)
{
    unsigned kind;
    for (kind = 0; kind < 256; kind++) {
        const int reached = kind == 'C' || kind == 'M';
        expect("of a kind", "reached", !shiftsum_reached((int)kind) == !reached);
        expect("of a result", "reached", !SHIFTSUM_REACHED(kind << 24 | 0xffff00u) == !reached);
    }
    for (kind = 0; kind < 256; kind++)
        expect("of a refusal", "reached", !SHIFTSUM_REACHED(kind));
    calls = 0;
    expect("of a call", "reached", SHIFTSUM_REACHED(counted(0x4d000000u)));
    expect("the call is made once", "reached", calls == 1);
}

/* What the library says of a message of so many zero symbols, the last of which is replaced, and a word of so many. */
static uint32_t code(const uint8_t *book, size_t len, size_t k, unsigned last, size_t n)
{
    uint8_t message[SHIFTSUM_WORD_MAX + 1] = {0}, word[SHIFTSUM_WORD_MAX + 1];
    message[k - 1] = (uint8_t)last;
    return shiftsum_code(book, len, message, k, word, n);
}

static void test_book(const char *name)
{
    static uint8_t book[SHIFTSUM_BOOK_MAX + 1];
    FILE *file = fopen(name, "rb");
    size_t len = file == NULL ? 0 : fread(book, 1, sizeof book, file), n, k;
    unsigned q;
    if (file != NULL)
        fclose(file);
    if (SHIFTSUM_REFUSAL(shiftsum_check(book, len)) != 0) {
        expect("a codebook", name, 0);
        return;
    }
    n = shiftsum_n(book), k = shiftsum_k(book), q = shiftsum_q(book);
    expect("n, k and q fit", name, code(book, len, k, q - 1, n) == 0);
    expect("k + 1 symbols", name, code(book, len, k + 1, 0, n) == SHIFTSUM_REFUSED_INPUT_LENGTH);
    expect("a word of n + 1", name, code(book, len, k, 0, n + 1) == SHIFTSUM_REFUSED_OUTPUT_LENGTH);
    expect("a word of n - 1", name, code(book, len, k, 0, n - 1) == SHIFTSUM_REFUSED_OUTPUT_LENGTH);
    expect("the symbol q", name, code(book, len, k, q, n) == SHIFTSUM_REFUSED_INPUT_SYMBOL);
}

int main(int argc, char **argv)
{
    int i;
    test_version();
    test_names();
    test_texts();
    test_reached();
    expect("codebooks to look at", "arguments", argc > 1);
    for (i = 1; i < argc; i++)
        test_book(argv[i]);
    printf("%lu passed, %lu failed\n", passed, failed);
    return failed == 0 ? 0 : 1;
}
