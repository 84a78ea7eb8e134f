/*
 * The radio bench: sorts received words by what the radio did to them.
 *
 *     patterns BOOK
 *
 * Several code words are sent, each once with every error pattern of a short list. A word has the remainder of its pattern, whatever was sent. So the
 * words are sorted by their remainders alone, and those of a pattern come together; those of two patterns too, where they differ by a code word.
 *
 * Exit status: 0 every pattern has one remainder; 1 something went wrong that should not; 2 the file cannot be read; 3 the codebook was refused.
 */
#include "book.h"
#include "noise.h"

#include <stdio.h>
#include <stdlib.h>
#include <string.h>

enum { SENT = 6, PATTERNS = 8, WORDS = SENT * PATTERNS };

/* How many symbols a pattern changes. */
static const size_t errors[PATTERNS] = {0, 1, 1, 1, 2, 2, 3, 4};
static uint8_t patterns[PATTERNS][SHIFTSUM_WORD_MAX];

static struct received {
    uint8_t remainder[SHIFTSUM_WORD_MAX]; /* zeros follow its n - k symbols */
    unsigned pattern;                     /* which a bench does not know: here it is printed */
} received[WORDS];

static int compare(const void *a, const void *b)
{
    return memcmp(((const struct received *)a)->remainder, ((const struct received *)b)->remainder, SHIFTSUM_WORD_MAX);
}

/* Sends one code word with every pattern: the one whose message is a number's digits. */
static int transmit(const struct book *book, unsigned number, struct received *to)
{
    uint8_t message[SHIFTSUM_WORD_MAX] = {0}, sent[SHIFTSUM_WORD_MAX], word[SHIFTSUM_WORD_MAX];
    size_t j;
    unsigned i;
    for (j = 0; j < book->k; j++, number >>= book->p)
        message[j] = (uint8_t)(number & ((1u << book->p) - 1));
    if (shiftsum_code(book->bytes, book->len, message, book->k, sent, book->n) != 0)
        return 0;
    for (i = 0; i < PATTERNS; i++) {
        for (j = 0; j < book->n; j++)
            word[j] = (uint8_t)(sent[j] ^ patterns[i][j]);
        to[i].pattern = i;
        if (shiftsum_remainder(book->bytes, book->len, word, book->n, to[i].remainder, book->n - book->k) != 0)
            return 0;
    }
    return 1;
}

/* Prints the words of one remainder; 0 where a pattern has words elsewhere. */
static int print_group(const struct book *book, const struct received *group, size_t count)
{
    unsigned words[PATTERNS] = {0}, i;
    size_t j;
    int whole = 1;
    printf("\n%zu words with the remainder ", count);
    for (j = 0; j < book->n - book->k; j++)
        printf("%02x", (unsigned)group->remainder[j]);
    for (j = 0; j < count; j++)
        words[group[j].pattern]++;
    for (i = 0; i < PATTERNS; i++) {
        if (words[i] == 0)
            continue;
        whole = whole && words[i] == SENT;
        printf("\n  %u of %d with", words[i], SENT);
        for (j = 0; j < book->n; j++)
            if (patterns[i][j] != 0)
                printf(" +%u at %zu", (unsigned)patterns[i][j], j);
        printf("%s", errors[i] == 0 ? " no error" : "");
    }
    printf("\n");
    return whole;
}

int main(int argc, char **argv)
{
    static struct book book;
    uint32_t state = 20;
    unsigned i, refusal;
    size_t first, next;
    int whole = 1;
    if (argc != 2 || !book_read(&book, argv[1])) {
        fputs(argc == 2 ? "patterns: the file cannot be read\n" : "usage: patterns BOOK\n", stderr);
        return 2;
    }
    refusal = SHIFTSUM_REFUSAL(shiftsum_check(book.bytes, book.len));
    if (refusal != 0) {
        printf("codebook refused, %u: %s\n", refusal, shiftsum_refusal_text(refusal));
        return 3;
    }
    book_measure(&book);
    for (i = 0; i < PATTERNS; i++)
        noise_damage(&state, patterns[i], book.n, 1u << book.p, errors[i]);
    for (i = 0; i < SENT; i++)
        if (!transmit(&book, i + 1, received + i * PATTERNS))
            return 1;
    qsort(received, WORDS, sizeof received[0], compare);
    printf("codebook accepted: words of %zu symbols below %u, remainders of %zu\n", book.n, 1u << book.p, book.n - book.k);
    printf("%d code words sent, each with %d patterns, and sorted by remainder\n", SENT, PATTERNS);
    for (first = 0; first < WORDS; first = next) {
        next = first;
        while (next < WORDS && compare(&received[first], &received[next]) == 0)
            next++;
        whole = print_group(&book, &received[first], next - first) && whole;
    }
    printf("\n%s\n", whole ? "Every pattern has one remainder, whatever was sent." : "failed: a pattern has several remainders");
    return whole ? 0 : 1;
}
