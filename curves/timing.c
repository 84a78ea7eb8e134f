#define _POSIX_C_SOURCE 200809L
#include "timing.h"

#include "errors.h"

#include <stdio.h>
#include <time.h>

enum { TIMES = 25, BATCH = 64 };

static double now(void)
{
    struct timespec time;
    return clock_gettime(CLOCK_MONOTONIC, &time) == 0 ? (double)time.tv_sec * 1e6 + (double)time.tv_nsec / 1e3 : 0;
}

/* The next words, up to a batch of them; how many. */
static size_t draw(struct errors *errors, uint8_t words[][SHIFTSUM_WORD_MAX])
{
    size_t count = 0;
    while (count < BATCH && errors_next(errors, words[count]))
        count++;
    return count;
}

static double decode_batch(const struct book *book, uint8_t words[][SHIFTSUM_WORD_MAX], size_t count)
{
    uint8_t answer[SHIFTSUM_WORD_MAX];
    double begun = now();
    size_t m;
    for (m = 0; m < count; m++)
        shiftsum_decode(book->bytes, book->len, words[m], book->n, answer, book->n);
    return now() - begun;
}

/* Microseconds in all. Words are drawn in batches first: drawing them is not counted, and the clock is read seldom. */
static double decode_all(const struct book *book, struct errors *errors)
{
    static uint8_t words[BATCH][SHIFTSUM_WORD_MAX];
    double all = 0;
    size_t count;
    while ((count = draw(errors, words)) > 0)
        all += decode_batch(book, words, count);
    return all;
}

void timing_print(const struct book *book, uint64_t words, uint64_t seed, size_t weight)
{
    double least = 0;
    int i;
    for (i = 0; i < TIMES; i++) {
        struct errors errors;
        double all;
        errors_by_chance(&errors, book->n, book->q, weight, words, seed);
        all = decode_all(book, &errors);
        if (i == 0 || all < least)
            least = all;
    }
    puts("book,n,k,q,I,D,weight,words,microseconds");
    book_print(book, book->bytes[book->at_i + 1]);
    printf(",%zu,%llu,%.2f\n", weight, (unsigned long long)words, least / (double)words);
}
