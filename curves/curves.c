/*
 * How many wrong symbols a codebook mends, for each D:
 *
 *     curves BOOK WORDS SEED STEP MOST [D]   WORDS error words by chance of each weight from 0 to 6, and from there on in steps, up to MOST
 *     curves BOOK all MOST [D]               every error word of the weights 1 to MOST, up to turns and factors
 *     curves BOOK time WORDS SEED WEIGHT     how long it takes to decode so many of one weight, with the book's own D (timing.h)
 *
 * The first two print a line for each weight and each D from 1 to n, or the one D that is given, comma-separated, after a line of names. The book's own
 * D is not looked at: D is written into a copy of its bytes. The first form, for all D, ends with the second weight in a row of which no D mends one word
 * in fifty: a D that mends none of one weight may well mend some of the next.
 *
 * Every word is sent as zero. By the symmetry that is proved of decode (SCOPE 5.10 to 5.15) an error word leads from any other code word to the same kind
 * of answer, moved by that code word, so zero stands for all of them. All D get the same error words.
 *
 * Exit status: 0, 1 for a codebook that is refused, 2 for a wrong argument or a file that cannot be read or written.
 */
#include "book.h"
#include "errors.h"
#include "timing.h"

#include <errno.h>
#include <stdio.h>
#include <stdlib.h>
#include <string.h>

enum { SINGLY = 6 };

/* What is to be measured. */
struct task {
    int every;
    uint64_t words, seed;
    size_t step, most;      /* of weights */
    size_t d_least, d_most; /* of D */
};

struct counts {
    uint64_t words, mended, other, stalled, spent;
};

static int usage(void)
{
    fputs("usage: curves BOOK WORDS SEED STEP MOST [D]\n       curves BOOK all MOST [D]\n       curves BOOK time WORDS SEED WEIGHT\n", stderr);
    return WRONG;
}

/* A decimal number from least to most; 0 where the text is none. */
static int number(const char *text, uint64_t least, uint64_t most, uint64_t *to)
{
    char *end;
    if (text[0] < '0' || text[0] > '9')
        return 0;
    errno = 0;
    *to = strtoull(text, &end, 10);
    return errno == 0 && *end == 0 && *to >= least && *to <= most;
}

/* Up to 16 error words, mixed as a burst; how many. */
static unsigned mix(const struct book *book, struct errors *errors, uint8_t words[][SHIFTSUM_WORD_MAX], uint8_t *mixed)
{
    size_t j;
    unsigned m, count = 0;
    while (count < SHIFTSUM_BURST_MAX && errors_next(errors, words[count]))
        count++;
    for (j = 0; j < book->n; j++)
        for (m = 0; m < count; m++)
            mixed[j * count + m] = words[m][j];
    return count;
}

static void count_word(struct counts *counts, char kind, const uint8_t *answer, size_t n)
{
    static const uint8_t zero[SHIFTSUM_WORD_MAX];
    int sent = memcmp(answer, zero, n) == 0;
    counts->words++;
    counts->mended += shiftsum_reached(kind) && sent;
    counts->other += shiftsum_reached(kind) && !sent;
    counts->stalled += kind == SHIFTSUM_STALLED;
    counts->spent += kind == SHIFTSUM_SPENT;
}

/* Decodes all error words, in bursts, since a burst has the book checked once. */
static struct counts decode_all(const struct book *book, struct errors *errors)
{
    uint8_t words[SHIFTSUM_BURST_MAX][SHIFTSUM_WORD_MAX], mixed[sizeof words], answers[sizeof words];
    struct shiftsum_record records[SHIFTSUM_BURST_MAX];
    struct counts counts = {0, 0, 0, 0, 0};
    unsigned m, count;
    while ((count = mix(book, errors, words, mixed)) > 0) {
        size_t len = book->n * count;
        uint32_t result = shiftsum_burst(book->bytes, book->len, count, mixed, len, answers, len, records, count);
        if (SHIFTSUM_REFUSAL(result) != 0) {
            fprintf(stderr, "curves: a burst is refused by %u: %s\n", SHIFTSUM_REFUSAL(result), shiftsum_refusal_text(SHIFTSUM_REFUSAL(result)));
            exit(REFUSED);
        }
        for (m = 0; m < count; m++)
            count_word(&counts, (char)records[m].kind, answers + m * book->n, book->n);
    }
    return counts;
}

static struct counts measure(struct book *book, const struct task *task, size_t weight, size_t d)
{
    struct errors errors;
    struct counts c;
    if (task->every)
        errors_every(&errors, book->n, book->q, weight);
    else
        errors_by_chance(&errors, book->n, book->q, weight, task->words, task->seed);
    book->bytes[book->at_i + 1] = (uint8_t)d;
    c = decode_all(book, &errors);
    book_print(book, d);
    printf(",%zu,%llu,%llu,%llu,%llu,%llu\n", weight, (unsigned long long)c.words, (unsigned long long)c.mended, (unsigned long long)c.other,
           (unsigned long long)c.stalled, (unsigned long long)c.spent);
    return c;
}

/* All D at one weight; whether some D mends one word in fifty. */
static int measure_weight(struct book *book, const struct task *task, size_t weight)
{
    size_t d;
    int some = 0;
    for (d = task->d_least; d <= task->d_most; d++) {
        struct counts counts = measure(book, task, weight, d);
        some |= counts.mended * 50 >= counts.words;
    }
    return some;
}

/* The most wrong symbols; 0, or the status of a wrong one. So for the others below. */
static int read_most(struct task *task, size_t n, const char *text)
{
    uint64_t most;
    if (!number(text, 1, n, &most))
        return wrong("the most wrong symbols are a number from 1 to n", text);
    task->most = (size_t)most;
    return 0;
}

/* WORDS and SEED. */
static int read_words(struct task *task, char **texts)
{
    if (!number(texts[0], 1, 1000000000, &task->words))
        return wrong("the count of words is a number from 1 to 1000000000, or all", texts[0]);
    return number(texts[1], 0, UINT64_MAX, &task->seed) ? 0 : wrong("the seed is a number from 0 on", texts[1]);
}

/* WORDS, SEED, STEP and MOST. */
static int read_chance(struct task *task, size_t n, char **texts)
{
    uint64_t step;
    int status = read_words(task, texts);
    if (status != 0)
        return status;
    if (!number(texts[2], 1, n, &step))
        return wrong("the step of the weights is a number from 1 to n", texts[2]);
    task->step = (size_t)step;
    return read_most(task, n, texts[3]);
}

/* D, where it is given. */
static int read_limit(struct task *task, size_t n, const char *text)
{
    uint64_t d;
    task->d_least = 1;
    task->d_most = n;
    if (text == NULL)
        return 0;
    if (!number(text, 1, n, &d))
        return wrong("D is a number from 1 to n", text);
    task->d_least = task->d_most = (size_t)d;
    return 0;
}

/* A task from the arguments after the book. */
static int read_task(struct task *task, size_t n, int count, char **texts)
{
    int status, used;
    task->every = strcmp(texts[0], "all") == 0;
    task->step = 1;
    used = task->every ? 2 : 4;
    if (count < used || count > used + 1)
        return usage();
    status = task->every ? read_most(task, n, texts[1]) : read_chance(task, n, texts);
    return status != 0 ? status : read_limit(task, n, count > used ? texts[used] : NULL);
}

static void measure_all(struct book *book, const struct task *task)
{
    size_t weight;
    unsigned barren = 0;
    puts("book,n,k,q,I,D,weight,words,mended,other,stalled,spent");
    for (weight = task->every; weight <= task->most; weight += weight < SINGLY ? 1 : task->step) {
        barren = measure_weight(book, task, weight) ? 0 : barren + 1;
        if (barren == 2 && !task->every && task->d_least < task->d_most)
            return;
    }
}

/* The time a word takes. */
static int measure_time(const struct book *book, int count, char **texts)
{
    struct task task;
    int status;
    if (count != 3)
        return usage();
    status = read_words(&task, texts);
    if (status == 0)
        status = read_most(&task, book->n, texts[2]);
    if (status == 0)
        timing_print(book, task.words, task.seed, task.most);
    return status;
}

static int measure_curves(struct book *book, int count, char **texts)
{
    struct task task;
    int status = read_task(&task, book->n, count, texts);
    if (status == 0)
        measure_all(book, &task);
    return status;
}

int main(int count, char **texts)
{
    struct book book;
    int status;
    if (count < 4)
        return usage();
    status = book_load(&book, texts[1]);
    if (status == 0)
        status = strcmp(texts[2], "time") == 0 ? measure_time(&book, count - 3, texts + 3) : measure_curves(&book, count - 2, texts + 2);
    if (status != 0)
        return status;
    return fflush(stdout) == 0 && !ferror(stdout) ? 0 : wrong("cannot be written", "standard output");
}
