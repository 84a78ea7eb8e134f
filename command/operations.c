#include "operations.h"

#include "hex.h"

#include <stdio.h>

static void print_line(const uint8_t *symbols, size_t count)
{
    hex_print(symbols, count);
    putchar('\n');
}

/* As the program decode_stream prints a word. */
static void print_decoded(char kind, unsigned rounds, unsigned changed, const uint8_t *answer, size_t n)
{
    printf("%c %u %u ", kind, rounds, changed);
    print_line(answer, n);
}

typedef uint32_t one_output(const uint8_t *, size_t, const uint8_t *, size_t, uint8_t *, size_t);

/* A call whose output, of so many symbols, is its line. */
static unsigned print_output(const struct job *job, one_output *call, size_t count, const uint8_t *input, size_t len)
{
    uint8_t output[SHIFTSUM_WORD_MAX];
    unsigned refusal = SHIFTSUM_REFUSAL(call(job->book.bytes, job->book.len, input, len, output, count));
    if (refusal == 0)
        print_line(output, count);
    return refusal;
}

static unsigned run_code(const struct job *job, const uint8_t *input, size_t len, int *held)
{
    *held = 0;
    return print_output(job, shiftsum_code, shiftsum_n(job->book.bytes), input, len);
}

static unsigned run_read(const struct job *job, const uint8_t *input, size_t len, int *held)
{
    *held = 0;
    return print_output(job, shiftsum_read, shiftsum_k(job->book.bytes), input, len);
}

static unsigned run_remainder(const struct job *job, const uint8_t *input, size_t len, int *held)
{
    *held = 0;
    return print_output(job, shiftsum_remainder, shiftsum_n(job->book.bytes) - shiftsum_k(job->book.bytes), input, len);
}

static unsigned run_decode(const struct job *job, const uint8_t *input, size_t len, int *held)
{
    uint8_t answer[SHIFTSUM_WORD_MAX];
    size_t n = shiftsum_n(job->book.bytes);
    uint32_t r = shiftsum_decode(job->book.bytes, job->book.len, input, len, answer, n);
    *held = SHIFTSUM_REFUSAL(r) == 0 && !SHIFTSUM_REACHED(r);
    if (SHIFTSUM_REFUSAL(r) == 0)
        print_decoded(SHIFTSUM_KIND(r), SHIFTSUM_ROUNDS(r), SHIFTSUM_CHANGED(r), answer, n);
    return SHIFTSUM_REFUSAL(r);
}

/* Words that there is room for; more are refused before the lengths are looked at. */
static size_t room(const struct job *job)
{
    return job->words < SHIFTSUM_BURST_MAX ? job->words : SHIFTSUM_BURST_MAX;
}

static unsigned run_burst(const struct job *job, const uint8_t *input, size_t len, int *held)
{
    uint8_t answers[SHIFTSUM_BURST_MAX * SHIFTSUM_WORD_MAX];
    struct shiftsum_record records[SHIFTSUM_BURST_MAX];
    size_t n = shiftsum_n(job->book.bytes), m;
    unsigned refusal = SHIFTSUM_REFUSAL(shiftsum_burst(job->book.bytes, job->book.len, job->words, input, len, answers,
                                                       n * room(job), records, room(job)));
    *held = 0;
    if (refusal != 0)
        return refusal;
    for (m = 0; m < job->words; m++) {
        char kind = (char)records[m].kind;
        *held |= !shiftsum_reached(kind);
        print_decoded(kind, records[m].rounds, records[m].changed, answers + m * n, n);
    }
    return 0;
}

static unsigned run_game(const struct job *job, const uint8_t *input, size_t len, int *held)
{
    uint8_t messages[SHIFTSUM_BURST_MAX * SHIFTSUM_WORD_MAX];
    size_t k = shiftsum_k(job->book.bytes), m;
    uint32_t r = shiftsum_game(job->book.bytes, job->book.len, job->words, input, len, messages, k * room(job));
    *held = SHIFTSUM_REFUSAL(r) == 0 && SHIFTSUM_KIND(r) != SHIFTSUM_WHOLE;
    if (SHIFTSUM_REFUSAL(r) != 0)
        return SHIFTSUM_REFUSAL(r);
    printf("%c %u", SHIFTSUM_KIND(r), SHIFTSUM_HELD_WORDS(r));
    for (m = 0; m < job->words && !*held; m++) {
        putchar(' ');
        hex_print(messages + m * k, k);
    }
    putchar('\n');
    return 0;
}

const struct operation operation_code = {"message", 0, 1, run_code};
const struct operation operation_read = {"word", 0, 0, run_read};
const struct operation operation_remainder = {"word", 0, 0, run_remainder};
const struct operation operation_decode = {"word", 0, 0, run_decode};
const struct operation operation_burst = {"burst", 1, 0, run_burst};
const struct operation operation_game = {"game", 1, 0, run_game};
