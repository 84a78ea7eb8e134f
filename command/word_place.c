#include "word_place.h"

static void length_place(const struct job *job, size_t len, struct place *place)
{
    size_t n = shiftsum_n(job->book.bytes), k = shiftsum_k(job->book.bytes);
    const char *plural = len == 1 ? "" : "s";
    if (job->operation->short_allowed)
        place_tell(place, "it has %zu symbol%s, and 1 to %zu are wanted", len, plural, k);
    else if (job->operation->takes_words)
        place_tell(place, "it has %zu symbol%s, and %zu are wanted: M is %u, n is %zu", len, plural, n * job->words,
                   (unsigned)job->words, n);
    else
        place_tell(place, "it has %zu symbol%s, and %zu are wanted", len, plural, n);
}

static void symbol_place(const struct job *job, const uint8_t *input, size_t len, struct place *place)
{
    unsigned q = shiftsum_q(job->book.bytes);
    size_t j = 0;
    while (j < len && input[j] < q)
        j++;
    if (j == len)
        return;
    if (job->operation->takes_words)
        place_tell(place, "the symbol at place %zu, symbol %zu of word %zu, is %u, and q is %u", j, j / job->words,
                   j % job->words, input[j], q);
    else
        place_tell(place, "the symbol at place %zu is %u, and q is %u", j, input[j], q);
}

void word_place_find(const struct job *job, unsigned number, const uint8_t *input, size_t len, struct place *place)
{
    place_tell(place, "its place is not known");
    if (number == SHIFTSUM_REFUSED_INPUT_LENGTH)
        length_place(job, len, place);
    else if (number == SHIFTSUM_REFUSED_INPUT_SYMBOL)
        symbol_place(job, input, len, place);
    else if (number == SHIFTSUM_REFUSED_NO_CODE_WORD)
        place_tell(place, "its remainder is not zero");
    else if (number == SHIFTSUM_REFUSED_WORDS)
        place_tell(place, "M is %u", (unsigned)job->words);
}
