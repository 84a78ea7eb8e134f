/* Error words: what is wrong in a word that was sent as zero, so many symbols of it. */
#ifndef ERRORS_H
#define ERRORS_H

#include "shiftsum.h"

/* Where a run through error words of one weight has come to. */
struct errors {
    size_t n;
    unsigned q;
    size_t weight;
    uint64_t left;  /* words that are still to come; counted by chance alone */
    uint64_t state; /* of the numbers by chance */
    int every;      /* every word, not words by chance */
    size_t at[SHIFTSUM_WORD_MAX];
    uint8_t symbol[SHIFTSUM_WORD_MAX];
};

/* So many words by chance. The same seed and weight give the same words, however many were taken of other weights. */
void errors_by_chance(struct errors *errors, size_t n, unsigned q, size_t weight, uint64_t words, uint64_t seed);

/* Every word of a weight from 1 on that has 1 at place 0. Any other is one of them turned and multiplied, each of them so often, and is decoded alike. */
void errors_every(struct errors *errors, size_t n, unsigned q, size_t weight);

/* Writes the next word, n symbols; 0 where none is left. */
int errors_next(struct errors *errors, uint8_t *word);

#endif
