/* What is done to one word, message or burst: a call of the library, and its answer printed. */
#ifndef OPERATIONS_H
#define OPERATIONS_H

#include "load.h"

struct job {
    const struct operation *operation;
    struct book book;
    uint32_t words; /* M of a burst or game; else 1 */
};

struct operation {
    const char *noun;  /* of the input */
    int takes_words;   /* M is an argument after the book */
    int short_allowed; /* 1 to k symbols, where else n * M are wanted */

    /*
     * Prints the answer, and says whether a word of it is held. Returns the number of the refusal,
     * and then has printed nothing.
     */
    unsigned (*run)(const struct job *job, const uint8_t *input, size_t len, int *held);
};

extern const struct operation operation_code, operation_read, operation_remainder, operation_decode, operation_burst,
    operation_game;

#endif
