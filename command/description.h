/* A description as its lines give it, before it is bytes. */
#ifndef DESCRIPTION_H
#define DESCRIPTION_H

#include "layout.h"
#include "load.h"

enum { NUMBER_S, NUMBER_P, NUMBER_I, NUMBER_D, NUMBERS };

/* What a line gave, and which; line 0 where there was none. */
struct number {
    unsigned long line;
    uint32_t value;
};

struct word {
    unsigned long line;
    size_t count;
    uint8_t symbols[SHIFTSUM_WORD_MAX];
};

struct description {
    const char *name;
    struct number numbers[NUMBERS];
    struct word generator, duals[DUAL_WORDS_MAX];
    size_t count; /* of dual words */
};

/* Puts the bytes of a book together, of a description that lacks nothing; WRONG, and a sentence, where that cannot be. */
int description_book(const struct description *text, struct book *book);

#endif
