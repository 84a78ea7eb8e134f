/* A codebook as the curves' program holds it. */
#ifndef BOOK_H
#define BOOK_H

#include "shiftsum.h"

enum { REFUSED = 1, WRONG = 2 };

struct book {
    uint8_t bytes[SHIFTSUM_BOOK_MAX + 1]; /* one more, so that a file that is too long is seen to be */
    size_t len;
    size_t n;
    unsigned q;
    size_t at_i; /* D is the byte after I */
    char label[64];
};

/* Says what is wrong with which; WRONG. */
int wrong(const char *what, const char *which);

/* Reads and checks a codebook; 0, or the status of one that is refused or cannot be read, which has then been said. */
int book_load(struct book *book, const char *name);

/* The book's own numbers, comma-separated, with this D. */
void book_print(const struct book *book, size_t d);

#endif
