/* A codebook as the examples hold it: its bytes, and the sizes that follow from them once it is accepted. */
#ifndef BOOK_H
#define BOOK_H

#include "shiftsum.h"

struct book {
    uint8_t bytes[SHIFTSUM_BOOK_MAX + 1]; /* one more, so that a file that is too long is seen to be */
    size_t len;
    size_t n;   /* symbols of a word */
    size_t k;   /* symbols of a message; fewer may be coded, and all are read */
    unsigned p; /* binary digits of a symbol */
};

/* Reads a file; 0 where it cannot be read. Whether it holds a codebook is for shiftsum_check to say. */
int book_read(struct book *book, const char *name);

/* Fills in n, k and p; the book must have been accepted. */
void book_measure(struct book *book);

#endif
