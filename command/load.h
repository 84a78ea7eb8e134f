/* A codebook as the command holds it. */
#ifndef LOAD_H
#define LOAD_H

#include "shiftsum.h"

struct book {
    uint8_t bytes[SHIFTSUM_BOOK_MAX + 1]; /* one more, so that a file that is too long is seen to be */
    size_t len;
};

/* Reads a file; 0, and a sentence, where it cannot be read. */
int load_file(struct book *book, const char *name);

/* Reads a codebook that is to be used: DONE where it is accepted, else a sentence has said why not. */
int load_book(struct book *book, const char *name);

#endif
