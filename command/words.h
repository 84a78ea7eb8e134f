/* An operation on words that are given as arguments or, where there are none, on standard input. */
#ifndef WORDS_H
#define WORDS_H

#include "operations.h"

/* The arguments are BOOK, M where the operation takes one, and words. Returns the exit status. */
int words_run(const struct operation *operation, int count, char **arguments);

#endif
