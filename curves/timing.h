/* How long a word takes. */
#ifndef TIMING_H
#define TIMING_H

#include "book.h"

/*
 * Decodes so many error words by chance of one weight, each by a call of its own, 25 times over, and prints the least time a word takes, in
 * microseconds. The least, since what else the machine does can only add to it.
 */
void timing_print(const struct book *book, uint64_t words, uint64_t seed, size_t weight);

#endif
