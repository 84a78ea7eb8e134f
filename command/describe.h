/* Codebooks as text: lines of a key and a value. */
#ifndef DESCRIBE_H
#define DESCRIBE_H

#include "load.h"

#include <stdio.h>

/* Prints the description of an accepted codebook. */
void describe_print(const struct book *book);

/* Makes the bytes of a book from a description; WRONG, and a sentence, where it is none. The library is not asked. */
int describe_read(FILE *from, const char *name, struct book *book);

#endif
