/*
 * Where in a codebook the fault is that it is refused for. Numbers are compared here, and no symbols
 * are added or multiplied: what takes the field's arithmetic, the library is asked, about parts of the book.
 */
#ifndef PLACE_H
#define PLACE_H

#include "load.h"

struct place {
    char text[240];
};

/* For a book that is refused by that number. */
void place_find(const struct book *book, unsigned number, struct place *place);

/* Writes the text, as printf does. */
void place_tell(struct place *place, const char *format, ...);

/* The parts of it: refusals 4 and 5; refusals 7 and 8. */
void place_of_symbol(const struct book *book, struct place *place);
void place_of_generator(const struct book *book, struct place *place);
void place_of_dual_word(const struct book *book, struct place *place);
void place_of_alike(const struct book *book, struct place *place);

#endif
