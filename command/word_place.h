/* Where in a word, message or burst the fault is that it is refused for. */
#ifndef WORD_PLACE_H
#define WORD_PLACE_H

#include "operations.h"
#include "place.h"

void word_place_find(const struct job *job, unsigned number, const uint8_t *input, size_t len, struct place *place);

#endif
