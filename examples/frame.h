/*
 * A frame as the lane sends it: the pins of each ball, four binary digits a ball, from the first symbol of the message on.
 *
 * An open frame, and a strike too, fills few symbols of a message. The rest is zeros, which need not be handed to shiftsum_code: it takes the missing
 * high symbols to be zero, and shiftsum_read gives them back.
 */
#ifndef FRAME_H
#define FRAME_H

#include "book.h"

enum { BALLS_MAX = 3, PINS = 10, BITS_OF_A_BALL = 4 };

struct frame {
    unsigned pins[BALLS_MAX];
};

/* How many balls a message has room for: 0 to 3. Small codebooks carry the first ball alone. */
unsigned frame_balls(const struct book *book);

/* Writes the k symbols of a frame; what a message has no room for is left out. How many of them the frame fills, from 1 to k: after these come zeros
 * alone. */
size_t frame_pack(const struct book *book, const struct frame *frame, uint8_t *message);

/* Reads a frame from k symbols; 0 where no lane sends such a frame. */
int frame_unpack(const struct book *book, const uint8_t *message, struct frame *frame);

/* Whether two frames are the same in all balls that a message has room for. */
int frame_equal(const struct book *book, const struct frame *a, const struct frame *b);

#endif
