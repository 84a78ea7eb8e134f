#include "frame.h"

#include <string.h>

unsigned frame_balls(const struct book *book)
{
    size_t balls = book->k * book->p / BITS_OF_A_BALL;
    return balls < BALLS_MAX ? (unsigned)balls : (unsigned)BALLS_MAX;
}

size_t frame_pack(const struct book *book, const struct frame *frame, uint8_t *message)
{
    unsigned bits = frame_balls(book) * BITS_OF_A_BALL;
    size_t filled = book->k;
    unsigned i;
    memset(message, 0, book->k);
    for (i = 0; i < bits; i++) {
        unsigned bit = frame->pins[i / BITS_OF_A_BALL] >> (i % BITS_OF_A_BALL) & 1u;
        message[i / book->p] |= (uint8_t)(bit << (i % book->p));
    }
    /* One symbol is left of a frame without a pin: a message of none is refused. */
    while (filled > 1 && message[filled - 1] == 0)
        filled--;
    return filled;
}

int frame_unpack(const struct book *book, const uint8_t *message, struct frame *frame)
{
    uint8_t again[SHIFTSUM_WORD_MAX];
    unsigned bits = frame_balls(book) * BITS_OF_A_BALL;
    unsigned i;
    memset(frame, 0, sizeof *frame);
    for (i = 0; i < bits; i++) {
        unsigned bit = message[i / book->p] >> (i % book->p) & 1u;
        frame->pins[i / BITS_OF_A_BALL] |= bit << (i % BITS_OF_A_BALL);
    }
    for (i = 0; i < BALLS_MAX; i++)
        if (frame->pins[i] > PINS)
            return 0;
    /* The lane leaves the rest of the message zero. A message with more in it was never sent. */
    frame_pack(book, frame, again);
    return memcmp(again, message, book->k) == 0;
}

int frame_equal(const struct book *book, const struct frame *a, const struct frame *b)
{
    return memcmp(a->pins, b->pins, frame_balls(book) * sizeof a->pins[0]) == 0;
}
