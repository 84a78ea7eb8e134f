/*
 * The merge of a game: the frames that the server has, and those that come from the lane by radio, all ten in one burst of words.
 *
 * A game is taken whole or held whole, since one with nine frames of the lane's and one of the server's is a game that nobody bowled:
 *   - The frames that stand are the lane's, all ten, or else the server's, as many as it has. They are never some of each.
 *   - A burst that shiftsum_game calls Whole is the lane's game if every word is of a frame that a lane sends. All its frames are taken together.
 *     Where the server has another frame, the lane's stands all the same and the server's is kept beside it; a person decides.
 *   - A burst that is refused or Held gives no frame, nor does one with a word of no frame that a lane sends: the words that could be read are held
 *     with the others. What stood before still stands, and the lane may send the game again.
 *   - The first game of the lane that is taken stands. A later one is compared with it and changes nothing.
 *
 * No burst of the lane is ever dropped unseen. Its bytes are held, as they came, before anything is decided by them, and until the game is paid:
 * those of a game that was taken as well, since a code word need not be the one that was sent.
 */
#ifndef MERGE_H
#define MERGE_H

#include "frame.h"

enum { FRAMES = 10, RAW_MAX = FRAMES * SHIFTSUM_WORD_MAX, HELD_MAX = 32 };

enum verdict {
    REFUSED,    /* the burst was refused by number; the first of these, so that it holds until more is known */
    UNREACHED,  /* Stalled or Spent: no code word, so no frame, and the game is held */
    IMPOSSIBLE, /* a code word, but of no frame that a lane sends, so the game is held */
    WITHHELD,   /* a code word, held with its game */
    TAKEN,      /* no frame stood: the lane's does, and nobody else vouches for it */
    AGREED,     /* the frame that stood is the lane's too */
    DISPUTED    /* another frame stood: a person decides */
};

/* A burst of the lane as it came, still mixed, and what became of its words, one for each frame. */
struct held {
    uint32_t result; /* of shiftsum_game */
    int taken;       /* whether its frames are the ones that stand */
    enum verdict verdicts[FRAMES];
    struct shiftsum_record records[FRAMES]; /* what shiftsum_burst tells of the words; zeros where the burst was refused */
    struct frame frames[FRAMES];            /* the lane's, where the verdict is TAKEN, AGREED or DISPUTED */
    size_t len;
    uint8_t raw[RAW_MAX];
};

struct game {
    int told[FRAMES]; /* whether the server has the frame */
    struct frame server[FRAMES];
    int taken; /* whether a game of the lane was taken: its frames stand then, and none of the server's */
    struct frame lane[FRAMES];
    struct held held[HELD_MAX];
    size_t held_count;
};

void merge_begin(struct game *game);

/* The server's frame of a number below FRAMES, told before the lane's bursts are merged. */
void merge_server(struct game *game, unsigned number, const struct frame *frame);

/* The frame that stands, or NULL where nobody has one. */
const struct frame *merge_frame(const struct game *game, unsigned number);

/* Lays ten words that stand one after another out as a burst: symbol j of word m at place 10 j + m. */
void merge_mix(const struct book *book, const uint8_t *row, uint8_t *burst);

/* Merges a received burst; it may have any length. What became of it, or NULL where it could not be held: the lane must then keep it. */
const struct held *merge_lane(struct game *game, const struct book *book, const uint8_t *received, size_t len);

/* Symbol j of word m as it came, of a burst that was not refused. */
uint8_t merge_raw(const struct held *held, unsigned m, size_t j);

/* Whether a person must look at the raw word. */
int merge_open(enum verdict verdict);

/* The game is paid: the raw bursts are wiped. Their count. */
size_t merge_paid(struct game *game);

#endif
