#include "merge.h"

#include <string.h>

void merge_begin(struct game *game)
{
    memset(game, 0, sizeof *game);
}

void merge_server(struct game *game, unsigned number, const struct frame *frame)
{
    game->told[number] = 1;
    game->server[number] = *frame;
}

const struct frame *merge_frame(const struct game *game, unsigned number)
{
    if (game->taken)
        return &game->lane[number];
    return game->told[number] ? &game->server[number] : NULL;
}

static size_t place(unsigned m, size_t j)
{
    return j * FRAMES + m;
}

void merge_mix(const struct book *book, const uint8_t *row, uint8_t *burst)
{
    unsigned m;
    size_t j;
    for (m = 0; m < FRAMES; m++)
        for (j = 0; j < book->n; j++)
            burst[place(m, j)] = row[m * book->n + j];
}

/* Keeps the bytes as they came. */
static struct held *hold(struct game *game, const uint8_t *received, size_t len)
{
    struct held *held;
    if (game->held_count == HELD_MAX || len > RAW_MAX)
        return NULL;
    held = &game->held[game->held_count++];
    memset(held, 0, sizeof *held);
    held->len = len;
    memcpy(held->raw, received, len);
    return held;
}

/* Which words were reached, and how, for a person to see: shiftsum_game tells only how many were not. What it does not refuse, shiftsum_burst does
 * not refuse either, and no frame is taken by what is found here. */
static void look(const struct book *book, struct held *held)
{
    uint8_t answers[RAW_MAX];
    unsigned m;
    shiftsum_burst(book->bytes, book->len, FRAMES, held->raw, held->len, answers, held->len, held->records, FRAMES);
    for (m = 0; m < FRAMES; m++)
        held->verdicts[m] = shiftsum_reached(held->records[m].kind) ? WITHHELD : UNREACHED;
}

/* Reads the frames of a whole game. Whether a lane sends such frames, all of them. */
static int read_frames(const struct book *book, const uint8_t *messages, struct held *held)
{
    unsigned m;
    int all = 1;
    for (m = 0; m < FRAMES; m++) {
        /* Of k symbols each, however many the lane handed over: a short frame has its zeros again. */
        if (frame_unpack(book, messages + m * book->k, &held->frames[m]))
            continue;
        held->verdicts[m] = IMPOSSIBLE;
        all = 0;
    }
    return all;
}

/* Compares the lane's game with the frames that stood, and takes it whole, unless one of the lane's stands already. */
static void take(struct game *game, const struct book *book, struct held *held)
{
    unsigned m;
    for (m = 0; m < FRAMES; m++) {
        const struct frame *stood = merge_frame(game, m);
        held->verdicts[m] = stood == NULL ? TAKEN : frame_equal(book, stood, &held->frames[m]) ? AGREED : DISPUTED;
    }
    if (game->taken)
        return;
    memcpy(game->lane, held->frames, sizeof game->lane);
    game->taken = held->taken = 1;
}

const struct held *merge_lane(struct game *game, const struct book *book, const uint8_t *received, size_t len)
{
    uint8_t messages[FRAMES * SHIFTSUM_WORD_MAX];
    struct held *held = hold(game, received, len);
    if (held == NULL)
        return NULL;
    held->result = shiftsum_game(book->bytes, book->len, FRAMES, held->raw, len, messages, FRAMES * book->k);
    if (SHIFTSUM_REFUSAL(held->result) != 0)
        return held;
    look(book, held);
    if (SHIFTSUM_KIND(held->result) == SHIFTSUM_WHOLE && read_frames(book, messages, held))
        take(game, book, held);
    return held;
}

uint8_t merge_raw(const struct held *held, unsigned m, size_t j)
{
    return held->raw[place(m, j)];
}

int merge_open(enum verdict verdict)
{
    return verdict != TAKEN && verdict != AGREED;
}

size_t merge_paid(struct game *game)
{
    size_t count = game->held_count;
    memset(game->held, 0, sizeof game->held);
    game->held_count = 0;
    return count;
}
