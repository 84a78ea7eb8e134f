/*
 * The desk: reads a codebook, and merges a game of ten frames that a lane sends as one burst of code words by a noisy radio.
 *
 *     desk BOOK
 *
 * The lane, the radio and the server are played by this file: the lane codes its frames and mixes their words, the radio damages the burst in a way
 * that every run repeats, and the server has four of the ten frames, one of them wrong. What a desk does with a received burst is in merge.c: it
 * takes the game whole or holds it whole. The lane sends its game again until it is taken, and the last time the radio does little damage.
 *
 * A contactor's spark spoils a dozen symbols in a row. In a burst these are of all ten words, two of each at most. In words that are sent one after
 * another they are of one word, or of two or three that lie together. Both are shown, with the same spark. Words that came one after another the desk
 * lays out as a burst, so that their game too is taken whole or held whole.
 *
 * The lane hands over only the symbols that a frame fills, since an open frame fills few. Its word has n symbols all the same, and the desk reads all
 * k symbols from it, the zeros that were not handed over as well.
 *
 * Exit status: 0 the game was merged; 1 something went wrong that should not; 2 the file cannot be read; 3 the codebook was refused,
 * or has no room for a frame.
 */
#include "merge.h"
#include "noise.h"

#include <stdio.h>
#include <string.h>

/* What the lane saw. The third ball belongs to the tenth frame alone. */
static const struct frame lane_frames[FRAMES] = {
    {{10, 0, 0}}, {{7, 3, 0}}, {{9, 0, 0}}, {{10, 0, 0}}, {{0, 8, 0}}, {{10, 0, 0}}, {{10, 0, 0}}, {{6, 4, 0}}, {{8, 1, 0}}, {{10, 9, 1}},
};

/* What the server has. In frame 3 the network went down before all pins were counted. */
static const struct server_frame {
    unsigned number;
    struct frame frame;
} server_frames[] = {{0, {{10, 0, 0}}}, {1, {{7, 3, 0}}}, {2, {{6, 0, 0}}}, {5, {{10, 0, 0}}}};

/* What the radio does to one sending after another: it loses the end, makes the last symbol one that no book has, has the spark in it, and at last
 * spoils one symbol alone. */
enum fault { CUT, BAD_SYMBOL, SPARK, ONE_SYMBOL, FAULTS };

enum { SERVER_FRAMES = sizeof server_frames / sizeof server_frames[0], DOZEN = 12, TEXT = 64 };

struct delivery {
    size_t len;
    uint8_t bytes[RAW_MAX];
};

/* A game that the lane sends, what the desk got of each sending, and what it made of it. */
struct play {
    enum fault first; /* of the first sending; the others follow in order */
    size_t count;     /* of the sendings */
    struct delivery deliveries[FAULTS];
    struct game game;
};

/* In eight columns; a dash where there is no frame. */
static void print_frame(const struct book *book, const struct frame *frame)
{
    unsigned i;
    int width = frame == NULL ? printf("-") : 0;
    for (i = 0; i < frame_balls(book) && frame != NULL; i++)
        width += printf("%u ", frame->pins[i]);
    printf("%*s", 8 - width, "");
}

/* The lane codes a frame. How many symbols it handed over, or 0 where they were refused. */
static size_t lane_code(const struct book *book, unsigned number, uint8_t *word)
{
    uint8_t message[SHIFTSUM_WORD_MAX];
    size_t filled = frame_pack(book, &lane_frames[number], message);
    return shiftsum_code(book->bytes, book->len, message, filled, word, book->n) == 0 ? filled : 0;
}

/* The lane's ten words, one after another. */
static int lane_words(const struct book *book, uint8_t *row)
{
    unsigned m;
    for (m = 0; m < FRAMES; m++)
        if (lane_code(book, m, row + m * book->n) == 0)
            return 0;
    return 1;
}

/* Spoils so many symbols in a row: the same places in the same way, mixed or not. In words one after another it begins in the last third of the
 * fourth. */
static void spoil(const struct book *book, uint8_t *symbols, size_t count)
{
    uint32_t state = 20;
    noise_damage(&state, symbols + 3 * book->n + 2 * book->n / 3, count, 1u << book->p, count);
}

static void radio(const struct book *book, enum fault fault, uint8_t *symbols, size_t *len)
{
    if (fault == CUT)
        *len -= 2;
    if (fault == BAD_SYMBOL)
        symbols[*len - 1] = 0xff;
    if (fault == SPARK)
        spoil(book, symbols, DOZEN);
    if (fault == ONE_SYMBOL)
        spoil(book, symbols, 1);
}

/* The lane sends its game, and the desk gets a burst: mixed by the lane, before the radio does its damage, or by the desk, after it. */
static int transmit(const struct book *book, int mixed, enum fault fault, struct delivery *delivery)
{
    uint8_t row[RAW_MAX];
    delivery->len = FRAMES * book->n;
    if (!lane_words(book, row))
        return 0;
    if (!mixed)
        radio(book, fault, row, &delivery->len);
    merge_mix(book, row, delivery->bytes);
    if (mixed)
        radio(book, fault, delivery->bytes, &delivery->len);
    return 1;
}

static void print_answer(const struct shiftsum_record *record)
{
    char text[TEXT];
    const char *kind = "Spent";
    if (record->kind == SHIFTSUM_CLEAN)
        kind = "Clean";
    if (record->kind == SHIFTSUM_MENDED)
        kind = "Mended";
    if (record->kind == SHIFTSUM_STALLED)
        kind = "Stalled";
    snprintf(text, sizeof text, "%s, %u round%s, %u changed", kind, record->rounds, record->rounds == 1 ? "" : "s", record->changed);
    printf("%-31s", text);
}

/* A Mended word may be another word than the one sent. Where no other frame confirms it, the desk says so. */
static int unconfirmed(const struct held *held, unsigned m)
{
    return held->verdicts[m] == TAKEN && held->records[m].kind == SHIFTSUM_MENDED;
}

static const char *verdict_text(const struct held *held, unsigned m)
{
    switch (held->verdicts[m]) {
    case REFUSED:
        return "OPEN: the burst was refused";
    case UNREACHED:
        return "OPEN: no code word was reached";
    case IMPOSSIBLE:
        return "OPEN: a code word, but no lane sends such a frame";
    case WITHHELD:
        return "OPEN: held with its game";
    case TAKEN:
        return unconfirmed(held, m) ? "taken, UNCONFIRMED: mended, and there was no frame" : "taken: there was no frame";
    case AGREED:
        return "agrees with the frame that stood";
    case DISPUTED:
        return "OPEN: differs from the frame that stood";
    }
    return "";
}

static void print_word(const struct book *book, const struct held *held, unsigned m)
{
    const enum verdict verdict = held->verdicts[m];
    uint8_t sent[SHIFTSUM_WORD_MAX];
    size_t filled = lane_code(book, m, sent), j, hit = 0;
    for (j = 0; j < book->n && filled > 0; j++)
        hit += sent[j] != merge_raw(held, m, j);
    printf("%5u  ", m + 1);
    print_frame(book, &lane_frames[m]);
    printf("%7zu  %3zu  ", filled, hit);
    print_answer(&held->records[m]);
    print_frame(book, verdict == TAKEN || verdict == AGREED || verdict == DISPUTED ? &held->frames[m] : NULL);
    printf("%s\n", verdict_text(held, m));
}

static const char *whose(const struct game *game, unsigned number)
{
    if (game->taken)
        return "lane's";
    return game->told[number] ? "server's" : "nobody's";
}

/* What became of a burst: in short, then word by word, then what the game is after it. */
static void print_burst(const struct book *book, const struct game *game, const struct held *held)
{
    unsigned m, told = 0;
    if (SHIFTSUM_REFUSAL(held->result) != 0) {
        printf("refused, %u\n", SHIFTSUM_REFUSAL(held->result));
        return;
    }
    if (SHIFTSUM_KIND(held->result) == SHIFTSUM_HELD)
        printf("Held, %u of %d words not reached\n", SHIFTSUM_HELD_WORDS(held->result), FRAMES);
    else
        printf("Whole, %s\n", held->taken ? "taken" : "but not taken");
    printf("frame  sent    symbols  hit  answer                         read    verdict\n");
    for (m = 0; m < FRAMES; m++) {
        print_word(book, held, m);
        told += game->told[m] != 0;
    }
    if (game->taken)
        printf("All %d frames of the game are the lane's.\n", FRAMES);
    else
        printf("No frame of it is taken: %u frames of the game are the server's, %u nobody's.\n", told, FRAMES - told);
}

static void print_game(const struct book *book, const struct game *game)
{
    unsigned i;
    printf("\nThe game after the merge, and the server's frames beside it\nframe  pins    server  whose\n");
    for (i = 0; i < FRAMES; i++) {
        printf("%5u  ", i + 1);
        print_frame(book, merge_frame(game, i));
        print_frame(book, game->told[i] ? &game->server[i] : NULL);
        printf("%s\n", whose(game, i));
    }
}

static void print_raw(const struct book *book, const struct held *held, unsigned m)
{
    size_t j;
    printf("  frame %2u  %-12s", m + 1, merge_open(held->verdicts[m]) ? "OPEN" : unconfirmed(held, m) ? "UNCONFIRMED" : "settled");
    for (j = 0; j < book->n; j++)
        printf("%02x", (unsigned)merge_raw(held, m, j));
    printf("\n");
}

static void print_held(const struct book *book, const struct game *game)
{
    size_t i;
    unsigned m;
    printf("\nRaw bursts held until the game is paid, word by word where they were not refused\n");
    for (i = 0; i < game->held_count; i++) {
        const struct held *held = &game->held[i];
        const int refused = SHIFTSUM_REFUSAL(held->result) != 0;
        printf("burst %zu, %zu bytes%s\n", i + 1, held->len, refused ? ": OPEN" : "");
        for (m = 0; m < FRAMES && !refused; m++)
            print_raw(book, held, m);
    }
}

/* The promise of the merge: every burst that came is held as it came, so a frame that is not what the lane saw can still be put right. */
static int all_held(const struct play *play)
{
    size_t i;
    if (play->game.held_count != play->count)
        return 0;
    for (i = 0; i < play->count; i++) {
        const struct held *held = &play->game.held[i];
        if (held->len != play->deliveries[i].len || memcmp(held->raw, play->deliveries[i].bytes, held->len) != 0)
            return 0;
    }
    return 1;
}

/* How many frames of the merged game are not what the lane saw. Only this file can tell, since it plays the lane as well. */
static unsigned count_wrong(const struct book *book, const struct game *game)
{
    unsigned i, wrong = 0;
    for (i = 0; i < FRAMES; i++) {
        const struct frame *frame = merge_frame(game, i);
        wrong += frame == NULL || !frame_equal(book, frame, &lane_frames[i]);
    }
    return wrong;
}

/* What became of the sending with the spark in it. */
static const char *spark_text(const struct play *play)
{
    return play->game.held[SPARK - play->first].taken ? "taken" : "held";
}

static void print_close(const struct book *book, struct play *mixed, const struct play *apart)
{
    size_t i, frameless = 0, open = 0, mended = 0;
    unsigned m;
    for (i = 0; i < mixed->count; i++) {
        const struct held *held = &mixed->game.held[i];
        frameless += !held->taken;
        for (m = 0; m < FRAMES && held->taken; m++) {
            open += merge_open(held->verdicts[m]) != 0;
            mended += unconfirmed(held, m) != 0;
        }
    }
    printf("\nBursts that gave no frame: %zu of %zu. Frames taken: %zu open, %zu unconfirmed. A person looks at all these before the game is paid.\n",
           frameless, mixed->count, open, mended);
    printf("Frames that are missing or not what the lane saw: %u of %d.\n", count_wrong(book, &mixed->game), FRAMES);
    printf("With the spark the burst was %s whole, the same words one after another were %s whole.\n", spark_text(mixed), spark_text(apart));
    printf("The game is paid: %zu raw bursts released.\n", merge_paid(&mixed->game));
}

static void begin(struct game *game)
{
    size_t i;
    merge_begin(game);
    for (i = 0; i < SERVER_FRAMES; i++)
        merge_server(game, server_frames[i].number, &server_frames[i].frame);
}

/* The lane sends its game, with its words mixed or one after another, until it is taken. */
static int send_game(const struct book *book, int mixed, enum fault first, struct play *play)
{
    static const char *const texts[] = {"its end is lost", "a symbol that no book has", "a spark spoils a dozen symbols in a row",
                                        "one symbol is spoiled"};
    enum fault fault;
    begin(&play->game);
    play->first = first;
    for (fault = first; fault < FAULTS && !play->game.taken; fault++) {
        struct delivery *delivery = &play->deliveries[play->count++];
        const struct held *held;
        if (!transmit(book, mixed, fault, delivery))
            return 0;
        held = merge_lane(&play->game, book, delivery->bytes, delivery->len);
        if (held == NULL)
            return 0;
        printf("burst %zu, %s: ", play->count, texts[fault]);
        print_burst(book, &play->game, held);
    }
    return all_held(play);
}

static int play_both(const struct book *book)
{
    static struct play mixed, apart;
    printf("The lane's game in one burst, its ten words mixed\n");
    if (!send_game(book, 1, CUT, &mixed))
        return 0;
    printf("\nThe same ten words one after another, the same spark; the desk lays them out as a burst\n");
    if (!send_game(book, 0, SPARK, &apart))
        return 0;
    print_game(book, &mixed.game);
    print_held(book, &mixed.game);
    print_close(book, &mixed, &apart);
    return 1;
}

int main(int argc, char **argv)
{
    static struct book book;
    uint32_t result;
    if (argc != 2 || !book_read(&book, argv[1])) {
        fputs(argc == 2 ? "desk: the file cannot be read\n" : "usage: desk BOOK\n", stderr);
        return 2;
    }
    result = shiftsum_check(book.bytes, book.len);
    if (SHIFTSUM_REFUSAL(result) != 0) {
        printf("codebook refused, %u: %s\n", SHIFTSUM_REFUSAL(result), shiftsum_refusal_text(SHIFTSUM_REFUSAL(result)));
        return 3;
    }
    book_measure(&book);
    if (frame_balls(&book) == 0) {
        printf("codebook accepted, but its messages have no room for a frame\n");
        return 3;
    }
    printf("codebook accepted: words of %zu symbols below %u, messages of up to %zu, %u dual word%s\n\n", book.n, 1u << book.p, book.k,
           SHIFTSUM_DUAL_WORDS(result), SHIFTSUM_DUAL_WORDS(result) == 1 ? "" : "s");
    if (!play_both(&book)) {
        printf("failed: a word could not be coded, or a burst not held\n");
        return 1;
    }
    return 0;
}
