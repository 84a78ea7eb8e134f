/*
 * The merge's rules, one by one:
 *
 *     test_merge BOOKS
 *
 * by book A, line15, line63 and line255 of the folder BOOKS. A game must be taken whole or held whole, every burst be held as it came until the game
 * is paid, a frame that was coded short come back with its zeros, and a dozen symbols spoiled in a row lose no game that came as a burst.
 */
#include "merge.h"

#include <stdio.h>
#include <string.h>

/* In line15 the first is Spent and the second Stalled. In book A the third is of eleven pins, which no ball has. */
static const char spent[] = "001011001000000", stalled[] = "001010001000100", eleven_pins[] = "1010001";

static struct book book_a, line15, line63, line255;
static struct game game, stood;
static unsigned long passed, failed;

static void expect(const char *name, int holds)
{
    if (holds) {
        passed++;
        return;
    }
    failed++;
    printf("failed: %s\n", name);
}

/* A new game. The server has the second frame as the lane sends it, the fourth with other pins, and no other. */
static void begin(void)
{
    static const struct frame two = {{2, 0, 0}}, nine = {{9, 0, 0}};
    merge_begin(&game);
    merge_server(&game, 1, &two);
    merge_server(&game, 3, &nine);
}

static void code(const struct book *book, const struct frame *frame, uint8_t *word)
{
    uint8_t message[SHIFTSUM_WORD_MAX];
    size_t filled = frame_pack(book, frame, message);
    expect("a word", shiftsum_code(book->bytes, book->len, message, filled, word, book->n) == 0);
}

/* The lane's words, one after another: one pin in the first frame, two in the second, and so on. */
static void code_game(const struct book *book, uint8_t *row)
{
    unsigned m;
    for (m = 0; m < FRAMES; m++) {
        struct frame frame = {{m + 1, 0, 0}};
        code(book, &frame, row + m * book->n);
    }
}

/* Puts a word written as digits in the place of word m. */
static void put(const struct book *book, uint8_t *row, unsigned m, const char *digits)
{
    size_t j;
    for (j = 0; j < book->n; j++)
        row[m * book->n + j] = (uint8_t)(digits[j] - '0');
}

/* Merges a burst. Whatever becomes of it, it must be held as it came. What stood before is left in `stood`. */
static const struct held *merges_burst(const char *name, const struct book *book, const uint8_t *burst, size_t len)
{
    const struct held *held = &game.held[game.held_count];
    stood = game;
    expect(name, merge_lane(&game, book, burst, len) == held && game.held_count == stood.held_count + 1);
    expect(name, held->len == len && memcmp(held->raw, burst, len) == 0);
    expect(name, memcmp(game.held, stood.held, stood.held_count * sizeof *held) == 0);
    return held;
}

/* Merges ten words that came one after another. */
static const struct held *merges(const char *name, const struct book *book, const uint8_t *row)
{
    uint8_t burst[RAW_MAX];
    const struct held *held;
    unsigned m;
    size_t j, astray = 0;
    merge_mix(book, row, burst);
    held = merges_burst(name, book, burst, FRAMES * book->n);
    for (m = 0; m < FRAMES; m++)
        for (j = 0; j < book->n; j++)
            astray += burst[FRAMES * j + m] != row[m * book->n + j] || merge_raw(held, m, j) != row[m * book->n + j];
    expect(name, astray == 0);
    return held;
}

/* Whether the game has just the frames that stood before the last burst, and that burst gave none. */
static int unchanged(const struct held *held)
{
    return !held->taken && game.taken == stood.taken && memcmp(game.lane, stood.lane, sizeof game.lane) == 0 &&
           memcmp(game.told, stood.told, sizeof game.told) == 0 && memcmp(game.server, stood.server, sizeof game.server) == 0;
}

/* How many frames that stand are not those that the lane sent. */
static unsigned lost_frames(void)
{
    unsigned m, lost = 0;
    for (m = 0; m < FRAMES; m++) {
        const struct frame *frame = merge_frame(&game, m);
        lost += frame == NULL || frame->pins[0] != m + 1;
    }
    return lost;
}

/* The game is held whole: word m for its own sake, the others with it. */
static void expect_held(const char *name, const struct held *held, unsigned m, enum verdict verdict)
{
    unsigned i, other = 0;
    for (i = 0; i < FRAMES; i++)
        other += held->verdicts[i] != (i == m ? verdict : WITHHELD);
    expect(name, other == 0 && unchanged(held));
}

/* The game is taken whole: the lane's frames stand, all of them, and the server's are kept beside them. */
static void expect_taken(const char *name, const struct held *held)
{
    unsigned i, other = 0;
    for (i = 0; i < FRAMES; i++)
        other += held->verdicts[i] != (i == 1 ? AGREED : i == 3 ? DISPUTED : TAKEN);
    expect(name, other == 0);
    expect(name, SHIFTSUM_KIND(held->result) == SHIFTSUM_WHOLE && held->taken && game.taken && lost_frames() == 0);
    expect(name, memcmp(game.told, stood.told, sizeof game.told) == 0 && memcmp(game.server, stood.server, sizeof game.server) == 0);
}

static void test_server(void)
{
    unsigned m;
    begin();
    for (m = 0; m < FRAMES; m++)
        expect("the server's frames alone", m == 1 || m == 3 ? merge_frame(&game, m) == &game.server[m] : merge_frame(&game, m) == NULL);
    expect("the server's pins", merge_frame(&game, 1)->pins[0] == 2 && merge_frame(&game, 3)->pins[0] == 9);
}

static void test_taken(void)
{
    uint8_t row[RAW_MAX];
    const struct held *held;
    unsigned m;
    begin();
    code_game(&book_a, row);
    expect_taken("ten words Clean", held = merges("ten words Clean", &book_a, row));
    for (m = 0; m < FRAMES; m++)
        expect("Clean", held->records[m].kind == SHIFTSUM_CLEAN);
    begin();
    for (m = 0; m < FRAMES; m += 2)
        row[m * book_a.n] ^= 1;
    expect_taken("five words Mended", held = merges("five words Mended", &book_a, row));
    for (m = 0; m < FRAMES; m++)
        expect("Mended or Clean", held->records[m].kind == (m % 2 == 0 ? SHIFTSUM_MENDED : SHIFTSUM_CLEAN));
}

/* The first game stands. One that is sent later agrees with it, or a person decides between the two. */
static void test_later(void)
{
    uint8_t row[RAW_MAX];
    const struct frame seven = {{7, 0, 0}};
    const struct held *held;
    unsigned m;
    begin();
    code_game(&book_a, row);
    expect_taken("first", merges("first", &book_a, row));
    held = merges("the same again", &book_a, row);
    for (m = 0; m < FRAMES; m++)
        expect("agrees with the lane's own", held->verdicts[m] == AGREED && unchanged(held));
    code(&book_a, &seven, row + 2 * book_a.n);
    held = merges("another third frame", &book_a, row);
    for (m = 0; m < FRAMES; m++)
        expect("differs from the lane's own", held->verdicts[m] == (m == 2 ? DISPUTED : AGREED) && unchanged(held));
}

/* One word that is not reached, whichever it is, and no frame of its game is taken. */
static void test_held(void)
{
    uint8_t row[RAW_MAX];
    const struct held *held;
    unsigned m;
    for (m = 0; m < 2 * FRAMES; m++) {
        const char *name = m < FRAMES ? "Spent" : "Stalled";
        begin();
        code_game(&line15, row);
        put(&line15, row, m % FRAMES, m < FRAMES ? spent : stalled);
        held = merges(name, &line15, row);
        expect(name, SHIFTSUM_KIND(held->result) == SHIFTSUM_HELD && SHIFTSUM_HELD_WORDS(held->result) == 1);
        expect(name, held->records[m % FRAMES].kind == (m < FRAMES ? SHIFTSUM_SPENT : SHIFTSUM_STALLED));
        expect_held(name, held, m % FRAMES, UNREACHED);
    }
    begin();
    code_game(&line15, row);
    for (m = 0; m < FRAMES; m++) {
        put(&line15, row, m, m % 2 == 0 ? spent : stalled);
        held = merges("so many words", &line15, row);
        expect("so many words", SHIFTSUM_HELD_WORDS(held->result) == m + 1 && unchanged(held));
    }
    code_game(&line15, row);
    row[5] ^= 1;
    expect_taken("sent again", merges("sent again", &line15, row));
    put(&line15, row, 4, spent);
    expect_held("the lane's own stands", merges("the lane's own stands", &line15, row), 4, UNREACHED);
    expect("the lane's own", game.taken && lost_frames() == 0);
}

/* One word of no frame that a lane sends, and no frame of its game is taken. */
static void test_impossible(void)
{
    uint8_t row[RAW_MAX];
    unsigned m;
    begin();
    for (m = 0; m < FRAMES; m++) {
        const struct held *held;
        code_game(&book_a, row);
        put(&book_a, row, m, eleven_pins);
        held = merges("eleven pins", &book_a, row);
        expect("eleven pins", SHIFTSUM_KIND(held->result) == SHIFTSUM_WHOLE && held->records[m].kind == SHIFTSUM_CLEAN);
        expect_held("eleven pins", held, m, IMPOSSIBLE);
    }
}

static void refuses(const char *name, const uint8_t *burst, size_t len, unsigned number)
{
    const struct held *held = merges_burst(name, &book_a, burst, len);
    unsigned m;
    expect(name, held->result == number && unchanged(held));
    for (m = 0; m < FRAMES; m++)
        expect(name, held->verdicts[m] == REFUSED && held->records[m].kind == 0);
}

static void test_refused(void)
{
    uint8_t row[RAW_MAX], burst[RAW_MAX] = {0};
    const size_t len = FRAMES * book_a.n;
    code_game(&book_a, row);
    merge_mix(&book_a, row, burst);
    begin();
    refuses("no symbol", burst, 0, 9);
    refuses("a word alone", burst, book_a.n, 9);
    refuses("cut", burst, len - 1, 9);
    refuses("too long", burst, len + 1, 9);
    refuses("an eleventh word", burst, len + book_a.n, 9);
    burst[len - 1] = 2;
    refuses("a bad symbol", burst, len, 11);
    burst[len - 1] = row[len - 1];
    expect_taken("sent again", merges_burst("sent again", &book_a, burst, len));
    burst[0] = 2;
    refuses("the lane's own stands", burst, len, 11);
    expect("the lane's own", game.taken && lost_frames() == 0);
}

/* What cannot be held is not merged either. */
static void test_room(void)
{
    static const uint8_t long_burst[RAW_MAX + 1];
    uint8_t row[RAW_MAX], burst[RAW_MAX];
    unsigned i;
    begin();
    stood = game;
    expect("a burst too long to be held", merge_lane(&game, &book_a, long_burst, sizeof long_burst) == NULL && game.held_count == 0);
    for (i = 0; i < HELD_MAX; i++)
        expect("room", merge_lane(&game, &book_a, long_burst, i) != NULL);
    code_game(&book_a, row);
    merge_mix(&book_a, row, burst);
    expect("no room", merge_lane(&game, &book_a, burst, FRAMES * book_a.n) == NULL && game.held_count == HELD_MAX);
    expect("no room, no frame", unchanged(&game.held[HELD_MAX - 1]));
}

/* Whatever became of a game, its raw words are held until it is paid. The frames that stand still do afterwards. */
static void test_paid(void)
{
    static const struct held nothing[HELD_MAX];
    uint8_t row[RAW_MAX];
    begin();
    code_game(&line15, row);
    put(&line15, row, 0, stalled);
    merges("held", &line15, row);
    merges_burst("refused", &line15, row, 7);
    code_game(&book_a, row);
    put(&book_a, row, 9, eleven_pins);
    merges("impossible", &book_a, row);
    code_game(&book_a, row);
    expect_taken("taken", merges("taken", &book_a, row));
    merges("agreed", &book_a, row);
    expect("every burst", game.held_count == 5);
    expect("paid", merge_paid(&game) == 5 && game.held_count == 0 && memcmp(game.held, nothing, sizeof nothing) == 0);
    expect("the game stands", game.taken && lost_frames() == 0);
    merges("room again", &book_a, row);
}

static void test_open(void)
{
    expect("no frame", merge_open(REFUSED) && merge_open(UNREACHED) && merge_open(IMPOSSIBLE) && merge_open(WITHHELD));
    expect("two frames", merge_open(DISPUTED));
    expect("one frame", !merge_open(TAKEN) && !merge_open(AGREED));
}

/* A dozen symbols in a row go wrong, wherever they begin. A burst is taken whole, and is what was sent. The same words one after another never are:
 * the game is held, mostly, or a word became another. */
static void test_spark(void)
{
    enum { N = 15, DOZEN = 12, SYMBOLS = FRAMES * N };
    uint8_t row[SYMBOLS], burst[SYMBOLS], apart[SYMBOLS];
    size_t at, j, held = 0;
    code_game(&line15, row);
    for (at = 0; at + DOZEN <= SYMBOLS; at++) {
        merge_mix(&line15, row, burst);
        memcpy(apart, row, SYMBOLS);
        for (j = at; j < at + DOZEN; j++) {
            burst[j] ^= 1;
            apart[j] ^= 1;
        }
        begin();
        expect_taken("a spark in a burst", merges_burst("a spark in a burst", &line15, burst, SYMBOLS));
        begin();
        held += !merges("a spark in words one after another", &line15, apart)->taken;
        expect("a spark in words one after another", game.taken ? lost_frames() > 0 : lost_frames() == FRAMES - 1);
    }
    expect("most are held", 2 * held > SYMBOLS - DOZEN);
}

/* A frame that fills so many symbols is coded from these alone, and merged, as each frame of a game. */
static void sends_short(const char *name, const struct book *book, struct frame frame, size_t filled)
{
    uint8_t message[SHIFTSUM_WORD_MAX], read[SHIFTSUM_WORD_MAX], row[RAW_MAX];
    unsigned m;
    size_t j;
    expect(name, frame_pack(book, &frame, message) == filled);
    /* What comes after them is not looked at: as a symbol it would be refused. */
    memset(message + filled, 0xff, sizeof message - filled);
    for (m = 0; m < FRAMES; m++)
        expect(name, shiftsum_code(book->bytes, book->len, message, filled, row + m * book->n, book->n) == 0);
    expect(name, shiftsum_read(book->bytes, book->len, row, book->n, read, book->k) == 0);
    for (j = 0; j < book->k; j++)
        expect(name, read[j] == (j < filled ? message[j] : 0));
    merge_begin(&game);
    merges(name, book, row);
    for (m = 0; m < FRAMES; m++)
        expect(name, merge_frame(&game, m) != NULL && memcmp(merge_frame(&game, m), &frame, sizeof frame) == 0);
}

/* Of line63's 13 symbols, and of line255's 21, a ball fills up to two, of line15's 7 the first ball up to four, of book A's 4 all. */
static void test_short(void)
{
    sends_short("an open frame", &line63, (struct frame){{8, 1, 0}}, 3);
    sends_short("an open frame of one ball", &line63, (struct frame){{1, 0, 0}}, 1);
    sends_short("no pin at first", &line63, (struct frame){{0, 8, 0}}, 4);
    sends_short("no pin at all", &line63, (struct frame){{0, 0, 0}}, 1);
    sends_short("a strike", &line63, (struct frame){{10, 0, 0}}, 2);
    sends_short("a spare", &line63, (struct frame){{7, 3, 0}}, 3);
    sends_short("the tenth frame", &line63, (struct frame){{10, 9, 1}}, 5);
    sends_short("three strikes", &line63, (struct frame){{10, 10, 10}}, 6);
    sends_short("line255, an open frame", &line255, (struct frame){{8, 1, 0}}, 3);
    sends_short("line255, no pin", &line255, (struct frame){{0, 0, 0}}, 1);
    sends_short("line255, three strikes", &line255, (struct frame){{10, 10, 10}}, 6);
    sends_short("line15, nine pins", &line15, (struct frame){{9, 0, 0}}, 4);
    sends_short("line15, one pin", &line15, (struct frame){{1, 0, 0}}, 1);
    sends_short("line15, no pin", &line15, (struct frame){{0, 0, 0}}, 1);
    sends_short("book A, three pins", &book_a, (struct frame){{3, 0, 0}}, 2);
    sends_short("book A, eight pins, no short frame", &book_a, (struct frame){{8, 0, 0}}, 4);
}

static int load(struct book *book, const char *folder, const char *name)
{
    char path[4096];
    int length = snprintf(path, sizeof path, "%s/%s.book", folder, name);
    if (length < 0 || (size_t)length >= sizeof path || !book_read(book, path) || SHIFTSUM_REFUSAL(shiftsum_check(book->bytes, book->len)) != 0)
        return 0;
    book_measure(book);
    return 1;
}

int main(int argc, char **argv)
{
    if (argc != 2 || !load(&book_a, argv[1], "a") || !load(&line15, argv[1], "line15") || !load(&line63, argv[1], "line63") ||
        !load(&line255, argv[1], "line255"))
        return 2;
    test_server();
    test_taken();
    test_later();
    test_held();
    test_impossible();
    test_refused();
    test_room();
    test_paid();
    test_open();
    test_spark();
    test_short();
    printf("%lu passed, %lu failed\n", passed, failed);
    return failed == 0 ? 0 : 1;
}
