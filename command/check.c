#include "check.h"

#include "layout.h"
#include "place.h"
#include "say.h"

#include <stdio.h>
#include <string.h>

/* Where there are several books, every line begins with the name of its book. */
static void begin(const char *name)
{
    if (name != NULL)
        printf("%s: ", name);
}

static void print_sizes(const struct book *book, unsigned duals)
{
    const uint8_t *bytes = book->bytes;
    size_t n = shiftsum_n(bytes), limits = layout_limits(layout_width(bytes));
    printf("accepted: n %zu, k %zu, q %u, %s form, I %u, D %u, %u dual word%s of weight %zu\n", n, shiftsum_k(bytes),
           shiftsum_q(bytes), bytes[AT_FORM] == LONG_FORM ? "long" : "short", bytes[limits + 1], bytes[limits + 2], duals,
           duals == 1 ? "" : "s", layout_weight(layout_dual_word(bytes, 0), n));
}

/*
 * Decodes the word with a 1 at place 0. Every single wrong symbol, of any value, at any place, in any
 * code word, is that word turned, multiplied and added to a code word, and the answer moves with it
 * (docs/PROMISES.md, demand 3). So this one answer tells of all of them.
 */
static void print_single(const struct book *book)
{
    static const uint8_t zero[SHIFTSUM_WORD_MAX], one[SHIFTSUM_WORD_MAX] = {1};
    uint8_t answer[SHIFTSUM_WORD_MAX];
    size_t n = shiftsum_n(book->bytes), limits = layout_limits(layout_width(book->bytes));
    uint32_t r = shiftsum_decode(book->bytes, book->len, one, n, answer, n);
    if (SHIFTSUM_REACHED(r) && memcmp(answer, zero, n) == 0) {
        puts("mends every single wrong symbol");
        return;
    }
    say_mark(stdout, YELLOW, "warning");
    printf(": with I %u and D %u it mends no single wrong symbol: ", book->bytes[limits + 1], book->bytes[limits + 2]);
    if (SHIFTSUM_REACHED(r))
        puts("each leads to another code word, Mended");
    else
        printf("each is %s\n", SHIFTSUM_KIND(r) == SHIFTSUM_STALLED ? "Stalled" : "Spent");
}

static void print_refused(const struct book *book, unsigned number, const char *name)
{
    struct place place;
    place_find(book, number, &place);
    begin(name);
    say_mark(stdout, RED, "refused");
    printf(" by %u: %s\n", number, shiftsum_refusal_text(number));
    begin(name);
    printf("%s\n", place.text);
}

static int check_one(const char *name, int named)
{
    struct book book;
    uint32_t r;
    if (!load_file(&book, name))
        return WRONG;
    r = shiftsum_check(book.bytes, book.len);
    if (!named)
        name = NULL;
    if (SHIFTSUM_REFUSAL(r) != 0) {
        print_refused(&book, SHIFTSUM_REFUSAL(r), name);
        return REFUSED;
    }
    begin(name);
    print_sizes(&book, SHIFTSUM_DUAL_WORDS(r));
    begin(name);
    print_single(&book);
    return DONE;
}

int check_run(int count, char **names)
{
    int status = DONE, i;
    for (i = 0; i < count; i++)
        status = worse(status, check_one(names[i], count > 1));
    return status;
}
