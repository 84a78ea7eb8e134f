/* Refusals 7 and 8: the library is asked about books of the same generator and one or two of the dual words. */
#include "layout.h"
#include "place.h"

#include <string.h>

/* Adds dual word l of a book to a part of it. */
static void add(struct book *part, const struct book *whole, size_t l)
{
    size_t size = 1 + layout_width(whole->bytes);
    memcpy(part->bytes + part->len, layout_dual_word(whole->bytes, l) - 1, size);
    part->len += size;
}

/* The number that a book with dual word l alone, or with l and m, is refused by. */
static unsigned ask(const struct book *whole, size_t l, size_t m)
{
    struct book part;
    part.len = layout_dual(layout_width(whole->bytes), 0);
    memcpy(part.bytes, whole->bytes, part.len);
    add(&part, whole, l);
    if (m != l)
        add(&part, whole, m);
    return SHIFTSUM_REFUSAL(shiftsum_check(part.bytes, part.len));
}

static size_t weight(const struct book *book, size_t l)
{
    return layout_weight(layout_dual_word(book->bytes, l), shiftsum_n(book->bytes));
}

/* No dual word is wrong alone: two differ in weight. */
static void place_of_weight(const struct book *book, struct place *place)
{
    size_t first = weight(book, 0), l;
    for (l = 1; l < layout_duals(book->bytes, book->len); l++) {
        if (ask(book, 0, l) != SHIFTSUM_REFUSED_DUAL_WORD)
            continue;
        place_tell(place, "dual word %zu has weight %zu, and dual word 0 has weight %zu", l, weight(book, l), first);
        return;
    }
}

void place_of_dual_word(const struct book *book, struct place *place)
{
    size_t l, count = layout_duals(book->bytes, book->len);
    for (l = 0; l < count && ask(book, l, l) != SHIFTSUM_REFUSED_DUAL_WORD; l++)
        continue;
    if (l == count)
        place_of_weight(book, place);
    else if (layout_dual_word(book->bytes, l)[0] != 1)
        place_tell(place, "dual word %zu, place 0: the symbol is %u, and should be 1", l, layout_dual_word(book->bytes, l)[0]);
    else
        place_tell(place, "dual word %zu: its product with the generator is not zero", l);
}

/* The first dual word after l that is like it; count where there is none. */
static size_t like(const struct book *book, size_t l, size_t count)
{
    size_t m = l + 1;
    while (m < count && ask(book, l, m) != SHIFTSUM_REFUSED_ALIKE)
        m++;
    return m;
}

void place_of_alike(const struct book *book, struct place *place)
{
    size_t l, m, count = layout_duals(book->bytes, book->len);
    for (l = 0; l < count; l++) {
        m = like(book, l, count);
        if (m == count)
            continue;
        place_tell(place, "dual words %zu and %zu are alike", l, m);
        return;
    }
}
