/* Refusals 4 and 5: symbols, and the generator. s and p are right, so that n and q are known. */
#include "layout.h"
#include "place.h"

#include <stdio.h>

/* One body; 0 where all its bytes are as they should be. */
static int wrong_body(const struct book *book, const uint8_t *body, const char *record, struct place *place)
{
    size_t n = shiftsum_n(book->bytes), width = layout_width(book->bytes), j;
    unsigned q = shiftsum_q(book->bytes);
    for (j = 0; j < width; j++) {
        if (j < n ? body[j] < q : body[j] == 0)
            continue;
        if (j < n)
            place_tell(place, "%s, place %zu: the symbol is %u, and q is %u", record, j, body[j], q);
        else
            place_tell(place, "%s, place %zu: it is %u, and should be 0, since n is %zu", record, j, body[j], n);
        return 1;
    }
    return 0;
}

void place_of_symbol(const struct book *book, struct place *place)
{
    char record[40];
    size_t l;
    if (wrong_body(book, book->bytes + AT_GENERATOR, "generator", place))
        return;
    for (l = 0; l < layout_duals(book->bytes, book->len); l++) {
        snprintf(record, sizeof record, "dual word %zu", l);
        if (wrong_body(book, layout_dual_word(book->bytes, l), record, place))
            return;
    }
}

void place_of_generator(const struct book *book, struct place *place)
{
    const uint8_t *g = book->bytes + AT_GENERATOR;
    size_t n = shiftsum_n(book->bytes), degree = n - shiftsum_k(book->bytes);
    if (g[degree] == 0)
        place_tell(place, "the generator is zero");
    else if (g[degree] != 1)
        place_tell(place, "generator, place %zu: the leading coefficient is %u, and should be 1", degree, g[degree]);
    else if (degree == 0)
        place_tell(place, "the generator has degree 0");
    else
        place_tell(place, "the generator, of degree %zu, does not divide x^%zu - 1", degree, n);
}
