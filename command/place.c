#include "place.h"

#include "layout.h"

#include <stdarg.h>
#include <stdio.h>

void place_tell(struct place *place, const char *format, ...)
{
    va_list values;
    va_start(values, format);
    vsnprintf(place->text, sizeof place->text, format, values);
    va_end(values);
}

static void place_of_length(const struct book *book, struct place *place)
{
    static const char *const short_lengths = "134, 198, .. 2118", *const long_lengths = "518, 774, .. 8454";
    unsigned form;
    if (book->len > SHIFTSUM_BOOK_MAX) {
        place_tell(place, "it has more than %d bytes", SHIFTSUM_BOOK_MAX);
        return;
    }
    if (book->len <= AT_FORM) {
        place_tell(place, "it has %zu bytes, and the form is told by byte 3", book->len);
        return;
    }
    form = book->bytes[AT_FORM];
    if (form == SHORT_FORM || form == LONG_FORM)
        place_tell(place, "it has %zu bytes; byte 3 is %u, and the %s form has %s", book->len, form,
                   form == SHORT_FORM ? "short" : "long", form == SHORT_FORM ? short_lengths : long_lengths);
    else
        place_tell(place, "it has %zu bytes; the short form has %s, the long form %s", book->len, short_lengths,
                   long_lengths);
}

/* One kind byte; 0 where it is as it should be. */
static int wrong_kind(const struct book *book, size_t at, unsigned wanted, const char *record, struct place *place)
{
    if (book->bytes[at] == wanted)
        return 0;
    place_tell(place, "%s, byte %zu: the kind is %u, and should be %u", record, at, book->bytes[at], wanted);
    return 1;
}

static void place_of_kind(const struct book *book, struct place *place)
{
    unsigned form = book->bytes[AT_FORM];
    size_t width = layout_width(book->bytes), l;
    char record[40];
    if (wrong_kind(book, 0, 1, "record of s and p", place))
        return;
    if (form != SHORT_FORM && form != LONG_FORM) {
        place_tell(place, "generator, byte 3: the kind is %u, and should be %d in the short form or %d in the long one",
                   form, SHORT_FORM, LONG_FORM);
        return;
    }
    if (wrong_kind(book, layout_limits(width), 3, "record of I and D", place))
        return;
    for (l = 0; l < layout_duals(book->bytes, book->len); l++) {
        snprintf(record, sizeof record, "dual word %zu", l);
        if (wrong_kind(book, layout_dual(width, l), form == LONG_FORM ? 6 : 4, record, place))
            return;
    }
}

static void place_of_size(const struct book *book, struct place *place)
{
    unsigned s = book->bytes[AT_S], p = book->bytes[AT_P];
    int is_long = book->bytes[AT_FORM] == LONG_FORM;
    if (is_long ? s != 7 && s != 8 : s < 2 || s > 6)
        place_tell(place, "s is %u, and the %s form has %s", s, is_long ? "long" : "short", is_long ? "7 and 8" : "2 to 6");
    else if (p < 1 || p > 6)
        place_tell(place, "p is %u, and should be 1 to 6", p);
    else
        place_tell(place, "s is %u and p is %u, which does not divide it", s, p);
}

static void place_of_limit(const struct book *book, struct place *place)
{
    size_t at = layout_limits(layout_width(book->bytes));
    unsigned rounds = book->bytes[at + 1], places = book->bytes[at + 2];
    if (rounds < 1 || rounds > 63)
        place_tell(place, "I is %u, and should be 1 to 63", rounds);
    else
        place_tell(place, "D is %u, and should be 1 to %zu", places, shiftsum_n(book->bytes));
}

void place_find(const struct book *book, unsigned number, struct place *place)
{
    static void (*const finders[])(const struct book *, struct place *) = {
        [SHIFTSUM_REFUSED_LENGTH] = place_of_length,       [SHIFTSUM_REFUSED_KIND] = place_of_kind,
        [SHIFTSUM_REFUSED_SIZE] = place_of_size,           [SHIFTSUM_REFUSED_SYMBOL] = place_of_symbol,
        [SHIFTSUM_REFUSED_GENERATOR] = place_of_generator, [SHIFTSUM_REFUSED_LIMIT] = place_of_limit,
        [SHIFTSUM_REFUSED_DUAL_WORD] = place_of_dual_word, [SHIFTSUM_REFUSED_ALIKE] = place_of_alike,
    };
    place_tell(place, "its place is not known");
    if (number < sizeof finders / sizeof finders[0] && finders[number] != NULL)
        finders[number](book, place);
}
