/*
 * Where a codebook keeps its parts. The form is known once the length fits it (not refused by 1);
 * the other bytes mean something once the kinds are right as well (not refused by 2).
 */
#ifndef LAYOUT_H
#define LAYOUT_H

#include <stddef.h>
#include <stdint.h>

enum { AT_S = 1, AT_P = 2, AT_FORM = 3, AT_GENERATOR = 4 };
enum { SHORT_FORM = 2, LONG_FORM = 5, SHORT_WIDTH = 63, LONG_WIDTH = 255, DUAL_WORDS_MAX = 32 };

/* Bytes of the body of a generator or a dual word. */
static inline size_t layout_width(const uint8_t *book)
{
    return book[AT_FORM] == LONG_FORM ? LONG_WIDTH : SHORT_WIDTH;
}

/* The record of I and D: its kind byte, then I, then D. */
static inline size_t layout_limits(size_t width)
{
    return AT_GENERATOR + width;
}

/* Dual word l: its kind byte, then its body. */
static inline size_t layout_dual(size_t width, size_t l)
{
    return layout_limits(width) + 3 + l * (1 + width);
}

static inline const uint8_t *layout_dual_word(const uint8_t *book, size_t l)
{
    return book + layout_dual(layout_width(book), l) + 1;
}

static inline size_t layout_weight(const uint8_t *word, size_t n)
{
    size_t weight = 0, j;
    for (j = 0; j < n; j++)
        weight += word[j] != 0;
    return weight;
}

/* How many dual words a book of that length has. */
static inline size_t layout_duals(const uint8_t *book, size_t len)
{
    size_t width = layout_width(book);
    return (len - layout_dual(width, 0)) / (1 + width);
}

#endif
