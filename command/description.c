#include "description.h"

#include "say.h"

#include <string.h>

/* A record of a word: its kind, and a body as wide as the form has it. n is known, since s is right. */
static int put_word(const struct description *text, const struct word *word, unsigned kind, size_t width, struct book *book)
{
    size_t n = ((size_t)1 << text->numbers[NUMBER_S].value) - 1;
    if (word->count > n) {
        say("%s: line %lu: it has %zu symbols, and a word has %zu where s is %u", text->name, word->line, word->count, n,
            (unsigned)text->numbers[NUMBER_S].value);
        return WRONG;
    }
    book->bytes[book->len] = (uint8_t)kind;
    memcpy(book->bytes + book->len + 1, word->symbols, word->count);
    book->len += 1 + width;
    return DONE;
}

static void put_numbers(struct book *book, unsigned kind, uint32_t first, uint32_t second)
{
    book->bytes[book->len++] = (uint8_t)kind;
    book->bytes[book->len++] = (uint8_t)first;
    book->bytes[book->len++] = (uint8_t)second;
}

/* The form follows from s. */
int description_book(const struct description *text, struct book *book)
{
    const struct number *numbers = text->numbers;
    uint32_t s = numbers[NUMBER_S].value;
    size_t width = s <= 6 ? SHORT_WIDTH : LONG_WIDTH, l;
    int status;
    if (s < 2 || s > 8) {
        say("%s: line %lu: s is %u, and no form has it: the short one has 2 to 6, the long one 7 and 8", text->name,
            numbers[NUMBER_S].line, (unsigned)s);
        return WRONG;
    }
    memset(book, 0, sizeof *book);
    put_numbers(book, 1, s, numbers[NUMBER_P].value);
    status = put_word(text, &text->generator, s <= 6 ? SHORT_FORM : LONG_FORM, width, book);
    put_numbers(book, 3, numbers[NUMBER_I].value, numbers[NUMBER_D].value);
    for (l = 0; l < text->count && status == DONE; l++)
        status = put_word(text, &text->duals[l], s <= 6 ? 4 : 6, width, book);
    return status;
}
