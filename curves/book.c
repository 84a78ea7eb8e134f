#include "book.h"

#include <stdio.h>
#include <string.h>

enum { AT_FORM = 3, AT_I = 68, AT_I_LONG = 260, LONG_FORM = 5 };

int wrong(const char *what, const char *which)
{
    fprintf(stderr, "curves: %s: %s\n", which, what);
    return WRONG;
}

static int read_book(struct book *book, const char *name)
{
    FILE *file = fopen(name, "rb");
    int sound;
    if (file == NULL)
        return 0;
    book->len = fread(book->bytes, 1, sizeof book->bytes, file);
    sound = !ferror(file);
    fclose(file);
    return sound;
}

/* The file's name without folders and ending. */
static void label(struct book *book, const char *name)
{
    const char *slash = strrchr(name, '/');
    char *dot;
    snprintf(book->label, sizeof book->label, "%s", slash == NULL ? name : slash + 1);
    dot = strrchr(book->label, '.');
    if (dot != NULL && dot != book->label)
        *dot = 0;
}

int book_load(struct book *book, const char *name)
{
    unsigned refusal;
    if (!read_book(book, name))
        return wrong("this file cannot be read", name);
    refusal = SHIFTSUM_REFUSAL(shiftsum_check(book->bytes, book->len));
    if (refusal != 0) {
        fprintf(stderr, "curves: %s: refused by %u: %s\n", name, refusal, shiftsum_refusal_text(refusal));
        return REFUSED;
    }
    book->n = shiftsum_n(book->bytes);
    book->q = shiftsum_q(book->bytes);
    book->at_i = book->bytes[AT_FORM] == LONG_FORM ? AT_I_LONG : AT_I;
    label(book, name);
    return 0;
}

void book_print(const struct book *book, size_t d)
{
    printf("%s,%zu,%zu,%u,%u,%zu", book->label, book->n, shiftsum_k(book->bytes), book->q, book->bytes[book->at_i], d);
}
