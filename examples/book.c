#include "book.h"

#include <stdio.h>

int book_read(struct book *book, const char *name)
{
    FILE *file = fopen(name, "rb");
    int sound;
    if (file == NULL)
        return 0;
    book->len = fread(book->bytes, 1, sizeof book->bytes, file);
    sound = !ferror(file);
    fclose(file);
    return sound;
}

void book_measure(struct book *book)
{
    book->n = shiftsum_n(book->bytes);
    book->k = shiftsum_k(book->bytes);
    book->p = 0;
    while (1u << book->p < shiftsum_q(book->bytes))
        book->p++;
}
