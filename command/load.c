#include "load.h"

#include "place.h"
#include "say.h"

#include <errno.h>
#include <stdio.h>
#include <string.h>

int load_file(struct book *book, const char *name)
{
    FILE *file = fopen(name, "rb");
    int sound;
    if (file == NULL) {
        say("%s: %s", name, strerror(errno));
        return 0;
    }
    errno = 0;
    book->len = fread(book->bytes, 1, sizeof book->bytes, file);
    sound = !ferror(file);
    if (!sound)
        say("%s: %s", name, errno != 0 ? strerror(errno) : "it cannot be read");
    fclose(file);
    return sound;
}

int load_book(struct book *book, const char *name)
{
    struct place place;
    unsigned number;
    if (!load_file(book, name))
        return WRONG;
    number = SHIFTSUM_REFUSAL(shiftsum_check(book->bytes, book->len));
    if (number == 0)
        return DONE;
    place_find(book, number, &place);
    say_refused(name, number, place.text);
    return REFUSED;
}
