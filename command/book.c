#define _POSIX_C_SOURCE 200809L
#include "book.h"

#include "describe.h"
#include "place.h"
#include "say.h"
#include "write.h"

#include <errno.h>
#include <string.h>
#include <sys/stat.h>

static int read_text(const char *name, struct book *book)
{
    FILE *file;
    int status;
    if (strcmp(name, "-") == 0)
        return describe_read(stdin, "standard input", book);
    file = fopen(name, "rb");
    if (file == NULL) {
        say("%s: %s", name, strerror(errno));
        return WRONG;
    }
    status = describe_read(file, name, book);
    fclose(file);
    return status;
}

/* A book must not take the place of its description. */
static int same_file(const char *one, const char *other)
{
    struct stat a, b;
    return stat(one, &a) == 0 && stat(other, &b) == 0 && a.st_dev == b.st_dev && a.st_ino == b.st_ino;
}

int book_make(int count, char **arguments)
{
    struct book book;
    struct place place;
    unsigned number;
    (void)count;
    if (strcmp(arguments[1], "-") == 0 || same_file(arguments[0], arguments[1])) {
        say("book make: BOOK is to be a file of its own, and is '%s'", arguments[1]);
        return WRONG;
    }
    if (read_text(arguments[0], &book) != DONE)
        return WRONG;
    number = SHIFTSUM_REFUSAL(shiftsum_check(book.bytes, book.len));
    if (number == 0)
        return write_file(arguments[1], book.bytes, book.len);
    place_find(&book, number, &place);
    say_refused(strcmp(arguments[0], "-") == 0 ? "standard input" : arguments[0], number, place.text);
    return REFUSED;
}

int book_show(int count, char **arguments)
{
    struct book book;
    int status = load_book(&book, arguments[0]);
    (void)count;
    if (status == DONE)
        describe_print(&book);
    return status;
}
