/* Lines of a text: words to work on, and descriptions of codebooks. */
#ifndef LINES_H
#define LINES_H

#include <stddef.h>
#include <stdio.h>

/* The most bytes of a line. The longest burst has 255 * 16 symbols, 8160 digits. */
#define LINE_LIMIT 65536

struct line {
    char bytes[LINE_LIMIT];
    size_t len;           /* of bytes, without the line's end */
    const char *text;     /* the same without blanks before and after */
    size_t text_len;
    unsigned long number; /* from 1; 0 before the first is read */
};

enum line_found { LINE_READ, LINE_NONE, LINE_LONG, LINE_FAILED };

/* The next line that is neither blank nor begins with #. The end of input ends a line too. */
enum line_found line_next(FILE *from, struct line *line);

/* Says why there is no next line, where that is not the end of input. NAME is the input's. */
int line_trouble(enum line_found found, const char *name, const struct line *line);

/* The number, from 1, that the character at TEXT has in its line. */
size_t line_character(const struct line *line, const char *text);

#endif
