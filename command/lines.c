#include "lines.h"

#include "say.h"

#include <errno.h>
#include <string.h>

static enum line_found take(FILE *from, struct line *line)
{
    int c;
    line->len = 0;
    errno = 0;
    while ((c = getc(from)) != EOF && c != '\n') {
        if (line->len == sizeof line->bytes)
            return LINE_LONG;
        line->bytes[line->len++] = (char)c;
    }
    if (ferror(from))
        return LINE_FAILED;
    return c == EOF && line->len == 0 ? LINE_NONE : LINE_READ;
}

/* The carriage return of a line from another system is a blank too. */
static int blank(char c)
{
    return c == ' ' || c == '\t' || c == '\r';
}

static void trim(struct line *line)
{
    const char *end = line->bytes + line->len;
    line->text = line->bytes;
    while (line->text < end && blank(*line->text))
        line->text++;
    while (end > line->text && blank(end[-1]))
        end--;
    line->text_len = (size_t)(end - line->text);
}

enum line_found line_next(FILE *from, struct line *line)
{
    enum line_found found;
    do {
        line->number++;
        found = take(from, line);
        trim(line);
    } while (found == LINE_READ && (line->text_len == 0 || line->text[0] == '#'));
    return found;
}

int line_trouble(enum line_found found, const char *name, const struct line *line)
{
    if (found == LINE_LONG)
        say("%s: line %lu: it has more than %d bytes", name, line->number, LINE_LIMIT);
    else if (found == LINE_FAILED)
        say("%s: %s", name, errno != 0 ? strerror(errno) : "it cannot be read");
    else
        return DONE;
    return WRONG;
}

size_t line_character(const struct line *line, const char *text)
{
    return (size_t)(text - line->bytes) + 1;
}
