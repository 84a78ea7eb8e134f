#define _POSIX_C_SOURCE 200809L
#include "say.h"

#include "progress.h"
#include "shiftsum.h"

#include <errno.h>
#include <stdarg.h>
#include <stdlib.h>
#include <string.h>
#include <unistd.h>

int worse(int one, int other)
{
    return one > other ? one : other;
}

/* Answers and sentences may go to one place: they keep their order there. */
static void begin(void)
{
    progress_wipe();
    fflush(stdout);
    fputs("shiftsum: ", stderr);
}

void say(const char *format, ...)
{
    va_list values;
    begin();
    va_start(values, format);
    vfprintf(stderr, format, values);
    va_end(values);
    fputc('\n', stderr);
}

void say_refused(const char *what, unsigned number, const char *place)
{
    begin();
    fprintf(stderr, "%s: ", what);
    say_mark(stderr, RED, "refused");
    fprintf(stderr, " by %u: %s (%s)\n", number, place, shiftsum_refusal_text(number));
}

static int coloured(FILE *to)
{
    const char *plain = getenv("NO_COLOR"), *terminal = getenv("TERM");
    if (plain != NULL && plain[0] != '\0')
        return 0;
    if (terminal == NULL || terminal[0] == '\0' || strcmp(terminal, "dumb") == 0)
        return 0;
    return isatty(fileno(to));
}

void say_mark(FILE *to, int colour, const char *word)
{
    if (coloured(to))
        fprintf(to, "\033[%dm%s\033[0m", colour, word);
    else
        fputs(word, to);
}

int say_end(void)
{
    errno = 0;
    if (fflush(stdout) == 0 && !ferror(stdout))
        return DONE;
    say("standard output: %s", errno != 0 ? strerror(errno) : "it cannot be written");
    return WRONG;
}
