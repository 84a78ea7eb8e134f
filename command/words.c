#include "words.h"

#include "hex.h"
#include "lines.h"
#include "progress.h"
#include "say.h"
#include "word_place.h"

#include <stdio.h>
#include <string.h>

/* The symbols of the word in hand. */
static uint8_t symbols[LINE_LIMIT / 2];

/* One word. A refusal has a line among the answers too, so that lines still match words. */
static int run_one(const struct job *job, size_t len, const char *what)
{
    struct place place;
    int held;
    unsigned number = job->operation->run(job, symbols, len, &held);
    if (number == 0)
        return held ? REFUSED : DONE;
    printf("R %u\n", number);
    word_place_find(job, number, symbols, len, &place);
    say_refused(what, number, place.text);
    return REFUSED;
}

/* Whether an argument is hexadecimal. Its symbols are read. */
static int sound_argument(const struct job *job, int number, const char *text)
{
    size_t len = strlen(text), good;
    char fault[80];
    if (len > LINE_LIMIT) {
        say("%s %d: it has more than %d characters", job->operation->noun, number, LINE_LIMIT);
        return 0;
    }
    good = hex_read(text, len, symbols);
    if (good == len)
        return 1;
    hex_fault(text, len, good, good + 1, fault, sizeof fault);
    say("%s %d: %s", job->operation->noun, number, fault);
    return 0;
}

/* All are looked at first: where one is no word at all, nothing is done. */
static int run_arguments(const struct job *job, int count, char **words)
{
    int status = DONE, i;
    char what[40];
    for (i = 0; i < count; i++)
        if (!sound_argument(job, i + 1, words[i]))
            return WRONG;
    for (i = 0; i < count && !ferror(stdout); i++) {
        sound_argument(job, i + 1, words[i]);
        snprintf(what, sizeof what, "%s %d", job->operation->noun, i + 1);
        status = worse(status, run_one(job, strlen(words[i]) / 2, what));
    }
    return status;
}

static int run_line(const struct job *job, const struct line *line)
{
    char what[40], fault[80];
    size_t good = hex_read(line->text, line->text_len, symbols);
    snprintf(what, sizeof what, "line %lu", line->number);
    if (good == line->text_len)
        return run_one(job, line->text_len / 2, what);
    hex_fault(line->text, line->text_len, good, line_character(line, line->text + good), fault, sizeof fault);
    say("%s: %s", what, fault);
    return WRONG;
}

/* A line that is no word at all ends the run: what stands after it is not trusted. */
static int run_input(const struct job *job)
{
    static struct line line;
    enum line_found found = LINE_READ;
    int status = DONE;
    progress_begin(job->operation->noun);
    while (status != WRONG && !ferror(stdout) && (found = line_next(stdin, &line)) == LINE_READ) {
        status = worse(status, run_line(job, &line));
        progress_step();
    }
    progress_wipe();
    return worse(status, line_trouble(found, "standard input", &line));
}

int words_run(const struct operation *operation, int count, char **arguments)
{
    static struct job job;
    int status, first = operation->takes_words ? 2 : 1;
    job.operation = operation;
    job.words = 1;
    if (operation->takes_words && !decimal_read(arguments[1], strlen(arguments[1]), UINT32_MAX, &job.words)) {
        say("M is no decimal number from 0 to %lu", (unsigned long)UINT32_MAX);
        return WRONG;
    }
    status = load_book(&job.book, arguments[0]);
    if (status != DONE)
        return status;
    return count > first ? run_arguments(&job, count - first, arguments + first) : run_input(&job);
}
