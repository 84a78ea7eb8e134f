#define _POSIX_C_SOURCE 200809L
#include "progress.h"

#include <stdio.h>
#include <time.h>
#include <unistd.h>

static struct {
    const char *noun; /* NULL: nothing is told */
    unsigned long done;
    double told;
    int shown; /* characters that stand on the line */
} progress;

static double seconds(void)
{
    struct timespec now;
    if (clock_gettime(CLOCK_MONOTONIC, &now) != 0)
        return 0;
    return (double)now.tv_sec + (double)now.tv_nsec / 1e9;
}

void progress_begin(const char *noun)
{
    progress.noun = NULL;
    if (!isatty(STDERR_FILENO) || isatty(STDIN_FILENO) || isatty(STDOUT_FILENO))
        return;
    progress.noun = noun;
    progress.done = 0;
    progress.told = seconds();
}

void progress_step(void)
{
    double now;
    if (progress.noun == NULL)
        return;
    progress.done++;
    now = seconds();
    if (now - progress.told < 1)
        return;
    progress.told = now;
    fputc('\r', stderr);
    progress.shown = fprintf(stderr, "%lu %ss done", progress.done, progress.noun);
    fflush(stderr);
}

void progress_wipe(void)
{
    if (progress.shown <= 0)
        return;
    fprintf(stderr, "\r%*s\r", progress.shown, "");
    progress.shown = 0;
}
