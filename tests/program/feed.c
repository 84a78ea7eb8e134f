/*
 * Input for the program, and ways to hand it over:
 *
 *   feed words SEED COUNT N Q ERRORS RARE   words of N symbols: one symbol in all places, and then up to ERRORS others; one word in RARE has a symbol
 *                                           of Q or more (none where RARE is 0). With N 1 and Q 256 these are any bytes.
 *   feed spoil SEED COUNT                   what it reads, with up to COUNT bytes changed
 *   feed pieces SEED                        what it reads, 1 to 7 bytes at a time
 *   feed failing PROGRAM                    runs the program on what it reads; after that the program's reads fail, and its input has no end
 */
#include <fcntl.h>
#include <stdio.h>
#include <stdlib.h>
#include <string.h>
#include <unistd.h>

static unsigned long long state;

/* A number below the bound (splitmix64). */
static unsigned long below(unsigned long bound)
{
    unsigned long long z = state += 0x9e3779b97f4a7c15u;
    z = (z ^ z >> 30) * 0xbf58476d1ce4e5b9u;
    z = (z ^ z >> 27) * 0x94d049bb133111ebu;
    return (unsigned long)((z ^ z >> 31) % bound);
}

static int stop(const char *why)
{
    perror(why);
    return 2;
}

static int words(unsigned long count, unsigned long n, unsigned long q, unsigned long most, unsigned long rare)
{
    unsigned char word[255];
    if (n < 1 || n > sizeof word || q < 2 || q > 256)
        return 2;
    for (; count > 0; count--) {
        unsigned long errors = below(most + 1);
        memset(word, (int)below(q), n);
        for (; errors > 0; errors--)
            word[below(n)] = (unsigned char)below(q);
        if (rare > 0 && below(rare) == 0)
            word[below(n)] = (unsigned char)(q + below(256 - q));
        if (fwrite(word, 1, n, stdout) != n)
            return stop("words");
    }
    return 0;
}

/* What standard input holds, as far as an empty pipe takes it. */
static unsigned char held[65536];
static size_t held_len;

static void hold(void)
{
    held_len = fread(held, 1, sizeof held, stdin);
}

static int spoil(unsigned long count)
{
    hold();
    for (count = 1 + below(count); count > 0 && held_len > 0; count--)
        /* Near the front more often: there are the length and the codebook's first records. */
        held[below(1 + below(held_len))] = (unsigned char)(below(2) == 0 ? below(8) : below(256));
    return fwrite(held, 1, held_len, stdout) == held_len ? 0 : stop("spoil");
}

static int pieces(void)
{
    size_t at = 0;
    hold();
    while (at < held_len) {
        size_t len = 1 + below(7);
        ssize_t written = write(1, held + at, len < held_len - at ? len : held_len - at);
        /* A program that has refused its codebook may have ended. */
        if (written < 0)
            return 0;
        at += (size_t)written;
        usleep(50);
    }
    return 0;
}

/* A pipe that is still open for writing has no end; where it is empty, a read that may not wait fails. */
static int failing(char **program)
{
    int ends[2];
    hold();
    if (pipe(ends) != 0 || write(ends[1], held, held_len) != (ssize_t)held_len || fcntl(ends[0], F_SETFL, O_NONBLOCK) != 0 || dup2(ends[0], 0) != 0)
        return stop("failing");
    execv(program[0], program);
    return stop(program[0]);
}

int main(int count, char **given)
{
    unsigned long number[8] = {0};
    int i;
    if (count > 2 && strcmp(given[1], "failing") == 0)
        return failing(given + 2);
    for (i = 2; i < count && i < 10; i++)
        number[i - 2] = strtoul(given[i], NULL, 10);
    state = number[0];
    if (count == 8 && strcmp(given[1], "words") == 0)
        return words(number[1], number[2], number[3], number[4], number[5]);
    if (count == 4 && strcmp(given[1], "spoil") == 0)
        return spoil(number[1]);
    if (count == 3 && strcmp(given[1], "pieces") == 0)
        return pieces();
    return 2;
}
