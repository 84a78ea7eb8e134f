/*
 * Measures the sum of two words apart: the library's, by the probe that exports it, against C by two compilers (sum_ways.c). Every time is the least of
 * many short runs, taken in turns. First all must agree.
 *
 *   sums OUT    writes OUT/sums.txt, OUT/sums.md
 */
#include <stdint.h>
#include <stdio.h>
#include <stdlib.h>
#include <string.h>
#include <time.h>

uint32_t sum_probe(const uint8_t *, size_t, const uint8_t *, size_t, uint8_t *, size_t);

typedef void Sum(const uint8_t *, const uint8_t *, uint8_t *restrict, size_t);
Sum gcc_places, gcc_eights, clang_places, clang_eights;

enum { OURS, WAYS = 5, LONGEST = 255, TURNS = 4000, TIMES = 500 };

static void ours(const uint8_t *a, const uint8_t *b, uint8_t *restrict out, size_t n)
{
    sum_probe(a, n, b, n, out, n);
}

static Sum *const ways[WAYS] = {ours, gcc_places, gcc_eights, clang_places, clang_eights};
static uint8_t a[LONGEST], b[LONGEST], out[LONGEST + 1];

static double nanoseconds(void)
{
    struct timespec t;
    clock_gettime(CLOCK_MONOTONIC, &t);
    return (double)t.tv_sec * 1e9 + (double)t.tv_nsec;
}

static void agree(size_t n)
{
    for (int w = 0; w < WAYS; w++) {
        memset(out, 0xee, sizeof out);
        ways[w](a, b, out, n);
        for (size_t j = 0; j <= n; j++)
            if (out[j] != (j < n ? a[j] ^ b[j] : 0xee)) {
                fprintf(stderr, "sums: n %zu: sums differ\n", n);
                exit(1);
            }
    }
}

/* One run; each sum is of the one before, so that none is begun before that one is done. */
static double run(int way, size_t n)
{
    double start = nanoseconds();
    for (int i = 0; i < TIMES; i++) {
        ways[way](a, b, out, n);
        a[0] = out[n - 1];
    }
    return (nanoseconds() - start) / TIMES;
}

static void measure(size_t n, double *least)
{
    for (int w = 0; w < WAYS; w++)
        least[w] = 1e18;
    for (int turn = 0; turn < TURNS; turn++)
        for (int w = 0; w < WAYS; w++) {
            double t = run(w, n);
            least[w] = t < least[w] ? t : least[w];
        }
}

static FILE *create(const char *folder, const char *name)
{
    char path[512];
    FILE *f;
    snprintf(path, sizeof path, "%s/%s", folder, name);
    f = fopen(path, "w");
    if (!f) {
        fprintf(stderr, "sums: %s cannot be written\n", path);
        exit(1);
    }
    return f;
}

int main(int count, char **given)
{
    static const size_t lengths[] = {3, 7, 15, 31, 63, 127, 255};
    const char *title = "The sum of two words apart, by the probe, and C that writes right into the room, place by place or eight bytes a step (gcc, clang)";
    const char *folder = count == 2 ? given[1] : ".";
    FILE *text = create(folder, "sums.txt"), *markdown = create(folder, "sums.md");
    for (int j = 0; j < LONGEST; j++) {
        a[j] = (uint8_t)(7 * j + 1);
        b[j] = (uint8_t)(13 * j + 5);
    }
    fprintf(text, "\n%s\n%5s %9s %9s %9s %9s %9s\n", title, "n", "ours, ns", "/places", "/eights", "/places", "/eights");
    fprintf(markdown, "\n%s\n\n| n | ours, ns | ours / places, gcc | ours / eights, gcc | ours / places, clang | ours / eights, clang |\n"
            "|---:|---:|---:|---:|---:|---:|\n", title);
    for (size_t i = 0; i < sizeof lengths / sizeof *lengths; i++) {
        double t[WAYS];
        size_t n = lengths[i];
        agree(n);
        measure(n, t);
        fprintf(text, "%5zu %9.1f %9.1f %9.1f %9.1f %9.1f\n", n, t[OURS], t[OURS] / t[1], t[OURS] / t[2], t[OURS] / t[3], t[OURS] / t[4]);
        fprintf(markdown, "| %zu | %.1f | %.1f | %.1f | %.1f | %.1f |\n", n, t[OURS], t[OURS] / t[1], t[OURS] / t[2], t[OURS] / t[3], t[OURS] / t[4]);
    }
    return 0;
}
