/*
 * The program decode_stream over fast.c, to compare with: the book is checked once, input and output go in blocks. The scope, "Program", tells what
 * is read and printed.
 */
#include "fast.h"

#include <stdio.h>
#include <stdlib.h>
#include <string.h>
#include <unistd.h>

enum { BLOCK = 1 << 16, LONGEST_BOOK = 8454, MOST_WORDS = 1000000, LONGEST_WORD = 255, LONGEST_LINE = 10 + 2 * LONGEST_WORD };

static uint8_t in[BLOCK];
static size_t in_at, in_end;
static char out[BLOCK];
static size_t out_end;

/* Reads up to `wanted` bytes; fewer only at the end of input, a failed read being one. */
static size_t take(uint8_t *to, size_t wanted)
{
    size_t got = 0;
    while (got < wanted) {
        if (in_at == in_end) {
            ssize_t r = read(0, in, BLOCK);
            if (r <= 0)
                return got;
            in_at = 0;
            in_end = (size_t)r;
        }
        size_t count = in_end - in_at < wanted - got ? in_end - in_at : wanted - got;
        memcpy(to + got, in + in_at, count);
        in_at += count;
        got += count;
    }
    return got;
}

static void flush(void)
{
    size_t done = 0;
    while (done < out_end) {
        ssize_t r = write(1, out + done, out_end - done);
        if (r <= 0)
            exit(0);
        done += (size_t)r;
    }
    out_end = 0;
}

static void number(unsigned x)
{
    if (x >= 100)
        out[out_end++] = (char)('0' + x / 100);
    if (x >= 10)
        out[out_end++] = (char)('0' + x / 10 % 10);
    out[out_end++] = (char)('0' + x % 10);
}

static void refusal(unsigned x)
{
    out[out_end++] = 'R';
    out[out_end++] = ' ';
    number(x);
    out[out_end++] = '\n';
}

static void line(uint32_t result, const uint8_t *answer, size_t n)
{
    static const char digits[] = "0123456789abcdef";
    if (result & 255) {
        refusal(result & 255);
        return;
    }
    out[out_end++] = (char)(result >> 24);
    out[out_end++] = ' ';
    number(result >> 16 & 255);
    out[out_end++] = ' ';
    number(result >> 8 & 255);
    out[out_end++] = ' ';
    for (size_t j = 0; j < n; j++) {
        out[out_end++] = digits[answer[j] >> 4];
        out[out_end++] = digits[answer[j] & 15];
    }
    out[out_end++] = '\n';
}

/* The book's bytes, or 0. */
static size_t take_book(uint8_t *book)
{
    uint8_t head[2];
    size_t length;
    if (take(head, 2) < 2)
        return 0;
    length = head[0] + 256u * head[1];
    return length <= LONGEST_BOOK && take(book, length) == length ? length : 0;
}

int main(void)
{
    static uint8_t book[LONGEST_BOOK], word[LONGEST_WORD], answer[LONGEST_WORD];
    void *room = malloc(FAST(room)());
    size_t length = take_book(book), n, got;
    uint32_t opened = length ? FAST(open)(room, book, length) : 1;
    if (opened & 255) {
        refusal(opened & 255);
        flush();
        return 0;
    }
    n = ((size_t)1 << book[1]) - 1;
    for (long i = 0; i < MOST_WORDS && (got = take(word, n)) != 0; i++) {
        if (out_end + LONGEST_LINE > BLOCK)
            flush();
        line(got < n ? 9 : FAST(next)(room, word, answer), answer, n);
    }
    flush();
    return 0;
}
