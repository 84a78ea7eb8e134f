/*
 * Makes the stored codebooks and the program's stored inputs:
 *
 *     make_files BOOKS STREAM
 *
 * writes BOOKS/NAME.book and STREAM/NAME.in. `examples/run` makes them anew and compares them with the stored ones.
 *
 * a is book A of the scope, faulty_1 to faulty_8 its examples of the refusals 1 to 8, faulty_1_form book A with the byte 3 of the long form, and
 * faulty_8_turned an installer's book, with one word turned.
 *
 * line15, line63 and line255 are geometry codes, the last one of the long form. The places of a word are the powers z^j of a z of GF(2^s), taken as the
 * points other than 0 of the plane (s 4) or the space (s 6, s 8) over GF(4). A dual word marks the points of a line that misses 0. Two points lie on
 * one line only, so the check values at a place share no other place, and an error elsewhere spoils at most one of them. There is a dual word for
 * each class of lines under turning, and the code is the largest that all of them allow.
 */
#include "shiftsum.h"

#include <stdio.h>
#include <string.h>

enum { BODY = 63, LONG_BODY = 255, AT_P = 2, AT_FORM = 3, AT_GENERATOR = 4, AT_D = 69, AT_DUAL_WORD = 71, LINES_MAX = 32 };

struct bytes {
    size_t len;
    uint8_t at[SHIFTSUM_BOOK_MAX + 1024];
};

static void put(struct bytes *to, unsigned byte)
{
    to->at[to->len++] = (uint8_t)byte;
}

/* A body of 63 bytes whose first symbols are digits; fewer digits leave zeros. */
static void put_body(struct bytes *to, const char *digits)
{
    size_t j, count = strlen(digits);
    for (j = 0; j < BODY; j++)
        put(to, j < count ? (unsigned)(digits[j] - '0') : 0);
}

/* A polynomial with coefficients 0 and 1, and a word of such symbols: place j is that of x^j. x^255 - 1 has the most. */
struct polynomial {
    uint8_t at[LONG_BODY + 1];
};

/* The same of a polynomial, in a body of either form. */
static void put_polynomial(struct bytes *to, const struct polynomial *a, unsigned width)
{
    unsigned j;
    for (j = 0; j < width; j++)
        put(to, a->at[j]);
}

static void make_a(struct bytes *book)
{
    book->len = 0;
    put(book, 1), put(book, 3), put(book, 1);
    put(book, 2), put_body(book, "1101");
    put(book, 3), put(book, 3), put(book, 1);
    put(book, 4), put_body(book, "1110100");
}

/* Book A with the fault that the scope gives as the example of a refusal. */
static void make_faulty(struct bytes *book, unsigned number)
{
    make_a(book);
    switch (number) {
    case 1: book->len--; break;
    case 2: book->at[0] = 2; break;
    case 3: book->at[AT_P] = 2; break;
    case 4: book->at[AT_GENERATOR + 1] = 2; break;
    case 5: memcpy(book->at + AT_GENERATOR, "\1\0\1\0", 4); break;
    case 6: book->at[AT_D] = 8; break;
    case 7: memcpy(book->at + AT_DUAL_WORD, "\1\1\0\1\0\0\0", 7); break;
    case 8: put(book, 4), put_body(book, "1110100"); break;
    default: break;
    }
}

/* Book A with the byte 3 of the long form, which no book of 134 bytes has. */
static void make_other_form(struct bytes *book)
{
    make_a(book);
    book->at[AT_FORM] = 5;
}

/* Book A with its dual word and the same turned, which counts every check twice. */
static void make_turned(struct bytes *book)
{
    make_a(book);
    put(book, 4), put_body(book, "1101001");
}

static int degree(const struct polynomial *a)
{
    int d = LONG_BODY;
    while (d >= 0 && a->at[d] == 0)
        d--;
    return d;
}

/* The quotient; a becomes the remainder. */
static struct polynomial divide(struct polynomial *a, const struct polynomial *b)
{
    struct polynomial quotient = {{0}};
    int j, d = degree(b);
    while (degree(a) >= d) {
        int up = degree(a) - d;
        quotient.at[up] = 1;
        for (j = 0; j <= d; j++)
            a->at[up + j] ^= b->at[j];
    }
    return quotient;
}

static struct polynomial greatest_divisor(struct polynomial a, struct polynomial b)
{
    while (degree(&b) >= 0) {
        struct polynomial remainder = a;
        divide(&remainder, &b);
        a = b;
        b = remainder;
    }
    return a;
}

/* x^n - 1. */
static struct polynomial whole(unsigned n)
{
    struct polynomial a = {{0}};
    a.at[0] = 1;
    a.at[n] = 1;
    return a;
}

/* Product of GF(2^s), by the polynomial that the scope gives s, or, for s 8, by one whose root has 255 powers as well. */
static unsigned product(unsigned s, unsigned a, unsigned b)
{
    static const unsigned polynomials[] = {[4] = 19, [6] = 91, [8] = 285};
    unsigned r = 0;
    for (; b != 0; b >>= 1) {
        r ^= b & 1 ? a : 0;
        a = a << 1 ^ (a >> (s - 1) & 1 ? polynomials[s] : 0);
    }
    return r;
}

/* The line through 1 = z^0 in direction z^d, 1 at place j for the point z^j; 0 where it meets 0. */
static int find_line(unsigned s, unsigned n, unsigned d, struct polynomial *line)
{
    unsigned power[LONG_BODY] = {1}, t, j;
    for (j = 1; j < n; j++)
        power[j] = product(s, power[j - 1], 2);
    memset(line, 0, sizeof *line);
    line->at[0] = 1;
    for (t = 0; t < 3; t++) {
        unsigned point = 1 ^ product(s, power[t * (n / 3)], power[d]);
        if (point == 0)
            return 0;
        for (j = 0; power[j] != point; j++)
            continue;
        line->at[j] = 1;
    }
    return 1;
}

static int turn_of(const struct polynomial *a, const struct polynomial *b, unsigned n)
{
    unsigned t, j;
    for (t = 0; t < n; t++) {
        for (j = 0; j < n && a->at[j] == b->at[(j + t) % n]; j++)
            continue;
        if (j == n)
            return 1;
    }
    return 0;
}

/* One line for each class. */
static unsigned find_lines(unsigned s, unsigned n, struct polynomial *lines)
{
    struct polynomial found;
    unsigned count = 0, d, i;
    for (d = 0; d < n; d++) {
        if (!find_line(s, n, d, &found))
            continue;
        for (i = 0; i < count && !turn_of(&lines[i], &found, n); i++)
            continue;
        if (i == count)
            lines[count++] = found;
    }
    return count;
}

static void make_line(struct bytes *book, unsigned s, unsigned p, unsigned most_rounds, unsigned most_places)
{
    struct polynomial lines[LINES_MAX], common, generator;
    unsigned n = (1u << s) - 1, width = s < 7 ? BODY : LONG_BODY, i, count = find_lines(s, n, lines);
    /* A code word's product with every line is zero modulo x^n - 1, so the generator is x^n - 1 without what all lines have in common with it. */
    common = whole(n);
    for (i = 0; i < count; i++)
        common = greatest_divisor(common, lines[i]);
    generator = whole(n);
    generator = divide(&generator, &common);
    book->len = 0;
    put(book, 1), put(book, s), put(book, p);
    put(book, width == BODY ? 2 : 5), put_polynomial(book, &generator, width);
    put(book, 3), put(book, most_rounds), put(book, most_places);
    for (i = 0; i < count; i++)
        put(book, width == BODY ? 4 : 6), put_polynomial(book, &lines[i], width);
}

/* The program's input: the book's length, low byte first, the book, and the words' symbols one after another. */
static void make_stream(struct bytes *stream, const struct bytes *book, const char *symbols)
{
    stream->len = 0;
    put(stream, (unsigned)(book->len & 0xff)), put(stream, (unsigned)(book->len >> 8));
    memcpy(stream->at + stream->len, book->at, book->len);
    stream->len += book->len;
    for (; *symbols != '\0'; symbols++)
        if (*symbols != ' ')
            put(stream, (unsigned)(*symbols - '0'));
}

static int failures;

static void save(const char *folder, const char *name, const char *ending, const struct bytes *bytes)
{
    char path[4096];
    FILE *file = NULL;
    int length = snprintf(path, sizeof path, "%s/%s.%s", folder, name, ending);
    if (length > 0 && (size_t)length < sizeof path)
        file = fopen(path, "wb");
    if (file == NULL || fwrite(bytes->at, 1, bytes->len, file) != bytes->len)
        failures++;
    if (file != NULL && fclose(file) != 0)
        failures++;
}

/* A book is saved only if the library says of it what it should. */
static void save_book(const char *folder, const char *name, const struct bytes *book, unsigned refusal)
{
    unsigned found = SHIFTSUM_REFUSAL(shiftsum_check(book->at, book->len));
    if (found != refusal) {
        printf("%s: refusal %u, not %u\n", name, found, refusal);
        failures++;
        return;
    }
    save(folder, name, "book", book);
}

int main(int argc, char **argv)
{
    static struct bytes book, stream;
    char name[] = "faulty_1";
    unsigned number;
    if (argc != 3)
        return 2;
    make_a(&book);
    save_book(argv[1], "a", &book, 0);
    make_stream(&stream, &book, "1000000 1100000 1101000");
    save(argv[2], "book_a", "in", &stream);
    make_line(&book, 4, 1, 4, 8);
    save_book(argv[1], "line15", &book, 0);
    /* The code word 111010001000000 with 0, 1, 2, 3, 3, 3 places hit, with a symbol that is none, whole again, and cut. */
    make_stream(&stream, &book, "111010001000000 011010001000000 001010001000000 001110001000000 001010001000100 001011001000000 "
                                "211010001000000 111010001000000 11101");
    save(argv[2], "every_kind", "in", &stream);
    make_line(&book, 6, 2, 20, 10);
    save_book(argv[1], "line63", &book, 0);
    make_line(&book, 8, 2, 20, 24);
    save_book(argv[1], "line255", &book, 0);
    for (number = 1; number <= 8; number++) {
        name[7] = (char)('0' + number);
        make_faulty(&book, number);
        save_book(argv[1], name, &book, number);
        if (number == 5) {
            make_stream(&stream, &book, "1000000");
            save(argv[2], "faulty_book", "in", &stream);
        }
    }
    make_other_form(&book);
    save_book(argv[1], "faulty_1_form", &book, 1);
    make_turned(&book);
    save_book(argv[1], "faulty_8_turned", &book, 8);
    return failures == 0 ? 0 : 1;
}
