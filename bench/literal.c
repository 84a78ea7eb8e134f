/*
 * The scope transcribed: every condition of the codebook, and S0's algorithm 1 with L * n * weight^2 symbol products a round. Nothing is prepared,
 * so this is what the definition costs.
 */
#include "literal.h"

#include <string.h>

enum { AT_G = 4, SHORT = 63, LONG = 255 };

/* Width is the length of a body: a record of kind 2, 4, 5 or 6 has one byte more. */
typedef struct {
    int width, p, q, n, degree, duals;
    const uint8_t *book, *g, *most; /* most: I and D */
} Book;

static uint8_t product(int p, uint8_t a, uint8_t b)
{
    static const uint8_t polynomials[7] = {1, 3, 7, 11, 19, 37, 91};
    unsigned sum = 0;
    for (int i = p - 1; i >= 0; i--) {
        sum <<= 1;
        if (sum >> p & 1)
            sum ^= polynomials[p];
        if (b >> i & 1)
            sum ^= a;
    }
    return (uint8_t)sum;
}

static uint8_t inverse(int p, uint8_t a)
{
    for (uint8_t b = 1; b < 1 << p; b++)
        if (product(p, a, b) == 1)
            return b;
    return 0;
}

static const uint8_t *dual_word(const Book *c, int l)
{
    return c->book + c->width + 7 + (c->width + 1) * l + 1;
}

static int weight(const Book *c, const uint8_t *w)
{
    int count = 0;
    for (int j = 0; j < c->n; j++)
        count += w[j] != 0;
    return count;
}

/* Divides the word, of `length` coefficients, by g; the remainder stands below the degree. */
static void divide(const Book *c, const uint8_t *word, int length, uint8_t *rest)
{
    memcpy(rest, word, (size_t)length);
    for (int i = length - 1; i >= c->degree; i--) {
        uint8_t top = rest[i];
        for (int t = 0; t <= c->degree; t++)
            rest[i - c->degree + t] ^= product(c->p, top, c->g[t]);
    }
}

/* Whether there is no remainder. */
static int divides(const Book *c, const uint8_t *word, int length)
{
    uint8_t rest[LONG + 1];
    divide(c, word, length, rest);
    for (int i = 0; i < c->degree && i < length; i++)
        if (rest[i])
            return 0;
    return 1;
}

static int bad_body(const Book *c, const uint8_t *body)
{
    for (int j = 0; j < c->width; j++)
        if (j < c->n ? body[j] >= c->q : body[j] != 0)
            return 1;
    return 0;
}

static int bad_generator(const Book *c)
{
    uint8_t whole[LONG + 1] = {0};
    whole[0] = whole[c->n] = 1;
    return c->degree < 1 || c->g[c->degree] != 1 || !divides(c, whole, c->n + 1);
}

static int bad_dual_word(const Book *c, const uint8_t *b)
{
    uint8_t sum[LONG] = {0};
    if (b[0] != 1 || weight(c, b) != weight(c, dual_word(c, 0)))
        return 1;
    for (int u = 0; u < c->n; u++)
        for (int t = 0; t <= c->degree; t++)
            sum[(u + t) % c->n] ^= product(c->p, b[u], c->g[t]);
    return weight(c, sum) != 0;
}

/* The product of words: "the sum, over all places u", made anew for every place m. */
static void product_of_words(const Book *c, const uint8_t *a, const uint8_t *b, uint8_t *word)
{
    for (int m = 0; m < c->n; m++) {
        uint8_t sum = 0;
        for (int u = 0; u < c->n; u++)
            sum ^= product(c->p, a[u], b[(m + c->n - u) % c->n]);
        word[m] = sum;
    }
}

/* Whether a is the factor times b turned by t. */
static int is_turned(const Book *c, const uint8_t *a, const uint8_t *b, uint8_t factor, int t)
{
    for (int j = 0; j < c->n; j++)
        if (a[(j + t) % c->n] != product(c->p, factor, b[j]))
            return 0;
    return 1;
}

/* "One is a nonzero symbol times a turn of the other": every factor, every turn. */
static int alike(const Book *c, const uint8_t *a, const uint8_t *b)
{
    for (int factor = 1; factor < c->q; factor++)
        for (int t = 0; t < c->n; t++)
            if (is_turned(c, a, b, (uint8_t)factor, t))
                return 1;
    return 0;
}

/* How many dual words a book of this length has in the form of a width; 0 where the length is not one of the form. */
static int dual_words(size_t len, size_t width)
{
    size_t most = 32, head = width + 7, record = width + 1;
    if (len < head || (len - head) % record != 0 || (len - head) / record > most)
        return 0;
    return (int)((len - head) / record);
}

/* Conditions 1 and 2: byte 3 chooses the form. */
static unsigned form(Book *c, const uint8_t *book, size_t len)
{
    int in_short = dual_words(len, SHORT), in_long = dual_words(len, LONG);
    if (len < 4 || (book[3] == 2 ? !in_short : book[3] == 5 ? !in_long : !in_short && !in_long))
        return 1;
    if (book[3] != 2 && book[3] != 5)
        return 2;
    c->book = book;
    c->width = book[3] == 2 ? SHORT : LONG;
    c->duals = book[3] == 2 ? in_short : in_long;
    if (book[0] != 1 || book[AT_G + c->width] != 3)
        return 2;
    for (int l = 0; l < c->duals; l++)
        if (*(dual_word(c, l) - 1) != (book[3] == 2 ? 4 : 6))
            return 2;
    return 0;
}

/* Conditions 1 to 3, which tell how to read the rest. */
static unsigned shape(Book *c, const uint8_t *book, size_t len)
{
    unsigned number = form(c, book, len);
    if (number)
        return number;
    if (book[1] < (c->width == SHORT ? 2 : 7) || book[1] > (c->width == SHORT ? 6 : 8) || book[2] < 1 || book[2] > 6 || book[1] % book[2] != 0)
        return 3;
    c->g = book + AT_G;
    c->most = c->g + c->width + 1;
    c->p = book[2];
    c->q = 1 << c->p;
    c->n = (1 << book[1]) - 1;
    return 0;
}

static unsigned refusal(Book *c, const uint8_t *book, size_t len)
{
    unsigned number = shape(c, book, len);
    if (number)
        return number;
    for (int l = -1; l < c->duals; l++)
        if (bad_body(c, l < 0 ? c->g : dual_word(c, l)))
            return 4;
    c->degree = c->n - 1;
    while (c->degree > 0 && c->g[c->degree] == 0)
        c->degree--;
    if (bad_generator(c))
        return 5;
    if (c->most[0] < 1 || c->most[0] > 63 || c->most[1] < 1 || c->most[1] > c->n)
        return 6;
    for (int l = 0; l < c->duals; l++)
        if (bad_dual_word(c, dual_word(c, l)))
            return 7;
    for (int l = 0; l < c->duals; l++)
        for (int k = 0; k < l; k++)
            if (alike(c, dual_word(c, l), dual_word(c, k)))
                return 8;
    return 0;
}

uint32_t literal_check(const uint8_t *book, size_t book_len)
{
    Book c;
    unsigned number = refusal(&c, book, book_len);
    return number ? number : 256u * (unsigned)c.duals;
}

/* "The sum runs over the places u where b is not zero", made anew for every choice of b, h and j. */
static void count(const Book *c, const uint8_t *word, uint16_t *m)
{
    memset(m, 0, sizeof(uint16_t) * (size_t)(c->q * c->n));
    for (int l = 0; l < c->duals; l++) {
        const uint8_t *b = dual_word(c, l);
        for (int h = 0; h < c->n; h++) {
            if (b[h] == 0)
                continue;
            uint8_t divided = inverse(c->p, b[h]);
            for (int j = 0; j < c->n; j++) {
                uint8_t sum = 0;
                for (int u = 0; u < c->n; u++)
                    if (b[u] != 0)
                        sum ^= product(c->p, b[u], word[(j + h + c->n - u) % c->n]);
                m[product(c->p, sum, divided) * c->n + j]++;
            }
        }
    }
}

/* The symbol to subtract at place j, 0 outside the update set. */
static uint8_t correction(const Book *c, const uint16_t *m, const uint16_t *peak, int j)
{
    int low = 0, high = 0, having = 0, most = c->most[1];
    uint8_t symbol = 0;
    for (int o = 0; o < c->n; o++) {
        low += m[o] <= m[j];
        high += peak[o] >= peak[j];
    }
    for (int i = 1; i < c->q; i++)
        if (m[i * c->n + j] == peak[j]) {
            having++;
            symbol = (uint8_t)i;
        }
    return low <= most && high <= most && peak[j] >= 1 && having == 1 ? symbol : 0;
}

/* Subtracts the update set from the word; says whether it was not empty. */
static int update(const Book *c, const uint16_t *m, uint8_t *word)
{
    uint16_t peak[LONG] = {0};
    int any = 0;
    for (int i = 1; i < c->q; i++)
        for (int j = 0; j < c->n; j++)
            if (m[i * c->n + j] > peak[j])
                peak[j] = m[i * c->n + j];
    for (int j = 0; j < c->n; j++) {
        uint8_t e = correction(c, m, peak, j);
        word[j] ^= e;
        any |= e;
    }
    return any != 0;
}

static uint32_t packed(char kind, unsigned rounds, unsigned changed)
{
    return changed << 8 | rounds << 16 | (uint32_t)kind << 24;
}

static uint32_t rounds(const Book *c, const uint8_t *received, uint8_t *answer)
{
    uint16_t m[16 * 255]; /* q * n at most */
    uint8_t word[LONG];
    unsigned changed = 0, most = c->most[0];
    size_t n = (size_t)c->n;
    memcpy(answer, received, n);
    if (divides(c, received, c->n))
        return packed('C', 0, 0);
    memcpy(word, received, n);
    for (unsigned round = 1; round <= most; round++) {
        count(c, word, m);
        if (!update(c, m, word))
            return packed('S', round, 0);
        if (divides(c, word, c->n)) {
            for (size_t j = 0; j < n; j++)
                changed += word[j] != received[j];
            memcpy(answer, word, n);
            return packed('M', round, changed);
        }
    }
    return packed('X', most, 0);
}

uint32_t literal_decode(const uint8_t *book, size_t book_len, const uint8_t *received, size_t received_len, uint8_t *answer, size_t answer_len)
{
    Book c;
    unsigned number = refusal(&c, book, book_len);
    if (number)
        return number;
    if (received_len != (size_t)c.n)
        return 9;
    if (answer_len != (size_t)c.n)
        return 10;
    for (int j = 0; j < c.n; j++)
        if (received[j] >= c.q)
            return 11;
    return rounds(&c, received, answer);
}

/* Places of the message that are not given are zero. */
uint32_t literal_code(const uint8_t *book, size_t book_len, const uint8_t *message, size_t message_len, uint8_t *word, size_t word_len)
{
    Book c;
    uint8_t whole[LONG] = {0};
    unsigned number = refusal(&c, book, book_len);
    if (number)
        return number;
    if (message_len < 1 || message_len > (size_t)(c.n - c.degree))
        return 9;
    if (word_len != (size_t)c.n)
        return 10;
    for (size_t u = 0; u < message_len; u++)
        if (message[u] >= c.q)
            return 11;
    memcpy(whole, message, message_len);
    product_of_words(&c, whole, c.g, word);
    return 0;
}

uint32_t literal_remainder(const uint8_t *book, size_t book_len, const uint8_t *word, size_t word_len, uint8_t *remainder, size_t remainder_len)
{
    Book c;
    uint8_t rest[LONG];
    unsigned number = refusal(&c, book, book_len);
    if (number)
        return number;
    if (word_len != (size_t)c.n)
        return 9;
    if (remainder_len != (size_t)c.degree)
        return 10;
    for (int j = 0; j < c.n; j++)
        if (word[j] >= c.q)
            return 11;
    divide(&c, word, c.n, rest);
    memcpy(remainder, rest, remainder_len);
    return 0;
}
