/*
 * The functions of the library on any bytes, against the second implementation: a target for libFuzzer.
 *
 * An input makes one codebook, a message, a received word, a burst of words and the sizes of the outputs, and all functions are called with them;
 * decode again with a few errors more where the word was not refused, and code, where the input asks for it, with messages of every length from 0 to
 * k + 1. So that most calls get past the codebook's refusals, an input mostly names an accepted codebook of a shelf and a few edits; it can give all
 * bytes as well. A burst is held to decodes of its words, which are unmixed here; the same words are taken as a game.
 *
 * The archive is not made for the sanitizer, which therefore sees nothing of what happens in it. So every buffer lies in pages of its own between
 * pages that may not be touched, at one end of them, and the rest of the pages is filled: reading or writing beyond that end stops the program, and
 * what is written beyond the other shows. What a call must not write may not be written while it runs, the output of a refused call and the messages
 * of a game that is Held too.
 *
 * With FAULTS defined the library is made wrong in the way that the environment variable FAULT names, to see that the comparison finds it.
 */
#include "shiftsum.h"

#include <stdio.h>
#include <stdlib.h>
#include <string.h>
#include <sys/mman.h>
#include <unistd.h>

/* The second implementation. */
uint32_t reference_check(const uint8_t *book, size_t book_len);
uint32_t reference_code(const uint8_t *book, size_t book_len, const uint8_t *message, size_t message_len, uint8_t *word, size_t word_len);
uint32_t reference_read(const uint8_t *book, size_t book_len, const uint8_t *word, size_t word_len, uint8_t *message, size_t message_len);
uint32_t reference_remainder(const uint8_t *book, size_t book_len, const uint8_t *word, size_t word_len, uint8_t *remainder, size_t remainder_len);
uint32_t reference_decode(const uint8_t *book, size_t book_len, const uint8_t *received, size_t received_len, uint8_t *answer, size_t answer_len);
uint32_t reference_game(const uint8_t *book, size_t book_len, uint32_t words, const uint8_t *received, size_t received_len, uint8_t *messages,
                        size_t messages_len);
size_t reference_shelf(size_t number, uint8_t *book);

enum { MOST_BOOK = 9000, LARGEST = SHIFTSUM_WORD_MAX, MOST_RECORD = LARGEST + 1, MOST_SHELF = 256, ROOM = 12288, SEEDS_EACH = 13 };

/* Where the parts of a codebook lie: those that no form moves, and those that lie behind the generator. */
enum { AT_S = 1, AT_P = 2, AT_FORM = 3, AT_G = 4 };

static const struct form {
    uint8_t generator, dual_word; /* kinds */
    unsigned least_s, most_s;
    size_t record; /* of a dual word */
    size_t i, d, records;
} forms[] = {{2, 4, 2, 6, 64, 68, 69, 70}, {5, 6, 7, 8, 256, 260, 261, 262}};

enum { IN_SHORT, IN_LONG, FORMS };

/* A round adds so many places at a step, and the last ones singly. */
enum { EIGHT = 8, PACKED = 0, SINGLE, SUMS };

/* A decode that takes more products of symbols than this is left out, and of a burst so many words are damaged that it takes no more: the second
 * implementation is slow. */
enum { MOST_PRODUCTS = 400000 };

/* A burst has so many words at most; with more, up to so many, it is made and must be refused. */
enum { MOST_WORDS = SHIFTSUM_BURST_MAX, WORDS_MADE = 2 * MOST_WORDS, RECORD = sizeof(struct shiftsum_record) };

struct bytes {
    uint8_t at[MOST_BOOK];
    size_t len;
};

static struct bytes shelf[MOST_SHELF];
static size_t books;

/* The form that byte 3 chooses, and the short one where it chooses none. */
static int which_form(const struct bytes *book)
{
    return book->len > AT_FORM && book->at[AT_FORM] == forms[IN_LONG].generator ? IN_LONG : IN_SHORT;
}

static const struct form *form_of(const struct bytes *book)
{
    return &forms[which_form(book)];
}

/* Whether a codebook of the form can have so many bytes. */
static int fits(const struct form *form, size_t len)
{
    return len > form->records && (len - form->records) % form->record == 0 && (len - form->records) / form->record <= 32;
}

/* --- The input, read from its front; zeros follow its end. --- */

struct input {
    const uint8_t *at;
    size_t left;
    uint32_t drawn;
};

static uint8_t next(struct input *input)
{
    if (input->left == 0)
        return 0;
    input->left--;
    return *input->at++;
}

static size_t next_two(struct input *input)
{
    size_t low = next(input);
    return low + 256 * (size_t)next(input);
}

/* Bytes that follow from a number in the input, so that a short input can make a word of many different symbols. */
static uint8_t draw(struct input *input)
{
    input->drawn = input->drawn * 1664525u + 1013904223u;
    return (uint8_t)(input->drawn >> 24);
}

/* From the input while it lasts. */
static uint8_t any(struct input *input)
{
    return input->left > 0 ? next(input) : draw(input);
}

/* --- What a codebook says of the sizes, whether it is accepted or not. --- */

struct shape {
    size_t n, k;
    unsigned q, p;
};

static struct shape shape_of(const struct bytes *book)
{
    const struct form *form = form_of(book);
    struct shape shape = {7, 4, 2, 1};
    size_t place, degree = 0;
    unsigned s = book->at[AT_S], p = book->at[AT_P];
    if (book->len < form->records || s < form->least_s || s > form->most_s || p < 1 || p > 6)
        return shape;
    shape.n = ((size_t)1 << s) - 1;
    shape.q = 1u << p;
    shape.p = p;
    for (place = 0; place < shape.n; place++)
        if (book->at[AT_G + place] != 0)
            degree = place;
    shape.k = shape.n - degree;
    return shape;
}

static unsigned long products(const struct bytes *book, struct shape shape)
{
    const struct form *form = form_of(book);
    unsigned long count = 0, weight = 0;
    size_t place;
    if (book->len < form->records + form->record)
        return 0;
    count = (book->len - form->records) / form->record;
    for (place = 0; place < shape.n; place++)
        weight += book->at[form->records + 1 + place] != 0;
    return count * weight * weight * shape.n * (book->at[form->i] > 63 ? 0 : book->at[form->i]);
}

/* --- The codebook of an input. --- */

static uint8_t *record(struct bytes *book, unsigned number)
{
    const struct form *form = form_of(book);
    size_t count = book->len < form->records + form->record ? 0 : (book->len - form->records) / form->record;
    return count == 0 ? NULL : book->at + form->records + form->record * (number % count);
}

static void append(struct bytes *book, const uint8_t *from, size_t len)
{
    if (len > MOST_BOOK - book->len)
        len = MOST_BOOK - book->len;
    memmove(book->at + book->len, from, len);
    book->len += len;
}

/* --- Dual words that are alike. --- */

static uint8_t product(unsigned p, unsigned a, unsigned b)
{
    static const unsigned polynomials[] = {0, 0, 7, 11, 19, 37, 91};
    const unsigned q = 1u << p;
    unsigned r = 0;
    a %= q;
    for (b %= q; b > 0; b >>= 1) {
        r ^= b & 1 ? a : 0;
        a <<= 1;
        a ^= a >= q ? polynomials[p] : 0;
    }
    return (uint8_t)r;
}

/* 0 for a symbol that has none. */
static uint8_t inverse(unsigned p, unsigned a)
{
    unsigned b = (1u << p) - 1;
    while (b > 0 && product(p, a, b) != 1)
        b--;
    return (uint8_t)b;
}

enum { EQUAL, TURNED, TURNED_AND_SCALED, UNLIKE };

/* The fewest of turning and scaling that make b of a, a word with 1 at place 0. */
static int likeness(const uint8_t *a, const uint8_t *b, struct shape shape)
{
    int best = UNLIKE, way;
    size_t by, place;
    for (by = 0; by < shape.n; by++) {
        const uint8_t c = inverse(shape.p, b[by]);
        for (place = 0; place < shape.n && c != 0 && a[place] == product(shape.p, c, b[(place + by) % shape.n]); place++)
            continue;
        way = place < shape.n ? UNLIKE : c != 1 ? TURNED_AND_SCALED : by != 0 ? TURNED : EQUAL;
        best = way < best ? way : best;
    }
    return best;
}

/* The fewest that make one dual word of another; no dual word is looked at that is not 1 at place 0. */
static int copied(const struct bytes *book)
{
    const struct form *form = form_of(book);
    const struct shape shape = shape_of(book);
    int best = UNLIKE, way;
    const uint8_t *one, *other, *first = book->at + form->records + 1;
    for (one = first; one < book->at + book->len; one += form->record)
        for (other = first; other < one; other += form->record) {
            way = *one == 1 ? likeness(one, other, shape) : UNLIKE;
            best = way < best ? way : best;
        }
    return best;
}

/* A dual word turned, so that a nonzero symbol comes to place 0, or not turned; multiplied, so that 1 comes to place 0, or by any symbol, or not. It
 * is added, or comes in the place of any dual word, which may be the same one. */
static void copy(struct bytes *book, uint8_t *one, size_t from, unsigned how)
{
    const struct shape shape = shape_of(book);
    const size_t record_len = form_of(book)->record;
    uint8_t made[MOST_RECORD];
    size_t place, by = from % shape.n;
    unsigned factor = 1;
    memcpy(made, one, record_len);
    while (by < 2 * shape.n && one[1 + by % shape.n] == 0)
        by++;
    if (how / 2 % 4 == 1)
        by = 0, factor = 1 + (unsigned)from % (shape.q - 1);
    else if (how / 2 % 4 > 1)
        factor = inverse(shape.p, one[1 + by % shape.n]);
    for (place = 0; place < shape.n; place++)
        made[1 + place] = product(shape.p, factor, one[1 + (place + by) % shape.n]);
    if (how % 2 == 0)
        append(book, made, record_len);
    else
        memcpy(record(book, how / 8), made, record_len);
}

/* What the two forms bring: the byte 3 of the other form, or of neither, its length, its kind, its s. And faults where the form has its parts: any p,
 * a place from n on, I or D too large, a generator and a dual word that are none. */
enum { SORTS_OF_FORM = 10 };
static void change_form(struct bytes *book, size_t from, unsigned how)
{
    static const uint8_t zeros[MOST_BOOK];
    const int own = which_form(book);
    const struct form *form = &forms[own], *other = &forms[1 - own];
    const size_t len = other->records + other->record * (1 + from % 32), n = shape_of(book).n;
    uint8_t *kind = record(book, (unsigned)from), *body = kind == NULL || from % 2 == 0 ? book->at + AT_G : kind + 1;
    switch (how % SORTS_OF_FORM) {
    case 0:
        book->at[AT_FORM] = other->generator;
        break;
    case 1:
        book->at[AT_FORM] = (uint8_t)(from % 2 == 0 ? form->dual_word : from / 2);
        break;
    case 2:
        if (len > book->len)
            append(book, zeros, len - book->len);
        book->len = len;
        break;
    case 3:
        if (kind != NULL)
            *kind = other->dual_word;
        break;
    case 4:
        book->at[AT_S] = (uint8_t)(other->least_s + from % (other->most_s - other->least_s + 1));
        break;
    case 5:
        book->at[AT_P] = (uint8_t)(how / SORTS_OF_FORM % 10);
        break;
    case 6:
        if (n + 1 < form->record)
            body[n + from / 2 % (form->record - 1 - n)] = 1;
        break;
    case 7:
        if (book->len > form->d)
            book->at[from % 2 == 0 ? form->i : form->d] = (uint8_t)(from % 3 == 0 ? 0 : n + 1);
        break;
    case 8:
        book->at[AT_G] ^= 1;
        break;
    default:
        if (kind != NULL)
            kind[1] ^= 1;
    }
}

static void edit(struct bytes *book, struct input *input)
{
    static const uint8_t zeros[256];
    static const uint8_t values[] = {0, 1, 2, 3, 4, 5, 6, 7, 8, 63, 64, 127, 128, 255};
    const struct form *form = form_of(book);
    const size_t marked[] = {0, AT_S, AT_P, AT_FORM, AT_G, AT_G + 1, form->i - 1, form->i, form->d, form->records, form->records + 1};
    const size_t marks = sizeof marked / sizeof marked[0];
    const unsigned sort = next(input) % 12;
    const size_t at = next_two(input);
    const uint8_t value = next(input);
    struct shape shape = shape_of(book);
    uint8_t *one = record(book, (unsigned)(at & 255)), *other = record(book, (unsigned)(at >> 8));
    uint8_t held[MOST_RECORD];
    switch (sort) {
    case 0:
        if (book->len > 0)
            book->at[at % book->len] = value;
        break;
    case 1:
        if (book->len > 0)
            book->at[at % book->len] ^= values[value % sizeof values];
        break;
    case 2:
        if (book->len > marked[at % marks])
            book->at[marked[at % marks]] = values[value % sizeof values];
        break;
    case 3:
        if (value % 2 == 0)
            book->len = at % (book->len + 1);
        else
            append(book, zeros, at % sizeof zeros);
        break;
    case 4:
        if (book->len > form->records + form->record * (size_t)(value % 33))
            book->len = form->records + form->record * (size_t)(value % 33);
        break;
    case 5: /* other I and D */
        if (book->len > form->d) {
            book->at[form->i] = (uint8_t)(1 + value % (at & 1 ? 63 : 3));
            book->at[form->d] = (uint8_t)(1 + (at >> 8) % shape.n);
        }
        break;
    case 6: /* a dual word added once more */
        if (one != NULL)
            append(book, one, form->record);
        break;
    case 7: /* a dual word in the place of another */
        if (one != NULL)
            memmove(other, one, form->record);
        break;
    case 8: /* two dual words exchanged */
        if (one != NULL) {
            memcpy(held, one, form->record);
            memmove(one, other, form->record);
            memcpy(other, held, form->record);
        }
        break;
    case 9: /* a copy of a dual word */
        if (one != NULL)
            copy(book, one, at >> 8, value);
        break;
    case 10: /* a dual word of another codebook */
        append(book, record(&shelf[at % books], value), form_of(&shelf[at % books])->record);
        break;
    default: /* something of the other form */
        change_form(book, at, value);
    }
}

/* The first byte of an input that has the codebook's bytes. Any other: one of the shelf. */
enum { WHOLE = 255 };

static void make_book(struct bytes *book, struct input *input)
{
    unsigned edits;
    if (next(input) == WHOLE) {
        size_t place;
        book->len = next_two(input) % (MOST_BOOK + 1);
        for (place = 0; place < book->len; place++)
            book->at[place] = next(input);
    } else {
        *book = shelf[next(input) % books];
    }
    for (edits = next(input) % 6; edits > 0; edits--)
        edit(book, input);
}

/* --- Message, word and sizes of an input. --- */

/* The byte that asks for a message of every length. */
enum { EVERY = 1 };

/* Mostly the exact size, now and then the other one. */
static size_t size_or(size_t exact, size_t other, struct input *input)
{
    const uint8_t choice = next(input);
    switch (choice % 16) {
    case 12:
        return exact == 0 ? 0 : exact - 1;
    case 13:
        return exact + 1;
    case 14:
        return choice / 16 * 10;
    case 15:
        return choice / 16 % 2 == 0 ? 0 : other;
    default:
        return exact;
    }
}

static size_t size(size_t exact, struct input *input)
{
    return size_or(exact, 2 * exact, input);
}

/* How many symbols are coded: mostly k, often any number to k + 1, now and then more. */
static size_t message_size(size_t k, struct input *input)
{
    const size_t choice = next(input);
    return choice < 176 ? k : choice < 192 ? k + 2 + (choice - 176) * 8 : (choice - 192) * (k + 2) / 64;
}

/* Makes the bytes as many as the size says. */
static void resize(struct bytes *bytes, size_t len, struct input *input)
{
    while (bytes->len < len)
        bytes->at[bytes->len++] = any(input);
    bytes->len = len;
}

/* Symbols: mostly below q, drawn, or from the input. */
static void make_symbols(struct bytes *symbols, size_t len, unsigned q, unsigned sort, struct input *input)
{
    size_t place;
    symbols->len = len;
    for (place = 0; place < len; place++) {
        const uint8_t byte = sort % 2 == 0 ? draw(input) : any(input);
        symbols->at[place] = (uint8_t)(sort / 2 % 8 == 7 ? byte : byte % q);
    }
    if (sort / 2 % 8 == 6 && len > 0)
        symbols->at[any(input) % len] = (uint8_t)(q + draw(input) % (256 - q));
}

/* Mostly a code word with some errors, then symbols of any sort. */
static void make_word(struct bytes *word, const struct bytes *book, struct shape shape, const struct bytes *message, unsigned choice,
                      struct input *input)
{
    unsigned errors = choice / 8 % 8;
    word->len = shape.n;
    if (choice % 8 >= 6 || reference_code(book->at, book->len, message->at, message->len, word->at, word->len) != 0)
        make_symbols(word, shape.n, shape.q, choice / 8, input);
    else
        for (; errors > 0; errors--) {
            const uint8_t place = any(input);
            word->at[place % shape.n] ^= (uint8_t)(1 + any(input) % (shape.q - 1));
        }
    if (choice / 64 == 3)
        word->at[any(input) % shape.n] |= (uint8_t)shape.q;
}

/* --- A burst of an input. --- */

/* Mostly 1 to 16; else 0, up to 32, or a number with 1 to 16 in its lowest byte, or in its two lowest. */
static uint32_t burst_words(struct input *input)
{
    const uint8_t choice = next(input), high = next(input);
    const uint32_t words = 1 + choice % MOST_WORDS;
    switch (choice / 16) {
    case 11:
        return MOST_WORDS;
    case 12:
        return 0;
    case 13:
        return MOST_WORDS + words;
    case 14:
        return words + 256 * (1 + (uint32_t)high);
    case 15:
        return words + 0x01010000u * (high | 1);
    default:
        return words;
    }
}

/* How many words are made for an M. */
static size_t words_made(uint32_t words)
{
    return words <= WORDS_MADE ? words : 1 + (words - 1) % MOST_WORDS;
}

/* Mostly code words, mixed, some of them damaged, half of the time by one error at most, so that there are Whole games, and now and then one symbol
 * of q or more; then symbols of any sort. */
static void make_burst(struct bytes *mixed, const struct bytes *book, struct shape shape, size_t words, struct input *input)
{
    static struct bytes message, word;
    const unsigned long damaged = MOST_PRODUCTS / (1 + products(book, shape));
    const size_t first = draw(input);
    const unsigned sort = any(input);
    size_t m, place;
    mixed->len = shape.n * words;
    if (sort % 8 == 7 && words <= damaged) {
        make_symbols(mixed, mixed->len, shape.q, sort / 8, input);
        return;
    }
    for (m = 0; m < words; m++) {
        const unsigned byte = any(input), choice = sort % 8 > 3 ? byte % 2 * 8 : byte % 96; /* no symbol of q or more */
        make_symbols(&message, shape.k, shape.q, 0, input);
        make_word(&word, book, shape, &message, (m + first) % words < damaged ? choice : 0, input);
        for (place = 0; place < shape.n; place++)
            mixed->at[place * words + m] = word.at[place];
    }
    place = draw(input);
    place = 256 * place + draw(input);
    if (sort % 8 == 6 && words > 0)
        mixed->at[place % mixed->len] |= (uint8_t)shape.q;
}

/* --- Buffers between pages that may not be touched. --- */

struct area {
    uint8_t *pages;       /* ROOM bytes */
    uint8_t image[ROOM];  /* what they are to hold after the call */
    uint8_t *buffer;
    size_t len;
};

enum { INPUTS = 2, OUTPUTS = 2 };

static struct area book_area, input_area[INPUTS], output_area[OUTPUTS];

static void stop(const char *why)
{
    perror(why);
    exit(2);
}

static void make_area(struct area *area)
{
    const size_t beside = 4096;
    uint8_t *all = mmap(NULL, beside + ROOM + beside, PROT_NONE, MAP_PRIVATE | MAP_ANONYMOUS, -1, 0);
    if (all == MAP_FAILED || sysconf(_SC_PAGESIZE) != (long)beside)
        stop("pages");
    area->pages = all + beside;
}

static void allow(struct area *area, int what)
{
    if (mprotect(area->pages, ROOM, what) != 0)
        stop("mprotect");
}

/* Lays bytes at the start or at the end of the area's pages; no symbol is as large as what fills the rest. */
static void lay(struct area *area, const uint8_t *bytes, size_t len, int at_end)
{
    allow(area, PROT_READ | PROT_WRITE);
    memset(area->image, 0xa5, ROOM);
    memcpy(area->image + (at_end ? ROOM - len : 0), bytes, len);
    memcpy(area->pages, area->image, ROOM);
    area->buffer = area->pages + (at_end ? ROOM - len : 0);
    area->len = len;
}

/* --- One call on both sides. --- */

/* What a call is given: the codebook, its number, such as M, its inputs, and what each output holds before it. */
struct call {
    const struct bytes *book;
    uint32_t number;
    const struct bytes *input[INPUTS], *held[OUTPUTS];
};

/* The buffers of a call on one side, lengths in bytes. */
struct side {
    const uint8_t *book;
    size_t book_len;
    uint32_t number;
    const uint8_t *input[INPUTS];
    size_t input_len[INPUTS];
    uint8_t *output[OUTPUTS];
    size_t output_len[OUTPUTS];
};

/* Every function of both sides in one form. */
typedef uint32_t (*adapter)(const struct side *c);

#define ONE_BY_ONE(name, called) \
    static uint32_t name(const struct side *c) \
    { \
        return called(c->book, c->book_len, c->input[0], c->input_len[0], c->output[0], c->output_len[0]); \
    }

ONE_BY_ONE(library_code, shiftsum_code)
ONE_BY_ONE(expected_code, reference_code)
ONE_BY_ONE(library_read, shiftsum_read)
ONE_BY_ONE(expected_read, reference_read)
ONE_BY_ONE(library_remainder, shiftsum_remainder)
ONE_BY_ONE(expected_remainder, reference_remainder)
ONE_BY_ONE(library_decode, shiftsum_decode)
ONE_BY_ONE(expected_decode, reference_decode)

static uint32_t library_check(const struct side *c)
{
    return shiftsum_check(c->book, c->book_len);
}

static uint32_t expected_check(const struct side *c)
{
    return reference_check(c->book, c->book_len);
}

/* What the result of a decode says. */
static void put_record(struct shiftsum_record *to, uint32_t result)
{
    to->kind = (uint8_t)SHIFTSUM_KIND(result);
    to->rounds = (uint8_t)SHIFTSUM_ROUNDS(result);
    to->changed = (uint8_t)SHIFTSUM_CHANGED(result);
}

static uint32_t library_burst(const struct side *c)
{
    struct shiftsum_record *list = (struct shiftsum_record *)c->output[1];
    return shiftsum_burst(c->book, c->book_len, c->number, c->input[0], c->input_len[0], c->output[0], c->output_len[0], list,
                          c->output_len[1] / RECORD);
}

/* By what the second implementation says of the codebook and of each word. */
static uint32_t expected_burst(const struct side *c)
{
    struct shiftsum_record *list = (struct shiftsum_record *)c->output[1];
    const uint32_t checked = reference_check(c->book, c->book_len), words = c->number;
    uint8_t word[LARGEST];
    size_t n, m, place;
    if (SHIFTSUM_REFUSAL(checked) != 0)
        return checked;
    if (words < 1 || words > MOST_WORDS)
        return 14;
    n = ((size_t)1 << c->book[AT_S]) - 1;
    if (c->input_len[0] != n * words)
        return 9;
    if (c->output_len[0] != n * words || c->output_len[1] != RECORD * words)
        return 10;
    for (place = 0; place < c->input_len[0]; place++)
        if (c->input[0][place] >> c->book[AT_P] != 0)
            return 11;
    for (m = 0; m < words; m++) {
        for (place = 0; place < n; place++)
            word[place] = c->input[0][place * words + m];
        put_record(&list[m], reference_decode(c->book, c->book_len, word, n, c->output[0] + m * n, n));
    }
    return 0;
}

static uint32_t library_game(const struct side *c)
{
    return shiftsum_game(c->book, c->book_len, c->number, c->input[0], c->input_len[0], c->output[0], c->output_len[0]);
}

static uint32_t expected_game(const struct side *c)
{
    return reference_game(c->book, c->book_len, c->number, c->input[0], c->input_len[0], c->output[0], c->output_len[0]);
}

/* What a buffer has: nothing where the function has no such buffer, a message, a word, a remainder, the words of a burst, their messages, their
 * records. An input of one of these is made once for all functions that take it. */
enum buffer { NOTHING, MESSAGE, WORD, REST, WORDS, MESSAGES, RECORDS, BUFFERS };

/* What a function's number is. */
enum number { NO_NUMBER, COUNT_OF_WORDS, NUMBERS };

/* A row for each function: its numbers of refusal from 1 to the last, and another; the kinds that it answers with, and the one that leaves the
 * outputs as they were. */
enum { CHECK, CODE, READ, REMAINDER, DECODE, BURST, GAME, FUNCTIONS };

static const struct function {
    const char *name;
    adapter library, reference;
    enum number number;
    enum buffer input[INPUTS], output[OUTPUTS];
    unsigned last_refusal, other_refusal;
    const char *kinds;
    char held;
} functions[FUNCTIONS] = {
    {"check", library_check, expected_check, NO_NUMBER, {NOTHING}, {NOTHING}, 8, 0, "", 0},
    {"code", library_code, expected_code, NO_NUMBER, {MESSAGE}, {WORD}, 11, 0, "", 0},
    {"read", library_read, expected_read, NO_NUMBER, {WORD}, {MESSAGE}, 12, 0, "", 0},
    {"remainder", library_remainder, expected_remainder, NO_NUMBER, {WORD}, {REST}, 11, 0, "", 0},
    {"decode", library_decode, expected_decode, NO_NUMBER, {WORD}, {WORD}, 11, 0, "CMSX", 0},
    {"burst", library_burst, expected_burst, COUNT_OF_WORDS, {WORDS}, {WORDS, RECORDS}, 11, 14, "CMSX", 0},
    {"game", library_game, expected_game, COUNT_OF_WORDS, {WORDS}, {MESSAGES}, 11, 14, "WH", SHIFTSUM_HELD},
};

/* The bytes of a buffer, and a size that it may be mistaken for. */
static size_t exact_size(enum buffer buffer, struct shape shape, size_t words)
{
    const size_t n = shape.n, k = shape.k, sizes[BUFFERS] = {0, k, n, n - k, n * words, k * words, RECORD * words};
    return sizes[buffer];
}

static size_t other_size(enum buffer buffer, struct shape shape, size_t words)
{
    return buffer == MESSAGES ? shape.n * words : 2 * exact_size(buffer, shape, words);
}

static int has_input(int which, int i)
{
    return i < INPUTS && functions[which].input[i] != NOTHING;
}

static int has_output(int which, int i)
{
    return i < OUTPUTS && functions[which].output[i] != NOTHING;
}

static int can_refuse(int which, unsigned number)
{
    return number <= functions[which].last_refusal || number == functions[which].other_refusal;
}

/* M of the call that is under way. */
static uint32_t words_given;

/* Whether a word of this kind holds its game. */
static int is_held(char kind)
{
    return kind == SHIFTSUM_STALLED || kind == SHIFTSUM_SPENT;
}

/* Whether a call with this result leaves its output as it was. */
static int writes_nothing(int which, uint32_t result)
{
    return SHIFTSUM_REFUSAL(result) != 0 || (functions[which].held != 0 && SHIFTSUM_KIND(result) == functions[which].held);
}

static void print_bytes(const char *what, const uint8_t *bytes, size_t len)
{
    size_t place;
    fprintf(stderr, "%s (%zu bytes) ", what, len);
    for (place = 0; place < len; place++)
        fprintf(stderr, "%02x", (unsigned)bytes[place]);
    fprintf(stderr, "\n");
}

#ifdef FAULTS
/* The codebook that the library was lent. */
static const struct bytes *lent_book(void)
{
    static struct bytes book;
    memcpy(book.at, book_area.buffer, book_area.len);
    book.len = book_area.len;
    return &book;
}

/* The faults that the two forms could bring, made of a right result. */
static uint32_t faulty_forms(const char *fault, uint32_t result)
{
    const struct bytes *book = lent_book();
    const int own = which_form(book), both = fits(&forms[IN_SHORT], book->len) && fits(&forms[IN_LONG], book->len);
    const uint8_t s = book->at[AT_S], p = book->at[AT_P];
    const int chosen = book->len > AT_FORM && (book->at[AT_FORM] == 2 || book->at[AT_FORM] == 5);
    if (strcmp(fault, "length") == 0 && chosen && own == IN_SHORT && both)
        return 2;
    if (strcmp(fault, "seven") == 0 && result == 3 && own == IN_SHORT && s == 7)
        return 4;
    if (strcmp(fault, "six") == 0 && result == 3 && own == IN_LONG && s == 6)
        return 4;
    if (strcmp(fault, "four") == 0 && result == 3 && own == IN_LONG && s == 7 && p == 4)
        return 4;
    if (strcmp(fault, "free") == 0 && result == 4 && own == IN_LONG && s == 7)
        return 5;
    if (strcmp(fault, "two") == 0 && result == 1 && !chosen && book->len > AT_FORM)
        return 2;
    if (strcmp(fault, "one") == 0 && result == 2 && !chosen)
        return 1;
    if (strcmp(fault, "largest") == 0 && result != 1 && book->len > 2118)
        return 1;
    return result;
}

/* The faults that a remainder could have, made of a right one. The word without its remainder is a code word. */
__attribute__((no_sanitize("address"))) static uint32_t faulty_remainder(const char *fault, uint32_t result)
{
    volatile uint8_t *output = output_area[0].buffer;
    const size_t n = input_area[0].len, rest = output_area[0].len, k = n - rest;
    uint8_t word[LARGEST], quotient[LARGEST] = {0}, first;
    size_t place, nonzero = 0;
    if (strcmp(fault, "early") == 0 && result == 11)
        output[0] = output[0];
    if (result != 0)
        return result;
    for (place = 0; place < rest; place++)
        nonzero += output[place] != 0;
    if (strcmp(fault, "quotient") == 0) {
        for (place = 0; place < n; place++)
            word[place] = (uint8_t)(input_area[0].buffer[place] ^ (place < rest ? output[place] : 0));
        reference_read(book_area.buffer, book_area.len, word, n, quotient, k);
        for (place = 0; place < rest; place++)
            output[place] = quotient[place];
    }
    if (strcmp(fault, "highest") == 0)
        for (place = 0; place < rest / 2; place++) {
            first = output[place];
            output[place] = output[rest - 1 - place];
            output[rest - 1 - place] = first;
        }
    if (strcmp(fault, "places") == 0)
        for (place = rest; place < n; place++)
            output[place] = 0;
    if (strcmp(fault, "undivided") == 0)
        for (place = 0; place < rest; place++)
            output[place] = input_area[0].buffer[place];
    if (strcmp(fault, "zero") == 0)
        for (place = 0; place < rest; place++)
            output[place] = 0;
    if (strcmp(fault, "last") == 0)
        output[rest - 1] = 0;
    if (strcmp(fault, "twelve") == 0 && nonzero > 0)
        return 12;
    return result;
}

/* The faults that code could have, made of a right result; the codebook is accepted. */
__attribute__((no_sanitize("address"))) static uint32_t faulty_code(const char *fault, uint32_t result)
{
    volatile uint8_t *first = book_area.buffer, *input = input_area[0].buffer, *output = output_area[0].buffer;
    const size_t len = input_area[0].len;
    const struct bytes *book = lent_book();
    const struct shape shape = shape_of(book);
    uint8_t moved[LARGEST] = {0}, word[LARGEST];
    size_t place;
    if ((strcmp(fault, "none") == 0 && len == 0) || (strcmp(fault, "longer") == 0 && len == shape.k + 1))
        return 0;
    if ((strcmp(fault, "full") == 0 && len == shape.k) || (strcmp(fault, "short") == 0 && len < shape.k))
        return 9;
    if (result != 0)
        return result;
    if (strcmp(fault, "low") == 0) {
        for (place = 0; place < len; place++)
            moved[shape.k - len + place] = input[place];
        reference_code(book->at, book->len, moved, shape.k, word, shape.n);
        for (place = 0; place < shape.n; place++)
            output[place] = word[place];
    }
    if (strcmp(fault, "unwritten") == 0)
        for (place = shape.n - shape.k + len; place < shape.n; place++)
            output[place] = 0xa5;
    if (strcmp(fault, "behind") == 0 && input[shape.k - 1] == 0)
        return result;
    if (strcmp(fault, "word") == 0)
        output[0] ^= 1;
    if (strcmp(fault, "book") == 0)
        first[0] = 1;
    return result;
}

/* The faults that a burst or a game could have by its result alone; the codebook is accepted. */
static uint32_t faulty_refusal(const char *fault, uint32_t result)
{
    const struct shape shape = shape_of(lent_book());
    const uint32_t low = words_given & 255;
    size_t place = 0;
    while (place < shape.n && place < input_area[0].len && input_area[0].buffer[place] < shape.q)
        place++;
    if (strcmp(fault, "sixteen") == 0 && words_given == MOST_WORDS)
        return 14;
    if (strcmp(fault, "byte") == 0 && result == 14 && low != words_given && low >= 1 && low <= MOST_WORDS)
        return input_area[0].len == shape.n * low ? 0 : 9;
    if (strcmp(fault, "order") == 0 && result == 14 && input_area[0].len != shape.n * words_given)
        return 9;
    if (strcmp(fault, "list") == 0 && result == 10 && output_area[0].len == shape.n * words_given)
        return 0;
    if (strcmp(fault, "first") == 0 && result == 11 && place == shape.n)
        return 0;
    return result;
}

/* The faults that a burst could have, made of a right one; the codebook is accepted. */
__attribute__((no_sanitize("address"))) static uint32_t faulty_burst(const char *fault, uint32_t result)
{
    volatile uint8_t *output = output_area[0].buffer, *list = output_area[1].buffer;
    const size_t n = shape_of(lent_book()).n;
    uint8_t answers[MOST_WORDS * LARGEST];
    struct shiftsum_record records[MOST_WORDS];
    const size_t apart = strcmp(fault, "padded") == 0 ? RECORD + 1 : RECORD;
    size_t m, to, place;
    if (strcmp(fault, "torn") == 0 && result == 11)
        list[0] = list[0];
    if (result != 0)
        return faulty_refusal(fault, result);
    memcpy(answers, output_area[0].buffer, output_area[0].len);
    memcpy(records, output_area[1].buffer, output_area[1].len);
    for (m = 0; m < words_given; m++) {
        if (strcmp(fault, "row") == 0)
            put_record(&records[m], reference_decode(book_area.buffer, book_area.len, input_area[0].buffer + m * n, n, answers + m * n, n));
        for (place = 0; place < n; place++)
            output[strcmp(fault, "mixed") == 0 ? place * words_given + m : m * n + place] = answers[m * n + place];
        to = strcmp(fault, "reverse") == 0 ? words_given - 1 - m : m;
        for (place = 0; place < RECORD; place++)
            list[apart * to + place] = ((const uint8_t *)&records[m])[place];
    }
    return faulty_refusal(fault, result);
}

/* The kind of a word of the burst that the library was lent. */
static char kind_of_word(size_t m)
{
    const size_t n = shape_of(lent_book()).n;
    uint8_t word[LARGEST], answer[LARGEST];
    size_t place;
    for (place = 0; place < n; place++)
        word[place] = input_area[0].buffer[place * words_given + m];
    return SHIFTSUM_KIND(reference_decode(book_area.buffer, book_area.len, word, n, answer, n));
}

/* The faults that a game could have by the words that it counts, made of a right result. Whole is told where none is counted. */
static uint32_t faulty_held(const char *fault, uint32_t result)
{
    uint32_t held = 0;
    size_t m;
    for (m = 0; m < words_given; m++) {
        const char kind = kind_of_word(m);
        if (strcmp(fault, "mended") == 0)
            held += kind != SHIFTSUM_CLEAN;
        else if (strcmp(fault, "stalled") == 0)
            held += kind == SHIFTSUM_STALLED;
        else if (strcmp(fault, "spent") == 0)
            held += kind == SHIFTSUM_SPENT;
        else if (strcmp(fault, "any") == 0)
            held |= (uint32_t)is_held(kind);
        else if (strcmp(fault, "last") == 0)
            held += (uint32_t)(m + 1 < words_given && is_held(kind));
        else
            return result;
    }
    return held << 8 | (uint32_t)(held > 0 ? SHIFTSUM_HELD : SHIFTSUM_WHOLE) << 24;
}

/* The faults that the messages of a Whole game could have, made of right ones. */
__attribute__((no_sanitize("address"))) static void faulty_messages(const char *fault)
{
    volatile uint8_t *output = output_area[0].buffer;
    const size_t k = shape_of(lent_book()).k;
    uint8_t messages[MOST_WORDS * LARGEST];
    size_t m, place;
    memcpy(messages, output_area[0].buffer, output_area[0].len);
    for (m = 0; m < words_given; m++)
        for (place = 0; place < k; place++) {
            if (strcmp(fault, "mixed") == 0)
                output[place * words_given + m] = messages[m * k + place];
            if (strcmp(fault, "reverse") == 0)
                output[(words_given - 1 - m) * k + place] = messages[m * k + place];
            if (strcmp(fault, "unread") == 0)
                output[m * k + place] = input_area[0].buffer[place * words_given + m];
        }
}

/* The faults that a game could have, made of a right one; the codebook is accepted. */
__attribute__((no_sanitize("address"))) static uint32_t faulty_game(const char *fault, uint32_t result)
{
    volatile uint8_t *output = output_area[0].buffer;
    const int as_words = output_area[0].len == shape_of(lent_book()).n * words_given;
    if (strncmp(fault, "game-", 5) != 0)
        return result;
    fault += 5;
    if (result == 10 && (strcmp(fault, "sizes") == 0 || (strcmp(fault, "words") == 0 && as_words)))
        return (uint32_t)SHIFTSUM_WHOLE << 24;
    if (SHIFTSUM_REFUSAL(result) != 0 || faulty_refusal(fault, result) != result)
        return faulty_refusal(fault, result);
    if (SHIFTSUM_KIND(result) == SHIFTSUM_WHOLE)
        faulty_messages(fault);
    else if (strcmp(fault, "clears") == 0 || (strcmp(fault, "early") == 0 && !is_held(kind_of_word(0))))
        output[0] = 0;
    if (strcmp(fault, "place") == 0)
        return (result & 0xff000000u) | (uint32_t)SHIFTSUM_HELD_WORDS(result) << 16;
    return faulty_held(fault, result);
}

/* The faults that condition 8 could have, made of a right result. */
static uint32_t faulty_copies(const char *fault, uint32_t result)
{
    const struct bytes *book = lent_book();
    const struct form *form = form_of(book);
    const struct shape shape = shape_of(book);
    size_t count = (book->len - form->records) / form->record, place, same = 0;
    const uint8_t *one = book->at + form->records + 1;
    if (result != 8 && SHIFTSUM_REFUSAL(result) != 0)
        return result;
    if (result == 8) {
        const int way = copied(book);
        if (strcmp(fault, "equal") == 0 && way != EQUAL)
            return (uint32_t)count << 8;
        if (strcmp(fault, "turns") == 0 && way == TURNED_AND_SCALED)
            return (uint32_t)count << 8;
        return result;
    }
    for (place = 0; place < shape.n && count > 1; place++)
        same += (one[place] == 0) == (one[form->record + place] == 0);
    if ((strcmp(fault, "weights") == 0 && count > 1) || (strcmp(fault, "supports") == 0 && same == shape.n))
        return 8;
    return result;
}

/* The faults that a round's sum could have, made of a right word: single places, or the eighth of each eight, left as they were received. */
__attribute__((no_sanitize("address"))) static void faulty_sum(const char *fault)
{
    volatile uint8_t *output = output_area[0].buffer;
    const size_t packed = output_area[0].len / EIGHT * EIGHT;
    size_t place;
    for (place = 0; place < output_area[0].len; place++)
        if ((strcmp(fault, "singles") == 0 && place >= packed) || (strcmp(fault, "eighth") == 0 && place < packed && place % EIGHT == EIGHT - 1))
            output[place] = input_area[0].buffer[place];
}

/* The faults of the functions that have their own, where the codebook is accepted. */
static uint32_t (*const faults[FUNCTIONS])(const char *, uint32_t) = {
    [CODE] = faulty_code, [REMAINDER] = faulty_remainder, [BURST] = faulty_burst, [GAME] = faulty_game};

/* The faults that every function could have, 'result-NAME', 'output-NAME' and 'refused-NAME': another result, another byte at the end of its last
 * output, a write to it though the call is refused. */
__attribute__((no_sanitize("address"))) static uint32_t faulty_row(int which, const char *fault, uint32_t result)
{
    const char *name = strchr(fault, '-');
    int last = 0;
    if (name == NULL || strcmp(name + 1, functions[which].name) != 0)
        return result;
    if (strncmp(fault, "result-", 7) == 0)
        return SHIFTSUM_REFUSAL(result) == 0 ? result ^ 0x10000 : result;
    while (has_output(which, last + 1))
        last++;
    volatile uint8_t *output = output_area[last].buffer;
    const size_t len = output_area[last].len;
    if (strncmp(fault, "output-", 7) == 0 && !writes_nothing(which, result))
        output[len - 1] ^= 1;
    if (strncmp(fault, "refused-", 8) == 0 && SHIFTSUM_REFUSAL(result) > 8 && len > 0)
        output[0] = output[0];
    return result;
}

/* The faults that a library could have. They are done as the archive would do them, unseen by the sanitizer. */
__attribute__((no_sanitize("address"))) static uint32_t faulty(int which, uint32_t result)
{
    const char *fault = getenv("FAULT");
    volatile uint8_t *book = book_area.buffer, *input = input_area[0].buffer, *output = output_area[0].buffer;
    const char kind = which == DECODE && SHIFTSUM_REFUSAL(result) == 0 ? SHIFTSUM_KIND(result) : '-';
    if (fault == NULL)
        return result;
    result = faulty_row(which, fault, result);
    if (faults[which] != NULL)
        return result >= 1 && result <= 8 ? result : faults[which](fault, result);
    if (which == CHECK)
        result = faulty_copies(fault, faulty_forms(fault, result));
    if (strcmp(fault, "refusal") == 0 && which == CHECK && result == 7)
        return 8;
    if (strcmp(fault, "count") == 0 && which == CHECK && SHIFTSUM_DUAL_WORDS(result) > 3)
        return result - 0x100;
    if (strcmp(fault, "kind") == 0 && kind == SHIFTSUM_SPENT)
        return result - ((uint32_t)(SHIFTSUM_SPENT - SHIFTSUM_STALLED) << 24);
    if (strcmp(fault, "rounds") == 0 && kind == SHIFTSUM_MENDED && SHIFTSUM_ROUNDS(result) > 1)
        return result - 0x10000;
    if (strcmp(fault, "changed") == 0 && kind == SHIFTSUM_MENDED)
        return result + 0x100;
    if (kind == SHIFTSUM_MENDED)
        faulty_sum(fault);
    if (strcmp(fault, "answer") == 0 && kind == SHIFTSUM_STALLED)
        output[output_area[0].len - 1] ^= 1;
    /* A fault that few words show. */
    if (strcmp(fault, "seldom") == 0 && kind == SHIFTSUM_MENDED && SHIFTSUM_ROUNDS(result) == 2 && book[AT_P] == 2)
        output[output_area[0].len - 1] ^= 1;
    if (strcmp(fault, "refused") == 0 && which == READ && result == 12)
        output[0] = output[0];
    if (strcmp(fault, "input") == 0 && kind == SHIFTSUM_CLEAN)
        input[0] = input[0];
    if (strcmp(fault, "beyond") == 0 && which == READ && result == 0)
        output[output_area[0].len] = 0;
    if (strcmp(fault, "before") == 0 && kind == SHIFTSUM_MENDED)
        output[-1] = 0;
    if (strcmp(fault, "overread") == 0 && kind == SHIFTSUM_MENDED && input[input_area[0].len] == 0)
        return result;
    return result;
}
#else
#define faulty(which, result) (result)
#endif

/* Where k is 1, one symbol is not short. */
enum { LENGTH_0, K_IS_1, ONE_SYMBOL, SHORT, FULL, K_AND_1, ABOVE, LENGTHS };

/* Bursts and games: refused for M 0, for M a little above 16, for one that has 1 to 16 in its lowest byte; for a symbol behind the first n; of one
 * word, of 16. Bursts: refused for the size of the answers alone, and of the list; with words of several kinds. Games: refused for messages as long
 * as the words; Whole with 16 words, with a mended one; Held by the last word alone, by every word of several, by Stalled and Spent ones. */
enum { NO_WORD, ABOVE_16, LOW_BYTE, BEHIND, ONE_WORD, SIXTEEN, OF_BOTH };
enum { ANSWERS = OF_BOTH, LIST, SEVERAL_KINDS, BURSTS };
enum { AS_WORDS = OF_BOTH, SIXTEEN_WHOLE, MENDED_WHOLE, LAST_HELD, ALL_HELD, STALLED_AND_SPENT, GAMES };

/* By the form that byte 3 chooses: how many calls of each function had each result, for decode and the words of bursts the kinds; those of decode
 * that took two rounds or more; those of check with result 8 by the copy that the codebook had; and those of code with an accepted codebook by the
 * length of the message; mended words by whether a packed place was changed, and a single one; bursts and games of each sort. */
static struct counts {
    unsigned long calls[FUNCTIONS], accepted[FUNCTIONS], refused[FUNCTIONS][256], kinds[FUNCTIONS][128], later[128], copies[UNLIKE + 1];
    unsigned long lengths[LENGTHS][256], every_length, sums[SUMS], bursts[BURSTS], games[GAMES];
} counts[FORMS];
static unsigned long left_out;

/* Checks that were refused for what the two forms bring. */
enum { OTHERS_LENGTH, OTHERS_BYTE_3, NO_BYTE_3_1, NO_BYTE_3_2, OTHERS_KIND, OTHERS_S, S_7_P, S_8_P, PLACE_127, WAYS };
static unsigned long ways[WAYS];

/* What libFuzzer takes as new ground beside the branches of this file: results not seen before, by the codebook's s and p. */
enum { SEEN = 1 << 16 };
__attribute__((section("__libfuzzer_extra_counters"))) static uint8_t seen[SEEN];

/* In which of these ways a codebook is refused by the number. */
static void count_ways(unsigned number, const struct bytes *book)
{
    const int own = which_form(book);
    const struct form *form = &forms[own], *other = &forms[1 - own];
    const uint8_t byte_3 = book->len > AT_FORM ? book->at[AT_FORM] : 0, s = book->at[AT_S];
    const int chosen = byte_3 == form->generator;
    size_t at;
    ways[OTHERS_LENGTH] += number == 1 && chosen && own == IN_LONG && fits(other, book->len);
    ways[OTHERS_BYTE_3] += number == 1 && chosen && own == IN_SHORT && fits(other, book->len);
    ways[NO_BYTE_3_1] += number == 1 && !chosen && book->len > AT_FORM;
    ways[NO_BYTE_3_2] += number == 2 && !chosen;
    for (at = form->records; number == 2 && chosen && at < book->len; at += form->record)
        if (book->at[at] == other->dual_word) {
            ways[OTHERS_KIND]++;
            break;
        }
    ways[OTHERS_S] += number == 3 && s >= other->least_s && s <= other->most_s;
    ways[S_7_P] += number == 3 && own == IN_LONG && s == 7;
    ways[S_8_P] += number == 3 && own == IN_LONG && s == 8;
    for (at = 127; number == 4 && own == IN_LONG && s == 7 && at < LARGEST; at++)
        if (book->at[AT_G + at] != 0 || book->at[form->records + 1 + at] != 0) {
            ways[PLACE_127]++;
            break;
        }
}

/* The sorts that a burst or a game is of. */
static void count_mixed(uint32_t result, struct shape shape, unsigned long *sorts)
{
    const uint32_t words = words_given, low = words & 255;
    const int accepted = SHIFTSUM_REFUSAL(result) == 0;
    size_t at = 0;
    while (at < shape.n && at < input_area[0].len && input_area[0].buffer[at] < shape.q)
        at++;
    sorts[NO_WORD] += result == 14 && words == 0;
    sorts[ABOVE_16] += result == 14 && words > MOST_WORDS && words <= WORDS_MADE;
    sorts[LOW_BYTE] += result == 14 && words > 255 && low >= 1 && low <= MOST_WORDS;
    sorts[BEHIND] += result == 11 && at == shape.n;
    sorts[ONE_WORD] += accepted && words == 1;
    sorts[SIXTEEN] += accepted && words == MOST_WORDS;
}

/* The kinds of the words of the last burst that was not refused, and how many words of each there were. */
static uint8_t kinds_met[MOST_WORDS];
static size_t met[128];

static void count_burst(uint32_t result, const struct bytes *book, struct counts *own)
{
    const struct shape shape = shape_of(book);
    const uint32_t words = words_given;
    size_t at, unlike = 0;
    count_mixed(result, shape, own->bursts);
    own->bursts[ANSWERS] += result == 10 && output_area[1].len == RECORD * words;
    own->bursts[LIST] += result == 10 && output_area[0].len == shape.n * words;
    memset(met, 0, sizeof met);
    for (at = 0; result == 0 && at < words; at++) {
        kinds_met[at] = output_area[1].buffer[RECORD * at] % 128;
        own->kinds[BURST][kinds_met[at]]++;
        met[kinds_met[at]]++;
        unlike += kinds_met[at] != kinds_met[0];
    }
    own->bursts[SEVERAL_KINDS] += unlike > 0;
}

/* The words are those of the burst before it; where that was refused, none was met. */
static void count_game(uint32_t result, const struct bytes *book, struct counts *own)
{
    const struct shape shape = shape_of(book);
    const uint32_t words = words_given;
    const size_t stalled = met[SHIFTSUM_STALLED], spent = met[SHIFTSUM_SPENT];
    const int accepted = SHIFTSUM_REFUSAL(result) == 0, whole = accepted && SHIFTSUM_KIND(result) == SHIFTSUM_WHOLE, held = accepted && !whole;
    count_mixed(result, shape, own->games);
    own->games[AS_WORDS] += result == 10 && output_area[0].len == shape.n * words;
    own->games[SIXTEEN_WHOLE] += whole && words == MOST_WORDS;
    own->games[MENDED_WHOLE] += whole && met[SHIFTSUM_MENDED] > 0;
    own->games[LAST_HELD] += held && words > 1 && stalled + spent == 1 && is_held((char)kinds_met[words - 1]);
    own->games[ALL_HELD] += held && words > 1 && stalled + spent == words;
    own->games[STALLED_AND_SPENT] += held && stalled > 0 && spent > 0;
}

static void count_check(uint32_t result, const struct bytes *book, struct counts *own)
{
    count_ways(SHIFTSUM_REFUSAL(result), book);
    if (result == 8)
        own->copies[copied(book)]++;
}

/* Whether the sums of a mended word changed packed places, and single ones. */
static void count_sums(struct counts *own)
{
    const size_t n = output_area[0].len, packed = n / EIGHT * EIGHT;
    own->sums[PACKED] += memcmp(output_area[0].buffer, input_area[0].buffer, packed) != 0;
    own->sums[SINGLE] += memcmp(output_area[0].buffer + packed, input_area[0].buffer + packed, n - packed) != 0;
}

static void count_decode(uint32_t result, const struct bytes *book, struct counts *own)
{
    const char kind = SHIFTSUM_KIND(result);
    (void)book;
    if (SHIFTSUM_REFUSAL(result) != 0)
        return;
    own->later[(unsigned)kind % 128] += SHIFTSUM_ROUNDS(result) > 1;
    if (kind == SHIFTSUM_MENDED)
        count_sums(own);
}

/* What libFuzzer is told of an accepted call, below 64. */
static unsigned mark_decode(uint32_t result)
{
    const unsigned kind = (unsigned)SHIFTSUM_KIND(result), rounds = SHIFTSUM_ROUNDS(result), changed = SHIFTSUM_CHANGED(result);
    return kind % 4 * 16 + (rounds < 4 ? rounds : 3) * 4 + (changed < 4 ? changed : 3);
}

static unsigned mark_burst(uint32_t result)
{
    (void)result;
    return (words_given - 1) % MOST_WORDS * 4 + output_area[1].buffer[0] % 4;
}

static unsigned mark_game(uint32_t result)
{
    const unsigned held = SHIFTSUM_HELD_WORDS(result);
    return (words_given - 1) % MOST_WORDS * 4 + (held < 4 ? held : 3);
}

/* What is counted of a function beside its results, and marked, where there is anything. */
static const struct {
    void (*count)(uint32_t result, const struct bytes *book, struct counts *own);
    unsigned (*mark)(uint32_t result);
} counted[FUNCTIONS] = {
    [CHECK] = {count_check, NULL}, [DECODE] = {count_decode, mark_decode}, [BURST] = {count_burst, mark_burst}, [GAME] = {count_game, mark_game}};

static void count(int which, uint32_t result, const struct bytes *book)
{
    const unsigned number = SHIFTSUM_REFUSAL(result);
    struct counts *own = &counts[which_form(book)];
    unsigned mark = (unsigned)which;
    own->calls[which]++;
    if (counted[which].count != NULL)
        counted[which].count(result, book, own);
    if (number != 0) {
        own->refused[which][number]++;
        seen[mark * 16 + number % 16] = 1;
        return;
    }
    own->accepted[which]++;
    own->kinds[which][result >> 24 & 127]++;
    mark = mark * 64 + book->at[AT_S] % 8 * 8 + book->at[AT_P] % 8;
    mark = mark * 64 + (counted[which].mark == NULL ? 0 : counted[which].mark(result));
    seen[16 * FUNCTIONS + mark % (SEEN - 16 * FUNCTIONS)] = 1;
}

/* What an output is to hold after the call. */
static uint8_t *image_of(struct area *area)
{
    return area->image + (area->buffer - area->pages);
}

/* Where library and second implementation differ, all that is needed to see why. */
static void differs(int which, const char *what, uint32_t result, uint32_t expected, const struct call *call)
{
    int i;
    fprintf(stderr, "differs: %s, %s\nlibrary  %#010x\nexpected %#010x\n", functions[which].name, what, (unsigned)result, (unsigned)expected);
    for (i = 0; has_output(which, i); i++) {
        print_bytes("library's output", output_area[i].buffer, output_area[i].len);
        print_bytes("expected output", image_of(&output_area[i]), output_area[i].len);
        print_bytes("output before the call", call->held[i]->at, call->held[i]->len);
    }
    if (functions[which].number != NO_NUMBER)
        fprintf(stderr, "number %lu\n", (unsigned long)call->number);
    for (i = 0; has_input(which, i); i++)
        print_bytes("input", call->input[i]->at, call->input[i]->len);
    print_bytes("codebook", call->book->at, call->book->len);
    abort();
}

/* What is not as expected after a call, if anything. */
static const char *difference(int which)
{
    static const char *const names[OUTPUTS] = {"the output", "the records"};
    static const char *const beside[OUTPUTS] = {"what lies beside the output", "what lies beside the records"};
    int i;
    for (i = 0; has_output(which, i); i++) {
        if (memcmp(output_area[i].buffer, image_of(&output_area[i]), output_area[i].len) != 0)
            return names[i];
        if (memcmp(output_area[i].pages, output_area[i].image, ROOM) != 0)
            return beside[i];
    }
    for (i = 0; has_input(which, i); i++)
        if (memcmp(input_area[i].pages, input_area[i].image, ROOM) != 0)
            return "the input after the call";
    return memcmp(book_area.pages, book_area.image, ROOM) != 0 ? "the codebook after the call" : NULL;
}

/* Lays out a call, and gives the buffers of both sides. The second implementation is called with the images of the outputs, which then are what the
 * library is to leave. */
static void lay_out(int which, const struct call *call, unsigned places, struct side *library, struct side *reference)
{
    int i;
    lay(&book_area, call->book->at, call->book->len, places & 1);
    library->book = book_area.buffer, reference->book = call->book->at;
    library->book_len = reference->book_len = call->book->len;
    library->number = reference->number = words_given = call->number;
    for (i = 0; has_input(which, i); i++) {
        lay(&input_area[i], call->input[i]->at, call->input[i]->len, places & (i == 0 ? 2 : 16));
        library->input[i] = input_area[i].buffer, reference->input[i] = call->input[i]->at;
        library->input_len[i] = reference->input_len[i] = call->input[i]->len;
    }
    for (i = 0; has_output(which, i); i++) {
        lay(&output_area[i], call->held[i]->at, call->held[i]->len, places & (i == 0 ? 4 : 8));
        library->output[i] = output_area[i].buffer, reference->output[i] = image_of(&output_area[i]);
        library->output_len[i] = reference->output_len[i] = call->held[i]->len;
    }
}

static uint32_t compare(int which, const struct call *call, unsigned places)
{
    struct side library, reference;
    uint32_t expected, result;
    int i;
    lay_out(which, call, places, &library, &reference);
    expected = functions[which].reference(&reference);
    allow(&book_area, PROT_READ);
    for (i = 0; has_input(which, i); i++)
        allow(&input_area[i], PROT_READ);
    for (i = 0; has_output(which, i) && writes_nothing(which, expected); i++)
        allow(&output_area[i], PROT_READ);
    result = functions[which].library(&library);
    result = faulty(which, result);
    if (result != expected)
        differs(which, "the result", result, expected, call);
    if (difference(which) != NULL)
        differs(which, difference(which), result, expected, call);
    count(which, result, call->book);
    return result;
}

/* The sort of a message's length. */
static int length_of(size_t len, size_t k)
{
    if (len == 0 || len > k)
        return len == 0 ? LENGTH_0 : len == k + 1 ? K_AND_1 : ABOVE;
    if (len == k)
        return k == 1 ? K_IS_1 : FULL;
    return len == 1 ? ONE_SYMBOL : SHORT;
}

/* What an output holds before the call. */
static void hold(struct bytes *held, size_t len, uint8_t first)
{
    size_t place;
    held->len = len;
    for (place = 0; place < len; place++)
        held->at[place] = (uint8_t)(first + 7 * place);
}

/* Codes, and reads where a word was coded: the message comes back, and then zeros. Whether the codebook is accepted. */
static int code_and_read(const struct call *call, unsigned places)
{
    static struct bytes word, before;
    const struct bytes *message = call->input[0];
    const struct call again = {call->book, 0, {&word}, {&before}};
    const struct shape shape = shape_of(call->book);
    const uint32_t result = compare(CODE, call, places);
    size_t place;
    if (result != 0 && result < 9)
        return 0;
    counts[which_form(call->book)].lengths[length_of(message->len, shape.k)][result]++;
    if (result != 0)
        return 1;
    word.len = shape.n;
    memcpy(word.at, output_area[0].buffer, shape.n);
    hold(&before, shape.k, (uint8_t)places);
    compare(READ, &again, places);
    for (place = 0; place < shape.k; place++)
        if (output_area[0].buffer[place] != (place < message->len ? message->at[place] : 0))
            differs(READ, "what was coded", 0, 0, &again);
    return 1;
}

/* A message of every length from 0 to k + 1, or of some where they are many, and again with a word of another size or a bad symbol. The places
 * change, so that a short message often ends where its pages do. */
static void code_every_length(const struct bytes *book, uint8_t first, unsigned places, struct input *input)
{
    static struct bytes message, held;
    const struct call call = {book, 0, {&message}, {&held}};
    const struct shape shape = shape_of(book);
    size_t len;
    for (len = 0; len <= shape.k + 1; len += shape.k < 63 || len + 1 >= shape.k ? 1 : 1 + draw(input) % (shape.k - len), places++) {
        make_symbols(&message, len, shape.q, 0, input);
        hold(&held, shape.n, first);
        if (!code_and_read(&call, places))
            return;
        if (draw(input) % 2 == 0)
            held.len = draw(input) % 2 == 0 ? shape.n - 1 : 0;
        else if (len > 0)
            message.at[draw(input) % len] |= (uint8_t)shape.q;
        code_and_read(&call, places);
    }
    counts[which_form(book)].every_length++;
}

/* Codes, and once more with every length where the input asks for it. */
static void drive_code(const struct call *call, unsigned places, int every, struct input *input)
{
    code_and_read(call, places);
    if (every)
        code_every_length(call->book, draw(input), places, input);
}

/* Decodes, and again with one error more each time, since the words between few errors and many are the ones that take several rounds. */
static void drive_decode(const struct call *call, unsigned places, int every, struct input *input)
{
    static struct bytes word;
    const struct call more = {call->book, 0, {&word}, {call->held[0]}};
    const struct shape shape = shape_of(call->book);
    unsigned errors = 4;
    (void)every;
    if (products(call->book, shape) > MOST_PRODUCTS) {
        left_out++;
        return;
    }
    word = *call->input[0];
    while (SHIFTSUM_REFUSAL(compare(DECODE, &more, places)) == 0 && errors > 0) {
        const uint8_t place = draw(input);
        word.at[place % shape.n] ^= (uint8_t)(1 + draw(input) % (shape.q - 1));
        errors--;
    }
}

/* The functions that are called more than once, or not always. */
static void (*const drives[FUNCTIONS])(const struct call *, unsigned, int, struct input *) = {[CODE] = drive_code, [DECODE] = drive_decode};

/* The buffers of an input, and the numbers. */
struct made {
    uint32_t numbers[NUMBERS];
    struct bytes inputs[BUFFERS];
    size_t output_len[FUNCTIONS][OUTPUTS];
};

/* Sizes first, so that what an input has left goes to the symbols. */
static void make_sizes(struct made *made, struct shape shape, struct input *input)
{
    size_t words;
    int which, i;
    made->inputs[MESSAGE].len = message_size(shape.k, input);
    made->inputs[WORD].len = size(shape.n, input);
    made->numbers[COUNT_OF_WORDS] = burst_words(input);
    words = words_made(made->numbers[COUNT_OF_WORDS]);
    made->inputs[WORDS].len = size(shape.n * words, input);
    for (which = 0; which < FUNCTIONS; which++)
        for (i = 0; has_output(which, i); i++) {
            const enum buffer buffer = functions[which].output[i];
            const size_t unit = buffer == RECORDS ? RECORD : 1;
            made->output_len[which][i] = unit * size_or(exact_size(buffer, shape, words) / unit, other_size(buffer, shape, words) / unit, input);
            if (made->output_len[which][i] > MOST_BOOK)
                made->output_len[which][i] = MOST_BOOK / unit * unit;
        }
    if (made->inputs[WORDS].len > MOST_BOOK)
        made->inputs[WORDS].len = MOST_BOOK;
}

/* The symbols of the inputs. Those of a burst with a refused codebook are drawn. */
static void make_inputs(struct made *made, const struct bytes *book, struct input *input)
{
    const struct shape shape = shape_of(book);
    const size_t words = words_made(made->numbers[COUNT_OF_WORDS]);
    const size_t message_len = made->inputs[MESSAGE].len, word_len = made->inputs[WORD].len, words_len = made->inputs[WORDS].len;
    make_symbols(&made->inputs[MESSAGE], shape.k, shape.q, next(input), input);
    make_word(&made->inputs[WORD], book, shape, &made->inputs[MESSAGE], next(input), input);
    resize(&made->inputs[MESSAGE], message_len, input);
    resize(&made->inputs[WORD], word_len, input);
    if (SHIFTSUM_REFUSAL(reference_check(book->at, book->len)) == 0)
        make_burst(&made->inputs[WORDS], book, shape, words, input);
    else
        make_symbols(&made->inputs[WORDS], shape.n * words, shape.q, 0, input);
    resize(&made->inputs[WORDS], words_len, input);
}

/* All functions, each with its own places. */
int LLVMFuzzerTestOneInput(const uint8_t *data, size_t len)
{
    static struct bytes book, held[OUTPUTS];
    static struct made made;
    struct input input = {data, len, 0};
    unsigned places;
    int which, every, i;
    uint8_t first;
    make_book(&book, &input);
    places = next(&input);
    first = next(&input);
    make_sizes(&made, shape_of(&book), &input);
    every = next(&input) == EVERY;
    input.drawn = (uint32_t)next_two(&input);
    make_inputs(&made, &book, &input);
    for (which = 0; which < FUNCTIONS; which++) {
        struct call call = {&book, made.numbers[functions[which].number], {NULL}, {NULL}};
        const unsigned own_places = places * 257 >> which % 8;
        for (i = 0; has_input(which, i); i++)
            call.input[i] = &made.inputs[functions[which].input[i]];
        for (i = 0; has_output(which, i); i++) {
            hold(&held[i], made.output_len[which][i], first);
            call.held[i] = &held[i];
        }
        if (drives[which] != NULL)
            drives[which](&call, own_places, every, &input);
        else
            compare(which, &call, own_places);
    }
    return 0;
}

/* How often a message of each sort of length had each result that it can have. */
static void print_lengths(const char *form, const struct counts *own)
{
    static const char *const names[LENGTHS] = {"length-0", "k-is-1", "one-symbol", "short", "full", "k+1", "above-k+1"};
    static const unsigned results[] = {0, 10, 11};
    size_t i;
    int sort;
    printf("%slengths every-length %lu", form, own->every_length);
    for (sort = 0; sort < LENGTHS; sort++)
        if (sort == LENGTH_0 || sort == K_AND_1 || sort == ABOVE)
            printf(" %s:9 %lu", names[sort], own->lengths[sort][9]);
        else
            for (i = 0; i < sizeof results / sizeof results[0]; i++)
                printf(" %s:%u %lu", names[sort], results[i], own->lengths[sort][results[i]]);
    printf("\n");
}

/* How many bursts, or games, were of each sort. */
static void print_sorts(const char *form, const char *what, const unsigned long *sorts, const char *const *own_names, int count)
{
    static const char *const names[OF_BOTH] = {"no-word:14", "17-to-32:14", "1-to-16-in-a-byte:14", "behind-the-first-n:11", "one-word", "16-words"};
    int sort;
    printf("%s%s", form, what);
    for (sort = 0; sort < count; sort++)
        printf(" %s %lu", sort < OF_BOTH ? names[sort] : own_names[sort - OF_BOTH], sorts[sort]);
    printf("\n");
}

/* The numbers of the table's columns: 13 is met by no function here. */
static const unsigned numbers[] = {1, 2, 3, 4, 5, 6, 7, 8, 9, 10, 11, 12, 14};
enum { REFUSALS = sizeof numbers / sizeof numbers[0] };

/* The letters of the table's columns: the kinds of a word's answer, and those of a game's. */
static const char letters[] = "CMSXWH";
enum { KINDS = sizeof letters - 1 };

/* A line of the table: a dash where a function has no such result. */
static void print_function(const char *form, const struct counts *own, int which)
{
    char name[32];
    int column;
    snprintf(name, sizeof name, "%s%s:", form, functions[which].name);
    printf("%-15s %9lu %9lu", name, own->calls[which], own->accepted[which]);
    for (column = 0; column < KINDS; column++)
        if (strchr(functions[which].kinds, letters[column]) != NULL)
            printf(" %7lu", own->kinds[which][(unsigned)letters[column]]);
        else
            printf(" %7s", "-");
    for (column = 0; column < REFUSALS; column++)
        if (can_refuse(which, numbers[column]))
            printf(" %6lu", own->refused[which][numbers[column]]);
        else
            printf(" %6s", "-");
    printf("\n");
}

static void print_form(const char *form, const struct counts *own)
{
    static const char *const of_bursts[] = {"answers:10", "list:10", "several-kinds"};
    static const char *const of_games[] = {"as-long-as-words:10", "whole-16-words", "whole-mended", "held-last-alone", "held-all",
                                           "held-stalled-and-spent"};
    const unsigned long *later = own->later, *copies = own->copies;
    int which;
    for (which = 0; which < FUNCTIONS; which++)
        print_function(form, own, which);
    printf("%slater: %lu - -", form, later['M'] + later['S'] + later['X']);
    printf(" %lu %lu %lu\n", later['M'], later['S'], later['X']);
    printf("%scopies equal %lu turned %lu turned-and-scaled %lu\n", form, copies[EQUAL], copies[TURNED], copies[TURNED_AND_SCALED]);
    printf("%ssums packed %lu single %lu\n", form, own->sums[PACKED], own->sums[SINGLE]);
    print_lengths(form, own);
    print_sorts(form, "bursts", own->bursts, of_bursts, BURSTS);
    print_sorts(form, "games", own->games, of_games, GAMES);
}

/* The counts in tables, which the script reads. */
static void print_counts(void)
{
    static const char *const names[WAYS] = {"long-with-a-short-length:1", "short-with-a-long-length:1", "another-byte-3:1", "another-byte-3:2",
                                            "kind-of-the-other-form:2", "s-of-the-other-form:3", "another-p-of-s-7:3", "another-p-of-s-8:3",
                                            "place-127-or-more:4"};
    unsigned long all = 0;
    int way, which;
    printf("%-15s %9s %9s", "result", "calls", "accepted");
    for (which = 0; which < KINDS; which++)
        printf(" %7c", letters[which]);
    for (which = 0; which < REFUSALS; which++)
        printf(" %6u", numbers[which]);
    printf("\n");
    print_form("", &counts[IN_SHORT]);
    print_form("long-", &counts[IN_LONG]);
    printf("forms");
    for (way = 0; way < WAYS; way++)
        printf(" %s %lu", names[way], ways[way]);
    for (which = 0; which < FUNCTIONS; which++)
        all += counts[IN_SHORT].calls[which] + counts[IN_LONG].calls[which];
    printf("\n%lu calls; decodes left out as too slow: %lu\n", all, left_out);
    fflush(stdout);
}

/* Writes the parts of an input one after another. */
static void write_input(const char *folder, size_t number, const struct bytes *parts, size_t count)
{
    char name[4096];
    FILE *file;
    size_t part;
    snprintf(name, sizeof name, "%s/%zu", folder, number);
    file = fopen(name, "wb");
    if (file == NULL)
        stop(name);
    for (part = 0; part < count; part++)
        fwrite(parts[part].at, 1, parts[part].len, file);
    if (fclose(file) != 0)
        stop(name);
}

/* An input to start from, with the codebook's edits: the exact sizes, every sort of M by turns, a message of every length or not, and a code word
 * with none to four errors. */
static void write_seed(const char *folder, size_t number, const struct bytes *book, const struct bytes *edits, int every)
{
    static struct bytes parts[3];
    const uint8_t drawn = (uint8_t)(number / SEEDS_EACH), exact = 0;
    const uint8_t sizes[] = {drawn, drawn, exact, exact, (uint8_t)(17 * number), drawn, exact};
    const uint8_t rest[] = {(uint8_t)(every ? EVERY : 0), drawn, 1, 0, (uint8_t)(drawn % 5 * 8)};
    int which, i;
    parts[0] = *book;
    parts[1] = *edits;
    parts[2].len = 0;
    append(&parts[2], sizes, sizeof sizes);
    for (which = 0; which < FUNCTIONS; which++)
        for (i = 0; has_output(which, i); i++)
            append(&parts[2], &exact, 1);
    append(&parts[2], rest, sizeof rest);
    write_input(folder, number, parts, 3);
}

/* For every codebook of the shelf an input that names it, one that has a copy of a dual word added, one that has something of what the two forms
 * bring, all of it where it is of the long form, and for some one that has its bytes. */
static void write_seeds(const char *folder)
{
    static struct bytes none = {{0}, 1}, added, form, named, whole;
    size_t number, sort;
    for (number = 0; number < books; number++) {
        const struct bytes *book = &shelf[number];
        const int is_long = which_form(book) == IN_LONG;
        const uint8_t drawn = (uint8_t)number;
        size_t seed = SEEDS_EACH * number;
        named = (struct bytes){{0, drawn}, 2};
        /* Edit 9: a copy that is turned by what is drawn and multiplied so that 1 is at place 0. */
        added = (struct bytes){{1, 9, drawn, (uint8_t)(1 + drawn), 4}, 5};
        write_seed(folder, seed++, &named, &none, 1);
        write_seed(folder, seed++, &named, &added, !is_long);
        for (sort = 0; sort < SORTS_OF_FORM; sort++) {
            form = (struct bytes){{1, 11, drawn, 0, (uint8_t)(sort + SORTS_OF_FORM * (number % 10))}, 5};
            if (is_long || sort == number % SORTS_OF_FORM)
                write_seed(folder, seed++, &named, &form, 0);
        }
        whole = (struct bytes){{WHOLE, (uint8_t)(book->len & 255), (uint8_t)(book->len >> 8)}, 3};
        append(&whole, book->at, book->len);
        if (number % 8 == 0)
            write_seed(folder, seed, &whole, &none, 1);
    }
}

/* With SEEDS in the environment only the seeds are written, to the folder it names. */
int LLVMFuzzerInitialize(int *argc, char ***argv)
{
    (void)argc, (void)argv;
    while (books < MOST_SHELF && (shelf[books].len = reference_shelf(books, shelf[books].at)) > 0)
        books++;
    if (getenv("SEEDS") != NULL) {
        write_seeds(getenv("SEEDS"));
        exit(0);
    }
    int i;
    make_area(&book_area);
    for (i = 0; i < INPUTS; i++)
        make_area(&input_area[i]);
    for (i = 0; i < OUTPUTS; i++)
        make_area(&output_area[i]);
    atexit(print_counts);
    return 0;
}
