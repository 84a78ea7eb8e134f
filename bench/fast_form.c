/* The best C for any book: which of the three that fast.c is compiled to serves it. A book that none of them takes gets its refusal from any. */
#include "fast.h"

#define COMPILED(size) \
    uint32_t FAST_SIZED(size, check)(const uint8_t *, size_t); \
    uint32_t FAST_SIZED(size, code)(const uint8_t *, size_t, const uint8_t *, size_t, uint8_t *, size_t); \
    uint32_t FAST_SIZED(size, remainder)(const uint8_t *, size_t, const uint8_t *, size_t, uint8_t *, size_t); \
    uint32_t FAST_SIZED(size, decode)(const uint8_t *, size_t, const uint8_t *, size_t, uint8_t *, size_t); \
    uint32_t FAST_SIZED(size, burst)(const uint8_t *, size_t, uint32_t, const uint8_t *, size_t, uint8_t *, size_t, struct shiftsum_record *, \
                                     size_t); \
    uint32_t FAST_SIZED(size, game)(const uint8_t *, size_t, uint32_t, const uint8_t *, size_t, uint8_t *, size_t); \
    size_t FAST_SIZED(size, room)(void); \
    uint32_t FAST_SIZED(size, open)(void *, const uint8_t *, size_t); \
    uint32_t FAST_SIZED(size, next)(void *, const uint8_t *, uint8_t *); \
    uint64_t FAST_SIZED(size, part)(void *, enum FastPart, const uint8_t *, size_t, const uint8_t *, long);
COMPILED(64)
COMPILED(128)
COMPILED(256)

#define CHOSEN(size, call, ...) ((size) == 64 ? FAST_SIZED(64, call)(__VA_ARGS__) : (size) == 128 ? FAST_SIZED(128, call)(__VA_ARGS__) : \
                                 FAST_SIZED(256, call)(__VA_ARGS__))

static int room_of(const uint8_t *book, size_t len)
{
    return len < 4 || book[3] != 5 ? 64 : book[1] == 7 ? 128 : 256;
}

uint32_t FAST(check)(const uint8_t *book, size_t book_len)
{
    return CHOSEN(room_of(book, book_len), check, book, book_len);
}

uint32_t FAST(code)(const uint8_t *book, size_t book_len, const uint8_t *message, size_t message_len, uint8_t *word, size_t word_len)
{
    return CHOSEN(room_of(book, book_len), code, book, book_len, message, message_len, word, word_len);
}

uint32_t FAST(remainder)(const uint8_t *book, size_t book_len, const uint8_t *word, size_t word_len, uint8_t *remainder, size_t remainder_len)
{
    return CHOSEN(room_of(book, book_len), remainder, book, book_len, word, word_len, remainder, remainder_len);
}

uint32_t FAST(decode)(const uint8_t *book, size_t book_len, const uint8_t *received, size_t received_len, uint8_t *answer, size_t answer_len)
{
    return CHOSEN(room_of(book, book_len), decode, book, book_len, received, received_len, answer, answer_len);
}

uint32_t FAST(burst)(const uint8_t *book, size_t book_len, uint32_t words, const uint8_t *received, size_t received_len, uint8_t *answers,
                     size_t answers_len, struct shiftsum_record *records, size_t records_len)
{
    return CHOSEN(room_of(book, book_len), burst, book, book_len, words, received, received_len, answers, answers_len, records, records_len);
}

uint32_t FAST(game)(const uint8_t *book, size_t book_len, uint32_t words, const uint8_t *received, size_t received_len, uint8_t *messages,
                    size_t messages_len)
{
    return CHOSEN(room_of(book, book_len), game, book, book_len, words, received, received_len, messages, messages_len);
}

/* An opened book's room begins with its number, in a line of its own. */
enum { LINE = 64 };

size_t FAST(room)(void)
{
    return LINE + FAST_SIZED(256, room)();
}

uint32_t FAST(open)(void *room, const uint8_t *book, size_t book_len)
{
    *(int *)room = room_of(book, book_len);
    return CHOSEN(*(int *)room, open, (uint8_t *)room + LINE, book, book_len);
}

uint32_t FAST(next)(void *room, const uint8_t *received, uint8_t *answer)
{
    return CHOSEN(*(int *)room, next, (uint8_t *)room + LINE, received, answer);
}

uint64_t FAST(part)(void *room, enum FastPart part, const uint8_t *book, size_t book_len, const uint8_t *received, long times)
{
    return CHOSEN(room_of(book, book_len), part, (uint8_t *)room + LINE, part, book, book_len, received, times);
}
