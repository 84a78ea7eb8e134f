/*
 * The best portable C for the same answers: what the proved code is measured against. One source is compiled several times; NAME sets the names apart.
 */
#ifndef FAST_H
#define FAST_H

#include "shiftsum.h" /* the record of a word in a burst */

#include <stddef.h>
#include <stdint.h>

#ifndef NAME
#define NAME fast
#endif
#define FAST_JOIN(a, b) a##_##b
#define FAST_NAME(a, b) FAST_JOIN(a, b)
#define FAST(b) FAST_NAME(NAME, b)
#define FAST_SIZED(room, b) FAST_NAME(FAST_NAME(NAME, room), b)

uint32_t FAST(check)(const uint8_t *book, size_t book_len);
uint32_t FAST(code)(const uint8_t *book, size_t book_len, const uint8_t *message, size_t message_len, uint8_t *word, size_t word_len);
uint32_t FAST(remainder)(const uint8_t *book, size_t book_len, const uint8_t *word, size_t word_len, uint8_t *remainder, size_t remainder_len);
uint32_t FAST(decode)(const uint8_t *book, size_t book_len, const uint8_t *received, size_t received_len, uint8_t *answer, size_t answer_len);
uint32_t FAST(burst)(const uint8_t *book, size_t book_len, uint32_t words, const uint8_t *received, size_t received_len, uint8_t *answers,
                     size_t answers_len, struct shiftsum_record *records, size_t records_len);
uint32_t FAST(game)(const uint8_t *book, size_t book_len, uint32_t words, const uint8_t *received, size_t received_len, uint8_t *messages,
                    size_t messages_len);

/* A book checked once, for many words: room for the struct of fast.c. */
size_t FAST(room)(void);
uint32_t FAST(open)(void *room, const uint8_t *book, size_t book_len);
uint32_t FAST(next)(void *room, const uint8_t *received, uint8_t *answer);

/* One part of a decode, repeated, for the split of costs. The test is of a code word; the matrix has its products in it. */
enum FastPart { FAST_CHECK, FAST_LISTS, FAST_TEST, FAST_PRODUCTS, FAST_MATRIX, FAST_UPDATE, FAST_PARTS };
uint64_t FAST(part)(void *room, enum FastPart part, const uint8_t *book, size_t book_len, const uint8_t *received, long times);

#endif
