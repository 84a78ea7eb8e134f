/* The scope and S0's algorithm 1, transcribed word by word. */
#ifndef LITERAL_H
#define LITERAL_H

#include <stddef.h>
#include <stdint.h>

uint32_t literal_check(const uint8_t *book, size_t book_len);
uint32_t literal_code(const uint8_t *book, size_t book_len, const uint8_t *message, size_t message_len, uint8_t *word, size_t word_len);
uint32_t literal_remainder(const uint8_t *book, size_t book_len, const uint8_t *word, size_t word_len, uint8_t *remainder, size_t remainder_len);
uint32_t literal_decode(const uint8_t *book, size_t book_len, const uint8_t *received, size_t received_len, uint8_t *answer, size_t answer_len);

#endif
