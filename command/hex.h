/* Symbols in hexadecimal, two digits each, and decimal numbers. */
#ifndef HEX_H
#define HEX_H

#include <stddef.h>
#include <stdint.h>

/*
 * Reads len / 2 symbols. Returns len, or, where the text is no such thing, how many characters
 * before the first that does not belong there; len - 1 where the last digit has no second.
 */
size_t hex_read(const char *text, size_t len, uint8_t *symbols);

/* What is wrong at the character of that number, from 1, of a text that hex_read did not read whole. */
void hex_fault(const char *text, size_t len, size_t good, size_t number, char *fault, size_t room);

/* Prints symbols on standard output. */
void hex_print(const uint8_t *symbols, size_t count);

/* A decimal number, digits alone. Returns 0 where the text is none, or one above MOST. */
int decimal_read(const char *text, size_t len, uint32_t most, uint32_t *number);

#endif
