#include "hex.h"

#include <stdio.h>

static int digit(char c)
{
    if (c >= '0' && c <= '9')
        return c - '0';
    if (c >= 'a' && c <= 'f')
        return c - 'a' + 10;
    if (c >= 'A' && c <= 'F')
        return c - 'A' + 10;
    return -1;
}

size_t hex_read(const char *text, size_t len, uint8_t *symbols)
{
    size_t i;
    for (i = 0; i < len; i++) {
        int value = digit(text[i]);
        if (value < 0)
            return i;
        if (i % 2 == 0)
            symbols[i / 2] = (uint8_t)(value << 4);
        else
            symbols[i / 2] |= (uint8_t)value;
    }
    return len % 2 == 0 ? len : len - 1;
}

void hex_fault(const char *text, size_t len, size_t good, size_t number, char *fault, size_t room)
{
    if (digit(text[good]) < 0)
        snprintf(fault, room, "character %zu is no hexadecimal digit", number);
    else
        snprintf(fault, room, "it has %zu digits, and a symbol has two", len);
}

void hex_print(const uint8_t *symbols, size_t count)
{
    static const char digits[] = "0123456789abcdef";
    size_t i;
    for (i = 0; i < count; i++) {
        putchar(digits[symbols[i] >> 4]);
        putchar(digits[symbols[i] & 15]);
    }
}

int decimal_read(const char *text, size_t len, uint32_t most, uint32_t *number)
{
    uint64_t value = 0;
    size_t i;
    for (i = 0; i < len; i++) {
        if (text[i] < '0' || text[i] > '9')
            return 0;
        value = value * 10 + (uint64_t)(text[i] - '0');
        if (value > most)
            return 0;
    }
    *number = (uint32_t)value;
    return len > 0;
}
