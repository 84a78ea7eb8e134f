/*
 * The sum of two words in C, compiled under a name of its own for each compiler: place by place, as the scope says it, and eight bytes a step, the
 * rest singly. Both write into the room that they are given; the library makes the word by value and then copies it there.
 */
#include <stddef.h>
#include <stdint.h>
#include <string.h>

#define JOINED(name, what) name##_##what
#define NAMED(name, what) JOINED(name, what)

void NAMED(NAME, places)(const uint8_t *a, const uint8_t *b, uint8_t *restrict out, size_t n)
{
    for (size_t j = 0; j < n; j++)
        out[j] = a[j] ^ b[j];
}

void NAMED(NAME, eights)(const uint8_t *a, const uint8_t *b, uint8_t *restrict out, size_t n)
{
    size_t j = 0;
    for (; j + 8 <= n; j += 8) {
        uint64_t x, y;
        memcpy(&x, a + j, 8);
        memcpy(&y, b + j, 8);
        x ^= y;
        memcpy(out + j, &x, 8);
    }
    for (; j < n; j++)
        out[j] = a[j] ^ b[j];
}
