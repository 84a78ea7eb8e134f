#include "noise.h"

static uint32_t step(uint32_t *state)
{
    *state ^= *state << 13;
    *state ^= *state >> 17;
    *state ^= *state << 5;
    return *state;
}

/* Goes through the places once; a place is hit with the chance that leaves just enough places for the rest. */
void noise_damage(uint32_t *state, uint8_t *word, size_t n, unsigned q, size_t errors)
{
    size_t j;
    for (j = 0; j < n; j++) {
        if (step(state) % (n - j) >= errors)
            continue;
        word[j] ^= (uint8_t)(1 + step(state) % (q - 1));
        errors--;
    }
}
