#include "errors.h"

#include <string.h>

/* splitmix64: any state will do, so that a seed may be any number. */
static uint64_t step(uint64_t *state)
{
    uint64_t z = *state += 0x9e3779b97f4a7c15u;
    z = (z ^ z >> 30) * 0xbf58476d1ce4e5b9u;
    z = (z ^ z >> 27) * 0x94d049bb133111ebu;
    return z ^ z >> 31;
}

void errors_by_chance(struct errors *errors, size_t n, unsigned q, size_t weight, uint64_t words, uint64_t seed)
{
    uint64_t state = seed;
    errors->n = n;
    errors->q = q;
    errors->weight = weight;
    errors->left = words;
    errors->every = 0;
    errors->state = step(&state) + weight;
    errors->state = step(&errors->state);
}

void errors_every(struct errors *errors, size_t n, unsigned q, size_t weight)
{
    size_t i;
    errors->n = n;
    errors->q = q;
    errors->weight = weight;
    errors->left = 1;
    errors->every = 1;
    for (i = 0; i < weight; i++) {
        errors->at[i] = i;
        errors->symbol[i] = 1;
    }
}

/* Goes through the places once; a place is hit with the chance that leaves just enough places for the rest. */
static void by_chance(struct errors *errors, uint8_t *word)
{
    size_t j, wanted = errors->weight;
    for (j = 0; j < errors->n; j++) {
        if (step(&errors->state) % (errors->n - j) >= wanted)
            continue;
        word[j] = (uint8_t)(1 + step(&errors->state) % (errors->q - 1));
        wanted--;
    }
}

/* The next symbols at the same places, the first one always 1; 0 where these were the last, and then they are the first again. */
static int next_symbols(struct errors *errors)
{
    size_t i;
    for (i = 1; i < errors->weight; i++) {
        if (++errors->symbol[i] < errors->q)
            return 1;
        errors->symbol[i] = 1;
    }
    return 0;
}

/* The next places, the first one always 0; 0 where these were the last. */
static int next_places(struct errors *errors)
{
    size_t i = errors->weight - 1;
    while (i > 0 && errors->at[i] == errors->n - errors->weight + i)
        i--;
    if (i == 0)
        return 0;
    errors->at[i]++;
    for (i++; i < errors->weight; i++)
        errors->at[i] = errors->at[i - 1] + 1;
    return 1;
}

static void as_listed(const struct errors *errors, uint8_t *word)
{
    size_t i;
    for (i = 0; i < errors->weight; i++)
        word[errors->at[i]] = errors->symbol[i];
}

int errors_next(struct errors *errors, uint8_t *word)
{
    if (errors->left == 0)
        return 0;
    memset(word, 0, errors->n);
    if (errors->every) {
        as_listed(errors, word);
        errors->left = next_symbols(errors) || next_places(errors);
    } else {
        by_chance(errors, word);
        errors->left--;
    }
    return 1;
}
