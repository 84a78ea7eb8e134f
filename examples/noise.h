/* Radio noise that every run repeats. */
#ifndef NOISE_H
#define NOISE_H

#include <stddef.h>
#include <stdint.h>

/* Changes `errors` of the n symbols of a word, each to another symbol below q. The state is not 0, and is stepped. */
void noise_damage(uint32_t *state, uint8_t *word, size_t n, unsigned q, size_t errors);

#endif
