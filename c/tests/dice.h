/* dice.h - numbers from a seed, by xorshift, for tests of one thread */
#ifndef DICE_H
#define DICE_H

#include <stdint.h>

static uint64_t random_word = 1;

/* A number below `end`. */
static inline uint64_t below(uint64_t end)
{
	random_word ^= random_word << 13;
	random_word ^= random_word >> 7;
	random_word ^= random_word << 17;
	return (random_word >> 11) % end;
}

/* From now on the numbers are those of this seed. */
static inline void seed_dice(uint64_t seed)
{
	random_word = seed * 0x9e3779b97f4a7c15 | 1;
}

#endif
