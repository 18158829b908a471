/* random.h - random numbers of a test's thread: its seed and its number make them */
#ifndef NETBSD_RANDOM_H
#define NETBSD_RANDOM_H

#include <stdint.h>

static inline uint64_t random_of(uint64_t seed, unsigned number) { return seed * 2654435761u + number * 40503u + 1; }

/* A number below the bound. */
static inline unsigned random_below(uint64_t *random, unsigned bound)
{
	*random ^= *random << 13;
	*random ^= *random >> 7;
	*random ^= *random << 17;
	return (unsigned)((*random >> 11) % bound);
}

#endif
