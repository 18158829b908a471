/* sys/cprng.h - cprng(9): numbers that look random, the same in each run; for no secret */
#ifndef KUPALDIZ_NETBSD_SYS_CPRNG_H
#define KUPALDIZ_NETBSD_SYS_CPRNG_H

#include <sys/atomic.h>

/* One for the program. */
__attribute__((weak)) uint64_t kupaldiz_random;

static inline uint64_t cprng_fast64(void)
{
	uint64_t mixed = atomic_add_64_nv(&kupaldiz_random, (int64_t)0x9e3779b97f4a7c15);
	mixed = (mixed ^ mixed >> 30) * 0xbf58476d1ce4e5b9;
	mixed = (mixed ^ mixed >> 27) * 0x94d049bb133111eb;
	return mixed ^ mixed >> 31;
}

static inline uint32_t cprng_fast32(void) { return (uint32_t)(cprng_fast64() >> 32); }
static inline uint64_t cprng_strong64(void) { return cprng_fast64(); }
static inline uint32_t cprng_strong32(void) { return cprng_fast32(); }

#endif
