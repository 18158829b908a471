/* sys/systm.h - under the name that the pages give it, with what libkern has and the system lacks */
#ifndef KUPALDIZ_NETBSD_SYS_SYSTM_H
#define KUPALDIZ_NETBSD_SYS_SYSTM_H

#include <errno.h>
#include <stdarg.h>
#include <stdio.h>
#include <string.h>

#include <sys/cdefs.h>

#include "../kupaldiz/kernel.h"
#include "../kupaldiz/memory.h"

/* nullop - nothing, and 0: for xc_broadcast and tables of functions. */
static inline int nullop(void *arg)
{
	(void)arg;
	return 0;
}

#ifndef __cplusplus
static inline int imin(int a, int b) { return a < b ? a : b; }
static inline int imax(int a, int b) { return a > b ? a : b; }
static inline unsigned min(unsigned a, unsigned b) { return a < b ? a : b; }
static inline unsigned max(unsigned a, unsigned b) { return a > b ? a : b; }
static inline unsigned uimin(unsigned a, unsigned b) { return a < b ? a : b; }
static inline unsigned uimax(unsigned a, unsigned b) { return a > b ? a : b; }
static inline long lmin(long a, long b) { return a < b ? a : b; }
static inline long lmax(long a, long b) { return a > b ? a : b; }
static inline unsigned long ulmin(unsigned long a, unsigned long b) { return a < b ? a : b; }
static inline unsigned long ulmax(unsigned long a, unsigned long b) { return a > b ? a : b; }
#endif

/* strlcpy, strlcat - strings that are cut to their room, with a zero. They return how long the whole string is. */
#ifndef strlcpy
static inline size_t kupaldiz_strlcpy(char *to, const char *from, size_t room)
{
	size_t length = strlen(from), count = length < room ? length : room - 1;
	if (room == 0)
		return length;
	memcpy(to, from, count);
	to[count] = '\0';
	return length;
}

static inline size_t kupaldiz_strlcat(char *to, const char *from, size_t room)
{
	size_t have = strnlen(to, room);
	return have + (have == room ? strlen(from) : kupaldiz_strlcpy(to + have, from, room - have));
}
#define strlcpy(to, from, room)	kupaldiz_strlcpy(to, from, room)
#define strlcat(to, from, room)	kupaldiz_strlcat(to, from, room)
#endif

/* hashinit, hashdone - a row of empty lists, a power of two and at least as many as elements; what a hash has of its bits that tell a list is in `mask`. */
enum hashtype {
	HASH_LIST,
	HASH_SLIST,
	HASH_TAILQ,
	HASH_PSLIST
};

static inline size_t kupaldiz_hash_size(enum hashtype type, unsigned long mask) { return (mask + 1) * (type == HASH_TAILQ ? 2 : 1) * sizeof(void *); }

static inline void *hashinit(unsigned elements, enum hashtype type, bool waits, unsigned long *mask)
{
	unsigned long lists = 1;
	while (lists < elements)
		lists <<= 1;
	*mask = lists - 1;
	void **table = (void **)(kmem_zalloc)(kupaldiz_hash_size(type, *mask), waits ? KM_SLEEP : KM_NOSLEEP);
	for (unsigned long at = 0; table != NULL && type == HASH_TAILQ && at < lists; at++)
		table[2 * at + 1] = &table[2 * at];
	return table;
}

static inline void hashdone(void *table, enum hashtype type, unsigned long mask) { (kmem_free)(table, kupaldiz_hash_size(type, mask)); }

#define KUPALDIZ_PLACES_OF_SYSTM
#include <kupaldiz/places.h>

/* log, aprint_normal and its like - print on standard error; in the explorer, nothing. */
static inline void __attribute__((format(printf, 2, 3))) kupaldiz_log(int level, const char *format, ...)
{
	va_list words;
	(void)level;
	va_start(words, format);
#ifndef KUPALDIZ_EXPLORER
	vfprintf(stderr, format, words);
#endif
	va_end(words);
}

#define log(level, ...)		kupaldiz_log(level, __VA_ARGS__)
#define aprint_normal(...)	kupaldiz_log(0, __VA_ARGS__)
#define aprint_verbose(...)	kupaldiz_log(0, __VA_ARGS__)
#define aprint_debug(...)	kupaldiz_log(0, __VA_ARGS__)
#define aprint_error(...)	kupaldiz_log(0, __VA_ARGS__)

#endif
