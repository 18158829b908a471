/*
 * wrapped_heap.h - the heap of a program that is linked with --wrap for malloc, realloc and free
 *
 * Each call of malloc, realloc and free, the archive's too, comes to __wrap_malloc, __wrap_realloc
 * and __wrap_free, which the program defines. __real_malloc, __real_realloc and __real_free are the
 * C library's own.
 */
#ifndef WRAPPED_HEAP_H
#define WRAPPED_HEAP_H

#include <stdlib.h>

/*
 * The words of a registry's table by its settings, as `words_of` of cpu_words has them: where the
 * row of a CPU begins, and how many bytes there are. They are one block. No other is as long,
 * except the one in which they are made.
 */
#define TABLE_ROW(slots, cpu)	(32 + 8 * (slots) + (cpu) * (16 + 2 * (slots)))
#define TABLE_BYTES(slots, cpus)	(8 * TABLE_ROW(slots, cpus))

/* A call that the linker leads to the program. */
#define WRAPPED(call)	extern __typeof__(call) __real_##call, __wrap_##call

/* The same. It fails, and returns `result`, while this is so. */
#define FAILING(type, call, parameters, arguments, is_so, result)	\
	WRAPPED(call);							\
	type __wrap_##call parameters					\
	{								\
		return is_so ? result : __real_##call arguments;	\
	}

WRAPPED(malloc);
WRAPPED(realloc);
WRAPPED(free);

#endif
