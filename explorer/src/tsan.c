/*
 * tsan.c - the calls that gcc and clang make of loads and stores with -fsanitize=thread, before each; the sanitizer's own library isn't linked. An atomic
 * access of the layer's headers has had its point; any other one gets it here.
 */
#include "inside.h"

#define PC	__builtin_return_address(0)

/* With a sanitizer gcc knows these calls itself, by types that say less. */
#ifndef __clang__
#pragma GCC diagnostic ignored "-Wbuiltin-declaration-mismatch"
#endif

void __tsan_init(void)
{
}

void __tsan_func_entry(const void *caller)
{
	(void)caller;
}

void __tsan_func_exit(void)
{
}

#define ACCESS(name, size, writes) \
	void __tsan_##name(void *at) \
	{ \
		access_plainly(at, size, writes, PC); \
	}

#define ACCESSES_OF(size) \
	ACCESS(read##size, size, false) \
	ACCESS(write##size, size, true) \
	ACCESS(unaligned_read##size, size, false) \
	ACCESS(unaligned_write##size, size, true)

ACCESSES_OF(1)
ACCESSES_OF(2)
ACCESSES_OF(4)
ACCESSES_OF(8)
ACCESSES_OF(16)
ACCESS(vptr_read, sizeof(void *), false)

void __tsan_vptr_update(void **at, void *value)
{
	if (*at != value)
		access_plainly(at, sizeof(*at), true, PC);
}

#define RANGE(name, writes) \
	void __tsan_##name(void *at, size_t size) \
	{ \
		access_plainly(at, size, writes, PC); \
	}

#define COPY(name) \
	void *__tsan_##name(void *to, const void *from, size_t size) \
	{ \
		access_plainly(from, size, false, PC); \
		access_plainly(to, size, true, PC); \
		return name(to, from, size); \
	}

RANGE(read_range, false)
RANGE(write_range, true)
COPY(memcpy)
COPY(memmove)

void *__tsan_memset(void *to, int byte, size_t size)
{
	access_plainly(to, size, true, PC);
	return memset(to, byte, size);
}

/* What an order of the language asks for: the point's words. */
static unsigned order_of(int order)
{
	unsigned acquires = order == __ATOMIC_RELAXED || order == __ATOMIC_RELEASE ? 0 : KUPALDIZ_ACQUIRES;
	return acquires | (order == __ATOMIC_RELEASE || order == __ATOMIC_ACQ_REL || order == __ATOMIC_SEQ_CST ? KUPALDIZ_RELEASES : 0);
}

static void access_by_language(const volatile void *at, size_t size, unsigned how, const void *pc)
{
	struct routine *me = run.current;
	if (me == NULL)
		return;
	if (me->announced != (at == NULL ? me : at))
		access_atomically(at, size, how, NULL, pc);
	me->announced = NULL;
}

#define CHANGE(bits, name, builtin) \
	uint##bits##_t __tsan_atomic##bits##_##name(volatile uint##bits##_t *at, uint##bits##_t value, int order) \
	{ \
		access_by_language(at, sizeof(*at), KUPALDIZ_LOADS | KUPALDIZ_STORES | order_of(order), PC); \
		return __atomic_##builtin(at, value, __ATOMIC_SEQ_CST); \
	}

#define EXCHANGE(bits, name) \
	int __tsan_atomic##bits##_##name(volatile uint##bits##_t *at, uint##bits##_t *expected, uint##bits##_t value, int order, int otherwise) \
	{ \
		(void)otherwise; \
		access_by_language(at, sizeof(*at), KUPALDIZ_LOADS | KUPALDIZ_STORES | order_of(order), PC); \
		return __atomic_compare_exchange_n(at, expected, value, false, __ATOMIC_SEQ_CST, __ATOMIC_SEQ_CST); \
	}

#define ATOMICS(bits) \
	uint##bits##_t __tsan_atomic##bits##_load(const volatile uint##bits##_t *at, int order) \
	{ \
		access_by_language(at, sizeof(*at), KUPALDIZ_LOADS | (order_of(order) & KUPALDIZ_ACQUIRES), PC); \
		return __atomic_load_n(at, __ATOMIC_SEQ_CST); \
	} \
	void __tsan_atomic##bits##_store(volatile uint##bits##_t *at, uint##bits##_t value, int order) \
	{ \
		access_by_language(at, sizeof(*at), KUPALDIZ_STORES | (order_of(order) & KUPALDIZ_RELEASES), PC); \
		__atomic_store_n(at, value, __ATOMIC_SEQ_CST); \
	} \
	CHANGE(bits, exchange, exchange_n) \
	CHANGE(bits, fetch_add, fetch_add) \
	CHANGE(bits, fetch_sub, fetch_sub) \
	CHANGE(bits, fetch_and, fetch_and) \
	CHANGE(bits, fetch_or, fetch_or) \
	CHANGE(bits, fetch_xor, fetch_xor) \
	CHANGE(bits, fetch_nand, fetch_nand) \
	EXCHANGE(bits, compare_exchange_strong) \
	EXCHANGE(bits, compare_exchange_weak) \
	uint##bits##_t __tsan_atomic##bits##_compare_exchange_val(volatile uint##bits##_t *at, uint##bits##_t expected, uint##bits##_t value, int order, \
	    int otherwise) \
	{ \
		(void)otherwise; \
		access_by_language(at, sizeof(*at), KUPALDIZ_LOADS | KUPALDIZ_STORES | order_of(order), PC); \
		__atomic_compare_exchange_n(at, &expected, value, false, __ATOMIC_SEQ_CST, __ATOMIC_SEQ_CST); \
		return expected; \
	}

ATOMICS(8)
ATOMICS(16)
ATOMICS(32)
ATOMICS(64)

void __tsan_atomic_thread_fence(int order)
{
	access_by_language(NULL, 0, order_of(order), PC);
}

void __tsan_atomic_signal_fence(int order)
{
	(void)order;
}

/* ---- Programs that are linked with the flag, and files that are compiled without it. ---- */

const char *unseen_files[MOST_UNSEEN];
unsigned unseen_count;

/* The sanitizer's own library has it, and this one hasn't. */
void *__tsan_create_fiber(unsigned flags) __attribute__((weak));

void check_own_calls(void)
{
	refuse_if(__tsan_create_fiber != NULL, "the program is linked with -fsanitize=thread: compile with it, and link without it");
}

void kupaldiz_unseen(const char *file)
{
	if (unseen_count < MOST_UNSEEN)
		unseen_files[unseen_count] = file;
	unseen_count++;
}
