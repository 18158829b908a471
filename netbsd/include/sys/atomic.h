/*
 * sys/atomic.h - atomic_loadstore(9), atomic_ops(3) and membar_ops(3), over the compiler's own
 *
 * What differs from the pages: each operation that returns or changes a word is as strong as its name in the kernel or stronger: those of
 * atomic_ops(3) order nothing there, and are sequentially consistent here.
 */
#ifndef KUPALDIZ_NETBSD_SYS_ATOMIC_H
#define KUPALDIZ_NETBSD_SYS_ATOMIC_H

#include "../kupaldiz/sys_types.h"

__BEGIN_DECLS

/* What a program hears of a fence that the thread sanitizer doesn't know. */
#if defined(__SANITIZE_THREAD__) && !defined(__clang__)
#pragma GCC diagnostic ignored "-Wtsan"
#endif

#define atomic_load_relaxed(at)	(__extension__({ KUPALDIZ_POINT(at, KUPALDIZ_LOADS); __atomic_load_n(at, __ATOMIC_RELAXED); }))
#define atomic_load_acquire(at)	(__extension__({ KUPALDIZ_POINT(at, KUPALDIZ_LOADS | KUPALDIZ_ACQUIRES); __atomic_load_n(at, __ATOMIC_ACQUIRE); }))
#define atomic_load_consume(at)	(__extension__({ KUPALDIZ_POINT(at, KUPALDIZ_LOADS | KUPALDIZ_ACQUIRES); __atomic_load_n(at, __ATOMIC_ACQUIRE); }))
#define atomic_store_relaxed(at, value)	(__extension__({ KUPALDIZ_POINT(at, KUPALDIZ_STORES); __atomic_store_n(at, value, __ATOMIC_RELAXED); }))
#define atomic_store_release(at, value)	(__extension__({ KUPALDIZ_POINT(at, KUPALDIZ_STORES | KUPALDIZ_RELEASES); __atomic_store_n(at, value, __ATOMIC_RELEASE); }))

static inline void membar_acquire(void)
{
	KUPALDIZ_BARRIER(KUPALDIZ_ACQUIRES);
	__atomic_thread_fence(__ATOMIC_ACQUIRE);
}

static inline void membar_release(void)
{
	KUPALDIZ_BARRIER(KUPALDIZ_RELEASES);
	__atomic_thread_fence(__ATOMIC_RELEASE);
}

static inline void membar_sync(void)
{
	KUPALDIZ_BARRIER(KUPALDIZ_ACQUIRES | KUPALDIZ_RELEASES);
	__atomic_thread_fence(__ATOMIC_SEQ_CST);
}

#define membar_producer()	membar_release()
#define membar_consumer()	membar_acquire()
#define membar_enter()		membar_sync()
#define membar_exit()		membar_release()
#define membar_datadep_consumer()	membar_acquire()

/* An operation that returns nothing, and the one that returns the new value. */
#define KUPALDIZ_CHANGE(name, type, parameters, change, value) \
	static inline void atomic_##name parameters \
	{ \
		KUPALDIZ_POINT(at, KUPALDIZ_EXCHANGES); \
		(void)change(at, value, __ATOMIC_SEQ_CST); \
	} \
	static inline type atomic_##name##_nv parameters \
	{ \
		KUPALDIZ_POINT(at, KUPALDIZ_EXCHANGES); \
		return (type)change(at, value, __ATOMIC_SEQ_CST); \
	}

/* All operations on a word of one type: what their names end with, the type; what that of an addition ends with, and the type of what is added. */
#define KUPALDIZ_ATOMICS(name, type, added, number) \
	KUPALDIZ_CHANGE(add_##added, type, (volatile type *at, number value), __atomic_add_fetch, (type)value) \
	KUPALDIZ_CHANGE(inc_##name, type, (volatile type *at), __atomic_add_fetch, 1) \
	KUPALDIZ_CHANGE(dec_##name, type, (volatile type *at), __atomic_sub_fetch, 1) \
	KUPALDIZ_CHANGE(or_##name, type, (volatile type *at, type bits), __atomic_or_fetch, bits) \
	KUPALDIZ_CHANGE(and_##name, type, (volatile type *at, type bits), __atomic_and_fetch, bits) \
	static inline type atomic_swap_##name(volatile type *at, type value) \
	{ \
		KUPALDIZ_POINT(at, KUPALDIZ_EXCHANGES); \
		return __atomic_exchange_n(at, value, __ATOMIC_SEQ_CST); \
	} \
	static inline type atomic_cas_##name(volatile type *at, type expected, type value) \
	{ \
		KUPALDIZ_POINT(at, KUPALDIZ_EXCHANGES); \
		__atomic_compare_exchange_n(at, &expected, value, false, __ATOMIC_SEQ_CST, __ATOMIC_SEQ_CST); \
		return expected; \
	} \
	static inline type atomic_cas_##name##_ni(volatile type *at, type expected, type value) \
	{ \
		return atomic_cas_##name(at, expected, value); \
	}

KUPALDIZ_ATOMICS(uint, unsigned, int, int)
KUPALDIZ_ATOMICS(ulong, unsigned long, long, long)
KUPALDIZ_ATOMICS(32, uint32_t, 32, int32_t)
KUPALDIZ_ATOMICS(64, uint64_t, 64, int64_t)

/* atomic_add_ptr, .. - of a word that holds an address, by bytes. */
static inline void *atomic_add_ptr_nv(volatile void *at, ptrdiff_t bytes)
{
	KUPALDIZ_POINT((void *volatile *)at, KUPALDIZ_EXCHANGES);
	return (void *)__atomic_add_fetch((volatile uintptr_t *)at, (uintptr_t)bytes, __ATOMIC_SEQ_CST);
}

static inline void atomic_add_ptr(volatile void *at, ptrdiff_t bytes) { (void)atomic_add_ptr_nv(at, bytes); }
static inline void *atomic_inc_ptr_nv(volatile void *at) { return atomic_add_ptr_nv(at, 1); }
static inline void atomic_inc_ptr(volatile void *at) { (void)atomic_add_ptr_nv(at, 1); }
static inline void *atomic_dec_ptr_nv(volatile void *at) { return atomic_add_ptr_nv(at, -1); }
static inline void atomic_dec_ptr(volatile void *at) { (void)atomic_add_ptr_nv(at, -1); }

static inline void *atomic_swap_ptr(volatile void *at, void *value)
{
	KUPALDIZ_POINT((void *volatile *)at, KUPALDIZ_EXCHANGES);
	return __atomic_exchange_n((void *volatile *)at, value, __ATOMIC_SEQ_CST);
}

static inline void *atomic_cas_ptr(volatile void *at, void *expected, void *value)
{
	KUPALDIZ_POINT((void *volatile *)at, KUPALDIZ_EXCHANGES);
	__atomic_compare_exchange_n((void *volatile *)at, &expected, value, false, __ATOMIC_SEQ_CST, __ATOMIC_SEQ_CST);
	return expected;
}

static inline void *atomic_cas_ptr_ni(volatile void *at, void *expected, void *value)
{
	return atomic_cas_ptr(at, expected, value);
}

__END_DECLS
#endif
