/*
 * memory.h - kmem(9), pool(9), pool_cache(9) and percpu(9), over the heap
 *
 * Each block knows its size, and what is given back with another one stops. Memory with KM_SLEEP or PR_WAITOK never fails: the call stops
 * where the heap has none, and where the thread mustn't sleep.
 */
#ifndef KUPALDIZ_NETBSD_MEMORY_H
#define KUPALDIZ_NETBSD_MEMORY_H

#include "cpu.h"

__BEGIN_DECLS

typedef unsigned km_flag_t;
#define KM_SLEEP	0x01u
#define KM_NOSLEEP	0x02u

/* kmem_alloc - a block of that size, aligned for any type; to 64 bytes if its size is a multiple of 64. With KM_NOSLEEP it returns NULL where memory runs
 * out. Stops with size 0 and in a soft interrupt. */
void *kmem_alloc(size_t size, km_flag_t flags);

/* kmem_zalloc - the same, of zeros. */
void *kmem_zalloc(size_t size, km_flag_t flags);

/* kmem_free - give a block back, with its size. Stops where it is NULL or no block, and where it has another size. */
void kmem_free(void *block, size_t size);

/* kmem_intr_alloc, kmem_intr_zalloc, kmem_intr_free - the same, in a soft interrupt too, where only KM_NOSLEEP is right. */
void *kmem_intr_alloc(size_t size, km_flag_t flags);
void *kmem_intr_zalloc(size_t size, km_flag_t flags);
void kmem_intr_free(void *block, size_t size);

/* kmem_strdupsize - a copy of a text; its size, with the zero, is written to `size` where that isn't NULL. */
char *kmem_strdupsize(const char *text, size_t *size, km_flag_t flags);

/* kmem_strdup - a copy of a text. */
#define kmem_strdup(text, flags)	kmem_strdupsize(text, NULL, flags)

/* kmem_strfree - give such a copy back. */
void kmem_strfree(char *text);

/* ---- pool(9) and pool_cache(9): objects of one size. ---- */

#define PR_WAITOK	0x01
#define PR_NOWAIT	0x02
#define PR_ZERO		0x8000

/* Of pool_init and pool_cache_init. PR_PSERIALIZE: readers in read sections may still look at an object that was given back. The others change nothing. */
#define PR_LIMITFAIL	0x100
#define PR_RECURSIVE	0x200
#define PR_NOTOUCH	0x400
#define PR_NOALIGN	0x800
#define PR_LARGECACHE	0x1000
#define PR_PSERIALIZE	0x20000

struct pool_allocator;

/* A pool. Only the calls look into it. */
struct pool {
	const char *pr_name;
	size_t pr_size;
	size_t pr_align;
	size_t pr_out;	/* objects that are in use */
	int pr_level;
	int pr_flags;
};

typedef struct pool_cache *pool_cache_t;

/* pool_init - make a pool of objects of that size, aligned to `align` bytes; with 0, as kmem_alloc aligns. Its name appears in lines and isn't copied. The
 * other parameters and flags change nothing. */
void pool_init(struct pool *pool, size_t size, unsigned align, unsigned offset, int flags, const char *name, struct pool_allocator *from, int level);

/* pool_destroy - end it. Stops where an object is in use. */
void pool_destroy(struct pool *pool);

/* pool_get - an object. With PR_NOWAIT it returns NULL where memory runs out. */
void *pool_get(struct pool *pool, int flags);

/* pool_put - give an object back. Stops where it is none of the pool's. */
void pool_put(struct pool *pool, void *object);

/* pool_cache_init - make a cache of objects that `make` constructs once and `end` ends at pool_cache_destroy; both may be NULL. Stops where the thread
 * mustn't sleep. */
pool_cache_t pool_cache_init(size_t size, unsigned align, unsigned offset, unsigned flags, const char *name, struct pool_allocator *from, int level, int (*make)(void *, void *, int), void (*end)(void *, void *), void *arg);

/* pool_cache_destroy - end it; with PR_PSERIALIZE it waits for read sections first. Stops where an object is in use, and, if it waits, where the thread
 * mustn't sleep. */
void pool_cache_destroy(pool_cache_t cache);

/* pool_cache_get - a constructed object: one that was given back, as it was then, or a new one. NULL where memory runs out, or `make` fails. */
void *pool_cache_get(pool_cache_t cache, int flags);

/* pool_cache_put - give an object back, in the state in which it was constructed: the next pool_cache_get returns it so. Stops where it is none of the
 * cache's. */
void pool_cache_put(pool_cache_t cache, void *object);

/* ---- percpu(9): memory that each CPU has a part of. ---- */

typedef struct percpu percpu_t;
typedef void (*percpu_callback_t)(void *, void *, struct cpu_info *);

/* percpu_alloc - zeros of that size for each CPU. Stops where the thread mustn't sleep. */
percpu_t *percpu_alloc(size_t size);

/* percpu_create - the same, and `make(its own, arg, cpu)` for each CPU; `end` likewise at percpu_free. */
percpu_t *percpu_create(size_t size, percpu_callback_t make, percpu_callback_t end, void *arg);

/* percpu_free - end it, with its size. Stops where the thread mustn't sleep. */
void percpu_free(percpu_t *percpu, size_t size);

/* percpu_getref - this CPU's own memory. Preemption is disabled until percpu_putref, so the thread mustn't sleep. */
void *percpu_getref(percpu_t *percpu);

/* percpu_putref - undo a percpu_getref. */
void percpu_putref(percpu_t *percpu);

/* percpu_foreach - call `look(its own, arg, cpu)` for each CPU, on this thread, while other threads run. */
void percpu_foreach(percpu_t *percpu, percpu_callback_t look, void *arg);

/* percpu_foreach_xcall - the same, each on its CPU, as xc_broadcast does. */
void percpu_foreach_xcall(percpu_t *percpu, unsigned flags, percpu_callback_t look, void *arg);

#define KUPALDIZ_PLACES_OF_MEMORY
#include <kupaldiz/places.h>

__END_DECLS
#endif
