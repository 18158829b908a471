/* memory.c - kmem(9), pool(9), pool_cache(9) and percpu(9) */
#include "layer.h"

/* What stands before each block. */
struct head {
	size_t size;
	uint64_t mark;		/* its owner, while in use */
	size_t before;		/* from its memory's begin to the block */
	struct head *next;	/* of a cache's constructed objects that nobody uses */
};

struct pool_cache {
	struct pool pool;
	int (*make)(void *, void *, int);
	void (*end)(void *, void *);
	void *arg;
	pthread_mutex_t lock;	/* of what follows */
	struct head *constructed;
};

struct percpu {
	size_t size, stride;
	percpu_callback_t end;
	void *arg;
	char *blocks;	/* of all CPUs, each on lines of its own */
};

/* What marks the objects of a pool; with NULL, the blocks of kmem. */
static uint64_t mark_of(const struct pool *pool) { return 0x6b6d656d2d6c6976 ^ (uint64_t)(uintptr_t)pool; }

/* ---- kmem(9) ---- */

_Static_assert(sizeof(struct head) % _Alignof(max_align_t) == 0, "a block behind a head is aligned for any type");

static struct head *alloc_memory(size_t size, size_t align)
{
	size_t before = align > sizeof(struct head) ? align : sizeof(struct head);
	if (size > SIZE_MAX - before - align)
		return NULL;
	char *at = align == _Alignof(max_align_t) ? malloc(before + size) : aligned_alloc(align, (before + size + align - 1) / align * align);
	if (at == NULL)
		return NULL;
	struct head *head = (struct head *)(void *)(at + before) - 1;
	*head = (struct head){.size = size, .before = before};
	return head;
}

static void *alloc_block(struct thread *me, size_t size, bool sleeps, const struct pool *pool)
{
	stop_if(me, size == 0, "a block of no bytes");
	if (sleeps)
		require_sleepable(me);
	else if (FAILS())
		return NULL;
	/* A block is aligned to what its pool asks for; else to a line, if it is of whole lines, as a type is that begins a line; else to what fits any type. */
	size_t align = pool == NULL ? 0 : pool->pr_align;
	align = align == 0 && size % LINE == 0 ? LINE : align < _Alignof(max_align_t) ? _Alignof(max_align_t) : align;
	struct head *head = alloc_memory(size, align);
	stop_if(me, head == NULL && sleeps, "out of memory");
	if (head == NULL)
		return NULL;
	head->mark = mark_of(pool);
	return head + 1;
}

static void *kmem_block(struct thread *me, size_t size, km_flag_t flags)
{
	if ((flags & (KM_SLEEP | KM_NOSLEEP)) == 0 || (flags & (KM_SLEEP | KM_NOSLEEP)) == (KM_SLEEP | KM_NOSLEEP))
		stop(me, "neither KM_SLEEP nor KM_NOSLEEP alone");
	return alloc_block(me, size, (flags & KM_SLEEP) != 0, NULL);
}

static void *zeroed(void *block, size_t size) { return block == NULL ? NULL : memset(block, 0, size); }

static struct head *head_of(struct thread *me, void *block, const struct pool *pool)
{
	stop_if(me, block == NULL, "no block");
	struct head *head = (struct head *)block - 1;
	if (head->mark == mark_of(pool))
		return head;
	stop_if(me, pool != NULL, "no object of %s, or one that was given back", pool->pr_name);
	stop(me, "no block of kmem's, or one that was given back");
}

/* Gives the memory back without a mark. The compiler leaves out a plain store to what is freed then. */
static void free_head(struct head *head)
{
	__atomic_store_n(&head->mark, 0, __ATOMIC_RELAXED);
	free((char *)(head + 1) - head->before);
}

static void free_block(struct thread *me, void *block, size_t size)
{
	struct head *head = head_of(me, block, NULL);
	stop_if(me, head->size != size, "%zu bytes are given back of a block of %zu", size, head->size);
	free_head(head);
}

/* kmem_alloc and kmem_free aren't for interrupts. */
static struct thread *uninterrupted(struct thread *me)
{
	stop_if(me, me->softint, "in a soft interrupt");
	return me;
}

void *kmem_alloc(size_t size, km_flag_t flags)
{
	return kmem_block(uninterrupted(begin_call(__func__)), size, flags);
}

void *kmem_zalloc(size_t size, km_flag_t flags)
{
	return zeroed(kmem_block(uninterrupted(begin_call(__func__)), size, flags), size);
}

void kmem_free(void *block, size_t size) { free_block(uninterrupted(begin_call(__func__)), block, size); }
void *kmem_intr_alloc(size_t size, km_flag_t flags) { return kmem_block(begin_call(__func__), size, flags); }

void *kmem_intr_zalloc(size_t size, km_flag_t flags)
{
	return zeroed(kmem_block(begin_call(__func__), size, flags), size);
}

void kmem_intr_free(void *block, size_t size) { free_block(begin_call(__func__), block, size); }

char *kmem_strdupsize(const char *text, size_t *size, km_flag_t flags)
{
	size_t length = strlen(text) + 1;
	TELL_READ(text, length);
	char *copy = kmem_block(begin_plain(__func__), length, flags);
	if (copy != NULL)
		memcpy(copy, text, length);
	if (size != NULL) {
		TELL_WRITE(size, sizeof(*size));
		*size = length;
	}
	return copy;
}

void kmem_strfree(char *text)
{
	struct thread *me = begin_plain(__func__);
	if (text != NULL)
		free_block(me, text, strlen(text) + 1);
}

/* ---- pool(9) ---- */

void pool_init(struct pool *pool, size_t size, unsigned align, unsigned offset, int flags, const char *name, struct pool_allocator *from,
    int level)
{
	(void)offset;
	(void)from;
	*pool = (struct pool){.pr_name = name, .pr_size = size, .pr_align = align, .pr_level = level, .pr_flags = flags};
}

static void require_unused(struct thread *me, struct pool *pool)
{
	size_t out = __atomic_load_n(&pool->pr_out, __ATOMIC_ACQUIRE);
	stop_if(me, out != 0, "%zu objects of %s are in use", out, pool->pr_name);
}

static void *pool_alloc(struct thread *me, struct pool *pool, int flags)
{
	void *object = alloc_block(me, pool->pr_size, (flags & PR_WAITOK) != 0, pool);
	if (object == NULL)
		return NULL;
	__atomic_fetch_add(&pool->pr_out, 1, __ATOMIC_RELAXED);
	return (flags & PR_ZERO) != 0 ? memset(object, 0, pool->pr_size) : object;
}

static void pool_release(struct thread *me, struct pool *pool, void *object)
{
	free_head(head_of(me, object, pool));
	__atomic_fetch_sub(&pool->pr_out, 1, __ATOMIC_RELEASE);
}

void pool_destroy(struct pool *pool) { require_unused(begin_call(__func__), pool); }
void *pool_get(struct pool *pool, int flags) { return pool_alloc(begin_call(__func__), pool, flags); }
void pool_put(struct pool *pool, void *object) { pool_release(begin_call(__func__), pool, object); }

/* ---- pool_cache(9) ---- */

pool_cache_t pool_cache_init(size_t size, unsigned align, unsigned offset, unsigned flags, const char *name, struct pool_allocator *from,
    int level, int (*make)(void *, void *, int), void (*end)(void *, void *), void *arg)
{
	struct thread *me = sleepable(begin_call(__func__));
	struct pool_cache *cache = memory(me, sizeof(*cache));
	*cache = (struct pool_cache){.make = make, .end = end, .arg = arg};
	pool_init(&cache->pool, size, align, offset, (int)flags, name, from, level);
	pthread_mutex_init(&cache->lock, NULL);
	return cache;
}

/* Whether readers may still look at an object that was given back. */
static bool may_be_read(const struct pool_cache *cache)
{
	return (cache->pool.pr_flags & PR_PSERIALIZE) != 0;
}

static struct head *pop_constructed(pool_cache_t cache)
{
	pthread_mutex_lock(&cache->lock);
	struct head *head = cache->constructed;
	if (head != NULL)
		cache->constructed = head->next;
	pthread_mutex_unlock(&cache->lock);
	if (head != NULL && !may_be_read(cache))
		UNHIDE(head + 1, head->size);
	return head;
}

void pool_cache_destroy(pool_cache_t cache)
{
	struct thread *me = begin_call(__func__);
	struct head *head;
	require_unused(me, &cache->pool);
	if (may_be_read(cache)) {
		require_sleepable(me);
		struct sleep sleep = begin_sleep(me);
		await_sections(me);
		end_sleep(me, sleep);
	}
	while ((head = pop_constructed(cache)) != NULL) {
		if (cache->end != NULL)
			cache->end(cache->arg, head + 1);
		free_head(head);
	}
	pthread_mutex_destroy(&cache->lock);
	free(cache);
}

void *pool_cache_get(pool_cache_t cache, int flags)
{
	struct thread *me = begin_call(__func__);
	if ((flags & PR_WAITOK) != 0)
		require_sleepable(me);
	struct head *head = pop_constructed(cache);
	if (head == NULL) {
		void *object = pool_alloc(me, &cache->pool, flags);
		if (object == NULL || cache->make == NULL || cache->make(cache->arg, object, flags) == 0)
			return object;
		pool_release(me, &cache->pool, object);
		return NULL;
	}
	head->mark = mark_of(&cache->pool);
	__atomic_fetch_add(&cache->pool.pr_out, 1, __ATOMIC_RELAXED);
	return head + 1;
}

/* The object stays constructed. */
void pool_cache_put(pool_cache_t cache, void *object)
{
	struct thread *me = begin_call(__func__);
	struct head *head = head_of(me, object, &cache->pool);
	__atomic_store_n(&head->mark, 0, __ATOMIC_RELAXED);
	if (!may_be_read(cache))
		HIDE(object, head->size);
	pthread_mutex_lock(&cache->lock);
	head->next = cache->constructed;
	cache->constructed = head;
	pthread_mutex_unlock(&cache->lock);
	__atomic_fetch_sub(&cache->pool.pr_out, 1, __ATOMIC_RELEASE);
}

/* ---- percpu(9) ---- */

static void *own_of(const struct percpu *percpu, unsigned cpu)
{
	return percpu->blocks + cpu * percpu->stride;
}

static percpu_t *create(struct thread *me, size_t size, percpu_callback_t make, percpu_callback_t end, void *arg)
{
	require_sleepable(me);
	stop_if(me, size > SIZE_MAX / KUPALDIZ_CPUS - LINE, "out of memory");
	struct percpu *percpu = memory(me, sizeof(*percpu));
	size_t stride = (size + LINE - 1) / LINE * LINE;
	*percpu = (struct percpu){.size = size, .stride = stride, .end = end, .arg = arg};
	stop_if(me, posix_memalign((void **)&percpu->blocks, LINE, stride * KUPALDIZ_CPUS) != 0, "out of memory");
	memset(percpu->blocks, 0, stride * KUPALDIZ_CPUS);
	for (unsigned cpu = 0; cpu < KUPALDIZ_CPUS && make != NULL; cpu++)
		make(own_of(percpu, cpu), arg, &cpus[cpu].info);
	return percpu;
}

percpu_t *percpu_create(size_t size, percpu_callback_t make, percpu_callback_t end, void *arg)
{
	return create(begin_call(__func__), size, make, end, arg);
}

percpu_t *percpu_alloc(size_t size) { return create(begin_call(__func__), size, NULL, NULL, NULL); }

void percpu_free(percpu_t *percpu, size_t size)
{
	struct thread *me = sleepable(begin_call(__func__));
	stop_if(me, percpu->size != size, "%zu bytes are given back of %zu", size, percpu->size);
	for (unsigned cpu = 0; cpu < KUPALDIZ_CPUS && percpu->end != NULL; cpu++)
		percpu->end(own_of(percpu, cpu), percpu->arg, &cpus[cpu].info);
	free(percpu->blocks);
	free(percpu);
}

void *percpu_getref(percpu_t *percpu)
{
	struct thread *me = begin_plain(__func__);
	disable_preemption(me);
	return own_of(percpu, me->cpu->info.ci_index);
}

void percpu_putref(percpu_t *percpu)
{
	(void)percpu;
	enable_preemption(begin_call(__func__), "without a percpu_getref");
}

void percpu_foreach(percpu_t *percpu, percpu_callback_t look, void *arg)
{
	for (unsigned cpu = 0; cpu < KUPALDIZ_CPUS; cpu++)
		look(own_of(percpu, cpu), arg, &cpus[cpu].info);
}

struct visit {
	percpu_t *percpu;
	percpu_callback_t look;
};

static void visit_part(void *of, void *arg)
{
	struct visit *visit = of;
	unsigned cpu = cpu_number();
	visit->look(own_of(visit->percpu, cpu), arg, &cpus[cpu].info);
}

void percpu_foreach_xcall(percpu_t *percpu, unsigned flags, percpu_callback_t look, void *arg)
{
	struct visit each = {percpu, look};
	require_sleepable(begin_plain(__func__));
	/* xc_broadcast takes a place: not that of a call which this one is an argument of. */
	kupaldiz_at(NULL);
	xc_wait(xc_broadcast(flags, visit_part, &each, arg));
}
