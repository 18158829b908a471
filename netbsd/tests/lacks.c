/*
 * lacks - memory, threads and keys that run out: a call that can say so does, and any other ends its process with its line. What was given back is
 * told, even if the heap uses it again. The linker leads what the layer asks the C library for here (--wrap).
 */
#include "stops.h"
#include "wraps.h"

#include "things.h"

static enum lack { NOTHING_LACKS, CALLOC, MALLOC, REALLOC, ALIGNED, THREADS, KEY, VALUE, AT_FORK } lacks;

/* A call that fails where it lacks. */
#define LACKS(what, type, failed, name, parameters, arguments) \
	type __real_##name parameters; \
	type __wrap_##name parameters { return lacks == what ? (failed) : __real_##name arguments; }

LACKS(MALLOC, void *, NULL, malloc, (size_t size), (size))
LACKS(CALLOC, void *, NULL, calloc, (size_t all, size_t size), (all, size))
LACKS(ALIGNED, int, ENOMEM, posix_memalign, (void **block, size_t align, size_t size), (block, align, size))
LACKS(REALLOC, void *, NULL, realloc, (void *block, size_t size), (block, size))
LACKS(THREADS, int, EAGAIN, pthread_create, (pthread_t *thread, const pthread_attr_t *how, void *(*body)(void *), void *arg), (thread, how, body, arg))
LACKS(KEY, int, EAGAIN, pthread_key_create, (pthread_key_t *key, void (*end)(void *)), (key, end))
LACKS(VALUE, int, ENOMEM, pthread_setspecific, (pthread_key_t key, const void *value), (key, value))
LACKS(AT_FORK, int, ENOMEM, pthread_atfork, (void (*before)(void), void (*parent)(void), void (*child)(void)), (before, parent, child))

static bool keeps;	/* free leaves what is freed as it is */

void __wrap_free(void *block)
{
	if (!keeps)
		__real_free(block);
}

static callout_t callout;
static struct pool pool;

/* The layer isn't called before the case. */
static void begin(void) { }

/* The layer is open, with a live target and a live count. From now on something lacks. */
static void open_without(enum lack what)
{
	kupaldiz_bind(0);
	make_things(IPL_NONE);
	lacks = what;
}

HANDLER(nothing, (void)0)

/* ---- The first call of a process, and of a thread. ---- */

ENDS("kupaldiz_netbsd: no key of a thread is left", lacks = KEY; kupaldiz_bind(0))
ENDS("kupaldiz_netbsd: out of memory", lacks = AT_FORK; kupaldiz_bind(0))
THREAD(bind_without_memory, lacks = CALLOC; kupaldiz_bind(1))
STOPS("kupaldiz_bind: out of memory", open_without(NOTHING_LACKS); on_thread(bind_without_memory))
THREAD(bind_without_value, lacks = VALUE; kupaldiz_bind(1))
STOPS("kupaldiz_bind: out of memory", open_without(NOTHING_LACKS); on_thread(bind_without_value))

STOPS("psref_class_create: out of memory", open_without(CALLOC); psref_class_create("other", IPL_NONE))
STOPS("psref_acquire: out of memory", struct psref psref; open_without(REALLOC); psref_acquire(&psref, &target, things))
STOPS("localcount_init: out of memory", struct localcount other; open_without(ALIGNED); localcount_init(&other))
/* The table of those that are live grows. */
STOPS("psref_target_init: out of memory",
    static struct psref_target many[100]; open_without(REALLOC);
    for (unsigned at = 0; at < 100; at++)
	    psref_target_init(&many[at], things))
STOPS("kmem_alloc: out of memory", open_without(MALLOC); kmem_alloc(8, KM_SLEEP))
STOPS("percpu_alloc: out of memory", open_without(ALIGNED); percpu_alloc(8))
STOPS("softint_schedule: no thread is left",
    open_without(NOTHING_LACKS); void *cookie = softint_establish(SOFTINT_NET, nothing, NULL); lacks = THREADS; softint_schedule(cookie))
ENDS("callout_init: out of memory", open_without(THREADS); callout_init(&callout, CALLOUT_MPSAFE))
ENDS("callout_init: out of memory", open_without(CALLOC); callout_init(&callout, CALLOUT_MPSAFE))
/* The clock's thread begins the soft interrupts of a CPU, for a callout that is due there. */
ENDS("callout: no thread is left",
    open_without(NOTHING_LACKS); callout_init(&callout, CALLOUT_MPSAFE); lacks = THREADS; callout_reset(&callout, 1, nothing, NULL);
    stay_here())

static void require_no_memory(void)
{
	size_t size = 0;
	open_without(NOTHING_LACKS);
	pool_init(&pool, 24, 0, 0, 0, "thingpl", NULL, IPL_NONE);
	pool_cache_t cache = pool_cache_init(24, 0, 0, 0, "thingpl", NULL, IPL_NONE, NULL, NULL, NULL);
	lacks = MALLOC;
	EXPECT(kmem_alloc(8, KM_NOSLEEP) == NULL && kmem_zalloc(8, KM_NOSLEEP) == NULL);
	EXPECT(kmem_intr_alloc(8, KM_NOSLEEP) == NULL && kmem_intr_zalloc(8, KM_NOSLEEP) == NULL);
	EXPECT(kmem_strdupsize("text", &size, KM_NOSLEEP) == NULL);
	EXPECT(pool_get(&pool, PR_NOWAIT) == NULL && pool_get(&pool, PR_NOWAIT | PR_ZERO) == NULL && pool_cache_get(cache, PR_NOWAIT) == NULL);
	lacks = NOTHING_LACKS;
	pool_destroy(&pool);
	pool_cache_destroy(cache);
}
STOPS("panic: memory was told to be out", require_no_memory(); panic("memory was told to be out"))

static void do_no_work(struct work *work, void *arg) { (void)work; (void)arg; }

static void require_no_threads(void)
{
	lwp_t *made = NULL;
	struct workqueue *queue = NULL;
	open_without(THREADS);
	EXPECT(kthread_create(PRI_NONE, 0, NULL, nothing, NULL, NULL, "worker") == EAGAIN);
	EXPECT(kthread_create(PRI_NONE, KTHREAD_MUSTJOIN, NULL, nothing, NULL, &made, "worker") == EAGAIN && made == NULL);
	EXPECT(workqueue_create(&queue, "queue", do_no_work, NULL, PRI_NONE, IPL_NONE, WQ_MPSAFE) == ENOMEM && queue == NULL);
	lacks = CALLOC;
	EXPECT(softint_establish(SOFTINT_NET, nothing, NULL) == NULL);
	lacks = NOTHING_LACKS;
}
STOPS("panic: threads were told to be out", require_no_threads(); panic("threads were told to be out"))

STOPS("kmem_free: no block of kmem's, or one that was given back",
    void *block = kmem_alloc(32, KM_SLEEP); keeps = true; kmem_free(block, 32); kmem_free(block, 32))
STOPS("pool_put: no object of thingpl, or one that was given back",
    pool_init(&pool, 24, 0, 0, 0, "thingpl", NULL, IPL_NONE); void *object = pool_get(&pool, PR_WAITOK); keeps = true; pool_put(&pool, object);
    pool_put(&pool, object))
STOPS("pool_cache_put: no object of thingpl, or one that was given back",
    pool_cache_t cache = pool_cache_init(24, 0, 0, 0, "thingpl", NULL, IPL_NONE, NULL, NULL, NULL); void *object = pool_cache_get(cache, PR_WAITOK);
    keeps = true; pool_cache_put(cache, object); pool_cache_put(cache, object))

STOPS("percpu_create: inside a read section, entered at PLACE", pserialize_read_enter(); percpu_create(8, NULL, NULL, NULL))
/* More than all memory, by itself, and once it is there for each CPU. */
STOPS("percpu_alloc: out of memory", percpu_alloc(SIZE_MAX))
STOPS("percpu_create: out of memory", percpu_create(SIZE_MAX / KUPALDIZ_CPUS + 1, NULL, NULL, NULL))
static void look(void *own, void *arg, struct cpu_info *cpu) { EXPECT(own != NULL && arg == NULL && cpu != NULL); }
ENDS("percpu_foreach_xcall: inside a read section, entered at PLACE",
    percpu_t *percpu = percpu_alloc(8); pserialize_read_enter(); percpu_foreach_xcall(percpu, 0, look, NULL))
/* The place is that of the call whose argument visits each CPU. */
static void *visit_all(void) { percpu_foreach_xcall(percpu_alloc(8), 0, look, NULL); return NULL; }
STOPS("kmem_free: no block", kmem_free(visit_all(), 8))

int main(void) { return run_cases(begin); }
