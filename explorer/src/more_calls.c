/* more_calls.c - the layer's other calls: memory, CPUs, soft interrupts, callouts, threads, works, time, calls of CPUs */
#include "inside.h"

/* ---- kmem(9), pool(9), percpu(9). ---- */

LAYER(void, percpu_foreach, (percpu_t *percpu, percpu_callback_t look, void *arg));

static void at_block(const char *call, const void *block, size_t size)
{
	at_call(call);
	if (block == NULL)
		return;
	const struct use use = {.verb = "frees", .place = run.current->place, .writes = true};
	check_live(call, block, 1);
	check_none_made(call, block, size);
	touch_memory(block, size, WRITES);
	use_memory(block, size, &use);
}

WRAPPED(void *, kmem_alloc, (size_t size, km_flag_t flags), (size, flags), at_call(__func__))
WRAPPED(void *, kmem_zalloc, (size_t size, km_flag_t flags), (size, flags), at_call(__func__))
WRAPPED(void *, kmem_intr_alloc, (size_t size, km_flag_t flags), (size, flags), at_call(__func__))
WRAPPED(void *, kmem_intr_zalloc, (size_t size, km_flag_t flags), (size, flags), at_call(__func__))
WRAPPED(char *, kmem_strdupsize, (const char *text, size_t *size, km_flag_t flags), (text, size, flags),
    at_call(__func__))
WRAPPED(void, kmem_strfree, (char *text), (text), at_block(__func__, text, size_of_block(text)))
WRAPPED(void, kmem_free, (void *block, size_t size), (block, size), at_block(__func__, block, size))
WRAPPED(void, kmem_intr_free, (void *block, size_t size), (block, size), at_block(__func__, block, size))

/* What a pool has out is one of its words. A cache gives out first what was given back last. */
static void at_pool(const char *call, const struct pool *pool, unsigned how)
{
	at_call(call);
	check_made(call, pool, sizeof(*pool));
	touch_memory(&pool->pr_out, sizeof(pool->pr_out), how);
}

static struct pool *pool_of(pool_cache_t cache)
{
	return (struct pool *)(void *)cache;
}

/* This has no point. */
WRAPPED(void, pool_init, (struct pool *pool, size_t size, unsigned align, unsigned offset, int flags, const char *name, struct pool_allocator *from, int level),
    (pool, size, align, offset, flags, name, from, level), note_init(__func__, pool, sizeof(*pool), __builtin_return_address(0)))
WRAPPED(void *, pool_get, (struct pool *pool, int flags), (pool, flags), at_pool(__func__, pool, 0))
WRAPPED(void *, pool_cache_get, (pool_cache_t cache, int flags), (cache, flags),
    at_pool(__func__, pool_of(cache), WRITES); acquire_clock(ON_MEMORY, &pool_of(cache)->pr_out, 0))
WRAPPED(void, pool_destroy, (struct pool *pool), (pool), at_pool(__func__, pool, WRITES))
WRAPPED(void, pool_cache_destroy, (pool_cache_t cache), (cache), at_pool(__func__, pool_of(cache), 0))
WRAPPED(void, pool_put, (struct pool *pool, void *object), (pool, object),
    at_block(__func__, object, pool->pr_size); touch_memory(&pool->pr_out, sizeof(pool->pr_out), 0))

/* With PR_PSERIALIZE readers may still look at the object, until the end of the cache. */
static void at_cache_put(const char *call, const struct pool *pool, const void *object)
{
	if ((pool->pr_flags & PR_PSERIALIZE) == 0) {
		at_block(call, object, pool->pr_size);
	} else {
		at_call(call);
		check_live(call, object, 1);
		check_none_made(call, object, pool->pr_size);
	}
	touch_memory(&pool->pr_out, sizeof(pool->pr_out), WRITES);
	release_clock(ON_MEMORY, &pool->pr_out, 0);
}

WRAPPED(void, pool_cache_put, (pool_cache_t cache, void *object), (cache, object), at_cache_put(__func__, pool_of(cache), object))

WRAPPED(void *, percpu_getref, (percpu_t *percpu), (percpu), at_cpu(__func__); check_live(__func__, percpu, 1))
WRAPPED(void, percpu_putref, (percpu_t *percpu), (percpu), at_live(__func__, percpu, 1))
WRAPPED(void, percpu_free, (percpu_t *percpu, size_t size), (percpu, size), at_live(__func__, percpu, 1))

struct look {
	const percpu_t *percpu;
	percpu_callback_t look;
	void *arg;
};

/* The look at each part is a point of its own: the CPUs go on meanwhile. */
static void look_at(void *own, void *of, struct cpu_info *cpu)
{
	const struct look *each = of;
	at_live("percpu_foreach", each->percpu, 1);
	each->look(own, each->arg, cpu);
}

void percpu_foreach(percpu_t *percpu, percpu_callback_t look, void *arg)
{
	struct look each = {percpu, look, arg};
	layer_percpu_foreach(percpu, look_at, &each);
}

/* ---- CPUs, softint(9). ---- */

static void touch_bound(const struct cpu *cpu)
{
	touch(ON_BOUND, NULL, cpu->info.ci_index, WRITES);
}

/* A thread looks for a CPU with fewer bound threads only if its own has some. */
static void look_for_cpu(const struct thread *self)
{
	if (self != NULL && !is_bound(self) && self->cpu->bound > 0)
		touch(ON_BOUND, NULL, ANY, 0);
}

static void end_bound(const struct thread *self)
{
	if (self != NULL)
		touch_bound(self->cpu);
}

/* These have no point. */
ANSWERED(int, curlwp_bind, (void), (), look_for_cpu(here(__func__)->self), touch_bound(here(__func__)->self->cpu))
WRAPPED(void, curlwp_bindx, (int bound), (bound), const struct routine *me = here(__func__); if (!bound) end_bound(me->self))
WRAPPED(void, kupaldiz_bind, (unsigned cpu), (cpu), (void)here(__func__); if (cpu < KUPALDIZ_CPUS) touch_bound(&cpus[cpu]))
WRAPPED(void, kupaldiz_unbind, (void), (), end_bound(here(__func__)->self))
WRAPPED(void, kpreempt_disable, (void), (), at_cpu(__func__))
WRAPPED(void, kpreempt_enable, (void), (), at_call(__func__))

/* A new level lets soft interrupts of the CPU go on, or keeps them off. */
WRAPPED(int, kupaldiz_splraise, (int level), (level), at_cpu("splraise"); acquire_clock(ON_LOCK, &run.current->self->cpu->hold, 0))
WRAPPED(void, splx, (int level), (level), at_call(__func__); release_clock(ON_LOCK, &run.current->self->cpu->hold, 0))
WRAPPED(void, softint_schedule, (void *cookie), (cookie), at_cpu(__func__))

LAYER(void, softint_disestablish, (void *cookie));

void softint_disestablish(void *cookie)
{
	IN_CALL;
	at_call(__func__);
	touch(ON_PENDING, NULL, ANY, WRITES);
	layer_softint_disestablish(cookie);
	for (unsigned cpu = 0; cpu < KUPALDIZ_CPUS; cpu++)
		acquire_clock(ON_PENDING, NULL, cpu);
}

/* Each CPU is a point of its own. */
AROUND(void, percpu_foreach_xcall, (percpu_t *percpu, unsigned flags, percpu_callback_t look, void *arg), (percpu, flags, look, arg),
    at_call(__func__); run.current->visits = true, run.current->visits = false)

/* ---- callout(9), kthread(9), time and copies. ---- */

LAYER(void, delay, (unsigned microseconds));

/* The layer's own soft interrupt for callouts is never ended. */
AROUND(void, callout_init, (callout_t *callout, unsigned flags), (callout, flags),
    track_init(__func__, callout, sizeof(*callout), __builtin_return_address(0)); run.own_memory = true,
    run.own_memory = false)
WRAPPED(void, callout_destroy, (callout_t *callout), (callout), LIVE(callout); track_ended(callout))
WRAPPED(void, callout_setfunc, (callout_t *callout, void (*body)(void *), void *arg), (callout, body, arg),
    LIVE(callout))
WRAPPED(void, callout_reset, (callout_t *callout, int ticks, void (*body)(void *), void *arg),
    (callout, ticks, body, arg), LIVE(callout))
WRAPPED(void, callout_schedule, (callout_t *callout, int ticks), (callout, ticks), LIVE(callout))
WRAPPED(bool, callout_stop, (callout_t *callout), (callout), LIVE(callout))
WRAPPED(bool, callout_halt, (callout_t *callout, void *interlock), (callout, interlock), LIVE(callout))
WRAPPED(bool, callout_pending, (callout_t *callout), (callout), LIVE(callout))
WRAPPED(bool, callout_expired, (callout_t *callout), (callout), LIVE(callout))
WRAPPED(bool, callout_active, (callout_t *callout), (callout), LIVE(callout))
WRAPPED(bool, callout_invoking, (callout_t *callout), (callout), LIVE(callout))
WRAPPED(void, callout_ack, (callout_t *callout), (callout), LIVE(callout))
WRAPPED(int, getticks, (void), (), at_call(__func__))
WRAPPED(time_t, getuptime, (void), (), at_call(__func__))
WRAPPED(int, kthread_join, (lwp_t *thread), (thread), at_call(__func__))
WRAPPED(int, kpause, (const char *name, bool interruptible, int ticks, kmutex_t *mutex),
    (name, interruptible, ticks, mutex), at_call(__func__))

void delay(unsigned microseconds)
{
	IN_CALL;
	at_call(__func__);
	sleep_until(run.time + (int64_t)microseconds * 1000);
}

WRAPPED(int, copyin, (const void *user, void *kernel, size_t length), (user, kernel, length), at_call(__func__))
WRAPPED(int, copyout, (const void *kernel, void *user, size_t length), (kernel, user, length), at_call(__func__))
WRAPPED(int, copyinstr, (const void *user, void *kernel, size_t length, size_t *copied), (user, kernel, length, copied),
    at_call(__func__))
WRAPPED(int, copyoutstr, (const void *kernel, void *user, size_t length, size_t *copied),
    (kernel, user, length, copied), at_call(__func__))

/* ---- workqueue(9): a queue's thread is the layer's own. ---- */

/* Memory with a work isn't given back before the work's function is called. A work is in one queue at a time, of which the layer sees only the own one. */
static void at_enqueue(const char *call, const struct workqueue *queue, const struct work *work)
{
	at_live(call, queue, 1);
	check_live(call, work, sizeof(*work));
	touch(ON_TARGET, work, 0, WRITES);
	const struct thing *row = row_with(THINGS, (uintptr_t)work);
	if (row != NULL && row->must_end)
		stop_at(call, run.current->place, "the work is enqueued already");
}

void explorer_dequeue(const struct work *work)
{
	touch(ON_TARGET, work, 0, WRITES);
	track_ended(work);
}

AROUND(void, workqueue_enqueue, (struct workqueue *queue, struct work *work, struct cpu_info *cpu), (queue, work, cpu),
    at_enqueue(__func__, queue, work), track_made(__func__, work, __builtin_return_address(0)))

WRAPPED(void, workqueue_wait, (struct workqueue *queue, struct work *work), (queue, work),
    at_live(__func__, queue, 1))
WRAPPED(void, workqueue_destroy, (struct workqueue *queue), (queue), at_live(__func__, queue, 1))

/* ---- xcall(9) is asynchronous: a thread of the explorer's own goes to the CPUs, by the layer's own calls, while the caller goes on until its xc_wait. ---- */

LAYER(uint64_t, xc_broadcast, (unsigned flags, xcfunc_t body, void *arg_a, void *arg_b));
LAYER(uint64_t, xc_unicast, (unsigned flags, xcfunc_t body, void *arg_a, void *arg_b, struct cpu_info *cpu));
LAYER(void, xc_wait, (uint64_t ticket));

struct xcall {
	struct xcall *next;
	unsigned flags;
	xcfunc_t body;
	void *arg_a, *arg_b;
	struct cpu_info *cpu;	/* NULL for all */
	const char *place;
};

static struct xcall *first, **last = &first;
static uint64_t asked, made;
struct routine *xcaller;	/* its thread */

enum { ASKED = 1, MADE };	/* what is touched of a call, by its number */

static bool has_xcall(const struct routine *me)
{
	(void)me;
	return first != NULL;
}

bool is_xcall_complete(const struct routine *me)
{
	return made >= me->noted;
}

static void make_calls(void *arg)
{
	(void)arg;
	(void)named_thread("xcall", "xcall");
	for (;;) {
		point("xcall", NULL, has_xcall, NULL);
		touch(ON_XCALL, (const void *)(uintptr_t)(made + 1), ASKED, ACQUIRES | WAITED);
		const struct xcall *xcall = first;
		first = xcall->next;
		if (first == NULL)
			last = &first;
		run.current->visits = true;
		/* xc_broadcast takes a place, and xc_unicast none. */
		if (xcall->cpu == NULL) {
			kupaldiz_at(xcall->place);
			layer_xc_broadcast(xcall->flags, xcall->body, xcall->arg_a, xcall->arg_b);
		} else {
			layer_xc_unicast(xcall->flags, xcall->body, xcall->arg_a, xcall->arg_b, xcall->cpu);
		}
		run.current->visits = false;
		made++;
		touch(ON_XCALL, (const void *)(uintptr_t)made, MADE, WRITES | RELEASES);
	}
}

static uint64_t enqueue_xcall(const struct xcall *asked_for)
{
	struct xcall *xcall = explorer_allocate(sizeof(*xcall), 16, false);
	if (xcaller == NULL)
		xcaller = make_routine("xcall", make_calls, NULL, true);
	start_routines();
	*xcall = *asked_for;
	*last = xcall;
	last = &xcall->next;
	/* Who asks later is behind; the thread waits for this call alone. */
	touch(ON_XCALL, NULL, 0, WRITES);
	touch(ON_XCALL, (const void *)(uintptr_t)++asked, ASKED, WRITES | RELEASES);
	return asked;
}

uint64_t xc_broadcast(unsigned flags, xcfunc_t body, void *arg_a, void *arg_b)
{
	IN_CALL;
	at_call(__func__);
	const struct thread *me = begin_call(__func__);
	require_sleepable(me);
	return enqueue_xcall(&(struct xcall){.flags = flags, .body = body, .arg_a = arg_a, .arg_b = arg_b, .place = me->place});
}

uint64_t xc_unicast(unsigned flags, xcfunc_t body, void *arg_a, void *arg_b, struct cpu_info *cpu)
{
	IN_CALL;
	at_call(__func__);
	require_sleepable(begin_plain(__func__));
	return enqueue_xcall(&(struct xcall){.flags = flags, .body = body, .arg_a = arg_a, .arg_b = arg_b, .cpu = cpu});
}

void xc_wait(uint64_t ticket)
{
	IN_CALL;
	struct routine *me = here(__func__);
	struct thread *self = begin_plain(__func__);
	require_sleepable(self);
	stop_if(self, ticket == 0 || ticket > asked, "no such call");
	if (self->kernel_locks > 0)
		at_call(__func__);
	struct sleep sleep = begin_sleep(self);
	me->noted = ticket;
	point(__func__, NULL, is_xcall_complete, NULL);
	touch(ON_XCALL, (const void *)(uintptr_t)ticket, MADE, ACQUIRES | WAITED);
	end_sleep(self, sleep);
}

/* It goes to each CPU in turn: each is a point of its own. */
AROUND(void, xc_barrier, (unsigned flags), (flags), at_call(__func__); run.current->visits = true, run.current->visits = false)
