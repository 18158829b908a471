/*
 * programs - written and random programs come to the same outcomes, faults and deadlocks with the reduction and without
 *
 *     programs SECONDS [FIRST]     those that are written here, and random ones with the seeds from FIRST on, for so long
 *     programs count COUNT FIRST   so many that were compared to their end
 *     programs seed FIRST          that one alone, with what it comes to
 *
 * A program has two or three threads, each bound to a CPU or not. A thread does one thing of a list, with up to two simpler ones before and after it. Of one
 * that has too many orders some are tried, by few preemptions and by random priorities: what they come to is among what the reduction comes to.
 */
#include <stdlib.h>
#include <sys/once.h>

#include "compare.h"
#include "deeds.h"

/* What is seen has a row for each thread, and for the threads of works, of calls, and of soft interrupts on the first three CPUs. */
enum { MOST = 3, LONGEST = 5, OF_WORK = MOST, OF_CALL, OF_SOFTINT, ROWS_SEEN = OF_SOFTINT + 3, ROOM = 9, FEW = 3 };

static void *softints[3];
static struct work works[MOST];
MODULE_HOOK(hook, unsigned, (void));
struct hook_t hook;

static char seen[ROWS_SEEN][ROOM];
static unsigned count[ROWS_SEEN];

UNSEEN static void observe(unsigned row, unsigned value)
{
	if (count[row] < (row < MOST ? ROOM - 1 : FEW))
		seen[row][count[row]++] = (char)(value == 0 ? '-' : 'a' + (value - 1) % 26);
}

static void store(unsigned at, unsigned value) { atomic_store_relaxed(&words[at], value); }

/* ---- What a thread does. ---- */

static void load_0(unsigned thread) { observe(thread, load(0)); }
static void load_1(unsigned thread) { observe(thread, load(1)); }
static void store_0(unsigned thread) { store(0, thread + 1); }
static void store_1(unsigned thread) { store(1, thread + 1); }
static void add_0(unsigned thread) { observe(thread, atomic_inc_uint_nv(&words[0])); }

static void lock_and_load(unsigned thread)
{
	mutex_enter(&locks[0]);
	observe(thread, load(0));
	mutex_exit(&locks[0]);
}

static void lock_and_store(unsigned thread)
{
	mutex_enter(&locks[0]);
	store(1, thread + 4);
	mutex_exit(&locks[0]);
}

static void lock_both(unsigned thread, unsigned first)
{
	mutex_enter(&locks[first]);
	mutex_enter(&locks[1 - first]);
	observe(thread, load(first));
	mutex_exit(&locks[1 - first]);
	mutex_exit(&locks[first]);
}

static void lock_01(unsigned thread) { lock_both(thread, 0); }
static void lock_10(unsigned thread) { lock_both(thread, 1); }

static void try_lock(unsigned thread)
{
	int got = mutex_tryenter(&locks[0]);
	observe(thread, (unsigned)got);
	if (got)
		mutex_exit(&locks[0]);
}

static void spin_and_load(unsigned thread)
{
	mutex_enter(&spin);
	observe(thread, load(1));
	mutex_exit(&spin);
}

static void spin_and_store(unsigned thread)
{
	mutex_enter(&spin);
	store(0, thread + 7);
	mutex_exit(&spin);
}

static void read_lock(unsigned thread)
{
	rw_enter(&rw, RW_READER);
	observe(thread, load(0));
	rw_exit(&rw);
}

static void write_lock(unsigned thread)
{
	rw_enter(&rw, RW_WRITER);
	store(0, thread + 10);
	rw_exit(&rw);
}

static void read_section(unsigned thread)
{
	int s = pserialize_read_enter();
	observe(thread, load(0));
	pserialize_read_exit(s);
}

static void read_section_twice(unsigned thread)
{
	int s = pserialize_read_enter();
	observe(thread, load(0));
	observe(thread, load(1));
	pserialize_read_exit(s);
}

static void perform(unsigned thread) { (void)thread; pserialize_perform(psz); }
static void barrier(unsigned thread) { (void)thread; xc_barrier(0); }

static void store_by_call(void *value, void *at) { store((unsigned)(uintptr_t)at, (unsigned)(uintptr_t)value); }
static void load_by_call(void *at, void *of) { observe(OF_CALL, load((unsigned)(uintptr_t)at)); (void)of; }
static void do_nothing(void *one, void *other) { (void)one; (void)other; }
static uint64_t ask_all(unsigned thread) { return xc_broadcast(0, store_by_call, (void *)(uintptr_t)(thread + 13), NULL); }

static uint64_t ask_one(unsigned thread, unsigned flags, unsigned cpu)
{
	return xc_unicast(flags, store_by_call, (void *)(uintptr_t)(thread + 16), (void *)(uintptr_t)cpu, kupaldiz_cpu(cpu));
}

static void call_all(unsigned thread) { xc_wait(ask_all(thread)); }
static void call_all_later(unsigned thread) { uint64_t ticket = ask_all(thread); load_0(thread); xc_wait(ticket); }
static void call_nobody(unsigned thread) { (void)thread; xc_wait(xc_broadcast(0, do_nothing, NULL, NULL)); }
static void call_one(unsigned thread) { xc_wait(ask_one(thread, 0, 0)); }
static void call_other(unsigned thread) { xc_wait(ask_one(thread, 0, 1)); }
static void call_one_above(unsigned thread) { xc_wait(ask_one(thread, XC_HIGHPRI, 0)); }
static void call_one_later(unsigned thread) { uint64_t ticket = ask_one(thread, 0, 0); load_0(thread); xc_wait(ticket); }
static void call_one_alone(unsigned thread) { (void)ask_one(thread, 0, 0); }
static void call_to_load(unsigned thread) { (void)thread; xc_wait(xc_unicast(0, load_by_call, NULL, NULL, kupaldiz_cpu(0))); }
static void call_one_for_nothing(unsigned thread) { (void)thread; xc_wait(xc_unicast(0, do_nothing, NULL, NULL, kupaldiz_cpu(5))); }

static void look_at(void *own, void *thread, struct cpu_info *cpu)
{
	(void)own;
	if (cpu_index(cpu) == 0)
		observe((unsigned)(uintptr_t)thread, load(0));
}

static void look_at_parts(unsigned thread) { percpu_foreach(percpu, look_at, (void *)(uintptr_t)thread); }
static void call_for_parts(unsigned thread) { percpu_foreach_xcall(percpu, 0, look_at, (void *)(uintptr_t)thread); }
static void use_part(unsigned thread) { (void)percpu_getref(percpu); observe(thread, load(0)); percpu_putref(percpu); }

static unsigned hooked(void) { return load(1) + 2; }
static void set_hook(unsigned thread) { (void)thread; MODULE_HOOK_SET(hook, hooked); }
static void unset_hook(unsigned thread) { (void)thread; MODULE_HOOK_UNSET(hook); }

static void call_hook(unsigned thread)
{
	unsigned got;
	MODULE_HOOK_CALL(hook, (), 1, got);
	observe(thread, got);
}

static void enqueue(unsigned thread) { workqueue_enqueue(queue, &works[thread], NULL); }
static void await_work(unsigned thread) { workqueue_wait(queue, &works[thread]); }
static void schedule_0(unsigned thread) { (void)thread; softint_schedule(softints[0]); }
static void schedule_1(unsigned thread) { (void)thread; softint_schedule(softints[1]); }
static void schedule_2(unsigned thread) { (void)thread; softint_schedule(softints[2]); }

static void raise_and_store(unsigned thread)
{
	int s = splnet();
	store(1, thread + 19);
	splx(s);
}

/* A sleep gives the level up, and the kernel lock. */
static void raise_and_wait(unsigned thread)
{
	int s = splnet();
	store(1, thread + 19);
	pserialize_perform(psz);
	observe(thread, load(0));
	splx(s);
}

static void raise_and_lock(unsigned thread)
{
	int s = splnet();
	lock_and_load(thread);
	observe(thread, load(1));
	splx(s);
}

static void raise_and_await_a_tick(unsigned thread)
{
	int s = splnet();
	mutex_enter(&spin);
	observe(thread, cv_timedwait(&cv, &spin, 1) == 0 ? 1 : 2);
	mutex_exit(&spin);
	splx(s);
}

static void kernel_lock_around(unsigned thread, void (*body)(unsigned thread))
{
	KERNEL_LOCK(1, NULL);
	store(0, thread + 5);
	body(thread);
	observe(thread, load(0));
	KERNEL_UNLOCK_ONE(NULL);
}

static void lock_kernel(unsigned thread) { kernel_lock_around(thread, load_1); }
static void lock_kernel_and_wait(unsigned thread) { kernel_lock_around(thread, perform); }
static void lock_kernel_and_lock(unsigned thread) { kernel_lock_around(thread, lock_and_load); }
static void lock_kernel_and_spin(unsigned thread) { kernel_lock_around(thread, spin_and_load); }

static once_t control;

static int prepare(void)
{
	store(1, 20);
	pserialize_perform(psz);
	return 3;
}

static void run_once(unsigned thread)
{
	observe(thread, (unsigned)RUN_ONCE(&control, prepare));
	observe(thread, load(1));
}

static void sleep_for_a_tick(unsigned thread) { observe(thread, tsleep(&flag, PRI_NONE, "programs", 1) == 0 ? 1 : 2); }
static void wake_sleepers(unsigned thread) { (void)thread; wakeup(&flag); }

static void load_without_preemption(unsigned thread)
{
	kpreempt_disable();
	observe(thread, load(1));
	kpreempt_enable();
}

static void destroy(unsigned thread)
{
	(void)thread;
	if (atomic_swap_uint((unsigned *)&words[1], 3) == 3)
		return;
	atomic_store_release(&gone, true);
	pserialize_perform(psz);
	psref_target_destroy(&target, things);
}

/* A reference that the thread has from the beginning. */
static void count_out(unsigned thread) { (void)thread; localcount_release(&local, &cv, &locks[1]); }

static void drain(unsigned thread)
{
	(void)thread;
	mutex_enter(&locks[1]);
	bool first = !drained;
	atomic_store_release(&drained, true);
	if (first) {
		pserialize_perform(psz);
		localcount_drain(&local, &cv, &locks[1]);
	}
	mutex_exit(&locks[1]);
}

static void wake_one(unsigned thread) { (void)thread; cv_signal(&cv); }
static void pause_once(unsigned thread) { (void)thread; (void)kpause("programs", false, 1, NULL); }
static void ring(void *arg) { (void)arg; store(0, 25); }
static void set_callout(unsigned thread) { (void)thread; callout_reset(&callout, 1, ring, NULL); }
static void halt_callout(unsigned thread) { observe(thread, callout_halt(&callout, NULL)); }
static void stop_callout(unsigned thread) { observe(thread, callout_stop(&callout)); }

static void find_cpu(unsigned thread)
{
	int bound = curlwp_bind();
	observe(thread, cpu_number() + 1);
	curlwp_bindx(bound);
}

static void use_cache(unsigned thread)
{
	unsigned *object = pool_cache_get(cache, PR_WAITOK);
	observe(thread, atomic_load_relaxed(object));
	pool_cache_put(cache, object);
}

static void run_made(void *arg) { (void)arg; store(1, 24); kthread_exit(0); }

static void make_and_join(unsigned thread)
{
	lwp_t *made;
	EXPECT(kthread_create(PRI_NONE, KTHREAD_MUSTJOIN | KTHREAD_MPSAFE, NULL, run_made, NULL, &made, "made") == 0);
	observe(thread, load(1));
	kthread_join(made);
}

/* ---- What threads of written programs alone do. ---- */

/* A user that has seen the teardown doesn't release its reference. */
static void count_in_unless_gone(unsigned thread)
{
	(void)thread;
	int s = pserialize_read_enter();
	bool found = !atomic_load_acquire(&drained);
	if (found)
		localcount_acquire(&local);
	pserialize_read_exit(s);
	if (found && !atomic_load_relaxed(&gone))
		localcount_release(&local, &cv, &locks[1]);
}

static void tear_down(unsigned thread, void (*wait)(unsigned thread))
{
	mutex_enter(&locks[1]);
	atomic_store_release(&drained, true);
	wait(thread);
	atomic_store_relaxed(&gone, true);
	localcount_drain(&local, &cv, &locks[1]);
	mutex_exit(&locks[1]);
}

static void tear_down_by_perform(unsigned thread) { tear_down(thread, perform); }
static void tear_down_by_barrier(unsigned thread) { tear_down(thread, barrier); }
static void acquire_local(unsigned thread) { (void)thread; localcount_acquire(&local); }
static void release_any(unsigned thread) { (void)thread; localcount_release(&local, &cv, &locks[1]); }

/* An object of a cache: it was given back, and the cache's end waits for its readers; or it is given back. */
static unsigned *object;

static void load_object(unsigned thread) { observe(thread, atomic_load_relaxed(object)); }
static void destroy_cache(unsigned thread) { (void)thread; pool_cache_destroy(cache); }
static void put_object(unsigned thread) { (void)thread; pool_cache_put(cache, object); }

static kmutex_t spare;

static void init_spare(unsigned thread) { (void)thread; mutex_init(&spare, MUTEX_DEFAULT, IPL_NONE); }
static void own_spare(unsigned thread) { store(1, thread + 1); (void)mutex_ownable(&spare); }
static void destroy_spare(unsigned thread) { (void)thread; mutex_destroy(&spare); }
static bool psz_ended;
UNSEEN static void destroy_psz(unsigned thread) { (void)thread; pserialize_destroy(psz); psz_ended = true; }

static struct workqueue *queues[2];
static struct work common;

static void enqueue_common(unsigned thread)
{
	mutex_enter(&locks[0]);
	workqueue_enqueue(queues[thread], &common, NULL);
	mutex_exit(&locks[0]);
}
static void fail(unsigned thread) { explorer_point(); panic("thread %u", thread); }
static void lock_and_fail(unsigned thread) { lock_and_load(thread); panic("thread %u", thread); }

/* ---- The list of all, and what each needs. ---- */

enum {
	LOCKS = 1, SPIN = 2, RW = 4, CV = 8, PSZ = 16, TARGET = 32, LOCAL = 64, SOFTINTS = 128, CALLOUT = 256, PERCPU = 512, QUEUE = 1024, CACHE = 2048,
	HOOK = 4096, OBJECT = 8192, PUT = 16384, SPARE = 32768, QUEUES = 65536, COUNT = LOCAL | LOCKS | CV | PSZ
};

struct thing {
	const char *name;
	void (*body)(unsigned thread);
	unsigned points, needs;
};

#define DOES(body, points, needs)	{#body, body, points, needs}

static const struct thing simple[] = {
    DOES(load_0, 1, 0), DOES(load_1, 1, 0), DOES(store_0, 1, 0), DOES(store_1, 1, 0), DOES(add_0, 1, 0), DOES(lock_and_load, 3, LOCKS),
    DOES(lock_and_store, 3, LOCKS), DOES(read_section, 3, PSZ), DOES(wake_one, 1, CV), DOES(schedule_0, 3, SOFTINTS), DOES(call_one_alone, 4, 0),
    DOES(count_out, 1, COUNT), DOES(try_lock, 2, LOCKS)};

static const struct thing things_to_do[] = {
    DOES(barrier, 8, 0), DOES(call_all, 16, 0), DOES(call_all_later, 17, 0), DOES(call_nobody, 10, 0), DOES(call_one, 5, 0), DOES(call_other, 5, 0),
    DOES(call_one_above, 5, 0), DOES(call_one_later, 6, 0), DOES(call_to_load, 5, 0), DOES(call_one_for_nothing, 4, 0), DOES(call_one_alone, 4, 0),
    DOES(look_at_parts, 8, PERCPU), DOES(call_for_parts, 10, PERCPU), DOES(use_part, 3, PERCPU), DOES(set_hook, 12, HOOK), DOES(unset_hook, 10, HOOK),
    DOES(call_hook, 6, HOOK), DOES(call_hook, 6, HOOK), DOES(enqueue, 4, QUEUE), DOES(await_work, 2, QUEUE), DOES(schedule_0, 3, SOFTINTS),
    DOES(schedule_1, 6, SOFTINTS | LOCKS), DOES(schedule_2, 3, SOFTINTS), DOES(read_section, 3, PSZ), DOES(read_section_twice, 4, PSZ),
    DOES(perform, 1, PSZ), DOES(refer, 6, TARGET | PSZ), DOES(destroy, 5, TARGET | PSZ), DOES(count_in, 5, COUNT), DOES(count_out, 1, COUNT),
    DOES(drain, 7, COUNT), DOES(lock_01, 5, LOCKS), DOES(lock_10, 5, LOCKS), DOES(try_lock, 2, LOCKS), DOES(spin_and_load, 3, SPIN),
    DOES(spin_and_store, 3, SPIN), DOES(read_lock, 3, RW), DOES(write_lock, 3, RW), DOES(await_flag, 3, LOCKS | CV), DOES(set_flag, 3, LOCKS | CV),
    DOES(await_flag_for_a_tick, 4, LOCKS | CV), DOES(wake_one, 1, CV), DOES(pause_once, 2, 0), DOES(set_callout, 5, CALLOUT),
    DOES(halt_callout, 1, CALLOUT), DOES(stop_callout, 1, CALLOUT), DOES(raise_and_store, 3, 0), DOES(load_without_preemption, 3, 0), DOES(find_cpu, 1, 0),
    DOES(use_cache, 3, CACHE), DOES(make_and_join, 4, 0), DOES(raise_and_wait, 5, PSZ), DOES(raise_and_lock, 6, LOCKS),
    DOES(raise_and_await_a_tick, 7, SPIN | CV), DOES(lock_kernel, 5, 0), DOES(lock_kernel_and_wait, 6, PSZ), DOES(lock_kernel_and_lock, 8, LOCKS),
    DOES(lock_kernel_and_spin, 7, SPIN), DOES(run_once, 6, PSZ), DOES(sleep_for_a_tick, 2, 0), DOES(wake_sleepers, 1, 0)};

static const struct thing only_written[] = {
    DOES(count_in_unless_gone, 5, COUNT), DOES(tear_down_by_perform, 7, COUNT), DOES(tear_down_by_barrier, 14, COUNT), DOES(acquire_local, 1, COUNT),
    DOES(release_any, 1, COUNT), DOES(load_object, 1, 0), DOES(destroy_cache, 2, OBJECT), DOES(put_object, 1, PUT), DOES(init_spare, 1, 0),
    DOES(own_spare, 1, 0), DOES(destroy_spare, 1, SPARE), DOES(destroy_psz, 1, PSZ), DOES(enqueue_common, 6, QUEUES | LOCKS), DOES(fail, 1, 0),
    DOES(lock_and_fail, 3, LOCKS)};

struct text {
	int cpu;	/* below 0: the thread isn't bound */
	unsigned length;
	const struct thing *of[LONGEST];
};

static struct text texts[MOST];
static unsigned threads, needs, ticks;

/* ---- What programs work on. ---- */

HANDLER(store_softly, store(1, 22))
HANDLER(lock_softly, mutex_enter(&locks[0]); store(0, 23); mutex_exit(&locks[0]))
HANDLER(load_softly, unsigned cpu = cpu_number(); observe(OF_SOFTINT + (cpu < 2 ? cpu : 2), load(0)))
static void do_work(struct work *done, void *arg) { (void)done; (void)arg; observe(OF_WORK, load(1)); store(0, 21); }

static void make_softints(void)
{
	softints[0] = softint_establish(SOFTINT_NET | SOFTINT_MPSAFE, store_softly, NULL);
	softints[1] = softint_establish(SOFTINT_NET | SOFTINT_MPSAFE, lock_softly, NULL);
	softints[2] = softint_establish(SOFTINT_CLOCK | SOFTINT_MPSAFE, load_softly, NULL);
}

static void end_softints(void)
{
	for (unsigned at = 0; at < 3; at++)
		softint_disestablish(softints[at]);
}

static void make_locks(void) { mutex_init(&locks[0], MUTEX_DEFAULT, IPL_SOFTNET); mutex_init(&locks[1], MUTEX_DEFAULT, IPL_SOFTNET); }
static void end_locks(void) { mutex_destroy(&locks[0]); mutex_destroy(&locks[1]); }
static void make_spin(void) { mutex_init(&spin, MUTEX_SPIN, IPL_SOFTNET); }
static void end_spin(void) { mutex_destroy(&spin); }
static void make_rw(void) { rw_init(&rw); }
static void end_rw(void) { rw_destroy(&rw); }
static void make_cv(void) { cv_init(&cv, "flag"); }
static void end_cv(void) { cv_destroy(&cv); }
static void make_psz(void) { psz = pserialize_create(); }
static void end_psz(void) { if (!psz_ended) pserialize_destroy(psz); }
static void make_target(void) { things = psref_class_create("thing", IPL_SOFTNET); psref_target_init(&target, things); }
static void end_target(void) { if (!gone) psref_target_destroy(&target, things); psref_class_destroy(things); }
static void make_local(void) { localcount_init(&local); }
static void end_local(void) { drain(0); localcount_fini(&local); }
static void make_callout(void) { callout_init(&callout, 0); }
static void end_callout(void) { (void)callout_halt(&callout, NULL); callout_destroy(&callout); }
static void make_percpu(void) { percpu = percpu_alloc(sizeof(unsigned)); }
static void end_percpu(void) { percpu_free(percpu, sizeof(unsigned)); }
static void make_queue(void) { EXPECT(workqueue_create(&queue, "queue", do_work, NULL, PRI_NONE, IPL_NONE, WQ_MPSAFE) == 0); }
static void end_queue(void) { workqueue_destroy(queue); }
static void make_cache(void) { cache = pool_cache_init(sizeof(unsigned), 0, 0, 0, "cache", NULL, IPL_NONE, number_object, NULL, NULL); }
static void end_cache(void) { pool_cache_destroy(cache); }

static void make_object(void)
{
	cache = pool_cache_init(sizeof(*object), 0, 0, PR_PSERIALIZE, "cache", NULL, IPL_NONE, number_object, NULL, NULL);
	object = pool_cache_get(cache, PR_WAITOK);
	pool_cache_put(cache, object);
}

static void end_object(void) { }

static void make_put(void)
{
	make_cache();
	object = pool_cache_get(cache, PR_WAITOK);
}

static void make_spare(void) { init_spare(0); }
static void rest(struct work *done, void *arg) { (void)done; (void)arg; }

static void make_queues(void)
{
	for (unsigned at = 0; at < 2; at++)
		EXPECT(workqueue_create(&queues[at], "queue", rest, NULL, PRI_NONE, IPL_NONE, WQ_MPSAFE) == 0);
}

static void end_queues(void) { workqueue_destroy(queues[0]); workqueue_destroy(queues[1]); }
static void make_hook(void) { }
static void end_hook(void) { if (hook.hooked) MODULE_HOOK_UNSET(hook); }

static const struct made {
	unsigned need;
	void (*make)(void), (*end)(void);
} all_made[] = {{LOCKS, make_locks, end_locks}, {SPIN, make_spin, end_spin}, {RW, make_rw, end_rw}, {CV, make_cv, end_cv}, {PSZ, make_psz, end_psz},
    {TARGET, make_target, end_target}, {LOCAL, make_local, end_local}, {SOFTINTS, make_softints, end_softints}, {CALLOUT, make_callout, end_callout},
    {PERCPU, make_percpu, end_percpu}, {QUEUE, make_queue, end_queue}, {CACHE, make_cache, end_cache}, {HOOK, make_hook, end_hook},
    {OBJECT, make_object, end_object}, {PUT, make_put, end_cache}, {SPARE, make_spare, end_object}, {QUEUES, make_queues, end_queues}};

UNSEEN static void run_text(void *arg)
{
	const struct text *text = arg;
	unsigned thread = (unsigned)(text - texts);
	if (text->cpu >= 0)
		kupaldiz_bind((unsigned)text->cpu);
	for (unsigned at = 0; at < text->length; at++)
		text->of[at]->body(thread);
}

static void begin(void)
{
	static const char *const names[MOST] = {"one", "two", "three"};
	for (const struct made *it = all_made; it < &all_made[sizeof(all_made) / sizeof(all_made[0])]; it++)
		if ((needs & it->need) != 0)
			it->make();
	for (unsigned thread = 0; thread < threads; thread++) {
		for (unsigned at = 0; at < texts[thread].length; at++)
			if (texts[thread].of[at]->body == count_out)
				localcount_acquire(&local);
		explorer_thread(names[thread], run_text, &texts[thread]);
	}
}

static void finish(void)
{
	for (unsigned at = 0; at < ROWS_SEEN; at++)
		explorer_outcome("%s,", seen[at]);
	for (const struct made *it = &all_made[sizeof(all_made) / sizeof(all_made[0])]; it-- > all_made;)
		if ((needs & it->need) != 0)
			it->end();
	explorer_outcome("%u %u", words[0], words[1]);
}

static void add(struct text *text, const struct thing *thing)
{
	text->of[text->length++] = thing;
	needs |= thing->needs;
}

/* ---- Written programs, of which an earlier reduction left schedules out. Each comes to more than one end. ---- */

static const struct written {
	int cpu;	/* as in a text */
	void (*does[3])(unsigned thread);
} written[][MOST] = {
    /* An unbound thread's release takes its CPU and gives it back in one step; also in a teardown, which may hang then. */
    {{-1, {load_0, count_out}}, {0, {read_section, store_0}}},
    {{-1, {load_0, count_out}}, {0, {refer, store_0}}},
    {{-1, {count_in_unless_gone}}, {-1, {tear_down_by_barrier}}},
    {{-1, {count_in_unless_gone}}, {-1, {tear_down_by_perform}}},
    /* Of two calls the second is asked for before the first has begun. */
    {{-1, {call_all}}, {-1, {load_0, call_nobody}}},
    {{-1, {load_0, call_one_for_nothing}}, {-1, {call_one}}},
    /* A thread releases another one's reference, which may come too early. */
    {{-1, {acquire_local}}, {-1, {release_any}}},
    {{-1, {acquire_local}}, {-1, {release_any}}, {-1, {acquire_local, release_any}}},
    /* A call gives back memory inside. */
    {{-1, {load_object}}, {-1, {destroy_cache}}},
    /* An object, a lock, an object to perform with, and a work, of which one thread ends or makes what another one uses. */
    {{-1, {load_object}}, {-1, {put_object}}},
    {{-1, {own_spare}}, {-1, {destroy_spare}}},
    {{-1, {init_spare}}, {-1, {own_spare}}},
    {{-1, {read_section}}, {-1, {perform}}, {-1, {destroy_psz}}},
    {{-1, {enqueue_common}}, {-1, {enqueue_common}}},
    /* Threads that touch nothing: no fault hides another one, also of a thread that has to wait first. */
    {{-1, {fail}}, {-1, {fail}}},
    {{-1, {pause_once, fail}}, {-1, {fail}}},
    {{-1, {lock_and_fail}}, {-1, {lock_and_load, fail}}},
};

static const struct thing *thing_with(void (*body)(unsigned thread), const struct thing *from, size_t all)
{
	size_t at = 0;
	while (at < all && from[at].body != body)
		at++;
	return at < all ? &from[at] : NULL;
}

#define ROWS(table)	(table), sizeof(table) / sizeof((table)[0])

static void add_body(struct text *text, void (*body)(unsigned thread))
{
	const struct thing *found = thing_with(body, ROWS(only_written));
	found = found != NULL ? found : thing_with(body, ROWS(simple));
	add(text, found != NULL ? found : thing_with(body, ROWS(things_to_do)));
}

static void write_program(const struct written *program)
{
	ticks = 1;
	needs = 0;
	for (threads = 0; threads < MOST && program[threads].does[0] != NULL; threads++) {
		texts[threads] = (struct text){.cpu = program[threads].cpu};
		for (unsigned at = 0; at < 3 && program[threads].does[at] != NULL; at++)
			add_body(&texts[threads], program[threads].does[at]);
	}
}

/* ---- Random programs. ---- */

static void add_simple(struct text *text, unsigned most)
{
	for (unsigned left = pick(most + 1); left > 0; left--)
		add(text, &simple[pick(sizeof(simple) / sizeof(simple[0]))]);
}

static void make_program(uint64_t of)
{
	seed = of * 2654435761u + 7;
	threads = 2 + pick(4) / 3;
	needs = 0;
	ticks = 1 + pick(4) / 3;
	bool shared = pick(2) == 0;
	for (unsigned thread = 0; thread < threads; thread++) {
		struct text *text = &texts[thread];
		*text = (struct text){.cpu = shared ? (int)pick(2) - 1 : (int)pick(4) - 2};
		add_simple(text, 2);
		add(text, &things_to_do[pick(sizeof(things_to_do) / sizeof(things_to_do[0]))]);
		add_simple(text, 2);
	}
}

static bool is_short(double most)
{
	unsigned points[MOST];
	for (unsigned thread = 0; thread < threads; thread++) {
		points[thread] = 1;
		for (unsigned at = 0; at < texts[thread].length; at++)
			points[thread] += texts[thread].of[at]->points;
	}
	return orders_of(points, threads) < most;
}

static void show_program(uint64_t of)
{
	printf("program %llu, ticks %u\n", (unsigned long long)of, ticks);
	for (unsigned thread = 0; thread < threads; thread++) {
		printf("  CPU %d", texts[thread].cpu);
		for (unsigned at = 0; at < texts[thread].length; at++)
			printf("; %s", texts[thread].of[at]->name);
		printf("\n");
	}
}

enum { SCHEDULES = 1200, LONG_IN = 8 };	/* of so many programs one is tried where it is long */

static unsigned compared, in_part, sampled, faulty, wrong;
static uint64_t wholes, reduceds;

/* Some orders of a long program. */
static struct explorer_found sample(uint64_t of)
{
	return search_by(begin, (struct explorer_options){.schedules = 1, .bounded = 100, .random = 100, .seed = of + 1, .ticks = ticks, .finish = finish});
}

static void show_pair(uint64_t of, const struct pair *pair)
{
	show_program(of);
	show_found("whole", &pair->whole);
	show_found("reduced", &pair->reduced);
}

static void compare_written(void)
{
	for (unsigned row = 0; row < sizeof(written) / sizeof(written[0]); row++) {
		write_program(written[row]);
		const struct pair pair = {search_for(begin, finish, 10000, ticks, true), search_for(begin, finish, 10000, ticks, false)};
		if (do_agree(&pair) && are_through(&pair) && pair.whole.outcomes > 1)
			continue;
		wrong++;
		show_pair(row, &pair);
	}
}

static void compare(uint64_t of, bool shows)
{
	bool is_long = !is_short(1.5 * SCHEDULES);
	const struct pair pair = {is_long ? sample(of) : search_for(begin, finish, SCHEDULES, ticks, true), search_for(begin, finish, SCHEDULES, ticks, false)};
	bool agree = do_agree(&pair);
	*(are_through(&pair) ? &compared : is_long && has_all(&pair.reduced) ? &sampled : &in_part) += 1;
	wholes += pair.whole.schedules;
	reduceds += pair.reduced.schedules + pair.reduced.cut;
	wrong += !agree;
	for (unsigned at = 0; at < pair.whole.outcomes; at++)
		if (strchr(pair.whole.outcome[at].text, ':') != NULL) {
			faulty++;
			break;
		}
	if (!agree || shows)
		show_pair(of, &pair);
}

int main(int words_given, char **given)
{
	bool one = words_given == 3 && strcmp(given[1], "seed") == 0, counts = words_given == 4 && strcmp(given[1], "count") == 0;
	uint64_t first = one || counts ? strtoull(given[words_given - 1], NULL, 10) : words_given > 2 ? strtoull(given[2], NULL, 10) : 1;
	time_t end = now() + (one || counts || words_given < 2 ? 0 : (time_t)atoi(given[1]));
	unsigned most = counts ? (unsigned)atoi(given[2]) : 0;
	if (one) {
		make_program(first);
		compare(first, true);
		return wrong != 0;
	}
	compare_written();
	for (; counts ? compared < most : now() < end; first++) {
		make_program(first);
		if (is_short(1.5 * SCHEDULES) || (!counts && first % LONG_IN == 0))
			compare(first, false);
	}
	printf("%u programs come to the same by %llu schedules as by %llu, %u of them to a fault; of %u more a part was compared, and of %u long ones some "
	    "orders; %u are different; next seed %llu\n",
	    compared, (unsigned long long)reduceds, (unsigned long long)wholes, faulty, in_part, sampled, wrong, (unsigned long long)first);
	return wrong != 0;
}
