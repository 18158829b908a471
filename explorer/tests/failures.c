/* failures - calls that fail, waits that end early, works, hooks, soft interrupts and the parts of CPUs: what the explorer finds, and that it tries each */
#include <sys/mbuf.h>

#include "finds.h"

static kmutex_t lock;
static kcondvar_t cv;
static bool ready;
static unsigned count;

static void make_things(void) { mutex_init(&lock, MUTEX_DEFAULT, IPL_NONE); cv_init(&cv, "cv"); }
static void end_lock(void) { cv_destroy(&cv); mutex_destroy(&lock); }
HANDLER(nothing, (void)0)

BODY(use_object)
{
	static struct pool pool;
	pool_init(&pool, 8, 0, 0, 0, "pl", NULL, IPL_NONE);
	void *object = pool_get(&pool, PR_NOWAIT);
	KASSERT(object != NULL);
	pool_put(&pool, object);
	pool_destroy(&pool);
}

HANDLER(end_at_once, kthread_exit(0))

HANDLER(make_thread, KASSERT(kthread_create(PRI_NONE, KTHREAD_MPSAFE, NULL, end_at_once, NULL, NULL, "made") == 0))

BODY(make_softint)
{
	void *softint = softint_establish(SOFTINT_NET | SOFTINT_MPSAFE, nothing, NULL);
	KASSERT(softint != NULL);
	softint_disestablish(softint);
}

#define WORK(name, ...)	static void name(__attribute__((unused)) struct work *work, __attribute__((unused)) void *arg) { __VA_ARGS__; }

WORK(do_no_work, (void)0)

BODY(make_queue)
{
	struct workqueue *made;
	KASSERT(workqueue_create(&made, "queue", do_no_work, NULL, PRI_NONE, IPL_NONE, WQ_MPSAFE) == 0);
	workqueue_destroy(made);
}

/* Of two blocks only one may be missing. */
BODY(use_two_blocks)
{
	void *one = kmem_alloc(8, KM_NOSLEEP), *two = kmem_alloc(8, KM_NOSLEEP);
	KASSERT(one != NULL || two != NULL);
	if (one != NULL)
		kmem_free(one, 8);
	if (two != NULL)
		kmem_free(two, 8);
}

BODY(wait_once)
{
	mutex_enter(&lock);
	if (!ready)
		cv_wait(&cv, &lock);
	KASSERT(ready);
	mutex_exit(&lock);
}

BODY(wait_as_told)
{
	int error = 0;
	mutex_enter(&lock);
	while (!ready && error == 0)
		error = cv_wait_sig(&cv, &lock);
	explorer_outcome("%s", error == EINTR ? "EINTR" : error == 0 ? "ready" : "?");
	mutex_exit(&lock);
}

BODY(wait_for_time)
{
	int error = 0;
	unsigned turns = 0;
	mutex_enter(&lock);
	for (; !ready && error == 0; turns++)
		error = cv_timedwait_sig(&cv, &lock, 1);
	explorer_outcome("%s after %u", error == EINTR ? "EINTR" : error == EWOULDBLOCK ? "late" : "ready", turns);
	mutex_exit(&lock);
}

BODY(pause_once)
{
	mutex_enter(&lock);
	explorer_outcome("%s ", kpause("pause", true, 1, &lock) == EINTR ? "EINTR" : "over");
	explorer_outcome("%s", ready ? "ready" : "not ready");
	mutex_exit(&lock);
}

HANDLER(make_ready, mutex_enter(&lock); ready = true; cv_signal(&cv); mutex_exit(&lock))

struct softc {
	callout_t callout;
	struct work work;
};

static struct workqueue *queue;

BODY(free_callout)
{
	struct softc *sc = kmem_zalloc(sizeof(*sc), KM_SLEEP);
	callout_init(&sc->callout, CALLOUT_MPSAFE);
	kmem_free(sc, sizeof(*sc));
}

WORK(take_lock, mutex_enter(&lock); count++; mutex_exit(&lock))

static void make_queue_of(void (*body)(struct work *, void *), int flags)
{
	KASSERT(workqueue_create(&queue, "queue", body, NULL, PRI_NONE, IPL_SOFTNET, flags) == 0);
}

static void lock_works(void) { make_queue_of(take_lock, WQ_MPSAFE); }

BODY(free_work)
{
	struct softc *sc = kmem_zalloc(sizeof(*sc), KM_SLEEP);
	workqueue_enqueue(queue, &sc->work, NULL);
	kmem_free(sc, sizeof(*sc));
}

static struct work works[2];

/* The queue's thread waits for the lock of the one that waits for its work. */
HANDLER(wait_with_lock, mutex_enter(&lock); workqueue_enqueue(queue, works, NULL); workqueue_wait(queue, works); mutex_exit(&lock))

/* ---- A work, and the end of its queue; a hook that is unset while it is called. ---- */

static void enqueue(struct work *work)
{
	workqueue_enqueue(queue, work, NULL);
	mutex_enter(&lock);
	explorer_outcome("%u", count);
	mutex_exit(&lock);
	workqueue_wait(queue, work);
	mutex_enter(&lock);
	KASSERT(count > 0);
	mutex_exit(&lock);
}

HANDLER(enqueue_first, enqueue(&works[0]))
HANDLER(enqueue_second, enqueue(&works[1]))
static void end_queue(void) { workqueue_destroy(queue); end_lock(); }
static void end_works(void) { KASSERT(count == 2); end_queue(); }

/* A work may be enqueued again by its own function, which may wait for it without a deadlock. A wait lasts until the last of these has returned. */
WORK(do_again, workqueue_wait(queue, work); if (++count < 3) workqueue_enqueue(queue, work, NULL))
HANDLER(wait_again, workqueue_enqueue(queue, works, NULL); workqueue_wait(queue, works); explorer_outcome("%u", count))
static void repeat_works(void) { make_queue_of(do_again, 0); }

/* A queue for each CPU: its threads run works at the same time. */
static void enqueue_on(unsigned cpu)
{
	workqueue_enqueue(queue, &works[cpu], kupaldiz_cpu(cpu));
	workqueue_wait(queue, &works[cpu]);
}

HANDLER(enqueue_on_0, enqueue_on(0))
HANDLER(enqueue_on_1, enqueue_on(1))
WORK(note_cpu, KASSERT(work == &works[cpu_number()]); explorer_outcome("%u", cpu_number()); take_lock(work, arg))
static void work_on_each(void) { make_queue_of(note_cpu, WQ_MPSAFE | WQ_PERCPU); }

MODULE_HOOK(touch_hook, int, (unsigned *));
struct touch_hook_t touch_hook;
static unsigned *hooked;

static int touch_it(unsigned *at)
{
	return (int)atomic_load_relaxed(at) + 1;
}

static void hook_it(void) { hooked = kmem_zalloc(sizeof(*hooked), KM_SLEEP); MODULE_HOOK_SET(touch_hook, touch_it); }
HANDLER(call_hook, int result; MODULE_HOOK_CALL(touch_hook, (hooked), -1, result); explorer_outcome("%d", result))
HANDLER(unset_hook, MODULE_HOOK_UNSET(touch_hook); kmem_free(hooked, sizeof(*hooked)))

/* It forgets the calls that are under way. */
HANDLER(free_early, kmem_free(hooked, sizeof(*hooked)); MODULE_HOOK_UNSET(touch_hook))

/* ---- What a thread asks another one, or a handler, may change at the same time: each answer is come to. ---- */

static unsigned word;
static void *softint, *other_softint;
static percpu_t *parts;

HANDLER(tell_word, explorer_outcome("%u", atomic_load_relaxed(&word)))
static void establish(void) { softint = softint_establish(SOFTINT_NET | SOFTINT_MPSAFE, tell_word, NULL); }

/* The handler runs before the change, after it, or never: disestablishing it takes it off the queue. */
HANDLER(schedule_and_end, softint_schedule(softint); atomic_store_relaxed(&word, 1); softint_disestablish(softint))

BODY(go_again)
{
	explorer_outcome("g");
	if (atomic_inc_uint_nv(&word) < 4)
		softint_schedule(softint);
}

HANDLER(tell, explorer_outcome("2"))

static void establish_greedy(void)
{
	softint = softint_establish(SOFTINT_BIO, go_again, NULL);
	other_softint = softint_establish(SOFTINT_BIO, tell, NULL);
}

/* Soft interrupts of one level run in the order in which they were scheduled. One that schedules itself doesn't keep its peers off. */
BODY(schedule_greedy)
{
	kupaldiz_bind(0);
	int before = splnet();
	softint_schedule(softint);
	softint_schedule(other_softint);
	softint_schedule(softint);
	splx(before);
	kupaldiz_unbind();
}

static void end_greedy(void) { softint_disestablish(softint); softint_disestablish(other_softint); end_lock(); }

/* Adds to the part of CPU 0, and then to that of CPU 1. */
BODY(add_to_parts)
{
	for (unsigned cpu = 0; cpu < 2; cpu++) {
		kupaldiz_bind(cpu);
		atomic_inc_uint(percpu_getref(parts));
		percpu_putref(parts);
		kupaldiz_unbind();
	}
}

static void look_at(void *own, void *arg, struct cpu_info *cpu)
{
	(void)arg;
	if (cpu_index(cpu) < 2)
		explorer_outcome("%u", atomic_load_relaxed((unsigned *)own));
}

HANDLER(ask_parts, percpu_foreach(parts, look_at, arg))
static void make_parts(void) { parts = percpu_alloc(sizeof(unsigned)); }
static void end_parts(void) { percpu_free(parts, sizeof(unsigned)); end_lock(); }

/* ---- Memory that calls in headers have taken: the place is the driver's. ---- */

HANDLER(leave_packet, (void)m_gethdr(M_WAIT, MT_DATA))
HANDLER(leave_table, unsigned long mask; (void)hashinit(4, HASH_LIST, true, &mask))

static void end_chain_twice(void *arg)
{
	struct mbuf *first = m_get(M_WAIT, MT_DATA);
	(void)arg;
	first->m_next = m_get(M_WAIT, MT_DATA);
	m_freem(first);
	m_freem(first->m_next);
}

/* ---- The cases: a fault by its line, and what had failed before; or outcomes. ---- */

static const struct find cases[] = {
	{"object", "KASSERT: not so: object != NULL, at PLACE", use_object, .failures = 1, .failed = "pool_get at PLACE fails in thread \"first\""},
	{"thread", "KASSERT: not so: kthread_create(PRI_NONE, KTHREAD_MPSAFE, NULL, end_at_once, NULL, NULL, \"made\") == 0, at PLACE", make_thread,
	    .failures = 1, .failed = "kthread_create at PLACE fails in thread \"first\""},
	{"softint", "KASSERT: not so: softint != NULL, at PLACE", make_softint, .failures = 1, .failed = "softint_establish at PLACE fails in thread \"first\""},
	{"queue", "KASSERT: not so: workqueue_create(&made, \"queue\", do_no_work, NULL, PRI_NONE, IPL_NONE, WQ_MPSAFE) == 0, at PLACE", make_queue,
	    .failures = 1, .failed = "workqueue_create at PLACE fails in thread \"first\""},
	{"two blocks", "KASSERT: not so: one != NULL || two != NULL, at PLACE", use_two_blocks, .failures = 2,
	    .failed = "kmem_alloc at PLACE fails in thread \"first\"; kmem_alloc at PLACE fails in thread \"first\""},
	{"once", "KASSERT: not so: ready, at PLACE", wait_once, make_ready, .finish = end_lock, .failures = 1,
	    .failed = "cv_wait at PLACE ends although nobody woke it in thread \"first\""},
	{"a packet that is left", "1 block of memory is left at the end, taken by kmem_intr_zalloc at PLACE", leave_packet, .failed = ""},
	{"a table that is left", "1 block of memory is left at the end, taken by kmem_zalloc at PLACE", leave_table, .failed = ""},
	{"a chain's end", "plain read at PLACE: use of freed memory: thread \"first\" gave it back by kmem_intr_free at PLACE", end_chain_twice, .failed = ""},
	{"callout", "kmem_free at PLACE: what callout_init has made at PLACE lies in it and was never destroyed", free_callout, .failed = ""},
	{"work", "kmem_free at PLACE: what workqueue_enqueue has made at PLACE lies in it and was never destroyed", free_work, .make = lock_works, .failed = ""},
	{"deadlock", "nobody can go on: thread \"first\" waits in workqueue_wait at PLACE for a wake-up that nobody is left to give", wait_with_lock,
	    .make = lock_works, .failed = ""},
	{"hook", "data race: thread \"first\" reads at PLACE, and thread \"second\" frees at PLACE", call_hook, free_early, .make = hook_it, .failed = ""},
	{"told", NULL, wait_as_told, make_ready, .finish = end_lock, .failures = 1, .outcomes = {"EINTR", "ready"}},
	{"told, without failures", NULL, wait_as_told, make_ready, .finish = end_lock, .outcomes = {"ready"}},
	{"timed", NULL, wait_for_time, make_ready, .finish = end_lock, .failures = 1,
	    .outcomes = {"EINTR after 1", "late after 1", "late after 2", "ready after 0", "ready after 1", "ready after 2"}},
	{"pause", NULL, pause_once, make_ready, .finish = end_lock, .failures = 1,
	    .outcomes = {"EINTR not ready", "EINTR ready", "over not ready", "over ready"}},
	{"works", NULL, enqueue_first, enqueue_second, .make = lock_works, .finish = end_works, .outcomes = {"00", "01", "02", "11", "12", "22"}},
	{"again", NULL, wait_again, .make = repeat_works, .finish = end_queue, .outcomes = {"3"}},
	{"each", NULL, enqueue_on_0, enqueue_on_1, .make = work_on_each, .finish = end_works, .outcomes = {"01", "10"}},
	{"a hook's call", NULL, call_hook, unset_hook, .make = hook_it, .outcomes = {"-1", "1"}},
	{"a handler that is ended", NULL, schedule_and_end, .make = establish, .finish = end_lock, .outcomes = {"", "0", "1"}},
	{"a greedy handler", NULL, schedule_greedy, .make = establish_greedy, .finish = end_greedy, .outcomes = {"g2ggg"}},
	{"parts", NULL, add_to_parts, ask_parts, .make = make_parts, .finish = end_parts, .outcomes = {"00", "01", "10", "11"}},
};

/* So many runs are enough without a failure, and not with one: the search isn't exhausted. */
static bool tells_what_is_left_out(void)
{
	static const struct find timed = {.first = wait_for_time, .second = make_ready, .finish = end_lock};
	struct explorer_found found;
	struct explorer_options options = {.quiet = true};
	bool right = !goes_wrong(&timed, options, 0, &found) && is_tried(&found) && found.failures == 0;
	options.schedules = found.schedules + found.cut;
	right &= !goes_wrong(&timed, options, 0, &found) && is_tried(&found);
	options.bounded = options.random = 1;
	return right && !goes_wrong(&timed, options, 1, &found) && !found.complete && found.failures > 0;
}

int main(void)
{
	EXPECT(tells_what_is_left_out());
	return run_finds(cases, sizeof(cases) / sizeof(cases[0]));
}
