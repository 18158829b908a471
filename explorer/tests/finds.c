/*
 * finds [PICTURE] - one small piece of code for each thing that the explorer finds, data races too, and what it says; and for each order that makes none. With
 * a name it writes the picture of the first one, explorer/deadlock.svg, which has the numbers of its lines.
 */
#include <xmmintrin.h>

#include "finds.h"

static kmutex_t one, two;
static krwlock_t rw;
static kcondvar_t cv;
static pserialize_t psz;
static struct psref_class *things;
static struct psref_target target;
static unsigned word, other_word;
static bool flag;
static unsigned *block;

/* ---- A destroy with a lock that the holder of a reference waits for. ---- */

BODY(hold)
{
	struct psref psref;
	int bound = curlwp_bind(), s = pserialize_read_enter();
	bool found = !atomic_load_acquire(&flag);
	if (found)
		psref_acquire(&psref, &target, things);
	pserialize_read_exit(s);
	if (found) {
		mutex_enter(&one);
		mutex_exit(&one);
		psref_release(&psref, &target, things);
	}
	curlwp_bindx(bound);
}

BODY(destroy)
{
	mutex_enter(&one);
	atomic_store_release(&flag, true);
	pserialize_perform(psz);
	psref_target_destroy(&target, things);
	mutex_exit(&one);
}

static void begin_destroy(void)
{
	mutex_init(&one, MUTEX_DEFAULT, IPL_NONE);
	psz = pserialize_create();
	things = psref_class_create("thing", IPL_SOFTNET);
	psref_target_init(&target, things);
	explorer_thread("hold", hold, NULL);
	explorer_thread("destroy", destroy, NULL);
}

static void make_things(void)
{
	mutex_init(&one, MUTEX_DEFAULT, IPL_NONE);
	mutex_init(&two, MUTEX_DEFAULT, IPL_NONE);
	rw_init(&rw);
	cv_init(&cv, "cv");
}

HANDLER(one_two, mutex_enter(&one); mutex_enter(&two); mutex_exit(&two); mutex_exit(&one))
HANDLER(read_twice, rw_enter(&rw, RW_READER); rw_enter(&rw, RW_READER); rw_exit(&rw); rw_exit(&rw))
HANDLER(write_once, rw_enter(&rw, RW_WRITER); rw_exit(&rw))

/* A writer that becomes a reader lets those go on that wait to read. */
BODY(downgrade)
{
	rw_enter(&rw, RW_WRITER);
	rw_downgrade(&rw);
	KASSERT(rw_read_held(&rw) && !rw_write_held(&rw) && !rw_tryenter(&rw, RW_WRITER));
	mutex_enter(&one);
	while (!flag)
		cv_wait(&cv, &one);
	mutex_exit(&one);
	rw_exit(&rw);
}

HANDLER(read_beside, rw_enter(&rw, RW_READER); mutex_enter(&one); flag = true; cv_signal(&cv); mutex_exit(&one); rw_exit(&rw))

BODY(wait_carelessly)
{
	if (!atomic_load_relaxed(&flag)) {
		mutex_enter(&one);
		cv_wait(&cv, &one);
		mutex_exit(&one);
	}
}

HANDLER(wake, atomic_store_relaxed(&flag, true); mutex_enter(&one); cv_broadcast(&cv); mutex_exit(&one))

HANDLER(use_block, atomic_inc_uint(block))
HANDLER(free_block, kmem_free(block, sizeof(*block)))
static void make_block(void) { block = kmem_zalloc(sizeof(*block), KM_SLEEP); }
HANDLER(change_own_late, free_block(arg); use_block(arg))

BODY(forget_lock)
{
	kmutex_t *lock = kmem_alloc(sizeof(*lock), KM_SLEEP);
	mutex_init(lock, MUTEX_DEFAULT, IPL_NONE);
	kmem_free(lock, sizeof(*lock));
}

UNSEEN static void write_unseen(unsigned *at)
{
	*at = 1;
}

HANDLER(write_behind, write_unseen(block + 1); kmem_free(block, sizeof(*block)))
HANDLER(write_far_behind, write_unseen(block + 7); kmem_free(block, sizeof(*block)))

enum { LONG = 4096 };

static void make_long_block(void) { block = kmem_zalloc(LONG, KM_SLEEP); }
HANDLER(write_last_freed, kmem_free(block, LONG); write_unseen(block + LONG / sizeof(*block) - 1))

BODY(never_ends)
{
	while (!atomic_load_relaxed(&flag))
		;
}

static unsigned *volatile nowhere;

/* The sanitizers, where the explorer is built with them, leave the crash to it. */
const char *__asan_default_options(void)
{
	return "handle_segv=0";
}

__attribute__((no_sanitize("undefined"))) BODY(crash)
{
	if (atomic_load_relaxed(&word) == 1)
		*(volatile unsigned *)nowhere = 1;
}

HANDLER(set_word, atomic_store_relaxed(&word, 1))
HANDLER(exit_at_once, kthread_exit(0))

HANDLER(join_never, lwp_t *made; (void)kthread_create(PRI_NONE, KTHREAD_MUSTJOIN, NULL, exit_at_once, NULL, &made, "worker"))

static void *softint;

HANDLER(use_in_handler, atomic_inc_uint(block))

/* The handler may run between the two. */
HANDLER(free_and_disestablish, softint_schedule(softint); kmem_free(block, sizeof(*block)); softint_disestablish(softint))

static void freed_before_disestablish(void)
{
	make_block();
	softint = softint_establish(SOFTINT_NET | SOFTINT_MPSAFE, use_in_handler, NULL);
}

static struct localcount local;
static unsigned slot;	/* 1: the old driver, 2: the new one. Under `one` */
static bool detaching;

/* The drain gives the lock up, also where nobody has a reference: what another thread attaches meanwhile is lost. */
BODY(clear_after_drain)
{
	mutex_enter(&one);
	slot = 0;
	detaching = true;
	localcount_drain(&local, &cv, &one);
	slot = 0;
	mutex_exit(&one);
	localcount_fini(&local);
}

BODY(attach_meanwhile)
{
	mutex_enter(&one);
	bool attached = slot == 0 && detaching;
	if (attached)
		slot = 2;
	mutex_exit(&one);
	mutex_enter(&one);
	KASSERT(!attached || slot == 2);
	mutex_exit(&one);
}

static void cleared_after_drain(void) { localcount_init(&local); slot = 1; }

static void use_argument(void *arg, void *other)
{
	(void)other;
	atomic_inc_uint(arg);
}

/* The call may still be made on some CPU. */
HANDLER(wait_never, (void)xc_broadcast(0, use_argument, block, NULL); kmem_free(block, sizeof(*block)))

/* NetBSD's key.c releases so: a kernel takes the lock, and sleeps if it must. */
HANDLER(release_in_handler, localcount_release(&local, &cv, &one))
HANDLER(schedule_release, softint_schedule(softint))

BODY(drain_local)
{
	mutex_enter(&one);
	localcount_drain(&local, &cv, &one);
	mutex_exit(&one);
	localcount_fini(&local);
	softint_disestablish(softint);
}

static void released_in_handler(void)
{
	localcount_init(&local);
	localcount_acquire(&local);
	softint = softint_establish(SOFTINT_NET | SOFTINT_MPSAFE, release_in_handler, NULL);
}

/* Others may wait by a drain's condition variable, and came first: the last release wakes them all. */
HANDLER(wait_beside, mutex_enter(&one); while (!flag) cv_wait(&cv, &one); mutex_exit(&one))

BODY(drain_and_wake)
{
	mutex_enter(&one);
	localcount_drain(&local, &cv, &one);
	flag = true;
	cv_broadcast(&cv);
	mutex_exit(&one);
	localcount_fini(&local);
}

HANDLER(release_last, localcount_release(&local, &cv, &one))
static void acquire_one(void) { localcount_init(&local); localcount_acquire(&local); }

/* One level's handler waits for the lock of a thread, and the thread for another level's handler. */
static kmutex_t soft_lock;
static void *levels[2];

HANDLER(lock_softly, mutex_enter(&soft_lock); mutex_exit(&soft_lock))
HANDLER(wake_softly, atomic_store_relaxed(&flag, true))

BODY(wait_for_level)
{
	kupaldiz_bind(0);
	mutex_enter(&soft_lock);
	softint_schedule(levels[0]);
	softint_schedule(levels[1]);
	for (unsigned turn = 0; turn < 3 && !atomic_load_relaxed(&flag); turn++)
		kpause("level", false, 1, NULL);
	KASSERT(atomic_load_relaxed(&flag));
	mutex_exit(&soft_lock);
	for (unsigned at = 0; at < 2; at++)
		softint_disestablish(levels[at]);
	kupaldiz_unbind();
}

static void make_levels(unsigned blocked, unsigned wakes)
{
	mutex_init(&soft_lock, MUTEX_DEFAULT, IPL_SOFTCLOCK);
	levels[0] = softint_establish(blocked | SOFTINT_MPSAFE, lock_softly, NULL);
	levels[1] = softint_establish(wakes | SOFTINT_MPSAFE, wake_softly, NULL);
}

/* Of two that are pending, the higher one runs first. */
HANDLER(run_after, KASSERT(atomic_load_relaxed(&flag)))

BODY(schedule_levels)
{
	int s = splhigh();
	softint_schedule(levels[0]);
	softint_schedule(levels[1]);
	splx(s);
	for (unsigned at = 0; at < 2; at++)
		softint_disestablish(levels[at]);
}

static void make_pending(void)
{
	levels[0] = softint_establish(SOFTINT_BIO | SOFTINT_MPSAFE, run_after, NULL);
	levels[1] = softint_establish(SOFTINT_NET | SOFTINT_MPSAFE, wake_softly, NULL);
}

/* A signal wakes the one that has waited longest. */
BODY(wait_in_turn)
{
	mutex_enter(&one);
	unsigned own = ++word;
	if (!flag)
		cv_wait(&cv, &one);
	KASSERT(flag || own == 1);
	flag = true;
	cv_broadcast(&cv);
	mutex_exit(&one);
}

BODY(signal_once)
{
	mutex_enter(&one);
	flag = word < 2;
	if (flag)
		cv_broadcast(&cv);
	else
		cv_signal(&cv);
	mutex_exit(&one);
}

static void higher_waits(void) { make_levels(SOFTINT_SERIAL, SOFTINT_CLOCK); }
static void lower_waits(void) { make_levels(SOFTINT_CLOCK, SOFTINT_NET); }

HANDLER(write_under_one, mutex_enter(&one); word = 1; mutex_exit(&one))
HANDLER(read_under_two, mutex_enter(&two); KASSERT(word < 2); mutex_exit(&two))

/* Where the race is told to be: the line of `word++`. */
enum { COUNTED_AT = __LINE__ + 1 };
HANDLER(count_plainly, word++)
static char counted_twice[128];

/* The first order of the locks puts the accesses in an order, the other one doesn't. */
HANDLER(write_then_lock, explorer_point(); word = 1; mutex_enter(&one); mutex_exit(&one))
HANDLER(lock_then_write, mutex_enter(&one); mutex_exit(&one); word = 2)

static char text[200], from[200];

HANDLER(copy_text, memcpy(text, from, sizeof(text)))
HANDLER(read_text, KASSERT(text[150] != 'x'))
HANDLER(write_first_byte, text[0] = 'a')
HANDLER(write_second_byte, text[1] = 'b')
HANDLER(give_by_language, word = 1; __atomic_store_n(&flag, true, __ATOMIC_RELEASE))
HANDLER(take_by_language, KASSERT(!__atomic_load_n(&flag, __ATOMIC_ACQUIRE) || word == 1))

/* The last store that the load sees is relaxed: it gives nothing of what the release gave. */
static unsigned state;

HANDLER(store_state, word = 1; atomic_store_release(&state, 1))

BODY(end_release)
{
	if (atomic_load_relaxed(&state) == 1)
		atomic_store_relaxed(&state, 2);
}

HANDLER(read_second_state, KASSERT(atomic_load_acquire(&state) != 2 || word == 1))

HANDLER(read_word, KASSERT(!atomic_load_acquire(&flag) || word < 2))
HANDLER(write_word_relaxed, word = 1; atomic_store_relaxed(&flag, true))
HANDLER(write_word_released, word = 1; atomic_store_release(&flag, true))
HANDLER(write_word_late, membar_release(); word = 1; atomic_store_relaxed(&flag, true))
HANDLER(write_word_fenced, word = 1; membar_release(); atomic_store_relaxed(&flag, true))

HANDLER(read_block, KASSERT(*block == 0))
HANDLER(use_own_late, free_block(arg); read_block(arg))

/* The call that takes the memory comes before no access of the other thread. */
HANDLER(take_block, atomic_store_relaxed(&block, kmem_zalloc(sizeof(*block), KM_SLEEP)))

HANDLER(use_given_block, const unsigned *given = atomic_load_relaxed(&block); KASSERT(given == NULL || *given == 0))

HANDLER(write_behind_seen, *(volatile unsigned *)(block + 1) = 1)

/* ---- What a call reads and writes of the code's own memory, and what threads have on their stacks. ---- */

static struct psref shared;
static lwp_t *worker;
static struct workqueue *queues[2];
static struct work common;

BODY(refer_in_common)
{
	int bound = curlwp_bind();
	psref_acquire(&shared, &target, things);
	psref_release(&shared, &target, things);
	curlwp_bindx(bound);
}

static void make_target(void) { things = psref_class_create("thing", IPL_SOFTNET); psref_target_init(&target, things); }
HANDLER(write_and_exit, *(unsigned *)arg = 2; kthread_exit(0))
HANDLER(look_for_self, KASSERT(worker == NULL || worker == curlwp); kthread_exit(0))

static void make_worker(void (*body)(void *), void *arg)
{
	EXPECT(kthread_create(PRI_NONE, KTHREAD_MUSTJOIN, NULL, body, arg, &worker, "worker") == 0);
}

BODY(share_stack)
{
	unsigned own = 0;
	make_worker(write_and_exit, &own);
	own = 1;
	kthread_join(worker);
	KASSERT(own != 0);
}

HANDLER(make_self, make_worker(look_for_self, NULL); kthread_join(worker))
HANDLER(lock_and_exit, mutex_enter(&one); mutex_exit(&one); kthread_exit(0))
HANDLER(join_with_lock, mutex_enter(&one); make_worker(lock_and_exit, NULL); kthread_join(worker); mutex_exit(&one))
HANDLER(copy_in, copyin(from, text, sizeof(text)))
static void do_nothing(struct work *work, void *arg) { (void)work; (void)arg; }

static void make_queues(void)
{
	for (unsigned at = 0; at < 2; at++)
		EXPECT(workqueue_create(&queues[at], "queue", do_nothing, NULL, PRI_NONE, IPL_NONE, WQ_MPSAFE) == 0);
}

static void destroy_things(void);

static void end_queues(void)
{
	destroy_things();
	for (unsigned at = 0; at < 2; at++)
		workqueue_destroy(queues[at]);
}

HANDLER(enqueue_in_first, workqueue_enqueue(queues[0], &common, NULL))
HANDLER(enqueue_in_second, workqueue_enqueue(queues[1], &common, NULL))
HANDLER(store_and_look, atomic_store_relaxed(&word, 1); (void)mutex_ownable(&one))
HANDLER(destroy_one, mutex_destroy(&one))

/* Each kind of thing is shown before it is initialised. */
#define LATE(name, thing, init, use) \
	static thing; \
	HANDLER(init_##name, atomic_store_release(&flag, true); init) \
	HANDLER(use_##name, if (atomic_load_acquire(&flag)) { use; })

LATE(lock, kmutex_t late, mutex_init(&late, MUTEX_DEFAULT, IPL_NONE), mutex_enter(&late); mutex_exit(&late))
LATE(cv, kcondvar_t late_cv, cv_init(&late_cv, "late"), cv_signal(&late_cv))
LATE(rw, krwlock_t late_rw, rw_init(&late_rw), (void)rw_tryenter(&late_rw, RW_READER))
LATE(callout, callout_t late_callout, callout_init(&late_callout, 0), (void)callout_halt(&late_callout, NULL))
LATE(pool, struct pool late_pool, pool_init(&late_pool, 8, 0, 0, 0, "late", NULL, IPL_NONE), pool_destroy(&late_pool))
HANDLER(show_lock, mutex_init(&late, MUTEX_DEFAULT, IPL_NONE); atomic_store_release(&flag, true))

#define TOO_LATE	"data race: thread \"first\" initialises it at finds.c:*, and thread \"second\" uses it at *finds.c:"

/* ---- Faults whose schedules are cut down to the fewest switches. ---- */

/* The search comes first to an order in which each thread is left in the middle. */
BODY(step_up)
{
	for (unsigned at = 0; at < 3; at++)
		atomic_inc_uint(&word);
}

BODY(look_twice)
{
	unsigned first = atomic_load_relaxed(&word);
	explorer_point();
	KASSERT(first == 3 || atomic_load_relaxed(&word) == first || first == 0);
}

HANDLER(step_one_two, atomic_inc_uint(&word); one_two(arg))
HANDLER(step_two_one, mutex_enter(&two); atomic_inc_uint(&word); mutex_enter(&one); mutex_exit(&one); mutex_exit(&two))

/* With no preemption three threads must come in their order; with one, two are enough. */
BODY(change_and_back)
{
	atomic_store_relaxed(&word, 1);
	atomic_store_relaxed(&word, 0);
	if (atomic_load_relaxed(&other_word) == 1)
		atomic_store_relaxed(&other_word, 2);
}

HANDLER(look, KASSERT(atomic_load_relaxed(&word) == 0 && atomic_load_relaxed(&other_word) != 2))
HANDLER(come_first, atomic_store_relaxed(&other_word, 1))

/* ---- The end of a cache whose objects are read in sections waits for the readers. ---- */

static pool_cache_t readable;
static unsigned *object;

BODY(read_object)
{
	int s = pserialize_read_enter();
	unsigned *found = atomic_load_acquire(&object);
	explorer_point();
	if (found != NULL)
		KASSERT(*found == 5);
	pserialize_read_exit(s);
}

BODY(end_cache)
{
	unsigned *old = object;
	atomic_store_release(&object, NULL);
	pool_cache_put(readable, old);
	pool_cache_destroy(readable);
}

HANDLER(look_at_object, explorer_point(); KASSERT(*object == 5))
HANDLER(end_looked_at, pool_cache_put(readable, object); pool_cache_destroy(readable))

static void make_cache(void)
{
	readable = pool_cache_init(sizeof(unsigned), 0, 0, PR_PSERIALIZE, "readable", NULL, IPL_NONE, NULL, NULL, NULL);
	object = pool_cache_get(readable, PR_WAITOK);
	*object = 5;
}

/* ---- What is left at the end. ---- */

/* More than one registry takes. Only the last is left. */
enum { SOME = 32 + 8 };

static struct psref_target targets[SOME];

static void make_targets(void)
{
	things = psref_class_create("thing", IPL_SOFTNET);
	for (unsigned at = 0; at < SOME; at++)
		psref_target_init(&targets[at], things);
	for (unsigned at = 0; at + 1 < SOME; at++)
		psref_target_destroy(&targets[at], things);
}

HANDLER(count_in, localcount_acquire(&local))
static void left_count(void) { localcount_init(&local); }

/* A drain waits for a reference that nobody releases. */
BODY(drain_held)
{
	while (!atomic_load_relaxed(&flag))
		delay(10000);
	mutex_enter(&one);
	localcount_drain(&local, &cv, &one);
	mutex_exit(&one);
}

HANDLER(count_in_and_end, localcount_acquire(&local); localcount_acquire(&local); atomic_store_relaxed(&flag, true))

HANDLER(count_in_and_lock, localcount_acquire(&local); atomic_store_relaxed(&flag, true); mutex_enter(&two); mutex_enter(&one); mutex_exit(&one);
    mutex_exit(&two); localcount_release(&local, &cv, &one))

BODY(drain_with_other_lock)
{
	while (!atomic_load_relaxed(&flag))
		delay(10000);
	mutex_enter(&two);
	mutex_enter(&one);
	localcount_drain(&local, &cv, &one);
	mutex_exit(&one);
	mutex_exit(&two);
}

/* ---- An atomic access doesn't stand for the plain one behind it. ---- */

HANDLER(store_both_ways, atomic_store_relaxed(&word, 1); word = 2)
HANDLER(load_atomically, (void)atomic_load_relaxed(&word))
/* A compiler may take the value of an atomic load for a plain one that follows it, if nothing is between. */
HANDLER(load_both_ways, (void)atomic_load_relaxed(&word); __asm__ volatile("" ::: "memory"); other_word = word)
HANDLER(store_atomically, atomic_store_relaxed(&word, 1))

static void left_object(void) { (void)mutex_obj_alloc(MUTEX_DEFAULT, IPL_NONE); }

/* What ends a test, which takes down what make_things has made, or ends with a lock held. */
static void destroy_things(void)
{
	mutex_destroy(&one);
	mutex_destroy(&two);
	rw_destroy(&rw);
	cv_destroy(&cv);
}

static void end_locked(void) { mutex_enter(&one); }

/* ---- What a thread sets of its processor is its own. ---- */

enum { MXCSR_UP = 0x5f80, MXCSR_NEAR = 0x1f80, X87_UP = 0x0b7f, X87_NEAR = 0x037f };

static unsigned x87_word(void)
{
	uint16_t control;
	__asm__ volatile("fnstcw %0" : "=m"(control));
	return control;
}

BODY(round_up)
{
	const uint16_t up = X87_UP;
	_mm_setcsr(MXCSR_UP);
	__asm__ volatile("fldcw %0" : : "m"(up));
	explorer_point();
	KASSERT(_mm_getcsr() == MXCSR_UP && x87_word() == X87_UP);
}

BODY(round_to_nearest)
{
	KASSERT(_mm_getcsr() == MXCSR_NEAR && x87_word() == X87_NEAR);
	explorer_point();
	KASSERT(_mm_getcsr() == MXCSR_NEAR && x87_word() == X87_NEAR);
}

/* ---- More of a kind than any table has room for at first. ---- */

enum { MANY = 700 };

static kmutex_t many_locks[MANY];
static unsigned many_words[MANY];

/* The last of many words is accessed without an order. */
BODY(write_many)
{
	for (unsigned at = 0; at < MANY; at++)
		many_words[at] = 1;
}

HANDLER(write_last, many_words[MANY - 1] = 2)

/* Each of many words has a release of its own, which tells its owner's clock. */
BODY(release_many)
{
	for (unsigned at = 0; at < MANY; at++)
		atomic_store_release(&many_words[at], 1);
	word = 1;
	atomic_store_release(&many_words[0], 2);
}

BODY(acquire_another)
{
	if (atomic_load_acquire(&many_words[1]) == 1)
		word = 1;
}

static void destroy_all_but_one(void)
{
	destroy_things();
	for (unsigned at = 0; at < MANY; at++)
		if (at != 600)
			mutex_destroy(&many_locks[at]);
}

static void leave_things(void) { }

static void make_many_locks(void)
{
	for (unsigned at = 0; at < MANY; at++)
		mutex_init(&many_locks[at], MUTEX_DEFAULT, IPL_NONE);
}

static const struct find finds[] = {
	{"a reader that enters again behind a writer", "nobody can go on: thread \"first\" waits in rw_enter",
	    read_twice, write_once},
	{"a downgrade", NULL, downgrade, read_beside, .finish = destroy_things},
	{"a lost wake-up", "came while nobody waited", wait_carelessly, wake, .switches = 2},
	{"freed memory", "data race: thread \"first\" writes at finds.c:*, and thread \"second\" frees at *finds.c:",
	    use_block, free_block, .make = make_block},
	{"freed memory by an atomic change of the thread itself", "atomic change at finds.c:*: use of freed memory: thread \"first\" gave it back",
	    change_own_late, write_once, .make = make_block},
	{"freed twice", "use of freed memory", free_block, free_block, .make = make_block},
	{"a lock that is never destroyed", "what mutex_init has made at finds.c:* lies in it and was never destroyed",
	    forget_lock, write_once},
	{"a write behind a block", "written behind a block of", write_behind, write_once, .make = make_block},
	{"a write further behind", "written behind a block of", write_far_behind, write_once, .make = make_block},
	{"a write to the last bytes of freed memory", "something was written to freed memory", write_last_freed, .make = make_long_block},
	{"a thread that never ends", "the run doesn't end", never_ends, write_once},
	{"a crash", "the code ends by signal 11", crash, set_word},
	{"a thread that isn't joined", "taken by kthread_create", join_never, write_once},
	{"freed before its handler is ended", "use of freed memory",
	    free_and_disestablish, write_once, .make = freed_before_disestablish},
	{"an attach that a drain loses", "KASSERT: not so: !attached || slot == 2",
	    clear_after_drain, attach_meanwhile, .make = cleared_after_drain},
	{"a cross call that isn't waited for", "use of freed memory", wait_never, write_once, .make = make_block},
	{"a release in a soft interrupt", NULL, schedule_release, drain_local, .make = released_in_handler},
	{"a drain beside another waiter", NULL, wait_beside, drain_and_wake, release_last, .make = acquire_one},
	{"a higher level's handler that waits", NULL, wait_for_level, write_once, .make = higher_waits},
	{"a lower level's handler that waits", NULL, wait_for_level, write_once, .make = lower_waits},
	{"two levels that are pending", NULL, schedule_levels, write_once, .make = make_pending},
	{"the one that waits longest", NULL, wait_in_turn, signal_once, wait_in_turn},
	{"a join with a lock that the thread waits for", "deadlock: thread \"first\" waits in kthread_join at *finds.c:* for its end of thread \"worker\"; "
	    "thread \"worker\" waits in mutex_enter at *finds.c:* for the lock of thread \"first\"", join_with_lock},
	{"the end of a cache that is read in sections", NULL, read_object, end_cache, .make = make_cache},
	{"the end of a cache that is looked at outside of one", "data race: thread \"first\" reads at finds.c:*, and thread \"second\" frees at *finds.c:",
	    look_at_object, end_looked_at, .make = make_cache},
	{"a lock object that is left", "1 block of memory is left at the end, taken by mutex_obj_alloc at *finds.c:", write_once, write_once, .make = left_object},
	{"the last of many targets that is left", "what psref_target_init has made at *finds.c:* is left at the end",
	    write_once, write_once, .make = make_targets},
	{"a count with references that are left",
	    "what localcount_init has made at *finds.c:* is left at the end, with 2 references, one of them acquired by thread \"*\" at *finds.c:",
	    count_in, count_in, .make = left_count},
	{"a drain of a reference that nobody has any more", "nobody can go on: thread \"second\" waits in localcount_drain at *finds.c:* for 2 references, "
	    "one of them acquired by thread \"first\" at *finds.c:", count_in_and_end, drain_held, .make = left_count},
	{"a drain of a reference that is held", "deadlock: thread \"first\" waits in mutex_enter at *finds.c:* for the lock of thread \"second\"; thread \"second\" "
	    "waits in localcount_drain at *finds.c:* for 1 reference, acquired by thread \"first\" at *finds.c:", count_in_and_lock, drain_with_other_lock,
	    .make = left_count},
	{"an atomic store before a plain one", "data race: ", store_both_ways, load_atomically},
	{"an atomic load before a plain one", "data race: ", load_both_ways, store_atomically},
	{"a lock that is held at the end", "pthread_exit: with a lock", write_once, write_once, .finish = end_locked},
	{"one variable under two locks", "data race: thread \"first\" writes at finds.c:*, and thread \"second\" reads at finds.c:",
	    write_under_one, read_under_two},
	{"a count without a lock", counted_twice, count_plainly, count_plainly},
	{"a lock that comes too late", "data race: ", write_then_lock, lock_then_write},
	{"copied bytes", "data race: thread \"first\" writes at finds.c:*, and thread \"second\" reads at finds.c:",
	    copy_text, read_text},
	{"bytes that a call copies", "data race: thread \"second\" reads at finds.c:*, and thread \"first\" writes at *finds.c:", copy_in, read_text},
	{"one reference for two threads", "data race: thread \"first\" reads at *finds.c:*, and thread \"second\" writes at *finds.c:",
	    refer_in_common, refer_in_common, .make = make_target},
	{"a variable on a stack", "data race: thread \"worker\" writes at finds.c:*, and thread \"first\" writes at finds.c:", share_stack},
	{"a thread that looks for itself", "data race: thread \"worker\" reads at finds.c:*, and thread \"first\" writes at *finds.c:", make_self},
	{"one work in two queues", "workqueue_enqueue: the work is enqueued already, at *finds.c:",
	    enqueue_in_first, enqueue_in_second, .make = make_queues, .finish = end_queues},
	{"a look at a lock that is destroyed", "mutex_ownable: the lock was destroyed", store_and_look, destroy_one},
	{"a lock that is shown too soon", TOO_LATE, init_lock, use_lock},
	{"a lock that is shown", NULL, show_lock, use_lock},
	{"a condition variable that is shown too soon", TOO_LATE, init_cv, use_cv},
	{"an rwlock that is shown too soon", TOO_LATE, init_rw, use_rw},
	{"a callout that is shown too soon", TOO_LATE, init_callout, use_callout},
	{"a pool that is shown too soon", TOO_LATE, init_pool, use_pool},
	{"bytes side by side", NULL, write_first_byte, write_second_byte},
	{"atomics of the language", NULL, give_by_language, take_by_language},
	{"a release that another store ends", "data race: ", store_state, end_release, .third = read_second_state},
	{"a relaxed store where a release is needed", "data race: ", read_word, write_word_relaxed},
	{"a release", NULL, read_word, write_word_released},
	{"a barrier", NULL, read_word, write_word_fenced},
	{"a barrier that comes too soon", "data race: ", read_word, write_word_late},
	{"freed memory by a plain access", "data race: thread \"first\" reads at finds.c:*, and thread \"second\" frees at *finds.c:",
	    read_block, free_block, .make = make_block},
	{"freed memory by the thread itself", "plain read at finds.c:*: use of freed memory: thread \"first\" gave it back ",
	    use_own_late, write_once, .make = make_block},
	{"memory that is given without a release", "data race: thread \"first\" takes memory by kmem_zalloc at ",
	    take_block, use_given_block},
	{"an access behind a block", "plain write at finds.c:*: beyond a block of ",
	    write_behind_seen, write_once, .make = make_block},
	{"a look between two steps", "KASSERT", look_twice, step_up, .switches = 3},
	{"a step, and two locks in two orders", "deadlock: thread \"first\" waits in mutex_enter at", step_one_two, step_two_one, .switches = 1},
	{"the last of many words", "data race: ", write_many, write_last},
	{"the last of many releases", "data race: ", release_many, acquire_another},
	{"one of many locks that is left", "what mutex_init has made at finds.c:* is left at the end", write_once,
	    .make = make_many_locks, .finish = destroy_all_but_one},
	{"several locks that are left", "4 locks, condition variables or callouts are left at the end, one of them made by cv_init at finds.c:", write_once,
	    .finish = leave_things},
	{"a thread's own way to round", NULL, round_up, round_to_nearest},
	{"a fault by two ways", "KASSERT", change_and_back, look, come_first, .switches = 1},
};

int main(int count, char **words)
{
	const struct explorer_options pictured = {.name = "picture", .picture = words[1], .left = 4};
	if (count > 1)
		return explorer_run(begin_destroy, &pictured);
	snprintf(counted_twice, sizeof(counted_twice), "data race: thread \"first\" writes at finds.c:%d, and thread \"second\" * at finds.c:%d", COUNTED_AT,
	    COUNTED_AT);
	return run_finds(finds, sizeof(finds) / sizeof(finds[0]));
}
