/* locks - the locks beside the three pages: what each guards, levels, conditions, and many that wait */
#include <limits.h>

#include "test.h"
#include "things.h"

enum { THREADS = 6, TURNS = 2000 };

static kmutex_t spin;
static krwlock_t rw;
static unsigned plain, pair[2];	/* under a lock each */
static atomic_uint waiting;

static void run_all(void *(*body)(void *))
{
	pthread_t threads[THREADS];
	for (unsigned i = 0; i < THREADS; i++)
		start_thread(&threads[i], body, NULL);
	for (unsigned i = 0; i < THREADS; i++)
		end_thread(threads[i]);
}

static void *add_locked(void *arg)
{
	for (unsigned turn = 0; turn < TURNS; turn++) {
		kmutex_t *mutex = turn % 2 == 0 ? &lock : &spin;
		if (turn % 8 != 7 || !mutex_tryenter(mutex))
			mutex_enter(mutex);
		EXPECT(mutex_owned(mutex));
		if (turn % 2 == 0)
			plain++;
		else
			pair[0]++;
		mutex_exit(mutex);
		EXPECT(!mutex_owned(mutex) && mutex_ownable(mutex));
	}
	return arg;
}

/* With a spin lock the level may be raised, also for a second lock, and lowered again to that of the first. */
static void test_levels_in_spin_locks(void)
{
	kmutex_t highest;
	mutex_init(&highest, MUTEX_DEFAULT, IPL_HIGH);
	mutex_spin_enter(&spin);
	int s = splhigh();
	mutex_spin_enter(&highest);
	mutex_spin_exit(&highest);
	splx(s);
	EXPECT(s == IPL_VM && splsched() == IPL_VM);
	splx(s);
	mutex_spin_exit(&spin);
	EXPECT(!kpreempt_disabled());
	/* The level is what it was before the first of the locks that spin. */
	s = splsoftnet();
	mutex_enter(&spin);
	mutex_enter(&highest);
	mutex_exit(&spin);
	EXPECT(splsoftclock() == IPL_HIGH);
	mutex_exit(&highest);
	EXPECT(splsoftclock() == IPL_SOFTNET);
	splx(s);
	EXPECT(s == IPL_NONE && !kpreempt_disabled());
	mutex_destroy(&highest);
}

static void test_mutexes(void)
{
	plain = pair[0] = 0;
	run_all(add_locked);
	EXPECT(plain == THREADS * TURNS / 2 && pair[0] == THREADS * TURNS / 2);
	mutex_spin_enter(&spin);
	EXPECT(kpreempt_disabled() && !mutex_tryenter(&spin));
	mutex_spin_exit(&spin);
	EXPECT(!kpreempt_disabled());
	test_levels_in_spin_locks();
	kmutex_t *counted = mutex_obj_alloc(MUTEX_DEFAULT, IPL_NONE);
	mutex_obj_hold(counted);
	EXPECT(!mutex_obj_free(counted));
	EXPECT(mutex_obj_free(counted));
}

/* Both words are the same to whoever reads, and are changed by one alone. */
static void *read_and_write(void *arg)
{
	for (unsigned turn = 0; turn < TURNS; turn++) {
		if (turn % 8 == 0) {
			rw_enter(&rw, RW_WRITER);
			EXPECT(rw_write_held(&rw) && !rw_tryenter(&rw, RW_READER));
			pair[0]++;
			if (turn % 64 == 0)
				rw_downgrade(&rw);
			else
				pair[1]++;
			EXPECT(rw_lock_held(&rw));
			rw_exit(&rw);
		} else if (turn % 8 != 3 || !rw_tryenter(&rw, RW_READER)) {
			rw_enter(&rw, RW_READER);
			EXPECT(rw_read_held(&rw) && pair[0] - pair[1] <= THREADS * TURNS);
			rw_exit(&rw);
		} else {
			rw_exit(&rw);
		}
	}
	return arg;
}

static void test_rwlocks(void)
{
	const krw_t kind = RW_READER;
	pair[0] = pair[1] = 0;
	run_all(read_and_write);
	EXPECT(pair[0] == THREADS * TURNS / 8 && !rw_lock_held(&rw));
	rw_enter(&rw, kind);
	EXPECT(!rw_tryenter(&rw, RW_WRITER) && rw_tryenter(&rw, RW_READER) && !rw_tryupgrade(&rw));
	rw_exit(&rw);
	EXPECT(rw_tryupgrade(&rw) && rw_write_held(&rw) && !rw_tryenter(&rw, RW_READER));
	rw_exit(&rw);
}

static void *wait_and_count(void *arg)
{
	mutex_enter(&lock);
	switch (waiting++ % 4) {
	case 0: cv_wait(&cv, &lock); break;
	case 1: EXPECT(cv_wait_sig(&cv, &lock) == 0); break;
	case 2: EXPECT(cv_timedwait(&cv, &lock, 0) == 0); break;	/* for ever */
	case 3: EXPECT(cv_timedwait_sig(&cv, &lock, 0) == 0); break;
	}
	plain++;
	mutex_exit(&lock);
	return arg;
}

/* A broadcast wakes all. A spin lock is had again, at its level. */
static void test_condvars(void)
{
	pthread_t threads[THREADS];
	plain = 0;
	for (unsigned i = 0; i < THREADS; i++)
		start_thread(&threads[i], wait_and_count, NULL);
	await_least(&waiting, THREADS);
	mutex_enter(&lock);
	EXPECT(cv_has_waiters(&cv) && cv_is_valid(&cv));
	cv_broadcast(&cv);
	while (plain < THREADS)
		EXPECT(cv_timedwait_sig(&cv, &lock, 1) == EWOULDBLOCK);
	EXPECT(!cv_has_waiters(&cv));
	mutex_exit(&lock);
	for (unsigned i = 0; i < THREADS; i++)
		end_thread(threads[i]);
	mutex_enter(&spin);
	EXPECT(cv_timedwait(&cv, &spin, 1) == EWOULDBLOCK && mutex_owned(&spin) && kpreempt_disabled());
	mutex_exit(&spin);
	EXPECT(!kpreempt_disabled());
}

enum { WAITERS = 4, LONG = 20 };

static kcondvar_t other_cv;
static unsigned leaver, queued, order;	/* under the lock */
static bool has_left;

/* Waits until it is woken; the leaver, until its time is over. */
static void *wait_in_order(void *of)
{
	unsigned number = *(unsigned *)of;
	mutex_enter(&lock);
	queued++;
	if (number == leaver) {
		EXPECT(cv_timedwait(&cv, &lock, LONG) == EWOULDBLOCK);
		has_left = true;
	} else {
		EXPECT(cv_timedwait(&cv, &lock, INT_MAX) == 0);
		order = order * 10 + number;
	}
	mutex_exit(&lock);
	return of;
}

static void wait_a_tick(void) { EXPECT(cv_timedwait(&other_cv, &lock, 1) == EWOULDBLOCK); }

/* Each signal wakes one, who waits longest. Whose time is over leaves the queue, from its beginning, its middle or its end; the last one comes afterwards. */
static void test_order(unsigned of, unsigned wanted)
{
	pthread_t threads[WAITERS];
	unsigned numbers[WAITERS];
	mutex_enter(&lock);
	leaver = of;
	queued = order = 0;
	has_left = false;
	for (unsigned i = 0; i < WAITERS; i++) {
		while (i == WAITERS - 1 && !has_left)
			wait_a_tick();
		numbers[i] = i + 1;
		start_thread(&threads[i], wait_in_order, &numbers[i]);
		while (queued == i)
			wait_a_tick();
	}
	for (unsigned woken = 1; woken <= wanted; woken *= 10) {
		EXPECT(cv_has_waiters(&cv));
		cv_signal(&cv);
		do
			wait_a_tick();
		while (order < woken);
		EXPECT(order < 10 * woken);
	}
	EXPECT(order == wanted && !cv_has_waiters(&cv));
	/* The time that is left may be over already. */
	EXPECT(cv_timedwait(&cv, &lock, -1) == EWOULDBLOCK && cv_timedwait_sig(&cv, &lock, -100000) == EWOULDBLOCK && mutex_owned(&lock));
	mutex_exit(&lock);
	for (unsigned i = 0; i < WAITERS; i++)
		end_thread(threads[i]);
}

/* More locks and condition variables than the layer has places to wait in: some share one. */
enum { CROWD = 80 };

static struct member {
	pthread_t thread;
	kmutex_t lock;
	kcondvar_t cv;
	bool called;		/* under the lock */
} crowd[CROWD];

static void *wait_in_crowd(void *of)
{
	struct member *member = of;
	mutex_enter(&member->lock);
	while (!member->called)
		cv_wait(&member->cv, &member->lock);
	mutex_exit(&member->lock);
	return of;
}

static bool is_waited_for(const kmutex_t *mutex) { return (__atomic_load_n(&mutex->mtx_word, __ATOMIC_RELAXED) & 1) != 0; }

/* Each waits for its lock, and once that is free for its condition variable. */
static void let_crowd_wait(void)
{
	for (unsigned i = 0; i < CROWD; i++)
		while (!is_waited_for(&crowd[i].lock))
			sleep_for(50);
	for (unsigned i = 0; i < CROWD; i++)
		mutex_exit(&crowd[i * 7 % CROWD].lock);
	for (unsigned i = 0; i < CROWD; i++)
		while (!cv_has_waiters(&crowd[i].cv))
			sleep_for(50);
}

static void test_crowd(void)
{
	for (unsigned i = 0; i < CROWD; i++) {
		mutex_init(&crowd[i].lock, MUTEX_DEFAULT, IPL_NONE);
		cv_init(&crowd[i].cv, "crowd");
		mutex_enter(&crowd[i].lock);
		start_thread(&crowd[i].thread, wait_in_crowd, &crowd[i]);
	}
	let_crowd_wait();
	/* One goes after another: it gets its signal, and no other does. */
	for (unsigned i = 0; i < CROWD; i++) {
		struct member *member = &crowd[i * 3 % CROWD];
		mutex_enter(&member->lock);
		member->called = true;
		cv_signal(&member->cv);
		mutex_exit(&member->lock);
		end_thread(member->thread);
		cv_destroy(&member->cv);
		mutex_destroy(&member->lock);
	}
}

/* ---- The kernel lock, which is given up by whoever sleeps; tsleep(9) and once(9). ---- */

static void *add_kernel_locked(void *arg)
{
	for (unsigned turn = 0; turn < TURNS; turn++) {
		KERNEL_LOCK(1 + (int)turn % 2, NULL);
		unsigned before = plain;
		if (turn % 500 == 0)
			(void)kpause("locks", false, 1, NULL);
		else
			EXPECT(plain == before);
		plain++;
		KERNEL_UNLOCK_ALL(NULL, NULL);
	}
	return arg;
}

static atomic_bool asleep;
static once_t once;
static int count_once(void) { (void)kpause("once", false, 1, NULL); plain++; return 7; }

THREAD(run_it_once, EXPECT(RUN_ONCE(&once, count_once) == 7))
THREAD(lock_both, KERNEL_LOCK(2, NULL); mutex_enter(&lock); EXPECT(KERNEL_LOCKED_P()); mutex_exit(&lock); KERNEL_UNLOCK_ALL(NULL, NULL))
THREAD(sleep_locked,
    KERNEL_LOCK(1, NULL); atomic_store(&asleep, true); EXPECT(tsleep(&plain, PRI_NONE, "locks", 0) == 0 && KERNEL_LOCKED_P()); KERNEL_UNLOCK_LAST(NULL))

static void test_kernel_lock(void)
{
	pthread_t thread;
	plain = 0;
	run_all(add_kernel_locked);
	EXPECT(plain == THREADS * TURNS);
	run_all(run_it_once);
	EXPECT(plain == THREADS * TURNS + 1);
	/* It waits for this lock, and has given the kernel lock up. */
	mutex_enter(&lock);
	start_thread(&thread, lock_both, NULL);
	while (!is_waited_for(&lock))
		sleep_for(50);
	KERNEL_LOCK(1, NULL);
	mutex_exit(&lock);
	KERNEL_UNLOCK_ONE(NULL);
	end_thread(thread);
	/* It can't miss the wakeup: it has the kernel lock until it sleeps. */
	start_thread(&thread, sleep_locked, NULL);
	await_flag(&asleep);
	KERNEL_LOCK(1, NULL);
	wakeup(&plain);
	KERNEL_UNLOCK_ONE(NULL);
	end_thread(thread);
}

int main(void)
{
	make_things(IPL_SOFTCLOCK);
	mutex_init(&spin, MUTEX_DEFAULT, IPL_VM);
	cv_init(&other_cv, "others");
	rw_init(&rw);
	test_mutexes();
	test_rwlocks();
	test_condvars();
	test_order(1, 234);
	test_order(2, 134);
	test_order(3, 124);
	test_crowd();
	test_kernel_lock();
	cv_destroy(&other_cv);
	EXPECT(cv_is_valid(&cv) && !cv_is_valid(&other_cv));
	rw_destroy(&rw);
	mutex_destroy(&spin);
	end_things();
	puts("the locks beside the three pages did as they say");
	return 0;
}
