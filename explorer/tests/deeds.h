/* deeds.h - what the threads of small programs do, and what they work on: for `outcomes` and `programs`. A test says itself what is seen. */
#ifndef EXPLORER_DEEDS_H
#define EXPLORER_DEEDS_H

#include <time.h>

#include "../../netbsd/tests/pages.h"
#include "cases.h"

static unsigned words[2];	/* by atomic accesses */
static kmutex_t locks[2], spin;
static krwlock_t rw;
static kcondvar_t cv;
static bool flag, gone, drained;
static pserialize_t psz;
static struct psref_class *things;
static struct psref_target target;
static struct localcount local;
static callout_t callout;
static percpu_t *percpu;
static struct workqueue *queue;
static pool_cache_t cache;

/* Notes what a thread has seen: that is the outcome. */
static void observe(unsigned thread, unsigned value);

static unsigned load(unsigned at) { return atomic_load_relaxed(&words[at]); }

static void await_flag(unsigned thread)
{
	(void)thread;
	mutex_enter(&locks[0]);
	while (!flag)
		cv_wait(&cv, &locks[0]);
	mutex_exit(&locks[0]);
}

static void set_flag(unsigned thread)
{
	(void)thread;
	mutex_enter(&locks[0]);
	flag = true;
	cv_broadcast(&cv);
	mutex_exit(&locks[0]);
}

static void await_flag_for_a_tick(unsigned thread)
{
	mutex_enter(&locks[0]);
	if (!flag)
		observe(thread, cv_timedwait(&cv, &locks[0], 1) == 0 ? 1 : 2);
	mutex_exit(&locks[0]);
}

/* Acquires a passive reference where the target isn't gone, and looks at a word while it has it. */
static void refer(unsigned thread)
{
	struct psref psref;
	int bound = curlwp_bind(), s = pserialize_read_enter();
	bool found = !atomic_load_acquire(&gone);
	if (found)
		psref_acquire(&psref, &target, things);
	pserialize_read_exit(s);
	observe(thread, found);
	if (found) {
		observe(thread, load(0));
		psref_release(&psref, &target, things);
	}
	curlwp_bindx(bound);
}

/* The same of a local reference. */
static void count_in(unsigned thread)
{
	int s = pserialize_read_enter();
	bool found = !atomic_load_acquire(&drained);
	if (found)
		localcount_acquire(&local);
	pserialize_read_exit(s);
	observe(thread, found);
	if (found) {
		observe(thread, load(1));
		localcount_release(&local, &cv, &locks[1]);
	}
}

/* An object tells the order in which those of its cache were made. */
UNSEEN static int number_object(void *arg, void *object, int flags)
{
	static unsigned made;
	(void)arg;
	(void)flags;
	*(unsigned *)object = ++made;
	return 0;
}

/* ---- Random programs. ---- */

static uint64_t seed;

static unsigned pick(unsigned below)
{
	seed = seed * 6364136223846793005u + 1442695040888963407u;
	return (unsigned)(seed >> 33) % below;
}

/* In how many orders these threads may go on, by the points of each: steps of the next one are put between those of the others. */
static double orders_of(const unsigned *points, unsigned threads)
{
	double orders = 1;
	unsigned all = 0;
	for (unsigned thread = 0; thread < threads; thread++)
		for (unsigned own = 1; own <= points[thread]; own++)
			orders = orders * ++all / own;
	return orders;
}

static time_t now(void)
{
	struct timespec time;
	clock_gettime(CLOCK_MONOTONIC, &time);
	return time.tv_sec;
}

#endif
