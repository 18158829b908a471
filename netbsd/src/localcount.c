/* localcount.c - localcount(9) */
#include "layer.h"

/* The words of a count beside live_at and ending_at. */
enum { DRAINED = 1, FINISHED };

void localcount_init(struct localcount *lc)
{
	struct thread *me = sleepable(begin_call(__func__));
	struct counts *counts = NULL;
	stop_if(me, posix_memalign((void **)&counts, LINE, sizeof(*counts)) != 0, "out of memory");
	memset(counts, 0, sizeof(*counts));
	note_owner(me, lc, counts);
	lc->lc_counts = counts;
	__atomic_store_n(&lc->lc_state, live_at(lc), __ATOMIC_RELEASE);
}

void localcount_fini(struct localcount *lc)
{
	struct thread *me = begin_call(__func__);
	stop_if(me, lc->lc_state != DRAINED, "the count is not drained");
	lc->lc_state = FINISHED;
}

static bool is_draining(const struct localcount *lc)
{
	return __atomic_load_n(&lc->lc_state, __ATOMIC_ACQUIRE) == ending_at(lc);
}

static struct counts *counts_of(const struct thread *me, const struct localcount *lc)
{
	stop_if(me, __atomic_load_n(&lc->lc_state, __ATOMIC_ACQUIRE) != live_at(lc) && !is_draining(lc), "the count is not live");
	return lc->lc_counts;
}

/* Notes what a call names, the first time. Whether it is the same as before. */
static bool is_same(const void **noted, const void *named)
{
	const void *before = NULL;
	return __atomic_compare_exchange_n(noted, &before, named, false, __ATOMIC_RELAXED, __ATOMIC_RELAXED) || before == named;
}

static void require_same(struct thread *me, struct counts *counts, const kcondvar_t *cv, const kmutex_t *interlock)
{
	stop_if(me, !is_same(&counts->interlock, interlock), "the interlock differs from the one before");
	stop_if(me, !is_same(&counts->cv, cv), "the condition variable differs from the one before");
}

void localcount_acquire(struct localcount *lc)
{
	struct thread *me = begin_call(__func__);
	struct counts *counts = counts_of(me, lc);
	hold_cpu(me);
	stop_if(me, is_draining(lc), "the count is being drained");
	unsigned cpu = me->cpu->info.ci_index;
	counts->on[cpu].count++;
	counts->on[cpu].place = me->place;
	__atomic_fetch_add(&counts->held, 1, __ATOMIC_RELAXED);
	leave_cpu(me);
}

/* Gives a reference back that a drain waits for. A soft interrupt takes the interlock, too: as in the kernel it sleeps if it must. */
static void give_up(struct thread *me, struct counts *counts, kcondvar_t *cv, kmutex_t *interlock)
{
	acquire_mutex(me, interlock);
	if (--counts->left == 0)
		wake_cv(me, cv, true);
	release_mutex(me, interlock);
}

void localcount_release(struct localcount *lc, kcondvar_t *cv, kmutex_t *interlock)
{
	struct thread *me = begin_call(__func__);
	stop_if(me, has_mutex(me, interlock), "the thread has the interlock");
	struct counts *counts = counts_of(me, lc);
	require_same(me, counts, cv, interlock);
	hold_cpu(me);
	stop_if(me, __atomic_fetch_sub(&counts->held, 1, __ATOMIC_RELAXED) <= 0, "no reference to the count is held");
	bool draining = is_draining(lc);
	if (!draining)
		counts->on[me->cpu->info.ci_index].count--;
	unhold_cpu(me);
	if (draining)
		give_up(me, counts, cv, interlock);
	end_call(me);
}

static void report_wait(struct thread *me, const struct counts *counts)
{
	if (counts->left == 1)
		report(me, "waits for 1 reference, acquired%s", AT_PLACE(counts->place));
	else
		report(me, "waits for %lld references, one of them acquired%s", (long long)counts->left, AT_PLACE(counts->place));
}

/* Waits for the last release, with the interlock, but not meanwhile. */
static void await_releases(struct thread *me, const struct counts *counts, kcondvar_t *cv, kmutex_t *interlock)
{
	bool told = false;
	while (counts->left != 0) {
		if (wait_for(me, cv, interlock, told ? -1 : patience_milliseconds * 1000000) || told || counts->left == 0)
			continue;
		told = true;
		report_wait(me, counts);
	}
}

void localcount_drain(struct localcount *lc, kcondvar_t *cv, kmutex_t *interlock)
{
	struct thread *me = sleepable(begin_call(__func__));
	stop_if(me, !has_mutex(me, interlock), "the thread does not have the interlock");
	struct counts *counts = counts_of(me, lc);
	require_same(me, counts, cv, interlock);
	uint64_t live = live_at(lc);
	stop_if(me, !__atomic_compare_exchange_n(&lc->lc_state, &live, ending_at(lc), false, __ATOMIC_SEQ_CST, __ATOMIC_SEQ_CST),
	    "another thread waits for it already");
	struct sleep sleep = begin_sleep(me);
	/* The kernel, too, gives the interlock up while it visits each CPU, also where nobody has a reference. */
	release_mutex(me, interlock);
	collect_counts(me, counts);
	acquire_mutex(me, interlock);
	counts->left += counts->collected;
	await_releases(me, counts, cv, interlock);
	forget_owner(lc);
	free(counts);
	lc->lc_counts = NULL;
	__atomic_store_n(&lc->lc_state, DRAINED, __ATOMIC_RELEASE);
	end_sleep(me, sleep);
}

uint32_t localcount_debug_refcnt(const struct localcount *lc)
{
	return (uint32_t)__atomic_load_n(&counts_of(begin_plain(__func__), lc)->held, __ATOMIC_RELAXED);
}
