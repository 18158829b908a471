/* condvar.c - condvar(9) */
#include "layer.h"

void cv_init(kcondvar_t *cv, const char *name) { *cv = (kcondvar_t){.cv_name = name, .cv_made = A_CV}; }

static void require_cv(const struct thread *me, const kcondvar_t *cv)
{
	require_made(me, cv->cv_made, A_CV, "the condition variable");
}

void cv_destroy(kcondvar_t *cv)
{
	struct thread *me = begin_call(__func__);
	require_cv(me, cv);
	stop_if(me, cv_has_waiters(cv), "a thread waits for %s", cv->cv_name);
	cv->cv_made = ENDED;
}

/* Stops where the thread mustn't sleep. It may have this lock, which may spin. */
static void require_sleepable_with(struct thread *me, const kmutex_t *mutex)
{
	if (!mutex->mtx_spins) {
		require_sleepable(me);
		return;
	}
	stop_if(me, me->softint, "in a soft interrupt");
	bool keeps_level = me->level_before > IPL_NONE && (is_strict || me->called);
	stop_if(me, me->depth > 0 || me->spins > 1 || keeps_level || me->preemptions > 0, "the thread has more than this spin lock");
	/* The lock's own level is right. */
	stop_if(me, me->spins_at[me->level] == 0, "at a raised level");
}

/* Waits to be woken, without the lock meanwhile, for so long at most; less than 0 is for ever. Whether it was woken. */
bool wait_for(struct thread *me, kcondvar_t *cv, kmutex_t *mutex, int64_t nanoseconds)
{
	struct timespec deadline = time_after(nanoseconds < 0 ? 0 : nanoseconds);
	struct sleepq *sleepq = sleepq_of(cv);
	require_cv(me, cv);
	require_mutex(me, mutex);
	stop_if(me, !has_mutex(me, mutex), "the thread does not have the lock");
	require_sleepable_with(me, mutex);
	sleepq_lock(sleepq);
	release_mutex(me, mutex);
	struct sleep sleep = begin_sleep(me);
	bool woken = sleepq_wait(sleepq, cv, me, nanoseconds < 0 ? NULL : &deadline);
	sleepq_unlock(sleepq);
	end_sleep(me, sleep);
	acquire_mutex(me, mutex);
	return woken;
}

void wake_cv(struct thread *me, kcondvar_t *cv, bool all)
{
	struct sleepq *sleepq = sleepq_of(cv);
	sleepq_lock(sleepq);
	require_cv(me, cv);
	if (all)
		sleepq_wake_all(sleepq, cv);
	else
		sleepq_wake(sleepq, cv);
	sleepq_unlock(sleepq);
}

/* How a wait of the code's own ended. */
int ending_of(bool woken)
{
	switch (LAST_ENDING()) {
	case AS_IF_WOKEN:
		return 0;
	case BY_SIGNAL:
		return EINTR;
	default:
		return woken ? 0 : EWOULDBLOCK;
	}
}

/* A wait of the code's own. 0 ticks are for ever. Below 0 the time is over already. */
static int timedwait(struct thread *me, kcondvar_t *cv, kmutex_t *mutex, int ticks, bool signals)
{
	int64_t nanoseconds = ticks == 0 ? -1 : ticks < 0 ? 0 : (int64_t)ticks * tick_length();
	MAY_END_EARLY(signals);
	return ending_of(wait_for(me, cv, mutex, nanoseconds));
}

void cv_wait(kcondvar_t *cv, kmutex_t *mutex) { (void)timedwait(begin_call(__func__), cv, mutex, 0, false); }

int cv_wait_sig(kcondvar_t *cv, kmutex_t *mutex)
{
	return timedwait(begin_call(__func__), cv, mutex, 0, true);
}

int cv_timedwait(kcondvar_t *cv, kmutex_t *mutex, int ticks)
{
	return timedwait(begin_call(__func__), cv, mutex, ticks, false);
}

int cv_timedwait_sig(kcondvar_t *cv, kmutex_t *mutex, int ticks)
{
	return timedwait(begin_call(__func__), cv, mutex, ticks, true);
}

static void wake(struct thread *me, kcondvar_t *cv, bool all)
{
	wake_cv(me, cv, all);
	end_call(me);
}

void cv_signal(kcondvar_t *cv) { wake(begin_call(__func__), cv, false); }
void cv_broadcast(kcondvar_t *cv) { wake(begin_call(__func__), cv, true); }

bool cv_has_waiters(kcondvar_t *cv)
{
	struct sleepq *sleepq = sleepq_of(cv);
	sleepq_lock(sleepq);
	bool waited = sleepq_has_waiter(sleepq, cv);
	sleepq_unlock(sleepq);
	return waited;
}

bool cv_is_valid(kcondvar_t *cv) { return cv->cv_made == A_CV; }
