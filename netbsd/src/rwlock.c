/* rwlock.c - rwlock(9): its words are read and written under the lock of the sleep queue in which its threads wait, which most functions are called with */
#include "layer.h"

void rw_init(krwlock_t *rw) { *rw = (krwlock_t){.rw_made = A_RW}; }

static struct thread *lock_rw(struct thread *me, const krwlock_t *rw)
{
	require_made(me, rw->rw_made, A_RW, "the lock");
	sleepq_lock(sleepq_of(rw));
	return me;
}

static int unlock_rw(const krwlock_t *rw, int answer)
{
	sleepq_unlock(sleepq_of(rw));
	return answer;
}

void rw_destroy(krwlock_t *rw)
{
	struct thread *me = lock_rw(begin_call(__func__), rw);
	stop_if(me, rw->rw_writer != 0 || rw->rw_readers != 0, "the lock is held");
	rw->rw_made = ENDED;
	sleepq_unlock(sleepq_of(rw));
}

/* Takes it where it is free for this. */
static bool rw_tryacquire(struct thread *me, krwlock_t *rw, krw_t how)
{
	if (rw->rw_writer != 0 || (how == RW_WRITER ? rw->rw_readers != 0 : rw->rw_wanted != 0))
		return false;
	if (how == RW_WRITER)
		rw->rw_writer = (uintptr_t)me;
	else
		rw->rw_readers++;
	rw->rw_place = me->place;
	me->locks++;
	return true;
}

static bool report_wait(struct thread *me, const krwlock_t *rw)
{
	if (rw->rw_writer == 0 && rw->rw_readers == 0)
		return false;
	if (rw->rw_writer != 0)
		report(me, "waits for the lock that thread \"%s\" took as a writer%s", NAME_OF((const struct thread *)rw->rw_writer), AT_PLACE(rw->rw_place));
	else
		report(me, "waits for %u readers, the last of which took the lock%s", rw->rw_readers, AT_PLACE(rw->rw_place));
	return true;
}

void rw_enter(krwlock_t *rw, const krw_t how)
{
	struct thread *me = lock_rw(begin_call(__func__), rw);
	require_blockable(me);
	stop_if(me, rw->rw_writer == (uintptr_t)me, "the thread has the lock already");
	if (rw_tryacquire(me, rw, how)) {
		sleepq_unlock(sleepq_of(rw));
		return;
	}
	bool told = false;
	struct sleep sleep = begin_sleep(me);
	if (me->softint)
		yield_cpu(me);
	struct timespec tells = patience();
	rw->rw_wanted += how == RW_WRITER;
	while (!rw_tryacquire(me, rw, how)) {
		if (sleepq_wait(sleepq_of(rw), rw, me, told ? NULL : &tells) || told)
			continue;
		told = report_wait(me, rw);
		tells = patience();
	}
	rw->rw_wanted -= how == RW_WRITER;
	sleepq_unlock(sleepq_of(rw));
	if (me->softint)
		reclaim_cpu(me);
	end_sleep(me, sleep);
}

int rw_tryenter(krwlock_t *rw, const krw_t how)
{
	struct thread *me = lock_rw(begin_call(__func__), rw);
	return unlock_rw(rw, rw_tryacquire(me, rw, how));
}

/* Stops where the thread can't have the lock. */
static void require_held(const struct thread *me, const krwlock_t *rw)
{
	stop_if(me, rw->rw_writer == 0 && rw->rw_readers == 0, "nobody has the lock");
	stop_if(me, me->locks == 0, "the thread does not have the lock");
}

void rw_exit(krwlock_t *rw)
{
	struct thread *me = lock_rw(begin_call(__func__), rw);
	stop_if(me, rw->rw_writer != 0 && rw->rw_writer != (uintptr_t)me, "another thread has the lock as its writer");
	require_held(me, rw);
	if (rw->rw_writer != 0)
		rw->rw_writer = 0;
	else
		rw->rw_readers--;
	me->locks--;
	sleepq_wake_all(sleepq_of(rw), rw);
	sleepq_unlock(sleepq_of(rw));
}

int rw_tryupgrade(krwlock_t *rw)
{
	struct thread *me = lock_rw(begin_plain(__func__), rw);
	require_held(me, rw);
	bool alone = rw->rw_writer == 0 && rw->rw_readers == 1;
	if (alone) {
		rw->rw_readers = 0;
		rw->rw_writer = (uintptr_t)me;
	}
	return unlock_rw(rw, alone);
}

void rw_downgrade(krwlock_t *rw)
{
	struct thread *me = lock_rw(begin_plain(__func__), rw);
	stop_if(me, rw->rw_writer != (uintptr_t)me, "the thread is not the lock's writer");
	rw->rw_writer = 0;
	rw->rw_readers = 1;
	sleepq_wake_all(sleepq_of(rw), rw);
	sleepq_unlock(sleepq_of(rw));
}

int rw_read_held(krwlock_t *rw)
{
	sleepq_lock(sleepq_of(rw));
	return unlock_rw(rw, rw->rw_readers > 0);
}

int rw_write_held(krwlock_t *rw)
{
	struct thread *me = begin_plain(__func__);
	sleepq_lock(sleepq_of(rw));
	return unlock_rw(rw, rw->rw_writer == (uintptr_t)me);
}

int rw_lock_held(krwlock_t *rw)
{
	sleepq_lock(sleepq_of(rw));
	return unlock_rw(rw, rw->rw_readers > 0 || rw->rw_writer != 0);
}
