/* kernel_lock.c - the kernel lock: it nests, and who sleeps has given it up; and what else is one for all: softnet_lock, and tsleep's and wakeup's addresses */
#include "layer.h"

kmutex_t kernel_lock = {.mtx_made = A_MUTEX, .mtx_level = IPL_SOFTSERIAL};
static kmutex_t softnet = {.mtx_made = A_MUTEX, .mtx_level = IPL_NONE};

static void take_kernel_lock(struct thread *me, unsigned count)
{
	if (count > 0 && me->kernel_locks == 0)
		acquire_mutex(me, &kernel_lock);
	me->kernel_locks += count;
}

static void give_kernel_lock(struct thread *me, unsigned count)
{
	me->kernel_locks -= count;
	if (count > 0 && me->kernel_locks == 0)
		release_mutex(me, &kernel_lock);
}

struct sleep begin_sleep(struct thread *me)
{
	struct sleep sleep = {begin_wait(), me->level, me->kernel_locks};
	give_kernel_lock(me, sleep.kernel_locks);
	if (!me->softint)
		lower_level(me, IPL_NONE);
	return sleep;
}

/* It has its level on the CPU where it had it before, or was bound meanwhile. */
void end_sleep(struct thread *me, struct sleep sleep)
{
	take_kernel_lock(me, sleep.kernel_locks);
	if (sleep.level > me->level) {
		me->holds++;
		lock_acquire(&me->cpu->hold, me, report_cpu_wait);
		me->level = sleep.level;
	}
	end_wait(sleep.cancels);
}

void kupaldiz_kernel_lock(int count)
{
	struct thread *me = begin_call("KERNEL_LOCK");
	take_kernel_lock(me, count > 0 ? (unsigned)count : 0);
}

void kupaldiz_kernel_unlock(int count, int *held)
{
	struct thread *me = begin_call("KERNEL_UNLOCK");
	unsigned all = me->kernel_locks, given = count == 0 ? all : count < 0 ? 1 : (unsigned)count;
	stop_if(me, given > all, "the thread does not have the kernel lock so often");
	stop_if(me, count < 0 && all > 1, "the thread has the kernel lock more often");
	if (held != NULL) {
		TELL_WRITE(held, sizeof(*held));
		*held = (int)all;
	}
	give_kernel_lock(me, given);
	end_call(me);
}

bool kupaldiz_kernel_locked(void) { return begin_plain("KERNEL_LOCKED_P")->kernel_locks > 0; }

kmutex_t *kupaldiz_softnet(void)
{
	(void)begin_plain("softnet_lock");
	return &softnet;
}

/* ---- tsleep(9), which the kernel's newer code has condvar(9) in place of. ---- */

static int sleep_on(struct thread *me, const void *ident, pri_t priority, int ticks, kmutex_t *mutex)
{
	int64_t nanoseconds = ticks <= 0 ? 0 : (int64_t)ticks * tick_length();
	struct timespec deadline = time_after(nanoseconds);
	struct sleepq *sleepq = sleepq_of(ident);
	require_sleepable(me);
	MAY_END_EARLY((priority & PCATCH) != 0);
	sleepq_lock(sleepq);
	if (mutex != NULL)
		release_mutex(me, mutex);
	struct sleep sleep = begin_sleep(me);
	bool woken = sleepq_wait(sleepq, ident, me, ticks <= 0 ? NULL : &deadline);
	sleepq_unlock(sleepq);
	end_sleep(me, sleep);
	if (mutex != NULL && (priority & PNORELOCK) == 0)
		acquire_mutex(me, mutex);
	return ending_of(woken);
}

int tsleep(const void *ident, pri_t priority, const char *name, int ticks)
{
	(void)name;
	return sleep_on(begin_call(__func__), ident, priority, ticks, NULL);
}

int mtsleep(const void *ident, pri_t priority, const char *name, int ticks, kmutex_t *mutex)
{
	(void)name;
	return sleep_on(begin_call(__func__), ident, priority, ticks, mutex);
}

void wakeup(const void *ident)
{
	struct thread *me = begin_call(__func__);
	struct sleepq *sleepq = sleepq_of(ident);
	sleepq_lock(sleepq);
	sleepq_wake_all(sleepq, ident);
	sleepq_unlock(sleepq);
	end_call(me);
}

/* ---- once(9): the first call runs the function, and all others wait for it, and return what it has. ---- */

enum { RUNNING = 1, RUN };

static kmutex_t once_lock = {.mtx_made = A_MUTEX, .mtx_level = IPL_NONE};
static kcondvar_t once_done = {.cv_name = "runonce", .cv_made = A_CV};

int kupaldiz_run_once(once_t *once, int (*body)(void))
{
	struct thread *me = sleepable(begin_call("RUN_ONCE"));
	acquire_mutex(me, &once_lock);
	if (once->o_status == 0) {
		once->o_status = RUNNING;
		release_mutex(me, &once_lock);
		int error = body();
		acquire_mutex(me, &once_lock);
		once->o_error = error;
		once->o_status = RUN;
		wake_cv(me, &once_done, true);
	}
	while (once->o_status == RUNNING)
		wait_for(me, &once_done, &once_lock, -1);
	release_mutex(me, &once_lock);
	return once->o_error;
}
