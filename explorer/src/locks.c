/*
 * locks.c - lock.c and the C library's threads, as the explorer has them: a thread that waits names what it waits for, which the scheduler asks before it
 * goes on with the thread
 */
#include "inside.h"

enum { DAY = 86400 };

struct timespec time_after(int64_t nanoseconds)
{
	int64_t time = run.time + nanoseconds;
	touch(ON_TIME, NULL, 0, 0);
	return (struct timespec){(time_t)(time / 1000000000), (long)(time % 1000000000)};
}

/* A deadline; one that is more than a day away never comes. */
static int64_t time_of(const struct timespec *deadline)
{
	if (deadline == NULL || deadline->tv_sec > run.time / 1000000000 + DAY)
		return NEVER;
	return (int64_t)deadline->tv_sec * 1000000000 + deadline->tv_nsec;
}

int64_t next_time(void)
{
	int64_t next = NEVER;
	for (const struct routine *at = run.routines; at < &run.routines[run.count]; at++)
		if (!at->ended && at->deadline < next && at->deadline > run.time)
			next = at->deadline;
	return next;
}

static bool is_late(const struct routine *me)
{
	return run.time >= me->deadline;
}

/* ---- The lock: one word, its owner. ---- */

struct thread *lock_owner(const uintptr_t *word)
{
	return (struct thread *)*word;
}

bool lock_tryacquire(uintptr_t *word, struct thread *me)
{
	touch(ON_LOCK, word, 0, WRITES);
	if (*word != 0)
		return false;
	touch(ON_LOCK, word, 0, ACQUIRES);
	*word = (uintptr_t)me;
	return true;
}

bool is_free(const struct routine *me)
{
	const uintptr_t *word = me->of;
	return *word == 0 || *word == (uintptr_t)me->self;
}

/* Whoever waits for its own CPU doesn't have it, although it has begun to. */
void lock_acquire(uintptr_t *word, struct thread *me, report_fn *reporter)
{
	bool off = run.current->off, waits = run.current->visits || *word != 0;
	(void)reporter;
	if (waits) {
		if (!run.current->visits)
			touch(ON_LOCK, word, 0, 0);
		run.current->off |= me->cpu != NULL && word == &me->cpu->hold;
		wait_here(is_free, word);
		run.current->off = off;
	}
	touch(ON_LOCK, word, 0, WRITES | ACQUIRES | (waits ? WAITED : 0));
	*word = (uintptr_t)me;
}

void lock_release(uintptr_t *word, struct thread *me)
{
	(void)me;
	touch(ON_LOCK, word, 0, WRITES | RELEASES);
	*word = 0;
}

struct sleepq *sleepq_of(const void *address)
{
	(void)address;
	return NULL;
}

void sleepq_lock(struct sleepq *sleepq)
{
	(void)sleepq;
}

void sleepq_unlock(struct sleepq *sleepq)
{
	(void)sleepq;
}

bool was_woken(const struct routine *me)
{
	if (!me->woken && !is_late(me) && me->may_end == IN_TIME)
		return false;
	return me->relock == NULL || !is_live(me->relock) || me->relock->mtx_word == 0;
}

static void set_deadline(struct routine *me, int64_t deadline)
{
	if (deadline != me->deadline)
		touch(ON_DEADLINE, NULL, me->number, WRITES);
	me->deadline = deadline;
}

static bool wait_for_wake(const void *of, int64_t deadline)
{
	struct routine *me = run.current;
	touch(ON_CV, of, 0, WRITES);
	/* Whoever waits for an rwlock has looked at it, and waits in its queue. */
	touch(ON_LOCK, of, 0, 0);
	me->queue = of;
	me->woken = false;
	me->arrived = ++run.arrivals;
	set_deadline(me, deadline);
	wait_here(was_woken, of);
	if (me->relock != NULL) {
		check_live(me->call, me->relock, sizeof(*me->relock));
		touch(ON_LOCK, me->relock, 0, WAITED);
	}
	/* The wake-up alone has enabled it, unless its time is over or it might end early. */
	touch(ON_WAKE, me, 0, is_late(me) || me->may_end != IN_TIME ? 0 : ACQUIRES | WAITED);
	note_ending(me, !me->woken && !is_late(me));
	if (me->woken)
		acquire_clock(ON_WAKE, me, 0);
	else
		touch(ON_CV, of, 0, WRITES);
	me->queue = NULL;
	set_deadline(me, NEVER);
	return me->woken;
}

bool sleepq_wait(struct sleepq *sleepq, const void *of, struct thread *me, const struct timespec *deadline)
{
	(void)sleepq;
	(void)me;
	return wait_for_wake(of, time_of(deadline));
}

static struct routine *first_for(const void *of)
{
	struct routine *first = NULL;
	for (struct routine *at = run.routines; at < &run.routines[run.count]; at++)
		if (at->queue == of && !at->woken && (first == NULL || at->arrived < first->arrived))
			first = at;
	return first;
}

bool sleepq_wake(struct sleepq *sleepq, const void *of)
{
	struct routine *first = first_for(of);
	(void)sleepq;
	touch(ON_CV, of, 0, WRITES);
	if (first == NULL)
		return false;
	touch(ON_WAKE, first, 0, WRITES | RELEASES);
	first->woken = true;
	return true;
}

bool sleepq_has_waiter(struct sleepq *sleepq, const void *of)
{
	(void)sleepq;
	touch(ON_CV, of, 0, 0);
	return first_for(of) != NULL;
}

/* ---- Pauses: a handler must end. ---- */

struct pauses begin_pauses(void)
{
	return (struct pauses){0, {0, 0}};
}

bool has_ended_handler(const struct routine *me)
{
	return run.handlers != me->noted;
}

bool pause_longer(struct pauses *pauses)
{
	(void)pauses;
	run.current->noted = run.handlers;
	wait_here(has_ended_handler, NULL);
	touch(ON_PENDING, NULL, ANY, 0);
	return false;
}

/* ---- The C library's threads and time. ---- */

/* The end of the thread that runs: it isn't bound any more. */
void end_self(void)
{
	if (is_bound(kupaldiz_self))
		touch(ON_BOUND, NULL, kupaldiz_self->cpu->info.ci_index, WRITES);
	if (run.current->name == NULL)
		run.current->name = kupaldiz_self->name;
	end_of_thread(kupaldiz_self);
}

static void run_start(void *arg)
{
	run.current->start(arg);
}

int explorer_create(pthread_t *id, void *(*body)(void *), void *arg, const char *file)
{
	bool callout = strstr(file, "callout") != NULL, works = strstr(file, "workqueue") != NULL;
	/* It may be bound as it begins. */
	if (!callout)
		touch(ON_BOUND, NULL, ANY, 0);
	/* Its CPU goes by its number. */
	if (works)
		touch(ON_THREAD, NULL, 0, WRITES);
	struct routine *made = make_routine(callout ? "callout" : NULL, run_start, arg, callout || works);
	made->start = body;
	*id = (pthread_t)made->number;
	start_routines();
	return 0;
}

bool has_ended(const struct routine *me)
{
	return ((const struct routine *)me->of)->ended;
}

int explorer_join(pthread_t id)
{
	struct routine *joined = &run.routines[id];
	wait_here(has_ended, joined);
	touch(ON_THREAD, joined, 0, ORDERS | ACQUIRES);
	return 0;
}

void explorer_exit(void)
{
	end_self();
	end_routine();
}

/* No step ends with one of the layer's own mutexes held, so nobody waits for one. */
void explorer_mutex_lock(const void *watched)
{
	if (watched == NULL)
		return;
	touch(ON_LOCK, watched, 0, WRITES);
	acquire_clock(ON_LOCK, watched, 0);
}

void explorer_mutex_unlock(const void *watched)
{
	if (watched != NULL)
		release_clock(ON_LOCK, watched, 0);
}

int explorer_cond_wait(const void *cond, const struct timespec *deadline, const void *watched)
{
	explorer_mutex_unlock(watched);
	bool woken = wait_for_wake(cond, time_of(deadline));
	explorer_mutex_lock(watched);
	return woken ? 0 : ETIMEDOUT;
}

void sleep_until(int64_t time)
{
	set_deadline(run.current, time);
	wait_here(is_late, NULL);
	set_deadline(run.current, NEVER);
}

void explorer_yield(void)
{
	wait_here(NULL, NULL);
}

/* No signal ends it. */
int explorer_sleep(const struct timespec *time)
{
	sleep_until(run.time + (int64_t)time->tv_sec * 1000000000 + time->tv_nsec);
	return 0;
}

/* ---- Its memory, and the line before it ends. ---- */

static char line[EXPLORER_LINE];

void *explorer_calloc(size_t count, size_t size)
{
	return memset(explorer_allocate(count * size, 16, kupaldiz_self != NULL && !run.own_memory), 0, count * size);
}

ssize_t explorer_write(const void *text, size_t length)
{
	snprintf(line, sizeof(line), "%.*s", (int)length - 1, (const char *)text);
	return (ssize_t)length;
}

void explorer_abort(void)
{
	fail("%s", line);
}
