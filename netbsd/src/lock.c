/*
 * lock.c - a lock that knows its owner, where threads wait, and the pauses of a wait
 *
 * A lock is one word. Taking and giving one that nobody waits for is one atomic step. Whoever waits is in the sleep queue of the lock's address, in the order
 * of arrival.
 */
#include "layer.h"

enum { SLEEPQS = 64, WAITED = 1, PATIENT_TRIES = 2 };

struct sleepq {
	_Alignas(LINE) pthread_mutex_t mutex;
	struct thread *first;
};

#define ONE	{.mutex = PTHREAD_MUTEX_INITIALIZER}
#define FOUR	ONE, ONE, ONE, ONE
#define SIXTEEN	FOUR, FOUR, FOUR, FOUR

/* Those of locks, and those of condition variables and what else waits with a lock: the former are taken under the latter. */
static struct sleepq sleepqs[SLEEPQS] = {SIXTEEN, SIXTEEN, SIXTEEN, SIXTEEN};
static struct sleepq lock_sleepqs[SLEEPQS] = {SIXTEEN, SIXTEEN, SIXTEEN, SIXTEEN};

static size_t place_of(const void *address)
{
	uintptr_t word = (uintptr_t)address;
	return (word >> 4 ^ word >> 10 ^ word >> 16) % SLEEPQS;
}

struct sleepq *sleepq_of(const void *address) { return &sleepqs[place_of(address)]; }
void sleepq_lock(struct sleepq *sleepq) { pthread_mutex_lock(&sleepq->mutex); }
void sleepq_unlock(struct sleepq *sleepq) { pthread_mutex_unlock(&sleepq->mutex); }

/* The time of the monotonic clock so many nanoseconds from now. */
struct timespec time_after(int64_t nanoseconds)
{
	struct timespec time;
	clock_gettime(CLOCK_MONOTONIC, &time);
	time.tv_sec += (time_t)(nanoseconds / 1000000000);
	time.tv_nsec += (long)(nanoseconds % 1000000000);
	if (time.tv_nsec >= 1000000000) {
		time.tv_sec++;
		time.tv_nsec -= 1000000000;
	}
	return time;
}

static void leave_queue(struct sleepq *sleepq, struct thread *me)
{
	struct thread **at = &sleepq->first;
	while (*at != NULL && *at != me)
		at = &(*at)->next;
	if (*at != NULL)
		*at = me->next;
}

/* The first that waits for something; NULL where nobody does. */
static struct thread *first_for(struct sleepq *sleepq, const void *of)
{
	struct thread *at = sleepq->first;
	while (at != NULL && at->waits_for != of)
		at = at->next;
	return at;
}

/* Waits, with the sleep queue's lock, until it is woken or the time is over: whether it was woken. The caller isn't cancelled meanwhile. */
bool sleepq_wait(struct sleepq *sleepq, const void *of, struct thread *me, const struct timespec *deadline)
{
	int answer = 0;
	struct thread **at = &sleepq->first;
	while (*at != NULL)
		at = &(*at)->next;
	*at = me;
	me->next = NULL;
	me->waits_for = of;
	me->woken = false;
	while (!me->woken && answer == 0) {
		if (deadline == NULL)
			pthread_cond_wait(&me->cond, &sleepq->mutex);
		else
			answer = pthread_cond_timedwait(&me->cond, &sleepq->mutex, deadline);
	}
	if (!me->woken)
		leave_queue(sleepq, me);
	me->waits_for = NULL;
	return me->woken;
}

bool sleepq_wake(struct sleepq *sleepq, const void *of)
{
	struct thread *found = first_for(sleepq, of);
	if (found == NULL)
		return false;
	leave_queue(sleepq, found);
	found->woken = true;
	pthread_cond_signal(&found->cond);
	return true;
}

bool sleepq_has_waiter(struct sleepq *sleepq, const void *of) { return first_for(sleepq, of) != NULL; }

static uintptr_t word_of(const uintptr_t *word) { return __atomic_load_n(word, __ATOMIC_ACQUIRE); }

/* A strong exchange: a weak one may fail without reason, and mutex_tryenter with it though the lock is free. No test on x86-64 sees the difference. */
static bool replace(uintptr_t *word, uintptr_t before, uintptr_t after)
{
	return __atomic_compare_exchange_n(word, &before, after, false, __ATOMIC_ACQ_REL, __ATOMIC_RELAXED);
}

struct thread *lock_owner(const uintptr_t *word)
{
	return (struct thread *)(word_of(word) & ~(uintptr_t)WAITED);
}

bool lock_tryacquire(uintptr_t *word, struct thread *me) { return replace(word, 0, (uintptr_t)me); }

/* Takes it where it is free, or has been passed to this thread; else notes that somebody waits. The caller has the sleep queue's lock. */
static bool acquire_or_mark(struct sleepq *sleepq, uintptr_t *word, struct thread *me)
{
	for (;;) {
		uintptr_t now = word_of(word), waited = sleepq_has_waiter(sleepq, word) ? WAITED : 0;
		if ((now & ~(uintptr_t)WAITED) == (uintptr_t)me)
			return true;
		if (now == 0) {
			if (replace(word, 0, (uintptr_t)me | waited))
				return true;
		} else if ((now & WAITED) != 0 || replace(word, now, now | WAITED)) {
			return false;
		}
	}
}

void lock_acquire(uintptr_t *word, struct thread *me, report_fn *reporter)
{
	if (lock_tryacquire(word, me))
		return;
	struct sleepq *sleepq = &lock_sleepqs[place_of(word)];
	struct timespec tells = patience();
	bool reported = reporter == NULL;
	int waits = begin_wait();
	sleepq_lock(sleepq);
	for (me->tries = 0; !acquire_or_mark(sleepq, word, me); me->tries++) {
		if (sleepq_wait(sleepq, word, me, reported ? NULL : &tells) || reported)
			continue;
		reported = true;
		sleepq_unlock(sleepq);
		reporter(me, word);
		sleepq_lock(sleepq);
	}
	sleepq_unlock(sleepq);
	end_wait(waits);
}

/* Makes another thread the owner, whether it waits already or will. The caller has the sleep queue's lock. */
static void hand_over(struct sleepq *sleepq, uintptr_t *word, struct thread *to)
{
	if (to->waits_for == word) {
		leave_queue(sleepq, to);
		to->woken = true;
	}
	__atomic_store_n(word, (uintptr_t)to | (sleepq_has_waiter(sleepq, word) ? WAITED : 0), __ATOMIC_RELEASE);
	pthread_cond_signal(&to->cond);
}

/* Whoever waits gets the lock when it is free next; one that others came before often enough gets it passed. */
void lock_release(uintptr_t *word, struct thread *me)
{
	uintptr_t mine = (uintptr_t)me;
	if (__atomic_compare_exchange_n(word, &mine, 0, false, __ATOMIC_RELEASE, __ATOMIC_RELAXED))
		return;
	struct sleepq *sleepq = &lock_sleepqs[place_of(word)];
	sleepq_lock(sleepq);
	struct thread *first = first_for(sleepq, word);
	if (first != NULL && first->tries >= PATIENT_TRIES) {
		hand_over(sleepq, word, first);
	} else {
		__atomic_store_n(word, 0, __ATOMIC_RELEASE);
		sleepq_wake(sleepq, word);
	}
	sleepq_unlock(sleepq);
}

void lock_hand_over(uintptr_t *word, struct thread *to)
{
	struct sleepq *sleepq = &lock_sleepqs[place_of(word)];
	sleepq_lock(sleepq);
	hand_over(sleepq, word, to);
	sleepq_unlock(sleepq);
}

/* ---- The pauses of a wait, between two looks at what it waits for. ---- */

struct pauses begin_pauses(void) { return (struct pauses){0, patience()}; }

/* Whether it is time to say what the wait waits for: once. */
bool pauses_are_over(struct pauses *pauses)
{
	struct timespec now = time_after(0), tells = pauses->tells;
	if (tells.tv_sec == 0 || now.tv_sec < tells.tv_sec || (now.tv_sec == tells.tv_sec && now.tv_nsec < tells.tv_nsec))
		return false;
	pauses->tells.tv_sec = 0;
	return true;
}

/* Lets others run, each time for longer. Whether it is time to report the wait. */
bool pause_longer(struct pauses *pauses)
{
	const struct timespec pause = {0, pauses->nanoseconds};
	if (pauses->nanoseconds < 1000)
		sched_yield();
	else
		nanosleep(&pause, NULL);
	if (pauses->nanoseconds < LONGEST_PAUSE / 2)
		pauses->nanoseconds = pauses->nanoseconds * 2 + 1;
	return pauses_are_over(pauses);
}
