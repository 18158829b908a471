/* reclaimer.c - the thread that frees what waits in a list */
#include "inner.h"
#include "reclaimer.h"

#include <signal.h>
#include <stdlib.h>

/* It sleeps up to a second: nobody waits for it, and each of its turns takes the interlock. */
enum { LONGEST_REST = 1000 * 1000 * 1000 };

static struct timespec after(int64_t nanoseconds)
{
	struct timespec time;
	clock_gettime(CLOCK_MONOTONIC, &time);
	time.tv_nsec += (long)nanoseconds;
	if (time.tv_nsec >= 1000000000) {
		time.tv_nsec -= 1000000000;
		time.tv_sec += 1;
	}
	return time;
}

/*
 * Sleeps until it is told of more, and while something waits no longer than so many nanoseconds.
 * The caller has the mutex. The length of the next sleep.
 */
static int64_t sleep_once(struct reclaimer *reclaimer, bool waits, int64_t length)
{
	const struct timespec end = after(length);
	int error = 0;
	while (!reclaimer->more && !reclaimer->ends && error == 0) {
		if (waits)
			error = pthread_cond_timedwait(&reclaimer->changed, &reclaimer->mutex, &end);
		else
			error = pthread_cond_wait(&reclaimer->changed, &reclaimer->mutex);
	}
	int64_t next = reclaimer->more ? FIRST_SLEEP : longer(length, LONGEST_REST);
	reclaimer->more = false;
	return next;
}

/* Frees what it can. Whether something waits then. */
static bool reclaim(struct kupaldiz_deferred *deferred)
{
	const struct kupaldiz_interlock *interlock = deferred->interlock;
	take(interlock);
	enum kupaldiz_result result = kupaldiz_deferred_free(deferred, NULL);
	bool waits = result == KUPALDIZ_DONE && kupaldiz_deferred_count(deferred) > 0;
	give(interlock);
	return waits;
}

static void *reclaim_all(void *of)
{
	struct reclaimer *reclaimer = of;
	int64_t length = FIRST_SLEEP;
	bool ends = false;
	while (!ends) {
		bool waits = reclaim(reclaimer->deferred);
		pthread_mutex_lock(&reclaimer->mutex);
		length = sleep_once(reclaimer, waits, length);
		ends = reclaimer->ends;
		pthread_mutex_unlock(&reclaimer->mutex);
	}
	return NULL;
}

/* Starts the thread, which takes no signal. */
static int start_thread(struct reclaimer *reclaimer)
{
	sigset_t all, before;
	sigfillset(&all);
	pthread_sigmask(SIG_SETMASK, &all, &before);
	int error = pthread_create(&reclaimer->thread, NULL, reclaim_all, reclaimer);
	pthread_sigmask(SIG_SETMASK, &before, NULL);
	return error;
}

/* A reclaimer whose thread isn't started, or NULL. */
static struct reclaimer *make_reclaimer(struct kupaldiz_deferred *deferred)
{
	struct reclaimer *made = malloc(sizeof *made);
	if (made == NULL)
		return NULL;
	*made = (struct reclaimer){.deferred = deferred, .mutex = PTHREAD_MUTEX_INITIALIZER};
	if (make_condition(&made->changed))
		return made;
	free(made);
	return NULL;
}

static void free_reclaimer(struct reclaimer *reclaimer)
{
	pthread_cond_destroy(&reclaimer->changed);
	pthread_mutex_destroy(&reclaimer->mutex);
	free(reclaimer);
}

/* The caller has the interlock. */
static enum kupaldiz_result start(struct kupaldiz_deferred *deferred)
{
	if (deferred->reclaimer != NULL)
		return KUPALDIZ_FULL_HANDLE;
	struct reclaimer *made = make_reclaimer(deferred);
	if (made == NULL)
		return KUPALDIZ_NO_MEMORY;
	if (start_thread(made) != 0) {
		free_reclaimer(made);
		return KUPALDIZ_NO_THREAD;
	}
	deferred->reclaimer = made;
	return KUPALDIZ_DONE;
}

enum kupaldiz_result kupaldiz_reclaimer_start(struct kupaldiz_deferred *deferred)
{
	const struct kupaldiz_interlock *interlock = deferred->interlock;
	take(interlock);
	enum kupaldiz_result result = start(deferred);
	give(interlock);
	return result;
}

enum kupaldiz_result kupaldiz_reclaimer_stop(struct kupaldiz_deferred *deferred)
{
	const struct kupaldiz_interlock *interlock = deferred->interlock;
	int cancels;
	take(interlock);
	struct reclaimer *reclaimer = deferred->reclaimer;
	deferred->reclaimer = NULL;
	give(interlock);
	if (reclaimer == NULL)
		return KUPALDIZ_EMPTY_HANDLE;
	tell(reclaimer, &reclaimer->ends);
	pthread_setcancelstate(PTHREAD_CANCEL_DISABLE, &cancels);
	pthread_join(reclaimer->thread, NULL);
	pthread_setcancelstate(cancels, NULL);
	free_reclaimer(reclaimer);
	return KUPALDIZ_DONE;
}
