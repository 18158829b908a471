/*
 * waits.c - the interlock of a mutex, and the calls that wait for an entry, for sections or to
 * release a reference
 */
#include "inner.h"

#include <stdio.h>
#include <stdlib.h>
#include <string.h>

/* Ends the program if the mutex wasn't locked or unlocked. */
static void want_done(const char *call, int error)
{
	if (error == 0)
		return;
	fprintf(stderr, "kupaldiz: %s of the interlock: %s\n", call, strerror(error));
	abort();
}

static void lock_mutex(void *mutex)
{
	want_done("pthread_mutex_lock", pthread_mutex_lock(mutex));
}

static void unlock_mutex(void *mutex)
{
	want_done("pthread_mutex_unlock", pthread_mutex_unlock(mutex));
}

struct kupaldiz_interlock kupaldiz_interlock_of_mutex(struct kupaldiz_keeper *keeper,
    pthread_mutex_t *mutex)
{
	return (struct kupaldiz_interlock){keeper, lock_mutex, unlock_mutex, mutex};
}

enum kupaldiz_result kupaldiz_release_local(const struct kupaldiz_interlock *interlock,
    struct kupaldiz_cpu *cpu, struct kupaldiz_local *local)
{
	enum kupaldiz_result result = kupaldiz_try_release_local(cpu, local);
	if (result != KUPALDIZ_COLLECTED)
		return result;
	take(interlock);
	result = kupaldiz_release_local_locked(interlock->keeper, cpu, local);
	give(interlock);
	return result;
}

/* A turn outside a section. Threads may share the CPU, so it is looked at under the interlock. */
static enum kupaldiz_result destroy_outside(struct kupaldiz_keeper *keeper,
    const struct kupaldiz_cpu *cpu, uint64_t number, struct kupaldiz_met *met)
{
	uint64_t depth = 0;
	enum kupaldiz_result result = kupaldiz_depth(cpu, &depth);
	if (result != KUPALDIZ_DONE || keeper->at == NULL)
		return KUPALDIZ_EMPTY_HANDLE;
	return depth == 0 ? kupaldiz_destroy(keeper, number, met) : KUPALDIZ_INSIDE;
}

enum kupaldiz_result kupaldiz_destroy_wait(const struct kupaldiz_interlock *interlock,
    struct kupaldiz_cpu *cpu, uint64_t number, const struct timespec *deadline,
    struct kupaldiz_met *met)
{
	struct pause pause = {deadline, 0, FIRST_SLEEP};
	enum kupaldiz_result result;
	do {
		take(interlock);
		result = destroy_outside(interlock->keeper, cpu, number, met);
		give(interlock);
	} while (result == KUPALDIZ_STILL_HELD && pause_once(&pause));
	return result;
}

enum kupaldiz_result kupaldiz_perform_wait(const struct kupaldiz_interlock *interlock,
    struct kupaldiz_cpu *cpu, const struct timespec *deadline, uint64_t *waited)
{
	struct pause pause = {deadline, 0, FIRST_SLEEP};
	struct kupaldiz_wait wait;
	take(interlock);
	enum kupaldiz_result result = kupaldiz_perform_begin(interlock->keeper, cpu, &wait);
	give(interlock);
	if (result != KUPALDIZ_DONE)
		return result;
	do {
		take(interlock);
		result = kupaldiz_perform_turn(interlock->keeper, cpu, &wait, waited);
		give(interlock);
	} while (result == KUPALDIZ_WAITING && pause_once(&pause));
	return result;
}
