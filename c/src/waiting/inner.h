/*
 * inner.h - what the modules of kupaldiz_waiting.h share: the turns of a wait, how it passes the
 * time between two, and a condition whose deadlines are of CLOCK_MONOTONIC
 *
 * All of it is static, so that the library shows no other names than the header's. The checking
 * build tells what the modules meet with the place of the program's call.
 */
#ifndef WAITING_INNER_H
#define WAITING_INNER_H

#define KUPALDIZ_INNER
#include "kupaldiz_waiting.h"

#include <sched.h>

static inline void take(const struct kupaldiz_interlock *interlock)
{
	interlock->take(interlock->of);
}

static inline void give(const struct kupaldiz_interlock *interlock)
{
	interlock->give(interlock->of);
}

/*
 * How a wait passes the time between two turns. A section is over in microseconds if its thread
 * runs. So the wait spins first: 16 times, for 1, 2, 4, .. 256 and then 256 pause instructions,
 * some 90 microseconds in all at 40 ns each. If that thread doesn't run, spinning keeps a processor
 * from it. So the wait then yields 8 times, and then sleeps, for 16 microseconds at first, and
 * twice as long each time, up to 8 milliseconds.
 */
enum {
	SPINS = 16,
	MOST_PAUSES = 256,
	YIELDS = 8,
	FIRST_SLEEP = 16 * 1000,
	LONGEST_SLEEP = 8 * 1000 * 1000
};

/* A wait between two turns: its deadline, its spins and yields, its next sleep in nanoseconds. */
struct pause {
	const struct timespec *deadline;
	unsigned made;
	int64_t sleep;
};

/* The nanoseconds until the deadline, at most `most`; 0 or less once it has passed. */
static inline int64_t time_left(const struct timespec *deadline, int64_t most)
{
	struct timespec now;
	if (deadline == NULL)
		return most;
	clock_gettime(CLOCK_MONOTONIC, &now);
	if (deadline->tv_sec < now.tv_sec)
		return 0;
	if (deadline->tv_sec - now.tv_sec > 1)
		return most;
	int64_t left = (int64_t)(deadline->tv_sec - now.tv_sec) * 1000000000 +
	    (deadline->tv_nsec - now.tv_nsec);
	return left < most ? left : most;
}

/* Tells the processor that this thread spins. A test may define its own. */
#ifndef SPIN_PAUSE
#if defined(__x86_64__)
#define SPIN_PAUSE() __builtin_ia32_pause()
#elif defined(__aarch64__)
#define SPIN_PAUSE() __asm__ volatile("isb")
#else
#define SPIN_PAUSE() ((void)0)
#endif
#endif

/* The length of the sleep after one of this length. */
static inline int64_t longer(int64_t sleep, int64_t longest)
{
	return sleep * 2 < longest ? sleep * 2 : longest;
}

/* Lets time pass between two turns. False once the deadline has passed: there is no next turn. */
static inline bool pause_once(struct pause *pause)
{
	int64_t length = time_left(pause->deadline, pause->sleep);
	if (length <= 0)
		return false;
	if (pause->made >= SPINS + YIELDS) {
		const struct timespec sleep = {0, (long)length};
		nanosleep(&sleep, NULL);
		pause->sleep = longer(pause->sleep, LONGEST_SLEEP);
		return true;
	}
	if (pause->made >= SPINS) {
		sched_yield();
	} else {
		for (unsigned i = 0; i < 1U << pause->made && i < MOST_PAUSES; i++)
			SPIN_PAUSE();
	}
	pause->made++;
	return true;
}

/* The thread sanitizer's, if the program has it: the library isn't compiled with it. */
extern void __tsan_acquire(void *address) __attribute__((weak));

/* Tells it that nobody uses any more what was used before: KUPALDIZ_LET_GO of kupaldiz_tsan.h. */
static inline void tell_sanitizer(void)
{
	if (__tsan_acquire != NULL)
		__tsan_acquire((void *)(uintptr_t)kupaldiz_limits);
}

/* A condition variable whose deadlines are of CLOCK_MONOTONIC. */
static inline bool make_condition(pthread_cond_t *made)
{
	pthread_condattr_t monotonic;
	if (pthread_condattr_init(&monotonic) != 0)
		return false;
	int error = pthread_condattr_setclock(&monotonic, CLOCK_MONOTONIC);
	if (error == 0)
		error = pthread_cond_init(made, &monotonic);
	pthread_condattr_destroy(&monotonic);
	return error == 0;
}

#endif
