/*
 * What the tests share: threads, a short sleep, and memory that is given back.
 */
#ifndef NETBSD_TEST_H
#define NETBSD_TEST_H

#include <pthread.h>
#include <stdatomic.h>
#include <stdbool.h>
#include <stdio.h>
#include <stdlib.h>
#include <string.h>
#include <time.h>
#include <unistd.h>

#include "../../c/examples/expect.h"
#include "bodies.h"

static inline void sleep_for(long microseconds)
{
	const struct timespec time = {microseconds / 1000000, microseconds % 1000000 * 1000};
	nanosleep(&time, NULL);
}

/* For ever: what a case needs of a thread doesn't end before the case does. */
static inline void stay_here(void)
{
	for (;;)
		pause();
}

static inline void await_flag(atomic_bool *flag)
{
	while (!atomic_load(flag))
		sleep_for(50);
}

static inline void await_least(atomic_uint *number, unsigned least)
{
	while (atomic_load(number) < least)
		sleep_for(50);
}

/* Writes over a block that is given back next. The compiler would leave out a plain memset before a free. */
static inline void spoil(void *block, size_t size)
{
	memset(block, 0xdb, size);
	__asm__ volatile("" : : "r"(block) : "memory");
}

static inline void start_thread(pthread_t *thread, void *(*body)(void *), void *arg)
{
	EXPECT(pthread_create(thread, NULL, body, arg) == 0);
}

static inline void end_thread(pthread_t thread) { EXPECT(pthread_join(thread, NULL) == 0); }

#endif
