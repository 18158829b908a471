/*
 * in_explorer.h - read by the compiler before misuses.c of netbsd/tests, in place of its stops.h: each case runs in the explorer, which must find its line. All
 * threads are called as the program is, as there.
 */
#ifndef NETBSD_STOPS_H
#define NETBSD_STOPS_H
#define NETBSD_TEST_H

#include <pthread.h>
#include <stdatomic.h>
#include <stdio.h>
#include <stdlib.h>

#include <kupaldiz/kernel.h>

#include "../explorer.h"
#include "../../c/examples/expect.h"

enum { MOST_STARTED = 8 };

static struct started {
	void *(*body)(void *);
	void *arg;
	bool ended;
} started[MOST_STARTED];
static unsigned started_count;

static inline void run_started(void *of)
{
	struct started *thread = of;
	thread->body(thread->arg);
	thread->ended = true;
}

static inline void start_thread(pthread_t *thread, void *(*body)(void *), void *arg)
{
	*thread = started_count;
	started[started_count] = (struct started){body, arg, false};
	explorer_thread(PROGRAM, run_started, &started[started_count++]);
}

static inline void sleep_for(long microseconds)
{
	delay((unsigned)microseconds);
}

/* Time goes on where no thread can, so this is longer than any case. */
static inline void stay_here(void)
{
	sleep_for(20000000);
}

static inline void end_thread(pthread_t thread)
{
	while (!started[thread].ended)
		sleep_for(10);
}

#include "../../netbsd/tests/cases.h"

static void (*begin_case)(void);
static void (*body_of_case)(void);

static inline void run_body(void *arg)
{
	(void)arg;
	begin_case();
	body_of_case();
}

static inline void make_case(void)
{
	explorer_thread(PROGRAM, run_body, NULL);
}

bool is_right(void (*begin)(void), const struct stop_case *the_case)
{
	struct explorer_found found;
	const struct explorer_options options = {.quiet = true, .found = &found, .schedules = 20, .bounded = 20, .preemptions = 1, .random = 20};
	begin_case = begin;
	body_of_case = the_case->body;
	explorer_run(make_case, &options);
	hide_places(found.line);
	bool right = strcmp(found.line, the_case->line) == 0;
	if (!right)
		printf("wanted: %s\n   and: %s\n", the_case->line, found.line);
	return right;
}

#endif
