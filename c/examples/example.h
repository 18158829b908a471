/*
 * example.h - what the examples share: an end where something isn't as it has to be, names,
 * threads, and a rest that lets others on
 */
#ifndef EXAMPLE_H
#define EXAMPLE_H

#include <pthread.h>
#include <stdio.h>
#include <stdlib.h>
#include <string.h>
#include <time.h>

#include "kupaldiz.h"

/* Ends the program if a call isn't done. */
static inline void check(const char *call, enum kupaldiz_result result)
{
	if (result == KUPALDIZ_DONE)
		return;
	fprintf(stderr, "%s: %s\n", call, kupaldiz_strerror(result));
	exit(1);
}

/* Ends the program unless this is so. */
static inline void expect(const char *what, bool is_so)
{
	if (is_so)
		return;
	fprintf(stderr, "not so: %s\n", what);
	exit(1);
}

static inline struct kupaldiz_name name_of(const char *text)
{
	struct kupaldiz_name name;
	check("name", kupaldiz_name_of_bytes(text, strlen(text), &name));
	return name;
}

/* Lets other threads on. A yield would do so only where the system's does. */
static inline void rest(void)
{
	const struct timespec moment = {0, 10000};
	nanosleep(&moment, NULL);
}

static inline pthread_t started(void *(*body)(void *), void *of)
{
	pthread_t thread;
	expect("a thread was started", pthread_create(&thread, NULL, body, of) == 0);
	return thread;
}

static inline void joined(pthread_t thread)
{
	expect("a thread was joined", pthread_join(thread, NULL) == 0);
}

#endif
