/*
 * client.h - what the tests share: calls that have to be done, names, threads, and a rest that lets
 * others on
 */
#ifndef CLIENT_H
#define CLIENT_H

#include <pthread.h>
#include <stdio.h>
#include <stdlib.h>
#include <string.h>
#include <time.h>

#include "../examples/expect.h"
#include "kupaldiz.h"

/* Ends the program where a call isn't done, or doesn't return this. */
#define DONE(call)	EXPECT((call) == KUPALDIZ_DONE)
#define IS(result, call)	EXPECT((call) == KUPALDIZ_##result)

/* The same under a mutex. */
#define DONE_UNDER(mutex, call)			\
	do {					\
		pthread_mutex_lock(mutex);	\
		DONE(call);			\
		pthread_mutex_unlock(mutex);	\
	} while (0)

#define COUNT_OF(row)	(sizeof(row) / sizeof *(row))

static inline struct kupaldiz_name name_of(const char *text)
{
	struct kupaldiz_name name;
	DONE(kupaldiz_name_of_bytes(text, strlen(text), &name));
	return name;
}

/* The name of a letter and a number. */
static inline struct kupaldiz_name numbered(char letter, unsigned number)
{
	char text[12];
	snprintf(text, sizeof text, "%c%u", letter, number);
	return name_of(text);
}

static inline bool same_name(const struct kupaldiz_name *one, const struct kupaldiz_name *other)
{
	return one->high == other->high && one->low == other->low;
}

/* All that an entry has. There are bytes between its kind and its name that mean nothing. */
static inline bool same_entry(const struct kupaldiz_entry *one, const struct kupaldiz_entry *other)
{
	return one->number == other->number && one->slot == other->slot &&
	    one->kind == other->kind && same_name(&one->name, &other->name) &&
	    one->value == other->value;
}

static inline bool same_entries(const struct kupaldiz_entry *one,
    const struct kupaldiz_entry *other, size_t count)
{
	while (count > 0 && same_entry(one, other)) {
		one++;
		other++;
		count--;
	}
	return count == 0;
}

/* Lets other threads on. A yield would do so only where the system's does: a sleep always does. */
static inline void rest(void)
{
	const struct timespec moment = {0, 10000};
	nanosleep(&moment, NULL);
}

static inline pthread_t started(void *(*body)(void *), void *of)
{
	pthread_t thread;
	EXPECT(pthread_create(&thread, NULL, body, of) == 0);
	return thread;
}

/* What the thread returned. */
static inline void *joined(pthread_t thread)
{
	void *result;
	EXPECT(pthread_join(thread, &result) == 0);
	return result;
}

/* So many milliseconds from now, for a wait. */
static inline struct timespec in_milliseconds(long count)
{
	struct timespec time;
	EXPECT(clock_gettime(CLOCK_MONOTONIC, &time) == 0);
	time.tv_nsec += count * 1000000;
	time.tv_sec += time.tv_nsec / 1000000000;
	time.tv_nsec %= 1000000000;
	return time;
}

static inline bool is_past(const struct timespec *deadline)
{
	const struct timespec now = in_milliseconds(0);
	return now.tv_sec > deadline->tv_sec ||
	    (now.tv_sec == deadline->tv_sec && now.tv_nsec >= deadline->tv_nsec);
}

#endif
