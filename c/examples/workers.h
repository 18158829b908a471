/*
 * workers.h - threads at work, each on a CPU of its own, while another thread lets entries come and
 * go
 */
#ifndef WORKERS_H
#define WORKERS_H

#include <stdatomic.h>

#include "example.h"

/* What a worker counts: what it did, and how often the entry wasn't there. */
struct tally {
	uint64_t done, missed;
};

struct worker {
	unsigned id;	/* of its CPU */
	struct tally tally;
	pthread_t thread;
};

/* Whether the workers stop, and how much all of them did. Both are relaxed: they order nothing. */
static atomic_bool over;
static atomic_uint_fast64_t all_done;

static inline bool is_over(void)
{
	return atomic_load_explicit(&over, memory_order_relaxed);
}

static inline void count_done(struct worker *self)
{
	self->tally.done++;
	atomic_fetch_add_explicit(&all_done, 1, memory_order_relaxed);
}

/* Waits until the workers did so much more. Meanwhile an entry is there for them. */
static inline void wait_for_done(uint64_t more)
{
	uint64_t before = atomic_load_explicit(&all_done, memory_order_relaxed);
	while (atomic_load_explicit(&all_done, memory_order_relaxed) < before + more)
		rest();
}

/* Starts so many workers, each with its own `struct worker`. */
static inline void start_workers(struct worker *workers, unsigned count, void *(*work)(void *))
{
	for (unsigned i = 0; i < count; i++) {
		workers[i].id = i;
		workers[i].thread = started(work, &workers[i]);
	}
}

/* Lets them stop, waits for each, and adds up what they counted. */
static inline struct tally end_workers(struct worker *workers, unsigned count)
{
	struct tally sum = {0, 0};
	atomic_store_explicit(&over, true, memory_order_relaxed);
	for (unsigned i = 0; i < count; i++) {
		joined(workers[i].thread);
		sum.done += workers[i].tally.done;
		sum.missed += workers[i].tally.missed;
	}
	return sum;
}

#endif
