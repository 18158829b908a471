/* compare.h - what a test's programs come to with the reduction and without: outcomes, faults and deadlocks, as sets */
#ifndef EXPLORER_COMPARE_H
#define EXPLORER_COMPARE_H

#include "cases.h"

/* A pair of searches of one program: all its schedules, and those that the reduction leaves. */
struct pair {
	struct explorer_found whole, reduced;
};

/* A search in which a fault is an outcome by its line. */
static inline struct explorer_found search_by(void (*begin)(void), struct explorer_options options)
{
	struct explorer_found found;
	options.quiet = options.goes_on = options.racy = options.reliable = true;
	options.found = &found;
	explorer_run(begin, &options);
	return found;
}

/* One of at most so many schedules. */
static inline struct explorer_found search_for(void (*begin)(void), void (*finish)(void), uint64_t schedules, unsigned ticks, bool whole)
{
	return search_by(begin, (struct explorer_options){.whole = whole, .schedules = schedules, .bounded = 1, .preemptions = 1, .random = 1, .ticks = ticks,
	    .finish = finish});
}

static inline bool has_outcomes_of(const struct explorer_found *found, const struct explorer_found *other)
{
	for (unsigned at = 0; at < other->outcomes; at++)
		if (!has_outcome(found, other->outcome[at].text))
			return false;
	return true;
}

/* Whether a search is through, and there was room for all that it came to. */
static inline bool has_all(const struct explorer_found *found)
{
	return is_tried(found) && found->others == 0;
}

/* Whether both are: they come to the same outcomes then. */
static inline bool are_through(const struct pair *pair)
{
	return has_all(&pair->whole) && has_all(&pair->reduced);
}

/* A search that isn't through has found a part. */
static inline bool do_agree(const struct pair *pair)
{
	bool all = !has_all(&pair->whole) || has_outcomes_of(&pair->whole, &pair->reduced);
	return all && (!has_all(&pair->reduced) || has_outcomes_of(&pair->reduced, &pair->whole));
}

static inline void show_found(const char *name, const struct explorer_found *found)
{
	printf("  %s: %llu schedules, %llu cut short%s\n", name, (unsigned long long)found->schedules, (unsigned long long)found->cut,
	    is_tried(found) ? "" : ", not all");
	for (unsigned at = 0; at < found->outcomes; at++)
		printf("    %s\n", found->outcome[at].text);
}

#endif
