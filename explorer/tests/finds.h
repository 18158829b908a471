/* finds.h - small programs in a table, and what the explorer must find in each: a fault, which its schedule replays, or outcomes */
#ifndef EXPLORER_FINDS_H
#define EXPLORER_FINDS_H

#include <fnmatch.h>

#include "../../netbsd/tests/child.h"
#include "../../netbsd/tests/pages.h"
#include "cases.h"

struct find {
	const char *name, *line;	/* NULL where nothing is wrong */
	void (*first)(void *), (*second)(void *), (*third)(void *);
	void (*make)(void), (*finish)(void);
	const char *outcome;		/* of some run */
	const char *outcomes[8];	/* of all runs, with the reduction and without it */
	const char *failed;		/* which calls had failed, or waits had ended early: both lines are whole then, with PLACE for a place */
	unsigned failures;		/* so many are needed in a run */
	unsigned switches;		/* those of the schedule, and no schedule has fewer */
	bool strict;
};

/* What each case begins with. Whoever includes this file defines it. */
static void make_things(void);

static const struct find *found_now;

static inline void begin_find(void)
{
	make_things();
	if (found_now->make != NULL)
		found_now->make();
	explorer_thread("first", found_now->first, NULL);
	if (found_now->second != NULL)
		explorer_thread("second", found_now->second, NULL);
	if (found_now->third != NULL)
		explorer_thread("third", found_now->third, NULL);
}

/* Runs it with at most so many failures in a run. Whether it went wrong. */
static inline bool goes_wrong(const struct find *find, struct explorer_options options, unsigned failures, struct explorer_found *found)
{
	options.finish = find->finish;
	options.strict = find->strict;
	options.reliable = failures == 0;
	options.failures = failures;
	options.found = found;
	found_now = find;
	bool wrong = explorer_run(begin_find, &options) != 0;
	if (find->failed != NULL) {
		hide_places(found->line);
		hide_places(found->failed);
	}
	return wrong;
}

/* Whether this is the fault: with fewer failures than it needs there is none. */
static inline bool is_fault(const struct find *find, const struct explorer_found *found)
{
	struct explorer_found fewer;
	char pattern[256];
	snprintf(pattern, sizeof(pattern), "*%s*", find->line);
	if (find->failed == NULL)
		return fnmatch(pattern, found->line, 0) == 0;
	return strcmp(found->line, find->line) == 0 && strcmp(found->failed, find->failed) == 0 &&
	    (find->failures == 0 || !goes_wrong(find, (struct explorer_options){.quiet = true}, find->failures - 1, &fewer));
}

static inline bool has_outcomes(const struct find *find, const struct explorer_found *found)
{
	unsigned wanted = 0;
	bool right = is_tried(found);
	while (wanted < 8 && find->outcomes[wanted] != NULL)
		right &= has_outcome(found, find->outcomes[wanted++]);
	return right && found->outcomes == wanted;
}

/* Whether the explorer finds it, and its schedule replays it. */
static inline bool is_found(const struct find *find)
{
	struct explorer_found found, again;
	const struct explorer_options quiet = {.quiet = true}, whole = {.quiet = true, .whole = true, .schedules = 2000000};
	bool wrong = goes_wrong(find, quiet, find->failures, &found);
	if (find->line == NULL && find->outcomes[0] != NULL)
		return !wrong && has_outcomes(find, &found) && !goes_wrong(find, whole, find->failures, &again) && has_outcomes(find, &again);
	if (find->line == NULL)
		return !wrong && found.complete && (find->outcome == NULL || has_outcome(&found, find->outcome));
	return wrong && is_fault(find, &found) && (find->switches == 0 || found.changes == find->switches) &&
	    goes_wrong(find, (struct explorer_options){.quiet = true, .replay = found.schedule}, find->failures, &again) && strcmp(found.line, again.line) == 0;
}

/* Runs the cases, and shows those that fail. The last line counts them. Whether there are any. */
static inline int run_finds(const struct find *finds, size_t count)
{
	size_t failed = 0;
	for (const struct find *find = finds; find < &finds[count]; find++) {
		struct explorer_found found;
		if (is_found(find))
			continue;
		failed++;
		printf("FAILED %s\n", find->name);
		goes_wrong(find, (struct explorer_options){.name = find->name}, find->failures, &found);
	}
	printf("%zu passed, %zu failed\n", count - failed, failed);
	return failed != 0;
}

#endif
