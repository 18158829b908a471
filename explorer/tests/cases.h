/*
 * cases.h - what the tests share: what they look for in what the explorer has found, and how the seven drivers are used by threads, of each a way to begin,
 * its threads, and a way to end. These cases are run with the right drivers, and with faults planted in them.
 */
#ifndef EXPLORER_CASES_H
#define EXPLORER_CASES_H

#include <stdio.h>
#include <stdlib.h>
#include <string.h>

#include "../../c/examples/expect.h"
#include "../../netbsd/tests/bodies.h"
#include "../explorer.h"

/* A row leaves out what its case doesn't have. */
#pragma GCC diagnostic ignored "-Wmissing-field-initializers"

/* What a test's own books say is no access of its threads. */
#define UNSEEN	__attribute__((noinline, no_sanitize("thread")))

static inline bool has_outcome(const struct explorer_found *found, const char *text)
{
	for (unsigned at = 0; at < found->outcomes; at++)
		if (strcmp(found->outcome[at].text, text) == 0)
			return true;
	return false;
}

struct driver_case {
	const char *name;
	void (*setup)(void);
	void (*finish)(void);
	struct {
		const char *name;
		void (*body)(void *);
		void *arg;
	} threads[4];	/* beside those that the setup makes */
	unsigned left;	/* blocks that the driver keeps for ever */
	bool reliable;	/* no call fails */
};

static const struct driver_case *case_now;

static inline void begin_case(void)
{
	case_now->setup();
	for (unsigned at = 0; at < 4 && case_now->threads[at].name != NULL; at++)
		explorer_thread(case_now->threads[at].name, case_now->threads[at].body, case_now->threads[at].arg);
}

/* Whether all was tried except schedules in which time goes on early more often than it may. */
static inline bool is_tried(const struct explorer_found *found)
{
	return found->complete && found->throttled == 0;
}

/* Explores each case, or the one that a program's words name, or its schedule. All of each is tried, and none is wrong. */
static inline int try_cases(const struct driver_case *cases, unsigned all, int count, char **words)
{
	unsigned tried = 0;
	for (const struct driver_case *it = cases; it < &cases[all]; it++) {
		struct explorer_found found;
		const struct explorer_options options = {.name = it->name, .finish = it->finish, .left = it->left, .found = &found,
		    .reliable = it->reliable, .strict = getenv("CASES_STRICT") != NULL, .schedules = 200000, .replay = count > 2 ? words[2] : NULL};
		if (count > 1 && strcmp(words[1], it->name) != 0)
			continue;
		tried++;
		case_now = it;
		EXPECT(explorer_run(begin_case, &options) == 0 && (is_tried(&found) || options.replay != NULL));
	}
	EXPECT(tried > 0);
	printf("%u cases were tried\n", tried);
	return 0;
}

extern const struct driver_case driver_cases[];
extern const unsigned driver_case_count;

#endif
