/* counts - small programs have as many schedules as combinatorics says, and what is found says what was left out */
#include "../../netbsd/tests/pages.h"
#include "cases.h"

/* ---- Each order is tried once, of threads that touch nothing one alone; some outcomes have no room, and some runs have none. ---- */

static unsigned steps;

static void step_aloud(void *letter)
{
	for (unsigned at = 0; at < steps; at++) {
		explorer_point();
		explorer_outcome("%s", (const char *)letter);
	}
}

static void step_quietly(void *arg)
{
	(void)arg;
	for (unsigned at = 0; at < steps; at++)
		explorer_point();
}

static void make_quiet_steppers(void) { explorer_thread("one", step_quietly, NULL); explorer_thread("two", step_quietly, NULL); }
static void make_steppers(void) { explorer_thread("one", step_aloud, "a"); explorer_thread("two", step_aloud, "b"); }
static void make_more_steppers(void) { make_steppers(); explorer_thread("three", step_aloud, "c"); }

static unsigned word;

HANDLER(change_word, atomic_inc_uint(&word))
HANDLER(tell_change, if (atomic_load_relaxed(&word) != 0) explorer_outcome("changed"))
static void make_teller(void) { explorer_thread("one", change_word, NULL); explorer_thread("two", tell_change, NULL); }

static void fail_at_once(void) { make_quiet_steppers(); panic("setup"); }

/* Of 6 letters, two of each kind, there are 90 orders; of 12, six of each, 924. */
static void test_orders(void)
{
	struct explorer_found found;
	struct explorer_options options = {.name = "orders", .whole = true, .found = &found};
	steps = 2;
	EXPECT(explorer_run(make_more_steppers, &options) == 0 && found.exhausted && found.schedules == 90 && found.outcomes == 90);
	options.whole = false;
	EXPECT(explorer_run(make_more_steppers, &options) == 0 && found.exhausted && found.schedules == 90 && found.outcomes == 90);
	EXPECT(explorer_run(make_quiet_steppers, &options) == 0 && found.exhausted && found.schedules == 1);
	steps = 6;
	options.name = "steps";
	options.whole = true;
	EXPECT(explorer_run(make_steppers, &options) == 0 && found.schedules == 924);
	EXPECT(found.outcomes == EXPLORER_OUTCOMES && found.others == found.schedules - EXPLORER_OUTCOMES);
	options.name = "change";
	EXPECT(explorer_run(make_teller, &options) == 0 && found.outcomes == 2);
	const struct explorer_options fails = {.goes_on = true, .quiet = true, .found = &found};
	EXPECT(explorer_run(fail_at_once, &fails) == 0 && found.outcomes == 1 && strncmp(found.outcome[0].text, "panic: setup", 12) == 0);
}

/* ---- What is tried where the search ends early. ---- */

BODY(change)
{
	for (unsigned at = 0; at < 3; at++)
		atomic_inc_uint(&word);
}

static void make_changers(void) { explorer_thread("one", change, NULL); explorer_thread("two", change, NULL); }

/* With no preemption there are two orders; with one at most, each thread may be left at two points: six. If only one of those two is tried, not even
 * those with none all were. */
static void test_bounds(void)
{
	struct explorer_found found;
	struct explorer_options options = {.name = "bounds", .schedules = 1, .preemptions = 1, .random = 5, .found = &found};
	EXPECT(explorer_run(make_changers, &options) == 0);
	EXPECT(!found.exhausted && found.bound == 1 && found.random == 5 && found.schedules == 1 + 2 + 6 + 5);
	options.name = "cut bound";
	options.bounded = 1;
	EXPECT(explorer_run(make_changers, &options) == 0 && !found.exhausted && found.bound == -1);
}

/* Only one order has both last: random priorities come to it. */
BODY(win_last)
{
	unsigned own = arg == NULL ? 1 : 2;
	atomic_store_relaxed(&word, own);
	explorer_point();
	KASSERT(own != 2 || atomic_load_relaxed(&word) != 1);
}

static void make_racers(void) { explorer_thread("one", win_last, NULL); explorer_thread("two", win_last, &word); }

static void test_random(void)
{
	struct explorer_found found, again;
	struct explorer_options options = {.quiet = true, .schedules = 1, .bounded = 1, .random = 2000, .seed = 3, .found = &found};
	EXPECT(explorer_run(make_racers, &options) == 1 && found.random > 0);
	options.found = &again;
	EXPECT(explorer_run(make_racers, &options) == 1 && found.random == again.random && strcmp(found.schedule, again.schedule) == 0);
}

static bool is_set;

BODY(spin)
{
	while (!atomic_load_acquire(&is_set))
		;
}

HANDLER(set, atomic_store_release(&is_set, true))
static void make_spinner(void) { explorer_thread("spins", spin, NULL); explorer_thread("sets", set, NULL); }
static void make_spinners(void) { explorer_thread("spins, too", spin, NULL); make_spinner(); }

/* No run of theirs goes on for ever. */
static void test_random_spins(void)
{
	struct explorer_found found;
	const struct explorer_options options = {.quiet = true, .schedules = 1, .bounded = 1, .random = 300, .found = &found};
	EXPECT(explorer_run(make_spinners, &options) == 0 && found.random == 300);
}

/* What a thread would do after 200 points is left out, and the verdict says so. */
static void test_throttled(void)
{
	struct explorer_found found;
	const struct explorer_options options = {.name = "throttled", .found = &found};
	EXPECT(explorer_run(make_spinner, &options) == 0);
	EXPECT(found.throttled > 0 && !found.exhausted && found.random == 0);
}

/* Two pauses: with one early end in a run orders are left out, and the verdict says so. With two nothing is. */
HANDLER(pause_twice, (void)kpause("pauses", false, 1, NULL); (void)kpause("pauses", false, 1, NULL))
HANDLER(look_at_time, (void)getticks(); (void)getticks())
static void make_pauses(void) { explorer_thread("pauses", pause_twice, NULL); explorer_thread("looks", look_at_time, NULL); }

static void test_hurried(void)
{
	struct explorer_found found;
	struct explorer_options options = {.quiet = true, .found = &found};
	EXPECT(explorer_run(make_pauses, &options) == 0);
	EXPECT(found.hurried > 0 && found.complete && !found.exhausted && found.throttled == 0 && found.random == 0);
	options.ticks = 2;
	EXPECT(explorer_run(make_pauses, &options) == 0);
	EXPECT(found.hurried == 0 && found.exhausted);
}

int main(void)
{
	test_orders();
	test_bounds();
	test_random();
	test_random_spins();
	test_throttled();
	test_hurried();
	return 0;
}
