/*
 * failures.c - calls that fail although memory is left, and waits that end although nobody ended them: failpoints, by the thread and its number there
 *
 * In each run of a plan exactly its failpoints fail. The first plan is empty. One that is met and isn't in the plan makes a further plan, with that one too,
 * unless it has too many. So each failpoint that some schedule meets fails in all schedules that meet it.
 */
#include "inside.h"

bool next_failure(void)
{
	if (search->plan + 1 == search->plan_count)
		return false;
	search->found.failures = ++search->plan;
	return true;
}

static int compare(const void *one, const void *other)
{
	const struct failpoint *a = one, *b = other;
	return a->thread != b->thread ? a->thread - b->thread : a->number - b->number;
}

static void add_plan(struct failpoint failpoint)
{
	struct plan more = search->plans[search->plan];
	if (more.count == options.failures)
		return;
	more.of[more.count++] = failpoint;
	qsort(more.of, more.count, sizeof(failpoint), compare);
	for (unsigned at = 0; at < search->plan_count; at++)
		if (memcmp(&search->plans[at], &more, sizeof(more)) == 0)
			return;
	search->plans_left_out |= search->plan_count == MOST_PLANS;
	if (search->plan_count < MOST_PLANS)
		search->plans[search->plan_count++] = more;
}

/* Whether this thread's next failpoint is taken; else the failpoint is for another plan. */
static bool fails_here(void)
{
	const struct failpoint failpoint = {(uint16_t)run.current->number, run.current->failpoints++};
	const struct plan *plan = &search->plans[search->plan];
	if (bsearch(&failpoint, plan->of, plan->count, sizeof(failpoint), compare) != NULL)
		return true;
	add_plan(failpoint);
	return false;
}

static void note_failure(const char *how)
{
	size_t length = strlen(search->failed);
	snprintf(search->failed + length, sizeof(search->failed) - length, "%s%s%s %s in thread \"%s\"", length > 0 ? "; " : "", kupaldiz_self->call,
	    AT_PLACE(kupaldiz_self->place), how, name_of_routine(run.current));
}

bool explorer_fails(void)
{
	if (options.reliable || run.current == NULL || !fails_here())
		return false;
	note_failure("fails");
	return true;
}

void explorer_may_end_early(bool signals)
{
	struct routine *me = run.current;
	me->may_end = me->last_ending = IN_TIME;
	if (options.reliable)
		return;
	if (fails_here())
		me->may_end = AS_IF_WOKEN;
	if (signals && fails_here())
		me->may_end = BY_SIGNAL;
}

void note_ending(struct routine *me, bool early)
{
	me->last_ending = early ? me->may_end : IN_TIME;
	me->may_end = IN_TIME;
	if (early)
		note_failure(me->last_ending == BY_SIGNAL ? "is ended by a signal" : "ends although nobody woke it");
}

int explorer_last_ending(void)
{
	return (int)run.current->last_ending;
}

/* ---- Plans in the text of a schedule: "!" before the letter of each failpoint's thread, and its number from 1 on. ---- */

void write_failures(char *text, size_t room)
{
	const struct plan *plan = &search->plans[search->plan];
	size_t length = strlen(text);
	for (unsigned at = 0; at < plan->count && length + 8 < room; at++)
		length += (size_t)snprintf(text + length, room - length, "!%c%u", 'a' + plan->of[at].thread, plan->of[at].number + 1u);
}

/* The failpoint that a text begins with; how long that is, 0 where it is none. */
static int read_failpoint(const char *text, struct failpoint *failpoint)
{
	char letter;
	unsigned number;
	int length = 0;
	if (sscanf(text, "!%c%u%n", &letter, &number, &length) != 2 || letter < 'a' || letter >= 'a' + THREADS || number == 0 || number > UINT16_MAX)
		return 0;
	*failpoint = (struct failpoint){(uint16_t)(letter - 'a'), (uint16_t)(number - 1)};
	return length;
}

bool read_failures(const char *text)
{
	struct plan *plan = &search->plans[search->plan = 0];
	*plan = (struct plan){0};
	for (int length; *text != '\0'; text += length)
		if (plan->count == EXPLORER_FAILURES || (length = read_failpoint(text, &plan->of[plan->count++])) == 0)
			return false;
	qsort(plan->of, plan->count, sizeof(plan->of[0]), compare);
	return true;
}
