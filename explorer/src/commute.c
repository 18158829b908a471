/*
 * commute.c - which steps commute, and which threads must be tried at a step for those that don't
 *
 * This is dynamic partial-order reduction with source sets and sleep sets. REDUCTION.md has its rules, the theorem that they leave nothing out, and which
 * functions keep its premises: a change here, or of what a call touches, changes that proof.
 */
#include "inside.h"

static bool clash(const struct access *one, const struct access *other)
{
	if (one->kind != other->kind || ((one->how | other->how) & WRITES) == 0)
		return false;
	if (one->kind == ON_MEMORY)
		return one->address < other->address + other->size && other->address < one->address + one->size;
	return one->address == other->address && (one->cpu == other->cpu || one->cpu == ANY || other->cpu == ANY);
}

/* How a step is to a later one: they commute; they never change places; it does nothing to the later one but enable it; or they conflict otherwise. A step
 * that enables another one is no race with it: a step has WAITED only for what its thread couldn't begin it without, and so the two can't change places. One
 * that takes what it gives back may find it free, and has ACQUIRES too. */
enum relation { COMMUTE, ORDERED, ENABLES, CONFLICTS };

static enum relation relation_of_accesses(const struct access *first, const struct access *second)
{
	if (!clash(first, second))
		return COMMUTE;
	if (((first->how | second->how) & ORDERS) != 0)
		return ORDERED;
	return (first->how & (ACQUIRES | RELEASES)) == RELEASES && (second->how & WAITED) != 0 ? ENABLES : CONFLICTS;
}

static enum relation relation_to(const struct access *first, const struct set *second)
{
	enum relation found = COMMUTE;
	for (uint32_t at = 0; at < second->count && found != CONFLICTS; at++) {
		enum relation relation = relation_of_accesses(first, &second->of[at]);
		found = relation > found ? relation : found;
	}
	return found;
}

static enum relation relation_of(const struct set *first, const struct set *second)
{
	enum relation found = first->barrier || second->barrier ? ORDERED : COMMUTE;
	if (first->full || second->full)
		return CONFLICTS;
	for (uint32_t at = 0; at < first->count && found != CONFLICTS; at++) {
		enum relation relation = relation_to(&first->of[at], second);
		found = relation > found ? relation : found;
	}
	return found;
}

bool are_dependent(const struct set *one, const struct set *other)
{
	return relation_of(one, other) != COMMUTE;
}

static bool comes_after(const uint32_t *clock, unsigned at)
{
	return clock[search->steps[at].chosen] >= at + 1;
}

static bool has_earlier(const unsigned *list, unsigned count, unsigned at)
{
	for (unsigned place = 0; place < count; place++)
		if (comes_after(search->steps[at].clock, list[place]))
			return true;
	return false;
}

/* The threads that may begin what leads to the later step without the earlier one. */
static uint32_t initials(unsigned earlier, unsigned later)
{
	unsigned *list = scratch->list;
	unsigned count = 0;
	uint32_t seen = 0, found = 0;
	for (unsigned at = earlier + 1; at <= later; at++) {
		const struct step *step = &search->steps[at];
		if (at < later && comes_after(step->clock, earlier))
			continue;
		uint32_t thread = UINT32_C(1) << step->chosen;
		if ((seen & thread) == 0 && !has_earlier(list, count, at))
			found |= thread;
		seen |= thread;
		list[count++] = at;
	}
	return found;
}

/* Plans a thread at the earlier step that leads to the later one without it, unless one is planned, or asleep there: what begins with that was tried. */
static void add_backtrack_point(unsigned earlier, unsigned later)
{
	struct step *step = &search->steps[earlier];
	uint32_t can = initials(earlier, later) & step->enabled & ~step->throttled, own = UINT32_C(1) << search->steps[later].chosen, clock = UINT32_C(1) << CLOCK;
	/* A tick that nobody hurried may be among them. Here it would be another step, so it isn't taken for a thread. */
	can = (can & ~clock) != 0 ? can & ~clock : can;
	if (can == 0 || (can & (step->backtrack | step->explored | step->sleeping | UINT32_C(1) << step->chosen)) != 0)
		return;
	step->backtrack |= (can & own) != 0 ? own : can & (~can + 1);
}

/* Plans each thread at the earlier step: the later one's could go on before it, and not right after it; or it has a fault, and nobody goes on after it. */
void add_all_backtrack_points(unsigned earlier)
{
	struct step *step = &search->steps[earlier];
	step->backtrack |= step->enabled & ~step->throttled;
}

/* Whether the thread of a step, which its step before has left at its guard, was enabled at an earlier step of another thread. */
static bool was_enabled(unsigned earlier, unsigned later, int before)
{
	const struct step *step = &search->steps[later];
	if ((int)earlier <= before)
		return !step->guarded;
	return (search->steps[earlier].enabled >> step->chosen & 1) != 0;
}

/* Sets a step among the first `upto`. The races that it has, in a list: how many. `covered` has what comes before a race at which the step's thread was
 * enabled: once the two have changed places, the search looks back further. A step that was never made comes after no barrier. */
static unsigned order_step(unsigned at, unsigned upto, struct race *races)
{
	struct step *step = &search->steps[at];
	clocks base = {0}, covered;
	unsigned count = 0;
	/* The last step of this step's thread before it; else the one in which the thread was made; -1 for none. */
	int before = (int)at - 1;
	while (before >= 0 && search->steps[before].chosen != step->chosen)
		before--;
	if (before < 0 && run.routines[step->chosen].made)
		before = run.routines[step->chosen].made_at;
	if (before >= 0)
		memcpy(base, search->steps[before].clock, sizeof(base));
	memcpy(step->clock, base, sizeof(base));
	memcpy(covered, base, sizeof(base));
	for (int other = (int)upto - 1; other >= 0; other--) {
		const struct step *found = &search->steps[other];
		if (comes_after(base, (unsigned)other) || found->chosen == step->chosen)
			continue;
		enum relation relation = relation_of(&found->set, &step->set);
		if (relation == COMMUTE || (relation == ORDERED && at == search->length))
			continue;
		bool direct = at < search->length && !comes_after(step->clock, (unsigned)other);
		join(step->clock, found->clock);
		if (relation != CONFLICTS || comes_after(covered, (unsigned)other))
			continue;
		races[count++] = (struct race){(unsigned)other, direct};
		if (step->chosen != CLOCK && was_enabled((unsigned)other, at, before))
			join(covered, found->clock);
	}
	step->clock[step->chosen] = at + 1;
	return count;
}

/* Sets a step among the first `upto`, and adds the backtrack points that it asks for. */
void find_races(unsigned at, unsigned upto)
{
	struct race *races = scratch->races;
	unsigned count = order_step(at, upto, races);
	for (unsigned place = 0; place < count; place++) {
		if (races[place].direct)
			add_backtrack_point(races[place].at, at);
		else
			add_all_backtrack_points(races[place].at);
	}
}

/* The same of the step that a thread which is disabled after the first `upto` would have made, as far as its guard says: it has these accesses. */
void find_races_of_disabled(unsigned thread, const struct set *set, unsigned upto)
{
	unsigned at = search->length;
	search->steps[at] = (struct step){.chosen = (uint8_t)thread, .guarded = true, .set = *set};
	find_races(at, upto);
}
