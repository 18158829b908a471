/*
 * plain.c - uses of memory, and data races: two uses of one memory that are unordered; one writes, and not both are atomic
 *
 * The compiler's calls (tsan.c) tell each plain access, and the layer's calls tell what is given back. Whether two uses are ordered is read off the vector
 * clocks of words.c: Flanagan, Freund, "FastTrack: Efficient and Precise Dynamic Race Detection", PLDI 2009. It keeps the last uses of each eight bytes:
 * those that no later use of the same bytes has replaced.
 */
#include "inside.h"

enum { GRAIN = 8 };

static bool is_before(const struct plain *old, const struct routine *me)
{
	return me->clock[old->thread] >= old->at;
}

static void check_ordered(const struct plain *old, const struct plain *now, const struct routine *me)
{
	if ((old->bytes & now->bytes) == 0 || (!old->use.writes && !now->use.writes) || (old->use.atomic && now->use.atomic) || is_before(old, me))
		return;
	fail("data race: thread \"%s\" %s at %s, and thread \"%s\" %s at %s", name_of_routine(&run.routines[old->thread]), old->use.verb,
	    place_of(old->use.place, old->use.pc), name_of_routine(me), now->use.verb, place_of(now->use.place, now->use.pc));
}

/* Whether each use that races with the one races with the other, too, if that is unordered as well. */
static bool covers(const struct plain *one, const struct plain *other)
{
	return (other->bytes & ~one->bytes) == 0 && one->use.writes >= other->use.writes && one->use.atomic <= other->use.atomic;
}

/* A use of some of eight bytes: it takes the row of one that it replaces from now on. */
static void record(const struct routine *me, struct plain now)
{
	struct plain *row = NULL;
	for (struct plain *old = row_with(PLAIN, now.by.key); old != NULL; old = row_after(PLAIN, old)) {
		/* It has used the bytes so since others may last have heard of it. */
		if (old->thread == now.thread && old->at == now.at && covers(old, &now))
			return;
		check_ordered(old, &now, me);
		if (is_before(old, me) && covers(&now, old))
			row = old;
	}
	if (row == NULL)
		row = add_row(PLAIN, now.by.key);
	now.by = row->by;
	*row = now;
}

static uint8_t bytes_of(uintptr_t grain, uintptr_t from, uintptr_t to)
{
	unsigned first = from > grain ? (unsigned)(from - grain) : 0, after = to < grain + GRAIN ? (unsigned)(to - grain) : GRAIN;
	return (uint8_t)((1u << after) - (1u << first));
}

/* What the running thread does with memory. Stops where that is a data race. */
void use_memory(const volatile void *address, size_t size, const struct use *use)
{
	struct routine *me = run.current;
	uintptr_t from = (uintptr_t)address, to = from + size;
	if (options.racy)
		return;
	for (uintptr_t grain = from & ~(uintptr_t)(GRAIN - 1); grain < to; grain += GRAIN)
		record(me, (struct plain){.by = {.key = grain}, .at = me->clock[me->number], .thread = (uint8_t)me->number, .bytes = bytes_of(grain, from, to),
		    .use = *use});
}

/* Memory that the code has, and that a step uses plainly. With `racy` the step touches it. */
static void use_plainly(const volatile void *address, size_t size, const struct use *use)
{
	check_usable(run.current, address, size, use);
	if (options.racy)
		touch_memory(address, size, use->writes ? WRITES : 0);
	use_memory(address, size, use);
}

/* What a call of the layer reads or writes of the code's own memory. */
void explorer_tell(const void *at, size_t size, bool writes)
{
	if (run.current != NULL)
		use_plainly(at, size, &(struct use){.verb = writes ? "writes" : "reads", .place = kupaldiz_self->place, .writes = writes});
}

/* What a call initialises that other calls use: they must come after it. */
void note_init(const char *call, const void *at, size_t size, const void *pc)
{
	if (run.current == NULL)
		return;
	if (options.racy)
		at_call(call);
	use_plainly(at, size, &(struct use){.verb = "initialises it", .pc = pc, .writes = true});
}

void note_use(const void *at)
{
	if (options.racy)
		touch_memory(at, 1, 0);
	use_memory(at, 1, &(struct use){.verb = "uses it", .place = run.current->place, .atomic = true});
}

/* With `racy` it is a point. */
void access_plainly(const volatile void *address, size_t size, bool writes, const void *pc)
{
	struct routine *me = run.current;
	const struct use use = {.verb = writes ? "writes" : "reads", .pc = pc, .writes = writes};
	if (me == NULL || size == 0)
		return;
	if (options.racy) {
		me->pc = pc;
		point(writes ? "plain write" : "plain read", NULL, NULL, NULL);
		me->pc = NULL;
	}
	use_plainly(address, size, &use);
}
