/*
 * words.c - atomic accesses and barriers, and which step comes after which, by vector clocks: whoever gives something leaves its thread's clock there, and
 * whoever takes it joins that with its own
 */
#include "inside.h"

static uint32_t *clock_at(enum kind kind, const volatile void *address, unsigned cpu)
{
	uintptr_t of = ((uintptr_t)address * 31 + (uintptr_t)kind) * (UINT8_MAX + 1) + cpu % (UINT8_MAX + 1);
	return ((struct sync *)row_for(SYNCS, of))->clock;
}

void release_clock(enum kind kind, const volatile void *address, unsigned cpu)
{
	struct routine *me = run.current;
	if (me == NULL)
		return;
	join(clock_at(kind, address, cpu), me->clock);
	me->clock[me->number]++;
}

void acquire_clock(enum kind kind, const volatile void *address, unsigned cpu)
{
	if (run.current != NULL)
		join(run.current->clock, clock_at(kind, address, cpu));
}

/* The running thread comes after all that the others have done. */
void acquire_all_clocks(void)
{
	for (unsigned number = 0; number < run.count; number++)
		join(run.current->clock, run.routines[number].clock);
}

/* A new thread comes after what its maker has done. */
void inherit_clock(struct routine *made)
{
	struct routine *me = run.current;
	if (me != NULL) {
		memcpy(made->clock, me->clock, sizeof(made->clock));
		me->clock[me->number]++;
	}
	made->clock[made->number] = 1;
}

void kupaldiz_from(const char *place)
{
	if (run.current != NULL)
		run.current->from = place;
}

/* What an access is called, by whether it loads and whether it stores. */
static const char *const accesses[] = {"membar", [KUPALDIZ_LOADS] = "atomic load", [KUPALDIZ_STORES] = "atomic store",
    [KUPALDIZ_LOADS | KUPALDIZ_STORES] = "atomic change"};

/* A store that doesn't load ends what the stores before it have left. */
static void order_access(struct routine *me, const volatile void *address, unsigned how)
{
	uint32_t *left = clock_at(ON_MEMORY, address, 0);
	if ((how & KUPALDIZ_LOADS) != 0)
		join((how & KUPALDIZ_ACQUIRES) != 0 ? me->clock : me->pending, left);
	if ((how & KUPALDIZ_STORES) == 0)
		return;
	if ((how & KUPALDIZ_LOADS) == 0)
		memset(left, 0, sizeof(clocks));
	if ((how & KUPALDIZ_RELEASES) != 0)
		release_clock(ON_MEMORY, address, 0);
	else
		join(left, me->released);
}

/* An atomic access, or a barrier where there is no address. */
void access_atomically(const volatile void *address, size_t size, unsigned how, const char *place, const void *pc)
{
	const char *call = accesses[how & (KUPALDIZ_LOADS | KUPALDIZ_STORES)];
	struct routine *me = here(call);
	const char *from = me->from;
	bool writes = (how & KUPALDIZ_STORES) != 0;
	me->pc = pc;
	point(call, from != NULL ? from : place, NULL, NULL);
	/* A barrier makes something of the relaxed accesses before and after it. */
	if (address == NULL && (how & KUPALDIZ_ACQUIRES) != 0)
		join(me->clock, me->pending);
	if (address == NULL && (how & KUPALDIZ_RELEASES) != 0) {
		memcpy(me->released, me->clock, sizeof(me->released));
		me->clock[me->number]++;
	}
	if (address != NULL) {
		const struct use use = {writes ? "writes" : "reads", me->place, me->pc, writes, true};
		check_live(call, address, size);
		touch_memory(address, size, writes ? WRITES : 0);
		use_memory(address, size, &use);
		order_access(me, address, how);
	}
	me->pc = NULL;
}

void kupaldiz_point(const volatile void *address, size_t size, unsigned how, const char *place)
{
	access_atomically(address, size, how, place, __builtin_return_address(0));
	run.current->announced = address == NULL ? run.current : address;
}

void explorer_point(void)
{
	at_call("explorer_point");
}
