/* schedule.c - points, and which thread goes on from one */
#include "inside.h"

struct run run;

static uint32_t bit(unsigned number)
{
	return UINT32_C(1) << number;
}

enum {
	PATIENCE = 200		/* a thread that goes on for so many points may spin for another one: it doesn't go on before that */
};

/* ---- What a step touches. ---- */

static void add(struct set *set, struct access access)
{
	for (uint32_t at = 0; at < set->count; at++) {
		struct access *found = &set->of[at];
		if (found->address == access.address && found->size == access.size && found->cpu == access.cpu && found->kind == access.kind) {
			found->how |= access.how;
			return;
		}
	}
	if (set->count == ACCESSES)
		set->full = true;
	else
		set->of[set->count++] = access;
}

static void record_access(struct access access)
{
	if (run.step > search->fresh && (search->mode == REDUCED || search->mode == REPLAYED))
		add(&search->steps[run.step - 1].set, access);
}

void touch(enum kind kind, const volatile void *address, unsigned cpu, unsigned how)
{
	record_access((struct access){(uintptr_t)address, 1, (uint16_t)cpu, (uint8_t)kind, (uint8_t)how});
	if ((how & ACQUIRES) != 0)
		acquire_clock(kind, address, cpu);
	if ((how & RELEASES) != 0)
		release_clock(kind, address, cpu);
}

void touch_memory(const volatile void *address, size_t size, unsigned how)
{
	record_access((struct access){(uintptr_t)address, (uint32_t)size, 0, ON_MEMORY, (uint8_t)how});
}

/* All that ran comes before the step, and all that will run after it. */
void make_barrier(void)
{
	if (run.step > search->fresh)
		search->steps[run.step - 1].set.barrier = true;
}

/* A thread that has its CPU isn't while a soft interrupt has it. */
static bool is_enabled(const struct routine *routine)
{
	const struct thread *self = routine->self;
	if (!routine->made || routine->ended || (run.phase == SETTING_UP && routine->number != 0))
		return false;
	bool has_cpu = self == NULL || self->holds == 0 || routine->off || lock_owner(&self->cpu->hold) == self;
	return has_cpu && (routine->guard == NULL || routine->guard(routine));
}

static bool clock_may_jump(void)
{
	return run.ticks < options.ticks && next_time() != NEVER && run.phase == RUNNING;
}

bool all_have_ended(const struct routine *routine)
{
	for (const struct routine *other = run.routines; other < &run.routines[run.count]; other++)
		if (other != routine && (other->daemon ? is_enabled(other) : !other->ended))
			return false;
	return true;
}

static uint32_t enabled_now(void)
{
	uint32_t enabled = 0;
	for (unsigned number = 0; number < run.count; number++)
		if (is_enabled(&run.routines[number]))
			enabled |= bit(number);
	if (clock_may_jump() || (enabled == 0 && next_time() != NEVER))
		enabled |= bit(CLOCK);
	return enabled;
}

static unsigned lowest(uint32_t mask)
{
	return (unsigned)__builtin_ctz(mask);
}

/* The next one in turn, so that several threads that spin don't keep another one off. */
static unsigned next_after(unsigned number, uint32_t mask)
{
	uint32_t above = mask & ~((bit(number) << 1) - 1);
	return lowest(above != 0 ? above : mask);
}

/* Those of another step that sleep here, too: what they would do commutes with what was done. The clock never sleeps: where no thread is enabled it doesn't
 * hurry, which is another step. To let fewer threads sleep tries more, and leaves nothing out. */
static void inherit_sleep_set(const struct step *before, struct step *step)
{
	uint32_t candidates = (before->sleeping | before->explored) & ~bit(before->chosen) & ~bit(CLOCK);
	step->sleeping = 0;
	for (; candidates != 0; candidates &= candidates - 1) {
		unsigned number = lowest(candidates);
		const struct set *set = (before->sleeping & bit(number)) != 0 ? before->sleep_sets[number] : &before->explored_sets[number];
		if (are_dependent(set, &before->set))
			continue;
		step->sleeping |= bit(number);
		step->sleep_sets[number] = set;
	}
}

static unsigned highest_priority(uint32_t mask)
{
	unsigned best = lowest(mask);
	for (; mask != 0; mask &= mask - 1)
		if (search->priorities[lowest(mask)] > search->priorities[best])
			best = lowest(mask);
	return best;
}

static unsigned choose_random(uint32_t enabled)
{
	unsigned best = highest_priority(enabled);
	for (unsigned at = 0; at < sizeof(search->changes) / sizeof(search->changes[0]); at++) {
		if (search->changes[at] == run.step) {
			search->priorities[best] = --search->lowest;
			best = highest_priority(enabled);
		}
	}
	return best;
}

static const struct set ticking = {.count = 2, .of = {{.size = 1, .kind = ON_TIME, .how = WRITES}, {.size = 1, .kind = ON_DEADLINE, .cpu = ANY}}};

static struct access of_lock(const void *word, unsigned how)
{
	return (struct access){.address = (uintptr_t)word, .size = 1, .kind = ON_LOCK, .how = (uint8_t)how};
}

/* What a disabled thread's next step would touch, as far as another thread's step may have disabled it: a lock, its CPU, the queue of a soft interrupt. What
 * else a guard looks at stays true once it is: a wake-up, the time, an end. */
static struct set touched_by_guard(const struct routine *routine)
{
	const struct thread *self = routine->self;
	const void *lock = routine->guard == is_free || routine->guard == can_take ? routine->of : routine->guard == was_woken ? routine->relock : NULL;
	bool begins = routine->guard == can_begin;
	struct set set = {0};
	if (lock != NULL)
		add(&set, of_lock(lock, WRITES | ACQUIRES | WAITED));
	if (begins)
		add(&set, (struct access){.size = 1, .kind = ON_PENDING, .cpu = (uint16_t)self->cpu->info.ci_index, .how = WRITES});
	if (begins || routine->guard == can_go_on)
		add(&set, of_lock(&self->cpu->hold, WRITES | ACQUIRES));
	else if (self != NULL && self->cpu != NULL && !routine->off && (self->holds > 0 || routine->guard == can_take))
		add(&set, of_lock(&self->cpu->hold, WAITED));
	return set;
}

/* The run ends after its first `upto` steps, well or cut short: whoever isn't enabled may race with one of them. */
static void find_races_of_all_disabled(unsigned upto, uint32_t enabled)
{
	if ((enabled & bit(CLOCK)) == 0 && run.ticks < options.ticks)
		find_races_of_disabled(CLOCK, &ticking, upto);
	for (const struct routine *routine = run.routines; routine < &run.routines[run.count]; routine++) {
		const struct set set = touched_by_guard(routine);
		if (set.count > 0 && !routine->ended && (enabled & bit(routine->number)) == 0)
			find_races_of_disabled(routine->number, &set, upto);
	}
}

void find_races_at_end(void)
{
	if (search->mode != REDUCED)
		return;
	find_races(run.step - 1, run.step - 1);
	find_races_of_all_disabled(run.finish + 1, enabled_now());
}

/* A fault ends each thread, and so its step changes places with none: whoever was enabled before it is planned there, and whoever it has enabled was disabled.
 * Where nobody can go on, no step is at fault. */
void find_races_of_fault(void)
{
	if (search->mode != REDUCED || run.step == 0)
		return;
	if (run.step > search->fresh && !search->stuck) {
		search->steps[run.step - 1].set.full = true;
		add_all_backtrack_points(run.step - 1);
	}
	find_races(run.step - 1, run.step - 1);
	find_races_of_all_disabled(run.step, search->stuck ? 0 : search->steps[run.step - 1].enabled);
}

/* What is tried at a new step, beginning with the thread that runs already. */
static unsigned choose_new(struct step *step, const struct step *before)
{
	uint32_t enabled = step->enabled, can = enabled;
	step->explored = step->sleeping = step->backtrack = 0;
	/* A thread that may spin doesn't go on where another one can. */
	uint32_t own = before == NULL || before->turns < PATIENCE ? 0 : bit(before->chosen);
	step->throttled = (enabled & ~own) != 0 ? own : 0;
	search->found.throttled += step->throttled != 0;
	/* Where a deadline stands, and time has gone on early as often as it may, an order is left out. */
	bool waits = run.ticks == options.ticks && run.phase == RUNNING && next_time() != NEVER;
	search->found.hurried += waits && (enabled & bit(CLOCK)) == 0;
	if (search->mode == RANDOM && step->throttled != 0)
		search->priorities[before->chosen] = --search->lowest;
	if (search->mode == RANDOM)
		return choose_random(enabled & ~step->throttled);
	if (search->mode == REDUCED && before != NULL)
		inherit_sleep_set(before, step);
	can &= ~step->sleeping & ~step->throttled;
	if (search->mode == BOUNDED && before != NULL && before->switches >= search->most)
		can &= bit(before->chosen);
	if (can == 0) {
		if (search->mode == REDUCED)
			find_races_of_all_disabled(run.step, enabled);
		leave_run(CUT);
	}
	bool stays = before != NULL && (can & bit(before->chosen)) != 0;
	if (search->mode == BOUNDED && stays && before->preemptions >= search->bound)
		can = bit(before->chosen);
	step->backtrack = search->mode == REDUCED ? 0 : can;
	return stays ? before->chosen : step->throttled != 0 ? next_after(before->chosen, can) : lowest(can);
}

static void check_replayed(const struct step *step, uint32_t enabled)
{
	const char *name = step->chosen < run.count ? run.routines[step->chosen].name : NULL;
	if ((enabled & bit(step->chosen)) == 0)
		end_run(UNFIT, "the schedule doesn't fit: at point %u thread \"%s\" can't go on", run.step, name == NULL ? "?" : name);
	if (search->mode != REPLAYED && enabled != step->enabled)
		end_run(UNFIT, "two runs by one schedule differ at point %u: the code depends on something outside of it", run.step);
}

static unsigned begin_step(uint32_t enabled)
{
	struct step *step = &search->steps[run.step], *before = run.step == 0 ? NULL : step - 1;
	unsigned chosen = step->chosen;
	if (run.step < search->prefix) {
		check_replayed(step, enabled);
		step->enabled = enabled;
	} else {
		step->enabled = enabled;
		chosen = search->mode == REPLAYED ? before != NULL && (enabled & bit(before->chosen)) != 0 ? before->chosen : lowest(enabled)
						: choose_new(step, before);
		search->found.states++;
	}
	bool changes = before != NULL && before->chosen != chosen;
	step->chosen = (uint8_t)chosen;
	bool preempts = changes && (enabled & bit(before->chosen)) != 0 && before->turns < PATIENCE;
	step->preemptions = (uint16_t)(before == NULL ? 0 : before->preemptions + preempts);
	step->switches = (uint16_t)(before == NULL ? 0 : before->switches + changes);
	step->turns = (uint16_t)(before == NULL || changes ? 0 : before->turns + 1);
	search->found.switches += changes;
	search->found.points++;
	if (run.step >= search->fresh)
		step->set = (struct set){0};
	run.step++;
	search->length = run.step;
	return chosen;
}

/* Lets time go on to the next deadline. Once the clock may not hurry any more it waits until no thread is enabled, and so changes places with none. */
static void tick(uint32_t enabled)
{
	if (run.ticks == options.ticks)
		make_barrier();
	run.ticks += enabled != bit(CLOCK);
	run.time = next_time();
	touch(ON_TIME, NULL, 0, WRITES);
	touch(ON_DEADLINE, NULL, ANY, 0);
}

static void choose(void)
{
	uint32_t enabled;
	unsigned chosen;
	do {
		if (run.step > search->fresh && search->mode == REDUCED)
			find_races(run.step - 1, run.step - 1);
		fail_if(run.step == POINTS, "the run doesn't end: it has come to %d points", POINTS);
		enabled = enabled_now();
		if (enabled == 0)
			report_stuck();
		chosen = begin_step(enabled);
		struct step *step = &search->steps[run.step - 1];
		const struct routine *routine = chosen == CLOCK ? NULL : &run.routines[chosen];
		step->guarded = routine == NULL || routine->guard != NULL;
		step->call = routine == NULL ? "clock" : routine->call;
		step->place = routine == NULL ? NULL : routine->place;
		step->pc = routine == NULL ? NULL : routine->pc;
		step->cpu = routine == NULL || routine->self == NULL || routine->self->cpu == NULL ? NOBODY : (uint8_t)routine->self->cpu->info.ci_index;
		if (chosen == CLOCK)
			tick(enabled);
	} while (chosen == CLOCK);
	switch_to(&run.routines[chosen]);
}

/* The thread that makes a call. It has a CPU from its first call on. */
struct routine *here(const char *call)
{
	struct routine *me = run.current;
	refuse_if(me == NULL, "%s outside of explorer_run", call);
	struct thread *self = kupaldiz_self;
	me->self = self;
	if (me->name == NULL && self != NULL)
		me->name = self->name;
	if (self != NULL && self->cpu == NULL) {
		self->cpu = &cpus[me->number == 0 ? KUPALDIZ_CPUS - 1 : (me->number - 1) % (KUPALDIZ_CPUS - 1)];
		self->lwp.l_cpu = &self->cpu->info;
	}
	return me;
}

/* A point of this thread. It returns when the thread is chosen, and the guard holds. */
void point(const char *call, const char *place, guard_fn *guard, const void *of)
{
	struct routine *me = here(call);
	me->call = call;
	me->announced = NULL;
	me->place = place != NULL || me->pc != NULL ? place : me->from != NULL ? me->from
	    : kupaldiz_places.count > 0			     ? kupaldiz_places.at[kupaldiz_places.count - 1]
							     : NULL;
	me->from = NULL;
	me->guard = guard;
	me->of = of;
	if (!me->begun && !me->ended) {
		first_point(me);
		return;
	}
	if (run.phase == SETTING_UP && is_enabled(me) && !me->ended)
		return;
	if (run.phase == SETTING_UP)
		run.phase = RUNNING;
	choose();
	/* A soft interrupt that takes its CPU comes before the step of a thread that has it, or after. */
	if (me->self != NULL && me->self->holds > 0 && !me->off)
		touch(ON_LOCK, &me->self->cpu->hold, 0, WAITED);
}

/* A wait inside a call. */
void wait_here(guard_fn *guard, const void *of)
{
	struct routine *me = run.current;
	point(me->call != NULL ? me->call : "wait", me->place, guard, of);
	me->guard = NULL;
	/* The call changes what it works on once more as it ends. */
	if (me->target != NULL)
		touch(ON_TARGET, me->target, 0, 0);
}
