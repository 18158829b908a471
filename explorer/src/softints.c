/*
 * softints.c - softint_thread.c, as the explorer has it
 *
 * Each CPU has a thread for the soft interrupts of each level, as in the kernel: a handler that waits for a lock keeps no other level off. It can go on
 * at any point where one is pending and the CPU is free, or a thread has it at a lower level. The highest level goes first. That thread goes on when the
 * handlers have ended, or one of them waits for a lock.
 */
#include "inside.h"

static struct routine *softints[KUPALDIZ_CPUS][LEVELS];

static bool may_have(const struct cpu *cpu, int level)
{
	const struct thread *owner = lock_owner(&cpu->hold);
	return owner == NULL || (!owner->softint && level_of_cpu(owner) < level);
}

/* Whether a soft interrupt of a higher level waits on a CPU, and no handler of that level waits for a lock. */
static bool has_higher(const struct cpu *cpu, int level)
{
	for (int above = level + 1; above < LEVELS; above++)
		if ((cpu->pending >> above & 1) != 0 && !softints[cpu->info.ci_index][above]->off)
			return true;
	return false;
}

bool can_begin(const struct routine *me)
{
	const struct cpu *cpu = me->of;
	int level = (int)me->noted;
	return (cpu->pending >> level & 1) != 0 && may_have(cpu, level) && !has_higher(cpu, level);
}

/* Whether the handler that had given the CPU back may have it again. */
bool can_go_on(const struct routine *me)
{
	return may_have(me->self->cpu, me->self->level);
}

static void acquire_cpu(struct thread *me)
{
	me->lender = lock_owner(&me->cpu->hold);
	me->cpu->hold = (uintptr_t)me;
	/* Whoever has the CPU needn't have given it. */
	touch(ON_LOCK, &me->cpu->hold, 0, WRITES | ACQUIRES);
}

static void release_cpu(struct thread *me)
{
	touch(ON_LOCK, &me->cpu->hold, 0, WRITES | RELEASES);
	me->cpu->hold = (uintptr_t)me->lender;
	me->lender = NULL;
}

static void run_waiting(struct thread *me, unsigned number, int level)
{
	touch(ON_PENDING, NULL, number, WRITES);
	acquire_clock(ON_PENDING, NULL, number);
	acquire_cpu(me);
	me->holds = 1;
	while (!has_higher(me->cpu, level) && run_softint(me, level)) {
		run.handlers++;
		touch(ON_PENDING, NULL, number, WRITES);
		release_clock(ON_PENDING, NULL, number);
	}
	me->holds = 0;
	me->level = IPL_NONE;
	release_cpu(me);
}

static void run_handlers(void *of)
{
	unsigned place = (unsigned)((struct routine **)of - &softints[0][0]);
	int level = (int)(place % LEVELS);
	struct cpu *cpu = &cpus[place / LEVELS];
	char name[sizeof("softint/4294967295")];
	snprintf(name, sizeof(name), "softint/%u", cpu->info.ci_index);
	struct thread *me = named_thread("softint", name);
	me->softint = true;
	me->cpu = cpu;
	me->lwp.l_cpu = &cpu->info;
	me->lwp.l_pflag = LP_BOUND | LP_INTR;
	for (;;) {
		run.current->noted = (uint64_t)level;
		point("softint", NULL, can_begin, cpu);
		run_waiting(me, cpu->info.ci_index, level);
	}
}

/* The thread of a CPU's level, which is made where there is none. Its place says both. */
void ensure_softint_thread(struct thread *me, struct cpu *cpu, int level)
{
	struct routine **softint = &softints[cpu->info.ci_index][level];
	(void)me;
	/* A soft interrupt is about to wait there: a callout's time may have come for it. */
	touch(ON_PENDING, NULL, cpu->info.ci_index, WRITES | RELEASES);
	if (*softint != NULL)
		return;
	*softint = make_routine(NULL, run_handlers, softint, true);
	start_routines();
}

/* The scheduler decides when they have it. */
void lend_cpu(struct thread *me)
{
	(void)me;
}

void yield_cpu(struct thread *me)
{
	run.current->off = true;
	release_cpu(me);
}

void reclaim_cpu(struct thread *me)
{
	wait_here(can_go_on, NULL);
	acquire_cpu(me);
	run.current->off = false;
}
