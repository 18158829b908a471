/*
 * sections.c - visits.c, as the explorer has it: a wait goes to no CPU, but names what it waits for: all sections that were open as it began, and a release of
 * each reference
 */
#include "inside.h"

/* What is given to the sections that begin later, beside what those of each CPU give. */
enum { ALL_SECTIONS = KUPALDIZ_CPUS };

/* A thread is about to enter a section, and has its CPU or can take it. */
void note_enter(const struct thread *self)
{
	unsigned number = self->cpu->info.ci_index;
	if (self->depth > 0)
		return;
	touch(ON_SECTION, NULL, number, WRITES);
	acquire_clock(ON_SECTION, NULL, ALL_SECTIONS);
	run.inside[number] = true;
}

/* A thread is about to exit one, which may be an inner one. */
void note_exit(const struct thread *self)
{
	if (self->depth != 1)
		return;
	unsigned number = self->cpu->info.ci_index;
	const void *end = (const void *)(uintptr_t)++run.ends[number];
	run.inside[number] = false;
	touch(ON_SECTION, NULL, number, WRITES | RELEASES);
	touch(ON_END, end, number, ORDERS | WRITES);
	release_clock(ON_END, end, number);
}

/* The first CPU whose section a wait still waits for; KUPALDIZ_CPUS where none is left. */
unsigned section_waited_for(const struct routine *me)
{
	unsigned cpu = 0;
	while (cpu < KUPALDIZ_CPUS && run.ends[cpu] >= me->sections[cpu])
		cpu++;
	return cpu;
}

bool have_ended_sections(const struct routine *me)
{
	return section_waited_for(me) == KUPALDIZ_CPUS;
}

/* A wait for sections begins: what those have left that have ended on all CPUs comes before it. */
static void note_open_sections(struct routine *me)
{
	touch(ON_SECTION, NULL, ANY, 0);
	for (unsigned number = 0; number < KUPALDIZ_CPUS; number++) {
		acquire_clock(ON_SECTION, NULL, number);
		me->sections[number] = run.inside[number] ? run.ends[number] + 1 : 0;
	}
}

/* Waits for all of them at once. */
static void await_open_sections(struct routine *me)
{
	if (!have_ended_sections(me))
		wait_here(have_ended_sections, NULL);
	for (unsigned number = 0; number < KUPALDIZ_CPUS; number++) {
		const void *end = (const void *)(uintptr_t)me->sections[number];
		if (end == NULL)
			continue;
		touch(ON_END, end, number, ORDERS);
		acquire_clock(ON_END, end, number);
	}
}

/* Sections that begin meanwhile needn't come after what came before the wait. */
static void await_earlier_sections(struct routine *me)
{
	note_open_sections(me);
	await_open_sections(me);
}

/* A perform. It waits for a section that began before, so one that begins from now on comes after what came before it. */
void await_sections(struct thread *self)
{
	(void)self;
	note_open_sections(run.current);
	release_clock(ON_SECTION, NULL, ALL_SECTIONS);
	await_open_sections(run.current);
}

uint64_t *releases_of(const void *target)
{
	return &((struct thing *)row_for(THINGS, (uintptr_t)target))->releases;
}

bool was_released(const struct routine *me)
{
	return *releases_of(me->target) != me->noted;
}

static unsigned first_with_reference(const struct psref_target *target)
{
	unsigned number = 0;
	while (number < KUPALDIZ_CPUS && find_reference(&cpus[number], target, NULL) == NULL)
		number++;
	return number;
}

void await_unreferenced(struct thread *self, const struct psref_target *target)
{
	unsigned number;
	(void)self;
	await_earlier_sections(run.current);
	touch(ON_REFERENCES, target, ANY, 0);
	while ((number = first_with_reference(target)) < KUPALDIZ_CPUS) {
		run.current->noted = *releases_of(target);
		wait_here(was_released, (const void *)(uintptr_t)number);
		touch(ON_REFERENCES, target, ANY, 0);
	}
	acquire_clock(ON_REFERENCES, target, 0);
	/* As a section has its CPU, those in which the last ones were released have ended, too. */
	await_earlier_sections(run.current);
	touch(ON_TARGET, target->prt_class, 0, 0);
}

/* The call's wrapper counts releases. */
void tell_release(const struct psref_target *target)
{
	(void)target;
}

/* Others may have the interlock meanwhile. */
void collect_counts(struct thread *self, struct counts *counts)
{
	(void)self;
	wait_here(NULL, NULL);
	await_earlier_sections(run.current);
	touch(ON_REFERENCES, run.current->target, ANY, 0);
	acquire_clock(ON_REFERENCES, run.current->target, 0);
	for (unsigned number = 0; number < KUPALDIZ_CPUS; number++)
		counts->collected += counts->on[number].count;
}
