/* visits.c - waits that go to each CPU in turn: for read sections, for passive references, and for the parts of a local count */
#include "layer.h"

/* A section has its CPU: those that were open before have ended. */
void await_sections(struct thread *me) { visit_cpus(me); }

/* Waits for the next release of a reference to the target, for a while. The thread has the CPU, but not meanwhile. Whether it was woken. */
static bool await_release(struct thread *me, struct cpu *cpu, const struct psref_target *target, const struct timespec *deadline)
{
	struct sleepq *sleepq = sleepq_of(target);
	sleepq_lock(sleepq);
	lock_release(&cpu->hold, me);
	bool woken = sleepq_wait(sleepq, target, me, deadline);
	sleepq_unlock(sleepq);
	lock_acquire(&cpu->hold, me, report_cpu_wait);
	return woken;
}

static void await_unreferenced_on(struct thread *me, struct cpu *cpu, const struct psref_target *target, struct pauses *pauses)
{
	lock_acquire(&cpu->hold, me, report_cpu_wait);
	while (find_reference(cpu, target, NULL) != NULL) {
		const struct timespec *tells = pauses->tells.tv_sec == 0 ? NULL : &pauses->tells;
		if (!await_release(me, cpu, target, tells) && pauses_are_over(pauses))
			report_references(me, cpu, target);
	}
	lock_release(&cpu->hold, me);
}

/* Waits for the references to a target that is marked. */
void await_unreferenced(struct thread *me, const struct psref_target *target)
{
	struct pauses pauses = begin_pauses();
	for (unsigned cpu = 0; cpu < KUPALDIZ_CPUS; cpu++)
		await_unreferenced_on(me, &cpus[cpu], target, &pauses);
}

/* A reference to a target that is marked was released. The thread has its CPU, so the wait isn't over yet. */
void tell_release(const struct psref_target *target)
{
	struct sleepq *sleepq = sleepq_of(target);
	sleepq_lock(sleepq);
	sleepq_wake_all(sleepq, target);
	sleepq_unlock(sleepq);
}

/* Adds up the parts of a count that is marked. The thread doesn't have the interlock. */
void collect_counts(struct thread *me, struct counts *counts)
{
	for (unsigned cpu = 0; cpu < KUPALDIZ_CPUS; cpu++) {
		lock_acquire(&cpus[cpu].hold, me, report_cpu_wait);
		counts->collected += counts->on[cpu].count;
		if (counts->on[cpu].count > 0)
			counts->place = counts->on[cpu].place;
		lock_release(&cpus[cpu].hold, me);
	}
}
