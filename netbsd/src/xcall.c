/* xcall.c - xcall(9): the caller's thread goes to each CPU in turn */
#include "layer.h"

static uint64_t tickets;	/* an atomic */

/* Runs a function on a CPU. With high priority it has the CPU meanwhile, at the level of soft interrupts. */
static void run_on(struct thread *me, struct cpu *cpu, unsigned flags, xcfunc_t body, void *arg_a, void *arg_b)
{
	struct cpu *before = me->cpu;
	const char *call = me->call, *place = me->place;
	unsigned locks = me->locks, references = me->references;
	int flag = me->lwp.l_pflag & LP_BOUND, level = (flags & XC_HIGHPRI) != 0 ? IPL_SOFTSERIAL : IPL_NONE;
	move_to(me, cpu);
	me->lwp.l_pflag |= LP_BOUND;
	hold_cpu(me);
	raise_level(me, level);
	unhold_cpu(me);
	me->called = level > IPL_NONE;
	body(arg_a, arg_b);
	me->called = false;
	me->call = call;
	me->place = place;
	check_handler_return(me, "the function", level, locks, references);
	lower_level(me, IPL_NONE);
	me->lwp.l_pflag = (me->lwp.l_pflag & ~LP_BOUND) | flag;
	me->cpu = before;
	me->lwp.l_cpu = before == NULL ? NULL : &before->info;
}

uint64_t xc_unicast(unsigned flags, xcfunc_t body, void *arg_a, void *arg_b, struct cpu_info *cpu)
{
	struct thread *me = sleepable(begin_plain(__func__));
	struct sleep sleep = begin_sleep(me);
	run_on(me, &cpus[cpu->ci_index], flags, body, arg_a, arg_b);
	end_sleep(me, sleep);
	return __atomic_add_fetch(&tickets, 1, __ATOMIC_RELAXED);
}

uint64_t xc_broadcast(unsigned flags, xcfunc_t body, void *arg_a, void *arg_b)
{
	struct thread *me = sleepable(begin_call(__func__));
	struct sleep sleep = begin_sleep(me);
	for (unsigned cpu = 0; cpu < KUPALDIZ_CPUS; cpu++)
		run_on(me, &cpus[cpu], flags, body, arg_a, arg_b);
	end_sleep(me, sleep);
	return __atomic_add_fetch(&tickets, 1, __ATOMIC_RELAXED);
}

void xc_wait(uint64_t ticket)
{
	struct thread *me = sleepable(begin_plain(__func__));
	stop_if(me, ticket == 0 || ticket > __atomic_load_n(&tickets, __ATOMIC_RELAXED), "no such call");
}

void xc_barrier(unsigned flags)
{
	struct thread *me = sleepable(begin_call(__func__));
	(void)flags;
	struct sleep sleep = begin_sleep(me);
	visit_cpus(me);
	end_sleep(me, sleep);
}
