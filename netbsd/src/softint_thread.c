/*
 * softint_thread.c - the threads of soft interrupts
 *
 * Each CPU has a thread for the soft interrupts of each level, from the first one of that level which is scheduled there. It has the CPU while it runs a
 * handler: by taking its lock, or by getting it from the thread that has it, which waits meanwhile and gets it back. It gets it back, too, where a handler
 * waits for a lock: then handlers of other levels may have the CPU. Of those that can run the highest goes first.
 */
#include "layer.h"

struct softint_thread {
	struct cpu *cpu;
	int level;
	struct thread *thread;	/* NULL until it has begun */
};

static struct softint_thread threads[KUPALDIZ_CPUS][LEVELS];

static int highest(const struct cpu *cpu)
{
	uint32_t pending = __atomic_load_n(&cpu->pending, __ATOMIC_ACQUIRE);
	return pending == 0 ? IPL_NONE : 31 - __builtin_clz(pending);
}

/* Gives the CPU back to whoever lent it, else to all. */
static void return_cpu(struct thread *me)
{
	struct thread *lender = me->lender;
	me->lender = NULL;
	if (lender != NULL)
		lock_hand_over(&me->cpu->hold, lender);
	else
		lock_release(&me->cpu->hold, me);
}

/* Whether this handler waits for a lock, and whether it has the lock and waits for its CPU. */
static void note_waits(struct thread *me, bool is_blocked, bool goes_on)
{
	struct cpu *cpu = me->cpu;
	uint32_t level = UINT32_C(1) << me->level;
	pthread_mutex_lock(&pending_list);
	cpu->blocked = is_blocked ? cpu->blocked | level : cpu->blocked & ~level;
	cpu->goes_on = goes_on ? cpu->goes_on | level : cpu->goes_on & ~level;
	note_pending(cpu);
	pthread_cond_broadcast(&pending_changed);
	pthread_mutex_unlock(&pending_list);
}

static void wake_threads(void)
{
	pthread_mutex_lock(&pending_list);
	pthread_cond_broadcast(&pending_changed);
	pthread_mutex_unlock(&pending_list);
}

static _Noreturn void *run_all(void *of)
{
	struct softint_thread *softint_thread = of;
	char name[32];
	snprintf(name, sizeof(name), "softint/%u", softint_thread->cpu->info.ci_index);
	struct thread *me = named_thread("softint", name);
	me->softint = true;
	move_to(me, softint_thread->cpu);
	me->lwp.l_pflag = LP_BOUND | LP_INTR;
	pthread_mutex_lock(&pending_list);
	softint_thread->thread = me;
	pthread_cond_broadcast(&pending_changed);
	pthread_mutex_unlock(&pending_list);
	for (;;) {
		/* A soft interrupt of this level waits, above which none does, or the CPU is lent. */
		pthread_mutex_lock(&pending_list);
		while (highest(me->cpu) != softint_thread->level && lock_owner(&me->cpu->hold) != me)
			pthread_cond_wait(&pending_changed, &pending_list);
		pthread_mutex_unlock(&pending_list);
		lock_acquire(&me->cpu->hold, me, NULL);
		me->holds = 1;
		while (highest(me->cpu) <= softint_thread->level && run_softint(me, softint_thread->level))
			;
		me->holds = 0;
		me->level = IPL_NONE;
		return_cpu(me);
		wake_threads();		/* lower levels go on */
	}
}

void ensure_softint_thread(struct thread *me, struct cpu *cpu, int level)
{
	pthread_t thread;
	struct softint_thread *softint_thread = &threads[cpu->info.ci_index][level];
	if (softint_thread->cpu == NULL) {
		*softint_thread = (struct softint_thread){.cpu = cpu, .level = level};
		stop_if(me, pthread_create(&thread, NULL, run_all, softint_thread) != 0, "no thread is left");
		pthread_detach(thread);
	}
	int waits = begin_wait();
	while (softint_thread->thread == NULL)
		pthread_cond_wait(&pending_changed, &pending_list);
	end_wait(waits);
}

/* Lets the soft interrupts that wait have the CPU, one level after another, and waits for it. */
void lend_cpu(struct thread *me)
{
	for (;;) {
		pthread_mutex_lock(&pending_list);
		int level = highest(me->cpu);
		struct thread *next = level > me->level ? threads[me->cpu->info.ci_index][level].thread : NULL;
		pthread_mutex_unlock(&pending_list);
		if (next == NULL)
			return;
		next->lender = me;
		lock_hand_over(&me->cpu->hold, next);
		wake_threads();
		lock_acquire(&me->cpu->hold, me, NULL);
	}
}

/* A handler waits for a lock: others get the CPU meanwhile. */
void yield_cpu(struct thread *me)
{
	note_waits(me, true, false);
	return_cpu(me);
}

/* It has the lock, and goes on once it has the CPU again. */
void reclaim_cpu(struct thread *me)
{
	note_waits(me, false, true);
	lock_acquire(&me->cpu->hold, me, NULL);
	note_waits(me, false, false);
}
