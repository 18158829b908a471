/* softint.c - softint(9) and spl(9) */
#include "layer.h"

struct softint {
	struct softint *next;
	void (*handler)(void *);
	void *arg;
	int level;
	unsigned running;
	bool dead, pending[KUPALDIZ_CPUS];
	struct softint *behind[KUPALDIZ_CPUS];	/* the next one in the queue */
};

/* The lock of all that follows. Each CPU's `pending` is written under it, too. Static functions that don't take it are called with it. */
pthread_mutex_t pending_list = PTHREAD_MUTEX_INITIALIZER;
pthread_cond_t pending_changed = PTHREAD_COND_INITIALIZER;
static struct softint *softints;
static struct softint *queues[KUPALDIZ_CPUS][LEVELS];	/* the first that waits, in the order in which they were scheduled */

/* The CPU's level is at least this one. The level before. */
int raise_level(struct thread *me, int level)
{
	int before = me->level;
	if (before == IPL_NONE && level > IPL_NONE && !me->softint)
		hold_cpu(me);
	if (level > before)
		me->level = level;
	return before;
}

void lower_level(struct thread *me, int level)
{
	int before = me->level;
	me->level = level;
	if (before > IPL_NONE && level == IPL_NONE && !me->softint)
		unhold_cpu(me);
}

int kupaldiz_splraise(int level) { return raise_level(begin_call("splraise"), level); }

void splx(int level)
{
	struct thread *me = begin_call(__func__);
	int of_spins = IPL_HIGH;
	while (of_spins > IPL_NONE && me->spins_at[of_spins] == 0)
		of_spins--;
	stop_if(me, level < me->level && level < of_spins, "with a spin lock");
	if (level < me->level)
		lower_level(me, level);
	end_call(me);
}

/* Writes down which levels of a CPU have a soft interrupt that may run next: one that waits, unless another handler of the level waits for a lock; or such
 * a handler, once it has the lock. The caller has the list. */
void note_pending(struct cpu *cpu)
{
	uint32_t pending = 0;
	for (int level = 0; level < LEVELS; level++)
		if (queues[cpu->info.ci_index][level] != NULL)
			pending |= UINT32_C(1) << level;
	__atomic_store_n(&cpu->pending, (pending & ~cpu->blocked) | cpu->goes_on, __ATOMIC_RELEASE);
}

static void dequeue(struct softint *softint, unsigned cpu)
{
	struct softint **at = &queues[cpu][softint->level];
	if (!softint->pending[cpu])
		return;
	while (*at != softint)
		at = &(*at)->behind[cpu];
	*at = softint->behind[cpu];
	softint->pending[cpu] = false;
}

/* Stops where a handler, or a function of xcall(9), left something behind. It began at this level, with so many locks and references. */
void check_handler_return(const struct thread *me, const char *what, int level, unsigned locks, unsigned references)
{
	stop_if(me, me->depth > 0, "%s returned inside a read section", what);
	stop_if(me, me->spins > 0 || me->locks > locks, "%s returned with a lock", what);
	stop_if(me, me->preemptions > 0, "%s returned with preemption disabled", what);
	stop_if(me, me->references > references, "%s returned with a passive reference", what);
	stop_if(me, me->level > level, "%s returned at a raised level", what);
}

/* Runs the next handler of a level. Whether there was one, and the level is above that of the CPU's lender. */
bool run_softint(struct thread *me, int level)
{
	int above = me->lender == NULL ? IPL_NONE : me->lender->level;
	pthread_mutex_lock(&pending_list);
	struct softint *next = level > above ? queues[me->cpu->info.ci_index][level] : NULL;
	if (next != NULL) {
		dequeue(next, me->cpu->info.ci_index);
		next->running++;
	}
	note_pending(me->cpu);
	pthread_mutex_unlock(&pending_list);
	if (next == NULL)
		return false;
	me->level = next->level;
	next->handler(next->arg);
	me->call = "softint";
	me->place = NULL;
	check_handler_return(me, "the handler", next->level, 0, 0);
	pthread_mutex_lock(&pending_list);
	next->running--;
	pthread_mutex_unlock(&pending_list);
	return true;
}

void *make_softint(unsigned flags, void (*handler)(void *), void *arg)
{
	struct softint *made = calloc(1, sizeof(*made));
	if (made == NULL)
		return NULL;
	*made = (struct softint){.handler = handler, .arg = arg, .level = IPL_SOFTCLOCK + (int)(flags & SOFTINT_LVLMASK & 3)};
	pthread_mutex_lock(&pending_list);
	made->next = softints;
	softints = made;
	pthread_mutex_unlock(&pending_list);
	return made;
}

void *softint_establish(unsigned flags, void (*handler)(void *), void *arg)
{
	require_sleepable(begin_call(__func__));
	return FAILS() ? NULL : make_softint(flags, handler, arg);
}

static void require_established(const struct thread *me, const struct softint *softint)
{
	const struct softint *at = softints;
	while (at != NULL && at != softint)
		at = at->next;
	stop_if(me, at == NULL || at->dead, "the soft interrupt is not established");
}

void schedule_on(struct thread *me, void *cookie, struct cpu *cpu)
{
	struct softint *softint = cookie;
	pthread_mutex_lock(&pending_list);
	require_established(me, softint);
	ensure_softint_thread(me, cpu, softint->level);
	/* The list was free while that thread began. */
	require_established(me, softint);
	unsigned number = cpu->info.ci_index;
	struct softint **at = &queues[number][softint->level];
	while (*at != NULL)
		at = &(*at)->behind[number];
	if (!softint->pending[number]) {
		*at = softint;
		softint->behind[number] = NULL;
		softint->pending[number] = true;
	}
	note_pending(cpu);
	pthread_cond_broadcast(&pending_changed);
	pthread_mutex_unlock(&pending_list);
}

void softint_schedule(void *cookie)
{
	struct thread *me = begin_call(__func__);
	hold_cpu(me);
	schedule_on(me, cookie, me->cpu);
	leave_cpu(me);
}

void softint_disestablish(void *cookie)
{
	struct thread *me = sleepable(begin_call(__func__));
	struct softint *softint = cookie, **at = &softints;
	struct sleep sleep = begin_sleep(me);
	pthread_mutex_lock(&pending_list);
	require_established(me, softint);
	softint->dead = true;
	for (unsigned cpu = 0; cpu < KUPALDIZ_CPUS; cpu++) {
		dequeue(softint, cpu);
		note_pending(&cpus[cpu]);
	}
	struct pauses pauses = begin_pauses();
	while (softint->running > 0) {
		pthread_mutex_unlock(&pending_list);
		if (pause_longer(&pauses))
			report(me, "waits for its handler");
		pthread_mutex_lock(&pending_list);
	}
	while (*at != softint)
		at = &(*at)->next;
	*at = softint->next;
	pthread_mutex_unlock(&pending_list);
	end_sleep(me, sleep);
	free(softint);
}
