/* thread.c - threads, their binding, and the CPUs that they share */
#include "layer.h"

const char KUPALDIZ_BUILT_FOR(KUPALDIZ_CPUS) = 0;
struct cpu cpus[KUPALDIZ_CPUS];
_Thread_local struct thread *kupaldiz_self;
_Thread_local struct places kupaldiz_places;

static pthread_once_t opened = PTHREAD_ONCE_INIT;
static pthread_key_t ending;
static pthread_mutex_t free_lock = PTHREAD_MUTEX_INITIALIZER;
static struct thread *free_threads;
static unsigned next_cpu;	/* an atomic: where the next thread runs first */
static bool forked;

void kupaldiz_at(const char *place)
{
	if (kupaldiz_places.count == MOST_PLACES)
		kupaldiz_places.count = 0;
	kupaldiz_places.at[kupaldiz_places.count++] = place;
}

/* ---- The life of a thread. ---- */

/* Each round of destructors may run some of the code's own that still gives something back: the thread ends in the last one. */
static void end_thread(void *of)
{
	struct thread *me = of;
	if (++me->rounds < LAST_ROUND)
		pthread_setspecific(ending, me);
	else
		end_of_thread(me);
}

static void note_fork(void)
{
	forked = true;
	kupaldiz_self = NULL;
}

static void open_layer(void)
{
	struct thread nobody = {.call = "kupaldiz_netbsd"};
	for (unsigned cpu = 0; cpu < KUPALDIZ_CPUS; cpu++)
		cpus[cpu].info.ci_index = cpu;
	if (pthread_key_create(&ending, end_thread) != 0)
		stop(&nobody, "no key of a thread is left");
	if (pthread_atfork(NULL, NULL, note_fork) != 0)
		stop(&nobody, "out of memory");
}

void init_cond(pthread_cond_t *cond)
{
	pthread_condattr_t monotonic;
	pthread_condattr_init(&monotonic);
	pthread_condattr_setclock(&monotonic, CLOCK_MONOTONIC);
	pthread_cond_init(cond, &monotonic);
	pthread_condattr_destroy(&monotonic);
}

static struct thread *thread_memory(void)
{
	pthread_mutex_lock(&free_lock);
	struct thread *me = free_threads;
	if (me != NULL)
		free_threads = me->next;
	pthread_mutex_unlock(&free_lock);
	if (me != NULL || (me = calloc(1, sizeof(*me))) == NULL)
		return me;
	init_cond(&me->cond);
	return me;
}

/* This thread, at its first call. Its name is the system's, or the one that is given. */
struct thread *named_thread(const char *call, const char *name)
{
	if (forked)
		stop_at(call, pop_place(), "in the child of a fork");
	pthread_once(&opened, open_layer);
	struct thread *me = thread_memory();
	if (me == NULL || pthread_setspecific(ending, me) != 0)
		stop_at(call, pop_place(), "out of memory");
	snprintf(me->name, sizeof(me->name), "%s", name);
	me->lwp.l_name = me->name;
	me->lwp.l_cpu = NULL;
	me->cpu = NULL;
	me->call = call;
	me->rounds = 0;
	me->kthread = false;
	__atomic_store_n(&me->id, gettid(), __ATOMIC_RELAXED);
	kupaldiz_self = me;
	return me;
}

static void require_unreferring(const struct thread *me)
{
	stop_if(me, me->references != 0, "the thread has passive references");
}

static void unbind(struct thread *me)
{
	require_unreferring(me);
	me->lwp.l_pflag &= ~LP_BOUND;
	__atomic_fetch_sub(&me->cpu->bound, 1, __ATOMIC_RELAXED);
}

/* The memory of a thread that has ended is for the next one. */
void reuse_thread(struct thread *ended)
{
	ended->kept = false;
	pthread_mutex_lock(&free_lock);
	ended->next = free_threads;
	free_threads = ended;
	pthread_mutex_unlock(&free_lock);
}

/* A thread has ended: what it still has nobody else can give back. */
void end_of_thread(struct thread *me)
{
	me->call = "pthread_exit";
	me->place = NULL;
	stop_if(me, me->depth > 0, "inside a read section");
	stop_if(me, me->spins > 0 || me->locks > 0, "with a lock");
	stop_if(me, me->holds > 0, "with its CPU");
	require_unreferring(me);
	if (is_bound(me))
		unbind(me);
	kupaldiz_self = NULL;
	if (!me->kept)
		reuse_thread(me);
}

void move_to(struct thread *me, struct cpu *cpu)
{
	me->cpu = cpu;
	me->lwp.l_cpu = &cpu->info;
}

/* The CPU where the thread is, or was last; where it never had one, the next of all. */
struct cpu *cpu_of(struct thread *me)
{
	if (me->cpu == NULL)
		move_to(me, &cpus[__atomic_fetch_add(&next_cpu, 1, __ATOMIC_RELAXED) % KUPALDIZ_CPUS]);
	return me->cpu;
}

/* Takes a CPU that is free; where none is, waits for the one that this thread had last. */
static void acquire_any_cpu(struct thread *me)
{
	unsigned last = cpu_of(me)->info.ci_index;
	for (unsigned turn = 0; turn < KUPALDIZ_CPUS; turn++) {
		struct cpu *cpu = &cpus[(last + turn) % KUPALDIZ_CPUS];
		if (lock_tryacquire(&cpu->hold, me)) {
			move_to(me, cpu);
			return;
		}
	}
	lock_acquire(&me->cpu->hold, me, report_cpu_wait);
}

void hold_cpu(struct thread *me)
{
	if (me->holds++ > 0)
		return;
	if (is_bound(me))
		lock_acquire(&me->cpu->hold, me, report_cpu_wait);
	else
		acquire_any_cpu(me);
}

void unhold_cpu(struct thread *me)
{
	if (--me->holds == 0)
		lock_release(&me->cpu->hold, me);
}

/* Has each CPU once: what other threads did there before is over then. The thread has none. */
void visit_cpus(struct thread *me)
{
	for (unsigned cpu = 0; cpu < KUPALDIZ_CPUS; cpu++) {
		lock_acquire(&cpus[cpu].hold, me, report_cpu_wait);
		lock_release(&cpus[cpu].hold, me);
	}
}

void report_cpu_wait(struct thread *me, const uintptr_t *word)
{
	const struct cpu *cpu = (const struct cpu *)(const void *)((const char *)word - offsetof(struct cpu, hold));
	struct thread *owner = lock_owner(word);
	if (owner == NULL)
		return;
	const char *entered = __atomic_load_n(&owner->entered, __ATOMIC_RELAXED);
	report(me, "waits for CPU %u, whose thread \"%s\" %s%s", cpu->info.ci_index, NAME_OF(owner),
	    entered == NULL ? "keeps it" : "is inside a read section, entered", AT_PLACE(entered));
}

struct lwp *kupaldiz_curlwp(void) { return &begin_plain("curlwp")->lwp; }

struct cpu_info *kupaldiz_cpu(unsigned cpu)
{
	(void)begin_plain(__func__);
	return cpu < KUPALDIZ_CPUS ? &cpus[cpu].info : NULL;
}

void bind_to(struct thread *me, struct cpu *cpu)
{
	move_to(me, cpu);
	me->lwp.l_pflag |= LP_BOUND;
	__atomic_fetch_add(&cpu->bound, 1, __ATOMIC_RELAXED);
}

void kupaldiz_bind(unsigned cpu)
{
	struct thread *me = begin_call(__func__);
	stop_if(me, cpu >= KUPALDIZ_CPUS, "there is no CPU %u", cpu);
	stop_if(me, is_bound(me), "the thread is bound to CPU %u", me->cpu->info.ci_index);
	require_sleepable(me);
	struct sleep sleep = begin_sleep(me);
	bind_to(me, &cpus[cpu]);
	end_sleep(me, sleep);
}

static void require_bound(const struct thread *me)
{
	stop_if(me, !is_bound(me), "the thread is not bound to a CPU");
}

void kupaldiz_unbind(void)
{
	struct thread *me = begin_call(__func__);
	require_bound(me);
	require_sleepable(me);
	unbind(me);
}

/* The CPU with the fewest bound threads; of several the one where the thread was last, or the next one. */
static struct cpu *least_bound(struct thread *me)
{
	struct cpu *least = cpu_of(me);
	unsigned first = least->info.ci_index;
	for (unsigned turn = 1; turn < KUPALDIZ_CPUS; turn++) {
		struct cpu *cpu = &cpus[(first + turn) % KUPALDIZ_CPUS];
		if (__atomic_load_n(&cpu->bound, __ATOMIC_RELAXED) < __atomic_load_n(&least->bound, __ATOMIC_RELAXED))
			least = cpu;
	}
	return least;
}

int curlwp_bind(void)
{
	struct thread *me = begin_plain(__func__);
	if (is_bound(me))
		return 1;
	bind_to(me, me->holds > 0 ? me->cpu : least_bound(me));
	return 0;
}

void curlwp_bindx(int bound)
{
	struct thread *me = begin_call(__func__);
	require_bound(me);
	if (!bound)
		unbind(me);
}

struct cpu_info *curcpu(void) { return &cpu_of(begin_plain(__func__))->info; }

void disable_preemption(struct thread *me)
{
	hold_cpu(me);
	me->preemptions++;
}

void enable_preemption(struct thread *me, const char *otherwise)
{
	stop_if(me, me->preemptions == 0, "%s", otherwise);
	me->preemptions--;
	leave_cpu(me);
}

void kpreempt_disable(void) { disable_preemption(begin_plain(__func__)); }
void kpreempt_enable(void) { enable_preemption(begin_call(__func__), "preemption is not disabled"); }
bool kpreempt_disabled(void) { return begin_plain(__func__)->holds > 0; }
bool cpu_softintr_p(void) { return begin_plain(__func__)->softint; }
