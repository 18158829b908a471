/*
 * works SEED STEPS - random programs of several threads against a model of callout(9), softint(9) and workqueue(9)
 *
 * Each thread has a CPU of its own, and there some callouts, a soft interrupt and works. It says of each whether it may run, where, and not before when; and
 * waits for what must run. The words of each are plain memory, so that the thread sanitizer, too, judges the order of the thread and what runs for it.
 */
#include "test.h"
#include "asleep.h"
#include "random.h"
#include "things.h"

#include "src/layer.h"

enum { ACTORS = 6, TIMERS = 2, JOBS = 4, FREE = 0, ENQUEUED, DONE };

struct timer {
	callout_t callout;
	unsigned cpu, left;	/* it sets itself so often again */
	int64_t earliest;	/* the first time at which it may run */
	bool is_set;		/* the owner's */
	unsigned awaited;	/* the owner's: so many runs are sure to come */
	atomic_bool may_run;
	atomic_uint runs, running;
};

struct interrupt {
	void *cookie;
	int level;
	unsigned cpu;
	bool locks;
	atomic_bool may_run;
	atomic_uint runs, running;
};

struct job {
	struct work work;	/* first */
	unsigned owner, number, cpu;
	atomic_uint state;
};

struct actor {
	unsigned number;
	uint64_t random;
	struct timer timers[TIMERS];
	struct interrupt interrupt;
	struct job jobs[2][JOBS];	/* of each queue */
	unsigned enqueued, last_done;	/* of the first queue: the former is the owner's, the latter the queue's */
};

static struct actor actors[ACTORS];
static struct workqueue *queues[2];	/* one with a thread, one with a thread for each CPU */
static atomic_uint halts, ticks, jobs_done;
static kmutex_t softlock;
static unsigned steps;

static unsigned below(struct actor *actor, unsigned bound) { return random_below(&actor->random, bound); }

/* ---- callout(9). ---- */

static void begin_run(atomic_uint *running, atomic_bool *may_run, unsigned cpu)
{
	EXPECT(cpu_softintr_p() && cpu_number() == cpu && atomic_load(may_run));
	EXPECT(atomic_fetch_add(running, 1) == 0);
}

static void end_run(atomic_uint *running, atomic_uint *runs)
{
	EXPECT(atomic_fetch_sub(running, 1) == 1);
	atomic_fetch_add(runs, 1);
}

static void run_timer(void *of)
{
	struct timer *timer = of;
	begin_run(&timer->running, &timer->may_run, timer->cpu);
	EXPECT(callout_invoking(&timer->callout) && now() >= timer->earliest);
	callout_ack(&timer->callout);
	EXPECT(!callout_invoking(&timer->callout));
	if (timer->left > 0) {
		timer->left--;
		timer->earliest = now() + tick_length();
		callout_schedule(&timer->callout, 1);
	}
	atomic_fetch_add(&ticks, 1);
	end_run(&timer->running, &timer->runs);
}

static struct timer *any_timer(struct actor *actor) { return &actor->timers[below(actor, TIMERS)]; }

/* It runs once, or some times by itself. */
static void set_timer(struct actor *actor)
{
	struct timer *timer = any_timer(actor);
	if (timer->is_set)
		return;
	int after = 1 + (int)below(actor, 2);
	timer->is_set = true;
	timer->left = below(actor, 3);
	timer->awaited = atomic_load(&timer->runs) + 1 + timer->left;
	timer->earliest = now() + after * tick_length();
	atomic_store(&timer->may_run, true);
	callout_reset(&timer->callout, after, run_timer, timer);
}

/* It doesn't run any more, and isn't pending. */
static void halt(struct actor *actor, struct timer *timer)
{
	bool locks = below(actor, 2) == 0;
	if (locks)
		mutex_enter(&softlock);
	callout_halt(&timer->callout, locks ? &softlock : NULL);
	if (locks)
		mutex_exit(&softlock);
	EXPECT(atomic_load(&timer->running) == 0 && !callout_pending(&timer->callout) && !callout_active(&timer->callout));
	atomic_store(&timer->may_run, false);
	timer->is_set = false;
	atomic_fetch_add(&halts, 1);
}

static void halt_timer(struct actor *actor) { halt(actor, any_timer(actor)); }

/* Once it was stopped it may still run now, and not again once it was halted. */
static void stop_timer(struct actor *actor)
{
	struct timer *timer = any_timer(actor);
	callout_stop(&timer->callout);
	halt(actor, timer);
}

/* What was set runs as often as it was told. */
static void await_timer(struct actor *actor)
{
	struct timer *timer = any_timer(actor);
	if (!timer->is_set)
		return;
	await_least(&timer->runs, timer->awaited);
	halt(actor, timer);
	EXPECT(timer->left == 0 && atomic_load(&timer->runs) == timer->awaited);
}

/* ---- softint(9). ---- */

static void run_interrupt(void *of)
{
	struct interrupt *interrupt = of;
	begin_run(&interrupt->running, &interrupt->may_run, interrupt->cpu);
	if (interrupt->locks) {
		mutex_enter(&softlock);
		mutex_exit(&softlock);
		sleep_for(100);
	}
	end_run(&interrupt->running, &interrupt->runs);
}

static void establish(struct actor *actor)
{
	struct interrupt *interrupt = &actor->interrupt;
	unsigned flags = below(actor, SOFTINT_SERIAL + 1);
	interrupt->level = IPL_SOFTCLOCK + (int)flags;
	interrupt->locks = below(actor, 2) == 0;
	atomic_store(&interrupt->may_run, true);
	interrupt->cookie = softint_establish(flags | SOFTINT_MPSAFE, run_interrupt, interrupt);
	EXPECT(interrupt->cookie != NULL);
}

/* It runs after each time that it was scheduled: before the call returns with preemption disabled, if it waits for no lock. */
static void schedule(struct actor *actor)
{
	struct interrupt *interrupt = &actor->interrupt;
	unsigned before = atomic_load(&interrupt->runs);
	bool has_cpu = below(actor, 2) == 0;
	if (has_cpu)
		kpreempt_disable();
	softint_schedule(interrupt->cookie);
	EXPECT(!has_cpu || interrupt->locks || atomic_load(&interrupt->runs) > before);
	if (has_cpu)
		kpreempt_enable();
	await_least(&interrupt->runs, before + 1);
}

/* A section keeps it off. */
static void schedule_inside(struct actor *actor)
{
	struct interrupt *interrupt = &actor->interrupt;
	unsigned before = atomic_load(&interrupt->runs);
	int s = pserialize_read_enter();
	softint_schedule(interrupt->cookie);
	EXPECT(atomic_load(&interrupt->runs) == before);
	pserialize_read_exit(s);
	await_least(&interrupt->runs, before + 1);
}

/* Its level keeps it off, also after a sleep, for which the thread gave the level and its CPU up. */
static void schedule_raised(struct actor *actor)
{
	struct interrupt *interrupt = &actor->interrupt;
	unsigned before = atomic_load(&interrupt->runs);
	int s = splraiseipl(makeiplcookie(interrupt->level));
	if (below(actor, 2) == 0)
		xc_barrier(0);
	softint_schedule(interrupt->cookie);
	softint_schedule(interrupt->cookie);
	EXPECT(atomic_load(&interrupt->runs) == before);
	splx(s);
	await_least(&interrupt->runs, before + 1);
	EXPECT(atomic_load(&interrupt->runs) == before + 1);
}

/* It may be waiting to run, or waiting for a lock that is free from now on. Afterwards it doesn't run. */
static void disestablish(struct actor *actor)
{
	struct interrupt *interrupt = &actor->interrupt;
	mutex_enter(&softlock);
	softint_schedule(interrupt->cookie);
	if (interrupt->locks)
		await_least(&interrupt->running, 1);
	mutex_exit(&softlock);
	softint_disestablish(interrupt->cookie);
	EXPECT(atomic_load(&interrupt->running) == 0);
	atomic_store(&interrupt->may_run, false);
	establish(actor);
}

/* ---- workqueue(9). ---- */

static void do_job(struct work *work, void *arg)
{
	struct job *job = (struct job *)work;
	struct actor *actor = &actors[job->owner];
	EXPECT(!cpu_softintr_p() && atomic_load(&job->state) == ENQUEUED);
	if (job->cpu % 4 == 0)
		sleep_for(200);
	if (arg == &queues[0]) {
		EXPECT(job->number == actor->last_done + 1);
		actor->last_done = job->number;
	} else {
		EXPECT(cpu_number() == job->cpu);
	}
	atomic_store(&job->state, DONE);
	atomic_fetch_add(&jobs_done, 1);
}

static void enqueue(struct actor *actor)
{
	unsigned queue = below(actor, 2);
	struct job *job = &actor->jobs[queue][below(actor, JOBS)];
	if (atomic_load(&job->state) != FREE)
		return;
	job->number = queue == 0 ? ++actor->enqueued : 0;
	job->cpu = below(actor, KUPALDIZ_CPUS);
	atomic_store(&job->state, ENQUEUED);
	workqueue_enqueue(queues[queue], &job->work, queue == 0 ? NULL : kupaldiz_cpu(job->cpu));
}

static void wait_for_job(struct actor *actor, unsigned queue, struct job *job)
{
	(void)actor;
	workqueue_wait(queues[queue], &job->work);
	EXPECT(atomic_load(&job->state) != ENQUEUED);
	atomic_store(&job->state, FREE);
}

static void wait_job(struct actor *actor)
{
	unsigned queue = below(actor, 2);
	wait_for_job(actor, queue, &actor->jobs[queue][below(actor, JOBS)]);
}

/* ---- The random programs. ---- */

static void begin_actor(struct actor *actor)
{
	for (struct timer *timer = actor->timers; timer < &actor->timers[TIMERS]; timer++) {
		timer->cpu = actor->number;
		callout_init(&timer->callout, CALLOUT_MPSAFE);
	}
	for (unsigned at = 0; at < 2 * JOBS; at++)
		actor->jobs[at / JOBS][at % JOBS].owner = actor->number;
	actor->interrupt.cpu = actor->number;
	establish(actor);
}

static void end_actor(struct actor *actor)
{
	for (struct timer *timer = actor->timers; timer < &actor->timers[TIMERS]; timer++) {
		halt(actor, timer);
		callout_destroy(&timer->callout);
	}
	for (unsigned at = 0; at < 2 * JOBS; at++)
		wait_for_job(actor, at / JOBS, &actor->jobs[at / JOBS][at % JOBS]);
	softint_disestablish(actor->interrupt.cookie);
}

static void *act(void *of)
{
	static void (*const deeds[])(struct actor *) = {set_timer, set_timer, set_timer, halt_timer, stop_timer, await_timer, await_timer, schedule, schedule,
	    schedule_inside, schedule_raised, disestablish, enqueue, enqueue, enqueue, enqueue, wait_job};
	struct actor *actor = of;
	kupaldiz_bind(actor->number);
	begin_actor(actor);
	for (unsigned turn = 0; turn < steps || atomic_load(&ticks) == 0 || atomic_load(&jobs_done) == 0; turn++)
		deeds[below(actor, sizeof(deeds) / sizeof(deeds[0]))](actor);
	end_actor(actor);
	return of;
}

static void test_random(uint64_t seed)
{
	pthread_t threads[ACTORS];
	for (unsigned queue = 0; queue < 2; queue++)
		EXPECT(workqueue_create(&queues[queue], "jobs", do_job, &queues[queue], PRI_NONE, IPL_NONE, queue == 0 ? WQ_MPSAFE : WQ_MPSAFE | WQ_PERCPU) == 0);
	for (unsigned i = 0; i < ACTORS; i++) {
		actors[i].number = i;
		actors[i].random = random_of(seed, i);
		start_thread(&threads[i], act, &actors[i]);
	}
	for (unsigned i = 0; i < ACTORS; i++)
		end_thread(threads[i]);
	workqueue_destroy(queues[0]);
	workqueue_destroy(queues[1]);
}

/* ---- A callout that is halted while it runs, and one that sets itself again on the same CPU. ---- */

static atomic_int halter;
static atomic_bool begun, over;
static atomic_uint beats;

HANDLER(run_until_halted, atomic_store(&begun, true); await_asleep(&halter, &over))
static callout_t long_one, periodic;
HANDLER(beat, if (atomic_fetch_add(&beats, 1) < 3) callout_schedule(&periodic, 1))

static void *halt_beside(void *arg)
{
	EXPECT(curlwp == &kupaldiz_self->lwp);
	kupaldiz_bind(1);
	atomic_store(&halter, kupaldiz_self->id);
	callout_halt(&long_one, NULL);
	atomic_store(&over, true);
	return arg;
}

static void test_halted(void)
{
	pthread_t thread;
	kupaldiz_bind(2);
	callout_init(&long_one, CALLOUT_MPSAFE);
	callout_init(&periodic, CALLOUT_MPSAFE);
	callout_reset(&long_one, 1, run_until_halted, NULL);
	await_flag(&begun);
	start_thread(&thread, halt_beside, NULL);
	end_thread(thread);
	callout_reset(&periodic, 1, beat, NULL);
	await_least(&beats, 3);
	callout_halt(&periodic, NULL);
	callout_destroy(&periodic);
	callout_destroy(&long_one);
	kupaldiz_unbind();
}

int main(int argc, char **argv)
{
	uint64_t seed = argc == 3 ? strtoull(argv[1], NULL, 10) : 1;
	steps = argc == 3 ? (unsigned)strtoul(argv[2], NULL, 10) : 200;
	mutex_init(&softlock, MUTEX_DEFAULT, IPL_SOFTSERIAL);
	test_halted();
	test_random(seed);
	mutex_destroy(&softlock);
	printf("%u ticks, %u halts, %u works: as the model says\n", atomic_load(&ticks), atomic_load(&halts), atomic_load(&jobs_done));
	return 0;
}
