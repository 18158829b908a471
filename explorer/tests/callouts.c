/* callouts - callout(9) by the explorer's clock, in every order: when and where each callout runs, and what a halt waits for and ends */
#include <limits.h>

#include "finds.h"

enum { TIMERS = 5 };

/* A callout, and of its runs: how many, when and where the last one was, and how many of all came before it. */
static struct timer {
	callout_t callout;
	unsigned runs, cpu, after;
	int ran_at;
} timers[TIMERS];
static unsigned all_runs;

UNSEEN static void note_run(void *of)
{
	struct timer *timer = of;
	timer->cpu = cpu_number();
	timer->ran_at = getticks();
	timer->after = all_runs++;
	timer->runs++;
}

UNSEEN static unsigned runs_of(const struct timer *timer)
{
	return timer->runs;
}

static void set_on(unsigned cpu, struct timer *timer, int ticks)
{
	kupaldiz_bind(cpu);
	callout_reset(&timer->callout, ticks, note_run, timer);
	kupaldiz_unbind();
}

static void begin_timers(void)
{
	for (unsigned at = 0; at < TIMERS; at++)
		callout_init(&timers[at].callout, CALLOUT_MPSAFE);
}

static bool late;	/* one of them, by the clock's leave to go on although a thread can */

/* Waits for its next run, which comes so many ticks after it was set, between two times. */
UNSEEN static void await_run(const struct timer *timer, unsigned runs, int from, int until, int ticks)
{
	(void)kpause("callouts", false, ticks, NULL);
	while (timer->runs < runs)
		delay(10000);
	KASSERT(timer->runs == runs && timer->ran_at - from >= ticks);
	late |= timer->ran_at - until > ticks;
}

/* Below one tick is one tick. */
BODY(set_each)
{
	static const struct {
		int ticks, lasts;
	} each[] = {{INT_MIN, 1}, {-1, 1}, {0, 1}, {1, 1}, {2, 2}, {99, 99}, {100, 100}, {101, 101}, {250, 250}};
	for (unsigned at = 0; at < __arraycount(each); at++) {
		int from = getticks();
		set_on(at % KUPALDIZ_CPUS, &timers[0], each[at].ticks);
		await_run(&timers[0], at + 1, from, getticks(), each[at].lasts);
		KASSERT(timers[0].cpu == at % KUPALDIZ_CPUS);
	}
}

/* The most ticks are many. What is set again, or stopped, doesn't run at its first time, unless that has come before. */
BODY(set_again)
{
	int from = getticks();
	set_on(3, &timers[0], 200);
	set_on(4, &timers[1], 100);
	set_on(1, &timers[2], INT_MAX);
	bool expired = callout_stop(&timers[1].callout);
	set_on(6, &timers[0], 250);
	late = getticks() > from;
	if (late)
		return;
	await_run(&timers[0], 1, from, from, 250);
	KASSERT(!expired && !callout_active(&timers[1].callout));
	KASSERT(timers[0].cpu == 6 && runs_of(&timers[1]) == 0);
	KASSERT(runs_of(&timers[2]) == 0 && callout_pending(&timers[2].callout));
	KASSERT(callout_expired(&timers[0].callout) && callout_invoking(&timers[0].callout));
	KASSERT(!callout_pending(&timers[0].callout));
	callout_schedule(&timers[0].callout, INT_MAX);
	KASSERT(!callout_expired(&timers[0].callout) && !callout_invoking(&timers[0].callout));
	KASSERT(!callout_stop(&timers[0].callout) && !callout_active(&timers[0].callout));
	callout_schedule(&timers[0].callout, INT_MAX);
	KASSERT(callout_active(&timers[0].callout));
}

static unsigned met;

HANDLER(note_met, atomic_store_relaxed(&met, 1))

/* A callout and a pause of one time, once the clock has hurried: either may be the first, to the nanosecond. */
BODY(meet)
{
	(void)kpause("callouts", false, 300, NULL);
	int from = getticks();
	set_on(2, &timers[1], 1);
	if (getticks() == from)
		return;
	await_run(&timers[1], 1, from, from, 1);
	callout_setfunc(&timers[0].callout, note_met, &timers[0]);
	callout_schedule(&timers[0].callout, 1);
	(void)kpause("callouts", false, 1, NULL);
	explorer_outcome("%u, ", atomic_load_relaxed(&met));
}

/* Those of one CPU whose times have come run in the order of their times, and of one time in that in which they were set. A CPU that is kept keeps no
 * other one's off. */
UNSEEN BODY(keep_cpu)
{
	static const struct {
		int ticks;
		unsigned after;
	} each[] = {{3, 4}, {1, 1}, {2, 2}, {2, 3}};
	int from = getticks();
	set_on(5, &timers[4], 2);
	int until = getticks();
	kupaldiz_bind(2);
	int s = splhigh();
	for (unsigned at = 0; at < 4; at++)
		callout_reset(&timers[at].callout, each[at].ticks, note_run, &timers[at]);
	bool at_once = getticks() == until;
	delay(60000);
	while (runs_of(&timers[4]) == 0)
		delay(10000);
	KASSERT(timers[4].ran_at - from >= 2 && all_runs == 1);
	late |= timers[4].ran_at - until > 2;
	splx(s);
	while (all_runs < TIMERS)
		delay(10000);
	for (unsigned at = 0; at < 4; at++)
		KASSERT(timers[at].runs == 1 && timers[at].cpu == 2 && (!at_once || timers[at].after == each[at].after));
	kupaldiz_unbind();
}

/* The first call may be made anywhere. So may a halt that doesn't have to wait, and it keeps its lock. */
BODY(use_inside)
{
	callout_t callout;
	kmutex_t spin;
	mutex_init(&spin, MUTEX_DEFAULT, IPL_VM);
	int s = pserialize_read_enter();
	mutex_enter(&spin);
	callout_init(&callout, CALLOUT_MPSAFE);
	callout_reset(&callout, 100, note_run, &timers[0]);
	KASSERT(!callout_halt(&callout, &spin) && mutex_owned(&spin) && !callout_active(&callout));
	mutex_exit(&spin);
	KASSERT(!callout_halt(&callout, NULL));
	callout_destroy(&callout);
	pserialize_read_exit(s);
	mutex_destroy(&spin);
}

static bool stays;

/* Stays for long, sets itself, and stays until its time has come. */
UNSEEN static void stay_and_set(void *of)
{
	struct timer *timer = of;
	if (timer->runs++ > 0)
		return;
	atomic_store_relaxed(&stays, true);
	delay(1000000);
	callout_schedule(&timer->callout, 1);
	delay(20000);
}

/* What a body sets while a halt waits doesn't run. After the halt it neither runs nor is set. */
BODY(halt_staying)
{
	kupaldiz_bind(1);
	callout_reset(&timers[0].callout, 1, stay_and_set, &timers[0]);
	kupaldiz_unbind();
	while (!atomic_load_relaxed(&stays))
		(void)kpause("callouts", false, 1, NULL);
	callout_halt(&timers[0].callout, NULL);
	KASSERT(!callout_active(&timers[0].callout));
	(void)kpause("callouts", false, 200, NULL);
	KASSERT(runs_of(&timers[0]) == 1);
}

/* Halts its own callout without a wait, ends it, and frees it. */
static void end_itself(void *of)
{
	KASSERT(callout_halt(of, NULL));
	callout_destroy(of);
	kmem_intr_free(of, sizeof(callout_t));
}

BODY(set_to_end)
{
	callout_t *own = kmem_intr_alloc(sizeof(*own), KM_NOSLEEP);
	callout_init(own, CALLOUT_MPSAFE);
	callout_reset(own, 1, end_itself, own);
	(void)kpause("callouts", false, 2, NULL);
}

static volatile bool was_set;
static kmutex_t lock;

UNSEEN static bool is_set(void)
{
	return was_set;
}

UNSEEN static void note_set(void)
{
	was_set = true;
}

/* It needs the lock of the halt. */
HANDLER(lock_once, mutex_enter(&lock); mutex_exit(&lock))

/* What others set while a halt waits doesn't run either. Nothing comes between the end of the halt and the look. */
BODY(halt_locked)
{
	kupaldiz_bind(1);
	callout_reset(&timers[0].callout, 1, lock_once, NULL);
	kupaldiz_unbind();
	mutex_enter(&lock);
	(void)kpause("callouts", false, 1, NULL);
	(void)callout_halt(&timers[0].callout, &lock);
	bool set_before = is_set();
	KASSERT(mutex_owned(&lock) && (!set_before || !callout_active(&timers[0].callout)));
	mutex_exit(&lock);
}

BODY(set_meanwhile)
{
	(void)kpause("callouts", false, 1, NULL);
	callout_reset(&timers[0].callout, 100, note_run, &timers[0]);
	note_set();
}

/* A callout that sets itself again goes on, also on a CPU where another one was halted while it ran. */
static unsigned periods;
static bool halts;

UNSEEN static void run_again(void *of)
{
	struct timer *timer = of;
	if (++periods < 3)
		callout_schedule(&timer->callout, 1);
}

HANDLER(stay, atomic_store_relaxed(&halts, true); delay(50000))
UNSEEN static bool has_run_thrice(void) { return periods == 3; }

BODY(halt_and_set_another)
{
	kupaldiz_bind(1);
	callout_reset(&timers[0].callout, 1, stay, NULL);
	while (!atomic_load_relaxed(&halts))
		(void)kpause("callouts", false, 1, NULL);
	callout_halt(&timers[0].callout, NULL);
	callout_reset(&timers[1].callout, 1, run_again, &timers[1]);
	kupaldiz_unbind();
	for (unsigned tries = 0; tries < 20 && !has_run_thrice(); tries++)
		delay(10000);
	KASSERT(has_run_thrice());
}

static void make_things(void) { mutex_init(&lock, MUTEX_DEFAULT, IPL_SOFTCLOCK); }
static void end_lock(void) { mutex_destroy(&lock); }

static void end_all(void)
{
	for (unsigned at = 0; at < TIMERS; at++) {
		(void)callout_halt(&timers[at].callout, NULL);
		callout_destroy(&timers[at].callout);
	}
	end_lock();
	explorer_outcome(late ? "late" : "exact");
}

static const struct find finds[] = {
	{"each time", NULL, set_each, .make = begin_timers, .finish = end_all, .outcome = "exact"},
	{"set again", NULL, set_again, .make = begin_timers, .finish = end_all, .outcome = "exact"},
	{"before a pause", NULL, meet, .make = begin_timers, .finish = end_all, .outcome = "1, exact"},
	{"after a pause", NULL, meet, .make = begin_timers, .finish = end_all, .outcome = "0, exact"},
	{"a CPU that is kept", NULL, keep_cpu, .make = begin_timers, .finish = end_all, .outcome = "exact"},
	{"inside a section", NULL, use_inside, .finish = end_lock},
	{"a body that sets itself", NULL, halt_staying, .make = begin_timers, .finish = end_all},
	{"a callout that sets itself again", NULL, halt_and_set_another, .make = begin_timers, .finish = end_all},
	{"a body that ends its callout", NULL, set_to_end, .finish = end_lock},
	{"set while a halt waits", NULL, halt_locked, set_meanwhile, .make = begin_timers, .finish = end_all},
};

int main(void)
{
	return run_finds(finds, sizeof(finds) / sizeof(finds[0]));
}
