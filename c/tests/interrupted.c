/*
 * interrupted - each wait of kupaldiz_waiting.h beside each that can hold it: with a deadline that
 * passes, under a storm of signals, and in a thread that is cancelled
 *
 * A wait whose deadline passes says what held it and makes no turn more. However a wait ends, it
 * leaves the interlock free, and a later one goes on from there. A wait sleeps by calls that the
 * linker leads here (--wrap), so the test sees that it sleeps.
 */
#include <errno.h>
#include <sched.h>
#include <signal.h>
#include <stdatomic.h>

#include "client.h"
#include "kupaldiz_waiting.h"
#include "wrapped_heap.h"

/* A thread that waits, and that of this thread, if it waits. */
struct waiter {
	enum kupaldiz_result (*wait)(const struct timespec *until);
	const struct timespec *deadline;
	enum kupaldiz_result result;
	atomic_bool sleeps, ended;
	bool is_late;	/* its deadline was seen to have passed */
	pthread_t thread;
};
static _Thread_local struct waiter *own;

WRAPPED(nanosleep);
WRAPPED(pthread_cond_wait);
WRAPPED(pthread_cond_timedwait);

static void note_sleep(void)
{
	if (own != NULL)
		atomic_store(&own->sleeps, true);
}

int __wrap_nanosleep(const struct timespec *length, struct timespec *left)
{
	note_sleep();
	return __real_nanosleep(length, left);
}

int __wrap_pthread_cond_wait(pthread_cond_t *of, pthread_mutex_t *with)
{
	note_sleep();
	return __real_pthread_cond_wait(of, with);
}

int __wrap_pthread_cond_timedwait(pthread_cond_t *of, pthread_mutex_t *with,
    const struct timespec *until)
{
	note_sleep();
	int error = __real_pthread_cond_timedwait(of, with, until);
	if (own != NULL && error == ETIMEDOUT)
		own->is_late = true;
	return error;
}

/* Deadlines that never come, however they are written. */
static const struct timespec NEVER[] = {{INT64_MAX, 999999999}, {INT64_MAX, 0}, {INT32_MAX, 0}};

static struct kupaldiz_keeper keeper;
static struct kupaldiz_cpu cpus[3];
static pthread_mutex_t mutex = PTHREAD_MUTEX_INITIALIZER;
static struct kupaldiz_name wm, wm0;
static struct kupaldiz_entry gone, entries[4];
static struct kupaldiz_passive passive;
static struct kupaldiz_local local;
static struct kupaldiz_pool pool;
static struct kupaldiz_met met;
static unsigned called;
static atomic_uint signals;

/* The deadline of the wait under way, and how many turns began once it had passed. */
static struct timespec deadline;
static unsigned late_turns;

static void take(void *of)
{
	EXPECT(pthread_mutex_lock(of) == 0);
	late_turns += is_past(&deadline);
}

static void give(void *of)
{
	EXPECT(pthread_mutex_unlock(of) == 0);
}

static const struct kupaldiz_interlock interlock = {&keeper, take, give, &mutex};
static struct kupaldiz_deferred list = {.interlock = &interlock, .cpu = &cpus[1],
    .entries = entries, .room = 4};

/* ---- What holds on, and lets go. ---- */

static void enter(void)
{
	DONE(kupaldiz_enter(&cpus[0]));
}

static void leave(void)
{
	DONE(kupaldiz_exit(&cpus[0]));
}

static void hold_passive(void)
{
	DONE(kupaldiz_get(&cpus[0], KUPALDIZ_DRIVER, &wm, &passive));
}

static void release_passive(void)
{
	DONE(kupaldiz_release(&cpus[0], &passive));
}

static void hold_local(void)
{
	DONE(kupaldiz_get_local(&cpus[0], KUPALDIZ_DRIVER, &wm, &local));
}

static void release_local(void)
{
	DONE(kupaldiz_release_local(&interlock, &cpus[0], &local));
}

/* An interface holds its driver. */
static void attach_iface(void)
{
	DONE_UNDER(&mutex, kupaldiz_attach_iface(&keeper, &cpus[0], &wm, &wm0, 8, NULL));
}

static void destroy_iface(void)
{
	struct kupaldiz_entry iface;
	DONE_UNDER(&mutex,
	    kupaldiz_detach(&keeper, &cpus[0], KUPALDIZ_INTERFACE, &wm0, &iface));
	DONE_UNDER(&mutex, kupaldiz_destroy(&keeper, iface.number, NULL));
}

static void take_cpu(void)
{
	DONE(kupaldiz_pool_take(&pool, NULL, NULL));
}

static void give_cpu(void)
{
	DONE(kupaldiz_pool_give(&pool));
}

/* ---- What waits. ---- */

static void begin_nothing(void)
{
}

static void detach(void)
{
	DONE(kupaldiz_detach(&keeper, &cpus[1], KUPALDIZ_DRIVER, &wm, &gone));
}

static void detach_to_list(void)
{
	detach();
	DONE(kupaldiz_deferred_add(&list, &gone));
}

static void count_call(struct kupaldiz_call *call)
{
	(void)call;
	called++;
}

static void add_call(void)
{
	static struct kupaldiz_call call = {.function = count_call};
	called = 0;
	DONE(kupaldiz_deferred_call(&list, &call));
}

static enum kupaldiz_result destroy(const struct timespec *until)
{
	return kupaldiz_destroy_wait(&interlock, &cpus[1], gone.number, until, &met);
}

/* Beside its turns it has a hold of the interlock, to begin. */
static enum kupaldiz_result perform(const struct timespec *until)
{
	const enum kupaldiz_result result =
	    kupaldiz_perform_wait(&interlock, &cpus[1], until, &met.what);
	late_turns -= late_turns == 2;
	return result;
}

static enum kupaldiz_result barrier(const struct timespec *until)
{
	enum kupaldiz_result result = kupaldiz_deferred_barrier(&list, until);
	EXPECT((kupaldiz_deferred_count(&list) == 0) == (result == KUPALDIZ_DONE));
	return result;
}

static enum kupaldiz_result barrier_of_call(const struct timespec *until)
{
	enum kupaldiz_result result = barrier(until);
	EXPECT(called == (result == KUPALDIZ_DONE));
	return result;
}

static enum kupaldiz_result take_once(const struct timespec *until)
{
	enum kupaldiz_result result = kupaldiz_pool_take(&pool, until, NULL);
	if (result == KUPALDIZ_DONE)
		give_cpu();
	return result;
}

/* What holds, what waits, and what that returns at its deadline and says that it met. */
static const struct row {
	const char *name;
	void (*hold)(void), (*let_go)(void);
	void (*begin)(void);
	enum kupaldiz_result (*wait)(const struct timespec *until);
	enum kupaldiz_result late;
	struct kupaldiz_met met;
} ROWS[] = {
	{"destroy, a section", enter, leave, detach, destroy,
	    KUPALDIZ_STILL_HELD, {KUPALDIZ_GRACE, 0}},
	{"destroy, a passive reference", hold_passive, release_passive, detach, destroy,
	    KUPALDIZ_STILL_HELD, {KUPALDIZ_PASSIVE, 0}},
	{"destroy, a local reference", hold_local, release_local, detach, destroy,
	    KUPALDIZ_STILL_HELD, {KUPALDIZ_LOCAL, 1}},
	{"destroy, an interface", attach_iface, destroy_iface, detach, destroy,
	    KUPALDIZ_STILL_HELD, {KUPALDIZ_LOCAL, 1}},
	{"perform, a section", enter, leave, begin_nothing, perform, KUPALDIZ_WAITING, {0, 0}},
	{"barrier, a section", enter, leave, detach_to_list, barrier, KUPALDIZ_STILL_HELD, {0, 0}},
	{"barrier, a passive reference", hold_passive, release_passive, detach_to_list, barrier,
	    KUPALDIZ_STILL_HELD, {0, 0}},
	{"barrier, a local reference", hold_local, release_local, detach_to_list, barrier,
	    KUPALDIZ_STILL_HELD, {0, 0}},
	{"barrier of a call, a section", enter, leave, add_call, barrier_of_call,
	    KUPALDIZ_STILL_HELD, {0, 0}},
	{"take, another thread's CPU", take_cpu, give_cpu, begin_nothing, take_once,
	    KUPALDIZ_NO_CPU, {0, 0}},
};

/* ---- Each of them. ---- */

static void hold(const struct row *row)
{
	DONE(kupaldiz_attach(&keeper, &cpus[1], &wm, 7, NULL));
	row->hold();
	row->begin();
}

/* What the row's wait hasn't destroyed. */
static void tidy(void)
{
	if (kupaldiz_detach(&keeper, &cpus[1], KUPALDIZ_DRIVER, &wm, &gone) == KUPALDIZ_DONE)
		DONE(kupaldiz_destroy(&keeper, gone.number, NULL));
}

static void *wait_in_thread(void *of)
{
	struct waiter *waiter = own = of;
	waiter->result = waiter->wait(waiter->deadline);
	atomic_store(&waiter->ended, true);
	return NULL;
}

static void start(struct waiter *waiter)
{
	deadline = waiter->deadline != NULL ? *waiter->deadline : NEVER[0];
	late_turns = 0;
	waiter->thread = started(wait_in_thread, waiter);
}

static void start_and_sleep(struct waiter *waiter)
{
	start(waiter);
	while (!atomic_load(&waiter->sleeps) && !atomic_load(&waiter->ended))
		rest();
	EXPECT(!atomic_load(&waiter->ended));
}

static void end(struct waiter *waiter)
{
	EXPECT(joined(waiter->thread) == NULL && atomic_load(&waiter->ended));
}

/* Sends signals until the wait has ended, or for so many of them. */
static void storm(struct waiter *waiter, unsigned most)
{
	for (unsigned i = 0; i < most && !atomic_load(&waiter->ended); i++) {
		EXPECT(pthread_kill(waiter->thread, SIGUSR1) == 0);
		if (i % 4 == 0)
			sched_yield();
	}
}

/* The deadline is missed, maybe under a storm. No turn follows one that ended past it. */
static void miss(const struct row *row, long milliseconds, bool has_storm)
{
	const struct timespec until = in_milliseconds(milliseconds);
	struct waiter waiter = {.wait = row->wait, .deadline = &until};
	met = (struct kupaldiz_met){0, 0};
	start(&waiter);
	if (has_storm)
		storm(&waiter, UINT32_MAX);
	end(&waiter);
	EXPECT(waiter.result == row->late && is_past(&until) && late_turns <= 1);
	EXPECT(met.stage == row->met.stage && met.what == row->met.what);
}

/*
 * It is missed twice, the second time as it is past already, and under a storm. Then a wait has
 * none: signals don't end it, and it is done once nothing holds it.
 */
static void test_late(const struct row *row)
{
	struct waiter whole = {.wait = row->wait};
	hold(row);
	miss(row, 3, false);
	miss(row, 0, false);
	atomic_store(&signals, 0);
	while (atomic_load(&signals) == 0)
		miss(row, 50, true);
	start_and_sleep(&whole);
	storm(&whole, 2000);
	EXPECT(!atomic_load(&whole.ended));
	row->let_go();
	storm(&whole, UINT32_MAX);
	end(&whole);
	DONE(whole.result);
	tidy();
}

/* A wait that is cancelled leaves the interlock free, and the next wait goes on. */
static void test_cancelled(const struct row *row)
{
	struct waiter waiter = {.wait = row->wait};
	hold(row);
	start_and_sleep(&waiter);
	EXPECT(pthread_cancel(waiter.thread) == 0);
	EXPECT(joined(waiter.thread) == PTHREAD_CANCELED && !atomic_load(&waiter.ended));
	EXPECT(pthread_mutex_trylock(&mutex) == 0 && pthread_mutex_unlock(&mutex) == 0);
	row->let_go();
	DONE(row->wait(NULL));
	tidy();
}

/* A deadline that never comes ends no wait for a CPU. turns.c has the other waits. */
static void test_far(void)
{
	for (unsigned i = 0; i < COUNT_OF(NEVER); i++) {
		struct waiter waiter = {.wait = take_once, .deadline = &NEVER[i]};
		take_cpu();
		start_and_sleep(&waiter);
		give_cpu();
		end(&waiter);
		EXPECT(waiter.result == KUPALDIZ_DONE && !waiter.is_late);
	}
}

/* Whether this thread joins another one where it can't be cancelled. */
static _Thread_local bool is_kept;

WRAPPED(pthread_join);
int __wrap_pthread_join(pthread_t thread, void **result)
{
	int state;
	EXPECT(pthread_setcancelstate(PTHREAD_CANCEL_DISABLE, &state) == 0);
	EXPECT(!is_kept || state == PTHREAD_CANCEL_DISABLE);
	EXPECT(pthread_setcancelstate(state, NULL) == 0);
	return __real_pthread_join(thread, result);
}

/*
 * A thread that is to be cancelled stops a reclaimer: it waits for its end, is cancelled later, and
 * leaves nothing behind.
 */
static void *stop(void *has_returned)
{
	is_kept = true;
	EXPECT(pthread_cancel(pthread_self()) == 0);
	DONE(kupaldiz_reclaimer_stop(&list));
	*(bool *)has_returned = true;
	pthread_testcancel();
	return NULL;
}

static void test_cancelled_stop(void)
{
	bool has_returned = false;
	DONE(kupaldiz_reclaimer_start(&list));
	EXPECT(joined(started(stop, &has_returned)) == PTHREAD_CANCELED && has_returned);
	IS(EMPTY_HANDLE, kupaldiz_reclaimer_stop(&list));
}

static void count_signal(int signal)
{
	(void)signal;
	atomic_fetch_add(&signals, 1);
}

int main(void)
{
	const struct kupaldiz_settings settings = {3, 4, 1000, 1000000, 100, 100};
	const struct sigaction action = {.sa_handler = count_signal};
	EXPECT(sigaction(SIGUSR1, &action, NULL) == 0);
	wm = name_of("wm");
	wm0 = name_of("wm0");
	DONE(kupaldiz_open(&settings, &keeper, cpus, 3));
	DONE(kupaldiz_pool_open(&pool, &cpus[2], 1));
	for (size_t i = 0; i < COUNT_OF(ROWS); i++) {
		test_late(&ROWS[i]);
		test_cancelled(&ROWS[i]);
		printf("%s\n", ROWS[i].name);
	}
	test_far();
	test_cancelled_stop();
	DONE(kupaldiz_pool_close(&pool));
	DONE(kupaldiz_close(&keeper, cpus, 3));
	puts("interrupted end");
	return 0;
}
