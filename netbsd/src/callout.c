/* callout.c - callout(9): one thread waits for the next time. A soft interrupt on the callout's CPU runs what is due. */
#include "layer.h"

enum { PENDING = 1, FIRED = 2, INVOKING = 4, TOLD = 8 };

/* Of all that follows, and of the words of each callout. Static functions that don't take it are called with it. */
static pthread_mutex_t lock = PTHREAD_MUTEX_INITIALIZER;
static pthread_cond_t changed;	/* by the clock that nobody sets */
static callout_t *callouts;	/* that are pending */
static const callout_t *running[KUPALDIZ_CPUS];
static bool halted[KUPALDIZ_CPUS];	/* somebody halts what runs there */
static struct thread *runners[KUPALDIZ_CPUS];
static void *softint;
static pthread_once_t begun = PTHREAD_ONCE_INIT;

static void unlink_callout(callout_t *callout)
{
	callout_t **at = &callouts;
	while (*at != NULL && *at != callout)
		at = &(*at)->c_next;
	if (*at != NULL)
		*at = callout->c_next;
	callout->c_state &= ~(uint32_t)(PENDING | TOLD);
}

/* The callout of a CPU whose time came first; of several the one that was set first, which is behind the others in the list. NULL where none is due. */
static callout_t *due_on(unsigned cpu)
{
	int64_t time = now();
	callout_t *first = NULL;
	for (callout_t *at = callouts; at != NULL; at = at->c_next)
		if (at->c_cpu == cpu && at->c_due <= time && (first == NULL || at->c_due <= first->c_due))
			first = at;
	return first;
}

/* It isn't pending any more. Whether it had expired. */
static bool cancel(callout_t *callout)
{
	bool expired = (callout->c_state & FIRED) != 0;
	if ((callout->c_state & PENDING) != 0)
		unlink_callout(callout);
	callout->c_state &= ~(uint32_t)FIRED;
	return expired;
}

/* A callout isn't touched once its body runs, which may have freed it, unless somebody halts it: then what its body has set ends here. */
static void run_due(void *arg)
{
	unsigned cpu = cpu_number();
	callout_t *callout;
	(void)arg;
	pthread_mutex_lock(&lock);
	runners[cpu] = kupaldiz_self;
	while ((callout = due_on(cpu)) != NULL) {
		void (*body)(void *) = callout->c_body;
		void *of = callout->c_arg;
		unlink_callout(callout);
		callout->c_state |= FIRED | INVOKING;
		running[cpu] = callout;
		halted[cpu] = false;
		pthread_mutex_unlock(&lock);
		body(of);
		pthread_mutex_lock(&lock);
		running[cpu] = NULL;
		if (halted[cpu])
			cancel(callout);
		pthread_cond_broadcast(&changed);
	}
	pthread_mutex_unlock(&lock);
}

static int64_t raise_due_softints(struct thread *me)
{
	int64_t next = INT64_MAX, time = now();
	for (callout_t *at = callouts; at != NULL; at = at->c_next) {
		if ((at->c_state & TOLD) != 0)
			continue;
		if (at->c_due <= time) {
			at->c_state |= TOLD;
			schedule_on(me, softint, &cpus[at->c_cpu]);
		} else if (at->c_due < next) {
			next = at->c_due;
		}
	}
	return next;
}

static _Noreturn void *run_clock(void *arg)
{
	struct thread *me = named_thread("callout", "callout");
	(void)arg;
	pthread_mutex_lock(&lock);
	for (;;) {
		int64_t next = raise_due_softints(me);
		const struct timespec until = {next / 1000000000, (long)(next % 1000000000)};
		if (next == INT64_MAX)
			pthread_cond_wait(&changed, &lock);
		else
			pthread_cond_timedwait(&changed, &lock, &until);
	}
}

static void start_clock(void)
{
	pthread_t thread;
	init_cond(&changed);
	softint = make_softint(SOFTINT_CLOCK, run_due, NULL);
	if (softint == NULL || pthread_create(&thread, NULL, run_clock, NULL) != 0)
		stop_at("callout_init", NULL, "out of memory");
	pthread_detach(thread);
}

static struct thread *lock_callout(struct thread *me, const callout_t *callout)
{
	require_made(me, callout->c_made, A_CALLOUT, "the callout");
	pthread_mutex_lock(&lock);
	return me;
}

static bool unlock_with(bool answer)
{
	pthread_mutex_unlock(&lock);
	return answer;
}

void callout_init(callout_t *callout, unsigned flags)
{
	(void)flags;
	(void)begin_plain(__func__);
	pthread_once(&begun, start_clock);
	*callout = (callout_t){.c_made = A_CALLOUT};
}

/* The first CPU that runs it on another thread than this one; KUPALDIZ_CPUS where none does. */
static unsigned running_cpu(const struct thread *me, const callout_t *callout)
{
	unsigned cpu = 0;
	while (cpu < KUPALDIZ_CPUS && (running[cpu] != callout || runners[cpu] == me))
		cpu++;
	return cpu;
}

void callout_destroy(callout_t *callout)
{
	struct thread *me = lock_callout(begin_call(__func__), callout);
	stop_if(me, (callout->c_state & PENDING) != 0, "the callout is pending");
	stop_if(me, running_cpu(me, callout) < KUPALDIZ_CPUS, "the callout runs");
	callout->c_made = ENDED;
	pthread_mutex_unlock(&lock);
}

void callout_setfunc(callout_t *callout, void (*body)(void *), void *arg)
{
	lock_callout(begin_plain(__func__), callout);
	callout->c_body = body;
	callout->c_arg = arg;
	pthread_mutex_unlock(&lock);
}

static void make_pending(struct thread *me, callout_t *callout, int ticks)
{
	stop_if(me, callout->c_body == NULL, "the callout has no function");
	if ((callout->c_state & PENDING) != 0)
		unlink_callout(callout);
	callout->c_state = (callout->c_state & ~(uint32_t)(FIRED | INVOKING)) | PENDING;
	callout->c_due = now() + (int64_t)(ticks > 0 ? ticks : 1) * tick_length();
	callout->c_cpu = cpu_of(me)->info.ci_index;
	callout->c_next = callouts;
	callouts = callout;
	pthread_cond_broadcast(&changed);
}

void callout_reset(callout_t *callout, int ticks, void (*body)(void *), void *arg)
{
	struct thread *me = lock_callout(begin_plain(__func__), callout);
	callout->c_body = body;
	callout->c_arg = arg;
	make_pending(me, callout, ticks);
	pthread_mutex_unlock(&lock);
}

void callout_schedule(callout_t *callout, int ticks)
{
	make_pending(lock_callout(begin_plain(__func__), callout), callout, ticks);
	pthread_mutex_unlock(&lock);
}

bool callout_stop(callout_t *callout)
{
	lock_callout(begin_plain(__func__), callout);
	return unlock_with(cancel(callout));
}

/* Waits until it doesn't run, and says after a while that it waits. What it sets ends with its body, wherever that runs now. */
static void await_end(struct thread *me, const callout_t *callout)
{
	const struct timespec tells = patience();
	bool told = false;
	int waits = begin_wait();
	unsigned cpu;
	while ((cpu = running_cpu(me, callout)) < KUPALDIZ_CPUS) {
		for (unsigned at = 0; at < KUPALDIZ_CPUS; at++)
			halted[at] |= running[at] == callout;
		if (told)
			pthread_cond_wait(&changed, &lock);
		else if (pthread_cond_timedwait(&changed, &lock, &tells) != 0 && (told = true))
			report(me, "waits for CPU %u, which runs it", cpu);
	}
	end_wait(waits);
}

bool callout_halt(callout_t *callout, void *interlock)
{
	struct thread *me = lock_callout(begin_call(__func__), callout);
	stop_if(me, interlock != NULL && !has_mutex(me, interlock), "the thread does not have the lock");
	bool expired = cancel(callout);
	if (running_cpu(me, callout) == KUPALDIZ_CPUS)
		return unlock_with(expired);
	if (interlock != NULL)
		release_mutex(me, interlock);
	require_sleepable(me);
	struct sleep sleep = begin_sleep(me);
	await_end(me, callout);
	/* It may have been set since its body ended. */
	cancel(callout);
	pthread_mutex_unlock(&lock);
	end_sleep(me, sleep);
	if (interlock != NULL)
		acquire_mutex(me, interlock);
	return expired;
}

static bool has_state(const char *call, callout_t *callout, uint32_t states)
{
	lock_callout(begin_plain(call), callout);
	return unlock_with((callout->c_state & states) != 0);
}

bool callout_pending(callout_t *callout) { return has_state(__func__, callout, PENDING); }
bool callout_expired(callout_t *callout) { return has_state(__func__, callout, FIRED); }
bool callout_active(callout_t *callout) { return has_state(__func__, callout, PENDING | FIRED); }
bool callout_invoking(callout_t *callout) { return has_state(__func__, callout, INVOKING); }

void callout_ack(callout_t *callout)
{
	lock_callout(begin_plain(__func__), callout);
	callout->c_state &= ~(uint32_t)INVOKING;
	pthread_mutex_unlock(&lock);
}
