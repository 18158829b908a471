/*
 * turns [emulated] - each step that the waits of kupaldiz_waiting.h make, beside a model: which
 * calls, in which order, how long they sleep, and where they stop
 *
 * The linker leads the registry's calls, the clock, nanosleep, sched_yield and a mutex's calls here
 * (--wrap), and pauses.h the pause instruction. The calls return what the test says, and time is
 * the test's own. A wait is planned at random: its call and CPU, its deadline, and what its turns
 * return.
 *
 * Each step has a letter, and the model knows which come next: l and u a mutex locked and unlocked;
 * d a turn of a destroy or of a barrier; b and p a perform's begin and turn; y a yield; s a sleep;
 * r a local reference's release and c the one under the interlock. With `emulated` waits are
 * shorter.
 */
#include <errno.h>
#include <inttypes.h>
#include <sched.h>
#include <signal.h>

#include "child.h"
#include "client.h"
#include "dice.h"
#include "kupaldiz_waiting.h"
#include "wrapped_heap.h"

enum { SPINS = 16, MOST_PAUSES = 256, YIELDS = 8, FIRST_SLEEP = 16000, LONGEST_SLEEP = 8000000 };
enum { TURN = 100, SECOND = 1000000000, WAITS = 20000, MOST_TURNS = 60 };
enum { MANY = 5000001, MOST_ERROR = 133, RESULTS = KUPALDIZ_NO_THREAD + 1 };

/* The CPUs by their places: one that is closed, one in a section, and those outside. */
enum { CLOSED, INNER, PLACES = 6 };

enum call { DESTROY, PERFORM, BARRIER, RELEASE, CALLS };

/* Of each call: its first steps, the letter of a turn, and what a turn returns before the last. */
static const struct {
	const char *begins;
	char turn;
	enum kupaldiz_result refused;
} OF_CALL[CALLS] = {
	[DESTROY] = {"l@", 'd', KUPALDIZ_STILL_HELD},
	[PERFORM] = {"lb", 'p', KUPALDIZ_WAITING},
	[BARRIER] = {"l@", 'd', KUPALDIZ_STILL_HELD},
	[RELEASE] = {"r", '-', (enum kupaldiz_result)RESULTS},
};

/* What may pass after a turn that wasn't the last: the last such turn, and what comes next. */
static const struct {
	unsigned last;
	const char *steps;
} PAUSES[] = {{SPINS, "ul@"}, {SPINS + YIELDS, "uyl@"}, {UINT32_MAX, "usl@"}};

/* Deadlines that never come. */
static const struct timespec NEVER[] = {{INT64_MAX, 999999999}, {INT64_MAX, 0}, {INT32_MAX, 0}};

/* A wait that is under way: what its calls return, and what the model knows of it. */
struct planned {
	enum call call;
	unsigned cpu;
	uint64_t number;
	struct kupaldiz_met met;
	uint64_t waited;
	struct kupaldiz_local local;
	struct kupaldiz_deferred list;
	struct kupaldiz_entry row[1];
	enum kupaldiz_result first;	/* what a begin or a release returns */
	enum kupaldiz_result refused, last;	/* what the first turns return, and the next one */
	unsigned refusals;		/* how many those are */
	/* In nanoseconds. INT64_MAX if there is none, or one that never comes. */
	int64_t until;
	struct timespec deadline;
	bool has_deadline;
	char next[8];			/* the steps that come next */
	unsigned at, turns;		/* how many of them have come, and turns so far */
	unsigned pauses;		/* pause instructions that come before the next step */
	int64_t sleep;			/* the next one's length, if nothing cuts it */
	enum kupaldiz_result result;	/* the last call's */
	struct kupaldiz_wait *wait;	/* the perform's */
};

static struct planned *under_way;
static uint64_t turns_made, sleeps, yields, late;

static int64_t now;	/* in nanoseconds: a turn takes TURN of them, and a sleep its length */
static struct kupaldiz_keeper keeper = {&keeper};	/* no registry's: nothing here comes to one */
static struct kupaldiz_cpu cpus[PLACES];
static pthread_mutex_t mutex = PTHREAD_MUTEX_INITIALIZER;
static struct kupaldiz_interlock interlock;

WRAPPED(clock_gettime);
WRAPPED(nanosleep);
WRAPPED(sched_yield);
WRAPPED(kupaldiz_destroy);
WRAPPED(kupaldiz_perform_begin);
WRAPPED(kupaldiz_perform_turn);
WRAPPED(kupaldiz_try_release_local);
WRAPPED(kupaldiz_release_local_locked);
WRAPPED(pthread_mutex_lock);
WRAPPED(pthread_mutex_unlock);

/* What locking and unlocking a mutex fail with, unless it is 0. */
static int lock_error, unlock_error;

/* The steps that come next: those of a format, where each @ is the letter of the wait's turn. */
static void expect_next(struct planned *wait, const char *steps)
{
	wait->at = 0;
	snprintf(wait->next, sizeof wait->next, "%s", steps);
	for (char *step = wait->next; *step != 0; step++)
		*step = *step == '@' ? OF_CALL[wait->call].turn : *step;
}

/* The step comes next, after all pauses that come before it. The wait that makes it. */
static struct planned *step(char letter)
{
	struct planned *wait = under_way;
	EXPECT(wait != NULL && (wait->pauses == 0 || letter == 'u'));
	EXPECT(wait->next[wait->at] == letter);
	wait->at++;
	return wait;
}

/*
 * After a turn that wasn't the last comes a pause. Each of the first ones has twice as many pause
 * instructions, up to a number.
 */
static void expect_pause(struct planned *wait)
{
	unsigned kind = 0;
	while (wait->turns > PAUSES[kind].last)
		kind++;
	expect_next(wait, PAUSES[kind].steps);
	if (kind == 0)
		wait->pauses = wait->turns < 9 ? 1U << (wait->turns - 1) : MOST_PAUSES;
}

/* A turn: what it returns, and what comes next. */
static enum kupaldiz_result turn(struct planned *wait)
{
	now += TURN;
	turns_made++;
	wait->result = wait->turns++ >= wait->refusals ? wait->last : wait->refused;
	late += wait->result == wait->refused && wait->until <= now;
	if (wait->result != wait->refused || wait->until <= now)
		expect_next(wait, "u");
	else
		expect_pause(wait);
	return wait->result;
}

int __wrap_clock_gettime(clockid_t clock, struct timespec *time)
{
	EXPECT(clock == CLOCK_MONOTONIC);
	*time = (struct timespec){now / SECOND, now % SECOND};
	return 0;
}

int __wrap_nanosleep(const struct timespec *length, struct timespec *left)
{
	struct planned *wait = step('s');
	int64_t wanted = wait->until - now < wait->sleep ? wait->until - now : wait->sleep;
	EXPECT(length->tv_sec == 0 && length->tv_nsec == wanted && left == NULL);
	wait->sleep = wait->sleep * 2 < LONGEST_SLEEP ? wait->sleep * 2 : LONGEST_SLEEP;
	now += length->tv_nsec;
	sleeps++;
	return 0;
}

int __wrap_sched_yield(void)
{
	step('y');
	yields++;
	return 0;
}

/* A pause comes after the unlocking, and before the next step. */
void pause_seen(void)
{
	EXPECT(under_way->pauses > 0 && under_way->next[under_way->at] == 'l');
	under_way->pauses--;
}

/* A turn of a barrier is one of the list's entry. */
enum kupaldiz_result __wrap_kupaldiz_destroy(struct kupaldiz_keeper *of, uint64_t number,
    struct kupaldiz_met *met)
{
	struct planned *wait = step('d');
	EXPECT(of == &keeper && number == wait->number);
	EXPECT(wait->call == BARRIER || met == &wait->met);
	return turn(wait);
}

enum kupaldiz_result __wrap_kupaldiz_perform_begin(struct kupaldiz_keeper *of,
    struct kupaldiz_cpu *on, struct kupaldiz_wait *wait)
{
	struct planned *own = step('b');
	EXPECT(of == &keeper && on == &cpus[own->cpu]);
	own->wait = wait;
	own->result = own->first;
	expect_next(own, own->first == KUPALDIZ_DONE ? "ul@" : "u");
	return own->first;
}

enum kupaldiz_result __wrap_kupaldiz_perform_turn(struct kupaldiz_keeper *of,
    struct kupaldiz_cpu *on, struct kupaldiz_wait *wait, uint64_t *waited)
{
	struct planned *own = step('p');
	EXPECT(of == &keeper && on == &cpus[own->cpu]);
	EXPECT(wait == own->wait && waited == &own->waited);
	return turn(own);
}

enum kupaldiz_result __wrap_kupaldiz_try_release_local(struct kupaldiz_cpu *on,
    struct kupaldiz_local *local)
{
	struct planned *wait = step('r');
	EXPECT(on == &cpus[wait->cpu] && local == &wait->local);
	wait->result = wait->first;
	expect_next(wait, wait->first == KUPALDIZ_COLLECTED ? "lcu" : "");
	return wait->first;
}

enum kupaldiz_result __wrap_kupaldiz_release_local_locked(struct kupaldiz_keeper *of,
    struct kupaldiz_cpu *on, struct kupaldiz_local *local)
{
	struct planned *wait = step('c');
	EXPECT(of == &keeper && on == &cpus[wait->cpu] && local == &wait->local);
	return wait->result = wait->last;
}

/* No wait is under way where a mutex's errors are tried. */
static int call_mutex(int (*real)(pthread_mutex_t *), pthread_mutex_t *of, char letter, int error)
{
	if (under_way != NULL)
		EXPECT(step(letter) == under_way && of == &mutex);
	return error != 0 ? error : real(of);
}

int __wrap_pthread_mutex_lock(pthread_mutex_t *of)
{
	return call_mutex(__real_pthread_mutex_lock, of, 'l', lock_error);
}

int __wrap_pthread_mutex_unlock(pthread_mutex_t *of)
{
	return call_mutex(__real_pthread_mutex_unlock, of, 'u', unlock_error);
}

/* ---- A wait that is planned, and made. ---- */

/* A deadline that is past, that never comes, or that is up to some seconds away; or none. */
static void plan_deadline(struct planned *wait)
{
	enum { NONE, FAR, PAST, NEAR };
	const uint64_t kind = below(8);
	wait->has_deadline = kind != NONE;
	wait->until = INT64_MAX;
	if (kind == FAR)
		wait->deadline = NEVER[below(3)];
	if (kind == PAST) {
		wait->until = INT64_MIN;
		wait->deadline = (struct timespec){INT64_MIN, 0};
	}
	if (kind >= NEAR) {
		wait->until = now + (int64_t)below(UINT64_C(1) << below(33)) - (int64_t)below(3);
		wait->deadline = (struct timespec){wait->until / SECOND, wait->until % SECOND};
	}
}

static enum kupaldiz_result any_result(void)
{
	return (enum kupaldiz_result)below(RESULTS);
}

/*
 * What the turns return, and how many there are. A barrier's last one is done, as is any that would
 * return what the ones before it did.
 */
static void plan_results(struct planned *wait)
{
	wait->refusals = (unsigned)below(MOST_TURNS);
	wait->refused = OF_CALL[wait->call].refused;
	wait->last = wait->call == BARRIER || below(2) == 0 ? KUPALDIZ_DONE : any_result();
	if (wait->last == wait->refused)
		wait->last = KUPALDIZ_DONE;
	wait->first = wait->call == RELEASE ? KUPALDIZ_COLLECTED : KUPALDIZ_DONE;
	if (below(2) == 0)
		wait->first = any_result();
}

/* A destroy looks at its CPU before it makes a turn. */
static void plan(struct planned *wait)
{
	*wait = (struct planned){.call = (enum call)below(CALLS), .sleep = FIRST_SLEEP};
	wait->cpu = (unsigned)below(PLACES);
	wait->number = below(1000);
	wait->list = (struct kupaldiz_deferred){.interlock = &interlock, .entries = wait->row,
	    .room = 1};
	const struct kupaldiz_entry gone = {.number = wait->number};
	DONE(kupaldiz_deferred_add(&wait->list, &gone));
	plan_results(wait);
	plan_deadline(wait);
	expect_next(wait, OF_CALL[wait->call].begins);
	if (wait->call == DESTROY && wait->cpu <= INNER) {
		wait->result = wait->cpu == INNER ? KUPALDIZ_INSIDE : KUPALDIZ_EMPTY_HANDLE;
		expect_next(wait, "lu");
	}
}

static enum kupaldiz_result call(struct planned *wait)
{
	const struct timespec *deadline = wait->has_deadline ? &wait->deadline : NULL;
	struct kupaldiz_cpu *cpu = &cpus[wait->cpu];
	switch (wait->call) {
	case DESTROY:
		return kupaldiz_destroy_wait(&interlock, cpu, wait->number, deadline, &wait->met);
	case PERFORM:
		return kupaldiz_perform_wait(&interlock, cpu, deadline, &wait->waited);
	case BARRIER:
		return kupaldiz_deferred_barrier(&wait->list, deadline);
	default:
		return kupaldiz_release_local(&interlock, cpu, &wait->local);
	}
}

/* Makes a planned wait: it ends with the step that the model knows, and returns that result. */
static void make(struct planned *wait)
{
	under_way = wait;
	EXPECT(call(wait) == wait->result && wait->next[wait->at] == 0 && wait->pauses == 0);
	under_way = NULL;
}

/* ---- All of them. ---- */

static void open_all(void)
{
	const struct kupaldiz_settings settings = KUPALDIZ_SETTINGS(PLACES, 1);
	struct kupaldiz_keeper opened = {0};
	DONE(kupaldiz_open(&settings, &opened, cpus, PLACES));
	DONE(kupaldiz_close(&opened, &cpus[CLOSED], 1));
	DONE(kupaldiz_enter(&cpus[INNER]));
	interlock = kupaldiz_interlock_of_mutex(&keeper, &mutex);
}

static void close_all(void)
{
	DONE(kupaldiz_exit(&cpus[INNER]));
	DONE(kupaldiz_close(NULL, cpus, PLACES));
}

static void test_waits(void)
{
	struct planned wait;
	for (unsigned i = 0; i < WAITS; i++) {
		now += (int64_t)below(UINT64_C(1) << below(31));
		plan(&wait);
		make(&wait);
	}
	EXPECT(sleeps > WAITS && yields > WAITS && late > WAITS / 10);
}

/*
 * A wait has no number of turns after which it ends: it ends with the result. A perform also if it
 * has a deadline that never comes.
 */
static void test_many_turns(unsigned turns)
{
	struct planned wait;
	for (enum call which = DESTROY; which < RELEASE;) {
		plan(&wait);
		if (wait.call != which || wait.cpu <= INNER || wait.until != INT64_MAX ||
		    wait.has_deadline != (which == PERFORM) || wait.first != KUPALDIZ_DONE)
			continue;
		wait.refusals = turns - 1;
		make(&wait);
		EXPECT(wait.turns == turns);
		which++;
	}
}

static void take(void)
{
	interlock.take(interlock.of);
}

static void give(void)
{
	interlock.give(interlock.of);
}

/*
 * A child that takes the interlock and gives it up is aborted, and says that this call failed so.
 * An emulator says behind it that the child was aborted.
 */
static void expect_abort(const char *name, int error)
{
	char wanted[200], said[200];
	snprintf(wanted, sizeof wanted, "kupaldiz: %s of the interlock: %s\n", name,
	    strerror(error));
	int status = run_in_child(take, give, said, sizeof said);
	EXPECT(strncmp(said, wanted, strlen(wanted)) == 0);
	EXPECT(WIFSIGNALED(status) && WTERMSIG(status) == SIGABRT);
}

/* The program is aborted if a mutex fails, with any error. */
static void test_errors(void)
{
	for (int i = 0; i < 2 * MOST_ERROR; i++) {
		bool by_lock = i % 2 == 0;
		int error = 1 + i / 2;
		lock_error = by_lock ? error : 0;
		unlock_error = by_lock ? 0 : error;
		expect_abort(by_lock ? "pthread_mutex_lock" : "pthread_mutex_unlock", error);
	}
	lock_error = unlock_error = 0;
}

int main(int argc, char **argv)
{
	const bool is_emulated = argc == 2 && strcmp(argv[1], "emulated") == 0;
	open_all();
	test_waits();
	test_many_turns(is_emulated ? MANY / 100 : MANY);
	test_errors();
	close_all();
	printf("turns: %" PRIu64 " turns\n", turns_made);
	return 0;
}
