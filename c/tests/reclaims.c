/*
 * reclaims - the thread of kupaldiz_waiting.h that frees what is in a list
 *
 * The linker leads malloc, pthread_create and pthread_cond_init here (--wrap), so that each of them
 * fails once. It also leads clock_gettime here, and the calls that make the thread sleep. So each
 * sleep is seen with its whole length, however late the thread comes to it.
 */
#include <errno.h>
#include <signal.h>
#include <stdatomic.h>
#include <unistd.h>

#include "client.h"
#include "kupaldiz_waiting.h"
#include "wrapped_heap.h"

WRAPPED(clock_gettime);
WRAPPED(pthread_cond_wait);
WRAPPED(pthread_cond_timedwait);

/* What fails next. */
static enum { NOTHING, MALLOC, CONDITION, THREAD, FAULTS } fault;

FAILING(void *, malloc, (size_t size), (size), fault == MALLOC, NULL)
FAILING(int, pthread_cond_init, (pthread_cond_t *made, const pthread_condattr_t *attributes),
    (made, attributes), fault == CONDITION, ENOMEM)
FAILING(int, pthread_create, (pthread_t *thread, const pthread_attr_t *attributes,
    void *(*run)(void *), void *of), (thread, attributes, run, of), fault == THREAD, EAGAIN)

/*
 * The thread's sleeps: how many, and the nanoseconds of the last ones; one that only a call ends is
 * ENDLESS.
 */
enum { KEPT = 64, ENDLESS = -1 };
static atomic_uint sleeps;
static _Atomic int64_t lengths[KEPT];

static void note_sleep(int64_t length)
{
	unsigned before = atomic_load(&sleeps);
	atomic_store(&lengths[before % KEPT], length);
	atomic_store(&sleeps, before + 1);
}

/* What the clock told this thread last. */
static _Thread_local struct timespec last_time;

int __wrap_clock_gettime(clockid_t clock, struct timespec *time)
{
	int error = __real_clock_gettime(clock, time);
	last_time = *time;
	return error;
}

int __wrap_pthread_cond_wait(pthread_cond_t *of, pthread_mutex_t *with)
{
	note_sleep(ENDLESS);
	return __real_pthread_cond_wait(of, with);
}

int __wrap_pthread_cond_timedwait(pthread_cond_t *of, pthread_mutex_t *with,
    const struct timespec *until)
{
	note_sleep((int64_t)(until->tv_sec - last_time.tv_sec) * 1000000000 +
	    (until->tv_nsec - last_time.tv_nsec));
	return __real_pthread_cond_timedwait(of, with, until);
}

static struct kupaldiz_keeper keeper;
static struct kupaldiz_cpu cpus[2];
static pthread_mutex_t mutex;
static struct kupaldiz_name wm;

/* What was freed: how many, the last one, and the thread that did. */
static atomic_uint freed;
static atomic_uint_fast64_t last_freed;
static pthread_t by;

static void note(void *of, const struct kupaldiz_entry *gone)
{
	EXPECT(of == &freed && pthread_mutex_trylock(&mutex) != 0);
	by = pthread_self();
	atomic_store(&last_freed, gone->number);
	atomic_fetch_add(&freed, 1);
}

static void wait_for_freed(unsigned count)
{
	while (atomic_load(&freed) < count)
		rest();
}

/*
 * The interlock. The thread takes it for a turn at its start, after each sleep, and for what is
 * appended: that many times at most.
 */
static atomic_uint turns, appended;
static pthread_t main_thread;

static void take(void *of)
{
	EXPECT(pthread_mutex_lock(of) == 0);
}

static void give(void *of)
{
	EXPECT(pthread_mutex_unlock(of) == 0);
	if (!pthread_equal(pthread_self(), main_thread))
		EXPECT(atomic_fetch_add(&turns, 1) <
		    1 + atomic_load(&sleeps) + atomic_load(&appended));
}

static const struct kupaldiz_interlock interlock = {&keeper, take, give, &mutex};
static struct kupaldiz_entry row[8];
static struct kupaldiz_deferred list = {.interlock = &interlock, .cpu = &cpus[1],
    .entries = row, .room = 8, .freed = note, .of = &freed};

static void clear_counts(void)
{
	atomic_store(&turns, 0);
	atomic_store(&appended, 0);
	atomic_store(&sleeps, 0);
}

static void start(void)
{
	clear_counts();
	DONE(kupaldiz_reclaimer_start(&list));
}

/* Attaches an entry, refers to it passively on CPU 0, and detaches it to the list. */
static struct kupaldiz_passive put_held(void)
{
	struct kupaldiz_passive reference = {0};
	struct kupaldiz_entry gone;
	take(&mutex);
	atomic_fetch_add(&appended, 1);
	DONE(kupaldiz_attach(&keeper, &cpus[1], &wm, 7, NULL));
	DONE(kupaldiz_get(&cpus[0], KUPALDIZ_DRIVER, &wm, &reference));
	DONE(kupaldiz_detach(&keeper, &cpus[1], KUPALDIZ_DRIVER, &wm, &gone));
	DONE(kupaldiz_deferred_add(&list, &gone));
	give(&mutex);
	return reference;
}

static void release(struct kupaldiz_passive reference)
{
	DONE(kupaldiz_release(&cpus[0], &reference));
}

/* The length of the sleep that came after so many, which the thread begins sooner or later. */
static int64_t length_after(unsigned before)
{
	while (atomic_load(&sleeps) <= before)
		rest();
	return atomic_load(&lengths[before % KEPT]);
}

enum { FIRST = 16000, LONGEST = 1000000000 };

/*
 * After so many sleeps each is twice as long as the one before, up to the longest one, or up to
 * this length. How many sleeps have begun.
 */
static unsigned expect_longer(unsigned before, int64_t last)
{
	for (int64_t length = FIRST;; length = length < LONGEST / 2 ? 2 * length : LONGEST) {
		EXPECT(length_after(before++) == length);
		if (length >= last)
			return before;
	}
}

/*
 * While nothing waits, the thread's sleep has no end. It was in one more sleep at most. How many
 * sleeps have begun.
 */
static unsigned expect_endless(void)
{
	const unsigned before = atomic_load(&sleeps);
	unsigned begun;
	while ((begun = atomic_load(&sleeps)) == 0 ||
	    atomic_load(&lengths[(begun - 1) % KEPT]) != ENDLESS) {
		EXPECT(begun <= before + 1);
		rest();
	}
	return begun;
}

/*
 * While something is held, the thread sleeps longer each time, and briefly again once more comes.
 */
static void test_sleeps(void)
{
	start();
	unsigned before = expect_endless();
	const struct kupaldiz_passive first = put_held();
	before = expect_longer(before, LONGEST);
	const struct kupaldiz_passive second = put_held();
	const unsigned since = atomic_load(&sleeps);
	while (before < since && length_after(before) == LONGEST)
		before++;
	expect_longer(before, 8 * FIRST);
	release(first);
	release(second);
	DONE(kupaldiz_deferred_barrier(&list, NULL));
	unsigned last = expect_endless();
	DONE(kupaldiz_reclaimer_stop(&list));
	EXPECT(atomic_load(&sleeps) == last);
}

/*
 * The reclaimer frees what is free, and later what was held, without another call. It takes no
 * signal. What is held at its end stays in the list.
 */
static void test_reclaimer(void)
{
	sigset_t usr1, before, pending;
	atomic_store(&freed, 0);
	EXPECT(sigemptyset(&usr1) == 0 && sigaddset(&usr1, SIGUSR1) == 0);
	IS(EMPTY_HANDLE, kupaldiz_reclaimer_stop(&list));
	start();
	IS(FULL_HANDLE, kupaldiz_reclaimer_start(&list));
	EXPECT(pthread_sigmask(SIG_BLOCK, &usr1, &before) == 0);
	EXPECT(kill(getpid(), SIGUSR1) == 0);
	for (unsigned i = 1; i <= 20; i++) {
		release(put_held());
		wait_for_freed(i);
	}
	const struct kupaldiz_passive first = put_held(), second = put_held();
	release(second);
	wait_for_freed(21);
	EXPECT(atomic_load(&last_freed) == second.entry.number);
	for (unsigned i = 0; i < 500; i++)
		rest();
	release(first);
	wait_for_freed(22);
	const struct kupaldiz_passive third = put_held();
	DONE(kupaldiz_reclaimer_stop(&list));
	IS(EMPTY_HANDLE, kupaldiz_reclaimer_stop(&list));
	EXPECT(!pthread_equal(by, pthread_self()) && kupaldiz_deferred_count(&list) == 1);
	EXPECT(sigpending(&pending) == 0 && sigismember(&pending, SIGUSR1) == 1);
	release(third);
	DONE(kupaldiz_deferred_barrier(&list, NULL));
	EXPECT(atomic_load(&freed) == 23 && pthread_equal(by, pthread_self()));
	EXPECT(signal(SIGUSR1, SIG_IGN) != SIG_ERR);
	EXPECT(pthread_sigmask(SIG_SETMASK, &before, NULL) == 0);
}

/* What a section may use, and whether it is open. The call spoils it. */
static struct section {
	struct kupaldiz_call call;
	atomic_bool is_open;
	atomic_uint calls;
} section;

static void count_call(struct kupaldiz_call *call)
{
	EXPECT(call == &section.call && !atomic_load(&section.is_open));
	EXPECT(pthread_mutex_trylock(&mutex) != 0 && !pthread_equal(pthread_self(), main_thread));
	atomic_fetch_add(&section.calls, 1);
}

/* The reclaimer makes a call once the section that was open has ended, and wakes for it. */
static void test_calls(void)
{
	section.call.function = count_call;
	start();
	for (unsigned i = 0; i < 20; i++) {
		DONE(kupaldiz_enter(&cpus[0]));
		atomic_store(&section.is_open, true);
		take(&mutex);
		atomic_fetch_add(&appended, 1);
		DONE(kupaldiz_deferred_call(&list, &section.call));
		give(&mutex);
		rest();
		EXPECT(atomic_load(&section.calls) == i);
		atomic_store(&section.is_open, false);
		DONE(kupaldiz_exit(&cpus[0]));
		while (atomic_load(&section.calls) == i)
			rest();
	}
	expect_endless();
	DONE(kupaldiz_reclaimer_stop(&list));
}

/*
 * Each thing that a start takes is refused: nothing is started, and a later start does. A start and
 * a stop may follow each other at once.
 */
static void test_starts(void)
{
	for (fault = MALLOC; fault < FAULTS; fault++) {
		EXPECT(kupaldiz_reclaimer_start(&list) ==
		    (fault == THREAD ? KUPALDIZ_NO_THREAD : KUPALDIZ_NO_MEMORY));
		IS(EMPTY_HANDLE, kupaldiz_reclaimer_stop(&list));
	}
	fault = NOTHING;
	for (unsigned i = 0; i < 200; i++) {
		start();
		DONE(kupaldiz_reclaimer_stop(&list));
	}
}

int main(void)
{
	const struct kupaldiz_settings settings = {2, 8, 1000, 1000, 100, 100};
	pthread_mutexattr_t type;
	EXPECT(pthread_mutexattr_init(&type) == 0);
	EXPECT(pthread_mutexattr_settype(&type, PTHREAD_MUTEX_ERRORCHECK) == 0);
	EXPECT(pthread_mutex_init(&mutex, &type) == 0 && pthread_mutexattr_destroy(&type) == 0);
	main_thread = pthread_self();
	wm = name_of("wm");
	DONE(kupaldiz_open(&settings, &keeper, cpus, 2));
	test_reclaimer();
	test_sleeps();
	test_calls();
	test_starts();
	DONE(kupaldiz_close(&keeper, cpus, 2));
	EXPECT(pthread_mutex_destroy(&mutex) == 0);
	puts("reclaims end");
	return 0;
}
