/*
 * times - ticks, delays, pauses and waits last as long as they say by the system's clock, and ask the system for no longer. A second may begin meanwhile, and
 * signals come.
 *
 * The linker leads here what reads the clock and what sleeps (--wrap): so how long a call means to last is seen, however late a busy machine lets it go on.
 */
#include <signal.h>

#include <sys/param.h>

#include "test.h"
#include "things.h"

#define TICK	INT64_C(10000000)
#define WRAP(type, name, ...)	type __real_##name(__VA_ARGS__); type __wrap_##name(__VA_ARGS__)

WRAP(int, clock_gettime, clockid_t clock, struct timespec *time);
WRAP(int, nanosleep, const struct timespec *length, struct timespec *left);
WRAP(int, pthread_cond_timedwait, pthread_cond_t *cond, pthread_mutex_t *mutex, const struct timespec *until);

/* Of a thread since it forgot: its first reading of the clock, the last one and the one before that, how many there were; how long it asked to sleep at first. */
static _Thread_local int64_t first_time, time_before, last_time, asked;
static _Thread_local unsigned readings;
/* How long it asked to sleep the last time. */
static _Thread_local int64_t asked_last;

static int64_t in_nanoseconds(const struct timespec *time) { return (int64_t)time->tv_sec * 1000000000 + time->tv_nsec; }

int __wrap_clock_gettime(clockid_t clock, struct timespec *time)
{
	int answer = __real_clock_gettime(clock, time);
	time_before = last_time;
	last_time = in_nanoseconds(time);
	if (readings++ == 0)
		first_time = last_time;
	return answer;
}

static void note_asked(int64_t length)
{
	EXPECT(asked == 0 || length <= asked_last);
	asked_last = length;
	if (asked == 0)
		asked = length;
}

int __wrap_nanosleep(const struct timespec *length, struct timespec *left)
{
	note_asked(in_nanoseconds(length));
	return __real_nanosleep(length, left);
}

int __wrap_pthread_cond_timedwait(pthread_cond_t *cond, pthread_mutex_t *mutex, const struct timespec *until)
{
	if (asked == 0)
		note_asked(in_nanoseconds(until) - last_time);
	return __real_pthread_cond_timedwait(cond, mutex, until);
}

static int64_t now(void)
{
	struct timespec time;
	EXPECT(clock_gettime(CLOCK_MONOTONIC, &time) == 0);
	return in_nanoseconds(&time);
}

/* Begins to look at what a call asks for. The time now. */
static int64_t forget(void)
{
	readings = 0;
	asked = 0;
	return now();
}

/* Since then the call slept as long as it says, and asked for that. */
static void require_gone(int64_t from, int64_t nanoseconds)
{
	EXPECT(now() - from >= nanoseconds && asked == nanoseconds);
}

static void test_ticks(void)
{
	int64_t before = now() / TICK;
	unsigned ticks = (unsigned)getticks();
	int64_t after = now() / TICK;
	EXPECT(ticks - (unsigned)before <= (unsigned)(after - before));
	int64_t earliest = now() / 1000000000, seconds = getuptime();
	EXPECT(seconds >= earliest && seconds <= now() / 1000000000);
}

/* It doesn't sleep, and ends once it reads that its time is over. */
static void test_delays(void)
{
	static const unsigned microseconds[] = {1, 1000, 30000};
	for (unsigned at = 0; at < sizeof(microseconds) / sizeof(microseconds[0]); at++) {
		const int64_t length = microseconds[at] * INT64_C(1000);
		readings = 0;
		asked = 0;
		delay(microseconds[at]);
		EXPECT(last_time - first_time >= length && time_before - first_time < length && asked == 0);
	}
}

static int wait_for_cv(int ticks) { return cv_timedwait(&cv, &lock, ticks); }
static int pause_for(int ticks) { return kpause("times", false, ticks, &lock); }
static int sleep_on_lock(int ticks) { return mtsleep(&lock, PZERO, "times", ticks, &lock); }

static void test_wait(int (*wait)(int ticks), int ticks)
{
	int64_t from = forget();
	mutex_enter(&lock);
	EXPECT(wait(ticks) == EWOULDBLOCK && mutex_owned(&lock));
	mutex_exit(&lock);
	require_gone(from, ticks * TICK);
}

/* Of two that last longer than a second together one begins in one second and ends in the next. */
static void test_waits(void)
{
	test_wait(wait_for_cv, 1);
	test_wait(wait_for_cv, 60);
	test_wait(wait_for_cv, 60);
	test_wait(pause_for, 1);
	test_wait(pause_for, 101);
	test_wait(sleep_on_lock, 1);
}

static void catch(int signal) { EXPECT(signal == SIGUSR1); }
static atomic_bool begun, over;
static bool was_free;	/* under the lock */

/* Nobody has the lock in a pause: another thread takes it then. */
static void *pause_long(void *arg)
{
	mutex_enter(&lock);
	atomic_store(&begun, true);
	while (!was_free) {
		int64_t from = forget();
		EXPECT(kpause("times", true, 100, &lock) == EWOULDBLOCK);
		require_gone(from, 100 * TICK);
	}
	mutex_exit(&lock);
	atomic_store(&over, true);
	return arg;
}

/* A pause that signals end too early goes on with what is left: it ends though they go on coming. */
static void test_signals(void)
{
	const struct sigaction action = {.sa_handler = catch};
	pthread_t thread;
	EXPECT(sigaction(SIGUSR1, &action, NULL) == 0);
	start_thread(&thread, pause_long, NULL);
	await_flag(&begun);
	mutex_enter(&lock);
	was_free = true;
	mutex_exit(&lock);
	while (!atomic_load(&over)) {
		(void)forget();
		sleep_for(20000);
		(void)pthread_kill(thread, SIGUSR1);
	}
	end_thread(thread);
}

/* A test may let time go in shorter ticks. */
static void test_short_ticks(void)
{
	kupaldiz_set_hz(1000);
	EXPECT(hz == 1000 && mstohz(5) == 5 && hztoms(7) == 7);
	int64_t from = forget();
	EXPECT(kpause("times", false, 7, NULL) == EWOULDBLOCK);
	require_gone(from, 7000000);
	unsigned before = (unsigned)(now() / 1000000), ticks = (unsigned)getticks(), after = (unsigned)(now() / 1000000);
	EXPECT(ticks - before <= after - before);
}

int main(void)
{
	make_things(IPL_NONE);
	test_ticks();
	test_delays();
	test_waits();
	test_signals();
	test_short_ticks();
	end_things();
	puts("ticks, delays, pauses and waits lasted as long as they say");
	return 0;
}
