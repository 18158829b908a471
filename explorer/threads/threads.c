/*
 * threads.c - explorer.h on real threads, to compare the explorer with: the same tests, linked with this and with netbsd
 *
 * Each run has a process of its own, in which all threads begin at once. A run is wrong where its process ends by a signal or with another status than 0,
 * or takes more than EXPLORER_SECONDS. At each point stands a full barrier, and with EXPLORER_YIELD a chance to lose the processor: the explorer's orders are those
 * of one memory that all threads see alike.
 *
 * EXPLORER_RUNS says how many runs there are, and EXPLORER_SECONDS how long they may take, each and together: a minute without it.
 */
#include <pthread.h>
#include <sched.h>
#include <signal.h>
#include <stdarg.h>
#include <stdio.h>
#include <stdlib.h>
#include <string.h>
#include <sys/mman.h>
#include <sys/wait.h>
#include <time.h>
#include <unistd.h>

#include <kupaldiz/kernel.h>

#include "../explorer.h"

/* The explorer's name of the build: the files of the tests refer to it. */
const char KUPALDIZ_BUILT_FOR(KUPALDIZ_CPUS) = 0;

/* A thread that was made. */
struct made {
	void (*body)(void *);
	void *arg;
	pthread_t thread;
};

static struct made threads[EXPLORER_THREADS];
static unsigned thread_count;
static pthread_barrier_t begin;
static bool yields;
static unsigned seconds;
static char *outcome;	/* that of the run: the parent has it, too */

void explorer_thread(const char *name, void (*body)(void *), void *arg)
{
	(void)name;
	threads[thread_count++] = (struct made){.body = body, .arg = arg};
}

/* A number that differs from thread to thread. */
static unsigned random_number(void)
{
	static _Thread_local uint64_t at;
	if (at == 0)
		at = (uint64_t)(uintptr_t)&at ^ (uint64_t)getpid() << 32;
	at = at * 6364136223846793005u + 1442695040888963407u;
	return (unsigned)(at >> 40);
}

void explorer_point(void)
{
	__atomic_thread_fence(__ATOMIC_SEQ_CST);
	if (yields && random_number() % 3 == 0)
		sched_yield();
}

void kupaldiz_point(const volatile void *address, size_t size, unsigned how, const char *place)
{
	(void)address;
	(void)size;
	(void)how;
	(void)place;
	explorer_point();
}

void kupaldiz_from(const char *place)
{
	(void)place;
}

void kupaldiz_unseen(const char *file)
{
	(void)file;
}

void explorer_outcome(const char *format, ...)
{
	size_t length = strlen(outcome);
	va_list words;
	va_start(words, format);
	vsnprintf(outcome + length, EXPLORER_TEXT - length, format, words);
	va_end(words);
}

static void *run_thread(void *of)
{
	const struct made *made = of;
	pthread_barrier_wait(&begin);
	made->body(made->arg);
	return NULL;
}

/* What a run does in its process. */
static void run(void (*setup)(void), const struct explorer_options *options)
{
	alarm(seconds);
	kupaldiz_set_strict(options->strict);
	setup();
	pthread_barrier_init(&begin, NULL, thread_count);
	for (unsigned at = 0; at < thread_count; at++)
		if (pthread_create(&threads[at].thread, NULL, run_thread, &threads[at]) != 0)
			_exit(3);
	for (unsigned at = 0; at < thread_count; at++)
		pthread_join(threads[at].thread, NULL);
	if (options->finish != NULL)
		options->finish();
	_exit(0);
}

static void keep_outcome(struct explorer_found *found)
{
	struct explorer_outcome *at = found->outcome;
	while (at < &found->outcome[found->outcomes] && strcmp(at->text, outcome) != 0)
		at++;
	if (at == &found->outcome[EXPLORER_OUTCOMES])
		return;
	found->outcomes += at == &found->outcome[found->outcomes];
	memcpy(at->text, outcome, EXPLORER_TEXT);
	at->count++;
}

/* One run. Whether it was right. */
static bool run_once(void (*setup)(void), const struct explorer_options *options)
{
	struct explorer_found *found = options->found;
	int status;
	memset(outcome, 0, EXPLORER_TEXT);
	fflush(NULL);
	pid_t child = fork();
	if (child == 0) {
		if (freopen("/dev/null", "w", stderr) != NULL)
			run(setup, options);
		_exit(3);
	}
	if (child < 0 || waitpid(child, &status, 0) != child)
		abort();
	found->schedules++;
	if (status == 0) {
		keep_outcome(found);
		return true;
	}
	snprintf(found->line, sizeof(found->line), "status %d", status);
	return false;
}

static uint64_t number_of(const char *variable, uint64_t otherwise)
{
	const char *text = getenv(variable);
	return text == NULL ? otherwise : strtoull(text, NULL, 10);
}

int explorer_run(void (*setup)(void), const struct explorer_options *options)
{
	struct explorer_found *found = options->found;
	uint64_t runs = number_of("EXPLORER_RUNS", 200);
	seconds = (unsigned)number_of("EXPLORER_SECONDS", 60);
	time_t until = time(NULL) + (time_t)seconds;
	outcome = mmap(NULL, EXPLORER_TEXT, PROT_READ | PROT_WRITE, MAP_SHARED | MAP_ANONYMOUS, -1, 0);
	yields = getenv("EXPLORER_YIELD") != NULL;
	*found = (struct explorer_found){.bound = -1, .complete = true};
	while (found->schedules < runs && time(NULL) < until && found->first == 0)
		if (!run_once(setup, options))
			found->first = found->schedules;
	if (!options->quiet)
		printf("%s: %llu runs%s%s\n", options->name, (unsigned long long)found->schedules, found->first == 0 ? ", none was wrong" : ": FAULT: ", found->line);
	munmap(outcome, EXPLORER_TEXT);
	return found->first != 0;
}
