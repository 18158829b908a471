/*
 * explorer.h - run a driver's threads in every order
 *
 * A test writes a function that prepares the driver and makes threads, and calls explorer_run with it. The threads call the driver, which includes
 * sys/ and net/ as with kupaldiz_netbsd(7). Each call of the layer, each atomic access and each barrier is a point: the explorer may go on with another
 * thread there. explorer_run runs the threads in one order after another, and stops at the first order in which something is wrong.
 *
 * A file that is compiled with -fsanitize=thread tells its plain accesses. Two to one memory are a data race, which is a fault, where one writes and nothing
 * orders them: a lock, a wait, an atomic with acquire and release, or a membar call beside relaxed atomics. No program is linked with -fsanitize=thread.
 *
 * Nothing of the layer is called outside of explorer_run. All threads run in one thread of the process, in a child of it. Before each run the writable
 * memory of the program gets the bytes that it had when explorer_run was called; what the program itself has allocated is left as it is.
 */
#ifndef KUPALDIZ_EXPLORER_H
#define KUPALDIZ_EXPLORER_H

#include <stdbool.h>
#include <stddef.h>
#include <stdint.h>

#include <kupaldiz/cpu.h>

__BEGIN_DECLS

enum {
	EXPLORER_THREADS = 16,	/* at most, with the first one, the layer's own and the clock */
	EXPLORER_POINTS = 2000,	/* of one run, at most */
	EXPLORER_OUTCOMES = 256,
	EXPLORER_FAILURES = 3,	/* of one run, at most */
	EXPLORER_TEXT = 64,
	EXPLORER_LINE = 768,
	EXPLORER_SCHEDULE = EXPLORER_POINTS + 16
};

/* How often the runs that were tried came to an outcome. */
struct explorer_outcome {
	char text[EXPLORER_TEXT];
	uint64_t count;
};

/* What explorer_run has found. */
struct explorer_found {
	uint64_t schedules;	/* runs that came to their end */
	uint64_t cut;		/* runs that were left: the rest of each is the same as one that was tried */
	uint64_t states;	/* points that were come to by a new way */
	uint64_t switches;	/* from one thread to another */
	uint64_t points;
	uint64_t throttled;	/* points at which a thread, after 200 without another one, didn't go on */
	uint64_t hurried;	/* points at which time didn't go on early, as it had as often as `ticks` allows */
	bool complete;		/* the search through all came to its end, except what these two count */
	bool exhausted;		/* and left nothing out: every schedule of the points was tried, or is the same as one that was */
	int bound;		/* every schedule with at most so many preemptions was tried; -1 where none */
	uint64_t random;	/* runs by random priorities */
	uint64_t failures;	/* calls that were let fail, and waits that were let end early, in turn */
	uint64_t first;		/* how many runs it took until the fault; 0 where none was found */
	unsigned preemptions;	/* of the schedule below */
	unsigned changes;	/* its switches from one thread to another */
	char schedule[EXPLORER_SCHEDULE];	/* with the fault, by as few switches as were found */
	char line[EXPLORER_LINE];	/* what is wrong; empty where nothing is */
	char failed[EXPLORER_LINE];	/* which call had failed, or which wait had ended early, before that; empty where none had */
	uint64_t others;	/* runs with an outcome beyond the room */
	unsigned outcomes;
	struct explorer_outcome outcome[EXPLORER_OUTCOMES];
};

/* How explorer_run goes about it. What is 0 has the value that is told here. */
struct explorer_options {
	const char *name;	/* for its lines; "explorer" */
	void (*finish)(void);	/* runs when all threads have ended; by its end, what was initialised must be destroyed, locks too */
	uint64_t schedules;	/* of the search through all: at most so many; 100,000 */
	uint64_t bounded;	/* then, for each number of preemptions from 0 on: at most so many; 20,000 */
	unsigned preemptions;	/* up to this number; 2 */
	uint64_t random;	/* then so many runs by random priorities; 10,000 */
	uint64_t seed;		/* of these; 1 */
	unsigned ticks;		/* how often in a run the clock may jump while a thread could go on; 1 */
	unsigned left;		/* blocks of memory that may be left at the end */
	unsigned failures;	/* how many calls may fail, and waits end early, in one run; 1 */
	bool reliable;		/* none does */
	bool strict;		/* begins each run with the stricter rules of kupaldiz_set_strict */
	bool whole;		/* without the reduction */
	bool racy;		/* a data race is no fault: each plain access is a point, and what a race decides is tried */
	bool goes_on;		/* a fault is an outcome, by its line, and the search goes on */
	bool quiet;		/* prints nothing; else the counts and the fault are printed on standard output */
	const char *replay;	/* a schedule: this one alone is run */
	const char *picture;	/* the name of a file that gets the picture of the fault */
	struct explorer_found *found;	/* gets what was found, unless NULL */
};

/*
 * explorer_run - run what `setup` prepares in one order after another
 *
 * `setup` runs in the first thread and makes the others by explorer_thread or kthread_create; they begin when it has returned. `options` may be NULL.
 * Returns 1 where a run went wrong, else 0, also where orders were left out: `exhausted` tells. The program goes on, so let main return this. Without a
 * thread, or with a schedule that doesn't fit, it ends the process with status 2 after one line on standard error.
 */
int explorer_run(void (*setup)(void), const struct explorer_options *options);

/* explorer_thread - a thread that runs `body(arg)`. Its name isn't copied. Only `setup` and threads make threads. */
void explorer_thread(const char *name, void (*body)(void *), void *arg);

/* explorer_point - a point of the test's own, which touches nothing. */
void explorer_point(void);

/* explorer_outcome - add a text to the outcome of this run, which has less than EXPLORER_TEXT bytes. */
void explorer_outcome(const char *format, ...) __attribute__((format(printf, 1, 2)));

/* explorer_fault - is called with the line of each fault, on the stack of the thread whose step is at fault: where a debugger stops. */
void explorer_fault(const char *line);

__END_DECLS
#endif
