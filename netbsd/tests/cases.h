/*
 * cases.h - a test's table of cases: what each does, and the line on standard error that it ends with
 *
 * ENDS(line, ..) is a case whose process ends by abort(3) after its line, STOPS(line, ..) one whose line has the call's place at its end, and WAITS(line, ..)
 * one that ends well. What is a place there, FILE:NUMBER, is PLACE in the line. start_thread and end_thread are declared before this file is included: those of test.h, or those of the explorer.
 */
#ifndef NETBSD_CASES_H
#define NETBSD_CASES_H

#include "../../c/examples/expect.h"
#include "bodies.h"
#include "child.h"

struct stop_case {
	void (*body)(void);
	const char *line;
	bool goes_on;
};

enum { MOST_CASES = 300 };

static struct stop_case cases[MOST_CASES];
static unsigned case_count;

static inline void add_case(void (*body)(void), const char *line, bool goes_on)
{
	EXPECT(case_count < MOST_CASES);
	cases[case_count++] = (struct stop_case){body, line, goes_on};
}

#define JOINED(a, b)		a##b
#define NAMED(a, b)		JOINED(a, b)
#define CASE(line, goes_on, ...) \
	static void NAMED(body_, __LINE__)(void) { __VA_ARGS__; } \
	__attribute__((constructor)) static void NAMED(add_, __LINE__)(void) { add_case(NAMED(body_, __LINE__), line, goes_on); }
#define ENDS(line, ...)		CASE(line, false, __VA_ARGS__)
#define STOPS(line, ...)	ENDS(line ", at PLACE", __VA_ARGS__)
#define WAITS(line, ...)	CASE(line, true, __VA_ARGS__)

static inline void on_thread(void *(*body)(void *))
{
	pthread_t thread;
	start_thread(&thread, body, NULL);
	end_thread(thread);
}

/* Whether a case ends rightly. Whoever includes this file to run cases defines it. */
bool is_right(void (*begin)(void), const struct stop_case *the_case);

static unsigned passed, failed;

static inline void judge_case(void (*begin)(void), const struct stop_case *the_case)
{
	bool right = is_right(begin, the_case);
	passed += right;
	failed += !right;
}

/* Runs all cases, and prints how many passed, with those that were judged before. The program's status. */
static inline int run_cases(void (*begin)(void))
{
	for (unsigned place = 0; place < case_count; place++)
		judge_case(begin, &cases[place]);
	printf("%u passed, %u failed\n", passed, failed);
	return failed != 0 || passed == 0;
}

#endif
