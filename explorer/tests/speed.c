/*
 * speed - how many switches and points the explorer makes in a second of a processor
 *
 * That differs from machine to machine, and where one is busy. So only this must be so: a switch
 * from thread to thread is none of the kernel's, which would take it twenty times as long.
 */
#include <sys/atomic.h>
#include <sys/resource.h>

#include "../explorer.h"
#include "../../c/examples/expect.h"

static unsigned words[2];

static void change(void *arg)
{
	(void)arg;
	for (unsigned at = 0; at < 8; at++)
		atomic_inc_uint(&words[at % 2]);
}

static void begin(void) { explorer_thread("one", change, NULL); explorer_thread("two", change, NULL); }

static double seconds(const struct rusage *usage)
{
	return (double)(usage->ru_utime.tv_sec + usage->ru_stime.tv_sec) + (double)(usage->ru_utime.tv_usec + usage->ru_stime.tv_usec) / 1e6;
}

/* What the child took in which the explorer searches. */
int main(void)
{
	struct rusage usage;
	struct explorer_found found;
	const struct explorer_options options = {.quiet = true, .whole = true, .schedules = 100000, .found = &found};
	EXPECT(explorer_run(begin, &options) == 0 && found.exhausted);
	EXPECT(getrusage(RUSAGE_CHILDREN, &usage) == 0);
	double took = seconds(&usage);
	printf("%.0f switches and %.0f points a second of a processor, in %llu runs\n", (double)found.switches / took, (double)found.points / took,
	    (unsigned long long)found.schedules);
	EXPECT((uint64_t)usage.ru_nvcsw < found.switches / 100);
	return 0;
}
