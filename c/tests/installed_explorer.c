/*
 * installed_explorer - a program over the installed explorer, in C and in C++: two threads count
 * under a lock, in every order.
 */
#include <kupaldiz/explorer.h>
#include <sys/mutex.h>

#include <stdio.h>
#include <string.h>

#ifdef __cplusplus
#define LANGUAGE "C++"
#else
#define LANGUAGE "C"
#endif

static kmutex_t lock;
static unsigned counted;

static void count(void *arg)
{
	(void)arg;
	mutex_enter(&lock);
	counted++;
	mutex_exit(&lock);
}

static void begin(void)
{
	mutex_init(&lock, MUTEX_DEFAULT, IPL_NONE);
	explorer_thread("one", count, NULL);
	explorer_thread("two", count, NULL);
}

static void finish(void)
{
	explorer_outcome("%u", counted);
	mutex_destroy(&lock);
}

int main(void)
{
	static struct explorer_found found;
	static struct explorer_options options;
	options.finish = finish;
	options.found = &found;
	options.quiet = true;
	if (explorer_run(begin, &options) != 0 || !found.exhausted || found.schedules != 2 ||
	    found.outcomes != 1 || strcmp(found.outcome[0].text, "2") != 0)
		return 1;
	puts(LANGUAGE ", in every order");
	return 0;
}
