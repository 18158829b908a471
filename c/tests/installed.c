/*
 * installed - a program over the installed library alone, in C and in C++: an entry is attached,
 * found, replaced, detached and waited for
 */
#include <kupaldiz.h>
#include <kupaldiz_waiting.h>

#include <stdio.h>
#include <stdlib.h>
#include <string.h>

#ifdef __cplusplus
#define LANGUAGE "C++"
#else
#define LANGUAGE "C"
#endif

static void check(const char *call, bool is_right)
{
	if (is_right)
		return;
	fprintf(stderr, "not so: %s\n", call);
	exit(1);
}

#define EXPECT(condition)	check(#condition, condition)
#define DONE(call)		EXPECT((call) == KUPALDIZ_DONE)

/* An entry is found and held in each way. */
static void refer(const struct kupaldiz_interlock *interlock, struct kupaldiz_cpu *cpu,
    const struct kupaldiz_name *name)
{
	static struct kupaldiz_passive passive, copy;
	static struct kupaldiz_local local;
	struct kupaldiz_entry entry;
	DONE(kupaldiz_enter_find(cpu, KUPALDIZ_ENTRY, name, &entry));
	DONE(kupaldiz_acquire(cpu, &entry, &passive));
	DONE(kupaldiz_acquire_local(cpu, &entry, &local));
	DONE(kupaldiz_exit(cpu));
	DONE(kupaldiz_copy(cpu, &passive, &copy));
	EXPECT(copy.entry.value == 7 && local.entry.number == entry.number);
	DONE(kupaldiz_release(cpu, &passive));
	DONE(kupaldiz_release(cpu, &copy));
	DONE(kupaldiz_release_local(interlock, cpu, &local));
}

int main(void)
{
	const struct kupaldiz_settings settings = {1, 4, 100, 100, 10, 10};
	struct kupaldiz_keeper keeper = {0};
	struct kupaldiz_cpu cpu = {0};
	struct kupaldiz_name wm;
	struct kupaldiz_entry gone;
	struct kupaldiz_limits limits;
	char again[KUPALDIZ_NAME_ROOM];
	pthread_mutex_t mutex = PTHREAD_MUTEX_INITIALIZER;
	struct kupaldiz_interlock interlock = kupaldiz_interlock_of_mutex(&keeper, &mutex);
	DONE(kupaldiz_name_of_bytes("wm", 2, &wm));
	DONE(kupaldiz_name_format(&wm, again, sizeof again));
	DONE(kupaldiz_open(&settings, &keeper, &cpu, 1));
	DONE(kupaldiz_attach(&keeper, &cpu, &wm, 7, NULL));
	refer(&interlock, &cpu, &wm);
	DONE(kupaldiz_replace(&keeper, &cpu, &wm, kupaldiz_value(again), &gone, NULL));
	DONE(kupaldiz_destroy_wait(&interlock, &cpu, gone.number, NULL, NULL));
	DONE(kupaldiz_detach(&keeper, &cpu, KUPALDIZ_ENTRY, &wm, &gone));
	EXPECT(gone.pointer == again);
	DONE(kupaldiz_perform_wait(&interlock, &cpu, NULL, NULL));
	DONE(kupaldiz_destroy_wait(&interlock, &cpu, gone.number, NULL, NULL));
	DONE(kupaldiz_close(&keeper, &cpu, 1));
	kupaldiz_limits(&limits);
	EXPECT(strcmp(again, "wm") == 0 && strcmp(kupaldiz_strerror(KUPALDIZ_DONE), "done") == 0);
	EXPECT(limits.cpus == KUPALDIZ_MOST_CPUS && limits.slots == KUPALDIZ_MOST_SLOTS);
	printf("%s, version %s\n", LANGUAGE, kupaldiz_version());
	return 0;
}
