/* threads - the same host: a thread uses the plug-in while another one removes it, and waits */
#include <pthread.h>
#include <sched.h>
#include <stdatomic.h>
#include <stdbool.h>
#include <stdint.h>
#include <stdio.h>
#include <stdlib.h>
#include <string.h>
#include <time.h>

#include "kupaldiz.h"
#include "kupaldiz_waiting.h"

struct plugin {
	atomic_ulong uses;
};

static struct kupaldiz_keeper keeper;
static struct kupaldiz_cpu cpus[2];
static struct kupaldiz_name name;
static pthread_mutex_t mutex = PTHREAD_MUTEX_INITIALIZER;

static void check(const char *call, enum kupaldiz_result result)
{
	if (result == KUPALDIZ_DONE)
		return;
	fprintf(stderr, "%s: %s\n", call, kupaldiz_strerror(result));
	exit(1);
}

static void open_all(void)
{
	const struct kupaldiz_settings settings = KUPALDIZ_SETTINGS(2, 4);

	check("open", kupaldiz_open(&settings, &keeper, cpus, 2));
	check("name", kupaldiz_name_of_bytes("hello", strlen("hello"), &name));
}

/* Returns false once the plug-in isn't found any more. */
static bool use_plugin(struct kupaldiz_cpu *cpu)
{
	struct kupaldiz_passive reference = {0};
	enum kupaldiz_result result = kupaldiz_get(cpu, KUPALDIZ_ENTRY, &name, &reference);

	if (result == KUPALDIZ_NOT_FOUND)
		return false;
	check("get", result);
	struct plugin *plugin = reference.entry.pointer;
	atomic_fetch_add(&plugin->uses, 1);
	check("release", kupaldiz_release(cpu, &reference));
	return true;
}

static void *work(void *cpu)
{
	while (use_plugin(cpu))
		;
	return NULL;
}

/* Says what still holds the entry with this number. */
static void print_holder(uint64_t number, const struct kupaldiz_met *met)
{
	if (met->stage == KUPALDIZ_PASSIVE)
		fprintf(stderr, "still held: CPU %d has a passive reference\n", (int)met->what);
#ifdef KUPALDIZ_CHECK
	kupaldiz_holders(stderr, number);
#endif
	(void)number;
}

/* Removes the plug-in, and returns its memory once nobody uses it. */
static struct plugin *remove_plugin(struct kupaldiz_cpu *cpu)
{
	struct kupaldiz_interlock interlock = kupaldiz_interlock_of_mutex(&keeper, &mutex);
	struct kupaldiz_entry gone;
	struct kupaldiz_met met;
	struct timespec deadline;

	pthread_mutex_lock(&mutex);
	check("detach", kupaldiz_detach(&keeper, cpu, KUPALDIZ_ENTRY, &name, &gone));
	pthread_mutex_unlock(&mutex);
	clock_gettime(CLOCK_MONOTONIC, &deadline);
	deadline.tv_sec += 5;
	enum kupaldiz_result result =
	    kupaldiz_destroy_wait(&interlock, cpu, gone.number, &deadline, &met);
	if (result == KUPALDIZ_STILL_HELD)
		print_holder(gone.number, &met);
	check("destroy", result);
	return gone.pointer;
}

int main(void)
{
	struct plugin *plugin = calloc(1, sizeof(*plugin));
	pthread_t worker;

	open_all();
	check("attach", kupaldiz_attach(&keeper, &cpus[0], &name, kupaldiz_value(plugin), NULL));
	pthread_create(&worker, NULL, work, &cpus[1]);
	while (atomic_load(&plugin->uses) < 2000)
		sched_yield();
	free(remove_plugin(&cpus[0]));
	puts("removed, and its memory is freed");
	pthread_join(worker, NULL);
	check("close", kupaldiz_close(&keeper, cpus, 2));
	return 0;
}
