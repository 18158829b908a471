/*
 * smallest - a whole program on one page: it opens a registry with two CPUs, attaches an entry,
 * gets a reference to it and releases it, takes the entry away and closes the registry
 */
#include <inttypes.h>
#include <stdio.h>
#include <stdlib.h>

#include "kupaldiz.h"

static void check(const char *call, enum kupaldiz_result result)
{
	if (result == KUPALDIZ_DONE)
		return;
	fprintf(stderr, "%s: %s\n", call, kupaldiz_strerror(result));
	exit(1);
}

int main(void)
{
	const struct kupaldiz_settings settings = KUPALDIZ_SETTINGS(2, 4);
	struct kupaldiz_keeper keeper = {0};
	struct kupaldiz_cpu cpus[2] = {0};	/* one for each thread: [1] makes the changes */
	struct kupaldiz_passive reference = {0};
	struct kupaldiz_entry gone;
	struct kupaldiz_name name;

	check("open", kupaldiz_open(&settings, &keeper, cpus, 2));
	check("name", kupaldiz_name_of_bytes("wm0", 3, &name));
	check("attach", kupaldiz_attach(&keeper, &cpus[1], &name, 1500, NULL));

	/* Until the release the thread may sleep, and use the memory that a value points to. */
	check("get", kupaldiz_get(&cpus[0], KUPALDIZ_ENTRY, &name, &reference));
	printf("wm0 has value %" PRIu64 "\n", reference.entry.value);
	check("release", kupaldiz_release(&cpus[0], &reference));

	/* Nothing holds the entry. Else the destroy is repeated while it is KUPALDIZ_STILL_HELD. */
	check("detach", kupaldiz_detach(&keeper, &cpus[1], KUPALDIZ_ENTRY, &name, &gone));
	check("destroy", kupaldiz_destroy(&keeper, gone.number, NULL));
	check("close", kupaldiz_close(&keeper, cpus, 2));
	return 0;
}
