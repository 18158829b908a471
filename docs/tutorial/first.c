/* first - a host of plug-ins: it attaches one, looks it up, uses it, and removes it */
#include <stdint.h>
#include <stdio.h>
#include <stdlib.h>
#include <string.h>

#include "kupaldiz.h"

struct plugin {
	const char *greeting;
};

static struct kupaldiz_keeper keeper;
static struct kupaldiz_cpu cpus[2];
static struct kupaldiz_name name;

static void check(const char *call, enum kupaldiz_result result)
{
	if (result == KUPALDIZ_DONE)
		return;
	fprintf(stderr, "%s: %s\n", call, kupaldiz_strerror(result));
	exit(1);
}

static void open_all(void)
{
	const struct kupaldiz_settings settings = KUPALDIZ_SETTINGS(2, 4);

	check("open", kupaldiz_open(&settings, &keeper, cpus, 2));
	check("name", kupaldiz_name_of_bytes("hello", strlen("hello"), &name));
}

static void use_plugin(struct kupaldiz_cpu *cpu)
{
	struct kupaldiz_passive reference = {0};

	check("get", kupaldiz_get(cpu, KUPALDIZ_ENTRY, &name, &reference));
	const struct plugin *plugin = reference.entry.pointer;
	puts(plugin->greeting);
	check("release", kupaldiz_release(cpu, &reference));
}

int main(void)
{
	struct plugin plugin = {"hello from a plug-in"};
	struct kupaldiz_entry gone;

	open_all();
	check("attach", kupaldiz_attach(&keeper, &cpus[0], &name, kupaldiz_value(&plugin), NULL));
	use_plugin(&cpus[1]);
	check("detach", kupaldiz_detach(&keeper, &cpus[0], KUPALDIZ_ENTRY, &name, &gone));
	check("destroy", kupaldiz_destroy(&keeper, gone.number, NULL));
	check("close", kupaldiz_close(&keeper, cpus, 2));
	return 0;
}
