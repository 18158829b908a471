/*
 * walk - all entries in one section: none of them is freed until its end, so the memory behind
 * their values may be used
 */
#include <inttypes.h>

#include "example.h"

enum { SLOTS = 4 };

struct port {
	uint64_t mtu;
};

/* Prints all entries, the newest first. */
static void print_all(struct kupaldiz_cpu *cpu)
{
	struct kupaldiz_entry row[SLOTS];
	size_t count;

	check("enter", kupaldiz_enter(cpu));
	check("walk", kupaldiz_walk(cpu, row, SLOTS, &count));
	for (size_t i = 0; i < count; i++) {
		const struct port *port = row[i].pointer;
		char name[KUPALDIZ_NAME_ROOM];
		check("format", kupaldiz_name_format(&row[i].name, name, sizeof name));
		printf("%s has MTU %" PRIu64 "\n", name, port->mtu);
	}
	check("exit", kupaldiz_exit(cpu));
}

int main(void)
{
	const struct kupaldiz_settings settings = KUPALDIZ_SETTINGS(2, SLOTS);
	struct kupaldiz_keeper keeper = {0};
	struct kupaldiz_cpu cpus[2] = {0};
	const struct kupaldiz_name wm0 = name_of("wm0"), lo0 = name_of("lo0");
	struct port wide = {1500}, own = {33624};

	check("open", kupaldiz_open(&settings, &keeper, cpus, 2));
	check("attach", kupaldiz_attach(&keeper, &cpus[1], &wm0, kupaldiz_value(&wide), NULL));
	check("attach", kupaldiz_attach(&keeper, &cpus[1], &lo0, kupaldiz_value(&own), NULL));
	print_all(&cpus[0]);
	check("close", kupaldiz_close(&keeper, cpus, 2));
	return 0;
}
