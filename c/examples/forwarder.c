/*
 * forwarder [CHANGES] - packets are forwarded by three CPUs while a fourth lets their ports come
 * and go
 *
 * A port is an entry whose value points to memory of the heap: a buffer and a count of packets for
 * each CPU. A forwarder finds the port of each packet in a section, and writes there to what is its
 * CPU's, without a lock. A port that is detached goes to a list, and its memory is freed once no
 * section can use it. Each packet counts in its port: at the end the counts of all ports that were
 * freed are the packets that were forwarded.
 */
#include <inttypes.h>

#include "kupaldiz_waiting.h"
#include "workers.h"

enum { FORWARDERS = 3, CPUS = FORWARDERS + 1, PORTS = 6, SLOTS = PORTS + 3, PACKET_BYTES = 256 };
enum { USUAL_CHANGES = 4000, PACKETS_A_CHANGE = 24 };

/* What a port has for each CPU, and no other CPU writes. */
struct lane {
	uint64_t packets;
	unsigned char buffer[PACKET_BYTES];
};

struct port {
	struct lane lanes[FORWARDERS];
};

static struct kupaldiz_keeper keeper;
static struct kupaldiz_cpu cpus[CPUS];
static pthread_mutex_t mutex = PTHREAD_MUTEX_INITIALIZER;
static struct kupaldiz_name names[PORTS];

/* Frees a port that nobody uses any more, and adds its packets up. The list calls it. */
static void free_port(void *of, const struct kupaldiz_entry *gone)
{
	uint64_t *sum = of;
	struct port *port = gone->pointer;
	for (unsigned i = 0; i < FORWARDERS; i++)
		*sum += port->lanes[i].packets;
	memset(port, 0xdb, sizeof *port);
	free(port);
}

/* Forwards a packet by the port of that name, if there is one. */
static enum kupaldiz_result forward(struct worker *self, const struct kupaldiz_name *name)
{
	struct kupaldiz_cpu *cpu = &cpus[self->id];
	struct kupaldiz_entry found;

	enum kupaldiz_result result = kupaldiz_enter_find(cpu, KUPALDIZ_ENTRY, name, &found);
	if (result != KUPALDIZ_DONE)
		return result;
	struct port *port = found.pointer;
	struct lane *lane = &port->lanes[self->id];
	memset(lane->buffer, (int)(self->tally.done & 0xff), PACKET_BYTES);
	lane->packets++;
	return kupaldiz_exit(cpu);
}

static void *forward_all(void *arg)
{
	struct worker *self = arg;
	for (unsigned i = self->id; !is_over(); i++) {
		enum kupaldiz_result result = forward(self, &names[i % PORTS]);
		if (result == KUPALDIZ_DONE) {
			count_done(self);
			continue;
		}
		expect("a port is there or not", result == KUPALDIZ_NOT_FOUND);
		self->tally.missed++;
	}
	return NULL;
}

/* Attaches a port. That no slot is vacant, since detached ports are in use, is no change. */
static bool put_in(const struct kupaldiz_name *name, struct kupaldiz_deferred *detached)
{
	struct kupaldiz_cpu *cpu = &cpus[FORWARDERS];
	struct port *port = calloc(1, sizeof *port);
	expect("there is memory", port != NULL);
	const uint64_t value = kupaldiz_value(port);
	pthread_mutex_lock(&mutex);
	check("free", kupaldiz_deferred_free(detached, NULL));
	enum kupaldiz_result result = kupaldiz_attach(&keeper, cpu, name, value, NULL);
	pthread_mutex_unlock(&mutex);
	if (result == KUPALDIZ_DONE)
		return true;
	expect("only a slot is missing", result == KUPALDIZ_NO_SLOT);
	free(port);
	return false;
}

static void take_out(const struct kupaldiz_name *name, struct kupaldiz_deferred *detached)
{
	struct kupaldiz_cpu *cpu = &cpus[FORWARDERS];
	struct kupaldiz_entry gone;
	pthread_mutex_lock(&mutex);
	check("detach", kupaldiz_detach(&keeper, cpu, KUPALDIZ_ENTRY, name, &gone));
	check("add", kupaldiz_deferred_add(detached, &gone));
	pthread_mutex_unlock(&mutex);
}

/* Lets ports come and go so often, with some packets between two changes, and takes all out. */
static void change_all(struct kupaldiz_deferred *detached, uint64_t changes)
{
	bool is_live[PORTS] = {false};
	unsigned live = 0;
	for (unsigned i = 0; changes > 0; i++) {
		unsigned which = (i * 5 + i / PORTS) % PORTS;
		if (is_live[which])
			take_out(&names[which], detached);
		if (is_live[which] || put_in(&names[which], detached)) {
			live = is_live[which] ? live - 1 : live + 1;
			is_live[which] = !is_live[which];
			changes--;
		}
		if (live > 0)
			wait_for_done(PACKETS_A_CHANGE);
	}
	for (unsigned which = 0; which < PORTS; which++)
		if (is_live[which])
			take_out(&names[which], detached);
}

int main(int argc, char **argv)
{
	const uint64_t changes = argc == 2 ? strtoull(argv[1], NULL, 10) : USUAL_CHANGES;
	const struct kupaldiz_settings settings = KUPALDIZ_SETTINGS(CPUS, SLOTS);
	const struct kupaldiz_interlock interlock = kupaldiz_interlock_of_mutex(&keeper, &mutex);
	static struct worker forwarders[FORWARDERS];
	uint64_t in_ports = 0;
	struct kupaldiz_entry row[SLOTS];
	struct kupaldiz_deferred detached = {.interlock = &interlock, .entries = row,
	    .room = SLOTS, .freed = free_port, .of = &in_ports};

	for (unsigned i = 0; i < PORTS; i++) {
		const char text[] = {'p', (char)('0' + i), 0};
		names[i] = name_of(text);
	}
	check("open", kupaldiz_open(&settings, &keeper, cpus, CPUS));
	start_workers(forwarders, FORWARDERS, forward_all);
	change_all(&detached, changes);
	const struct tally packets = end_workers(forwarders, FORWARDERS);
	check("barrier", kupaldiz_deferred_barrier(&detached, NULL));
	expect("each packet is counted in a port that was freed", packets.done == in_ports);
	check("close", kupaldiz_close(&keeper, cpus, CPUS));
	printf("packets %" PRIu64 "\nno port %" PRIu64 "\n", packets.done, packets.missed);
	printf("changes %" PRIu64 "\n", changes);
	return 0;
}
