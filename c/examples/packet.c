/*
 * packet - three CPUs send packets by an interface until a fourth takes it out
 *
 * A sender looks the interface up for each packet and keeps it while it sends, which may sleep. The
 * fourth CPU detaches the interface and waits until nobody holds it: from then on nobody sends by
 * it, though no sender took a lock. The interface is on a driver, which it keeps until it is freed.
 */
#include <sched.h>
#include <stdatomic.h>

#include "example.h"

enum { SENDERS = 3, CPUS = SENDERS + 1 };

static struct kupaldiz_keeper keeper;
static struct kupaldiz_cpu cpus[CPUS];
static pthread_mutex_t interlock = PTHREAD_MUTEX_INITIALIZER;
static struct kupaldiz_name wm, wm0;
static atomic_uint sent;
static atomic_bool gone;

/* Sends a packet by the interface, whose value is its MTU. */
static void send_packet(const struct kupaldiz_entry *iface)
{
	expect("the interface is there", !atomic_load(&gone) && iface->value == 1500);
	rest();
	expect("the interface is there still", !atomic_load(&gone));
	atomic_fetch_add(&sent, 1);
}

/* Looks the interface up in a section, and keeps it beyond the section while it sends. */
static enum kupaldiz_result send_by(struct kupaldiz_cpu *cpu, const struct kupaldiz_name *name)
{
	struct kupaldiz_passive reference = {0};
	struct kupaldiz_entry found;

	enum kupaldiz_result result = kupaldiz_enter_find(cpu, KUPALDIZ_INTERFACE, name, &found);
	if (result != KUPALDIZ_DONE)
		return result;
	check("acquire", kupaldiz_acquire(cpu, &found, &reference));
	check("exit", kupaldiz_exit(cpu));
	send_packet(&reference.entry);	/* may sleep */
	return kupaldiz_release(cpu, &reference);
}

/* The same, with one call for the first three. */
static enum kupaldiz_result send_at_once(struct kupaldiz_cpu *cpu, const struct kupaldiz_name *name)
{
	struct kupaldiz_passive reference = {0};

	enum kupaldiz_result result = kupaldiz_get(cpu, KUPALDIZ_INTERFACE, name, &reference);
	if (result != KUPALDIZ_DONE)
		return result;
	send_packet(&reference.entry);	/* may sleep */
	return kupaldiz_release(cpu, &reference);
}

static bool is_past(const struct timespec *deadline)
{
	struct timespec now;

	clock_gettime(CLOCK_MONOTONIC, &now);
	return now.tv_sec > deadline->tv_sec ||
	    (now.tv_sec == deadline->tv_sec && now.tv_nsec >= deadline->tv_nsec);
}

/*
 * Waits until nobody holds an interface that was taken out, or until the deadline: `met` then says
 * who does. kupaldiz_destroy_wait of kupaldiz_waiting.h is such a wait.
 */
static enum kupaldiz_result destroy_by(const struct timespec *deadline, uint64_t number,
    struct kupaldiz_met *met)
{
	enum kupaldiz_result result;

	do {
		sched_yield();
		pthread_mutex_lock(&interlock);
		result = kupaldiz_destroy(&keeper, number, met);
		pthread_mutex_unlock(&interlock);
	} while (result == KUPALDIZ_STILL_HELD && !is_past(deadline));
	return result;
}

/* Takes an interface out, and says each second who holds it still. */
static void take_out(struct kupaldiz_cpu *cpu, const struct kupaldiz_name *name)
{
	struct kupaldiz_entry retired;
	struct kupaldiz_met met;
	struct timespec deadline;

	pthread_mutex_lock(&interlock);
	check("detach", kupaldiz_detach(&keeper, cpu, KUPALDIZ_INTERFACE, name, &retired));
	pthread_mutex_unlock(&interlock);
	clock_gettime(CLOCK_MONOTONIC, &deadline);
	deadline.tv_sec++;
	while (destroy_by(&deadline, retired.number, &met) == KUPALDIZ_STILL_HELD) {
		fprintf(stderr, "still held: stage %d, of %d\n", (int)met.stage, (int)met.what);
		deadline.tv_sec++;
	}
}

/* Sends in both ways until the interface isn't found any more. */
static void *send_all(void *cpu)
{
	enum kupaldiz_result result = KUPALDIZ_DONE;
	for (unsigned packet = 0; result == KUPALDIZ_DONE; packet++)
		result = packet % 2 == 0 ? send_by(cpu, &wm0) : send_at_once(cpu, &wm0);
	expect("the interface is gone", result == KUPALDIZ_NOT_FOUND);
	return NULL;
}

int main(void)
{
	const struct kupaldiz_settings settings = KUPALDIZ_SETTINGS(CPUS, 4);
	struct kupaldiz_cpu *own = &cpus[SENDERS];
	pthread_t senders[SENDERS];
	wm = name_of("wm");
	wm0 = name_of("wm0");
	check("open", kupaldiz_open(&settings, &keeper, cpus, CPUS));
	check("attach", kupaldiz_attach(&keeper, own, &wm, 7, NULL));
	check("attach_iface", kupaldiz_attach_iface(&keeper, own, &wm, &wm0, 1500, NULL));
	for (int i = 0; i < SENDERS; i++)
		senders[i] = started(send_all, &cpus[i]);
	while (atomic_load(&sent) < 1000)
		rest();
	take_out(own, &wm0);
	atomic_store(&gone, true);
	for (int i = 0; i < SENDERS; i++)
		joined(senders[i]);
	check("close", kupaldiz_close(&keeper, cpus, CPUS));
	puts("nobody sent by wm0 once it was taken out");
	return 0;
}
