/*
 * shared [CHANGES] - twelve threads share four CPUs, and a thirteenth lets an entry come and go
 *
 * A mutex beside each CPU's handle says which thread runs on it. A thread locks one, makes its
 * calls on that CPU, and unlocks it. The thread that makes the changes shares CPU 0: its wait locks
 * that CPU and the interlock for one turn, and sleeps without either. The entry's value points to
 * memory of the heap, which is freed once nothing holds the entry.
 */
#include <inttypes.h>
#include <stdatomic.h>

#include "example.h"
#include "kupaldiz_waiting.h"

enum { THREADS = 12, CPUS = 4 };

/* A CPU, and the mutex of the threads that share it. Each pair is on cache lines of its own. */
struct shared_cpu {
	_Alignas(128) struct kupaldiz_cpu cpu;
	pthread_mutex_t mutex;
};

/* What the entry's value points to. */
struct port {
	uint64_t mtu;
};

static struct shared_cpu shared[CPUS];
static struct kupaldiz_keeper keeper;
static pthread_mutex_t interlock = PTHREAD_MUTEX_INITIALIZER;
static struct kupaldiz_name wm0;
static atomic_bool over;
static atomic_uint_fast64_t used;

static void open_registry(void)
{
	const struct kupaldiz_settings settings = KUPALDIZ_SETTINGS(CPUS, 4);
	struct kupaldiz_cpu cpus[CPUS] = {0};
	check("open", kupaldiz_open(&settings, &keeper, cpus, CPUS));
	for (int i = 0; i < CPUS; i++) {
		shared[i].cpu = cpus[i];
		pthread_mutex_init(&shared[i].mutex, NULL);
	}
}

static void use_port(const struct port *port)
{
	expect("the port is there", port->mtu == 1500);
	rest();
	expect("the port is there", port->mtu == 1500);
	atomic_fetch_add(&used, 1);
}

/*
 * Looks the entry up, and uses its memory with no CPU locked. The reference is the CPU's: to
 * release it, the thread locks the same CPU again.
 */
static enum kupaldiz_result use_entry(struct shared_cpu *on)
{
	struct kupaldiz_passive reference = {0};

	pthread_mutex_lock(&on->mutex);
	enum kupaldiz_result result = kupaldiz_get(&on->cpu, KUPALDIZ_ENTRY, &wm0, &reference);
	pthread_mutex_unlock(&on->mutex);
	if (result != KUPALDIZ_DONE)
		return result;
	use_port(reference.entry.pointer);	/* may sleep */
	pthread_mutex_lock(&on->mutex);
	result = kupaldiz_release(&on->cpu, &reference);
	pthread_mutex_unlock(&on->mutex);
	return result;
}

static void *use_all(void *on)
{
	while (!atomic_load(&over)) {
		enum kupaldiz_result result = use_entry(on);
		if (result != KUPALDIZ_NOT_FOUND)
			check("use", result);
		rest();
	}
	return NULL;
}

/* The two locks of a change: the CPU's mutex first, then the interlock. */
static void lock_both(void *of)
{
	struct shared_cpu *on = of;
	pthread_mutex_lock(&on->mutex);
	pthread_mutex_lock(&interlock);
}

static void unlock_both(void *of)
{
	struct shared_cpu *on = of;
	pthread_mutex_unlock(&interlock);
	pthread_mutex_unlock(&on->mutex);
}

/* Attaches the entry with new memory behind it. */
static struct port *put_in(struct shared_cpu *on)
{
	struct port *port = malloc(sizeof *port);

	expect("there is memory", port != NULL);
	port->mtu = 1500;
	lock_both(on);
	check("attach", kupaldiz_attach(&keeper, &on->cpu, &wm0, kupaldiz_value(port), NULL));
	unlock_both(on);
	return port;
}

/*
 * Takes the entry out, and waits until nothing holds it. The wait gives up after a second, and is
 * made again: until it is done nothing may be freed.
 */
static enum kupaldiz_result take_out(struct shared_cpu *on)
{
	const struct kupaldiz_interlock both = {&keeper, lock_both, unlock_both, on};
	struct kupaldiz_entry retired;
	struct timespec deadline;

	lock_both(on);
	check("detach", kupaldiz_detach(&keeper, &on->cpu, KUPALDIZ_ENTRY, &wm0, &retired));
	unlock_both(on);
	enum kupaldiz_result result;
	do {
		clock_gettime(CLOCK_MONOTONIC, &deadline);
		deadline.tv_sec++;
		result = kupaldiz_destroy_wait(&both, &on->cpu, retired.number, &deadline, NULL);
	} while (result == KUPALDIZ_STILL_HELD);
	return result;
}

/* The entry comes and goes, and is used by a thread at least once each time. */
static void change(struct shared_cpu *on, uint64_t changes)
{
	for (uint64_t i = 0; i < changes; i++) {
		uint64_t before = atomic_load(&used);
		struct port *port = put_in(on);
		while (atomic_load(&used) == before)
			rest();
		check("take_out", take_out(on));
		port->mtu = 0;
		free(port);
	}
}

/* Each CPU is closed by itself, and then the keeper. */
static void close_registry(void)
{
	for (int i = 0; i < CPUS; i++) {
		check("close", kupaldiz_close(NULL, &shared[i].cpu, 1));
		pthread_mutex_destroy(&shared[i].mutex);
	}
	check("close", kupaldiz_close(&keeper, NULL, 0));
}

int main(int argc, char **argv)
{
	uint64_t changes = argc == 2 ? strtoull(argv[1], NULL, 10) : 200;
	pthread_t threads[THREADS];

	wm0 = name_of("wm0");
	open_registry();
	for (int i = 0; i < THREADS; i++)
		threads[i] = started(use_all, &shared[i % CPUS]);
	change(&shared[0], changes);
	atomic_store(&over, true);
	for (int i = 0; i < THREADS; i++)
		joined(threads[i]);
	close_registry();
	printf("changes %" PRIu64 "\n", changes);
	return 0;
}
