/*
 * speed - what calls of kupaldiz.h take
 *
 *     speed THREADS ENTRIES OPERATIONS
 *     speed wait CPUS READERS ENTRIES COUNT
 *     speed spread CPUS READERS ENTRIES COUNT
 *
 * The first is of a lookup, a walk, and a pair of acquire and release. `wait` is of a replacement
 * with and without a gap, and of a perform, beside readers, where each call is made by turns that
 * wait. `spread` has the percentiles of single lookups and replacements.
 *
 * `lookup` makes three calls. `read` is the same in two: an enter with a find, and an exit.
 * `look_up` is one call, for an entry that the CPU remembers, and `absent` for a name that no entry
 * has. `batch` is a find in an open section, 32 of them between an enter and an exit. `get` gets a
 * reference in one call, and releases it. bench/README.md has the operations, the threads and the
 * time.
 */
#include <inttypes.h>

#include "client.h"
#include "common.h"
#include "entries.h"
#include "kupaldiz_waiting.h"

static struct kupaldiz_keeper keeper;
static pthread_mutex_t lock = PTHREAD_MUTEX_INITIALIZER;
static struct kupaldiz_interlock interlock;

/* The CPU of the thread that changes the registry. */
static struct kupaldiz_cpu *changer;

/* The names that are looked up, in the order of the keys, and as many that no entry has. */
static struct kupaldiz_name names[MOST_ENTRIES], absent_names[MOST_ENTRIES];

/* Each thread's handle lies on cache lines of its own, apart from those that others write. */
static struct {
	_Alignas(128) struct kupaldiz_cpu cpu;
} seats[MOST_THREADS];

static void attach_all(const struct plan *plan)
{
	make_keys(plan);
	for (unsigned i = 0; i < entries; i++) {
		names[i] = (struct kupaldiz_name){keys[i].high, keys[i].low};
		absent_names[i] = names[i];
		absent_names[i].high += UINT64_C(1) << 56;
		DONE(kupaldiz_attach(&keeper, &seats[0].cpu, &names[i], i, NULL));
	}
}

static void open_registry(const struct plan *plan)
{
	const struct kupaldiz_settings settings =
	    KUPALDIZ_SETTINGS(plan->threads, plan->entries < 32 ? 32 : plan->entries);
	struct kupaldiz_cpu cpus[MOST_THREADS] = {{0}};
	DONE(kupaldiz_open(&settings, &keeper, cpus, plan->threads));
	for (unsigned i = 0; i < plan->threads; i++)
		seats[i].cpu = cpus[i];
	changer = &seats[plan->threads - 1].cpu;
	interlock = kupaldiz_interlock_of_mutex(&keeper, &lock);
	attach_all(plan);
}

static uint64_t look_up(unsigned thread, const struct key *key)
{
	struct kupaldiz_cpu *cpu = &seats[thread].cpu;
	const struct kupaldiz_name *name = &names[key - keys];
	struct kupaldiz_entry found;
	bool right = kupaldiz_enter(cpu) == KUPALDIZ_DONE &&
	    kupaldiz_find(cpu, KUPALDIZ_ENTRY, name, &found) == KUPALDIZ_DONE;
	right &= kupaldiz_exit(cpu) == KUPALDIZ_DONE;
	return right ? found.value : UINT64_MAX;
}

static void enter(unsigned thread)
{
	DONE(kupaldiz_enter(&seats[thread].cpu));
}

static uint64_t find(unsigned thread, const struct key *key)
{
	struct kupaldiz_cpu *cpu = &seats[thread].cpu;
	struct kupaldiz_entry found;
	const struct kupaldiz_name *name = &names[key - keys];
	bool right = kupaldiz_find(cpu, KUPALDIZ_ENTRY, name, &found) == KUPALDIZ_DONE;
	return right ? found.value : UINT64_MAX;
}

static void leave(unsigned thread)
{
	DONE(kupaldiz_exit(&seats[thread].cpu));
}

static uint64_t batches(unsigned thread, uint64_t count)
{
	return in_batches(thread, count, enter, find, leave);
}

static uint64_t read_in_section(unsigned thread, const struct key *key)
{
	struct kupaldiz_cpu *cpu = &seats[thread].cpu;
	const struct kupaldiz_name *name = &names[key - keys];
	struct kupaldiz_entry found;
	bool right = kupaldiz_enter_find(cpu, KUPALDIZ_ENTRY, name, &found) == KUPALDIZ_DONE;
	right = right && kupaldiz_exit(cpu) == KUPALDIZ_DONE;
	return right ? found.value : UINT64_MAX;
}

static uint64_t look_up_at_once(unsigned thread, const struct key *key)
{
	struct kupaldiz_cpu *cpu = &seats[thread].cpu;
	const struct kupaldiz_name *name = &names[key - keys];
	struct kupaldiz_entry found;
	bool right = kupaldiz_look_up(cpu, KUPALDIZ_ENTRY, name, &found) == KUPALDIZ_DONE;
	return right ? found.value : UINT64_MAX;
}

static uint64_t miss(unsigned thread, const struct key *key)
{
	struct kupaldiz_cpu *cpu = &seats[thread].cpu;
	const struct kupaldiz_name *name = &absent_names[key - keys];
	struct kupaldiz_entry found;
	bool right = kupaldiz_look_up(cpu, KUPALDIZ_ENTRY, name, &found) == KUPALDIZ_NOT_FOUND;
	return right ? (uint64_t)(key - keys) : UINT64_MAX;
}

static uint64_t get(unsigned thread, const struct key *key)
{
	struct kupaldiz_cpu *cpu = &seats[thread].cpu;
	const struct kupaldiz_name *name = &names[key - keys];
	struct kupaldiz_passive reference = {0};
	bool right = kupaldiz_get(cpu, KUPALDIZ_ENTRY, name, &reference) == KUPALDIZ_DONE;
	const uint64_t value = reference.entry.value;
	right = right && kupaldiz_release(cpu, &reference) == KUPALDIZ_DONE;
	return right ? value : UINT64_MAX;
}

/* All names in turn. */
#define IN_TURN(name, look_up)						\
	static uint64_t name(unsigned thread, uint64_t count)		\
	{								\
		return in_turn(thread, count, look_up);			\
	}

IN_TURN(lookups, look_up)
IN_TURN(reads, read_in_section)
IN_TURN(lookups_at_once, look_up_at_once)
IN_TURN(misses, miss)
IN_TURN(gets, get)

static uint64_t walks(unsigned thread, uint64_t count)
{
	struct kupaldiz_cpu *cpu = &seats[thread].cpu;
	struct kupaldiz_entry row[KUPALDIZ_MOST_SLOTS];
	uint64_t right = 0;
	for (uint64_t made = 0; made < count; made++) {
		size_t met = 0;
		DONE(kupaldiz_enter(cpu));
		DONE(kupaldiz_walk(cpu, row, KUPALDIZ_MOST_SLOTS, &met));
		DONE(kupaldiz_exit(cpu));
		right += met == entries && row[0].value == entries - 1 && row[met - 1].value == 0;
	}
	return right;
}

/* The newest entry is detached, destroyed and attached again: a lookup in between finds nothing. */
static void replace(void)
{
	const struct kupaldiz_name *name = &names[entries - 1];
	struct kupaldiz_entry gone;
	DONE_UNDER(&lock, kupaldiz_detach(&keeper, changer, KUPALDIZ_ENTRY, name, &gone));
	DONE(kupaldiz_destroy_wait(&interlock, changer, gone.number, NULL, NULL));
	DONE_UNDER(&lock, kupaldiz_attach(&keeper, changer, name, entries - 1, NULL));
}

/* A new entry takes the newest one's place, which is destroyed then. */
static void exchange(void)
{
	const struct kupaldiz_name *name = &names[entries - 1];
	struct kupaldiz_entry gone;
	DONE_UNDER(&lock, kupaldiz_replace(&keeper, changer, name, entries - 1, &gone, NULL));
	DONE(kupaldiz_destroy_wait(&interlock, changer, gone.number, NULL, NULL));
}

static void perform(void)
{
	DONE(kupaldiz_perform_wait(&interlock, changer, NULL, NULL));
}

/* Enters, and finds the newest entry, for what acquires references to it. */
static struct kupaldiz_entry begin_at_newest(struct kupaldiz_cpu *cpu)
{
	struct kupaldiz_entry found;
	DONE(kupaldiz_enter_find(cpu, KUPALDIZ_ENTRY, &names[entries - 1], &found));
	return found;
}

static uint64_t passives(unsigned thread, uint64_t count)
{
	struct kupaldiz_cpu *cpu = &seats[thread].cpu;
	const struct kupaldiz_entry entry = begin_at_newest(cpu);
	struct kupaldiz_passive reference = {0};
	uint64_t right = 0;
	for (uint64_t made = 0; made < count; made++)
		right += kupaldiz_acquire(cpu, &entry, &reference) == KUPALDIZ_DONE &&
		    kupaldiz_release(cpu, &reference) == KUPALDIZ_DONE;
	DONE(kupaldiz_exit(cpu));
	return right;
}

static uint64_t locals(unsigned thread, uint64_t count)
{
	struct kupaldiz_cpu *cpu = &seats[thread].cpu;
	const struct kupaldiz_entry entry = begin_at_newest(cpu);
	struct kupaldiz_local local = {0};
	uint64_t right = 0;
	for (uint64_t made = 0; made < count; made++)
		right += kupaldiz_acquire_local(cpu, &entry, &local) == KUPALDIZ_DONE &&
		    kupaldiz_try_release_local(cpu, &local) == KUPALDIZ_DONE;
	DONE(kupaldiz_exit(cpu));
	return right;
}

static const struct contender FACE = {
	.name = "kupaldiz.h",
	.open = open_registry,
	NOTHING_AROUND,
	.lookups = lookups,
	.batches = batches,
	.walks = walks,
	.passives = passives,
	.locals = locals,
	.reads = reads,
	.look_ups = lookups_at_once,
	.misses = misses,
	.gets = gets,
	.replace = replace,
	.exchange = exchange,
	.perform = perform,
};

int main(int argc, char **argv)
{
	run_contender(&FACE, argc - 1, argv + 1);
	for (unsigned i = 0; &seats[i].cpu <= changer; i++)
		DONE(kupaldiz_close(NULL, &seats[i].cpu, 1));
	DONE(kupaldiz_close(&keeper, NULL, 0));
	return 0;
}
