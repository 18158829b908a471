/*
 * replaces [REPLACEMENTS] - threads look one name up without end while its entry is replaced, by
 * default 100,000 times in each of three places on the list: none finds nothing
 *
 * Each reader looks up in a way of its own: by memory, in a section, by a passive reference and by
 * a local one. It finds the entries in their order, and uses the memory of each that it holds. The
 * changer replaces the entry where it is the first on the list, in the middle and the last. Of its
 * three neighbours two are replaced, too, and the third comes and goes. Now and then it waits until
 * a reader has found the entry. A list frees what is gone, and the memory behind it.
 */
#include <inttypes.h>
#include <stdatomic.h>

#include "client.h"
#include "kupaldiz_waiting.h"

enum { READERS = 4, CPUS = READERS + 1, NEIGHBOURS = 3, SLOTS = 24 };

/* What an entry's value points to. */
struct object {
	uint64_t age;
};

static struct kupaldiz_keeper keeper;
static struct kupaldiz_cpu cpus[CPUS];
static pthread_mutex_t mutex = PTHREAD_MUTEX_INITIALIZER;
static struct kupaldiz_interlock interlock;
static struct kupaldiz_name wm, neighbours[NEIGHBOURS];
static atomic_bool over;
static atomic_uint_fast64_t found_all;
static uint64_t made, freed;

static void free_object(void *of, const struct kupaldiz_entry *gone)
{
	struct object *object = gone->pointer;
	EXPECT(of == &freed);
	object->age = UINT64_MAX;
	free(object);
	freed++;
}

static struct kupaldiz_entry row[SLOTS];
static struct kupaldiz_deferred list = {.interlock = &interlock, .entries = row, .room = SLOTS,
    .freed = free_object, .of = &freed};

static uint64_t make_object(void)
{
	struct object *object = malloc(sizeof *object);
	EXPECT(object != NULL);
	object->age = ++made;
	return kupaldiz_value(object);
}

/* ---- Readers. Each way returns the number of what it found. ---- */

/* The entry is the same one and its memory is there, as long as it is held. */
static uint64_t use(const struct kupaldiz_entry *entry, uint64_t *age)
{
	const struct object *object = entry->pointer;
	EXPECT(object->age >= *age && object->age != UINT64_MAX);
	*age = object->age;
	return entry->number;
}

static uint64_t by_memory(struct kupaldiz_cpu *cpu, uint64_t *age)
{
	struct kupaldiz_entry found;
	(void)age;
	DONE(kupaldiz_look_up(cpu, KUPALDIZ_ENTRY, &wm, &found));
	return found.number;
}

static uint64_t by_section(struct kupaldiz_cpu *cpu, uint64_t *age)
{
	struct kupaldiz_entry found;
	DONE(kupaldiz_enter_find(cpu, KUPALDIZ_ENTRY, &wm, &found));
	const uint64_t first = use(&found, age);
	DONE(kupaldiz_find(cpu, KUPALDIZ_ENTRY, &wm, &found));
	EXPECT(use(&found, age) >= first);
	DONE(kupaldiz_exit(cpu));
	return found.number;
}

static uint64_t by_get(struct kupaldiz_cpu *cpu, uint64_t *age)
{
	struct kupaldiz_passive reference = {0};
	DONE(kupaldiz_get(cpu, KUPALDIZ_ENTRY, &wm, &reference));
	const uint64_t number = use(&reference.entry, age);
	DONE(kupaldiz_release(cpu, &reference));
	return number;
}

static uint64_t by_local(struct kupaldiz_cpu *cpu, uint64_t *age)
{
	struct kupaldiz_local local = {0};
	DONE(kupaldiz_get_local(cpu, KUPALDIZ_ENTRY, &wm, &local));
	const uint64_t number = use(&local.entry, age);
	DONE(kupaldiz_release_local(&interlock, cpu, &local));
	return number;
}

/* Each walk has the name exactly once, too. */
static void walk(struct kupaldiz_cpu *cpu)
{
	struct kupaldiz_entry all[SLOTS];
	size_t count, times = 0;
	DONE(kupaldiz_enter(cpu));
	DONE(kupaldiz_walk(cpu, all, SLOTS, &count));
	for (size_t i = 0; i < count; i++)
		times += same_name(&all[i].name, &wm);
	EXPECT(times == 1);
	DONE(kupaldiz_exit(cpu));
}

struct reader {
	struct kupaldiz_cpu *cpu;
	uint64_t (*look_up)(struct kupaldiz_cpu *cpu, uint64_t *age);
	pthread_t thread;
	atomic_uint_fast64_t found;	/* how often it found the entry */
};

static void *read_all(void *of)
{
	struct reader *reader = of;
	uint64_t last = 0, age = 0;
	for (uint64_t i = 0; !atomic_load(&over); i++) {
		const uint64_t number = reader->look_up(reader->cpu, &age);
		EXPECT(number >= last);
		last = number;
		if (i % 64 == 0)
			walk(reader->cpu);
		atomic_store(&reader->found, i + 1);
		atomic_fetch_add(&found_all, 1);
	}
	return NULL;
}

/* Waits until the reader has found the entry once more. */
static void await_find(const struct reader *reader)
{
	const uint64_t before = atomic_load(&reader->found);
	while (atomic_load(&reader->found) == before)
		rest();
}

/* ---- The changer. ---- */

/* Frees what can be freed, and waits if nothing can and no slot is left. */
static void make_room(void)
{
	DONE_UNDER(&mutex, kupaldiz_deferred_free(&list, NULL));
	while (kupaldiz_deferred_count(&list) > SLOTS - NEIGHBOURS - 3)
		DONE(kupaldiz_deferred_barrier(&list, NULL));
}

static void attach(const struct kupaldiz_name *name)
{
	const uint64_t value = make_object();
	make_room();
	DONE_UNDER(&mutex, kupaldiz_attach(&keeper, &cpus[READERS], name, value, NULL));
}

static void replace(const struct kupaldiz_name *name)
{
	const uint64_t value = make_object();
	struct kupaldiz_entry gone;
	make_room();
	pthread_mutex_lock(&mutex);
	DONE(kupaldiz_replace(&keeper, &cpus[READERS], name, value, &gone, NULL));
	DONE(kupaldiz_deferred_add(&list, &gone));
	pthread_mutex_unlock(&mutex);
}

static void detach(const struct kupaldiz_name *name)
{
	struct kupaldiz_entry gone;
	pthread_mutex_lock(&mutex);
	DONE(kupaldiz_detach(&keeper, &cpus[READERS], KUPALDIZ_ENTRY, name, &gone));
	DONE(kupaldiz_deferred_add(&list, &gone));
	pthread_mutex_unlock(&mutex);
}

/* The entry is on the list behind so many of the first two neighbours. */
static void attach_all(unsigned behind)
{
	for (unsigned i = 0, next = 0; i < 3; i++)
		attach(i == 2 - behind ? &wm : &neighbours[next++]);
}

static void detach_all(void)
{
	detach(&wm);
	for (unsigned i = 0; i < 2; i++)
		detach(&neighbours[i]);
	DONE(kupaldiz_deferred_barrier(&list, NULL));
	EXPECT(made == freed);
}

/*
 * The first two neighbours are replaced, too, and the third comes and goes. Each reader finds the
 * entry in between, at first and then each 1,000 replacements.
 */
static void replace_all(uint64_t replacements, const struct reader *readers)
{
	for (uint64_t i = 0; i < replacements; i++) {
		if (i % 1000 < READERS)
			await_find(&readers[i % 1000]);
		replace(&wm);
		if (i % 3 == 0)
			replace(&neighbours[i % 2]);
		if (i % 4 == 1)
			attach(&neighbours[2]);
		if (i % 4 == 3)
			detach(&neighbours[2]);
	}
	if (replacements % 4 >= 2)
		detach(&neighbours[2]);
}

static void change(unsigned behind, uint64_t replacements)
{
	static struct reader all[READERS] = {{.look_up = by_memory}, {.look_up = by_section},
	    {.look_up = by_get}, {.look_up = by_local}};
	attach_all(behind);
	atomic_store(&over, false);
	for (unsigned i = 0; i < READERS; i++) {
		all[i].cpu = &cpus[i];
		atomic_store(&all[i].found, 0);
		all[i].thread = started(read_all, &all[i]);
	}
	replace_all(replacements, all);
	atomic_store(&over, true);
	for (unsigned i = 0; i < READERS; i++)
		joined(all[i].thread);
	detach_all();
}

int main(int argc, char **argv)
{
	const uint64_t replacements = argc > 1 ? strtoull(argv[1], NULL, 10) : 100000;
	const struct kupaldiz_settings settings = KUPALDIZ_SETTINGS(CPUS, SLOTS);
	interlock = kupaldiz_interlock_of_mutex(&keeper, &mutex);
	wm = name_of("wm");
	for (unsigned i = 0; i < NEIGHBOURS; i++)
		neighbours[i] = numbered('n', i);
	DONE(kupaldiz_open(&settings, &keeper, cpus, CPUS));
	for (unsigned behind = 0; behind < 3; behind++)
		change(behind, replacements);
	DONE(kupaldiz_close(&keeper, cpus, CPUS));
	printf("replaces: %" PRIu64 " replacements, each lookup of %" PRIu64 " found one\n",
	    3 * replacements, atomic_load(&found_all));
	return 0;
}
