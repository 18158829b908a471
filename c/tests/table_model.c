/*
 * table_model [TURNS] - threads make random calls on a table of 10,000 entries, by default 20,000
 * each, and compare each result with a plain map
 *
 * Each thread alone changes the names that are its own, and its part of the map says what the table
 * has of them. It looks up names of all threads, and uses the memory behind each entry that it holds.
 * Local references travel: a thread puts them into places, and another one takes them. What is
 * gone is deferred, or destroyed; the last one to free an entry poisons its memory first.
 */
#include <inttypes.h>
#include <stdatomic.h>

#include "client.h"
#include "kupaldiz_table.h"

enum { THREADS = 8, ENTRIES = 10000, NAMES = 1100, ALL_NAMES = THREADS * NAMES, HELD = 40,
    PLACES = 64 };

/* What an entry's value points to. */
struct object {
	uint64_t id;
	uint64_t poison;	/* 0 as long as it may be used */
};

static struct kupaldiz_table table;
static atomic_uint_fast64_t made, freed;

/* The map: the object of each id, which only the id's own thread reads and writes. */
static struct object *map[ALL_NAMES];

/* ---- Numbers from a seed, for each thread its own. ---- */

struct worker {
	struct kupaldiz_table_thread thread;
	uint64_t index, random, turns;
	struct kupaldiz_passive held[HELD];
	uint64_t done[9];	/* how often each call did something */
	uint64_t seen;		/* of the names of its own, in a walk */
};

static uint64_t below(struct worker *worker, uint64_t end)
{
	worker->random ^= worker->random << 13;
	worker->random ^= worker->random >> 7;
	worker->random ^= worker->random << 17;
	return (worker->random >> 11) % end;
}

static uint64_t own_id(struct worker *worker)
{
	return worker->index * NAMES + below(worker, NAMES);
}

static struct kupaldiz_name id_name(uint64_t id)
{
	struct kupaldiz_name name;
	kupaldiz_name_of_id(id, &name);
	return name;
}

/* ---- Objects. ---- */

static struct object *make_object(uint64_t id)
{
	struct object *object = malloc(sizeof *object);
	EXPECT(object != NULL);
	*object = (struct object){.id = id};
	atomic_fetch_add(&made, 1);
	return object;
}

static void free_object(void *of, const struct kupaldiz_entry *gone)
{
	struct object *object = gone->pointer;
	EXPECT(of == &freed && object->poison == 0);
	object->poison = 1;
	free(object);
	atomic_fetch_add(&freed, 1);
}

/* The entry is that of its name, and its memory is there. The caller holds it. */
static void use(const struct kupaldiz_entry *entry)
{
	const struct object *object = entry->pointer;
	const struct kupaldiz_name name = id_name(object->id);
	EXPECT(object->poison == 0 && same_name(&name, &entry->name));
	EXPECT(entry->number != 0 && entry->slot < 2 * ENTRIES + KUPALDIZ_MOST_SLOTS);
}

/* ---- Changes of a thread's own names. ---- */

/* Destroys it, if nothing holds it by then, or defers that. */
static void remove_entry(struct worker *worker, const struct kupaldiz_entry *gone)
{
	const struct timespec past = {0, 0};
	if (below(worker, 2) == 0) {
		enum kupaldiz_result result = kupaldiz_table_destroy(&worker->thread, gone->number,
		    &past, NULL);
		EXPECT(result == KUPALDIZ_DONE || result == KUPALDIZ_STILL_HELD);
		if (result == KUPALDIZ_DONE) {
			free_object(&freed, gone);
			return;
		}
	}
	DONE(kupaldiz_table_defer(&worker->thread, gone));
}

/*
 * Whether the name's registry is full, or the table, of what was removed while a thread is in a
 * section: a busy machine may keep one there for long. Then it waits for the section.
 */
static bool is_full(struct worker *worker, enum kupaldiz_result result)
{
	if (result != KUPALDIZ_CROWDED && result != KUPALDIZ_NO_SLOT)
		return false;
	DONE(kupaldiz_table_perform(&worker->thread, NULL, NULL));
	return true;
}

static bool attach(struct worker *worker)
{
	const uint64_t id = own_id(worker);
	const struct kupaldiz_name name = id_name(id);
	struct kupaldiz_entry entry;
	enum kupaldiz_result result;
	if (map[id] != NULL) {
		IS(NAME_TAKEN, kupaldiz_table_attach(&worker->thread, &name, 1, &entry));
		return false;
	}
	map[id] = make_object(id);
	do
		result = kupaldiz_table_attach(&worker->thread, &name, kupaldiz_value(map[id]),
		    &entry);
	while (is_full(worker, result));
	EXPECT(result == KUPALDIZ_DONE && entry.pointer == map[id]);
	return true;
}

static bool replace(struct worker *worker)
{
	const uint64_t id = own_id(worker);
	const struct kupaldiz_name name = id_name(id);
	struct kupaldiz_entry gone, entry;
	if (map[id] == NULL) {
		IS(NOT_FOUND, kupaldiz_table_replace(&worker->thread, &name, 1, &gone, &entry));
		return false;
	}
	struct object *next = make_object(id);
	enum kupaldiz_result result;
	do
		result = kupaldiz_table_replace(&worker->thread, &name, kupaldiz_value(next), &gone,
		    &entry);
	while (is_full(worker, result));
	EXPECT(result == KUPALDIZ_DONE && gone.pointer == map[id] && entry.pointer == next);
	EXPECT(entry.number > gone.number);
	map[id] = next;
	remove_entry(worker, &gone);
	return true;
}

static bool detach(struct worker *worker)
{
	const uint64_t id = own_id(worker);
	const struct kupaldiz_name name = id_name(id);
	struct kupaldiz_entry gone;
	if (map[id] == NULL) {
		IS(NOT_FOUND, kupaldiz_table_detach(&worker->thread, &name, &gone));
		return false;
	}
	DONE(kupaldiz_table_detach(&worker->thread, &name, &gone));
	EXPECT(gone.pointer == map[id]);
	map[id] = NULL;
	remove_entry(worker, &gone);
	return true;
}

/* ---- Lookups, and references. ---- */

/* A name of its own is found exactly if the map has it. */
static bool look_up(struct worker *worker)
{
	const uint64_t id = own_id(worker);
	const struct kupaldiz_name name = id_name(id);
	struct kupaldiz_entry found;
	if (map[id] == NULL) {
		IS(NOT_FOUND, kupaldiz_table_look_up(&worker->thread, &name, &found));
		return false;
	}
	DONE(kupaldiz_table_look_up(&worker->thread, &name, &found));
	EXPECT(found.pointer == map[id] && same_name(&found.name, &name));
	return true;
}

/* In the checking build a reference has a tag above its CPU's number. */
static uint64_t cpu_of(const struct kupaldiz_passive *reference)
{
#ifdef KUPALDIZ_CHECK
	return reference->cpu & 0xff;
#else
	return reference->cpu;
#endif
}

/* A reference to any name goes to one of its places, whose reference is released before. */
static bool get(struct worker *worker)
{
	struct kupaldiz_passive *place = &worker->held[below(worker, HELD)];
	const uint64_t id = below(worker, ALL_NAMES);
	const struct kupaldiz_name name = id_name(id);
	if (place->entry.number != 0) {
		use(&place->entry);
		DONE(kupaldiz_table_release(&worker->thread, place));
	}
	enum kupaldiz_result result = kupaldiz_table_get(&worker->thread, &name, place);
	EXPECT(result == KUPALDIZ_DONE || result == KUPALDIZ_NOT_FOUND);
	if (id / NAMES == worker->index)
		EXPECT((map[id] != NULL) == (result == KUPALDIZ_DONE));
	if (result != KUPALDIZ_DONE)
		return false;
	use(&place->entry);
	EXPECT(cpu_of(place) == worker->thread.number);
	return true;
}

/* Places of local references, for all threads. */
static struct {
	pthread_mutex_t mutex;
	struct kupaldiz_local local;
} places[PLACES];

/* Takes what is in a place, and puts another reference there. */
static struct kupaldiz_local exchange(struct worker *worker, struct kupaldiz_local local)
{
	const uint64_t index = below(worker, PLACES);
	pthread_mutex_lock(&places[index].mutex);
	const struct kupaldiz_local taken = places[index].local;
	places[index].local = local;
	pthread_mutex_unlock(&places[index].mutex);
	return taken;
}

static void let_go(struct worker *worker, struct kupaldiz_local *local)
{
	if (local->entry.number == 0)
		return;
	use(&local->entry);
	DONE(kupaldiz_table_release_local(&worker->thread, local));
	EXPECT(local->entry.number == 0);
}

static bool get_local(struct worker *worker)
{
	const struct kupaldiz_name name = id_name(below(worker, ALL_NAMES));
	struct kupaldiz_local local = {0}, copy = {0}, taken;
	enum kupaldiz_result result = kupaldiz_table_get_local(&worker->thread, &name, &local);
	EXPECT(result == KUPALDIZ_DONE || result == KUPALDIZ_NOT_FOUND);
	if (result == KUPALDIZ_DONE && below(worker, 4) == 0)
		DONE(kupaldiz_table_copy_local(&local, &copy));
	taken = exchange(worker, local);
	let_go(worker, &taken);
	let_go(worker, &copy);
	return result == KUPALDIZ_DONE;
}

/* ---- Walks. ---- */

static bool see(void *of, const struct kupaldiz_entry *entry)
{
	struct worker *worker = of;
	const struct object *object = entry->pointer;
	use(entry);
	if (object->id / NAMES == worker->index) {
		EXPECT(map[object->id] == object);
		worker->seen++;
	}
	return true;
}

/* A walk has each of its own names once, as nobody changes these meanwhile. */
static bool walk(struct worker *worker)
{
	uint64_t live = 0;
	for (uint64_t i = 0; i < NAMES; i++)
		live += map[worker->index * NAMES + i] != NULL;
	worker->seen = 0;
	DONE(kupaldiz_table_walk(&worker->thread, see, worker));
	EXPECT(worker->seen == live);
	return live != 0;
}

static bool perform(struct worker *worker)
{
	DONE(kupaldiz_table_perform(&worker->thread, NULL, NULL));
	return true;
}

static bool count(struct worker *worker)
{
	uint64_t number;
	(void)worker;
	DONE(kupaldiz_table_count(&table, &number));
	return number <= ENTRIES;
}

/* ---- All of it. ---- */

/* The calls, each with its weight among 1,000. */
static const struct {
	bool (*make)(struct worker *worker);
	uint64_t weight;
} CALLS[] = {{attach, 200}, {replace, 150}, {detach, 120}, {look_up, 150}, {get, 200},
    {get_local, 170}, {count, 8}, {perform, 1}, {walk, 1}};

static void make_call(struct worker *worker)
{
	uint64_t die = below(worker, 1000);
	size_t call = 0;
	while (die >= CALLS[call].weight)
		die -= CALLS[call++].weight;
	worker->done[call] += CALLS[call].make(worker);
}

static void *work(void *of)
{
	struct worker *worker = of;
	DONE(kupaldiz_table_take(&table, NULL, &worker->thread));
	for (uint64_t i = 0; i < worker->turns; i++)
		make_call(worker);
	for (size_t i = 0; i < COUNT_OF(worker->held); i++)
		if (worker->held[i].entry.number != 0)
			DONE(kupaldiz_table_release(&worker->thread, &worker->held[i]));
	walk(worker);
	perform(worker);
	DONE(kupaldiz_table_give(&worker->thread));
	return NULL;
}

/* Releases what is left in the places, frees all, and compares the table with the whole map. */
static void end_all(struct worker *worker)
{
	uint64_t live = 0, number;
	DONE(kupaldiz_table_take(&table, NULL, &worker->thread));
	for (size_t i = 0; i < PLACES; i++)
		let_go(worker, &places[i].local);
	DONE(kupaldiz_table_barrier(&table, NULL));
	for (uint64_t i = 0; i < THREADS; i++, live += worker->seen) {
		worker->index = i;
		walk(worker);
	}
	DONE(kupaldiz_table_count(&table, &number));
	EXPECT(number == live && atomic_load(&made) == atomic_load(&freed) + live);
	DONE(kupaldiz_table_give(&worker->thread));
	DONE(kupaldiz_table_close(&table));
	for (uint64_t i = 0; i < ALL_NAMES; i++)
		free(map[i]);
}

int main(int argc, char **argv)
{
	static struct worker workers[THREADS];
	const struct kupaldiz_table_settings settings = {THREADS, ENTRIES, free_object, &freed};
	const uint64_t turns = argc > 1 ? strtoull(argv[1], NULL, 10) : 20000;
	pthread_t threads[THREADS];
	uint64_t done[COUNT_OF(CALLS)] = {0};
	for (size_t i = 0; i < PLACES; i++)
		pthread_mutex_init(&places[i].mutex, NULL);
	DONE(kupaldiz_table_open(&settings, &table));
	for (uint64_t i = 0; i < THREADS; i++) {
		workers[i].index = i;
		workers[i].random = (i + 1) * 0x9e3779b97f4a7c15;
		workers[i].turns = turns;
		threads[i] = started(work, &workers[i]);
	}
	for (size_t i = 0; i < THREADS; i++)
		joined(threads[i]);
	for (size_t i = 0; i < THREADS * COUNT_OF(CALLS); i++)
		done[i % COUNT_OF(CALLS)] += workers[i / COUNT_OF(CALLS)].done[i % COUNT_OF(CALLS)];
	end_all(&workers[0]);
	printf("table_model: %" PRIu64 " attached, %" PRIu64 " replaced, %" PRIu64
	    " detached, %" PRIu64 " got, %" PRIu64 " travelled\n", done[0], done[1], done[2],
	    done[4], done[5]);
	return 0;
}
