/*
 * together [ROUNDS] - many threads wait at once: in two registries, each with a keeper and a mutex
 * of its own, for each type of mutex
 *
 * A registry has four changers. One attaches and detaches an entry, and one replaces an entry; both
 * make a kupaldiz_destroy_wait. One puts objects behind a pointer, by kupaldiz_perform_wait or by
 * calls of a list. One detaches to that list, which a reclaimer frees. Each waits until a reader
 * uses its object before it takes that away. Three readers use the objects of both registries at once, in
 * sections of both or by references. Objects lie on the heap, and are spoilt and freed as soon as
 * the wait says so.
 *
 * Compiled with FREE_TOO_EARLY an object behind an entry is freed once a turn says that the entry
 * is still held: the address sanitizer, valgrind and the thread sanitizer each have to catch that.
 * With FREE_BEFORE_PERFORMED it is the one behind the pointer.
 */
#include <stdatomic.h>

#include "client.h"
#include "kupaldiz_waiting.h"

enum { REGISTRIES = 2, READERS = 3, WORDS = 8, SLOTS = 32, PATIENCE = 20 };

/* The changers of a registry. Each has a CPU, and so does its list. */
enum { DESTROYER, REPLACER, PERFORMER, DEFERRER, CHANGERS };
enum { OF_LIST = READERS + CHANGERS, CPUS };

#ifdef FREE_TOO_EARLY
enum { DESTROYS_EARLY = true, PERFORMS_EARLY = false };
#elif defined FREE_BEFORE_PERFORMED
enum { DESTROYS_EARLY = false, PERFORMS_EARLY = true };
#else
enum { DESTROYS_EARLY = false, PERFORMS_EARLY = false };
#endif

struct object {
	struct kupaldiz_call call;	/* the first member: an object is found by it */
	uint64_t words[WORDS];
};

struct world {
	struct kupaldiz_keeper keeper;
	struct kupaldiz_cpu cpus[CPUS];
	pthread_mutex_t mutex;
	struct kupaldiz_interlock interlock;
	struct kupaldiz_deferred deferred;
	struct kupaldiz_entry row[SLOTS];	/* of the list */
	_Atomic(struct object *) current;	/* behind no entry */
	/* How often readers have begun to use an object of each changer. It orders nothing. */
	atomic_uint begun[CHANGERS];
};

/* A changer of a registry. */
struct changer {
	struct world *world;
	unsigned which;
	pthread_t thread;
};

static struct world worlds[REGISTRIES];
static struct kupaldiz_name names[CHANGERS];
static unsigned long rounds;
static atomic_bool over;
static atomic_uint freed;

static struct object *make_object(void)
{
	struct object *object = malloc(sizeof *object);
	EXPECT(object != NULL);
	for (unsigned i = 0; i < WORDS; i++)
		object->words[i] = (uintptr_t)object;
	return object;
}

static void free_object(struct object *object)
{
	memset(object, 0xdb, sizeof *object);
	free(object);
	atomic_fetch_add(&freed, 1);
}

static void look_at(const struct object *object)
{
	for (unsigned i = 0; i < WORDS; i++)
		EXPECT(object->words[i] == (uintptr_t)object);
}

/* Uses an object of a changer's, and again once some object was freed, or after a while. */
static void use(struct world *world, unsigned which, struct object *object)
{
	const unsigned before = atomic_load_explicit(&freed, memory_order_relaxed);
	unsigned patience = PATIENCE;
	look_at(object);
	atomic_fetch_add_explicit(&world->begun[which], 1, memory_order_relaxed);
	while (patience-- > 0 && before == atomic_load_explicit(&freed, memory_order_relaxed))
		rest();
	look_at(object);
}

/* ---- Readers. ---- */

static void read_passively(struct world *world, struct kupaldiz_cpu *cpu, unsigned which)
{
	struct kupaldiz_passive reference = {0};
	if (kupaldiz_get(cpu, KUPALDIZ_ENTRY, &names[which], &reference) != KUPALDIZ_DONE)
		return;
	use(world, which, reference.entry.pointer);
	DONE(kupaldiz_release(cpu, &reference));
}

static void read_locally(struct world *world, struct kupaldiz_cpu *cpu, unsigned which)
{
	struct kupaldiz_local local = {0}, copy = {0};
	if (kupaldiz_get_local(cpu, KUPALDIZ_ENTRY, &names[which], &local) != KUPALDIZ_DONE)
		return;
	DONE(kupaldiz_copy_local(&local, &copy));
	DONE(kupaldiz_release_local(&world->interlock, cpu, &local));
	use(world, which, copy.entry.pointer);
	DONE(kupaldiz_release_local(&world->interlock, cpu, &copy));
}

static void read_inside(struct world *world, struct kupaldiz_cpu *cpu, unsigned which)
{
	struct kupaldiz_entry found;
	DONE(kupaldiz_enter(cpu));
	if (kupaldiz_find(cpu, KUPALDIZ_ENTRY, &names[which], &found) == KUPALDIZ_DONE)
		use(world, which, found.pointer);
	use(world, PERFORMER, atomic_load(&world->current));
	DONE(kupaldiz_exit(cpu));
}

/*
 * In sections of both registries at once, and in each way, of each changer and in each registry in
 * turn.
 */
static void *read_all(void *of)
{
	static void (*const ways[])(struct world *, struct kupaldiz_cpu *, unsigned) = {
	    read_inside, read_passively, read_locally};
	const unsigned reader = *(const unsigned *)of;
	for (unsigned i = reader; !atomic_load(&over); i++) {
		struct world *one = &worlds[i / CHANGERS % REGISTRIES];
		struct world *other = &worlds[(i / CHANGERS + 1) % REGISTRIES];
		DONE(kupaldiz_enter(&other->cpus[reader]));
		ways[i % 3](one, &one->cpus[reader], i % CHANGERS);
		use(other, PERFORMER, atomic_load(&other->current));
		DONE(kupaldiz_exit(&other->cpus[reader]));
		rest();
	}
	return NULL;
}

/* ---- Changers. Each takes its object away while a reader uses it. ---- */

static unsigned uses_begun(const struct world *world, unsigned which)
{
	return atomic_load_explicit(&world->begun[which], memory_order_relaxed);
}

/* Waits until a reader uses an object of this changer's that none used after so many uses. */
static void await_use(const struct world *world, unsigned which, unsigned before)
{
	while (uses_begun(world, which) == before)
		rest();
}

static struct kupaldiz_cpu *cpu_of(struct world *world, unsigned which)
{
	return &world->cpus[READERS + which];
}

/* Attaches an entry, and waits until a reader has begun to use it. */
static void attach_used(struct world *world, unsigned which)
{
	const unsigned before = uses_begun(world, which);
	const uint64_t value = kupaldiz_value(make_object());
	DONE_UNDER(&world->mutex, kupaldiz_attach(&world->keeper, cpu_of(world, which),
	    &names[which], value, NULL));
	await_use(world, which, before);
}

static struct kupaldiz_entry detach(struct world *world, unsigned which)
{
	struct kupaldiz_entry gone;
	DONE(kupaldiz_detach(&world->keeper, cpu_of(world, which), KUPALDIZ_ENTRY, &names[which],
	    &gone));
	return gone;
}

/* Waits for the entry with this number, or without one for the sections that are open. */
static enum kupaldiz_result wait_for(struct world *world, struct kupaldiz_cpu *cpu,
    uint64_t number, const struct timespec *deadline)
{
	if (number == 0)
		return kupaldiz_perform_wait(&world->interlock, cpu, deadline, NULL);
	return kupaldiz_destroy_wait(&world->interlock, cpu, number, deadline, NULL);
}

/* Frees an object once the wait is done, or too early. */
static void free_after(struct world *world, unsigned which, uint64_t number,
    struct object *object, bool early)
{
	static const struct timespec past = {0, 0};
	struct kupaldiz_cpu *cpu = cpu_of(world, which);
	enum kupaldiz_result result = wait_for(world, cpu, number, early ? &past : NULL);
	const bool is_in_use = result != KUPALDIZ_DONE;
	if (is_in_use) {
		free_object(object);
		result = wait_for(world, cpu, number, NULL);
	}
	DONE(result);
	if (!is_in_use)
		free_object(object);
}

static void change_by_destroy(struct world *world, unsigned which)
{
	attach_used(world, which);
	pthread_mutex_lock(&world->mutex);
	const struct kupaldiz_entry gone = detach(world, which);
	pthread_mutex_unlock(&world->mutex);
	free_after(world, which, gone.number, gone.pointer, DESTROYS_EARLY);
}

/* The last entry stays, for close_world. */
static void change_by_replace(struct world *world, unsigned which)
{
	const unsigned before = uses_begun(world, which);
	const uint64_t value = kupaldiz_value(make_object());
	struct kupaldiz_entry gone;
	DONE_UNDER(&world->mutex, kupaldiz_replace(&world->keeper, cpu_of(world, which),
	    &names[which], value, &gone, NULL));
	free_after(world, which, gone.number, gone.pointer, DESTROYS_EARLY);
	await_use(world, which, before);
}

static void free_called(struct kupaldiz_call *call)
{
	free_object((struct object *)call);
}

/* By turns: it waits, or the list frees the object. */
static void change_by_perform(struct world *world, unsigned which)
{
	struct object *fresh = make_object();
	const unsigned before = uses_begun(world, which);
	await_use(world, which, before);
	struct object *gone = atomic_exchange(&world->current, fresh);
	if (before % 2 == 0 || PERFORMS_EARLY) {
		free_after(world, which, 0, gone, PERFORMS_EARLY);
		return;
	}
	gone->call.function = free_called;
	DONE_UNDER(&world->mutex, kupaldiz_deferred_call(&world->deferred, &gone->call));
	DONE(kupaldiz_deferred_barrier(&world->deferred, NULL));
}

static void change_by_list(struct world *world, unsigned which)
{
	attach_used(world, which);
	pthread_mutex_lock(&world->mutex);
	const struct kupaldiz_entry gone = detach(world, which);
	DONE(kupaldiz_deferred_add(&world->deferred, &gone));
	pthread_mutex_unlock(&world->mutex);
	DONE(kupaldiz_deferred_barrier(&world->deferred, NULL));
}

static void *change(void *of)
{
	static void (*const ways[])(struct world *, unsigned) = {change_by_destroy,
	    change_by_replace, change_by_perform, change_by_list};
	const struct changer *changer = of;
	for (unsigned long i = 0; i < rounds; i++)
		ways[changer->which](changer->world, changer->which);
	return NULL;
}

/* The list's: under the interlock, by whichever thread frees. */
static void free_of(void *of, const struct kupaldiz_entry *gone)
{
	EXPECT(of == &freed);
	free_object(gone->pointer);
}

/* ---- All of them. ---- */

static void open_world(struct world *world, const pthread_mutexattr_t *type)
{
	const struct kupaldiz_settings settings = KUPALDIZ_SETTINGS(CPUS, SLOTS);
	DONE(kupaldiz_open(&settings, &world->keeper, world->cpus, CPUS));
	EXPECT(pthread_mutex_init(&world->mutex, type) == 0);
	world->interlock = kupaldiz_interlock_of_mutex(&world->keeper, &world->mutex);
	world->deferred = (struct kupaldiz_deferred){.interlock = &world->interlock,
	    .cpu = &world->cpus[OF_LIST], .entries = world->row, .room = SLOTS, .freed = free_of,
	    .of = &freed};
	atomic_store(&world->current, make_object());
	DONE(kupaldiz_attach(&world->keeper, &world->cpus[READERS], &names[REPLACER],
	    kupaldiz_value(make_object()), NULL));
	DONE(kupaldiz_reclaimer_start(&world->deferred));
}

static void close_world(struct world *world)
{
	DONE(kupaldiz_reclaimer_stop(&world->deferred));
	EXPECT(kupaldiz_deferred_count(&world->deferred) == 0);
	const struct kupaldiz_entry last = detach(world, REPLACER);
	DONE(kupaldiz_destroy(&world->keeper, last.number, NULL));
	free_object(last.pointer);
	DONE(kupaldiz_close(&world->keeper, world->cpus, CPUS));
	free_object(atomic_load(&world->current));
	EXPECT(pthread_mutex_destroy(&world->mutex) == 0);
}

static void run_threads(void)
{
	static unsigned numbers[READERS];
	pthread_t readers[READERS];
	struct changer changers[REGISTRIES * CHANGERS];
	for (unsigned i = 0; i < READERS; i++) {
		numbers[i] = i;
		readers[i] = started(read_all, &numbers[i]);
	}
	for (unsigned i = 0; i < REGISTRIES * CHANGERS; i++) {
		changers[i] = (struct changer){&worlds[i / CHANGERS], i % CHANGERS, 0};
		changers[i].thread = started(change, &changers[i]);
	}
	for (unsigned i = 0; i < REGISTRIES * CHANGERS; i++)
		joined(changers[i].thread);
	atomic_store(&over, true);
	for (unsigned i = 0; i < READERS; i++)
		joined(readers[i]);
}

/* All threads over two registries whose mutexes are of this type. Each object is freed once. */
static void test_mutexes(int type, int robust)
{
	pthread_mutexattr_t attributes;
	EXPECT(pthread_mutexattr_init(&attributes) == 0);
	EXPECT(pthread_mutexattr_settype(&attributes, type) == 0);
	EXPECT(pthread_mutexattr_setrobust(&attributes, robust) == 0);
	atomic_store(&over, false);
	atomic_store(&freed, 0);
	for (unsigned i = 0; i < REGISTRIES; i++)
		open_world(&worlds[i], &attributes);
	run_threads();
	for (unsigned i = 0; i < REGISTRIES; i++)
		close_world(&worlds[i]);
	EXPECT(atomic_load(&freed) == REGISTRIES * (CHANGERS * rounds + 2));
	EXPECT(pthread_mutexattr_destroy(&attributes) == 0);
}

int main(int argc, char **argv)
{
	rounds = argc > 1 ? strtoul(argv[1], NULL, 10) : 200;
	for (unsigned i = 0; i < CHANGERS; i++)
		names[i] = numbered('n', i);
	test_mutexes(PTHREAD_MUTEX_NORMAL, PTHREAD_MUTEX_STALLED);
	test_mutexes(PTHREAD_MUTEX_RECURSIVE, PTHREAD_MUTEX_STALLED);
	test_mutexes(PTHREAD_MUTEX_ERRORCHECK, PTHREAD_MUTEX_STALLED);
	test_mutexes(PTHREAD_MUTEX_ERRORCHECK, PTHREAD_MUTEX_ROBUST);
	puts("together end");
	return 0;
}
