/*
 * table_calls - each call of kupaldiz_table.h by itself: results, numbers, who holds, full
 * registries in a table that isn't full, and an opening whose allocations fail in turn
 *
 * The linker leads getrandom here, so that the secret is known, and what the opening allocates by,
 * so that it fails once.
 */
#include <errno.h>
#include <inttypes.h>
#include <sys/random.h>
#include <sys/wait.h>
#include <unistd.h>

#include "../src/table/inner.h"
#include "both_forms.h"
#include "wrapped_heap.h"

/* So many entries have so many registries of these slots. */
enum { THREADS = 3, ENTRIES = 1100, REGISTRIES = 15, SLOTS = 147 };

static const struct timespec PAST = {0, 0};
static struct kupaldiz_table table;
static struct kupaldiz_table_thread own;

/* ---- What fails: the allocation of this number, from 1; and a thread's word, if it is so. ---- */

static unsigned asked, failing;
static bool refused_key;

static bool fails(void)
{
	return ++asked == failing;
}

FAILING(void *, malloc, (size_t size), (size), fails(), NULL)
FAILING(void *, calloc, (size_t count, size_t size), (count, size), fails(), NULL)
FAILING(void *, aligned_alloc, (size_t alignment, size_t size), (alignment, size), fails(), NULL)
FAILING(int, pthread_key_create, (pthread_key_t *made, void (*end)(void *)), (made, end), fails(),
    EAGAIN)
FAILING(int, pthread_setspecific, (pthread_key_t key, const void *word), (key, word), refused_key,
    ENOMEM)

/* The secret is 0. Before that the system is interrupted once. */
WRAPPED(getrandom);
ssize_t __wrap_getrandom(void *bytes, size_t length, unsigned flags)
{
	static bool interrupted;
	EXPECT(flags == 0 && length == sizeof(struct secret));
	interrupted = !interrupted;
	errno = interrupted ? EINTR : ENOSYS;
	if (interrupted || fails())
		return -1;
	memset(bytes, 0, length);
	return (ssize_t)length;
}

/* ---- Helpers. ---- */

static uint64_t freed_values;

static void add_freed(void *of, const struct kupaldiz_entry *gone)
{
	*(uint64_t *)of += gone->value;
}

static void open_table(uint64_t entries)
{
	const struct kupaldiz_table_settings settings = {THREADS, entries, add_freed,
	    &freed_values};
	freed_values = 0;
	DONE(kupaldiz_table_open(&settings, &table));
	DONE(kupaldiz_table_take(&table, NULL, &own));
}

static const struct choice *own_choice(void)
{
	return &((const struct member *)own.at)->table->choice;
}

static void close_table(void)
{
	DONE(kupaldiz_table_give(&own));
	DONE(kupaldiz_table_close(&table));
	EXPECT(table.at == NULL);
}

static struct kupaldiz_name id_name(uint64_t id)
{
	struct kupaldiz_name name;
	kupaldiz_name_of_id(id, &name);
	return name;
}

static struct kupaldiz_entry attached(const struct kupaldiz_name *name, uint64_t value)
{
	struct kupaldiz_entry made;
	DONE(kupaldiz_table_attach(&own, name, value, &made));
	EXPECT(same_name(&made.name, name) && made.value == value && made.kind == KUPALDIZ_ENTRY);
	return made;
}

static uint64_t count(void)
{
	uint64_t number;
	DONE(kupaldiz_table_count(&table, &number));
	return number;
}

/* Detaches, and destroys: nothing holds it. */
static void removed(const struct kupaldiz_name *name)
{
	struct kupaldiz_entry gone;
	DONE(kupaldiz_table_detach(&own, name, &gone));
	DONE(kupaldiz_table_destroy(&own, gone.number, &PAST, NULL));
}

/* ---- Results. ---- */

static void test_empty(void)
{
	const struct kupaldiz_table none = {0};
	const struct kupaldiz_name name = name_of("a");
	struct kupaldiz_table_thread empty = {0};
	struct kupaldiz_entry entry;
	struct kupaldiz_passive passive = {0};
	struct kupaldiz_local local = {0}, copy = {0};
	struct kupaldiz_table closed = none;
	IS(EMPTY_HANDLE, kupaldiz_table_close(&closed));
	IS(EMPTY_HANDLE, kupaldiz_table_take(&none, NULL, &empty));
	IS(EMPTY_HANDLE, kupaldiz_table_give(&empty));
	IS(EMPTY_HANDLE, kupaldiz_table_look_up(&empty, &name, NULL));
	IS(EMPTY_HANDLE, kupaldiz_table_get(&empty, &name, &passive));
	IS(EMPTY_HANDLE, kupaldiz_table_release(&empty, &passive));
	IS(EMPTY_HANDLE, kupaldiz_table_get_local(&empty, &name, &local));
	IS(EMPTY_HANDLE, kupaldiz_table_copy_local(&local, &copy));
	IS(EMPTY_HANDLE, kupaldiz_table_release_local(&empty, &local));
	IS(EMPTY_HANDLE, kupaldiz_table_attach(&empty, &name, 1, NULL));
	IS(EMPTY_HANDLE, kupaldiz_table_replace(&empty, &name, 1, &entry, NULL));
	IS(EMPTY_HANDLE, kupaldiz_table_detach(&empty, &name, &entry));
	IS(EMPTY_HANDLE, kupaldiz_table_destroy(&empty, 1, NULL, NULL));
	IS(EMPTY_HANDLE, kupaldiz_table_defer(&empty, &entry));
	IS(EMPTY_HANDLE, kupaldiz_table_barrier(&none, NULL));
	IS(EMPTY_HANDLE, kupaldiz_table_walk(&empty, NULL, NULL));
	IS(EMPTY_HANDLE, kupaldiz_table_perform(&empty, NULL, NULL));
	IS(EMPTY_HANDLE, kupaldiz_table_audit(&none, 1, NULL));
	IS(EMPTY_HANDLE, kupaldiz_table_count(&none, NULL));
}

static void test_settings(void)
{
	const struct choice choice = choice_for(ENTRIES);
	const struct kupaldiz_table_settings bad[] = {{0, 1, NULL, NULL}, {1, 0, NULL, NULL},
	    {KUPALDIZ_MOST_CPUS + 1, 1, NULL, NULL},
	    {1, KUPALDIZ_TABLE_MOST_ENTRIES + 1, NULL, NULL}};
	struct kupaldiz_table full = {&full};
	EXPECT(choice.registries == REGISTRIES && choice.slots == SLOTS);
	IS(FULL_HANDLE, kupaldiz_table_open(NULL, &full));
	IS(NULL, kupaldiz_table_open(NULL, &table));
	for (size_t i = 0; i < COUNT_OF(bad); i++)
		IS(BAD_SETTINGS, kupaldiz_table_open(&bad[i], &table));
	EXPECT(table.at == NULL);
}

/* A name that is missing or none, and places that are needed. */
static void test_arguments(void)
{
	const struct kupaldiz_name none = {0}, name = name_of("a");
	struct kupaldiz_passive passive = {0}, full = {.cpu = 1, .entry.number = 1};
	struct kupaldiz_local local = {0}, held = {.entry.number = 1};
	struct kupaldiz_entry entry;
	IS(NULL, kupaldiz_table_look_up(&own, NULL, NULL));
	IS(BAD_NAME, kupaldiz_table_look_up(&own, &none, NULL));
	IS(FULL_HANDLE, kupaldiz_table_get(&own, NULL, &full));
	IS(NULL, kupaldiz_table_get(&own, NULL, &passive));
	IS(BAD_NAME, kupaldiz_table_get(&own, &none, &passive));
	IS(EMPTY_HANDLE, kupaldiz_table_release(&own, &passive));
	IS(FULL_HANDLE, kupaldiz_table_get_local(&own, NULL, &held));
	IS(NULL, kupaldiz_table_get_local(&own, NULL, &local));
	IS(BAD_NAME, kupaldiz_table_get_local(&own, &none, &local));
	IS(EMPTY_HANDLE, kupaldiz_table_release_local(&own, &local));
	IS(NULL, kupaldiz_table_attach(&own, NULL, 1, NULL));
	IS(BAD_NAME, kupaldiz_table_attach(&own, &none, 1, NULL));
	IS(NULL, kupaldiz_table_replace(&own, NULL, 1, &entry, NULL));
	IS(NULL, kupaldiz_table_replace(&own, &none, 1, NULL, NULL));
	IS(BAD_NAME, kupaldiz_table_replace(&own, &none, 1, &entry, NULL));
	IS(NOT_FOUND, kupaldiz_table_replace(&own, &name, 1, &entry, NULL));
	IS(NULL, kupaldiz_table_detach(&own, &name, NULL));
	IS(BAD_NAME, kupaldiz_table_detach(&own, &none, &entry));
	IS(NOT_FOUND, kupaldiz_table_detach(&own, &name, &entry));
	IS(NULL, kupaldiz_table_defer(&own, NULL));
	IS(NULL, kupaldiz_table_walk(&own, NULL, NULL));
	IS(NULL, kupaldiz_table_audit(&table, 1, NULL));
	EXPECT(count() == 0);
}

/* Numbers that are no entry's, also of a registry that there isn't. */
static void test_numbers_of_none(void)
{
	const uint64_t numbers[] = {0, 1, KUPALDIZ_MOST_CHANGES + 1, UINT64_MAX};
	const struct kupaldiz_entry foreign = {.number = UINT64_MAX};
	struct kupaldiz_passive passive = {foreign, own.number};
	struct kupaldiz_local local = {.entry = foreign};
	struct kupaldiz_balance balance;
	for (size_t i = 0; i < COUNT_OF(numbers); i++) {
		IS(NOT_RETIRED, kupaldiz_table_destroy(&own, numbers[i], &PAST, NULL));
		IS(NOT_FOUND, kupaldiz_table_audit(&table, numbers[i], &balance));
	}
	IS(NOT_HELD, kupaldiz_table_release(&own, &passive));
	IS(NOT_RETIRED, kupaldiz_table_defer(&own, &foreign));
	IS(NOT_HELD, kupaldiz_table_release_local(&own, &local));
	EXPECT(same_entry(&passive.entry, &foreign) && same_entry(&local.entry, &foreign));
}

/* ---- The life of one entry. ---- */

static void test_life(void)
{
	const struct kupaldiz_name name = name_of("eth0");
	struct kupaldiz_passive passive = {0}, copy;
	struct kupaldiz_entry found, gone, next;
	struct kupaldiz_met met;
	const struct kupaldiz_entry made = attached(&name, 7);
	IS(NAME_TAKEN, kupaldiz_table_attach(&own, &name, 8, NULL));
	DONE(kupaldiz_table_look_up(&own, &name, &found));
	EXPECT(same_entry(&found, &made));
	DONE(kupaldiz_table_get(&own, &name, &passive));
	EXPECT(same_entry(&passive.entry, &made) && passive.cpu == own.number);

	DONE(kupaldiz_table_replace(&own, &name, 8, &gone, &next));
	EXPECT(same_entry(&gone, &made) && next.value == 8 && next.number != made.number);
	IS(STILL_HELD, kupaldiz_table_destroy(&own, gone.number, &PAST, &met));
	EXPECT(met.stage == KUPALDIZ_PASSIVE && met.what == own.number);
	copy = passive;
	DONE(kupaldiz_table_release(&own, &passive));
	IS(EMPTY_HANDLE, kupaldiz_table_release(&own, &passive));
	IS(NOT_HELD, kupaldiz_table_release(&own, &copy));
	EXPECT(same_entry(&copy.entry, &made));
	DONE(kupaldiz_table_destroy(&own, gone.number, NULL, &met));
	EXPECT(met.stage == KUPALDIZ_FREED && met.what == made.slot);
	IS(NOT_RETIRED, kupaldiz_table_destroy(&own, gone.number, NULL, NULL));
	EXPECT(count() == 1);
	removed(&name);
	IS(NOT_FOUND, kupaldiz_table_look_up(&own, &name, &found));
	EXPECT(count() == 0);
}

/* A local reference with its copies, an audit of what it holds, and who is told. */
static void test_locals(unsigned id)
{
	const struct kupaldiz_name name = id_name(id);
	const struct kupaldiz_entry made = attached(&name, 9);
	struct kupaldiz_local local = {0}, copy = {0};
	struct kupaldiz_balance balance;
	struct kupaldiz_entry gone;
	struct kupaldiz_met met;
	DONE(kupaldiz_table_get_local(&own, &name, &local));
	EXPECT(same_entry(&local.entry, &made));
	DONE(kupaldiz_table_copy_local(&local, &copy));
	EXPECT(same_entry(&copy.entry, &made));
	DONE(kupaldiz_table_audit(&table, made.number, &balance));
	EXPECT(balance.number == made.number && balance.slot == made.slot && balance.held == 1);
	DONE(kupaldiz_table_detach(&own, &name, &gone));
	IS(STILL_HELD, kupaldiz_table_destroy(&own, gone.number, &PAST, &met));
	EXPECT(met.stage == KUPALDIZ_LOCAL && met.what == 1);
	DONE(kupaldiz_table_release_local(&own, &local));
	IS(STILL_HELD, kupaldiz_table_destroy(&own, gone.number, &PAST, NULL));
	DONE(kupaldiz_table_release_local(&own, &copy));
	DONE(kupaldiz_table_destroy(&own, gone.number, &PAST, NULL));
	IS(NOT_FOUND, kupaldiz_table_audit(&table, made.number, &balance));
}

/* What is deferred is freed at once, by the next change of its registry, or by a barrier. */
static void test_deferred(void)
{
	const struct kupaldiz_name names[] = {name_of("a"), name_of("b"), name_of("c")};
	struct kupaldiz_passive held = {0};
	struct kupaldiz_entry gone;
	freed_values = 0;
	for (size_t i = 0; i < COUNT_OF(names); i++)
		attached(&names[i], i + 1);
	DONE(kupaldiz_table_detach(&own, &names[0], &gone));
	DONE(kupaldiz_table_defer(&own, &gone));
	EXPECT(freed_values == 1 && count() == 2);

	DONE(kupaldiz_table_get(&own, &names[1], &held));
	DONE(kupaldiz_table_replace(&own, &names[1], 20, &gone, NULL));
	DONE(kupaldiz_table_defer(&own, &gone));
	IS(STILL_HELD, kupaldiz_table_barrier(&table, &PAST));
	EXPECT(freed_values == 1 && count() == 3);
	DONE(kupaldiz_table_release(&own, &held));
	DONE(kupaldiz_table_replace(&own, &names[1], 30, &gone, NULL));
	EXPECT(freed_values == 3);
	DONE(kupaldiz_table_defer(&own, &gone));
	DONE(kupaldiz_table_barrier(&table, NULL));
	EXPECT(freed_values == 23 && count() == 2);
	removed(&names[1]);
	removed(&names[2]);
}

/* ---- Walks. ---- */

struct visits {
	uint64_t sum;
	unsigned times, most;
	struct kupaldiz_entry last;
};

static bool visit(void *of, const struct kupaldiz_entry *entry)
{
	struct visits *visits = of;
	struct kupaldiz_entry gone, found;
	struct kupaldiz_table_thread mine = own;
	EXPECT(entry->slot < 2 * ENTRIES);
	visits->sum += entry->value;
	visits->last = *entry;
	DONE(kupaldiz_table_look_up(&own, &entry->name, &found));
	EXPECT(same_entry(&found, entry));
	IS(INSIDE, kupaldiz_table_walk(&own, visit, of));
	IS(INSIDE, kupaldiz_table_perform(&own, NULL, NULL));
	IS(INSIDE, kupaldiz_table_detach(&own, &entry->name, &gone));
	IS(INSIDE, kupaldiz_table_destroy(&own, entry->number, &PAST, NULL));
	IS(INSIDE, kupaldiz_table_give(&mine));
	return ++visits->times < visits->most;
}

static void test_walk(unsigned entries)
{
	struct visits visits = {.most = UINT32_MAX};
	for (unsigned i = 0; i < entries; i++) {
		const struct kupaldiz_name name = id_name(i);
		attached(&name, i);
	}
	DONE(kupaldiz_table_walk(&own, visit, &visits));
	EXPECT(visits.times == entries && visits.sum == (uint64_t)entries * (entries - 1) / 2);
	visits = (struct visits){.most = 3};
	DONE(kupaldiz_table_walk(&own, visit, &visits));
	EXPECT(visits.times == 3);
	DONE(kupaldiz_table_perform(&own, &PAST, NULL));
	for (unsigned i = 0; i < entries; i++) {
		const struct kupaldiz_name name = id_name(i);
		removed(&name);
	}
}

/* ---- Threads. ---- */

/* A handle of its own; whether there was one. */
static void *take_one(void *of)
{
	struct kupaldiz_table_thread *thread = of, second = {0};
	if (kupaldiz_table_take(&table, &PAST, thread) != KUPALDIZ_DONE)
		return NULL;
	IS(FULL_HANDLE, kupaldiz_table_take(&table, &PAST, thread));
	IS(FULL_HANDLE, kupaldiz_table_take(&table, &PAST, &second));
	DONE(kupaldiz_table_give(thread));
	return of;
}

/* Ends with the handle, which comes back. */
static void *end_with(void *of)
{
	DONE(kupaldiz_table_take(&table, NULL, of));
	return NULL;
}

static void *give_foreign(void *of)
{
	struct kupaldiz_table_thread copy = *(struct kupaldiz_table_thread *)of, mine = {0};
	IS(WRONG_CPU, kupaldiz_table_give(&copy));
	DONE(kupaldiz_table_take(&table, NULL, &mine));
	EXPECT(mine.number != copy.number);
	IS(WRONG_CPU, kupaldiz_table_give(&copy));
	DONE(kupaldiz_table_give(&mine));
	return NULL;
}

static void test_threads(void)
{
	struct kupaldiz_table_thread other = {0}, ended = {0};
	EXPECT(own.number < THREADS);
	EXPECT(joined(started(take_one, &other)) == &other && other.at == NULL);
	for (unsigned i = 0; i < 2 * THREADS; i++, ended = other)
		joined(started(end_with, &ended));
	joined(started(give_foreign, &own));
}

struct visitor {
	struct kupaldiz_table_thread thread;
	pthread_mutex_t held;	/* until the visit may end */
	atomic_bool is_inside;
};

static bool stay(void *of, const struct kupaldiz_entry *entry)
{
	struct visitor *visitor = of;
	EXPECT(entry->value == 5);
	atomic_store(&visitor->is_inside, true);
	pthread_mutex_lock(&visitor->held);
	pthread_mutex_unlock(&visitor->held);
	return true;
}

static void *walk_slowly(void *of)
{
	struct visitor *visitor = of;
	DONE(kupaldiz_table_take(&table, NULL, &visitor->thread));
	DONE(kupaldiz_table_walk(&visitor->thread, stay, visitor));
	DONE(kupaldiz_table_give(&visitor->thread));
	return NULL;
}

/* Whoever waits for a visit is told whose it is. */
static void test_visit_of_another(void)
{
	struct visitor visitor = {.held = PTHREAD_MUTEX_INITIALIZER};
	const struct kupaldiz_name name = name_of("a");
	struct kupaldiz_entry gone;
	struct kupaldiz_met met;
	uint64_t waited;
	attached(&name, 5);
	pthread_mutex_lock(&visitor.held);
	const pthread_t walker = started(walk_slowly, &visitor);
	while (!atomic_load(&visitor.is_inside))
		rest();
	IS(WAITING, kupaldiz_table_perform(&own, &PAST, &waited));
	EXPECT(waited == visitor.thread.number && waited != own.number);
	DONE(kupaldiz_table_detach(&own, &name, &gone));
	IS(STILL_HELD, kupaldiz_table_destroy(&own, gone.number, &PAST, &met));
	EXPECT(met.stage == KUPALDIZ_GRACE && met.what == waited);
	pthread_mutex_unlock(&visitor.held);
	DONE(kupaldiz_table_perform(&own, NULL, NULL));
	joined(walker);
	DONE(kupaldiz_table_destroy(&own, gone.number, NULL, NULL));
}

/* After a fork the child can take no handle. It ends with what `_exit` is given. */
static void test_fork(void)
{
	struct kupaldiz_table_thread thread = {0};
	int status;
	const pid_t child = fork();
	EXPECT(child >= 0);
	if (child == 0)
		_exit(kupaldiz_table_take(&table, &PAST, &thread) == KUPALDIZ_EMPTY_HANDLE ? 0 : 1);
	EXPECT(waitpid(child, &status, 0) == child && status == 0);
}

/* ---- Full tables. ---- */

/* The next id from `id` on whose name chooses the registry. */
static uint64_t next_in(uint64_t index, uint64_t id)
{
	for (;; id++) {
		const struct kupaldiz_name name = id_name(id);
		if (chosen(own_choice(), &name) == index)
			return id;
	}
}

/* Fills a registry with names that were chosen by the secret: the table has room otherwise. */
static void test_crowded(void)
{
	struct kupaldiz_entry gone, made;
	uint64_t ids[SLOTS + 1], id = 0;
	for (size_t i = 0; i <= SLOTS; i++, id++) {
		ids[i] = id = next_in(3, id);
		const struct kupaldiz_name name = id_name(id);
		if (i < SLOTS)
			EXPECT(index_of(attached(&name, i).number) == 3);
	}
	const struct kupaldiz_name first = id_name(ids[0]), last = id_name(ids[SLOTS]);
	const struct kupaldiz_name other = id_name(next_in(4, id));
	IS(CROWDED, kupaldiz_table_attach(&own, &last, 1, NULL));
	IS(CROWDED, kupaldiz_table_replace(&own, &first, 1, &gone, NULL));
	IS(NAME_TAKEN, kupaldiz_table_attach(&own, &first, 1, NULL));
	EXPECT(index_of(attached(&other, 1).number) == 4 && count() == SLOTS + 1);
	removed(&other);

	/* What is deferred makes room. */
	struct kupaldiz_passive held = {0};
	DONE(kupaldiz_table_get(&own, &first, &held));
	DONE(kupaldiz_table_detach(&own, &first, &gone));
	DONE(kupaldiz_table_defer(&own, &gone));
	IS(CROWDED, kupaldiz_table_attach(&own, &last, 1, NULL));
	DONE(kupaldiz_table_release(&own, &held));
	DONE(kupaldiz_table_attach(&own, &last, 1, &made));
	EXPECT(made.number != gone.number);
	removed(&last);
	for (size_t i = 1; i < SLOTS; i++) {
		const struct kupaldiz_name name = id_name(ids[i]);
		removed(&name);
	}
}

static bool add_number(void *of, const struct kupaldiz_entry *entry)
{
	*(uint64_t *)of += entry->number;
	return true;
}

/* A full table refuses, and says first what is wrong otherwise. */
static void test_full(uint64_t entries)
{
	const struct kupaldiz_name none = {0}, absent = id_name(entries), first = id_name(0);
	uint64_t numbers = 0, walked = 0;
	struct kupaldiz_entry gone;
	for (uint64_t id = 0; id < entries; id++) {
		const struct kupaldiz_name name = id_name(id);
		numbers += attached(&name, id).number;
	}
	DONE(kupaldiz_table_walk(&own, add_number, &walked));
	EXPECT(walked == numbers && count() == entries);
	IS(NO_SLOT, kupaldiz_table_attach(&own, &absent, 1, NULL));
	IS(NO_SLOT, kupaldiz_table_replace(&own, &first, 1, &gone, NULL));
	IS(NAME_TAKEN, kupaldiz_table_attach(&own, &first, 1, NULL));
	IS(NOT_FOUND, kupaldiz_table_replace(&own, &absent, 1, &gone, NULL));
	IS(NULL, kupaldiz_table_attach(&own, NULL, 1, NULL));
	IS(BAD_NAME, kupaldiz_table_attach(&own, &none, 1, NULL));
	IS(NULL, kupaldiz_table_replace(&own, &first, 1, NULL, NULL));

	/* What is deferred in another registry makes room once nothing holds it. */
	struct kupaldiz_passive held = {0};
	DONE(kupaldiz_table_get(&own, &first, &held));
	DONE(kupaldiz_table_detach(&own, &first, &gone));
	DONE(kupaldiz_table_defer(&own, &gone));
	IS(NO_SLOT, kupaldiz_table_attach(&own, &absent, 1, NULL));
	DONE(kupaldiz_table_release(&own, &held));
	DONE(kupaldiz_table_attach(&own, &absent, 1, NULL));
	EXPECT(count() == entries);
}

/* ---- The end. ---- */

static void test_closing(void)
{
	const struct kupaldiz_name name = name_of("a"), other = name_of("b");
	struct kupaldiz_passive passive = {0};
	struct kupaldiz_local local = {0};
	struct kupaldiz_entry gone;
	open_table(ENTRIES);
	attached(&name, 1);
	IS(STILL_HELD, kupaldiz_table_close(&table));
	DONE(kupaldiz_table_get(&own, &name, &passive));
	DONE(kupaldiz_table_give(&own));
	IS(STILL_HELD, kupaldiz_table_close(&table));
	DONE(kupaldiz_table_take(&table, NULL, &own));
	DONE(kupaldiz_table_release(&own, &passive));
	DONE(kupaldiz_table_get_local(&own, &name, &local));
	DONE(kupaldiz_table_give(&own));
	IS(STILL_HELD, kupaldiz_table_close(&table));
	DONE(kupaldiz_table_take(&table, NULL, &own));
	DONE(kupaldiz_table_detach(&own, &name, &gone));
	DONE(kupaldiz_table_defer(&own, &gone));
	attached(&other, 2);
	IS(STILL_HELD, kupaldiz_table_close(&table));
	EXPECT(freed_values == 0);

	/* The close frees it. The other entry is left attached. */
	DONE(kupaldiz_table_release_local(&own, &local));
	close_table();
	EXPECT(freed_values == 1);
}

/* A call that grows fails, and nothing has changed. The next allocation is refused. */
#define REFUSED(call)						\
	do {							\
		asked = 0;					\
		failing = 1;					\
		IS(NO_MEMORY, call);				\
		EXPECT(asked == 1);				\
		failing = 0;					\
	} while (0)

static void *take_refused(void *of)
{
	struct kupaldiz_table_thread *thread = of;
	refused_key = true;
	IS(NO_MEMORY, kupaldiz_table_take(&table, NULL, thread));
	refused_key = false;
	EXPECT(thread->at == NULL);
	DONE(kupaldiz_table_take(&table, NULL, thread));
	DONE(kupaldiz_table_give(thread));
	return NULL;
}

static void test_growing(void)
{
	const struct kupaldiz_name name = name_of("a");
	struct kupaldiz_table_thread other = {0};
	struct kupaldiz_local local = {0}, copy = {0};
	struct kupaldiz_entry gone;
	open_table(ENTRIES);
	joined(started(take_refused, &other));
	attached(&name, 1);
	REFUSED(kupaldiz_table_get_local(&own, &name, &local));
	EXPECT(local.entry.number == 0);
	DONE(kupaldiz_table_get_local(&own, &name, &local));
	REFUSED(kupaldiz_table_copy_local(&local, &copy));
	EXPECT(local.entry.number != 0 && copy.entry.number == 0);
	DONE(kupaldiz_table_detach(&own, &name, &gone));
	IS(STILL_HELD, kupaldiz_table_destroy(&own, gone.number, &PAST, NULL));
	DONE(kupaldiz_table_release_local(&own, &local));
	DONE(kupaldiz_table_destroy(&own, gone.number, &PAST, NULL));
	close_table();
}

/* Each of them fails in turn, and nothing is left; then none does. */
static void test_allocations(void)
{
	const struct kupaldiz_table_settings settings = {THREADS, 600, NULL, NULL};
	enum kupaldiz_result result = KUPALDIZ_NO_MEMORY;
	for (failing = 1; result != KUPALDIZ_DONE; failing++) {
		asked = 0;
		result = kupaldiz_table_open(&settings, &table);
		EXPECT(result == KUPALDIZ_DONE ? asked < failing : result == KUPALDIZ_NO_MEMORY);
		EXPECT((table.at == NULL) == (result == KUPALDIZ_NO_MEMORY));
	}
	EXPECT(failing > 50);
	failing = 0;
	DONE(kupaldiz_table_close(&table));
}

int main(void)
{
	test_empty();
	test_settings();
	for (uint64_t entries = 10; entries <= ENTRIES; entries += ENTRIES - 10) {
		open_table(entries);
		test_arguments();
		test_numbers_of_none();
		test_life();
		for (unsigned id = 0; id < 10; id++)
			test_locals(id);
		test_deferred();
		test_walk(10);
		test_threads();
		test_visit_of_another();
		test_fork();
		if (entries == ENTRIES)
			test_crowded();
		test_full(entries);
		close_table();
	}
	test_closing();
	test_growing();
	test_allocations();
	printf("table_calls: tables of 10 and %d entries\n", ENTRIES);
	return 0;
}
