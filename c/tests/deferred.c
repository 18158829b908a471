/*
 * deferred - the list of kupaldiz_waiting.h in random orders: which turns it makes, what it frees
 * and calls, in which order, and what stays in it
 *
 *     deferred [ROUNDS [SEED]]
 *
 * The linker leads kupaldiz_destroy here (--wrap): a free makes one turn of each entry that waits,
 * oldest first, and frees those that a turn says nothing holds. Each call that waits knows which
 * sections were open as it was added. It is made once all of them have ended, and no earlier; in
 * the order in which the calls were added; and by one free, if no section is open.
 *
 * Readers hold entries by sections and passive references, and another thread's work on retired
 * entries is played by destroys beside the list, also between the turns of a barrier. The list's
 * row is longer or shorter than what waits, and its keeper is now and then another registry's, or
 * none.
 */
#include "client.h"
#include "dice.h"
#include "kupaldiz_waiting.h"
#include "wrapped_heap.h"

enum { SLOTS = 32, NAMES = SLOTS, HELD = 16, MOST_CALLS = 64 };

/* The CPUs: of the readers, of whoever changes the registry, and the list's. */
enum { READERS = 3, CHANGER = READERS, OF_LIST, CPUS };

static struct kupaldiz_keeper keeper;
static struct kupaldiz_cpu cpus[CPUS], closed;
static struct kupaldiz_name names[NAMES];
static struct kupaldiz_passive held[HELD];	/* by the first reader */

/* How many sections each reader has entered and exited: an odd number is an open one. */
static uint64_t sections[READERS];

struct entries {
	size_t count;
	struct kupaldiz_entry at[SLOTS];
};

/*
 * What waits in the list, and what is retired and found no place in it. Of the list's turns under
 * way, what they freed, and what they left.
 */
static struct entries waiting, homeless, gone, left;
static bool is_under_way;
static size_t told, most_freed;

static void push(struct entries *to, const struct kupaldiz_entry *entry)
{
	EXPECT(to->count < SLOTS);
	to->at[to->count++] = *entry;
}

/* One turn of each that waits, in its order. */
WRAPPED(kupaldiz_destroy);
enum kupaldiz_result __wrap_kupaldiz_destroy(struct kupaldiz_keeper *of, uint64_t number,
    struct kupaldiz_met *met)
{
	const enum kupaldiz_result result = __real_kupaldiz_destroy(of, number, met);
	if (!is_under_way)
		return result;
	const size_t turn = gone.count + left.count;
	EXPECT(of == &keeper && turn < waiting.count && waiting.at[turn].number == number);
	push(result == KUPALDIZ_STILL_HELD ? &left : &gone, &waiting.at[turn]);
	return result;
}

/* Whether this thread can be cancelled. */
static bool is_cancellable(void)
{
	int state;
	EXPECT(pthread_setcancelstate(PTHREAD_CANCEL_DISABLE, &state) == 0);
	EXPECT(pthread_setcancelstate(state, NULL) == 0);
	return state == PTHREAD_CANCEL_ENABLE;
}

/* The list tells what the last turn has freed. */
static void note(void *of, const struct kupaldiz_entry *entry)
{
	EXPECT(!is_cancellable());
	EXPECT(of == &told && told + 1 == gone.count && same_entry(entry, &gone.at[told]));
	told++;
}

/* A call: its place in the order, and the section of each reader that was open, or 0. */
struct thing {
	struct kupaldiz_call call;	/* the first member: a thing is found by it */
	uint64_t place;
	uint64_t open[READERS];
};

/* How many calls there ever were. */
static uint64_t added, called;

static bool is_held(const struct thing *thing)
{
	for (unsigned i = 0; i < READERS; i++)
		if (thing->open[i] != 0 && thing->open[i] == sections[i])
			return true;
	return false;
}

static bool is_any_inside(void)
{
	return sections[0] % 2 + sections[1] % 2 + sections[2] % 2 != 0;
}

/* It may free what it lies in. */
static void make_call(struct kupaldiz_call *call)
{
	struct thing *thing = (struct thing *)call;
	EXPECT(is_under_way && thing->place == called++ && !is_held(thing) && !is_cancellable());
	memset(thing, 0xdb, sizeof *thing);
	free(thing);
}

static void pass(void *of)
{
	(void)of;
}

static const struct kupaldiz_interlock interlock = {&keeper, pass, pass, NULL};
static struct kupaldiz_entry row[SLOTS];
static struct kupaldiz_deferred list = {.interlock = &interlock, .cpu = &cpus[OF_LIST],
    .entries = row, .room = SLOTS, .freed = note, .of = &told};

static void expect_list(void)
{
	EXPECT(kupaldiz_deferred_count(&list) == waiting.count + added - called);
	EXPECT(same_entries(list.entries, waiting.at, waiting.count));
}

static void begin_turns(void)
{
	gone.count = left.count = told = 0;
	is_under_way = true;
}

static void end_turns(void)
{
	is_under_way = false;
	EXPECT(is_cancellable() && told == gone.count && gone.count + left.count == waiting.count);
	waiting = left;
	expect_list();
	most_freed = gone.count > most_freed ? gone.count : most_freed;
}

static void free_all(void)
{
	size_t count = 99;
	begin_turns();
	DONE(kupaldiz_deferred_free(&list, &count));
	end_turns();
	EXPECT(count == gone.count && (called == added || is_any_inside()));
}

/* ---- Deeds: some of them can't be done. ---- */

static const struct kupaldiz_name *any_name(void)
{
	return &names[below(NAMES)];
}

static enum kupaldiz_kind any_kind(void)
{
	return below(2) ? KUPALDIZ_DRIVER : KUPALDIZ_INTERFACE;
}

static void attach(void)
{
	free_all();
	(void)!kupaldiz_attach(&keeper, &cpus[CHANGER], any_name(), 7, NULL);
}

static void attach_iface(void)
{
	const struct kupaldiz_name *on = any_name();
	free_all();
	(void)!kupaldiz_attach_iface(&keeper, &cpus[CHANGER], on, any_name(), 8, NULL);
}

/* What is gone waits in the list, if its row isn't full. */
static void append(const struct kupaldiz_entry *entry)
{
	const bool is_full = waiting.count == list.room;
	IS(NULL, kupaldiz_deferred_add(&list, NULL));
	EXPECT(kupaldiz_deferred_add(&list, entry) == (is_full ? KUPALDIZ_NO_ROOM : KUPALDIZ_DONE));
	push(is_full ? &homeless : &waiting, entry);
	expect_list();
}

static void detach_named(enum kupaldiz_kind kind, const struct kupaldiz_name *name)
{
	struct kupaldiz_entry entry;
	if (kupaldiz_detach(&keeper, &cpus[CHANGER], kind, name, &entry) == KUPALDIZ_DONE)
		append(&entry);
}

static void detach(void)
{
	detach_named(any_kind(), any_name());
}

static void replace(void)
{
	struct kupaldiz_entry entry;
	if (kupaldiz_replace(&keeper, &cpus[CHANGER], any_name(), 9, &entry, NULL) == KUPALDIZ_DONE)
		append(&entry);
}

static void add_call(void)
{
	if (added - called == MOST_CALLS)
		return;
	struct thing *thing = malloc(sizeof *thing);
	EXPECT(thing != NULL);
	thing->call = (struct kupaldiz_call){&thing->call, make_call};
	thing->place = added++;
	for (unsigned i = 0; i < READERS; i++)
		thing->open[i] = sections[i] % 2 == 1 ? sections[i] : 0;
	DONE(kupaldiz_deferred_call(&list, &thing->call));
	expect_list();
}

/* All entries wait, the drivers before the interfaces on them. */
static void detach_all(void)
{
	list.room = SLOTS;
	for (unsigned i = 0; i < 2 * NAMES; i++)
		detach_named(i < NAMES ? KUPALDIZ_DRIVER : KUPALDIZ_INTERFACE, &names[i % NAMES]);
}

/* The row is as long as it has to be, or longer. */
static void resize(void)
{
	list.room = waiting.count + below(SLOTS + 1 - waiting.count);
}

/*
 * The empty list is any registry's. While something of one waits, calls refuse another one's
 * keeper, and an empty one ever.
 */
static void change_keeper(void)
{
	static const struct kupaldiz_settings settings = {1, 1, 2, 2, 1, 1};
	struct kupaldiz_keeper other = {0};
	const struct kupaldiz_interlock changed = {&other, pass, pass, NULL};
	struct kupaldiz_cpu cpu = {0};
	enum kupaldiz_result wanted = KUPALDIZ_EMPTY_HANDLE;
	size_t count = 99;
	list.interlock = &changed;
	if (below(2)) {
		DONE(kupaldiz_open(&settings, &other, &cpu, 1));
		wanted = kupaldiz_deferred_count(&list) > 0 ? KUPALDIZ_FULL_HANDLE : KUPALDIZ_DONE;
	}
	EXPECT(kupaldiz_deferred_free(&list, &count) == wanted);
	EXPECT(count == (wanted == KUPALDIZ_DONE ? 0 : 99));
	EXPECT(kupaldiz_deferred_barrier(&list, NULL) == wanted);
	list.interlock = &interlock;
	DONE(kupaldiz_close(&other, &cpu, 1));
	expect_list();
}

/* Somebody else works on a retired entry, which waits. */
static void destroy(void)
{
	if (waiting.count > 0)
		(void)!kupaldiz_destroy(&keeper, waiting.at[below(waiting.count)].number, NULL);
}

static void hold(void)
{
	struct kupaldiz_passive *reference = &held[below(HELD)];
	if (reference->entry.number == 0)
		(void)!kupaldiz_get(&cpus[0], any_kind(), any_name(), reference);
}

static void release(void)
{
	kupaldiz_release(&cpus[0], &held[below(HELD)]);
}

static void switch_section(unsigned reader)
{
	const bool is_open = sections[reader] % 2 == 1;
	DONE(is_open ? kupaldiz_exit(&cpus[reader]) : kupaldiz_enter(&cpus[reader]));
	sections[reader]++;
}

/* Exits follow enters sooner than enters follow exits. */
static void enter_or_exit(void)
{
	const unsigned reader = (unsigned)below(READERS);
	if (sections[reader] % 2 == 1 || below(4) == 0)
		switch_section(reader);
}

static void (*const deeds[])(void) = {attach, attach, attach, attach, attach_iface, attach_iface,
    replace, detach, detach, detach, detach, detach, free_all, destroy, hold, hold, release,
    add_call, add_call, enter_or_exit, enter_or_exit, enter_or_exit, resize, change_keeper};

static void do_any(void)
{
	deeds[below(COUNT_OF(deeds))]();
}

/* What found no place in the list is destroyed, if nothing holds it. */
static void house(void)
{
	const struct entries all = homeless;
	homeless.count = 0;
	for (size_t i = 0; i < all.count; i++)
		if (kupaldiz_destroy(&keeper, all.at[i].number, NULL) == KUPALDIZ_STILL_HELD)
			push(&homeless, &all.at[i]);
}

/* The readers let all go. */
static void let_go(void)
{
	for (unsigned i = 0; i < READERS; i++)
		if (sections[i] % 2 == 1)
			switch_section(i);
	for (unsigned i = 0; i < HELD; i++)
		kupaldiz_release(&cpus[0], &held[i]);
	house();
}

/* ---- Barriers. ---- */

/*
 * How many turns the one under way has made; which entries waited after the first, and wait still;
 * and how many calls there were then.
 */
static unsigned turns;
static struct entries awaited;
static uint64_t awaited_calls;

static bool is_awaiting(void)
{
	return awaited.count > 0 || called < awaited_calls;
}

/*
 * Before a turn others work, and in the end they let all go. None is made once nothing is awaited.
 */
static void take(void *of)
{
	EXPECT(of == &turns && (turns == 0 || is_awaiting()));
	for (unsigned i = 0; i < 4 && turns < 6; i++)
		do_any();
	if (turns == 6) {
		detach_all();
		let_go();
	}
	begin_turns();
}

/* Of what is awaited, what waits still. */
static struct entries still_awaited(void)
{
	struct entries still = {0};
	for (size_t place = 0; place < awaited.count * waiting.count; place++) {
		const struct kupaldiz_entry *entry = &waiting.at[place % waiting.count];
		if (entry->number == awaited.at[place / waiting.count].number)
			push(&still, entry);
	}
	return still;
}

static void give(void *of)
{
	EXPECT(of == &turns);
	end_turns();
	awaited_calls = turns == 0 ? added : awaited_calls;
	awaited = turns++ == 0 ? waiting : still_awaited();
}

/*
 * A barrier waits for what waits after its first turn, and for nothing that comes later; or it
 * makes one turn, if its deadline is past.
 */
static void wait_in_list(void)
{
	static const struct timespec past = {0, 0};
	const struct kupaldiz_interlock watched = {&keeper, take, give, &turns};
	const bool is_late = below(2);
	turns = 0;
	list.interlock = &watched;
	enum kupaldiz_result result = kupaldiz_deferred_barrier(&list, is_late ? &past : NULL);
	list.interlock = &interlock;
	EXPECT(result == (is_awaiting() ? KUPALDIZ_STILL_HELD : KUPALDIZ_DONE));
	EXPECT(is_late ? turns == 1 : !is_awaiting());
}

/*
 * A reader is inside, and everything is detached: all wait. Then it leaves, and one call frees what
 * isn't a driver of an interface behind it, and the next one the rest. Inside a section the list's
 * CPU has no turn for calls.
 */
static void fill_and_free(void)
{
	let_go();
	for (unsigned i = 0; i < NAMES; i++)
		attach();
	switch_section(0);
	detach_all();
	free_all();
	add_call();
	const uint64_t before = called;
	let_go();
	DONE(kupaldiz_enter(&cpus[OF_LIST]));
	begin_turns();
	DONE(kupaldiz_deferred_free(&list, NULL));
	end_turns();
	EXPECT(called == before);
	DONE(kupaldiz_exit(&cpus[OF_LIST]));
	free_all();
	house();
	EXPECT(kupaldiz_deferred_count(&list) == 0 && homeless.count == 0);
}

/* A list without a CPU, or with one that is closed, takes no call. */
static void test_without_cpu(void)
{
	struct kupaldiz_call call = {.function = make_call};
	struct kupaldiz_deferred without = {.interlock = &interlock};
	IS(EMPTY_HANDLE, kupaldiz_deferred_call(&without, &call));
	without.cpu = &closed;
	IS(EMPTY_HANDLE, kupaldiz_deferred_call(&without, &call));
	EXPECT(kupaldiz_deferred_count(&without) == 0);
	DONE(kupaldiz_deferred_free(&without, NULL));
}

int main(int argc, char **argv)
{
	const struct kupaldiz_settings settings = KUPALDIZ_SETTINGS(CPUS, SLOTS);
	unsigned long rounds = argc > 1 ? strtoul(argv[1], NULL, 10) : 1000;
	seed_dice(argc > 2 ? strtoull(argv[2], NULL, 10) : 1);
	for (unsigned i = 0; i < NAMES; i++)
		names[i] = numbered('n', i);
	DONE(kupaldiz_open(&settings, &keeper, cpus, CPUS));
	test_without_cpu();
	free_all();
	DONE(kupaldiz_deferred_barrier(&list, NULL));
	for (unsigned long round = 0; round < rounds; round++) {
		for (unsigned i = 0; i < 200; i++)
			do_any();
		wait_in_list();
		if (round % 16 == 0)
			fill_and_free();
	}
	fill_and_free();
	EXPECT(most_freed > SLOTS / 2 && added > rounds);
	DONE(kupaldiz_close(&keeper, cpus, CPUS));
	puts("deferred end");
	return 0;
}
