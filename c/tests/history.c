/*
 * history - registries to the end of their histories, on one thread: very many changes and
 * references, what no script has a command for, and what the calls do with memory. What a turn
 * meets, who holds what and an audit's counts are compared by scripts alone: script.c
 *
 *     history [CHANGES [SEED [PART]]]
 *
 * A registry of 8 CPUs and 32 slots has room for CHANGES changes, by default ten million, and goes
 * through them (`long`), or the largest one does (`largest`). Small ones come to their ends
 * (`small`), and one has very many references (`counts`). PART names one of these, to run alone;
 * without it all but `largest` do. Each result is that of a plain table of the test's own.
 *
 * The linker leads malloc, realloc and free here (--wrap), except in the brief program: so blocks
 * are counted, at an opening each allocation is refused in turn, and the registry's table is known.
 * There each line has one writer between two calls that both write on.
 */
#include <inttypes.h>

#include "client.h"
#include "dice.h"
#include "wrapped_heap.h"

/* Where each access takes long, references to one entry and small registries are fewer. */
#ifdef HISTORY_BRIEFLY
enum { MANY = 101, SMALL = 4, IS_WRAPPED = false };
#define __real_free	free
#else
enum { MANY = 1000001, SMALL = 200, IS_WRAPPED = true };
#endif

enum { LONGEST = 10 * 1000 * 1000, LINE = 64, ALIKE = 16, HELD = 40 };
enum { CPUS = KUPALDIZ_MOST_CPUS, SLOTS = KUPALDIZ_MOST_SLOTS, NAMES = SLOTS * 3 / 4 };

/* ---- Memory. ---- */

/* Blocks that are in use, and how often one was taken. */
static uint64_t blocks, taken;
/* How many more allocations aren't refused, and whether one was. */
static uint64_t allowed = UINT64_MAX;
static bool was_refused;
/*
 * The registry's table, and its bytes: the first block of that size that an opening takes and
 * doesn't free.
 */
static uint64_t *table;
static size_t table_bytes;
static void *alike[ALIKE];
static unsigned alike_count;

#ifndef HISTORY_BRIEFLY
static bool is_refused(void)
{
	const bool is = allowed == 0 || allowed-- == 0;
	was_refused |= is;
	return is;
}

void *__wrap_malloc(size_t size)
{
	void *block = is_refused() ? NULL : __real_malloc(size);
	blocks += block != NULL;
	taken++;
	if (size == table_bytes && alike_count < ALIKE)
		alike[alike_count++] = block;
	return block;
}

/* A block that grows is the same block. */
void *__wrap_realloc(void *block, size_t size)
{
	void *moved = is_refused() ? NULL : __real_realloc(block, size);
	blocks += block == NULL && moved != NULL;
	taken++;
	return moved;
}

void __wrap_free(void *block)
{
	blocks -= block != NULL;
	if (alike_count != 0 && alike[0] == block)
		memmove(alike, alike + 1, --alike_count * sizeof *alike);
	__real_free(block);
}
#endif

/* ---- The registry, and what the test knows of it. ---- */

enum state { VACANT, LIVE, RETIRED };

struct slot {
	enum state state;
	struct kupaldiz_entry entry;
	uint64_t place;		/* in a walk: its number, or the place of the one it replaced */
	bool collected;		/* a turn has met KUPALDIZ_LOCAL */
};

static struct kupaldiz_settings settings;
static struct kupaldiz_keeper keeper;
static struct kupaldiz_cpu cpus[CPUS];
static struct kupaldiz_name names[NAMES];
static struct slot slots[SLOTS];
static struct kupaldiz_passive passives[HELD];
static struct kupaldiz_local locals[HELD];
static bool is_inside[CPUS];
static uint64_t changes, blocks_at_first, compared;
static unsigned last_cpu;

static unsigned any_cpu(void)
{
	return last_cpu = (unsigned)below(settings.cpus);
}

/* One of so many names that those of both kinds are more than the slots. */
static const struct kupaldiz_name *any_name(void)
{
	return &names[below(settings.slots * 3 / 4 + 1) % NAMES];
}

static enum kupaldiz_kind any_kind(void)
{
	return below(2) ? KUPALDIZ_DRIVER : KUPALDIZ_INTERFACE;
}

static struct slot *live_slot(enum kupaldiz_kind kind, const struct kupaldiz_name *name)
{
	for (struct slot *slot = slots; slot < slots + settings.slots; slot++)
		if (slot->state == LIVE && slot->entry.kind == kind &&
		    same_name(&slot->entry.name, name))
			return slot;
	return NULL;
}

static unsigned count_of(enum state state)
{
	unsigned count = 0;
	for (unsigned s = 0; s < settings.slots; s++)
		count += slots[s].state == state;
	return count;
}

static struct slot *first_vacant(void)
{
	for (unsigned s = 0; s < settings.slots; s++)
		if (slots[s].state == VACANT)
			return &slots[s];
	return NULL;
}

static void same(enum kupaldiz_result result, enum kupaldiz_result wanted)
{
	compared++;
	EXPECT(result == wanted);
}

/* ---- Changes. ---- */

static void retire(struct slot *slot, const struct kupaldiz_entry *gone)
{
	EXPECT(same_entry(gone, &slot->entry));
	slot->state = RETIRED;
}

/* What an attach returns that finds this entry by its name, or a replacement. */
static enum kupaldiz_result judge_change(const struct slot *old, bool replaces)
{
	const bool is_full = changes + 2 + count_of(LIVE) > settings.change_limit;
	const enum kupaldiz_result room = first_vacant() == NULL ? KUPALDIZ_NO_SLOT
	    : is_full ? KUPALDIZ_HISTORY_FULL : KUPALDIZ_DONE;
	same(kupaldiz_room(&keeper), room);
	if (replaces != (old != NULL))
		return replaces ? KUPALDIZ_NOT_FOUND : KUPALDIZ_NAME_TAKEN;
	return room;
}

/* An attach, or a replacement, of a driver, or of an interface on the driver with that name. */
static void bring(enum kupaldiz_kind kind, const struct kupaldiz_name *name,
    const struct kupaldiz_name *on, bool replaces)
{
	struct kupaldiz_cpu *cpu = &cpus[any_cpu()];
	struct slot *old = live_slot(kind, name), *slot = first_vacant();
	const struct slot *driver = kind == KUPALDIZ_INTERFACE ? live_slot(KUPALDIZ_DRIVER, on) : old;
	enum kupaldiz_result wanted = judge_change(old, replaces), result;
	struct kupaldiz_entry made = {0}, gone = {0};
	const uint64_t value = random_word;
	if (is_inside[last_cpu])
		wanted = KUPALDIZ_INSIDE;
	else if (kind == KUPALDIZ_INTERFACE && driver == NULL)
		wanted = KUPALDIZ_NEEDS_DRIVER;
	if (kind == KUPALDIZ_DRIVER)
		result = replaces ? kupaldiz_replace(&keeper, cpu, name, value, &gone, &made)
		                  : kupaldiz_attach(&keeper, cpu, name, value, &made);
	else
		result = replaces
		    ? kupaldiz_replace_iface(&keeper, cpu, on, name, value, &gone, &made)
		    : kupaldiz_attach_iface(&keeper, cpu, on, name, value, &made);
	same(result, wanted);
	if (result != KUPALDIZ_DONE)
		return;
	*slot = (struct slot){.state = LIVE, .entry = {changes + 1, (uint64_t)(slot - slots), kind,
	    *name, {value}}, .place = replaces ? old->place : changes + 1};
	EXPECT(same_entry(&made, &slot->entry));
	changes++;
	if (replaces)
		retire(old, &gone);
}

static void attach(void)
{
	bring(any_kind(), any_name(), any_name(), false);
}

static void replace(void)
{
	bring(any_kind(), any_name(), any_name(), true);
}

static void detach_named(enum kupaldiz_kind kind, const struct kupaldiz_name *name)
{
	struct slot *slot = live_slot(kind, name);
	struct kupaldiz_entry gone;
	const enum kupaldiz_result wanted = slot == NULL ? KUPALDIZ_NOT_FOUND : KUPALDIZ_DONE;
	const unsigned cpu = any_cpu();
	same(kupaldiz_detach(&keeper, &cpus[cpu], kind, name, &gone),
	    is_inside[cpu] ? KUPALDIZ_INSIDE : wanted);
	if (slot == NULL || is_inside[cpu])
		return;
	changes++;
	retire(slot, &gone);
}

static void detach(void)
{
	detach_named(any_kind(), any_name());
}

/* ---- Lookups, sections and references. ---- */

/* By memory, or in a section. */
static void look_up(void)
{
	const enum kupaldiz_kind kind = any_kind();
	const struct kupaldiz_name *name = any_name();
	const struct slot *slot = live_slot(kind, name);
	struct kupaldiz_entry entry = {0};
	struct kupaldiz_cpu *cpu = &cpus[any_cpu()];
	const bool enters = below(4) == 0;
	const enum kupaldiz_result result = enters ? kupaldiz_enter_find(cpu, kind, name, &entry)
	                                           : kupaldiz_look_up(cpu, kind, name, &entry);
	same(result, slot != NULL ? KUPALDIZ_DONE : KUPALDIZ_NOT_FOUND);
	EXPECT(slot == NULL || same_entry(&entry, &slot->entry));
	if (enters && result == KUPALDIZ_DONE)
		DONE(kupaldiz_exit(cpu));
}

static void enter_or_exit(void)
{
	const unsigned cpu = any_cpu();
	same(is_inside[cpu] ? kupaldiz_exit(&cpus[cpu]) : kupaldiz_enter(&cpus[cpu]),
	    KUPALDIZ_DONE);
	is_inside[cpu] = !is_inside[cpu];
}

/* Each live entry, the newest first; one that replaced another in that one's place. */
static void walk(void)
{
	struct kupaldiz_entry row[SLOTS];
	struct kupaldiz_cpu *cpu = &cpus[any_cpu()];
	uint64_t before = UINT64_MAX;
	size_t count;
	DONE(kupaldiz_enter(cpu));
	same(kupaldiz_walk(cpu, row, SLOTS, &count), KUPALDIZ_DONE);
	DONE(kupaldiz_exit(cpu));
	EXPECT(count == count_of(LIVE));
	for (size_t i = 0; i < count; i++) {
		const struct slot *slot = &slots[row[i].slot];
		EXPECT(slot->state == LIVE && same_entry(&row[i], &slot->entry));
		EXPECT(slot->place < before);
		before = slot->place;
	}
}

/* A get, or a release of what the place has. */
static void refer(void)
{
	struct kupaldiz_passive *at = &passives[below(HELD)];
	if (at->entry.number != 0) {
		last_cpu = (unsigned)at->cpu;
		same(kupaldiz_release(&cpus[at->cpu], at), KUPALDIZ_DONE);
		return;
	}
	const enum kupaldiz_kind kind = any_kind();
	const struct kupaldiz_name *name = any_name();
	const struct slot *slot = live_slot(kind, name);
	same(kupaldiz_get(&cpus[any_cpu()], kind, name, at),
	    slot != NULL ? KUPALDIZ_DONE : KUPALDIZ_NOT_FOUND);
	EXPECT(slot == NULL || (same_entry(&at->entry, &slot->entry) && at->cpu == last_cpu));
}

static const struct slot *slot_of(uint64_t number)
{
	const struct slot *slot = slots;
	while (slot->state == VACANT || slot->entry.number != number)
		slot++;
	return slot;
}

/* On any CPU, also without one once the count was collected. A copy that stays changes nothing. */
static void release_local(struct kupaldiz_local *local)
{
	const bool is_collected = slot_of(local->entry.number)->collected;
	struct kupaldiz_cpu *cpu = &cpus[any_cpu()];
	same(kupaldiz_try_release_local(cpu, local),
	    is_collected ? KUPALDIZ_COLLECTED : KUPALDIZ_DONE);
	if (is_collected)
		same(kupaldiz_release_local_locked(&keeper, below(2) ? NULL : cpu, local),
		    KUPALDIZ_DONE);
	EXPECT(local->at[0] == NULL && local->entry.number == 0);
}

/* A copy is kept in place of the reference. Without memory there is none. */
static void copy_local(struct kupaldiz_local *local)
{
	struct kupaldiz_local copy = {0};
	was_refused = false;
	const enum kupaldiz_result result = kupaldiz_copy_local(local, &copy);
	same(result, was_refused ? KUPALDIZ_NO_MEMORY : KUPALDIZ_DONE);
	if (result != KUPALDIZ_DONE)
		return;
	EXPECT(same_entry(&copy.entry, &local->entry));
	DONE(kupaldiz_try_release_local(&cpus[last_cpu], local));
	*local = copy;
}

/* Only here memory is taken. Now and then there is none. */
static void count(void)
{
	struct kupaldiz_local *at = &locals[below(HELD)];
	const enum kupaldiz_kind kind = any_kind();
	const struct kupaldiz_name *name = any_name();
	const struct slot *slot = live_slot(kind, name);
	struct kupaldiz_cpu *cpu = &cpus[any_cpu()];
	if (at->entry.number != 0) {
		same(kupaldiz_get_local(cpu, kind, name, at), KUPALDIZ_FULL_HANDLE);
		return;
	}
	allowed = below(4) == 0 ? below(3) : UINT64_MAX;
	was_refused = false;
	const enum kupaldiz_result result = kupaldiz_get_local(cpu, kind, name, at);
	same(result, was_refused ? KUPALDIZ_NO_MEMORY : slot != NULL ? KUPALDIZ_DONE
	                                                              : KUPALDIZ_NOT_FOUND);
	if (result == KUPALDIZ_DONE) {
		EXPECT(same_entry(&at->entry, &slot->entry));
		copy_local(at);
	}
	allowed = UINT64_MAX;
}

static void uncount(void)
{
	struct kupaldiz_local *at = &locals[below(HELD)];
	if (at->entry.number != 0)
		release_local(at);
}

/* ---- Turns. ---- */

/* Whether a reference of the test's own is to the entry with this number. */
static bool is_referred_to(uint64_t number)
{
	for (unsigned i = 0; i < HELD; i++)
		if (passives[i].entry.number == number || locals[i].entry.number == number)
			return true;
	return false;
}

/* A turn of a retired entry, or with a number that none has. */
static void turn(struct slot *slot)
{
	struct kupaldiz_met met;
	const enum kupaldiz_result result = kupaldiz_destroy(&keeper, slot->entry.number, &met);
	if (slot->state != RETIRED) {
		same(result, KUPALDIZ_NOT_RETIRED);
		return;
	}
	const bool is_free = result == KUPALDIZ_DONE;
	same(result, is_free ? KUPALDIZ_DONE : KUPALDIZ_STILL_HELD);
	EXPECT(is_free == (met.stage == KUPALDIZ_FREED));
	slot->collected |= met.stage == KUPALDIZ_LOCAL;
	if (!is_free)
		return;
	EXPECT(met.what == slot->entry.slot && !is_referred_to(slot->entry.number));
	slot->state = VACANT;
}

static void destroy(void)
{
	turn(&slots[below(settings.slots)]);
}

static void audit(void)
{
	static struct kupaldiz_balance list[SLOTS];
	size_t length;
	same(kupaldiz_audit(&keeper, cpus, settings.cpus, list, SLOTS, &length), KUPALDIZ_DONE);
	EXPECT(length == settings.slots - count_of(VACANT));
}

/* ---- One call after another. ---- */

/* Who writes shared words in a call: the CPU, the keeper, or both. */
enum writer { CPU, KEEPER, BOTH };

/* The first four change entries. */
static const struct row {
	void (*act)(void);
	enum writer writer;
	unsigned often;		/* of a hundred */
} ROWS[] = {
	{attach, BOTH, 22}, {replace, BOTH, 6}, {detach, KEEPER, 18}, {destroy, BOTH, 18},
	{look_up, CPU, 12}, {enter_or_exit, CPU, 6}, {refer, CPU, 6}, {count, CPU, 4},
	{uncount, BOTH, 4}, {walk, CPU, 3}, {audit, KEEPER, 1},
};
enum { CHANGES = 22 + 6 + 18 + 18 };

/* A reference has a block, its count once it was copied, and its share; and each CPU keeps one. */
static void count_blocks(void)
{
	uint64_t held = 0;
	for (unsigned i = 0; i < HELD; i++)
		held += locals[i].entry.number != 0;
	EXPECT(blocks <= blocks_at_first + 3 * held + settings.cpus);
}

/* Makes any of the first rows. Who writes in it. */
static enum writer act_any(uint64_t among)
{
	const uint64_t before = taken;
	const struct row *row = ROWS;
	for (uint64_t which = below(among); which >= row->often; row++)
		which -= row->often;
	row->act();
	EXPECT(taken == before || row->act == count);
	if (taken != before)
		count_blocks();
	return row->writer;
}

static void let_all_go(void)
{
	for (last_cpu = 0; last_cpu < settings.cpus; last_cpu++)
		if (is_inside[last_cpu])
			DONE(kupaldiz_exit(&cpus[last_cpu]));
	memset(is_inside, 0, sizeof is_inside);
	for (unsigned i = 0; i < HELD; i++)
		if (passives[i].entry.number != 0)
			DONE(kupaldiz_release(&cpus[passives[i].cpu], &passives[i]));
	for (unsigned i = 0; i < HELD; i++)
		if (locals[i].entry.number != 0)
			release_local(&locals[i]);
}

/* Nothing is held, and what is retired is freed: interfaces before drivers. */
static void settle(void)
{
	let_all_go();
	for (unsigned s = 0; s < 2 * settings.slots; s++)
		if (slots[s % settings.slots].state == RETIRED)
			turn(&slots[s % settings.slots]);
	EXPECT(count_of(RETIRED) <= count_of(LIVE));
}

/* Who has written on each line of the table, and what its words were then. */
static struct {
	/* 0 for none, 1 for the keeper, a CPU's number plus 2 */
	unsigned writers[TABLE_BYTES(SLOTS, CPUS) / LINE + 1];
	uint64_t words[TABLE_BYTES(SLOTS, CPUS) / sizeof(uint64_t)];
} lines;

/* After a call: no line that was written on is another writer's. */
static void same_writers(enum writer writer)
{
	const unsigned own = writer == CPU ? last_cpu + 2 : 1;
	const uintptr_t first = (uintptr_t)table / LINE;
	for (size_t i = 0; table != NULL && i < table_bytes / sizeof *table; i++) {
		unsigned *of = &lines.writers[(uintptr_t)&table[i] / LINE - first];
		if (table[i] == lines.words[i])
			continue;
		lines.words[i] = table[i];
		EXPECT(writer == BOTH || *of == 0 || *of == own);
		*of = writer == BOTH ? *of : own;
	}
}

/* ---- From its opening to its end. ---- */

/* Opens it once enough allocations aren't refused. Until then nothing is opened or kept. */
static void open_at_last(void)
{
	enum kupaldiz_result result = KUPALDIZ_NO_MEMORY;
	uint64_t enough = IS_WRAPPED ? 0 : UINT64_MAX;
	for (; result == KUPALDIZ_NO_MEMORY; enough++) {
		EXPECT(blocks == 0 && keeper.at == NULL);
		for (unsigned c = 0; c < settings.cpus; c++)
			EXPECT(cpus[c].at == NULL);
		alike_count = 0;
		allowed = enough;
		result = kupaldiz_open(&settings, &keeper, cpus, settings.cpus);
		allowed = UINT64_MAX;
	}
	DONE(result);
}

static void open_registry(const struct kupaldiz_settings *of, uint64_t seed)
{
	settings = *of;
	seed_dice(seed);
	memset(slots, 0, sizeof slots);
	memset(&lines, 0, sizeof lines);
	changes = 0;
	table_bytes = TABLE_BYTES(settings.slots, settings.cpus);
	open_at_last();
	blocks_at_first = blocks;
	table = alike_count == 0 ? NULL : alike[0];
	alike_count = ALIKE;
	if (table != NULL)
		memcpy(lines.words, table, table_bytes);
}

/* With a CPU inside nothing is closed, however many handles are given. */
static void close_inside(void)
{
	for (unsigned c = 0; c < settings.cpus; c++) {
		DONE(kupaldiz_enter(&cpus[c]));
		IS(INSIDE, kupaldiz_close(NULL, &cpus[c], 1));
		IS(INSIDE, kupaldiz_close(&keeper, cpus, settings.cpus));
		DONE(kupaldiz_settings_of(&keeper, NULL));
		DONE(kupaldiz_exit(&cpus[c]));
	}
}

/* Some are closed before the rest, in either order. What is closed stays so. It takes no memory. */
static void close_registry(void)
{
	close_inside();
	IS(NULL, kupaldiz_close(&keeper, NULL, SIZE_MAX));
	table = NULL;
	allowed = 0;
	for (unsigned c = (unsigned)below(2); c + 1 < settings.cpus; c += 3)
		DONE(kupaldiz_close(NULL, &cpus[c], 1));
	if (below(2))
		DONE(kupaldiz_close(&keeper, cpus, below(2)));
	for (unsigned i = 0; i < 2; i++)
		DONE(kupaldiz_close(below(2) ? NULL : &keeper, cpus, settings.cpus));
	DONE(kupaldiz_close(&keeper, NULL, 0));
	allowed = UINT64_MAX;
	for (unsigned c = 0; c < settings.cpus; c++)
		IS(EMPTY_HANDLE, kupaldiz_depth(&cpus[c], NULL));
	IS(EMPTY_HANDLE, kupaldiz_settings_of(&keeper, NULL));
	EXPECT(blocks == 0 || !IS_WRAPPED);
}

/* At the end of the history no attach is done, and each live entry can still be detached. */
static void end_history(void)
{
	settle();
	if (first_vacant() != NULL)
		same(kupaldiz_room(&keeper), KUPALDIZ_HISTORY_FULL);
	for (unsigned i = 0; i < 3 * NAMES; i++)
		(i % 2 == 0 ? attach : replace)();
	for (unsigned s = 0; s < settings.slots; s++)
		if (slots[s].state == LIVE)
			detach_named(slots[s].entry.kind, &slots[s].entry.name);
	settle();
	EXPECT(count_of(VACANT) == settings.slots);
	audit();
}

/* All changes of a registry, and the end. */
static void run(const struct kupaldiz_settings *of, uint64_t seed, bool is_watched)
{
	open_registry(of, seed);
	const uint64_t most = 100 * of->change_limit + 100000;
	for (uint64_t turns = 1; changes + count_of(LIVE) + 2 <= of->change_limit; turns++) {
		enum writer writer = act_any(is_watched || turns % 8 == 0 ? 100 : CHANGES);
		if (turns % 512 == 0) {
			settle();
			writer = BOTH;
		}
		if (is_watched)
			same_writers(writer);
		EXPECT(turns < most);
	}
	end_history();
	close_registry();
}

/* Of each number of CPUs and slots. */
static void run_small(uint64_t seed)
{
	struct kupaldiz_settings small = KUPALDIZ_SETTINGS(1, 1);
	for (uint64_t i = 0; i < SMALL; i++) {
		small.cpus = 1 + i % 8;
		small.slots = 1 + i % 32;
		small.change_limit = 300 + i;
		run(&small, seed + i, true);
	}
}

static void run_long(uint64_t cpu_count, uint64_t slot_count, uint64_t limit, uint64_t seed)
{
	struct kupaldiz_settings of = KUPALDIZ_SETTINGS(cpu_count, slot_count);
	of.change_limit = limit;
	run(&of, seed, false);
}

/* ---- Very many references. ---- */

static enum kupaldiz_result get_local(unsigned cpu, struct kupaldiz_local *to)
{
	return kupaldiz_get_local(&cpus[cpu], KUPALDIZ_DRIVER, &names[0], to);
}

/*
 * A local reference has a block. A CPU keeps one that was released there, for its next reference,
 * also if there is no memory.
 */
static void keep_blocks(void)
{
	/* On which CPU, whether it is acquired or released, and how many blocks more are in use. */
	static const struct { unsigned cpu; bool acquires; int more; } steps[] = {
		{0, true, 1}, {0, false, 0}, {0, true, 0}, {1, false, 0}, {0, true, 1},
		{1, true, 0}, {0, false, 0}, {0, false, -1},
	};
	const struct kupaldiz_settings of = {2, 2, 100, 1000, 3, 100};
	struct kupaldiz_local local[4] = {0};
	struct kupaldiz_entry found;
	unsigned held = 0;
	open_registry(&of, 1);
	DONE(kupaldiz_attach(&keeper, &cpus[1], &names[0], 7, NULL));
	for (size_t i = 0; i < COUNT_OF(steps); i++) {
		const uint64_t before = blocks;
		DONE(steps[i].acquires ? get_local(steps[i].cpu, &local[held++])
		    : kupaldiz_try_release_local(&cpus[steps[i].cpu], &local[--held]));
		EXPECT((int)(blocks - before) == steps[i].more);
	}
	allowed = 0;
	DONE(get_local(0, &local[0]));
	IS(NO_MEMORY, get_local(1, &local[1]));
	DONE(kupaldiz_enter_find(&cpus[1], KUPALDIZ_DRIVER, &names[0], &found));
	IS(NO_MEMORY, kupaldiz_acquire_local(&cpus[1], &found, &local[1]));
	DONE(kupaldiz_exit(&cpus[1]));
	IS(NO_MEMORY, kupaldiz_copy_local(&local[0], &local[1]));
	EXPECT(local[1].entry.number == 0);
	allowed = UINT64_MAX;
	DONE(kupaldiz_try_release_local(&cpus[0], &local[0]));
	close_registry();
}

/* The CPU of a reference: CPU 0 in most cases, and each of the others now and then. */
static unsigned holder(unsigned reference)
{
	return reference % 16 == 15 ? 1 + reference / 16 % 7 : 0;
}

/* What a turn meets while this number of references is left. */
static void expect_met(uint64_t number, enum kupaldiz_stage stage, uint64_t what)
{
	struct kupaldiz_met met;
	same(kupaldiz_destroy(&keeper, number, &met),
	    stage == KUPALDIZ_FREED ? KUPALDIZ_DONE : KUPALDIZ_STILL_HELD);
	EXPECT(met.stage == stage && met.what == what);
}

/* Those that are passive are made again later. */
static void acquire_often(struct kupaldiz_local *handles)
{
	for (unsigned i = 0; i < MANY; i++) {
		struct kupaldiz_passive reference = {0};
		DONE(get_local(holder(i), &handles[i]));
		DONE(kupaldiz_get(&cpus[holder(i)], KUPALDIZ_DRIVER, &names[0], &reference));
	}
}

static void release_often(uint64_t number, struct kupaldiz_local *handles)
{
	for (unsigned i = 0; i < MANY; i++) {
		struct kupaldiz_passive reference = {{.number = number}, holder(MANY - 1 - i)};
		if (i % 1000 == 0)
			expect_met(number, KUPALDIZ_PASSIVE, 0);
		DONE(kupaldiz_release(&cpus[reference.cpu], &reference));
	}
	for (unsigned i = 0; i + 1 < MANY; i++) {
		const bool is_collected = i >= 1000 || MANY < 1000;
		if (i % 1000 == 0 && is_collected)
			expect_met(number, KUPALDIZ_LOCAL, MANY - i);
		same(kupaldiz_try_release_local(&cpus[i % 8], &handles[i]),
		    is_collected ? KUPALDIZ_COLLECTED : KUPALDIZ_DONE);
		if (is_collected)
			DONE(kupaldiz_release_local_locked(&keeper, NULL, &handles[i]));
	}
}

/* Very many copies of the last one, each of the one before. They are one to the table. */
static void copy_often(uint64_t number, struct kupaldiz_local *handles)
{
	for (unsigned i = MANY - 1; i > 0; i--)
		DONE(kupaldiz_copy_local(&handles[i], &handles[i - 1]));
	expect_met(number, KUPALDIZ_LOCAL, 1);
	for (unsigned i = 1; i < MANY; i++)
		DONE(kupaldiz_release_local_locked(&keeper, i % 2 == 0 ? NULL : &cpus[0],
		    &handles[i]));
	expect_met(number, KUPALDIZ_LOCAL, 1);
	DONE(kupaldiz_release_local_locked(&keeper, NULL, &handles[0]));
	expect_met(number, KUPALDIZ_FREED, 0);
}

/* One entry, with very many references of each kind, is freed once all are released. */
static void refer_often(void)
{
	const struct kupaldiz_settings of = KUPALDIZ_SETTINGS(8, 2);
	struct kupaldiz_local *handles = calloc(MANY, sizeof *handles);
	struct kupaldiz_balance balance;
	struct kupaldiz_entry gone;
	EXPECT(handles != NULL);
	open_registry(&of, 1);
	DONE(kupaldiz_attach(&keeper, &cpus[0], &names[0], 7, NULL));
	acquire_often(handles);
	DONE(kupaldiz_audit(&keeper, cpus, 8, &balance, 1, NULL));
	EXPECT(balance.held == MANY && balance.total == 0);
	DONE(kupaldiz_detach(&keeper, &cpus[1], KUPALDIZ_DRIVER, &names[0], &gone));
	release_often(gone.number, handles);
	copy_often(gone.number, handles);
	__real_free(handles);
	close_registry();
}

int main(int argc, char **argv)
{
	const uint64_t limit = argc > 1 ? strtoull(argv[1], NULL, 10) : LONGEST;
	const uint64_t seed = argc > 2 ? strtoull(argv[2], NULL, 10) : 1;
	const char *part = argc > 3 ? argv[3] : "";
	/* Every other name is no text. */
	for (unsigned i = 0; i < NAMES; i++)
		names[i] = i % 2 == 0 ? numbered('n', i) : (struct kupaldiz_name){i / 4, i};
	if (*part == 0 || strcmp(part, "counts") == 0) {
		if (IS_WRAPPED)
			keep_blocks();
		refer_often();
	}
	if (*part == 0 || strcmp(part, "small") == 0)
		run_small(seed);
	if (*part == 0 || strcmp(part, "long") == 0)
		run_long(8, 32, limit, seed);
	if (strcmp(part, "largest") == 0)
		run_long(CPUS, SLOTS, limit, seed);
	printf("history: %" PRIu64 " calls compared\n", compared);
	return 0;
}
