/*
 * kupaldiz_table.h - a table of any number of names over registries of kupaldiz.h, whose removals
 * say who still holds an entry
 *
 * A registry has at most KUPALDIZ_MOST_SLOTS entries. A table opens as many registries as its
 * entries need, and chooses one by the name: by a hash of the name and of a secret that is drawn as
 * it is opened. Its locks are inside, one a registry: changes in two registries don't wait for each
 * other. A thread has one handle for all calls. A handle remembers which registry names chose, so
 * that it seldom hashes a name twice: in 40 to 80 bytes for each entry of the settings.
 *
 * Nothing here is proved. It is plain C over proved calls: each call with a name or a number is one
 * call of the registry that the name chose, except that waits repeat it. So what kupaldiz.h says of
 * its call holds of one name, by its registry's history. Nothing is said of two names: a thread may
 * see a later change of one and not yet an earlier change of another.
 *
 * Results, references and entries are those of kupaldiz.h. An entry's number is unique in the table
 * and never reused; its slot is below twice the table's entries. Entries have the kind
 * KUPALDIZ_ENTRY. The calls test their arguments in the order of kupaldiz.h.
 */
#ifndef KUPALDIZ_TABLE_H
#define KUPALDIZ_TABLE_H

#include <time.h>

#include "kupaldiz.h"

#ifdef __cplusplus
extern "C" {
#endif

/* ---- The life of a table. ---- */

/* The handles of a table, and of a thread that uses it. {0} is empty. */
struct kupaldiz_table {
	void *at;
};
struct kupaldiz_table_thread {
	void *at;
	uint64_t number;	/* from 0: of a CPU, as `cpu` of a reference and `what` of a turn */
};

/* Entries of a table, at most: in a build with fewer than 64 slots 2^23 for each slot. */
#define KUPALDIZ_TABLE_MOST_ENTRIES	(UINT64_C(1) << 29)

/* The size of a table, and what is called for an entry that was deferred. */
struct kupaldiz_table_settings {
	uint64_t threads;	/* handles at a time: 1 to KUPALDIZ_MOST_CPUS */
	/* at a time, live and retired: 1 to KUPALDIZ_TABLE_MOST_ENTRIES */
	uint64_t entries;
	/* Called for each entry of kupaldiz_table_defer once it is gone, or NULL. */
	void (*freed)(void *of, const struct kupaldiz_entry *gone);
	void *of;
};

/*
 * kupaldiz_table_open - make a table, whose threads take handles by kupaldiz_table_take
 *
 * All memory is allocated here, except the blocks of local references. The table stays where it is;
 * its handle may be copied. `freed` is called under a lock of the table: it makes no call with the
 * table and throws no C++ exception. A program calls this by a macro, as kupaldiz_open.
 * Returns KUPALDIZ_OTHER_LIMITS, KUPALDIZ_FULL_HANDLE, KUPALDIZ_NULL if `settings` is NULL,
 * KUPALDIZ_BAD_SETTINGS, KUPALDIZ_NO_MEMORY, also if the system has no random bytes or no key of
 * threads left.
 */
enum kupaldiz_result kupaldiz_table_open(const struct kupaldiz_table_settings *settings,
    struct kupaldiz_table *table) KUPALDIZ_NONNULL(2) KUPALDIZ_MUST_USE;

/*
 * kupaldiz_table_close - free the table and empty its handle, if nothing is held
 *
 * No other thread is in a call with the table, or makes one later. Entries needn't be detached
 * before. A deferred entry that nothing holds any more is freed first. The memory that the other
 * entries' values point to is the caller's.
 * Returns KUPALDIZ_EMPTY_HANDLE, KUPALDIZ_STILL_HELD if a thread has a handle, if a deferred entry
 * can't be freed, or if an entry is held by any reference. The table is open then.
 */
enum kupaldiz_result kupaldiz_table_close(struct kupaldiz_table *table) KUPALDIZ_NONNULL(1);

/*
 * kupaldiz_table_take - get a handle for this thread, and wait until one is free
 *
 * The handle is this thread's until kupaldiz_table_give, or until the thread ends. `thread` is
 * empty before, and is needed. `deadline` is an absolute time of CLOCK_MONOTONIC; with NULL the
 * call waits until a handle is free. The wait may be cancelled.
 * Returns KUPALDIZ_EMPTY_HANDLE, also in the child of a fork, KUPALDIZ_FULL_HANDLE if `thread`
 * isn't empty or this thread has a handle of the table, KUPALDIZ_NO_MEMORY, KUPALDIZ_NO_CPU if none
 * was free by the deadline.
 */
enum kupaldiz_result kupaldiz_table_take(const struct kupaldiz_table *table,
    const struct timespec *deadline, struct kupaldiz_table_thread *thread)
    KUPALDIZ_NONNULL(1, 3) KUPALDIZ_MUST_USE;

/*
 * kupaldiz_table_give - give this thread's handle back, and empty it
 *
 * Release the passive references first: whoever has a handle of this number can release them.
 * Returns KUPALDIZ_EMPTY_HANDLE, KUPALDIZ_WRONG_CPU if it is another thread's handle,
 * KUPALDIZ_INSIDE within a visit of kupaldiz_table_walk.
 */
enum kupaldiz_result kupaldiz_table_give(struct kupaldiz_table_thread *thread) KUPALDIZ_NONNULL(1);

/* ---- Lookups and references. No call waits, unless a lock is named. ---- */

/*
 * kupaldiz_table_look_up - write a copy of the live entry with this name
 *
 * It is a kupaldiz_look_up: nothing holds the entry afterwards.
 * Returns KUPALDIZ_EMPTY_HANDLE, KUPALDIZ_NULL if `name` is NULL, KUPALDIZ_BAD_NAME,
 * KUPALDIZ_SECTIONS_SPENT, KUPALDIZ_NOT_FOUND.
 */
enum kupaldiz_result kupaldiz_table_look_up(const struct kupaldiz_table_thread *thread,
    const struct kupaldiz_name *name, struct kupaldiz_entry *found)
    KUPALDIZ_NONNULL(1) KUPALDIZ_MUST_USE;

/*
 * kupaldiz_table_get - acquire a passive reference to the live entry with this name
 *
 * It is a kupaldiz_get: until the release the thread may sleep, and use the memory that the value
 * points to. `reference` is empty before and is needed.
 * Returns KUPALDIZ_EMPTY_HANDLE, KUPALDIZ_FULL_HANDLE, KUPALDIZ_NULL if `name` is NULL,
 * KUPALDIZ_BAD_NAME, KUPALDIZ_SECTIONS_SPENT, KUPALDIZ_NOT_FOUND, KUPALDIZ_PASSIVE_FULL.
 */
enum kupaldiz_result kupaldiz_table_get(const struct kupaldiz_table_thread *thread,
    const struct kupaldiz_name *name, struct kupaldiz_passive *reference)
    KUPALDIZ_NONNULL(1, 3) KUPALDIZ_MUST_USE;

/*
 * kupaldiz_table_release - release a passive reference, by the handle that acquired it, and empty
 * it
 *
 * Returns KUPALDIZ_EMPTY_HANDLE for either, KUPALDIZ_WRONG_CPU, KUPALDIZ_NOT_HELD.
 */
enum kupaldiz_result kupaldiz_table_release(const struct kupaldiz_table_thread *thread,
    struct kupaldiz_passive *reference) KUPALDIZ_NONNULL(1, 2);

/*
 * kupaldiz_table_get_local - acquire a local reference to the live entry with this name
 *
 * It is a kupaldiz_get_local: the reference may go to another thread. `local` is empty before and
 * is needed.
 * Returns KUPALDIZ_EMPTY_HANDLE, KUPALDIZ_FULL_HANDLE, KUPALDIZ_NULL if `name` is NULL,
 * KUPALDIZ_BAD_NAME, KUPALDIZ_NO_MEMORY, KUPALDIZ_SECTIONS_SPENT, KUPALDIZ_NOT_FOUND,
 * KUPALDIZ_LOCAL_FULL.
 */
enum kupaldiz_result kupaldiz_table_get_local(const struct kupaldiz_table_thread *thread,
    const struct kupaldiz_name *name, struct kupaldiz_local *local)
    KUPALDIZ_NONNULL(1, 3) KUPALDIZ_MUST_USE;

/*
 * kupaldiz_table_copy_local - make a second local reference to the entry of `from`
 *
 * It is a kupaldiz_copy_local, and needs no handle.
 * Returns KUPALDIZ_EMPTY_HANDLE, KUPALDIZ_FULL_HANDLE, KUPALDIZ_NO_MEMORY.
 */
enum kupaldiz_result kupaldiz_table_copy_local(struct kupaldiz_local *from,
    struct kupaldiz_local *copy) KUPALDIZ_NONNULL(1, 2) KUPALDIZ_MUST_USE;

/*
 * kupaldiz_table_release_local - release a local reference by any handle of its table, and empty it
 *
 * It takes the lock of the entry's registry only if the entry is being destroyed.
 * Returns KUPALDIZ_EMPTY_HANDLE for either, KUPALDIZ_NOT_HELD if it is another table's, as far as
 * its number says so.
 */
enum kupaldiz_result kupaldiz_table_release_local(const struct kupaldiz_table_thread *thread,
    struct kupaldiz_local *local) KUPALDIZ_NONNULL(1, 2);

/* ---- Changes. Each takes the lock of the registry that the name chooses. ---- */

/*
 * kupaldiz_table_attach - attach an entry with this name and value, and write it to `made`
 *
 * Lookups that begin after this call has returned find it, until it is detached or replaced. Before
 * it attaches, the call frees those deferred entries of its registry that nothing holds, and of all
 * registries if the table is full.
 *
 * KUPALDIZ_CROWDED says that the registry has no vacant slot, although the table isn't full.
 * Registries have together twice as many slots as the table has entries. So names that were chosen
 * without knowing the secret hardly ever crowd one: in R registries with m names in each on average
 * the probability is below R * (e / 4)^m / sqrt(4 * pi * m). That is below 10^-12 for each size
 * that a table can have. Retired entries of one name are in one registry, and count. In a build
 * with fewer slots the formula's result is larger. A table of up to KUPALDIZ_MOST_SLOTS entries has
 * one registry, and is never crowded.
 * Returns KUPALDIZ_EMPTY_HANDLE, KUPALDIZ_NULL if `name` is NULL, KUPALDIZ_BAD_NAME,
 * KUPALDIZ_INSIDE within a visit of this registry's entries, KUPALDIZ_NAME_TAKEN, KUPALDIZ_NO_SLOT
 * if the table is full, KUPALDIZ_CROWDED, KUPALDIZ_HISTORY_FULL.
 */
enum kupaldiz_result kupaldiz_table_attach(const struct kupaldiz_table_thread *thread,
    const struct kupaldiz_name *name, uint64_t value, struct kupaldiz_entry *made)
    KUPALDIZ_NONNULL(1) KUPALDIZ_MUST_USE;

/*
 * kupaldiz_table_replace - replace the live entry with this name by another
 *
 * A lookup meanwhile finds the old one or the new one. The new one takes one more of the table's
 * entries until the old one is destroyed, and is written to `made`. The old one is written to
 * `gone`, which is needed: it is to be destroyed, or deferred. The call frees deferred entries as
 * kupaldiz_table_attach does.
 * Returns KUPALDIZ_EMPTY_HANDLE, KUPALDIZ_NULL if `name` or `gone` is NULL, KUPALDIZ_BAD_NAME,
 * KUPALDIZ_INSIDE, KUPALDIZ_NOT_FOUND, KUPALDIZ_NO_SLOT, KUPALDIZ_CROWDED, KUPALDIZ_HISTORY_FULL.
 */
enum kupaldiz_result kupaldiz_table_replace(const struct kupaldiz_table_thread *thread,
    const struct kupaldiz_name *name, uint64_t value, struct kupaldiz_entry *gone,
    struct kupaldiz_entry *made) KUPALDIZ_NONNULL(1) KUPALDIZ_MUST_USE;

/*
 * kupaldiz_table_detach - detach the live entry with this name, and write it to `gone`
 *
 * Lookups that begin after this call has returned don't find it. `gone` is needed: the entry is to
 * be destroyed, or deferred.
 * Returns KUPALDIZ_EMPTY_HANDLE, KUPALDIZ_NULL if `name` or `gone` is NULL, KUPALDIZ_BAD_NAME,
 * KUPALDIZ_INSIDE, KUPALDIZ_NOT_FOUND.
 */
enum kupaldiz_result kupaldiz_table_detach(const struct kupaldiz_table_thread *thread,
    const struct kupaldiz_name *name, struct kupaldiz_entry *gone)
    KUPALDIZ_NONNULL(1) KUPALDIZ_MUST_USE;

/* ---- What is gone: whoever removed an entry destroys it, or defers that. ---- */

/*
 * kupaldiz_table_destroy - wait until nothing holds the retired entry with this number, and free it
 *
 * It is a kupaldiz_destroy_wait, whose `deadline` means the same: a time that has passed makes one
 * turn. Once it is done the caller may free the memory that the value pointed to. What the last
 * turn met is written to `met`: a CPU is the number of a thread's handle.
 * Returns KUPALDIZ_EMPTY_HANDLE, KUPALDIZ_INSIDE within a visit of this registry's entries,
 * KUPALDIZ_NOT_RETIRED, KUPALDIZ_STILL_HELD if the deadline has passed.
 */
enum kupaldiz_result kupaldiz_table_destroy(const struct kupaldiz_table_thread *thread,
    uint64_t number, const struct timespec *deadline, struct kupaldiz_met *met)
    KUPALDIZ_NONNULL(1) KUPALDIZ_MUST_USE;

/*
 * kupaldiz_table_defer - have the table destroy an entry that was detached or replaced
 *
 * It is done once for an entry, which nobody else destroys then. If nothing holds the entry, it is
 * freed at once; else a later attach, replacement or defer in its registry frees it, or
 * kupaldiz_table_barrier. The settings' `freed` is called then.
 * Returns KUPALDIZ_EMPTY_HANDLE, KUPALDIZ_NULL if `gone` is NULL, KUPALDIZ_NOT_RETIRED if its
 * number is none of this table, KUPALDIZ_NO_ROOM if entries were deferred twice.
 */
enum kupaldiz_result kupaldiz_table_defer(const struct kupaldiz_table_thread *thread,
    const struct kupaldiz_entry *gone) KUPALDIZ_NONNULL(1) KUPALDIZ_MUST_USE;

/*
 * kupaldiz_table_barrier - wait until all entries that are deferred now are freed
 *
 * With a `deadline` that has passed, such as {0}, the call frees what nothing holds, and doesn't
 * wait. It needs no handle.
 * Returns KUPALDIZ_EMPTY_HANDLE, KUPALDIZ_STILL_HELD if the deadline has passed.
 */
enum kupaldiz_result kupaldiz_table_barrier(const struct kupaldiz_table *table,
    const struct timespec *deadline) KUPALDIZ_NONNULL(1) KUPALDIZ_MUST_USE;

/* ---- All entries. ---- */

/* What a walk calls for each entry, with its `of`: whether the walk goes on. */
typedef bool kupaldiz_table_visit(void *of, const struct kupaldiz_entry *entry);

/*
 * kupaldiz_table_walk - call `visit` for each live entry, one registry after another
 *
 * The entry is held during its visit, which may sleep; it holds up each destroy in its registry.
 * An entry whose attach returned before the call is visited once, unless its detach or replacement
 * begins before the call returns. The walk ends early once `visit` returns false. A visit may look
 * up and hold entries; it makes no walk, returns, and throws no C++ exception.
 * Returns KUPALDIZ_EMPTY_HANDLE, KUPALDIZ_NULL if `visit` is NULL, KUPALDIZ_INSIDE within a visit,
 * KUPALDIZ_SECTIONS_SPENT.
 */
enum kupaldiz_result kupaldiz_table_walk(const struct kupaldiz_table_thread *thread,
    kupaldiz_table_visit *visit, void *of) KUPALDIZ_NONNULL(1) KUPALDIZ_MUST_USE;

/*
 * kupaldiz_table_perform - wait until each visit that runs now, and each lookup, has returned
 *
 * It is for memory that visits use and that is in no entry. It is a kupaldiz_perform_wait in each
 * registry in turn. `deadline` is as for kupaldiz_table_destroy. The number of the handle that it
 * waited for is written to `waited`.
 * Returns KUPALDIZ_EMPTY_HANDLE, KUPALDIZ_INSIDE within a visit, KUPALDIZ_WAITING if the deadline
 * has passed.
 */
enum kupaldiz_result kupaldiz_table_perform(const struct kupaldiz_table_thread *thread,
    const struct timespec *deadline, uint64_t *waited) KUPALDIZ_NONNULL(1) KUPALDIZ_MUST_USE;

/*
 * kupaldiz_table_audit - what the counts say of the live or retired entry with this number
 *
 * No other thread is in a call with the table meanwhile. It is a kupaldiz_audit of its registry.
 * Returns KUPALDIZ_EMPTY_HANDLE, KUPALDIZ_NULL if `balance` is NULL, KUPALDIZ_NOT_FOUND.
 */
enum kupaldiz_result kupaldiz_table_audit(const struct kupaldiz_table *table, uint64_t number,
    struct kupaldiz_balance *balance) KUPALDIZ_NONNULL(1) KUPALDIZ_MUST_USE;

/*
 * kupaldiz_table_count - write the number of entries, live and retired, to `count`
 *
 * An attach that is under way counts.
 * Returns KUPALDIZ_EMPTY_HANDLE.
 */
enum kupaldiz_result kupaldiz_table_count(const struct kupaldiz_table *table, uint64_t *count)
    KUPALDIZ_NONNULL(1);

/*
 * The rest is private, and the library's alone. It is here so that a lookup is inlined, if its
 * handle remembers which registry the name chose. choice.h of the library has what it means.
 */
struct kupaldiz_table_registry;

/* A handle's CPU of a registry, and what makes a number and a slot of it the table's. */
struct kupaldiz_table_cpu {
	struct kupaldiz_cpu cpu;
	uint64_t number;
	struct kupaldiz_table_registry *registry;
	uint64_t slot;
};

struct kupaldiz_table_place {
	uint64_t low;
	uint64_t rest;
};

struct kupaldiz_table_memory {
	uint64_t factors[2];
	uint64_t registries;
	uint64_t count;
	struct kupaldiz_table_place *places;
	struct kupaldiz_table_cpu *cpus;
	uint64_t missed;
};

/* Where a name is sought first, and what it has there if its registry's index is 0. */
struct kupaldiz_table_sought {
	uint64_t own;
	struct kupaldiz_table_place as;
};

static inline struct kupaldiz_table_sought kupaldiz_table_sought_as(
    const struct kupaldiz_table_memory *memory, const struct kupaldiz_name *name)
{
	__extension__ typedef unsigned __int128 wide;
	const uint64_t product = name->high * memory->factors[0] + name->low * memory->factors[1];
	const wide both = (wide)product * memory->count;
	struct kupaldiz_table_sought sought;
	sought.own = (uint64_t)(both >> 64);
	sought.as.low = name->low;
	sought.as.rest = (uint64_t)both;
	return sought;
}

/* The handle's CPU of the registry that the name chose, if it is remembered there; or NULL. */
static inline struct kupaldiz_table_cpu *kupaldiz_table_recalled(
    const struct kupaldiz_table_thread *thread, const struct kupaldiz_name *name)
{
	const struct kupaldiz_table_memory *memory =
	    (const struct kupaldiz_table_memory *)thread->at;
	uint64_t index = 0;
	if (memory == NULL || name == NULL)
		return NULL;
	if (memory->registries != 1) {
		const struct kupaldiz_table_sought sought = kupaldiz_table_sought_as(memory, name);
		const struct kupaldiz_table_place *place = &memory->places[sought.own];
		index = place->low == name->low ? place->rest ^ sought.as.rest : UINT64_MAX;
	}
	return index < memory->registries ? &memory->cpus[index] : NULL;
}

/*
 * An entry of the registry becomes the table's. A compiler that made both in one step would wait
 * for the two stores of the call before. So the two aren't both sums, and lie apart.
 */
static inline void kupaldiz_table_widen(const struct kupaldiz_table_cpu *on,
    struct kupaldiz_entry *entry)
{
	entry->number |= on->number;
	entry->slot += on->slot;
}

/* What a program calls as kupaldiz_table_look_up and kupaldiz_table_get. */
static inline KUPALDIZ_MUST_USE enum kupaldiz_result
    kupaldiz_table_look_up_inlined(const struct kupaldiz_table_thread *thread,
    const struct kupaldiz_name *name, struct kupaldiz_entry *found)
{
	struct kupaldiz_table_cpu *on = kupaldiz_table_recalled(thread, name);
	if (on == NULL)
		return kupaldiz_table_look_up(thread, name, found);
	enum kupaldiz_result result = kupaldiz_look_up(&on->cpu, KUPALDIZ_ENTRY, name, found);
	if (result == KUPALDIZ_DONE && found != NULL)
		kupaldiz_table_widen(on, found);
	return result;
}

static inline KUPALDIZ_MUST_USE enum kupaldiz_result
    kupaldiz_table_get_inlined(const struct kupaldiz_table_thread *thread,
    const struct kupaldiz_name *name, struct kupaldiz_passive *reference)
{
	struct kupaldiz_table_cpu *on = kupaldiz_table_recalled(thread, name);
	if (on == NULL)
		return kupaldiz_table_get(thread, name, reference);
	enum kupaldiz_result result = kupaldiz_get(&on->cpu, KUPALDIZ_ENTRY, name, reference);
	if (result == KUPALDIZ_DONE)
		kupaldiz_table_widen(on, &reference->entry);
	return result;
}

#if !defined(KUPALDIZ_INNER) && !defined(KUPALDIZ_TSAN) && !defined(KUPALDIZ_CHECK)
#define kupaldiz_table_look_up	kupaldiz_table_look_up_inlined
#define kupaldiz_table_get	kupaldiz_table_get_inlined
#endif

/* What a program calls as kupaldiz_table_open. */
static inline enum kupaldiz_result kupaldiz_table_open_compared(
    const struct kupaldiz_table_settings *settings, struct kupaldiz_table *table)
    KUPALDIZ_NONNULL(2) KUPALDIZ_MUST_USE;
static inline enum kupaldiz_result kupaldiz_table_open_compared(
    const struct kupaldiz_table_settings *settings, struct kupaldiz_table *table)
{
	const struct kupaldiz_limits limits = KUPALDIZ_LIMITS;
	enum kupaldiz_result result = KUPALDIZ_BUILT_FOR(&limits);
	return result != KUPALDIZ_DONE ? result : kupaldiz_table_open(settings, table);
}
#ifndef KUPALDIZ_INNER
#define kupaldiz_table_open	kupaldiz_table_open_compared
#endif

KUPALDIZ_WORDS(struct kupaldiz_table, 1);
KUPALDIZ_WORDS(struct kupaldiz_table_thread, 2);
KUPALDIZ_WORDS(struct kupaldiz_table_settings, 4);
KUPALDIZ_WORDS(struct kupaldiz_table_cpu, 4);
KUPALDIZ_WORDS(struct kupaldiz_table_place, 2);
KUPALDIZ_WORDS(struct kupaldiz_table_memory, 7);

#ifdef __cplusplus
}
#endif

/* The checking build and the thread sanitizer: these headers have a part for the calls above. */
#define KUPALDIZ_TABLE_DECLARED
#if defined(KUPALDIZ_CHECK)
#include "kupaldiz_check.h"
#elif defined(KUPALDIZ_TSAN) && !defined(KUPALDIZ_INNER)
#include "kupaldiz_tsan.h"
#endif
#endif
