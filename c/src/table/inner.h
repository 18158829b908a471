/*
 * inner.h - what the modules of kupaldiz_table.h share: a table, its registries and its members
 *
 * All of it is static, so that the library shows no other names than the header's.
 */
#ifndef TABLE_INNER_H
#define TABLE_INNER_H

#include "choice.h"
#include "kupaldiz_waiting.h"

#include <stdatomic.h>

struct table;

/* One registry of a table, with the lock of its changes and what is deferred in it. */
struct kupaldiz_table_registry {
	struct table *table;
	struct kupaldiz_keeper keeper;
	pthread_mutex_t mutex;
	struct kupaldiz_interlock interlock;
	struct kupaldiz_deferred deferred;
};

/*
 * What a thread's handle leads to. The memory is first: the header looks there. Its `cpus` are the
 * member's seats: of each registry a CPU, with its number, which is the registry's index above the
 * registry's own numbers, and with the slots of the registries before.
 */
struct member {
	_Alignas(64) struct kupaldiz_table_memory memory;
	struct table *table;
	struct kupaldiz_entry *row;	/* of a walk */
	bool walks;
};

struct table {
	struct choice choice;
	uint64_t threads;
	uint64_t entries;
	struct kupaldiz_table_registry *registries;
	struct member *members;
	struct kupaldiz_entry *rows;	/* of the registries' deferred entries, and of the walks */
	struct kupaldiz_table_cpu *seats;	/* of the members, in their order */
	struct kupaldiz_table_place *places;	/* of the members' memories */
	struct kupaldiz_cpu *row;	/* of all CPUs of one registry, for a call that takes them */
	struct kupaldiz_balance *balances;	/* of an audit */
	/* The members that threads have, as the first registry's CPUs. */
	struct kupaldiz_cpu *lent;
	struct kupaldiz_pool pool;
	void (*freed)(void *of, const struct kupaldiz_entry *gone);
	void *of;
	_Alignas(64) atomic_uint_fast64_t occupied;	/* entries, live and retired */
	atomic_uint_fast64_t deferred;
};

/* ---- Where a call is made. ---- */

/*
 * The seat of the registry that a name chooses. It has no registry if the handle is empty: a call
 * there refuses that, and a name of NULL.
 */
static inline struct kupaldiz_table_cpu *seat_of_name(
    const struct kupaldiz_table_thread *thread, const struct kupaldiz_name *name)
{
	static struct kupaldiz_table_cpu none;
	struct member *member = thread->at;
	if (member == NULL)
		return &none;
	if (name == NULL)
		return member->memory.cpus;
	return &member->memory.cpus[index_for(&member->memory, &member->table->choice, name)];
}

/* The index of the registry whose entry has that number; at least `registries` if none has. */
static inline uint64_t index_of(uint64_t number)
{
	return number / KUPALDIZ_MOST_CHANGES;
}

/* The seat of that registry, or NULL. */
static inline struct kupaldiz_table_cpu *seat_of_number(const struct member *member,
    uint64_t number)
{
	const uint64_t index = index_of(number);
	return index < member->memory.registries ? &member->memory.cpus[index] : NULL;
}

/* Finds it by a handle. Returns KUPALDIZ_EMPTY_HANDLE, `missing` if there is no such registry. */
static inline enum kupaldiz_result find_seat(const struct kupaldiz_table_thread *thread,
    uint64_t number, enum kupaldiz_result missing, struct kupaldiz_table_cpu **seat)
{
	if (thread->at == NULL)
		return KUPALDIZ_EMPTY_HANDLE;
	*seat = seat_of_number(thread->at, number);
	return *seat != NULL ? KUPALDIZ_DONE : missing;
}

/* ---- Entries: a registry's own, and as the table has them. ---- */

/* What kupaldiz_table_widen has done. */
static inline void narrow(const struct kupaldiz_table_cpu *seat, struct kupaldiz_entry *entry)
{
	entry->number ^= seat->number;
	entry->slot -= seat->slot;
}

/* Makes the entry that a call wrote the table's, if it did. Returns what the call did. */
static inline enum kupaldiz_result widened(const struct kupaldiz_table_cpu *seat,
    enum kupaldiz_result result, struct kupaldiz_entry *entry)
{
	if (result == KUPALDIZ_DONE && entry != NULL)
		kupaldiz_table_widen(seat, entry);
	return result;
}

/* The other way: the entry of a reference that a call didn't release. */
static inline enum kupaldiz_result kept(const struct kupaldiz_table_cpu *seat,
    enum kupaldiz_result result, struct kupaldiz_entry *entry)
{
	if (result != KUPALDIZ_DONE)
		kupaldiz_table_widen(seat, entry);
	return result;
}

/* ---- Locks and counts. ---- */

static inline void take(const struct kupaldiz_table_registry *registry)
{
	registry->interlock.take(registry->interlock.of);
}

static inline void give(const struct kupaldiz_table_registry *registry)
{
	registry->interlock.give(registry->interlock.of);
}

/* An entry is gone. */
static inline void note_gone(struct table *table)
{
	atomic_fetch_sub(&table->occupied, 1);
}

#endif
