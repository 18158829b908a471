/* changes.c - attaches, replacements and detaches, under the lock of the name's registry */
#include "inner.h"

/* Frees those deferred entries of a registry that nothing holds. The caller has its lock. */
static void free_deferred(struct kupaldiz_table_registry *registry)
{
	if (kupaldiz_deferred_count(&registry->deferred) != 0)
		kupaldiz_deferred_free(&registry->deferred, NULL);
}

/* The same in all registries. The caller has no lock. */
static void free_all_deferred(struct table *table)
{
	for (size_t i = 0; i < table->choice.registries; i++) {
		take(&table->registries[i]);
		free_deferred(&table->registries[i]);
		give(&table->registries[i]);
	}
}

/* Counts one entry more, if there may be one more. */
static bool count_one(struct table *table)
{
	if (atomic_fetch_add(&table->occupied, 1) < table->entries)
		return true;
	note_gone(table);
	return false;
}

/* The same, once what can be freed was freed if the table is full. */
static bool make_room(struct table *table)
{
	if (count_one(table))
		return true;
	if (atomic_load(&table->deferred) == 0)
		return false;
	free_all_deferred(table);
	return count_one(table);
}

/* A change that needs a slot: an attach, or a replacement if `gone` is needed. */
struct change {
	const struct kupaldiz_name *name;
	uint64_t value;
	bool replaces;
	struct kupaldiz_entry *gone;
	struct kupaldiz_entry *made;
};

/* What the change returns while the table is full: what is wrong otherwise comes first. */
static enum kupaldiz_result judge_full(struct kupaldiz_cpu *cpu, const struct change *change)
{
	uint64_t depth;
	if (change->replaces && change->gone == NULL)
		return KUPALDIZ_NULL;
	enum kupaldiz_result result = kupaldiz_look_up(cpu, KUPALDIZ_ENTRY, change->name, NULL);
	if (result != KUPALDIZ_DONE && result != KUPALDIZ_NOT_FOUND)
		return result;
	if (kupaldiz_depth(cpu, &depth) == KUPALDIZ_DONE && depth != 0)
		return KUPALDIZ_INSIDE;
	const bool is_taken = result == KUPALDIZ_DONE;
	if (is_taken == change->replaces)
		return KUPALDIZ_NO_SLOT;
	return is_taken ? KUPALDIZ_NAME_TAKEN : KUPALDIZ_NOT_FOUND;
}

/* Makes the change in its registry, where deferred entries are freed first. */
static enum kupaldiz_result change_in(struct kupaldiz_table_cpu *seat, const struct change *change)
{
	struct kupaldiz_table_registry *registry = seat->registry;
	enum kupaldiz_result result;
	take(registry);
	free_deferred(registry);
	if (change->replaces)
		result = kupaldiz_replace(&registry->keeper, &seat->cpu, change->name,
		    change->value, change->gone, change->made);
	else
		result = kupaldiz_attach(&registry->keeper, &seat->cpu, change->name,
		    change->value, change->made);
	give(registry);
	return result;
}

static enum kupaldiz_result make_change(const struct kupaldiz_table_thread *thread,
    const struct change *change)
{
	struct kupaldiz_table_cpu *seat = seat_of_name(thread, change->name);
	if (seat->registry == NULL)
		return KUPALDIZ_EMPTY_HANDLE;
	struct table *table = seat->registry->table;
	if (!make_room(table))
		return judge_full(&seat->cpu, change);
	enum kupaldiz_result result = change_in(seat, change);
	if (result != KUPALDIZ_DONE) {
		note_gone(table);
		return result == KUPALDIZ_NO_SLOT ? KUPALDIZ_CROWDED : result;
	}
	widened(seat, result, change->made);
	return widened(seat, result, change->gone);
}

enum kupaldiz_result kupaldiz_table_attach(const struct kupaldiz_table_thread *thread,
    const struct kupaldiz_name *name, uint64_t value, struct kupaldiz_entry *made)
{
	const struct change change = {.name = name, .value = value, .made = made};
	return make_change(thread, &change);
}

enum kupaldiz_result kupaldiz_table_replace(const struct kupaldiz_table_thread *thread,
    const struct kupaldiz_name *name, uint64_t value, struct kupaldiz_entry *gone,
    struct kupaldiz_entry *made)
{
	const struct change change = {name, value, true, gone, made};
	return make_change(thread, &change);
}

enum kupaldiz_result kupaldiz_table_detach(const struct kupaldiz_table_thread *thread,
    const struct kupaldiz_name *name, struct kupaldiz_entry *gone)
{
	struct kupaldiz_table_cpu *seat = seat_of_name(thread, name);
	if (seat->registry == NULL)
		return KUPALDIZ_EMPTY_HANDLE;
	take(seat->registry);
	enum kupaldiz_result result = kupaldiz_detach(&seat->registry->keeper, &seat->cpu,
	    KUPALDIZ_ENTRY, name, gone);
	give(seat->registry);
	return widened(seat, result, gone);
}

/* ---- What is gone. ---- */

enum kupaldiz_result kupaldiz_table_destroy(const struct kupaldiz_table_thread *thread,
    uint64_t number, const struct timespec *deadline, struct kupaldiz_met *met)
{
	struct kupaldiz_met last;
	struct kupaldiz_table_cpu *seat;
	enum kupaldiz_result result = find_seat(thread, number, KUPALDIZ_NOT_RETIRED, &seat);
	if (result != KUPALDIZ_DONE)
		return result;
	result = kupaldiz_destroy_wait(&seat->registry->interlock, &seat->cpu,
	    number - seat->number, deadline, &last);
	if (result == KUPALDIZ_DONE) {
		note_gone(seat->registry->table);
		last.what += seat->slot;
	}
	if (met != NULL && (result == KUPALDIZ_DONE || result == KUPALDIZ_STILL_HELD))
		*met = last;
	return result;
}

/* Adds an entry, as its registry has it, to those that are freed later. */
static enum kupaldiz_result defer_in(struct kupaldiz_table_registry *registry,
    const struct kupaldiz_entry *gone)
{
	take(registry);
	enum kupaldiz_result result = kupaldiz_deferred_add(&registry->deferred, gone);
	if (result == KUPALDIZ_DONE) {
		atomic_fetch_add(&registry->table->deferred, 1);
		free_deferred(registry);
	}
	give(registry);
	return result;
}

enum kupaldiz_result kupaldiz_table_defer(const struct kupaldiz_table_thread *thread,
    const struct kupaldiz_entry *gone)
{
	struct kupaldiz_table_cpu *seat;
	enum kupaldiz_result result = find_seat(thread, gone != NULL ? gone->number : 0,
	    KUPALDIZ_NOT_RETIRED, &seat);
	if (result != KUPALDIZ_DONE || gone == NULL)
		return result != KUPALDIZ_DONE ? result : KUPALDIZ_NULL;
	struct kupaldiz_entry own = *gone;
	narrow(seat, &own);
	return defer_in(seat->registry, &own);
}

enum kupaldiz_result kupaldiz_table_barrier(const struct kupaldiz_table *handle,
    const struct timespec *deadline)
{
	struct table *table = handle->at;
	enum kupaldiz_result result = KUPALDIZ_DONE;
	if (table == NULL)
		return KUPALDIZ_EMPTY_HANDLE;
	for (size_t i = 0; i < table->choice.registries; i++)
		if (kupaldiz_deferred_barrier(&table->registries[i].deferred, deadline) !=
		    KUPALDIZ_DONE)
			result = KUPALDIZ_STILL_HELD;
	return result;
}

enum kupaldiz_result kupaldiz_table_count(const struct kupaldiz_table *handle, uint64_t *count)
{
	struct table *table = handle->at;
	if (table == NULL)
		return KUPALDIZ_EMPTY_HANDLE;
	if (count != NULL)
		*count = atomic_load(&table->occupied);
	return KUPALDIZ_DONE;
}
