/* ending.c - what is held: an audit of one entry, and the end of a table that holds nothing */
#include "parts.h"

/* The balances of a registry: their number. Nobody else is in a call with the table. */
static size_t audit_registry(struct table *table, size_t index)
{
	struct kupaldiz_table_registry *registry = &table->registries[index];
	size_t length = 0;
	take(registry);
	enum kupaldiz_result result = kupaldiz_audit(&registry->keeper, row_of_cpus(table, index),
	    table->threads, table->balances, table->choice.slots, &length);
	give(registry);
	return result == KUPALDIZ_DONE ? length : 0;
}

enum kupaldiz_result kupaldiz_table_audit(const struct kupaldiz_table *handle, uint64_t number,
    struct kupaldiz_balance *balance)
{
	struct table *table = handle->at;
	if (table == NULL)
		return KUPALDIZ_EMPTY_HANDLE;
	if (balance == NULL)
		return KUPALDIZ_NULL;
	const struct kupaldiz_table_cpu *seat = seat_of_number(table->members, number);
	const size_t length = seat != NULL ? audit_registry(table, index_of(number)) : 0;
	for (size_t i = 0; i < length; i++) {
		if (table->balances[i].number != number - seat->number)
			continue;
		*balance = table->balances[i];
		balance->number = number;
		balance->slot += seat->slot;
		return KUPALDIZ_DONE;
	}
	return KUPALDIZ_NOT_FOUND;
}

/* Whether a member has a passive reference to the entry of that registry. */
static bool is_referred_to(const struct table *table, size_t index, uint64_t number)
{
	bool held = false;
	for (uint64_t i = 0; i < table->threads && !held; i++)
		kupaldiz_held(&table->members[i].memory.cpus[index].cpu, number, &held);
	return held;
}

/* Whether a reference holds an entry of that registry. */
static bool is_held(struct table *table, size_t index)
{
	size_t length = audit_registry(table, index);
	bool held = false;
	for (size_t i = 0; i < length && !held; i++)
		held = table->balances[i].held != 0 ||
		    is_referred_to(table, index, table->balances[i].number);
	return held;
}

enum kupaldiz_result kupaldiz_table_close(struct kupaldiz_table *handle)
{
	static const struct timespec past = {0, 0};
	struct table *table = handle->at;
	if (table == NULL)
		return KUPALDIZ_EMPTY_HANDLE;
	if (kupaldiz_table_barrier(handle, &past) != KUPALDIZ_DONE)
		return KUPALDIZ_STILL_HELD;
	for (size_t i = 0; i < table->choice.registries; i++)
		if (is_held(table, i))
			return KUPALDIZ_STILL_HELD;
	enum kupaldiz_result result = kupaldiz_pool_close(&table->pool);
	if (result != KUPALDIZ_DONE)
		return result;
	close_registries(table, table->choice.registries);
	free_table(table);
	handle->at = NULL;
	return KUPALDIZ_DONE;
}
