/* threads.c - handles of threads: a pool lends the first registry's CPUs, one for each handle */
#include "inner.h"

enum kupaldiz_result kupaldiz_table_take(const struct kupaldiz_table *handle,
    const struct timespec *deadline, struct kupaldiz_table_thread *thread)
{
	struct table *table = handle->at;
	struct kupaldiz_cpu *cpu;
	if (table == NULL)
		return KUPALDIZ_EMPTY_HANDLE;
	if (thread->at != NULL)
		return KUPALDIZ_FULL_HANDLE;
	enum kupaldiz_result result = kupaldiz_pool_take(&table->pool, deadline, &cpu);
	if (result != KUPALDIZ_DONE)
		return result;
	thread->number = (uint64_t)(cpu - table->lent);
	thread->at = &table->members[thread->number];
	return KUPALDIZ_DONE;
}

enum kupaldiz_result kupaldiz_table_give(struct kupaldiz_table_thread *thread)
{
	const struct member *member = thread->at;
	if (member == NULL)
		return KUPALDIZ_EMPTY_HANDLE;
	struct table *table = member->table;
	if (kupaldiz_pool_cpu(&table->pool) != &table->lent[member - table->members])
		return KUPALDIZ_WRONG_CPU;
	if (member->walks)
		return KUPALDIZ_INSIDE;
	enum kupaldiz_result result = kupaldiz_pool_give(&table->pool);
	if (result == KUPALDIZ_DONE)
		*thread = (struct kupaldiz_table_thread){0};
	return result;
}
