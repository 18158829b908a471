/* parts.h - what opening, closing and auditing share: the parts of a table, and their end */
#ifndef TABLE_PARTS_H
#define TABLE_PARTS_H

#include "inner.h"

#include <stdlib.h>

static inline void free_table(struct table *table)
{
	free(table->registries);
	free(table->members);
	free(table->rows);
	free(table->seats);
	free(table->places);
	free(table->row);
	free(table->balances);
	free(table->lent);
	free(table);
}

/* All CPUs of a registry, in order. Nobody else is in a call with the table. */
static inline struct kupaldiz_cpu *row_of_cpus(const struct table *table, size_t index)
{
	for (uint64_t i = 0; i < table->threads; i++)
		table->row[i] = table->members[i].memory.cpus[index].cpu;
	return table->row;
}

/* Closes the first registries. Nobody is inside a section of theirs. */
static inline void close_registries(struct table *table, size_t count)
{
	while (count > 0) {
		struct kupaldiz_table_registry *registry = &table->registries[--count];
		kupaldiz_close(&registry->keeper, row_of_cpus(table, count), table->threads);
		pthread_mutex_destroy(&registry->mutex);
	}
}

#endif
