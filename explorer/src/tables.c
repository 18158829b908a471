/* tables.c - memory that no run begins anew, and the tables in it: they grow, and some are looked up by a key */
#include <sys/mman.h>

#include "inside.h"

enum { FIRST_ROOM = 256 };

static const size_t sizes[TABLES] = {
    [BLOCKS] = sizeof(struct block),
    [SYNCS] = sizeof(struct sync),
    [PLAIN] = sizeof(struct plain),
    [THINGS] = sizeof(struct thing),
};

/* Pages of zeros: MAP_PRIVATE, or MAP_SHARED with the processes that are made later. */
void *map_pages(size_t size, int how)
{
	void *at = mmap(NULL, size, PROT_READ | PROT_WRITE, how | MAP_ANONYMOUS | MAP_NORESERVE, -1, 0);
	refuse_if(at == MAP_FAILED, "out of memory");
	return at;
}

/* The rows of a table: this run has filled run.rows[table] of them. A new row may move them. */
void *rows_of(enum table table)
{
	return scratch->tables[table].rows;
}

static void extend(enum table table)
{
	size_t before = scratch->tables[table].room, room = before == 0 ? FIRST_ROOM : before * 2;
	void *rows = map_pages(room * sizes[table], MAP_PRIVATE);
	if (before > 0) {
		memcpy(rows, scratch->tables[table].rows, before * sizes[table]);
		munmap(scratch->tables[table].rows, before * sizes[table]);
	}
	scratch->tables[table].rows = rows;
	scratch->tables[table].room = room;
}

void *new_row(enum table table)
{
	if (run.rows[table] == scratch->tables[table].room)
		extend(table);
	char *row = (char *)scratch->tables[table].rows + run.rows[table]++ * sizes[table];
	return memset(row, 0, sizes[table]);
}

/* ---- Rows by a key: each begins with a struct keyed. ---- */

static uint32_t *list_of(enum table table, uintptr_t key)
{
	if (run.rows[table] == 0)
		memset(scratch->lists[table], 0, sizeof(scratch->lists[table]));
	return &scratch->lists[table][(key * 0x9e3779b97f4a7c15u >> 32) % LISTS];
}

static void *find_from(enum table table, uint32_t row, uintptr_t key)
{
	for (; row != 0;) {
		struct keyed *found = (struct keyed *)(void *)((char *)rows_of(table) + (row - 1) * sizes[table]);
		if (found->key == key)
			return found;
		row = found->next;
	}
	return NULL;
}

void *row_with(enum table table, uintptr_t key)
{
	return find_from(table, *list_of(table, key), key);
}

void *row_after(enum table table, const void *row)
{
	const struct keyed *of = row;
	return find_from(table, of->next, of->key);
}

void *add_row(enum table table, uintptr_t key)
{
	uint32_t *list = list_of(table, key);
	struct keyed *row = new_row(table);
	*row = (struct keyed){key, *list};
	*list = (uint32_t)run.rows[table];
	return row;
}

void *row_for(enum table table, uintptr_t key)
{
	void *row = row_with(table, key);
	return row != NULL ? row : add_row(table, key);
}
