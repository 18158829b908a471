/* opening.c - how many registries a table has, its memory, and how it is opened */
#include "parts.h"

#include <errno.h>
#include <string.h>
#include <sys/random.h>

/* An entry of a registry is gone. The caller has the registry's lock. */
static void end_deferred(void *of, const struct kupaldiz_entry *gone)
{
	const struct kupaldiz_table_registry *registry = of;
	struct table *table = registry->table;
	struct kupaldiz_entry entry = *gone;
	kupaldiz_table_widen(&table->seats[registry - table->registries], &entry);
	atomic_fetch_sub(&table->deferred, 1);
	note_gone(table);
	if (table->freed != NULL)
		table->freed(table->of, &entry);
}

/* Draws the secret. False if the system gives no random bytes. */
static bool draw(struct secret *secret)
{
	ssize_t length;
	do {
		length = getrandom(secret, sizeof *secret, 0);
	} while (length < 0 && errno == EINTR);
	secret->factors[0] |= 1;
	secret->factors[1] |= 1;
	return length == (ssize_t)sizeof *secret;
}

/* ---- Memory. ---- */

/* Memory for so many members, each on lines of the cache of its own. */
static struct member *make_members(uint64_t count)
{
	struct member *made = aligned_alloc(_Alignof(struct member), count * sizeof *made);
	for (uint64_t i = 0; made != NULL && i < count; i++)
		made[i] = (struct member){.walks = false};
	return made;
}

/* Vacant places for so many memories, each on lines of the cache of its own. */
static struct kupaldiz_table_place *make_places(uint64_t memories, unsigned place_bits)
{
	const size_t bytes = memories * sizeof(struct kupaldiz_table_place) << place_bits;
	struct kupaldiz_table_place *made = aligned_alloc(WAYS * sizeof *made, bytes);
	if (made != NULL)
		memset(made, 0xff, bytes);
	return made;
}

static bool has_all_memory(const struct table *table)
{
	return table->places != NULL && table->registries != NULL && table->members != NULL &&
	    table->rows != NULL && table->seats != NULL && table->row != NULL &&
	    table->balances != NULL && table->lent != NULL;
}

/* A table with all its memory, and with nothing open; or NULL. */
static struct table *make_table(const struct kupaldiz_table_settings *settings)
{
	const struct choice choice = choice_for(settings->entries);
	const uint64_t threads = settings->threads, registries = choice.registries;
	struct table *made = aligned_alloc(_Alignof(struct table), sizeof *made);
	if (made == NULL)
		return NULL;
	*made = (struct table){.choice = choice, .threads = threads, .entries = settings->entries,
	    .freed = settings->freed, .of = settings->of};
	made->places = make_places(threads, place_bits_for(settings->entries));
	made->registries = calloc(registries, sizeof *made->registries);
	made->members = make_members(threads);
	made->rows = calloc((registries + threads) * choice.slots, sizeof *made->rows);
	made->seats = calloc(threads * registries, sizeof *made->seats);
	made->row = calloc(threads, sizeof *made->row);
	made->balances = calloc(choice.slots, sizeof *made->balances);
	made->lent = calloc(threads, sizeof *made->lent);
	if (has_all_memory(made) && draw(&made->choice.secret))
		return made;
	free_table(made);
	return NULL;
}

/* ---- Registries. ---- */

/* Each member has its own part of the memory. */
static void set_members(struct table *table)
{
	const struct choice *choice = &table->choice;
	const unsigned place_bits = place_bits_for(table->entries);
	struct kupaldiz_entry *rows = &table->rows[choice->registries * choice->slots];
	for (uint64_t i = 0; i < table->threads; i++)
		table->members[i] = (struct member){.table = table, .row = &rows[i * choice->slots],
		    .memory = memory_of(choice, place_bits, &table->places[i << place_bits],
		    &table->seats[i * choice->registries])};
}

/* Opens a registry, and gives each member its CPU of it. */
static enum kupaldiz_result open_registry(struct table *table, size_t index)
{
	const uint64_t slots = table->choice.slots;
	const struct kupaldiz_settings settings = KUPALDIZ_SETTINGS(table->threads, slots);
	struct kupaldiz_table_registry *registry = &table->registries[index];
#ifdef KUPALDIZ_CHECK
	kupaldiz_check_above(index * KUPALDIZ_MOST_CHANGES);
#endif
	enum kupaldiz_result result = kupaldiz_open(&settings, &registry->keeper, table->row,
	    table->threads);
	if (result != KUPALDIZ_DONE)
		return result;
	registry->table = table;
	pthread_mutex_init(&registry->mutex, NULL);
	registry->interlock = kupaldiz_interlock_of_mutex(&registry->keeper, &registry->mutex);
	registry->deferred = (struct kupaldiz_deferred){.interlock = &registry->interlock,
	    .entries = &table->rows[index * slots], .room = slots, .freed = end_deferred,
	    .of = registry};
	for (uint64_t i = 0; i < table->threads; i++) {
		table->members[i].memory.cpus[index] = (struct kupaldiz_table_cpu){.cpu = table->row[i],
		    .registry = registry, .number = index * KUPALDIZ_MOST_CHANGES,
		    .slot = index * slots};
		table->row[i] = (struct kupaldiz_cpu){0};
	}
	return KUPALDIZ_DONE;
}

/* Opens all registries, and what lends the handles; or none. */
static enum kupaldiz_result open_all(struct table *table)
{
	const uint64_t registries = table->choice.registries;
	enum kupaldiz_result result = KUPALDIZ_DONE;
	size_t opened = 0;
	set_members(table);
	while (result == KUPALDIZ_DONE && opened < registries) {
		result = open_registry(table, opened);
		opened += result == KUPALDIZ_DONE;
	}
	for (uint64_t i = 0; opened == registries && i < table->threads; i++)
		table->lent[i] = table->members[i].memory.cpus[0].cpu;
	if (result == KUPALDIZ_DONE)
		result = kupaldiz_pool_open(&table->pool, table->lent, table->threads);
	if (result != KUPALDIZ_DONE)
		close_registries(table, opened);
	return result;
}

static bool are_fit(const struct kupaldiz_table_settings *settings)
{
	return settings->threads >= 1 && settings->threads <= KUPALDIZ_MOST_CPUS &&
	    settings->entries >= 1 && settings->entries <= KUPALDIZ_TABLE_MOST_ENTRIES &&
	    choice_for(settings->entries).registries <= UINT64_C(1) << MOST_INDEX_BITS;
}

enum kupaldiz_result kupaldiz_table_open(const struct kupaldiz_table_settings *settings,
    struct kupaldiz_table *handle)
{
	if (handle->at != NULL)
		return KUPALDIZ_FULL_HANDLE;
	if (settings == NULL)
		return KUPALDIZ_NULL;
	if (!are_fit(settings))
		return KUPALDIZ_BAD_SETTINGS;
	struct table *made = make_table(settings);
	if (made == NULL)
		return KUPALDIZ_NO_MEMORY;
	enum kupaldiz_result result = open_all(made);
	if (result == KUPALDIZ_DONE)
		handle->at = made;
	else
		free_table(made);
	return result;
}
