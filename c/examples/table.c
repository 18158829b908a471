/*
 * table [CONNECTIONS] - a table of connections, by default 10,000: threads answer them by number,
 * while one of them closes each, and frees it once no thread uses it
 *
 * A table has no keeper, no CPUs by hand and no lock of the program's: each thread takes a handle.
 */
#include <inttypes.h>

#include "example.h"
#include "kupaldiz_table.h"

enum { THREADS = 4 };

struct connection {
	uint64_t id;
	uint64_t bytes;
};

static struct kupaldiz_table table;
static uint64_t connections = 10000;
static uint64_t freed;

/* A connection is gone: nobody holds it, and nobody finds it any more. */
static void free_connection(void *of, const struct kupaldiz_entry *gone)
{
	free(gone->pointer);
	++*(uint64_t *)of;
}

static void accept_one(const struct kupaldiz_table_thread *thread, uint64_t id)
{
	struct connection *made = malloc(sizeof *made);
	struct kupaldiz_name name;
	expect("memory", made != NULL);
	*made = (struct connection){id, id % 1500};
	kupaldiz_name_of_id(id, &name);
	check("attach", kupaldiz_table_attach(thread, &name, kupaldiz_value(made), NULL));
}

/* The bytes of a connection, or 0 if it was closed. The thread may sleep before the release. */
static uint64_t answer(const struct kupaldiz_table_thread *thread, uint64_t id)
{
	struct kupaldiz_passive reference = {0};
	struct kupaldiz_name name;

	kupaldiz_name_of_id(id, &name);
	enum kupaldiz_result result = kupaldiz_table_get(thread, &name, &reference);
	if (result == KUPALDIZ_NOT_FOUND)
		return 0;
	check("get", result);
	const struct connection *connection = reference.entry.pointer;
	const uint64_t bytes = connection->bytes;
	check("release", kupaldiz_table_release(thread, &reference));
	return bytes;
}

static void *answer_all(void *of)
{
	struct kupaldiz_table_thread thread = {0};
	uint64_t *bytes = of;
	check("take", kupaldiz_table_take(&table, NULL, &thread));
	for (uint64_t id = 0; id < connections; id++)
		*bytes += answer(&thread, id);
	check("give", kupaldiz_table_give(&thread));
	return NULL;
}

/* Others find it no more. It is freed at once if nobody uses it, and else later. */
static void close_one(const struct kupaldiz_table_thread *thread, uint64_t id)
{
	struct kupaldiz_entry gone;
	struct kupaldiz_name name;
	kupaldiz_name_of_id(id, &name);
	check("detach", kupaldiz_table_detach(thread, &name, &gone));
	check("defer", kupaldiz_table_defer(thread, &gone));
}

int main(int argc, char **argv)
{
	pthread_t threads[THREADS - 1];
	uint64_t bytes[THREADS - 1] = {0};
	struct kupaldiz_table_thread own = {0};
	if (argc > 1)
		connections = strtoull(argv[1], NULL, 10);

	const struct kupaldiz_table_settings settings = {.threads = THREADS, .entries = connections,
	    .freed = free_connection, .of = &freed};
	check("open", kupaldiz_table_open(&settings, &table));
	check("take", kupaldiz_table_take(&table, NULL, &own));
	for (uint64_t id = 0; id < connections; id++)
		accept_one(&own, id);
	for (size_t i = 0; i < THREADS - 1; i++)
		threads[i] = started(answer_all, &bytes[i]);
	for (uint64_t id = 0; id < connections; id++)
		close_one(&own, id);
	for (size_t i = 0; i < THREADS - 1; i++)
		joined(threads[i]);
	check("barrier", kupaldiz_table_barrier(&table, NULL));
	check("give", kupaldiz_table_give(&own));
	check("close", kupaldiz_table_close(&table));
	expect("each connection was freed", freed == connections);
	printf("%" PRIu64 " connections were closed, and freed\n", freed);
	return 0;
}
