/* A table of kupaldiz_table.h, by copies and by references, and with room for eight times as many; and one registry of 8 entries. */
#include "big.h"

#include <stdlib.h>

#include "kupaldiz_table.h"

static struct kupaldiz_table table;
static struct kupaldiz_table_thread handles[MOST_THREADS];

static void done(enum kupaldiz_result result)
{
    if (result != KUPALDIZ_DONE)
        fail(kupaldiz_strerror(result));
}

static struct kupaldiz_name named(const struct name *name)
{
    return (struct kupaldiz_name){name->words[0], name->words[1]};
}

/* A retired entry counts: there is room for one of each thread. */
static void open_table(unsigned threads, uint64_t entries)
{
    const struct kupaldiz_table_settings settings = {.threads = threads, .entries = entries + threads};
    done(kupaldiz_table_open(&settings, &table));
}

/* Lists are an eighth as long. */
static void open_roomy(unsigned threads, uint64_t entries)
{
    open_table(threads, 8 * entries);
}

static void begin(unsigned thread)
{
    done(kupaldiz_table_take(&table, NULL, &handles[thread]));
}

static void end(unsigned thread)
{
    done(kupaldiz_table_give(&handles[thread]));
}

static void add(unsigned thread, struct item *item)
{
    const struct kupaldiz_name name = named(&item->name);
    done(kupaldiz_table_attach(&handles[thread], &name, kupaldiz_value(item), NULL));
}

/* A copy holds nothing, so the value is the id itself. */
static void add_id(unsigned thread, struct item *item)
{
    const struct kupaldiz_name name = named(&item->name);
    done(kupaldiz_table_attach(&handles[thread], &name, item->id, NULL));
}

static uint64_t look_up(unsigned thread, const struct name *sought)
{
    const struct kupaldiz_name name = named(sought);
    struct kupaldiz_entry found;
    return kupaldiz_table_look_up(&handles[thread], &name, &found) == KUPALDIZ_DONE ? found.value : UINT64_MAX;
}

static uint64_t get(unsigned thread, const struct name *sought)
{
    const struct kupaldiz_name name = named(sought);
    struct kupaldiz_passive held = {0};
    if (kupaldiz_table_get(&handles[thread], &name, &held) != KUPALDIZ_DONE)
        return UINT64_MAX;
    const uint64_t id = ((const struct item *)held.entry.pointer)->id;
    done(kupaldiz_table_release(&handles[thread], &held));
    return id;
}

static struct item *replace(unsigned thread, struct item *item)
{
    const struct kupaldiz_name name = named(&item->name);
    struct kupaldiz_entry gone;
    done(kupaldiz_table_replace(&handles[thread], &name, kupaldiz_value(item), &gone, NULL));
    done(kupaldiz_table_destroy(&handles[thread], gone.number, NULL, NULL));
    return gone.pointer;
}

const struct contender ours_look_up = {"look_up", open_table, begin, end, add_id, look_up, NULL, false};
const struct contender ours_roomy = {"roomy", open_roomy, begin, end, add_id, look_up, NULL, false};
const struct contender ours_get = {"get", open_table, begin, end, add, get, replace, false};

/* ---- One registry, in which the same eight names are looked up. ---- */

static struct kupaldiz_keeper keeper;
static struct kupaldiz_cpu cpus[MOST_THREADS];

static void open_small(unsigned threads, uint64_t entries)
{
    const struct kupaldiz_settings settings = KUPALDIZ_SETTINGS(threads, 8);
    if (entries > 8)
        fail("a registry of 8 has at most 8 entries here");
    done(kupaldiz_open(&settings, &keeper, cpus, threads));
}

static void nothing(unsigned thread)
{
    (void)thread;
}

static void add_small(unsigned thread, struct item *item)
{
    const struct kupaldiz_name name = named(&item->name);
    done(kupaldiz_attach(&keeper, &cpus[thread], &name, item->id, NULL));
}

static uint64_t look_up_small(unsigned thread, const struct name *sought)
{
    const struct kupaldiz_name name = named(sought);
    struct kupaldiz_entry found;
    return kupaldiz_look_up(&cpus[thread], KUPALDIZ_ENTRY, &name, &found) == KUPALDIZ_DONE ? found.value : UINT64_MAX;
}

const struct contender ours_small = {"registry", open_small, nothing, nothing, add_small, look_up_small, NULL, false};
