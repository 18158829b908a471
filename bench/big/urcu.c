/* liburcu's lock-free hash table under its default flavour. The node lies in the item's hook. */
#define _LGPL_SOURCE
#define RCU_MEMB
#include <urcu.h>
#include <urcu/rculfhash.h>

#include "big.h"

static struct cds_lfht *lfht;

#define ITEM_OF(node) ((struct item *)((char *)(node) - offsetof(struct item, hook)))

static int is_named(struct cds_lfht_node *node, const void *name)
{
    return same(&ITEM_OF(node)->name, name);
}

static void open_lfht(unsigned threads, uint64_t entries)
{
    uint64_t size = 1;
    (void)threads;
    while (size < entries)
        size *= 2;
    lfht = cds_lfht_new(size, size, 0, 0, NULL);
    if (lfht == NULL)
        fail("no table");
}

static void begin_lfht(unsigned thread)
{
    (void)thread;
    rcu_register_thread();
}

static void end_lfht(unsigned thread)
{
    (void)thread;
    rcu_unregister_thread();
}

static void add_lfht(unsigned thread, struct item *item)
{
    (void)thread;
    rcu_read_lock();
    cds_lfht_add(lfht, hashed(&item->name), (struct cds_lfht_node *)item->hook);
    rcu_read_unlock();
}

static uint64_t find_lfht(unsigned thread, const struct name *name)
{
    struct cds_lfht_iter at;
    (void)thread;
    rcu_read_lock();
    cds_lfht_lookup(lfht, hashed(name), is_named, name, &at);
    struct cds_lfht_node *node = cds_lfht_iter_get_node(&at);
    const uint64_t id = node == NULL ? UINT64_MAX : ITEM_OF(node)->id;
    rcu_read_unlock();
    return id;
}

static struct item *replace_lfht(unsigned thread, struct item *item)
{
    (void)thread;
    rcu_read_lock();
    struct cds_lfht_node *old = cds_lfht_add_replace(lfht, hashed(&item->name), is_named, &item->name, (struct cds_lfht_node *)item->hook);
    rcu_read_unlock();
    synchronize_rcu();
    return ITEM_OF(old);
}

const struct contender urcu_lfht = {"urcu-lfht", open_lfht, begin_lfht, end_lfht, add_lfht, find_lfht, replace_lfht, false};
