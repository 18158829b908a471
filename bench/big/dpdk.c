/* DPDK's rte_hash with its lock-free readers, under rte_rcu_qsbr. */
#include <rte_eal.h>
#include <rte_hash.h>
#include <rte_rcu_qsbr.h>
#include <stdlib.h>

#include "big.h"

static struct rte_hash *table;
static struct rte_rcu_qsbr *state;

static uint32_t hash(const void *key, uint32_t length, uint32_t seed)
{
    (void)length;
    (void)seed;
    return (uint32_t)hashed(key);
}

static void open_table(unsigned threads, uint64_t entries)
{
    char *words[] = {"big", "--no-shconf", "--no-huge", "-m", "1024", "--no-pci", "--log-level=1", NULL};
    struct rte_hash_parameters parameters = {.name = "big", .entries = (uint32_t)(entries < 8 ? 8 : entries), .key_len = sizeof(struct name), .hash_func = hash,
        .extra_flag = RTE_HASH_EXTRA_FLAGS_RW_CONCURRENCY_LF};
    (void)threads;
    if (rte_eal_init(7, words) < 0 || (table = rte_hash_create(&parameters)) == NULL)
        fail("no table");
    state = aligned_alloc(64, (rte_rcu_qsbr_get_memsize(MOST_THREADS) + 63) & ~(size_t)63);
    if (state == NULL || rte_rcu_qsbr_init(state, MOST_THREADS) != 0)
        fail("no state");
}

static void begin(unsigned thread)
{
    rte_rcu_qsbr_thread_register(state, thread);
    rte_rcu_qsbr_thread_online(state, thread);
}

static void end(unsigned thread)
{
    rte_rcu_qsbr_thread_offline(state, thread);
    rte_rcu_qsbr_thread_unregister(state, thread);
}

static void add(unsigned thread, struct item *item)
{
    (void)thread;
    if (rte_hash_add_key_data(table, &item->name, item) != 0)
        fail("not added");
}

static uint64_t find(unsigned thread, const struct name *name)
{
    void *item;
    const uint64_t id = rte_hash_lookup_data(table, name, &item) < 0 ? UINT64_MAX : ((const struct item *)item)->id;
    rte_rcu_qsbr_quiescent(state, thread);
    return id;
}

static struct item *replace(unsigned thread, struct item *item)
{
    void *old;
    if (rte_hash_lookup_data(table, &item->name, &old) < 0)
        fail("not found");
    add(thread, item);
    rte_rcu_qsbr_synchronize(state, thread);
    return old;
}

/* A thread that waits would keep a replacement waiting. */
static void idle(unsigned thread, bool is_idle)
{
    if (is_idle)
        rte_rcu_qsbr_thread_offline(state, thread);
    else
        rte_rcu_qsbr_thread_online(state, thread);
}

const struct contender dpdk_hash = {"rte_hash", open_table, begin, end, add, find, replace, true, idle};
