/* DPDK's rte_rcu_qsbr: a reader only says, between sections, that it is in none. It says so here as each section ends. */
#include <rte_rcu_qsbr.h>

#include "entries.h"

#include <stdlib.h>

static struct rte_rcu_qsbr *state;

static void open_state(const struct plan *plan)
{
    make_list(plan);
    state = aligned_alloc(RTE_CACHE_LINE_SIZE, (rte_rcu_qsbr_get_memsize(MOST_THREADS) + RTE_CACHE_LINE_SIZE - 1) & ~(size_t)(RTE_CACHE_LINE_SIZE - 1));
    if (state == NULL || rte_rcu_qsbr_init(state, MOST_THREADS) != 0)
        fail("no state");
}

static void begin(unsigned thread)
{
    if (rte_rcu_qsbr_thread_register(state, thread) != 0)
        fail("no place for the thread");
    rte_rcu_qsbr_thread_online(state, thread);
}

static void end(unsigned thread)
{
    rte_rcu_qsbr_thread_offline(state, thread);
    rte_rcu_qsbr_thread_unregister(state, thread);
}

static void rest(unsigned thread)
{
    rte_rcu_qsbr_thread_offline(state, thread);
}

LISTED_LOOKUPS(dpdk, rte_rcu_qsbr_lock(state, thread), rte_rcu_qsbr_unlock(state, thread); rte_rcu_qsbr_quiescent(state, thread))

LISTED_CHANGES(dpdk, rte_rcu_qsbr_synchronize(state, RTE_QSBR_THRID_INVALID))

const struct contender dpdk_qsbr = {
    .name = "dpdk-qsbr",
    .open = open_state,
    .begin = begin,
    .end = end,
    .rest = rest,
    LOOKUPS_OF(dpdk),
    CHANGES_OF(dpdk),
};
