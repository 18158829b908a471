/* The entries that are looked up: the drivers "d00", "d01" and so on, and a linked list of them for the contenders that have none of their own. */
#ifndef BENCH_ENTRIES_H
#define BENCH_ENTRIES_H

#include "common.h"

#include <stdatomic.h>
#include <stddef.h>

#define INLINE static inline __attribute__((always_inline))

enum { DRIVER = 2 };

struct node {
    _Alignas(64) _Atomic(struct node *) next;
    uint64_t number;
    struct key key;
    uint64_t value;
};

extern _Atomic(struct node *) newest;

/* Makes the keys and the list, the newest entry first. The value of entry i, from 0, is i. */
void make_list(const struct plan *plan);

/* Takes the newest entry of the list out of it, puts it in anew, or puts a new one in its place by one store, each under a lock that changes share.
   The node that was replaced is taken for the next new entry. */
void unlink_newest(void);
void link_newest(void);
void exchange_newest(void);

INLINE int is_key(const struct key *key, uint64_t kind, uint64_t high, uint64_t low)
{
    return key->kind == kind && key->high == high && key->low == low;
}

/* The value of the entry with that key in the list; UINT64_MAX where there is none. */
INLINE uint64_t listed_value(const struct key *key)
{
    const struct node *node = atomic_load_explicit(&newest, memory_order_acquire);

    while (node != NULL) {
        if (is_key(key, node->key.kind, node->key.high, node->key.low))
            return node->value;
        node = atomic_load_explicit(&node->next, memory_order_acquire);
    }
    return UINT64_MAX;
}

/* Copies the list to the row, the newest entry first. It returns how many entries it has. */
INLINE unsigned copy_list(struct copied row[MOST_ENTRIES])
{
    const struct node *node = atomic_load_explicit(&newest, memory_order_acquire);
    unsigned count = 0;

    for (; node != NULL && count < MOST_ENTRIES; count++) {
        row[count] = (struct copied){ node->number, node->key, node->value };
        node = atomic_load_explicit(&node->next, memory_order_acquire);
    }
    return count;
}

/* Walks so often. It returns how many walks met all entries, the newest first. */
INLINE uint64_t in_walks(unsigned thread, uint64_t count, void (*enter)(unsigned thread),
    unsigned (*walk)(unsigned thread, struct copied row[MOST_ENTRIES]), void (*leave)(unsigned thread))
{
    struct copied row[MOST_ENTRIES];
    uint64_t right = 0;

    for (uint64_t made = 0; made < count; made++) {
        unsigned met;

        enter(thread);
        met = walk(thread, row);
        leave(thread);
        right += met == entries && row[0].value == entries - 1 && row[met - 1].value == 0;
    }
    return right;
}

/* Looks the entries up in turn. It returns how many lookups answered the entry's value. */
INLINE uint64_t in_turn(unsigned thread, uint64_t count, uint64_t (*look_up)(unsigned thread, const struct key *key))
{
    uint64_t right = 0;
    unsigned i = 0;

    for (uint64_t made = 0; made < count; made++) {
        right += look_up(thread, &keys[i]) == i;
        i = i + 1 < entries ? i + 1 : 0;
    }
    return right;
}

/* The same, BATCH of them between an enter and a leave. */
INLINE uint64_t in_batches(unsigned thread, uint64_t count, void (*enter)(unsigned thread),
    uint64_t (*find)(unsigned thread, const struct key *key), void (*leave)(unsigned thread))
{
    uint64_t right = 0;
    uint64_t left = count;
    unsigned i = 0;

    while (left != 0) {
        uint64_t many = left < BATCH ? left : BATCH;

        enter(thread);
        for (uint64_t made = 0; made < many; made++) {
            right += find(thread, &keys[i]) == i;
            i = i + 1 < entries ? i + 1 : 0;
        }
        leave(thread);
        left -= many;
    }
    return right;
}

/* Lookups and walks by the functions NAME_enter, NAME_find, NAME_walk and NAME_leave of a thread: the functions NAME_lookups, NAME_batches and
   NAME_walks. */
#define LOOKUPS(NAME) \
    static uint64_t NAME##_look_up(unsigned thread, const struct key *key) \
    { \
        uint64_t value; \
        NAME##_enter(thread); \
        value = NAME##_find(thread, key); \
        NAME##_leave(thread); \
        return value; \
    } \
    static uint64_t NAME##_lookups(unsigned thread, uint64_t count) \
    { \
        return in_turn(thread, count, NAME##_look_up); \
    } \
    static uint64_t NAME##_batches(unsigned thread, uint64_t count) \
    { \
        return in_batches(thread, count, NAME##_enter, NAME##_find, NAME##_leave); \
    } \
    static uint64_t NAME##_walks(unsigned thread, uint64_t count) \
    { \
        return in_walks(thread, count, NAME##_enter, NAME##_walk, NAME##_leave); \
    }

/* What a contender has of these, and of what LISTED_CHANGES makes. */
#define LOOKUPS_OF(NAME) .lookups = NAME##_lookups, .batches = NAME##_batches, .walks = NAME##_walks
#define CHANGES_OF(NAME) .replace = NAME##_replace, .exchange = NAME##_exchange, .perform = NAME##_perform
#define NOTHING_AROUND .begin = do_nothing, .end = do_nothing, .rest = do_nothing

/* Lookups in the list, between the statements ENTER and LEAVE, which may speak of `thread`: the same functions. */
#define LISTED_LOOKUPS(NAME, ENTER, LEAVE) \
    INLINE void NAME##_enter(unsigned thread) \
    { \
        (void)thread; \
        ENTER; \
    } \
    INLINE void NAME##_leave(unsigned thread) \
    { \
        (void)thread; \
        LEAVE; \
    } \
    INLINE uint64_t NAME##_find(unsigned thread, const struct key *key) \
    { \
        (void)thread; \
        return listed_value(key); \
    } \
    INLINE unsigned NAME##_walk(unsigned thread, struct copied row[MOST_ENTRIES]) \
    { \
        (void)thread; \
        return copy_list(row); \
    } \
    LOOKUPS(NAME)

/* Changes of the list: NAME_perform waits by the statement WAIT until all open sections have ended, NAME_replace in between, and NAME_exchange
   behind its store. */
#define LISTED_CHANGES(NAME, WAIT) \
    static void NAME##_perform(void) \
    { \
        WAIT; \
    } \
    static void NAME##_replace(void) \
    { \
        unlink_newest(); \
        NAME##_perform(); \
        link_newest(); \
    } \
    static void NAME##_exchange(void) \
    { \
        exchange_newest(); \
        NAME##_perform(); \
    }

#endif
