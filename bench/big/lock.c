/* A hash table under one reader-writer lock: chains of items by their hooks. */
#include <pthread.h>
#include <stdlib.h>

#include "big.h"

static pthread_rwlock_t lock = PTHREAD_RWLOCK_INITIALIZER;
static struct item **chains;
static uint64_t mask;

static void nothing(unsigned thread)
{
    (void)thread;
}

static void open_locked(unsigned threads, uint64_t entries)
{
    (void)threads;
    for (mask = 1; mask < entries; mask *= 2)
        continue;
    chains = calloc(mask--, sizeof *chains);
    if (chains == NULL)
        fail("no memory");
}

/* Where the item of that name hangs, or the end of its chain. */
static struct item **place_of(const struct name *name)
{
    struct item **at = &chains[hashed(name) & mask];
    while (*at != NULL && !same(&(*at)->name, name))
        at = (struct item **)&(*at)->hook[0];
    return at;
}

static struct item *set_locked(unsigned thread, struct item *item)
{
    (void)thread;
    pthread_rwlock_wrlock(&lock);
    struct item **at = place_of(&item->name), *old = *at;
    item->hook[0] = old == NULL ? NULL : old->hook[0];
    *at = item;
    pthread_rwlock_unlock(&lock);
    return old;
}

static void add_locked(unsigned thread, struct item *item)
{
    set_locked(thread, item);
}

static uint64_t find_locked(unsigned thread, const struct name *name)
{
    (void)thread;
    pthread_rwlock_rdlock(&lock);
    const struct item *item = *place_of(name);
    const uint64_t id = item == NULL ? UINT64_MAX : item->id;
    pthread_rwlock_unlock(&lock);
    return id;
}

const struct contender locked = {"rwlock", open_locked, nothing, nothing, add_locked, find_locked, set_locked, false};
