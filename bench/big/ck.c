/* Concurrency Kit's ck_ht under its epochs: one writer. */
#include <ck_epoch.h>
#include <ck_ht.h>
#include <stdlib.h>
#include <string.h>

#include "big.h"

static void nothing(unsigned thread)
{
    (void)thread;
}

static ck_ht_t ht;
static ck_epoch_t global;
static ck_epoch_record_t records[MOST_THREADS];

static void *take(size_t size)
{
    return malloc(size);
}

static void give(void *block, size_t size, bool is_deferred)
{
    (void)size;
    /* Readers may be in an old table that was grown: it stays. */
    if (!is_deferred)
        free(block);
}

static struct ck_malloc heap = {.malloc = take, .free = give};

static void hash_ck(ck_ht_hash_t *hash, const void *key, size_t length, uint64_t seed)
{
    (void)length;
    (void)seed;
    hash->value = hashed(key);
}

static void open_ck(unsigned threads, uint64_t entries)
{
    if (!ck_ht_init(&ht, CK_HT_MODE_BYTESTRING | CK_HT_WORKLOAD_DELETE, hash_ck, &heap, 2 * entries, 1))
        fail("no table");
    ck_epoch_init(&global);
    for (unsigned i = 0; i < threads; i++)
        ck_epoch_register(&global, &records[i], NULL);
}

static void set_ck(struct item *item, struct item **old)
{
    ck_ht_entry_t entry;
    ck_ht_hash_t hash;
    ck_ht_hash(&hash, &ht, &item->name, sizeof item->name);
    ck_ht_entry_set(&entry, hash, &item->name, sizeof item->name, item);
    if (!ck_ht_set_spmc(&ht, hash, &entry))
        fail("not set");
    *old = ck_ht_entry_empty(&entry) ? NULL : ck_ht_entry_value(&entry);
}

static void add_ck(unsigned thread, struct item *item)
{
    struct item *old;
    (void)thread;
    set_ck(item, &old);
}

static uint64_t find_ck(unsigned thread, const struct name *name)
{
    ck_ht_entry_t entry;
    ck_ht_hash_t hash;
    uint64_t id = UINT64_MAX;
    ck_epoch_begin(&records[thread], NULL);
    ck_ht_hash(&hash, &ht, name, sizeof *name);
    ck_ht_entry_key_set(&entry, name, sizeof *name);
    if (ck_ht_get_spmc(&ht, hash, &entry))
        id = ((const struct item *)ck_ht_entry_value(&entry))->id;
    ck_epoch_end(&records[thread], NULL);
    return id;
}

static struct item *replace_ck(unsigned thread, struct item *item)
{
    struct item *old;
    set_ck(item, &old);
    ck_epoch_synchronize(&records[thread]);
    return old;
}

const struct contender ck_table = {"ck_ht", open_ck, nothing, nothing, add_ck, find_ck, replace_ck, true};
