#include "entries.h"

#include <pthread.h>
#include <stdio.h>

struct key keys[MOST_ENTRIES];
unsigned entries;
_Atomic(struct node *) newest;

/* A node for each entry, and one more: `standing` is the newest entry's, and `spare` the one that it has next. */
static struct node nodes[MOST_ENTRIES + 1];
static struct node *standing, *spare;
static pthread_mutex_t changes = PTHREAD_MUTEX_INITIALIZER;

static uint64_t high_word(unsigned i)
{
    char name[8] = "";
    uint64_t word = 0;

    snprintf(name, sizeof name, "d%02u", i);
    for (size_t k = 0; k < sizeof name; k++)
        word = word << 8 | (unsigned char)name[k];
    return word;
}

void make_keys(const struct plan *plan)
{
    entries = plan->entries;
    for (unsigned i = 0; i < entries; i++)
        keys[i] = (struct key){ .kind = DRIVER, .high = high_word(i), .low = 0 };
}

/* Makes a node that of the entry i, and links it first on the list, before `next`. */
static void link_node(struct node *node, unsigned i, struct node *next)
{
    node->number = i + 1;
    node->key = keys[i];
    node->value = i;
    atomic_store(&node->next, next);
    atomic_store(&newest, node);
}

void make_list(const struct plan *plan)
{
    make_keys(plan);
    atomic_store(&newest, NULL);
    for (unsigned i = 0; i < entries; i++)
        link_node(&nodes[i], i, atomic_load(&newest));
    standing = &nodes[entries - 1];
    spare = &nodes[entries];
}

void unlink_newest(void)
{
    pthread_mutex_lock(&changes);
    atomic_store(&newest, atomic_load(&standing->next));
    pthread_mutex_unlock(&changes);
}

void link_newest(void)
{
    pthread_mutex_lock(&changes);
    link_node(standing, entries - 1, atomic_load(&newest));
    pthread_mutex_unlock(&changes);
}

void exchange_newest(void)
{
    struct node *old = standing;

    pthread_mutex_lock(&changes);
    link_node(spare, entries - 1, atomic_load(&old->next));
    standing = spare;
    spare = old;
    pthread_mutex_unlock(&changes);
}

void do_nothing(unsigned thread)
{
    (void)thread;
}
