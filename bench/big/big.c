/*
 * big CONTENDER THREADS ENTRIES PASSES - what a table of so many names takes, in nanoseconds for each operation of one thread, and its bytes for an entry:
 * the first lookup of each name by a thread, later ones, lookups of names that no entry has, a replacement while the other threads look up, and replacements
 * of different names by one thread and by two at once while no thread looks up
 *
 * Names are looked up in an order that is shuffled once, the same for all contenders. What a contender can't do is 0.
 */
#include "big.h"

#include <malloc.h>
#include <pthread.h>
#include <stdatomic.h>
#include <stdio.h>
#include <stdlib.h>
#include <string.h>
#include <time.h>

#include "../../c/src/table/choice.h"

static const struct contender *const ALL[] = {&bare_hit, &bare_list, &ours_look_up, &ours_roomy, &ours_get, &ours_small, &locked,
#ifdef WITH_URCU
    &urcu_lfht,
#endif
#ifdef WITH_CK
    &ck_table,
#endif
#ifdef WITH_DPDK
    &dpdk_hash,
#endif
};

static const struct contender *chosen_one;
static unsigned threads;
static uint64_t entries, passes;
struct name *names;
uint64_t *ids;
static struct name *absent;
static pthread_barrier_t all_here;
static atomic_bool over;

_Noreturn void fail(const char *what)
{
    fprintf(stderr, "big: %s\n", what);
    exit(1);
}

uint64_t hashed(const struct name *name)
{
    static const uint64_t secret[2] = {0x243f6a8885a308d3, 0x13198a2e03707344};
    return hash_of(secret, &(struct kupaldiz_name){name->words[0], name->words[1]});
}

static struct name name_of_id(uint64_t id)
{
    struct kupaldiz_name name;
    kupaldiz_name_of_id(id, &name);
    return (struct name){{name.high, name.low}};
}

struct item *make_item(uint64_t id)
{
    struct item *made = aligned_alloc(64, sizeof *made);
    if (made == NULL)
        fail("no memory");
    *made = (struct item){.name = name_of_id(id), .id = id};
    return made;
}

/* The ids from 0, shuffled. */
static void shuffle(void)
{
    uint64_t random = 1;
    for (uint64_t i = 0; i < entries; i++)
        ids[i] = i;
    for (uint64_t i = entries; i > 1; i--) {
        random ^= random << 13, random ^= random >> 7, random ^= random << 17;
        uint64_t other = random % i, kept = ids[i - 1];
        ids[i - 1] = ids[other], ids[other] = kept;
    }
}

static void make_names(void)
{
    ids = malloc(entries * sizeof *ids);
    names = malloc(entries * sizeof *names);
    absent = malloc(entries * sizeof *absent);
    if (ids == NULL || names == NULL || absent == NULL)
        fail("no memory");
    shuffle();
    for (uint64_t i = 0; i < entries; i++) {
        names[i] = name_of_id(ids[i]);
        absent[i] = name_of_id(entries + ids[i]);
    }
}

static double now(void)
{
    struct timespec time;
    clock_gettime(CLOCK_MONOTONIC, &time);
    return (double)time.tv_sec * 1e9 + (double)time.tv_nsec;
}

/* One pass over all names: how many ids were right. */
static uint64_t pass(unsigned thread, const struct name *row, bool are_there)
{
    uint64_t right = 0;
    for (uint64_t i = 0; i < entries; i++)
        right += chosen_one->find(thread, &row[i]) == (are_there ? ids[i] : UINT64_MAX);
    return right;
}

/* Nanoseconds after which nothing more is begun of one kind. */
static const double ENOUGH = 3e8;

/* The nanoseconds for each of them, of so many passes: the least of several times, each of 10,000 lookups or one pass. */
static double timed(unsigned thread, const struct name *row, bool are_there, uint64_t times)
{
    const uint64_t most = times * entries < 10000 ? times : (10000 + entries - 1) / entries;
    const double started = now();
    double least = 1e18;
    for (uint64_t made = 0; made < times && now() < started + ENOUGH; made += most) {
        const double begin = now();
        for (uint64_t i = 0; i < most; i++)
            if (pass(thread, row, are_there) != entries)
                fail("a wrong result");
        const double took = (now() - begin) / (double)(entries * most);
        least = took < least ? took : least;
    }
    return least;
}

enum { FIRST, LATER, ABSENT, REPLACE, ALONE, PAIR, TIMES };

/* The nanoseconds of one thread. */
struct timings {
    double of[TIMES];
};

/*
 * Replaces entries, in the order of lookups: of `changers` threads each has names of its own. The nanoseconds for each.
 * The items are made before, and freed after it.
 */
static double timed_replaces(unsigned thread, unsigned changers)
{
    const uint64_t count = (entries < 2000 ? entries : 2000) / changers;
    struct item **items = malloc(count * sizeof *items);
    uint64_t made = 0;
    if (items == NULL)
        fail("no memory");
    for (uint64_t i = 0; i < count; i++)
        items[i] = make_item(ids[i * changers + thread]);
    const double begin = now();
    for (; made < count && now() < begin + ENOUGH; made++)
        items[made] = chosen_one->replace(thread, items[made]);
    const double took = (now() - begin) / (double)made;
    for (uint64_t i = 0; i < count; i++)
        free(items[i]);
    free(items);
    return took;
}

/* All threads wait for each other. */
static void meet(unsigned thread)
{
    if (chosen_one->idle != NULL)
        chosen_one->idle(thread, true);
    pthread_barrier_wait(&all_here);
    if (chosen_one->idle != NULL)
        chosen_one->idle(thread, false);
}

/* The first threads replace at once, the others wait. */
static double timed_changers(unsigned thread, unsigned changers)
{
    meet(thread);
    const bool can = chosen_one->replace != NULL && threads >= changers && (changers == 1 || !chosen_one->has_one_changer);
    return can && thread < changers ? timed_replaces(thread, changers) : 0;
}

/* The first thread replaces while the others look up. */
static double timed_beside_readers(unsigned thread)
{
    double took = 0;
    meet(thread);
    if (thread == 0 && chosen_one->replace != NULL)
        took = timed_replaces(thread, 1);
    if (thread == 0)
        atomic_store(&over, true);
    while (!atomic_load(&over))
        if (pass(thread, names, true) != entries)
            fail("a replaced entry was missed");
    return took;
}

static double timed_lookups(unsigned thread, const struct name *row, bool are_there, uint64_t times)
{
    meet(thread);
    return timed(thread, row, are_there, times);
}

static void *work(void *of)
{
    struct timings *all = of;
    static atomic_uint next;
    const unsigned thread = atomic_fetch_add(&next, 1);
    double *own = all[thread].of;
    chosen_one->begin(thread);
    for (uint64_t i = 0; thread == 0 && i < entries; i++)
        chosen_one->add(thread, make_item(i));
    own[FIRST] = timed_lookups(thread, names, true, 1);
    own[LATER] = timed_lookups(thread, names, true, passes);
    if (chosen_one != &bare_hit)
        own[ABSENT] = timed_lookups(thread, absent, false, passes);
    own[REPLACE] = timed_beside_readers(thread);
    own[ALONE] = timed_changers(thread, 1);
    own[PAIR] = timed_changers(thread, 2);
    chosen_one->end(thread);
    return NULL;
}

static const struct contender *contender_of(const char *name)
{
    for (size_t i = 0; i < sizeof ALL / sizeof ALL[0]; i++)
        if (strcmp(ALL[i]->name, name) == 0)
            return ALL[i];
    return NULL;
}

static double bytes_in_use(void)
{
    const struct mallinfo2 info = mallinfo2();
    return (double)(info.uordblks + info.hblkhd);
}

/* The longest of all threads. */
static double longest(const struct timings *all, unsigned which)
{
    double most = 0;
    for (unsigned i = 0; i < threads; i++)
        most = all[i].of[which] > most ? all[i].of[which] : most;
    return most;
}

static void run(struct timings *all)
{
    pthread_t started[MOST_THREADS];
    for (unsigned i = 0; i < threads; i++)
        if (pthread_create(&started[i], NULL, work, all) != 0)
            fail("no thread");
    for (unsigned i = 0; i < threads; i++)
        pthread_join(started[i], NULL);
}

int main(int count, char **words)
{
    static struct timings all[MOST_THREADS];
    chosen_one = count == 5 ? contender_of(words[1]) : NULL;
    if (chosen_one == NULL || (threads = (unsigned)atoi(words[2])) < 1 || threads > MOST_THREADS ||
        (entries = strtoull(words[3], NULL, 10)) < 1 || (passes = strtoull(words[4], NULL, 10)) < 1)
        fail("CONTENDER THREADS ENTRIES PASSES");
    make_names();
    pthread_barrier_init(&all_here, NULL, threads);
    const double before = bytes_in_use();
    chosen_one->open(threads, entries);
    run(all);
    printf("%s %u %lu", chosen_one->name, threads, (unsigned long)entries);
    for (unsigned which = 0; which < TIMES; which++)
        printf(" %.1f", longest(all, which));
    printf(" %.0f\n", (bytes_in_use() - before) / (double)entries - sizeof(struct item));
    return 0;
}
