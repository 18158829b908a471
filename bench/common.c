#include "common.h"

#include <pthread.h>
#include <sched.h>
#include <stdatomic.h>
#include <stdio.h>
#include <stdlib.h>
#include <string.h>
#include <time.h>

/* How many times fewer operations a thread makes before it is timed. By then the scheduler has given each thread a processor. */
enum { WARMING = 3 };

/* What one thread of a run is given, and when it began and ended. */
struct work {
    const struct contender *contender;
    operations *make;
    const struct plan *plan;
    pthread_t thread;
    unsigned number;
    uint64_t right;
    double began;
    double ended;
};

void fail(const char *what)
{
    fprintf(stderr, "bench: %s\n", what);
    exit(1);
}

double now(void)
{
    struct timespec time;

    if (clock_gettime(CLOCK_MONOTONIC, &time) != 0)
        fail("no clock");
    return (double)time.tv_sec * 1e9 + (double)time.tv_nsec;
}

/* How many threads of a run have come. */
static _Atomic unsigned come;

/* Waits until all threads have come, so that they begin at once. */
static void meet(unsigned threads)
{
    atomic_fetch_add(&come, 1);
    while (atomic_load(&come) < threads)
        sched_yield();
}

static void *run(void *argument)
{
    struct work *work = argument;

    work->contender->begin(work->number);
    work->make(work->number, work->plan->operations / WARMING);
    meet(work->plan->threads);
    work->began = now();
    work->right = work->make(work->number, work->plan->operations);
    work->ended = now();
    work->contender->end(work->number);
    return NULL;
}

static double span(const struct work *works, unsigned threads)
{
    double began = works[0].began;
    double ended = works[0].ended;

    for (unsigned i = 1; i < threads; i++) {
        if (works[i].began < began)
            began = works[i].began;
        if (works[i].ended > ended)
            ended = works[i].ended;
    }
    return ended - began;
}

static void start(struct work *works, const struct plan *plan)
{
    atomic_store(&come, 0);
    for (unsigned i = 0; i < plan->threads; i++)
        if (pthread_create(&works[i].thread, NULL, run, &works[i]) != 0)
            fail("no thread");
}

static void join(struct work *works, const struct plan *plan)
{
    for (unsigned i = 0; i < plan->threads; i++) {
        if (pthread_join(works[i].thread, NULL) != 0)
            fail("no join");
        if (works[i].right != plan->operations)
            fail("a wrong answer");
    }
}

/* Makes the operations in all threads of the plan at once: each makes some that don't count, and begins when all have. It returns the
   nanoseconds that one takes its thread: the time from the first thread's first operation to the last thread's last, over the operations of
   one thread. */
static double nanoseconds_each(const struct contender *contender, operations *make, const struct plan *plan)
{
    struct work works[MOST_THREADS];

    for (unsigned i = 0; i < plan->threads; i++)
        works[i] = (struct work){
            .contender = contender,
            .make = make,
            .plan = plan,
            .number = i,
        };
    start(works, plan);
    join(works, plan);
    return span(works, plan->threads) / (double)plan->operations;
}

static void print_operations(const struct contender *contender, const struct plan *plan)
{
    const struct {
        const char *name;
        operations *make;
    } all[] = {
        { "lookup", contender->lookups },
        { "batch", contender->batches },
        { "walk", contender->walks },
        { "passive", contender->passives },
        { "local", contender->locals },
        { "read", contender->reads },
        { "look_up", contender->look_ups },
        { "absent", contender->misses },
        { "get", contender->gets },
    };

    printf("threads %u entries %u", plan->threads, plan->entries);
    for (size_t i = 0; i < sizeof all / sizeof all[0]; i++)
        if (all[i].make != NULL)
            printf(" %s %.2f", all[i].name, nanoseconds_each(contender, all[i].make, plan));
    printf("\n");
}

static uint64_t number(const char *word, uint64_t least, uint64_t most)
{
    char *rest;
    unsigned long long value = strtoull(word, &rest, 10);

    if (*word < '0' || *word > '9' || *rest != '\0' || value < least || value > most)
        fail("a number that is none, or out of its range");
    return value;
}

void run_contender(const struct contender *contender, int count, char **words)
{
    int waits = count == 5 && strcmp(words[0], "wait") == 0;
    int spreads = count == 5 && strcmp(words[0], "spread") == 0;
    unsigned readers;
    struct plan plan;

    if (count != 3 && !waits && !spreads)
        fail("usage: THREADS ENTRIES OPERATIONS, or wait|spread CPUS READERS ENTRIES COUNT");
    plan = (struct plan){
        .threads = (unsigned)number(words[count == 5], 1, MOST_THREADS),
        .entries = (unsigned)number(words[count - 2], 1, MOST_ENTRIES),
        .operations = number(words[count - 1], 1, UINT64_C(1000000000)),
    };
    readers = count == 5 ? (unsigned)number(words[2], 0, plan.threads - 1) : 0;
    if (count == 5 && contender->replace == NULL)
        fail("it has no such change");
    contender->open(&plan);
    if (waits)
        print_waits(contender, &plan, readers);
    else if (spreads)
        print_spread(contender, &plan, readers);
    else
        print_operations(contender, &plan);
}
