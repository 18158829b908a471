/* What a change costs: readers look the entries up in turn, each in a section of its own, while one thread makes the change. */
#include "entries.h"

#include <pthread.h>
#include <sched.h>
#include <stdio.h>
#include <stdlib.h>

/* How many times fewer changes are made before any is timed, and the most times that a reader keeps. */
enum { WARMING = 10, MOST_TIMES = 1000000 };

/* A thread beside the one that makes the changes. It reads all the time, or sleeps. It keeps what its last lookups took, where there is room. */
struct reader {
    const struct contender *contender;
    pthread_t thread;
    unsigned number;
    int reads;
    /* How many entries it may miss as it seeks each once: none, unless a replacement has a gap. */
    unsigned may_miss;
    int wrong;
    struct times *times;
};

/* The nanoseconds of single operations, the latest of them where there were more than there is room for. */
struct times {
    size_t made;
    size_t room;
    float *each;
};

static _Atomic unsigned come;
static _Atomic int over;
/* Held while changes are made. */
static pthread_mutex_t changing = PTHREAD_MUTEX_INITIALIZER;

/* Each turn seeks every entry once. */
static void read_all(struct reader *reader)
{
    while (!atomic_load(&over))
        if (reader->contender->lookups(reader->number, entries) + reader->may_miss < entries)
            reader->wrong = 1;
}

static void keep(struct times *times, double took)
{
    times->each[times->made++ % times->room] = (float)took;
}

/* Each lookup is of the oldest entry, which is never replaced; by one call where there is one. */
static void time_each(struct reader *reader)
{
    operations *look_up = reader->contender->look_ups != NULL ? reader->contender->look_ups : reader->contender->lookups;

    while (!atomic_load(&over)) {
        double began = now();
        uint64_t right = look_up(reader->number, 1);

        keep(reader->times, now() - began);
        if (right != 1)
            reader->wrong = 1;
    }
}

static void sleep_until_over(void)
{
    pthread_mutex_lock(&changing);
    pthread_mutex_unlock(&changing);
}

static void *run_reader(void *argument)
{
    struct reader *reader = argument;

    reader->contender->begin(reader->number);
    if (!reader->reads)
        reader->contender->rest(reader->number);
    atomic_fetch_add(&come, 1);
    if (reader->reads && reader->times != NULL)
        time_each(reader);
    else if (reader->reads)
        read_all(reader);
    else
        sleep_until_over();
    reader->contender->end(reader->number);
    return NULL;
}

/* Starts the threads, each like `one` except its number. Each reader keeps its times where there is a place for them. */
static void start(struct reader *all, struct reader one, unsigned threads, unsigned readers, struct times *times)
{
    atomic_store(&come, 0);
    atomic_store(&over, 0);
    pthread_mutex_lock(&changing);
    for (unsigned i = 0; i < threads; i++) {
        all[i] = one;
        all[i].number = i;
        all[i].reads = i < readers;
        all[i].times = times == NULL ? NULL : &times[i];
        if (pthread_create(&all[i].thread, NULL, run_reader, &all[i]) != 0)
            fail("no thread");
    }
    while (atomic_load(&come) < threads)
        sched_yield();
}

static void stop(struct reader *all, unsigned threads)
{
    atomic_store(&over, 1);
    pthread_mutex_unlock(&changing);
    for (unsigned i = 0; i < threads; i++) {
        if (pthread_join(all[i].thread, NULL) != 0)
            fail("no join");
        if (all[i].wrong)
            fail("a wrong answer");
    }
}

static double timed(void (*change)(void), uint64_t count)
{
    double began = now();

    for (uint64_t made = 0; made < count; made++)
        change();
    return (now() - began) / (double)count;
}

/* The nanoseconds that one change takes beside the readers, which are each like `one`. */
static double nanoseconds_waited(struct reader one, void (*change)(void), const struct plan *plan, unsigned readers)
{
    struct reader all[MOST_THREADS];
    double each;

    start(all, one, plan->threads - 1, readers, NULL);
    timed(change, plan->operations / WARMING + 1);
    each = timed(change, plan->operations);
    stop(all, plan->threads - 1);
    return each;
}

void print_waits(const struct contender *contender, const struct plan *plan, unsigned readers)
{
    const struct reader strict = { .contender = contender };
    const struct reader lenient = { .contender = contender, .may_miss = 1 };

    printf("cpus %u readers %u entries %u", plan->threads, readers, plan->entries);
    printf(" replace %.1f", nanoseconds_waited(lenient, contender->replace, plan, readers));
    printf(" exchange %.1f", nanoseconds_waited(strict, contender->exchange, plan, readers));
    printf(" perform %.1f\n", nanoseconds_waited(strict, contender->perform, plan, readers));
}

static struct times room_for(size_t room)
{
    struct times times = { .room = room, .each = malloc(room * sizeof(float)) };

    if (times.each == NULL)
        fail("out of memory");
    return times;
}

static int compare(const void *left, const void *right)
{
    float a = *(const float *)left, b = *(const float *)right;

    return (a > b) - (a < b);
}

/* Prints the percentiles of the times, and frees their room. */
static void print_percentiles(const char *what, struct times times)
{
    size_t count = times.made < times.room ? times.made : times.room;

    qsort(times.each, count, sizeof(float), compare);
    if (count > 0)
        printf(" %s_p50 %.0f %s_p99 %.0f %s_p999 %.0f", what, times.each[count / 2], what, times.each[count * 99 / 100], what,
            times.each[count * 999 / 1000]);
    free(times.each);
}

/* What the clock itself takes, at least. */
static double clock_takes(void)
{
    double least = 1e9;

    for (unsigned i = 0; i < 1000; i++) {
        double took = now();

        took = now() - took;
        least = took < least ? took : least;
    }
    return least;
}

/* All readers' times in one. */
static struct times together(const struct times *times, unsigned readers)
{
    struct times all = room_for((size_t)MOST_TIMES * (readers + 1));

    for (unsigned i = 0; i < readers; i++) {
        size_t count = times[i].made < times[i].room ? times[i].made : times[i].room;

        for (size_t k = 0; k < count; k++)
            keep(&all, times[i].each[k]);
        free(times[i].each);
    }
    return all;
}

static void time_changes(const struct contender *contender, uint64_t count, struct times *times)
{
    for (uint64_t made = 0; made < count; made++) {
        double began = now();

        contender->replace();
        keep(times, now() - began);
    }
}

void print_spread(const struct contender *contender, const struct plan *plan, unsigned readers)
{
    struct reader all[MOST_THREADS];
    struct times times[MOST_THREADS];
    struct times changes = room_for(plan->operations);

    for (unsigned i = 0; i < readers; i++)
        times[i] = room_for(MOST_TIMES);
    start(all, (struct reader){ .contender = contender }, plan->threads - 1, readers, times);
    timed(contender->replace, plan->operations / WARMING + 1);
    time_changes(contender, plan->operations, &changes);
    stop(all, plan->threads - 1);
    printf("cpus %u readers %u entries %u clock %.0f", plan->threads, readers, plan->entries, clock_takes());
    print_percentiles("read", together(times, readers));
    print_percentiles("replace", changes);
    printf("\n");
}
