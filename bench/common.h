/* What all contenders share: what a run is asked for, how its threads are started and timed, and what is printed. */
#ifndef BENCH_COMMON_H
#define BENCH_COMMON_H

#include <stdint.h>

/* A build with other limits has its header before this one. */
#ifdef KUPALDIZ_MOST_CPUS
enum { MOST_THREADS = KUPALDIZ_MOST_CPUS, MOST_ENTRIES = KUPALDIZ_MOST_SLOTS };
#else
enum { MOST_THREADS = 64, MOST_ENTRIES = 255 };
#endif
enum { BATCH = 32 };

/* How many threads make how many operations each, on a list of how many entries. */
struct plan {
    unsigned threads;
    unsigned entries;
    uint64_t operations;
};

/* What an entry is sought by. A name of up to 16 bytes is two big-endian words, filled up with zero bytes. */
struct key {
    uint64_t kind;
    uint64_t high;
    uint64_t low;
};

/* An entry as a walk copies it. */
struct copied {
    uint64_t number;
    struct key key;
    uint64_t value;
};

extern struct key keys[MOST_ENTRIES];
extern unsigned entries;

/* Makes the keys, for a list of so many entries. */
void make_keys(const struct plan *plan);

/* Makes `count` operations on behalf of a thread, numbered from 0. It returns how many went as they should. */
typedef uint64_t operations(unsigned thread, uint64_t count);

/* Where there is nothing to do. */
void do_nothing(unsigned thread);

/* A way to protect lookups. `begin` and `end` are called by each thread, around its operations.
   Where it has no step for an operation, that one is NULL. */
struct contender {
    const char *name;
    void (*open)(const struct plan *plan);
    void (*begin)(unsigned thread);
    void (*end)(unsigned thread);
    /* Called by a thread between `begin` and `end` that will read nothing. */
    void (*rest)(unsigned thread);
    /* Each in a section of its own. */
    operations *lookups;
    /* BATCH of them in a section. */
    operations *batches;
    /* Each copies the whole list, in a section of its own. */
    operations *walks;
    operations *passives;
    operations *locals;
    /* Ours alone: a lookup by two calls, and by one; one that finds nothing; and a reference by one call, with its release. */
    operations *reads;
    operations *look_ups;
    operations *misses;
    operations *gets;
    /* Replaces the newest entry with a gap: takes it out of the list, waits until nobody can have it, and puts it in again. */
    void (*replace)(void);
    /* Replaces it without a gap: puts a new one in its place, and waits until nobody can have the old one. */
    void (*exchange)(void);
    /* Waits until all open sections have ended. */
    void (*perform)(void);
};

extern const struct contender hand_padded;
extern const struct contender hand_packed;
extern const struct contender hand_pointed;
extern const struct contender hand_kept;
extern const struct contender hand_called;
extern const struct contender urcu_memb;
extern const struct contender urcu_mb;
extern const struct contender urcu_qsbr;
extern const struct contender urcu_bp;
extern const struct contender epoch;
extern const struct contender rwlock;
extern const struct contender mutex;
/* In optional/, where bench/run finds what they need. */
extern const struct contender dpdk_qsbr;
extern const struct contender xenium_epoch;

/* Makes what the words ask for, and prints its nanoseconds on one line. Wrong words or a wrong result end the program.

       THREADS ENTRIES OPERATIONS                    each operation of the contender
       wait CPUS READERS ENTRIES COUNT               a replacement with and without a gap, and a wait
       spread CPUS READERS ENTRIES COUNT             percentiles of single lookups and replacements */
void run_contender(const struct contender *contender, int count, char **words);

/* Prints what a replacement takes, with and without a gap, and a wait, while so many readers enter and leave in threads of their own; the rest of the plan's threads, except
   this one, sleep. */
void print_waits(const struct contender *contender, const struct plan *plan, unsigned readers);

/* Prints percentiles 50, 99 and 99.9 of the nanoseconds of single operations. So many readers look the oldest entry up. Meanwhile the newest
   one is replaced, as often as the plan says. Each time includes what the clock takes, which is printed too. */
void print_spread(const struct contender *contender, const struct plan *plan, unsigned readers);

/* Nanoseconds from some point on. */
double now(void);

/* Ends the program, with status 1. */
_Noreturn void fail(const char *what);

#endif
