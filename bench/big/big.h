/* What the contenders of a table of many names share. A name is the 13 bytes of an id, in 16. */
#ifndef BIG_H
#define BIG_H

#include <stdbool.h>
#include <stddef.h>
#include <stdint.h>

enum { MOST_THREADS = 8 };

struct name {
    uint64_t words[2];
};

static inline bool same(const struct name *one, const struct name *other)
{
    return one->words[0] == other->words[0] && one->words[1] == other->words[1];
}

/* What an entry leads to: a line of the cache of its own. */
struct item {
    _Alignas(64) struct name name;
    uint64_t id;
    void *hook[4]; /* a contender's own */
};

struct contender {
    const char *name;
    void (*open)(unsigned threads, uint64_t entries);
    /* Around the calls of each thread. */
    void (*begin)(unsigned thread);
    void (*end)(unsigned thread);
    void (*add)(unsigned thread, struct item *item);
    /* The id of the entry of that name, as its item has it; or UINT64_MAX. */
    uint64_t (*find)(unsigned thread, const struct name *name);
    /* Puts an item in the place of that of its name, waits until nobody uses the old one, and returns that. NULL: it can't. */
    struct item *(*replace)(unsigned thread, struct item *item);
    bool has_one_changer; /* at a time */
    /* Before and after a wait for other threads. NULL: nothing has to be told. */
    void (*idle)(unsigned thread, bool is_idle);
};

extern const struct contender bare_hit, bare_list, ours_look_up, ours_get, ours_roomy, ours_small, urcu_lfht, ck_table, locked, dpdk_hash;

/* The names in the order in which they are looked up, and their ids. */
extern struct name *names;
extern uint64_t *ids;

/* A hash for contenders that have none of their own: SipHash-1-3 as ours, by a key of theirs. */
uint64_t hashed(const struct name *name);

/* An aligned item of that id; the program ends if there is no memory. */
struct item *make_item(uint64_t id);

_Noreturn void fail(const char *what);

#endif
