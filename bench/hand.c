/* The steps of our registry, written by hand over the same words, each a sequentially consistent atomic operation.
   Padded: the words of a CPU are a row from the next CPU's, as ours are. Packed: each CPU's word lies beside the next CPU's. Pointed: padded,
   in a block made at run time, whose pointer is loaded at each step, as that of our table is. Kept: pointed, with all that a CPU of ours keeps beside its
   words: how deep its section is, how many it has ended, and what it found last. What it costs beyond `hand-pointed` is the price of that. Called: kept,
   each step by a call that isn't inlined, as a program in C calls ours. */
#include "entries.h"

#include <stdlib.h>

enum layout { PADDED, PACKED, POINTED };

enum { CPU_WORDS = 18 + 2 * MOST_ENTRIES, HEAD = CPU_WORDS * MOST_THREADS + 8, NEXT = HEAD + 8, RECORD = NEXT + 1, WORDS = NEXT + 8 * MOST_ENTRIES };

#define BIAS (UINT64_C(1) << 48)

static _Alignas(64) _Atomic uint64_t words[WORDS];
static _Atomic uint64_t *block;

INLINE _Atomic uint64_t *word(enum layout layout, uint64_t place)
{
    return layout == POINTED ? &block[place] : &words[place];
}

/* The word `place` of a CPU: 0 the section, from 1 on its passive words by slot, and then its count words by slot. */
INLINE _Atomic uint64_t *own_word(enum layout layout, unsigned cpu, unsigned place)
{
    return word(layout, layout == PACKED ? MOST_THREADS * place + cpu : CPU_WORDS * cpu + place);
}

INLINE _Atomic uint64_t *passive_word(enum layout layout, unsigned cpu, unsigned slot)
{
    return own_word(layout, cpu, 1 + slot);
}

INLINE _Atomic uint64_t *count_word(enum layout layout, unsigned cpu, unsigned slot)
{
    return own_word(layout, cpu, 1 + MOST_ENTRIES + slot);
}

INLINE void publish(enum layout layout, unsigned slot)
{
    _Atomic uint64_t *record = word(layout, RECORD + 8 * slot);

    atomic_store(&record[0], slot + 1);
    atomic_store(&record[1], keys[slot].kind);
    atomic_store(&record[2], keys[slot].high);
    atomic_store(&record[3], keys[slot].low);
    atomic_store(&record[4], slot);
    atomic_store(word(layout, NEXT + 8 * slot), atomic_load(word(layout, HEAD)));
    atomic_store(word(layout, HEAD), slot + 1);
}

static void make_block(void)
{
    block = aligned_alloc(64, sizeof words);
    if (block == NULL)
        fail("out of memory");
}

INLINE void open_words(enum layout layout, const struct plan *plan)
{
    make_keys(plan);
    if (layout == POINTED)
        make_block();
    for (unsigned i = 0; i < WORDS; i++)
        atomic_store(word(layout, i), 0);
    for (unsigned cpu = 0; cpu < MOST_THREADS; cpu++)
        for (unsigned slot = 0; slot < MOST_ENTRIES; slot++)
            atomic_store(count_word(layout, cpu, slot), BIAS);
    for (unsigned i = 0; i < entries; i++)
        publish(layout, i);
}

/* What a search has found, by its number, or 0. */
struct found {
    uint64_t number;
    uint8_t slot;
    uint8_t kind;
};

/* The value of the entry with that key: five loads for each entry visited, and one more for the value. */
INLINE uint64_t find(enum layout layout, const struct key *key, struct found *found)
{
    uint64_t link = atomic_load(word(layout, HEAD));

    while (link != 0) {
        uint64_t place = 8 * (link - 1);
        uint64_t number = atomic_load(word(layout, RECORD + place));
        uint64_t kind = atomic_load(word(layout, RECORD + place + 1));
        uint64_t high = atomic_load(word(layout, RECORD + place + 2));
        uint64_t low = atomic_load(word(layout, RECORD + place + 3));

        if (is_key(key, kind, high, low)) {
            *found = (struct found){ number, (uint8_t)(link - 1), (uint8_t)kind };
            return atomic_load(word(layout, RECORD + place + 4));
        }
        link = atomic_load(word(layout, NEXT + place));
    }
    found->number = 0;
    return UINT64_MAX;
}

/* Copies the list, newest first: six loads for each entry. */
INLINE unsigned walk(enum layout layout, struct copied row[MOST_ENTRIES])
{
    uint64_t link = atomic_load(word(layout, HEAD));
    unsigned count = 0;

    for (; link != 0 && count < MOST_ENTRIES; count++) {
        uint64_t place = 8 * (link - 1);
        _Atomic uint64_t *record = word(layout, RECORD + place);

        row[count] = (struct copied){
            atomic_load(&record[0]),
            { atomic_load(&record[1]), atomic_load(&record[2]), atomic_load(&record[3]) },
            atomic_load(&record[4]),
        };
        link = atomic_load(word(layout, NEXT + place));
    }
    return count;
}

/* A section is entered and left by the same step. */
INLINE void turn(enum layout layout, unsigned cpu)
{
    atomic_fetch_add(own_word(layout, cpu, 0), 1);
}

/* Acquires and releases passive references to the newest entry. */
INLINE uint64_t passives(enum layout layout, unsigned cpu, uint64_t count)
{
    unsigned slot = entries - 1;
    uint64_t right = 0;

    for (uint64_t made = 0; made < count; made++) {
        uint64_t before = atomic_fetch_add(passive_word(layout, cpu, slot), 1);
        uint64_t held = atomic_fetch_sub(passive_word(layout, cpu, slot), 1);

        right += held == before + 1;
    }
    return right;
}

/* Acquires and releases local references to the newest entry. */
INLINE uint64_t locals(enum layout layout, unsigned cpu, uint64_t count)
{
    unsigned slot = entries - 1;
    uint64_t right = 0;

    for (uint64_t made = 0; made < count; made++) {
        uint64_t held = atomic_fetch_add(count_word(layout, cpu, slot), 1) + 1;

        right += atomic_compare_exchange_strong(count_word(layout, cpu, slot), &held, held - 1);
    }
    return right;
}

/* The functions of one layout, which are compiled for it alone, and its contender. */
#define HAND(NAME, LAYOUT, TITLE) \
    static void NAME##_open(const struct plan *plan) \
    { \
        open_words(LAYOUT, plan); \
    } \
    INLINE void NAME##_enter(unsigned cpu) \
    { \
        turn(LAYOUT, cpu); \
    } \
    INLINE void NAME##_leave(unsigned cpu) \
    { \
        turn(LAYOUT, cpu); \
    } \
    INLINE uint64_t NAME##_find(unsigned cpu, const struct key *key) \
    { \
        struct found found; \
        (void)cpu; \
        return find(LAYOUT, key, &found); \
    } \
    INLINE unsigned NAME##_walk(unsigned cpu, struct copied row[MOST_ENTRIES]) \
    { \
        (void)cpu; \
        return walk(LAYOUT, row); \
    } \
    LOOKUPS(NAME) \
    static uint64_t NAME##_passives(unsigned cpu, uint64_t count) \
    { \
        return passives(LAYOUT, cpu, count); \
    } \
    static uint64_t NAME##_locals(unsigned cpu, uint64_t count) \
    { \
        return locals(LAYOUT, cpu, count); \
    } \
    const struct contender hand_##NAME = { \
        .name = TITLE, \
        .open = NAME##_open, \
        NOTHING_AROUND, \
        LOOKUPS_OF(NAME), \
        .passives = NAME##_passives, \
        .locals = NAME##_locals, \
    }

HAND(padded, PADDED, "hand-padded");
HAND(packed, PACKED, "hand-packed");
HAND(pointed, POINTED, "hand-pointed");

/* ---- Kept. ---- */

/* How many sections a CPU may begin. */
static uint64_t section_limit;

struct cpu {
    uint64_t ended;
    struct found found;
    uint8_t id;
    uint8_t depth;
};

static struct {
    _Alignas(128) struct cpu cpu;
} cpus[MOST_THREADS];

static void kept_open(const struct plan *plan)
{
    open_words(POINTED, plan);
    section_limit = UINT64_C(1) << 40;
    for (unsigned i = 0; i < MOST_THREADS; i++)
        cpus[i].cpu = (struct cpu){ .id = (uint8_t)i };
}

/* Whether it could. */
INLINE int may_enter(struct cpu *cpu)
{
    if (cpu->depth == UINT8_MAX)
        return 0;
    if (cpu->depth != 0) {
        cpu->depth++;
        return 1;
    }
    if (cpu->ended >= section_limit)
        return 0;
    turn(POINTED, cpu->id);
    cpu->depth = 1;
    return 1;
}

/* A section that can't be entered ends the program. */
INLINE void kept_enter(unsigned thread)
{
    if (!may_enter(&cpus[thread].cpu))
        fail("no section");
}

INLINE void kept_leave(unsigned thread)
{
    struct cpu *cpu = &cpus[thread].cpu;

    if (cpu->depth != 1) {
        cpu->depth--;
        return;
    }
    turn(POINTED, cpu->id);
    cpu->found.number = 0;
    cpu->depth = 0;
    cpu->ended++;
}

INLINE uint64_t kept_find(unsigned thread, const struct key *key)
{
    return find(POINTED, key, &cpus[thread].cpu.found);
}

INLINE unsigned kept_walk(unsigned thread, struct copied row[MOST_ENTRIES])
{
    cpus[thread].cpu.found.number = 0;
    return walk(POINTED, row);
}

LOOKUPS(kept)

const struct contender hand_kept = {
    .name = "hand-kept",
    .open = kept_open,
    NOTHING_AROUND,
    LOOKUPS_OF(kept),
};

/* ---- Called. ---- */

#define OUT_OF_LINE static __attribute__((noinline))

OUT_OF_LINE void called_enter(unsigned thread)
{
    kept_enter(thread);
}

OUT_OF_LINE void called_leave(unsigned thread)
{
    kept_leave(thread);
}

OUT_OF_LINE uint64_t called_find(unsigned thread, const struct key *key)
{
    return kept_find(thread, key);
}

OUT_OF_LINE unsigned called_walk(unsigned thread, struct copied row[MOST_ENTRIES])
{
    return kept_walk(thread, row);
}

LOOKUPS(called)

OUT_OF_LINE uint64_t called_add(_Atomic uint64_t *word)
{
    return atomic_fetch_add(word, 1) + 1;
}

OUT_OF_LINE uint64_t called_subtract(_Atomic uint64_t *word)
{
    return atomic_fetch_sub(word, 1);
}

/* Whether the word was `held`. */
OUT_OF_LINE int called_count_down(_Atomic uint64_t *word, uint64_t held)
{
    return atomic_compare_exchange_strong(word, &held, held - 1);
}

static uint64_t called_passives(unsigned cpu, uint64_t count)
{
    _Atomic uint64_t *word = passive_word(POINTED, cpu, entries - 1);
    uint64_t right = 0;

    for (uint64_t made = 0; made < count; made++) {
        uint64_t held = called_add(word);

        right += called_subtract(word) == held;
    }
    return right;
}

static uint64_t called_locals(unsigned cpu, uint64_t count)
{
    _Atomic uint64_t *word = count_word(POINTED, cpu, entries - 1);
    uint64_t right = 0;

    for (uint64_t made = 0; made < count; made++)
        right += called_count_down(word, called_add(word));
    return right;
}

const struct contender hand_called = {
    .name = "hand-called",
    .open = kept_open,
    NOTHING_AROUND,
    LOOKUPS_OF(called),
    .passives = called_passives,
    .locals = called_locals,
};
