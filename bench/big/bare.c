/*
 * Loads without a table: what the caches miss, in the order of the lookups
 *
 * `bare-hit` loads the lines of a lookup that is remembered, and each line says where the next one is: of the memory of choices, of the handle's CPU, of what
 * this leads to, of a hint, of what is remembered in the slot, and of the slot. They lie as in a table of ours: as many names share each of them.
 * `bare-list` goes through lists as long as ours, and compares each name.
 */
#include <stdlib.h>
#include <string.h>

#include "../../c/src/table/choice.h"
#include "big.h"

static void nothing(unsigned thread)
{
    (void)thread;
}

static uint64_t below(uint64_t hash, uint64_t end)
{
    return (hash >> 32) * end >> 32;
}

/* What is loaded, in bytes: how much there is for each place of the memory, of each registry, or of each entry. */
enum kind { PLACE, HANDLE, CPU, WORDS, HINT, ROW, SLOT, KINDS };
static const uint64_t SIZES[KINDS] = {16, 32, 192, 128, 4096, 40, 64};
static char *blocks[KINDS];
static uint64_t lines, registries;

static void open_hit(unsigned threads, uint64_t entries)
{
    (void)threads;
    registries = choice_for(entries).registries;
    const uint64_t places = UINT64_C(1) << place_bits_for(entries);
    const uint64_t counts[KINDS] = {places, registries, registries, registries, registries, entries, entries};
    lines = places / WAYS;
    for (unsigned kind = 0; kind < KINDS; kind++) {
        const uint64_t bytes = (counts[kind] * SIZES[kind] / 64 + 1) * 64;
        blocks[kind] = memset(aligned_alloc(64, bytes), 0, bytes);
    }
}

/* The item itself isn't loaded: a copy has the id. */
static void keep_hit(unsigned thread, struct item *item)
{
    (void)thread;
    (void)item;
}

/* The word at that place, which is 0. It waits for what was found before. */
static uint64_t loaded(enum kind kind, uint64_t index, uint64_t offset, uint64_t found)
{
    return *(const uint64_t *)(blocks[kind] + index * SIZES[kind] + offset + found);
}

/* Three lines of a registry's CPU, and two of what it leads to. The row's places have no line of their own, so some lie on two. */
static uint64_t load_hit(unsigned thread, const struct name *sought)
{
    const uint64_t place = (uint64_t)(sought - names), hash = place * 0x9e3779b97f4a7c15, id = ids[place];
    const uint64_t registry = below(hash * 0xc4ceb9fe1a85ec53, registries);
    (void)thread;
    uint64_t found = loaded(PLACE, WAYS * below(hash, lines), 0, 0);
    found = loaded(HANDLE, registry, 0, found);
    for (uint64_t line = 0; line < 3; line++)
        found = loaded(CPU, registry, 64 * line, found);
    for (uint64_t line = 0; line < 2; line++)
        found = loaded(WORDS, registry, 64 * line, found);
    found = loaded(HINT, registry, 64 * (hash & 63), found);
    found = loaded(ROW, id, 0, found);
    found = loaded(ROW, id, 32, found);
    return id + loaded(SLOT, id, 0, found);
}

const struct contender bare_hit = {"bare-hit", open_hit, nothing, nothing, keep_hit, load_hit, NULL, false};

/* ---- Lists: a slot is a line with its link and its entry, and the slots of a list lie side by side. ---- */

struct slot {
    _Alignas(64) struct slot *next;
    struct name name;
    uint64_t id;
};

static struct slot **heads, **vacant;
static struct choice choice;

static void open_list(unsigned threads, uint64_t entries)
{
    (void)threads;
    choice = choice_for(entries);
    heads = calloc(choice.registries, sizeof *heads);
    vacant = calloc(choice.registries, sizeof *vacant);
    for (uint64_t i = 0; i < choice.registries; i++)
        vacant[i] = aligned_alloc(64, choice.slots * sizeof **vacant);
}

static uint64_t list_of(const struct name *name)
{
    return below(hashed(name), choice.registries);
}

static void add_to_list(unsigned thread, struct item *item)
{
    const uint64_t list = list_of(&item->name);
    struct slot *slot = vacant[list]++;
    (void)thread;
    *slot = (struct slot){heads[list], item->name, item->id};
    heads[list] = slot;
}

static uint64_t find_in_list(unsigned thread, const struct name *sought)
{
    const struct slot *slot = heads[list_of(sought)];
    (void)thread;
    while (slot != NULL && !same(&slot->name, sought))
        slot = slot->next;
    return slot == NULL ? UINT64_MAX : slot->id;
}

const struct contender bare_list = {"bare-list", open_list, nothing, nothing, add_to_list, find_in_list, NULL, false};
