/*
 * choice.h - how a name chooses its registry, and what a thread's handle remembers of that
 *
 * The choice is a hash of the name under a secret. It never changes as long as the table is open,
 * so a handle that remembers it needs no hash.
 */
#ifndef TABLE_CHOICE_H
#define TABLE_CHOICE_H

#define KUPALDIZ_INNER
#include "kupaldiz_table.h"

/* What strangers don't know: the key of the hash, and what finds a name's place in a memory. */
struct secret {
	uint64_t key[2];
	uint64_t factors[2];	/* both odd */
};

/* How many registries there are, and how names choose one. It never changes. */
struct choice {
	struct secret secret;
	uint64_t registries;
	uint64_t slots;		/* of each registry */
};

/* A registry's own number is below KUPALDIZ_MOST_CHANGES, so this many bits are left above it. */
enum { MOST_INDEX_BITS = 24 };

/* ---- How many registries. ---- */

static inline uint64_t divided_up(uint64_t number, uint64_t by)
{
	return number / by + (number % by != 0);
}

/*
 * As many registries as there may be, because lists are short then. With m names in each on
 * average, the probability that kupaldiz_table.h bounds is below 10^-12 if m is at least 64, and 2
 * more for each bit of an index.
 */
static inline uint64_t registries_for(uint64_t entries)
{
	uint64_t most = divided_up(2 * entries, KUPALDIZ_MOST_SLOTS);
	for (unsigned bits = 1; bits <= MOST_INDEX_BITS; bits++) {
		const uint64_t crowds = entries / (64 + 2 * bits), indexes = UINT64_C(1) << bits;
		const uint64_t fit = crowds < indexes ? crowds : indexes;
		most = fit > most ? fit : most;
	}
	return most;
}

/* One registry if all entries fit in it. Else there are two slots for each entry. */
static inline struct choice choice_for(uint64_t entries)
{
	struct choice made = {.registries = 1, .slots = entries};
	if (entries > KUPALDIZ_MOST_SLOTS) {
		made.registries = registries_for(entries);
		made.slots = divided_up(2 * entries, made.registries);
	}
	return made;
}

/* ---- The choice: SipHash-1-3 of the name's two words, under the secret. ---- */

struct sip {
	uint64_t a, b, c, d;
};

static inline uint64_t turned(uint64_t word, unsigned bits)
{
	return word << bits | word >> (64 - bits);
}

static inline void sip_round(struct sip *at)
{
	at->a += at->b;
	at->c += at->d;
	at->b = turned(at->b, 13) ^ at->a;
	at->d = turned(at->d, 16) ^ at->c;
	at->a = turned(at->a, 32);
	at->c += at->b;
	at->a += at->d;
	at->b = turned(at->b, 17) ^ at->c;
	at->d = turned(at->d, 21) ^ at->a;
	at->c = turned(at->c, 32);
}

static inline void sip_word(struct sip *at, uint64_t word)
{
	at->d ^= word;
	sip_round(at);
	at->a ^= word;
}

static inline uint64_t hash_of(const uint64_t key[2], const struct kupaldiz_name *name)
{
	struct sip at = {key[0] ^ 0x736f6d6570736575, key[1] ^ 0x646f72616e646f6d,
	    key[0] ^ 0x6c7967656e657261, key[1] ^ 0x7465646279746573};
	sip_word(&at, name->high);
	sip_word(&at, name->low);
	sip_word(&at, UINT64_C(16) << 56);
	at.c ^= 0xff;
	sip_round(&at);
	sip_round(&at);
	sip_round(&at);
	return at.a ^ at.b ^ at.c ^ at.d;
}

/* The index of the name's registry. */
static inline uint64_t chosen(const struct choice *choice, const struct kupaldiz_name *name)
{
	return (hash_of(choice->secret.key, name) >> 32) * choice->registries >> 32;
}

/* ---- What a handle remembers. ---- */

/*
 * Places of a line of the cache, and how many names must miss their line, if it is full, before one
 * of them gets a place.
 */
enum { WAYS = 4, PATIENCE = 8 };

/*
 * A name's product is the sum of its words' products with the factors. The first bits of the
 * product say which place is the name's own. The others are the first bits of `rest`. The high
 * word's factor is odd, so own place, rest and low word are those of one name alone.
 *
 * The last bits of `rest` have the index. In the other places of the line, which are told by the
 * bits in which they differ from the own one, there are `registries` more for each step. All bits
 * of a vacant place are set. `missed` counts names, while all places of their line were taken. The
 * header has these structs, and looks into a name's own place alone.
 */

/*
 * Places of each handle's memory, as a power of two: five for two entries, at least. With one
 * registry there is nothing to remember, so one line is enough.
 */
static inline unsigned place_bits_for(uint64_t entries)
{
	unsigned bits = 2;
	while (entries > KUPALDIZ_MOST_SLOTS && UINT64_C(2) << bits < 5 * entries)
		bits++;
	return bits;
}

/* A memory, whose places are vacant. */
static inline struct kupaldiz_table_memory memory_of(const struct choice *choice,
    unsigned place_bits, struct kupaldiz_table_place *places, struct kupaldiz_table_cpu *cpus)
{
	const uint64_t *factors = choice->secret.factors;
	return (struct kupaldiz_table_memory){.factors = {factors[0], factors[1]},
	    .registries = choice->registries, .count = UINT64_C(1) << place_bits,
	    .places = places, .cpus = cpus};
}

/* The index in a place of the sought name's line, if the place has the name; else a larger one. */
static inline uint64_t index_at(const struct kupaldiz_table_memory *memory,
    const struct kupaldiz_table_sought *sought, unsigned way)
{
	const struct kupaldiz_table_place *place = &memory->places[sought->own ^ way];
	if (place->low != sought->as.low)
		return UINT64_MAX;
	return (place->rest ^ sought->as.rest) - way * memory->registries;
}

/* Remembers an index, if its line has a vacant place, or has missed many names. */
static inline void remember(struct kupaldiz_table_memory *memory,
    const struct kupaldiz_table_sought *sought, uint64_t index)
{
	unsigned way = 0;
	while (way < WAYS && memory->places[sought->own ^ way].rest != UINT64_MAX)
		way++;
	if (way == WAYS && ++memory->missed % PATIENCE == 0)
		way = 0;
	if (way < WAYS)
		memory->places[sought->own ^ way] = (struct kupaldiz_table_place){sought->as.low,
		    sought->as.rest | (way * memory->registries + index)};
}

/* The index of a name's registry, which is hashed only if it isn't remembered. */
static inline uint64_t index_for(struct kupaldiz_table_memory *memory, const struct choice *choice,
    const struct kupaldiz_name *name)
{
	if (memory->registries == 1)
		return 0;
	const struct kupaldiz_table_sought sought = kupaldiz_table_sought_as(memory, name);
	for (unsigned way = 0; way < WAYS; way++) {
		const uint64_t index = index_at(memory, &sought, way);
		if (index < memory->registries)
			return index;
	}
	const uint64_t index = chosen(choice, name);
	remember(memory, &sought, index);
	return index;
}

#endif
