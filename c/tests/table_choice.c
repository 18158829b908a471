/*
 * table_choice - how names choose their registries: how probable a full one is, what a thread's
 * handle remembers of the choice, names that were chosen to collide, and registries that don't wait
 * for each other
 *
 * The linker leads getrandom here: each table has another key, and all have the same factors. So a
 * memory of another table would be taken for its own.
 */
#include <inttypes.h>
#include <stdatomic.h>
#include <sys/random.h>

#include "../src/table/inner.h"
#include "both_forms.h"
#include "wrapped_heap.h"

/* So many entries have so many registries of these slots. */
enum { ENTRIES = 1100, REGISTRIES = 15, SLOTS = 147, CLASHING = 12, ROUNDS = 100 };

/* The factor of a name's high word, and what makes 1 of it as a factor. */
#define FACTOR	UINT64_C(0x9e3779b97f4a7c15)
#define INVERSE	UINT64_C(0xf1de83e19937733d)

static const struct timespec PAST = {0, 0};

WRAPPED(getrandom);
ssize_t __wrap_getrandom(void *bytes, size_t length, unsigned flags)
{
	static uint64_t tables;
	const struct secret secret = {{++tables, 7}, {FACTOR, 0xc4ceb9fe1a85ec52}};
	EXPECT(flags == 0 && length == sizeof secret);
	memcpy(bytes, &secret, length);
	return (ssize_t)length;
}

/* ---- A table, and one handle of it. ---- */

struct user {
	struct kupaldiz_table table;
	struct kupaldiz_table_thread thread;
};

static void open_user(struct user *user, void (*freed)(void *, const struct kupaldiz_entry *))
{
	const struct kupaldiz_table_settings settings = {2, ENTRIES, freed, NULL};
	*user = (struct user){0};
	DONE(kupaldiz_table_open(&settings, &user->table));
	DONE(kupaldiz_table_take(&user->table, NULL, &user->thread));
}

static void close_user(struct user *user)
{
	DONE(kupaldiz_table_give(&user->thread));
	DONE(kupaldiz_table_close(&user->table));
}

static const struct member *member_of(const struct user *user)
{
	return user->thread.at;
}

static uint64_t hashed(const struct user *user, const struct kupaldiz_name *name)
{
	return chosen(&member_of(user)->table->choice, name);
}

/* The name, from this one on, that chooses the registry. Names count up in one word or in both. */
static struct kupaldiz_name next_in(const struct user *user, uint64_t index,
    struct kupaldiz_name name, struct kupaldiz_name step)
{
	do {
		name.high += step.high;
		name.low += step.low;
	} while (hashed(user, &name) != index);
	return name;
}

static const struct kupaldiz_name FIRST = {1, 1}, STEP = {1, 0};

static struct kupaldiz_entry attached(const struct user *user, const struct kupaldiz_name *name,
    uint64_t value)
{
	struct kupaldiz_entry made;
	DONE(kupaldiz_table_attach(&user->thread, name, value, &made));
	EXPECT(index_of(made.number) == hashed(user, name));
	return made;
}

/* Detaches, and destroys: nothing holds it. */
static void removed(const struct user *user, const struct kupaldiz_name *name)
{
	struct kupaldiz_entry gone;
	DONE(kupaldiz_table_detach(&user->thread, name, &gone));
	DONE(kupaldiz_table_destroy(&user->thread, gone.number, &PAST, NULL));
}

/* ---- The hash, and how probable a full registry is. ---- */

/* SipHash-1-3 of 16 bytes, as the hashers of Rust's standard library have it for the first key. */
static void test_hash(void)
{
	const struct kupaldiz_name name = {0x0706050403020100, 0x0f0e0d0c0b0a0908};
	const uint64_t zeros[2] = {0}, key[2] = {name.high, name.low};
	EXPECT(hash_of(zeros, &name) == 0x8972188433a5c5b7);
	EXPECT(hash_of(key, &name) == 0xcc4fdd1a7d908b66);
}

static double power(double base, uint64_t exponent)
{
	double result = 1;
	for (; exponent != 0; exponent >>= 1, base *= base)
		if (exponent & 1)
			result *= base;
	return result;
}

/* The probability that more than `slots` of so many names choose one of R registries. */
static double tail(uint64_t names, double registries, uint64_t slots)
{
	const double odds = 1 / (registries - 1);
	double term = power(1 - 1 / registries, names), sum = 0;
	for (uint64_t k = 0; k < names && k < slots + 2000; k++) {
		term *= (double)(names - k) / (double)(k + 1) * odds;
		sum += k + 1 > slots ? term : 0;
	}
	return sum;
}

/* The square of the header's formula, with `names` in each registry on average. */
static double formula_squared(double registries, uint64_t names)
{
	const double root = registries * power(2.718281828459045 / 4, names);
	return root * root / (4 * 3.141592653589793 * (double)names);
}

/* There are two slots for each entry, and the header's formula is above what is exact. */
static void test_size(uint64_t entries)
{
	const struct choice choice = choice_for(entries);
	const double registries = (double)choice.registries;
	const double formula = formula_squared(registries, entries / choice.registries);
	const double exact = registries * tail(entries, registries, choice.slots);
	EXPECT(choice.slots <= KUPALDIZ_MOST_SLOTS);
	EXPECT(choice.registries * choice.slots >= 2 * entries);
	EXPECT(choice.registries * (choice.slots - 1) < 2 * entries);
	EXPECT(choice.registries <= UINT64_C(1) << MOST_INDEX_BITS);
	EXPECT(choice.registries * WAYS < UINT64_C(1) << place_bits_for(entries));
	EXPECT(exact * exact < formula);
	EXPECT(KUPALDIZ_MOST_SLOTS < 255 || formula < 1e-24);
}

static void test_probability(void)
{
	const uint64_t sizes[] = {256, 300, 382, 383, 1000, 10000, 100000, 1000000,
	    KUPALDIZ_TABLE_MOST_ENTRIES};
	for (size_t i = 0; i < COUNT_OF(sizes); i++)
		test_size(sizes[i]);
	for (uint64_t entries = 1; entries <= KUPALDIZ_MOST_SLOTS; entries++)
		EXPECT(choice_for(entries).registries == 1 && choice_for(entries).slots == entries);
	EXPECT(choice_for(ENTRIES).registries == REGISTRIES && choice_for(ENTRIES).slots == SLOTS);
	EXPECT(choice_for(10000).registries == 128 && choice_for(10000).slots == 157);
	EXPECT(place_bits_for(KUPALDIZ_MOST_SLOTS) == 2 && place_bits_for(1000) == 12 &&
	    place_bits_for(13107) == 15 && place_bits_for(13108) == 16);
}

/* ---- What a handle remembers. ---- */

/* The number of a name's own place. */
static uint64_t own_place(const struct user *user, const struct kupaldiz_name *name)
{
	return kupaldiz_table_sought_as(&member_of(user)->memory, name).own;
}

static uint64_t line_number(const struct user *user, const struct kupaldiz_name *name)
{
	return own_place(user, name) / WAYS;
}

/* The index that the handle remembers of a name, or a larger number. */
static uint64_t remembered(const struct user *user, const struct kupaldiz_name *name)
{
	const struct kupaldiz_table_memory *memory = &member_of(user)->memory;
	const struct kupaldiz_table_sought sought = kupaldiz_table_sought_as(memory, name);
	uint64_t index = UINT64_MAX;
	for (unsigned way = 0; way < WAYS && index >= REGISTRIES; way++)
		index = index_at(memory, &sought, way);
	return index;
}

/* Attaches the names, looks each up more often than places change, and removes them. */
static void look_up_in_turn(const struct user *user, const struct kupaldiz_name *names)
{
	struct kupaldiz_entry found;
	for (uint64_t i = 0; i < CLASHING; i++)
		attached(user, &names[i], i);
	for (uint64_t i = 0; i < ROUNDS * CLASHING; i++) {
		const struct kupaldiz_name *name = &names[i % CLASHING];
		DONE(kupaldiz_table_look_up(&user->thread, name, &found));
		EXPECT(found.value == i % CLASHING && same_name(&found.name, name));
		EXPECT(index_of(found.number) == hashed(user, name));
	}
	for (uint64_t i = 0; i < CLASHING; i++)
		removed(user, &names[i]);
	for (uint64_t i = 0; i < ROUNDS * CLASHING; i++)
		IS(NOT_FOUND, kupaldiz_table_look_up(&user->thread, &names[i % CLASHING], &found));
}

/*
 * Names of one line, more than it has places. Each two neighbours choose other registries.
 * They differ in one word alone, or in both.
 */
static void test_clashing(uint64_t high_step, uint64_t low_step)
{
	struct kupaldiz_name names[CLASHING], next = FIRST;
	struct user user;
	uint64_t length = 0;
	open_user(&user, NULL);
	while (length < CLASHING) {
		next = (struct kupaldiz_name){next.high + high_step, next.low + low_step};
		if (length == 0 || (line_number(&user, &next) == line_number(&user, &names[0]) &&
		    hashed(&user, &next) != hashed(&user, &names[length - 1])))
			names[length++] = next;
	}
	look_up_in_turn(&user, names);
	close_user(&user);
}

/* What of a name isn't in its product, or is in a few bits of it alone. */
static void test_products(void)
{
	struct kupaldiz_name names[CLASHING];
	struct user user;
	EXPECT(FACTOR * INVERSE == 1);
	open_user(&user, NULL);
	const uint64_t other = member_of(&user)->table->choice.secret.factors[1];
	test_clashing(INVERSE, 0);		/* products that follow each other */
	test_clashing(INVERSE << 20, 0);	/* products that differ in the middle */
	test_clashing(-other * INVERSE, 1);	/* one product */
	for (uint64_t i = 0; i < CLASHING; i++)
		names[i] = (struct kupaldiz_name){(i + 1) << 56, 1};
	look_up_in_turn(&user, names);
	close_user(&user);
}

/*
 * Names whose products differ only in which place of a line is their own: what is remembered of one
 * in the place of another isn't taken for that one's.
 */
static void test_ways(void)
{
	const uint64_t step = INVERSE << (64 - place_bits_for(ENTRIES));
	struct kupaldiz_name names[WAYS], clashing = FIRST;
	struct user user;
	open_user(&user, NULL);
	names[0] = FIRST;
	do
		names[0].high++;
	while (own_place(&user, &names[0]) % WAYS != 0);
	for (unsigned i = 1; i < WAYS; i++) {
		names[i] = (struct kupaldiz_name){names[0].high + i * step, names[0].low};
		EXPECT(own_place(&user, &names[i]) == own_place(&user, &names[0]) + i);
	}
	do
		clashing.low++;
	while (own_place(&user, &clashing) != own_place(&user, &names[0]));
	IS(NOT_FOUND, kupaldiz_table_look_up(&user.thread, &clashing, NULL));
	for (unsigned i = 0; i < WAYS; i++) {
		EXPECT(remembered(&user, &names[i]) >= REGISTRIES);
		IS(NOT_FOUND, kupaldiz_table_look_up(&user.thread, &names[i], NULL));
		EXPECT(i == WAYS - 1 ||
		    remembered(&user, &names[i]) == hashed(&user, &names[i]));
	}
	close_user(&user);
}

/* So many names that are sought first in one place. */
static void names_of_place(const struct user *user, struct kupaldiz_name *names, unsigned count)
{
	names[0] = FIRST;
	for (unsigned i = 1; i < count; i++) {
		names[i] = names[i - 1];
		do
			names[i].high++;
		while (own_place(user, &names[i]) != own_place(user, &names[0]));
	}
}

/* A line has its first names, and keeps most of them although others are looked up. */
static void test_line(void)
{
	struct kupaldiz_name names[WAYS + 2];
	struct user user;
	unsigned left = 0;
	open_user(&user, NULL);
	names_of_place(&user, names, COUNT_OF(names));
	for (unsigned i = 0; i < COUNT_OF(names); i++)
		IS(NOT_FOUND, look_up_plainly(&user.thread, &names[i], NULL));
	for (unsigned i = 0; i < COUNT_OF(names); i++)
		EXPECT(i < WAYS ? remembered(&user, &names[i]) == hashed(&user, &names[i]) :
		    remembered(&user, &names[i]) >= REGISTRIES);
	for (unsigned i = 0; i < ROUNDS; i++)
		IS(NOT_FOUND, look_up_plainly(&user.thread, &names[i % WAYS], NULL));
	EXPECT(member_of(&user)->memory.missed == 2);
	for (unsigned i = 2; i < PATIENCE; i++)
		IS(NOT_FOUND, look_up_plainly(&user.thread, &names[WAYS], NULL));
	EXPECT(remembered(&user, &names[WAYS]) == hashed(&user, &names[WAYS]));
	for (unsigned i = 0; i < WAYS; i++)
		left += remembered(&user, &names[i]) == hashed(&user, &names[i]);
	EXPECT(left == WAYS - 1);
	close_user(&user);
}

/* Tables that are open at once have other choices, and so has each that is opened later. */
static void test_memories(void)
{
	struct kupaldiz_name names[CLASHING];
	struct user user, other;
	for (unsigned i = 0; i < CLASHING; i++)
		kupaldiz_name_of_id(i, &names[i]);
	open_user(&user, NULL);
	for (unsigned round = 0; round < 3; round++) {
		look_up_in_turn(&user, names);
		open_user(&other, NULL);
		EXPECT(hashed(&user, &names[round]) != hashed(&other, &names[round]) ||
		    hashed(&user, &names[4]) != hashed(&other, &names[4]));
		look_up_in_turn(&other, names);
		close_user(&other);
	}
	close_user(&user);
}

/* ---- Names that were chosen by a secret. ---- */

/* They fill a registry of the table whose secret it is, and are spread in another. */
static void test_chosen_names(void)
{
	struct kupaldiz_name next = FIRST;
	struct user known, other;
	open_user(&known, NULL);
	open_user(&other, NULL);
	for (unsigned i = 0; i < SLOTS; i++) {
		next = next_in(&known, 3, next, STEP);
		attached(&known, &next, i);
		attached(&other, &next, i);
	}
	for (unsigned i = SLOTS; i < ENTRIES; i++) {
		next = next_in(&known, 3, next, STEP);
		IS(CROWDED, kupaldiz_table_attach(&known.thread, &next, i, NULL));
		attached(&other, &next, i);
	}
	close_user(&known);
	close_user(&other);
}

/* ---- Locks. ---- */

static atomic_bool is_freeing, may_go_on;

/* It is called under the lock of its registry, and returns once it may. */
static void wait_for_leave(void *of, const struct kupaldiz_entry *gone)
{
	EXPECT(of == NULL && index_of(gone->number) == 3);
	atomic_store(&is_freeing, true);
	while (!atomic_load(&may_go_on))
		rest();
}

static void *defer_one(void *of)
{
	struct user own = *(const struct user *)of;
	const struct kupaldiz_name name = next_in(&own, 3, FIRST, STEP);
	struct kupaldiz_entry gone;
	own.thread = (struct kupaldiz_table_thread){0};
	DONE(kupaldiz_table_take(&own.table, NULL, &own.thread));
	DONE(kupaldiz_table_detach(&own.thread, &name, &gone));
	DONE(kupaldiz_table_defer(&own.thread, &gone));
	DONE(kupaldiz_table_give(&own.thread));
	return NULL;
}

/* While a thread has the lock of one registry, another changes names of others, and looks up. */
static void test_locks(void)
{
	struct kupaldiz_entry gone, found;
	struct user user;
	open_user(&user, wait_for_leave);
	const struct kupaldiz_name held = next_in(&user, 3, FIRST, STEP);
	const struct kupaldiz_name kept = next_in(&user, 3, held, STEP);
	attached(&user, &held, 1);
	attached(&user, &kept, 2);
	const pthread_t other = started(defer_one, &user);
	while (!atomic_load(&is_freeing))
		rest();
	for (uint64_t index = 0; index < REGISTRIES; index++) {
		const struct kupaldiz_name name = next_in(&user, index, FIRST, STEP);
		if (index == 3)
			continue;
		attached(&user, &name, index);
		DONE(kupaldiz_table_replace(&user.thread, &name, 7, &gone, NULL));
		DONE(kupaldiz_table_destroy(&user.thread, gone.number, NULL, NULL));
		removed(&user, &name);
	}
	DONE(kupaldiz_table_look_up(&user.thread, &kept, &found));
	atomic_store(&may_go_on, true);
	joined(other);
	close_user(&user);
}

int main(void)
{
	test_hash();
	test_probability();
	test_line();
	test_clashing(1, 0);
	test_clashing(0, 1);
	test_clashing(1, 1);
	test_products();
	test_ways();
	test_memories();
	test_chosen_names();
	test_locks();
	printf("table_choice: tables of %d registries\n", REGISTRIES);
	return 0;
}
