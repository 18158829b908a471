/*
 * misuse - what a caller can get wrong: each call with all that may be wrong at once; references
 * that are used twice, elsewhere or too late; and handles that can't be written to
 *
 * A row of ROWS has a call and what may be wrong with it, in the order in which kupaldiz.h says
 * that it is tested. The call is made with each set of these faults: it returns what the first of
 * them is for, changes nothing and writes nothing. With no fault it is done. Each is made once more
 * without a place for what it may leave unwritten.
 */
#include <signal.h>
#include <sys/mman.h>

#include "child.h"
#include "client.h"

/* CPUs: in a section, outside any, with no section left, and as deep inside as can be. */
enum { INNER, OUTER, SPENT, DEEP, CPUS };

/* Registries: with room, without a vacant slot, and at the end of its history. */
enum { ROOMY, CROWDED, ENDED, BENCHES };

enum { SLOTS = 9, MOST_FAULTS = 14 };

static const struct kupaldiz_settings SETTINGS = {CPUS, SLOTS, 100, 40, 2, 2};

/* A registry, and what was acquired before. */
static struct bench {
	struct kupaldiz_keeper keeper;
	struct kupaldiz_cpu cpus[CPUS];
	struct kupaldiz_entry wm, full, gone, retired;
	struct kupaldiz_passive passive;	/* to wm, by INNER */
	struct kupaldiz_passive passives[2][2];	/* to full, by INNER and OUTER, as many as may be */
	struct kupaldiz_local local, locals[2][2];	/* the same */
	struct kupaldiz_local collected;	/* to gone */
	struct kupaldiz_wait waits[CPUS], late;	/* the last one by OUTER, as others are inside */
} benches[BENCHES];

static struct kupaldiz_name wm, full, fresh, absent;
static struct kupaldiz_cpu no_cpu, swapped[CPUS], with_empty[CPUS];	/* ROOMY's */
static struct kupaldiz_keeper no_keeper;
static struct kupaldiz_passive no_passive, not_held;
static struct kupaldiz_local no_local;
static struct kupaldiz_wait no_wait;
static const struct kupaldiz_name NO_NAME;
static const struct kupaldiz_settings NO_SETTINGS;

/* What a call gets. */
struct given {
	struct bench *on;
	unsigned at;			/* the CPU's number */
	struct kupaldiz_keeper *keeper;
	struct kupaldiz_cpu *cpu, *cpus;
	size_t count, room;
	enum kupaldiz_kind kind;
	const struct kupaldiz_name *driver, *name;
	struct kupaldiz_entry entry;
	struct kupaldiz_passive *from, *full;
	struct kupaldiz_local *local, *full_local;
	struct kupaldiz_wait *wait;
	const struct kupaldiz_settings *settings;
	uint64_t number;
	bool lacks;			/* what the call reads or needs to write is NULL */
	bool is_mute;			/* and so is what it writes besides */
	bool is_full;			/* the keeper */
};

/* What it writes. */
struct written {
	struct kupaldiz_keeper keeper;
	struct kupaldiz_cpu cpus[CPUS];
	struct kupaldiz_passive passive;
	struct kupaldiz_local local;
	struct kupaldiz_entry entry, gone, row[SLOTS];
	struct kupaldiz_balance list[SLOTS];
	struct kupaldiz_settings settings;
	struct kupaldiz_met met;
	uint64_t number;
	size_t length;
	bool is_so;
};

/*
 * The faults: what a call that has one returns, and what it is given then. Those that come later in
 * a row are set first. So a fault may undo a later one.
 */
#define FAULTS(X)										\
	X(NO_KEEPER, EMPTY_HANDLE, given->keeper = &no_keeper)					\
	X(NO_CPU, EMPTY_HANDLE, given->cpu = &no_cpu)						\
	X(NO_FROM, EMPTY_HANDLE, given->from = &no_passive)					\
	X(NO_LOCAL, EMPTY_HANDLE, given->local = &no_local)					\
	X(FULL_PASSIVE, FULL_HANDLE, given->full = &given->on->passive)				\
	X(FULL_LOCAL, FULL_HANDLE, given->full_local = &given->on->local)			\
	X(FULL_KEEPER, FULL_HANDLE, given->is_full = true)					\
	X(NULL_NAME, NULL, given->name = NULL)							\
	X(NULL_DRIVER, NULL, given->driver = NULL)						\
	X(NULL_PLACE, NULL, given->lacks = true)						\
	X(NULL_WAIT, NULL, given->wait = NULL)							\
	X(NULL_CPUS, NULL, given->cpus = NULL)							\
	X(NULL_SETTINGS, NULL, given->settings = NULL)						\
	X(NO_SETTING, BAD_SETTINGS, given->settings = &NO_SETTINGS)				\
	X(LESS_CPUS, MISSING_CPU, given->count = CPUS - 1)					\
	X(OTHER_CPUS, MISSING_CPU, given->cpus = swapped)					\
	X(EMPTY_CPU, MISSING_CPU, given->cpus = with_empty)					\
	X(NO_KIND, BAD_KIND, given->kind = given->entry.kind = (enum kupaldiz_kind)258)		\
	X(ZERO_NAME, BAD_NAME, given->name = &NO_NAME; given->entry.name = NO_NAME)		\
	X(ZERO_DRIVER, BAD_NAME, given->driver = &NO_NAME)					\
	X(UNBEGUN, NOT_BEGUN, given->wait = &no_wait)						\
	X(NOT_ITS, WRONG_CPU, given->from = &given->on->passives[1][0];				\
	    given->wait = &given->on->waits[SPENT])						\
	X(NO_HOLD, NOT_HELD, given->from = &not_held)						\
	X(IS_IN, INSIDE, given->at = INNER; given->wait = &given->on->waits[INNER];		\
	    given->cpus = given->on->cpus; given->count = CPUS)					\
	X(IS_OUT, OUTSIDE, given->at = OUTER)							\
	X(IS_DEEP, TOO_DEEP, given->at = DEEP)							\
	X(IS_SPENT, SECTIONS_SPENT, given->at = SPENT)						\
	X(NO_DRIVER, NEEDS_DRIVER, given->driver = &absent)					\
	X(IS_ABSENT, NOT_FOUND, given->name = &absent; given->entry.name = absent;		\
	    given->entry.number = 99)								\
	X(PASSIVES, PASSIVE_FULL, given->name = &full; given->entry = given->on->full;		\
	    given->from = &given->on->passives[0][0])						\
	X(LOCALS, LOCAL_FULL, given->name = &full; given->entry = given->on->full)		\
	X(DRIVERS, LOCAL_FULL, given->driver = &full)						\
	X(NO_COUNT, NOT_COLLECTED, given->at = CPUS)						\
	X(IS_COLLECTED, COLLECTED, given->local = &given->on->collected)			\
	X(IS_TAKEN, NAME_TAKEN, given->name = &wm)						\
	X(IS_CROWDED, NO_SLOT, given->on = &benches[CROWDED])					\
	X(IS_ENDED, HISTORY_FULL, given->on = &benches[ENDED])					\
	X(IS_LIVE, NOT_RETIRED, given->number = given->on->wm.number)				\
	X(IS_HELD, STILL_HELD, given->number = given->on->gone.number)				\
	X(IS_EARLY, WAITING, given->wait = &given->on->late)					\
	X(LESS_ROOM, NO_ROOM, given->room = 1)

#define NAME_OF(name, result, change)	name,
#define FAULT_OF(name, result, change)	[name] = {KUPALDIZ_##result, spoil_##name},
#define CHANGE_OF(name, result, change)			\
	static void spoil_##name(struct given *given)	\
	{						\
		change;					\
	}

enum fault { NOTHING, FAULTS(NAME_OF) FAULTS_END };
FAULTS(CHANGE_OF)
static const struct {
	enum kupaldiz_result result;
	void (*spoil)(struct given *given);
} FAULT[FAULTS_END] = {FAULTS(FAULT_OF)};

/* ---- The calls. ---- */

#define PASSIVE	(in->full != NULL ? in->full : &out->passive)
#define LOCAL	(in->full_local != NULL ? in->full_local : &out->local)
#define PLACE(member)	(in->lacks ? NULL : &out->member)
#define OUT(member)	(in->is_mute ? NULL : &out->member)

#define CALL(name, arguments)									\
	static enum kupaldiz_result call_##name(const struct given *in, struct written *out)	\
	{											\
		(void)in, (void)out;								\
		return kupaldiz_##name arguments;						\
	}

CALL(open, (in->settings, in->is_full ? &in->on->keeper : &out->keeper,
    in->cpus != NULL ? out->cpus : NULL, in->count))
CALL(close, (NULL, in->cpus, in->count))
CALL(settings_of, (in->keeper, OUT(settings)))
CALL(enter, (in->cpu))
CALL(exit, (in->cpu))
CALL(depth, (in->cpu, OUT(number)))
CALL(look_up, (in->cpu, in->kind, in->name, OUT(entry)))
CALL(find, (in->cpu, in->kind, in->name, OUT(entry)))
CALL(enter_find, (in->cpu, in->kind, in->name, OUT(entry)))
CALL(walk, (in->cpu, in->lacks ? NULL : out->row, in->room, OUT(length)))
CALL(get, (in->cpu, in->kind, in->name, PASSIVE))
CALL(acquire, (in->cpu, in->lacks ? NULL : &in->entry, PASSIVE))
CALL(copy, (in->cpu, in->from, PASSIVE))
CALL(release, (in->cpu, in->from))
CALL(held, (in->cpu, in->number, OUT(is_so)))
CALL(get_local, (in->cpu, in->kind, in->name, LOCAL))
CALL(acquire_local, (in->cpu, in->lacks ? NULL : &in->entry, LOCAL))
CALL(copy_local, (in->local, LOCAL))
CALL(release_local_locked, (in->keeper, in->cpu, in->local))
CALL(try_release_local, (in->cpu, in->local))
CALL(forget_local, (in->local))
CALL(attach, (in->keeper, in->cpu, in->name, 7, OUT(entry)))
CALL(attach_iface, (in->keeper, in->cpu, in->driver, in->name, 7, OUT(entry)))
CALL(replace, (in->keeper, in->cpu, in->name, 7, PLACE(gone), OUT(entry)))
CALL(replace_iface, (in->keeper, in->cpu, in->driver, in->name, 7, PLACE(gone), OUT(entry)))
CALL(detach, (in->keeper, in->cpu, in->kind, in->name, PLACE(gone)))
CALL(room, (in->keeper))
CALL(destroy, (in->keeper, in->number, OUT(met)))
CALL(perform_begin, (in->keeper, in->cpu, in->wait))
CALL(perform_turn, (in->keeper, in->cpu, in->wait, OUT(number)))
CALL(audit, (in->keeper, in->cpus, in->count, in->lacks ? NULL : out->list, in->room,
    OUT(length)))

/* A call, the CPU and the name that it gets if these are right, and its faults in their order. */
static const struct row {
	const char *name;
	enum kupaldiz_result (*call)(const struct given *in, struct written *out);
	unsigned at;
	const struct kupaldiz_name *of;
	enum fault faults[MOST_FAULTS];
} ROWS[] = {
#define ROW(call, at, of, ...)	{#call, call_##call, at, of, {__VA_ARGS__}}
#define FINDS		NO_CPU, NULL_NAME, NO_KIND, ZERO_NAME
#define GETS(full)	NO_CPU, full, NULL_NAME, NO_KIND, ZERO_NAME
#define ACQUIRES(full)	NO_CPU, full, NULL_PLACE, NO_KIND, ZERO_NAME, IS_OUT, IS_ABSENT
#define CHANGES		NO_KEEPER, NO_CPU
#define ON_DRIVER	ZERO_DRIVER, ZERO_NAME, IS_IN, IS_SPENT, NO_DRIVER, DRIVERS
	ROW(open, OUTER, NULL, FULL_KEEPER, NULL_SETTINGS, NULL_CPUS, NO_SETTING, LESS_CPUS),
	ROW(close, OUTER, NULL, NULL_CPUS, IS_IN),
	ROW(settings_of, OUTER, NULL, NO_KEEPER),
	ROW(enter, OUTER, NULL, NO_CPU, IS_DEEP, IS_SPENT),
	ROW(exit, INNER, NULL, NO_CPU, IS_OUT),
	ROW(depth, INNER, NULL, NO_CPU),
	ROW(look_up, OUTER, &wm, FINDS, IS_SPENT, IS_ABSENT),
	ROW(look_up, DEEP, &wm, FINDS, IS_ABSENT),
	ROW(find, INNER, &wm, FINDS, IS_OUT, IS_ABSENT),
	ROW(enter_find, OUTER, &wm, FINDS, IS_DEEP, IS_SPENT, IS_ABSENT),
	ROW(walk, INNER, NULL, NO_CPU, NULL_PLACE, IS_OUT, LESS_ROOM),
	ROW(get, OUTER, &wm, GETS(FULL_PASSIVE), IS_SPENT, IS_ABSENT, PASSIVES),
	ROW(get, DEEP, &wm, GETS(FULL_PASSIVE), IS_ABSENT),
	ROW(acquire, INNER, NULL, ACQUIRES(FULL_PASSIVE), PASSIVES),
	ROW(copy, INNER, NULL, NO_CPU, NO_FROM, FULL_PASSIVE, NOT_ITS, NO_HOLD, PASSIVES),
	ROW(release, INNER, NULL, NO_CPU, NO_FROM, NOT_ITS, NO_HOLD),
	ROW(held, INNER, NULL, NO_CPU),
	ROW(get_local, OUTER, &wm, GETS(FULL_LOCAL), IS_SPENT, IS_ABSENT, LOCALS),
	ROW(get_local, INNER, &wm, GETS(FULL_LOCAL), IS_ABSENT, LOCALS),
	ROW(acquire_local, INNER, NULL, ACQUIRES(FULL_LOCAL), LOCALS),
	ROW(copy_local, OUTER, NULL, NO_LOCAL, FULL_LOCAL),
	ROW(release_local_locked, OUTER, NULL, CHANGES, NO_LOCAL, NO_COUNT),
	ROW(try_release_local, OUTER, NULL, NO_CPU, NO_LOCAL, IS_COLLECTED),
	ROW(forget_local, OUTER, NULL, NO_LOCAL),
	ROW(attach, OUTER, &fresh, CHANGES, NULL_NAME, ZERO_NAME, IS_IN, IS_TAKEN, IS_CROWDED,
	    IS_ENDED),
	ROW(attach_iface, OUTER, &fresh, CHANGES, NULL_DRIVER, NULL_NAME, ON_DRIVER, IS_TAKEN,
	    IS_CROWDED, IS_ENDED),
	ROW(replace, OUTER, &wm, CHANGES, NULL_NAME, NULL_PLACE, ZERO_NAME, IS_IN, IS_ABSENT,
	    IS_CROWDED, IS_ENDED),
	ROW(replace_iface, OUTER, &wm, CHANGES, NULL_DRIVER, NULL_NAME, NULL_PLACE, ON_DRIVER,
	    IS_ABSENT, IS_CROWDED, IS_ENDED),
	ROW(detach, OUTER, &wm, CHANGES, NULL_NAME, NULL_PLACE, NO_KIND, ZERO_NAME, IS_IN,
	    IS_ABSENT),
	ROW(room, OUTER, NULL, NO_KEEPER, IS_CROWDED, IS_ENDED),
	ROW(destroy, OUTER, NULL, NO_KEEPER, IS_LIVE, IS_HELD),
	ROW(perform_begin, OUTER, NULL, CHANGES, NULL_WAIT, IS_IN),
	ROW(perform_turn, OUTER, NULL, CHANGES, NULL_WAIT, UNBEGUN, NOT_ITS, IS_IN, IS_EARLY),
	ROW(audit, OUTER, NULL, NO_KEEPER, NULL_CPUS, NULL_PLACE, LESS_CPUS, OTHER_CPUS, EMPTY_CPU,
	    LESS_ROOM),
};

/* ---- What was there before. ---- */

/* Each of the first two CPUs has as many references of each kind to an entry as it may. */
static void refer(struct bench *bench)
{
	struct kupaldiz_cpu *cpus = bench->cpus;
	for (unsigned i = 0; i < 4; i++) {
		struct kupaldiz_cpu *cpu = &cpus[i / 2];
		struct kupaldiz_passive *passive = &bench->passives[i / 2][i % 2];
		DONE(kupaldiz_get(cpu, KUPALDIZ_DRIVER, &full, passive));
		DONE(kupaldiz_get_local(cpu, KUPALDIZ_DRIVER, &full, &bench->locals[i / 2][i % 2]));
	}
	DONE(kupaldiz_get(&cpus[INNER], KUPALDIZ_DRIVER, &wm, &bench->passive));
	DONE(kupaldiz_get_local(&cpus[INNER], KUPALDIZ_DRIVER, &wm, &bench->local));
	DONE(kupaldiz_get_local(&cpus[OUTER], KUPALDIZ_DRIVER, &fresh, &bench->collected));
}

/* Entries come, and go as far as they can. */
static void change(struct bench *bench)
{
	struct kupaldiz_keeper *keeper = &bench->keeper;
	struct kupaldiz_cpu *cpu = &bench->cpus[OUTER];
	struct kupaldiz_met met;
	DONE(kupaldiz_attach(keeper, cpu, &wm, 1, &bench->wm));
	DONE(kupaldiz_attach(keeper, cpu, &full, 2, &bench->full));
	DONE(kupaldiz_attach_iface(keeper, cpu, &wm, &wm, 3, NULL));
	DONE(kupaldiz_attach(keeper, cpu, &fresh, 4, NULL));
	refer(bench);
	DONE(kupaldiz_replace(keeper, cpu, &fresh, 5, &bench->gone, NULL));
	DONE(kupaldiz_detach(keeper, cpu, KUPALDIZ_DRIVER, &fresh, &bench->retired));
	IS(STILL_HELD, kupaldiz_destroy(keeper, bench->gone.number, &met));
	EXPECT(met.stage == KUPALDIZ_LOCAL && met.what == 1);
}

/* The registry has a slot no more, or no change. */
static void use_up(struct bench *bench)
{
	const bool is_crowded = bench == &benches[CROWDED];
	struct kupaldiz_cpu *cpu = &bench->cpus[OUTER];
	struct kupaldiz_entry gone;
	for (unsigned i = 0; kupaldiz_room(&bench->keeper) == KUPALDIZ_DONE; i++) {
		const struct kupaldiz_name name = numbered('n', i);
		DONE(kupaldiz_attach(&bench->keeper, cpu, &name, 0, NULL));
		if (is_crowded)
			continue;
		DONE(kupaldiz_detach(&bench->keeper, cpu, KUPALDIZ_DRIVER, &name, &gone));
		DONE(kupaldiz_destroy(&bench->keeper, gone.number, NULL));
	}
}

static void open_bench(struct bench *bench)
{
	memset(bench, 0, sizeof *bench);
	DONE(kupaldiz_open(&SETTINGS, &bench->keeper, bench->cpus, CPUS));
	change(bench);
	if (bench != &benches[ROOMY])
		use_up(bench);
	for (unsigned i = 0; i < CPUS; i++)
		DONE(kupaldiz_perform_begin(&bench->keeper, &bench->cpus[i], &bench->waits[i]));
	DONE(kupaldiz_enter(&bench->cpus[INNER]));
	while (kupaldiz_enter(&bench->cpus[SPENT]) == KUPALDIZ_DONE)
		DONE(kupaldiz_exit(&bench->cpus[SPENT]));
	while (kupaldiz_enter(&bench->cpus[DEEP]) == KUPALDIZ_DONE)
		continue;
	DONE(kupaldiz_perform_begin(&bench->keeper, &bench->cpus[OUTER], &bench->late));
}

static void close_bench(struct bench *bench)
{
	for (unsigned i = 0; i < CPUS; i++)
		while (kupaldiz_exit(&bench->cpus[i]) == KUPALDIZ_DONE)
			continue;
	for (unsigned i = 0; i < 4; i++)
		DONE(kupaldiz_forget_local(&bench->locals[i / 2][i % 2]));
	/* A share that is forgotten keeps its block. Without a keeper the block isn't shared. */
	kupaldiz_release_local_locked(&bench->keeper, &bench->cpus[OUTER], &bench->local);
	kupaldiz_forget_local(&bench->local);
	DONE(kupaldiz_forget_local(&bench->collected));
	DONE(kupaldiz_close(&bench->keeper, bench->cpus, CPUS));
}

/* ---- All of it. ---- */

/* What the call of a row gets with these faults, a bit each. What it returns then. */
static enum kupaldiz_result prepare(const struct row *row, unsigned faults, struct given *given)
{
	struct bench *on = &benches[ROOMY];
	enum kupaldiz_result wanted = KUPALDIZ_DONE;
	*given = (struct given){.on = on, .at = row->at, .cpus = &on->cpus[OUTER], .count = CPUS,
	    .room = SLOTS, .kind = KUPALDIZ_DRIVER, .driver = &wm, .name = row->of,
	    .entry = on->wm, .from = &on->passive, .local = &on->local,
	    .wait = &on->waits[OUTER], .settings = &SETTINGS, .number = on->retired.number};
	if (row->call == call_close)
		given->count = 2;
	if (row->call == call_audit)
		given->cpus = on->cpus;
	for (unsigned i = MOST_FAULTS; i-- > 0;)
		if (faults >> i & 1) {
			FAULT[row->faults[i]].spoil(given);
			wanted = FAULT[row->faults[i]].result;
		}
	if (given->keeper == NULL)
		given->keeper = &given->on->keeper;
	if (given->cpu == NULL && given->at < CPUS)
		given->cpu = &given->on->cpus[given->at];
	return wanted;
}

/* What these write all the same, the call's own test has. */
static bool writes(enum kupaldiz_result result)
{
	return result == KUPALDIZ_DONE || result == KUPALDIZ_STILL_HELD ||
	    result == KUPALDIZ_WAITING || result == KUPALDIZ_NO_ROOM;
}

static unsigned long compared;

static void try(const struct row *row, unsigned faults, bool is_mute)
{
	static struct bench before[BENCHES];
	static struct written out, untouched;
	struct given given;
	const enum kupaldiz_result wanted = prepare(row, faults, &given);
	given.is_mute = is_mute;
	memcpy(before, benches, sizeof before);
	memset(&untouched, 0x5a, sizeof untouched);
	memset(&untouched, 0, offsetof(struct written, entry));
	memcpy(&out, &untouched, sizeof out);
	const enum kupaldiz_result result = row->call(&given, &out);
	if (result != wanted)
		fprintf(stderr, "%s, faults %#x: %d, not %d\n", row->name, faults, result, wanted);
	EXPECT(result == wanted);
	EXPECT(writes(result) || memcmp(&out, &untouched, sizeof out) == 0);
	EXPECT(writes(result) || memcmp(before, benches, sizeof before) == 0);
	if (out.local.entry.number != 0) {
		struct bench *on = &benches[ROOMY];
		DONE(kupaldiz_release_local_locked(&on->keeper, &on->cpus[OUTER], &out.local));
	}
	DONE(kupaldiz_close(&out.keeper, out.cpus, CPUS));
	compared++;
}

static void try_each(const struct row *row, bool is_mute)
{
	unsigned count = 0;
	while (count < MOST_FAULTS && row->faults[count] != NOTHING)
		count++;
	for (unsigned i = 0; i < BENCHES; i++)
		open_bench(&benches[i]);
	not_held = (struct kupaldiz_passive){.entry = benches[ROOMY].retired, .cpu = INNER};
	memcpy(swapped, benches[ROOMY].cpus, sizeof swapped);
	memcpy(with_empty, swapped, sizeof swapped);
	swapped[INNER] = with_empty[OUTER];
	swapped[OUTER] = with_empty[INNER];
	with_empty[OUTER] = no_cpu;
	for (unsigned faults = 1U << count; faults-- > 0;)
		try(row, faults, is_mute);
	for (unsigned i = 0; i < BENCHES; i++)
		close_bench(&benches[i]);
}

/* ---- References. ---- */

/* A passive reference is released once, on its CPU. One that was lost is made again. */
static void check_passive(struct bench *bench)
{
	static const uint64_t others[] = {OUTER, CPUS, INNER + 256, UINT64_MAX};
	struct kupaldiz_cpu *cpu = &bench->cpus[INNER];
	const struct kupaldiz_passive first = bench->passive;
	struct kupaldiz_passive copy = {0};
	struct kupaldiz_passive made = {.entry = {.number = bench->wm.number}, .cpu = INNER};
	bool held;
	DONE(kupaldiz_copy(cpu, &bench->passive, &copy));
	EXPECT(same_entry(&copy.entry, &bench->wm) && copy.cpu == INNER);
	IS(WRONG_CPU, kupaldiz_release(&bench->cpus[OUTER], &copy));
	DONE(kupaldiz_release(cpu, &copy));
	EXPECT(copy.entry.number == 0);
	IS(EMPTY_HANDLE, kupaldiz_release(cpu, &copy));
	DONE(kupaldiz_held(cpu, bench->wm.number, &held));
	EXPECT(held);
	DONE(kupaldiz_release(cpu, &made));
	IS(NOT_HELD, kupaldiz_release(cpu, &bench->passive));
	IS(NOT_HELD, kupaldiz_copy(cpu, &bench->passive, &copy));
	DONE(kupaldiz_held(cpu, bench->wm.number, &held));
	EXPECT(!held && memcmp(&bench->passive, &first, sizeof first) == 0);
	for (size_t i = 0; i < COUNT_OF(others); i++) {
		bench->passive.cpu = others[i];
		IS(WRONG_CPU, kupaldiz_release(cpu, &bench->passive));
		IS(WRONG_CPU, kupaldiz_copy(cpu, &bench->passive, &copy));
	}
	EXPECT(copy.entry.number == 0);
}

/* A passive reference has the entry as the caller gave it, a local one as the registry has it. */
static void check_acquired(struct bench *bench)
{
	struct kupaldiz_cpu *cpu = &bench->cpus[INNER];
	struct kupaldiz_entry given = bench->wm;
	struct kupaldiz_passive passive = {0};
	struct kupaldiz_local local = {0};
	given.value++;
	given.slot = SLOTS;
	DONE(kupaldiz_acquire(cpu, &given, &passive));
	DONE(kupaldiz_acquire_local(cpu, &given, &local));
	EXPECT(same_entry(&passive.entry, &given) && same_entry(&local.entry, &bench->wm));
	DONE(kupaldiz_release(cpu, &passive));
	DONE(kupaldiz_release_local_locked(&bench->keeper, cpu, &local));
}

/*
 * A kind and a name are judged in the header's order, although a lookup first compares their words
 * with what its CPU remembers: where that is nothing, and where it is an entry with one of them.
 */
static void check_words(struct bench *bench)
{
	static const struct kupaldiz_name zeros;
	static const unsigned bad[] = {0, 3, 0xffffffff};
	static const enum kupaldiz_kind good[] = {KUPALDIZ_INTERFACE, KUPALDIZ_DRIVER};
	struct kupaldiz_cpu *outer = &bench->cpus[OUTER], *inner = &bench->cpus[INNER];
	const struct kupaldiz_entry before = {.number = 1, .value = 2};
	struct kupaldiz_entry found = before;
	for (int time = 0; time < 2; time++) {
		for (unsigned i = 0; i < 2 * COUNT_OF(bad); i++) {
			const enum kupaldiz_kind kind = (enum kupaldiz_kind)bad[i / 2];
			const struct kupaldiz_name *name = i % 2 != 0 ? &wm : &zeros;
			IS(BAD_KIND, kupaldiz_look_up(outer, kind, name, &found));
			IS(BAD_KIND, kupaldiz_find(outer, kind, name, &found));
			IS(BAD_KIND, kupaldiz_find(inner, kind, name, &found));
			IS(BAD_KIND, kupaldiz_enter_find(outer, kind, name, &found));
		}
		for (unsigned i = 0; i < COUNT_OF(good); i++) {
			IS(BAD_NAME, kupaldiz_look_up(outer, good[i], &zeros, &found));
			IS(BAD_NAME, kupaldiz_find(outer, good[i], &zeros, &found));
			IS(BAD_NAME, kupaldiz_find(inner, good[i], &zeros, &found));
			IS(BAD_NAME, kupaldiz_enter_find(outer, good[i], &zeros, &found));
		}
		IS(OUTSIDE, kupaldiz_find(outer, KUPALDIZ_DRIVER, &wm, &found));
		EXPECT(same_entry(&found, &before));
		/* From now on both CPUs remember the driver. */
		DONE(kupaldiz_look_up(outer, KUPALDIZ_DRIVER, &wm, NULL));
		DONE(kupaldiz_find(inner, KUPALDIZ_DRIVER, &wm, NULL));
	}
}

/* A section acquires what it found last, also once that is retired. A later section doesn't. */
static void check_found(struct bench *bench)
{
	static const enum kupaldiz_result wanted[] = {KUPALDIZ_DONE, KUPALDIZ_NOT_FOUND};
	struct kupaldiz_cpu *cpu = &bench->cpus[OUTER];
	struct kupaldiz_entry found, gone;
	DONE(kupaldiz_enter_find(cpu, KUPALDIZ_DRIVER, &wm, &found));
	DONE(kupaldiz_detach(&bench->keeper, &bench->cpus[SPENT], KUPALDIZ_DRIVER, &wm, &gone));
	for (unsigned i = 0; i < COUNT_OF(wanted); i++) {
		struct kupaldiz_passive passive = {0};
		struct kupaldiz_local local = {0};
		EXPECT(kupaldiz_acquire_local(cpu, &found, &local) == wanted[i]);
		EXPECT(kupaldiz_acquire(cpu, &found, &passive) == wanted[i]);
		kupaldiz_release(cpu, &passive);
		kupaldiz_release_local_locked(&bench->keeper, cpu, &local);
		DONE(kupaldiz_exit(cpu));
		DONE(kupaldiz_enter(cpu));
	}
}

/* An entry is acquired as the one found last, and sought again if another was found since. */
static void check_sought(struct bench *bench)
{
	struct kupaldiz_cpu *cpu = &bench->cpus[INNER];
	struct kupaldiz_entry found;
	DONE(kupaldiz_find(cpu, KUPALDIZ_DRIVER, &wm, &found));
	for (int time = 0; time < 4; time++) {
		struct kupaldiz_passive passive = {0};
		struct kupaldiz_local local = {0};
		if (time == 2)
			DONE(kupaldiz_find(cpu, KUPALDIZ_DRIVER, &full, NULL));
		DONE(kupaldiz_acquire(cpu, &found, &passive));
		DONE(kupaldiz_acquire_local(cpu, &found, &local));
		EXPECT(same_entry(&passive.entry, &bench->wm) && same_entry(&local.entry, &bench->wm));
		DONE(kupaldiz_release(cpu, &passive));
		DONE(kupaldiz_release_local_locked(&bench->keeper, cpu, &local));
	}
}

static void count_locals(struct bench *bench, uint64_t held)
{
	struct kupaldiz_met met;
	IS(STILL_HELD, kupaldiz_destroy(&bench->keeper, bench->gone.number, &met));
	EXPECT(met.stage == KUPALDIZ_LOCAL && met.what == held);
}

/* Copies of a local reference are one to the table, until the last of them is released. */
static void check_copies(struct bench *bench)
{
	struct kupaldiz_cpu *cpus = bench->cpus;
	struct kupaldiz_local copies[3] = {0};
	for (unsigned i = 0; i < 3; i++)
		DONE(kupaldiz_copy_local(i < 2 ? &bench->collected : &copies[0], &copies[i]));
	for (unsigned i = 0; i < 3; i++)
		EXPECT(same_entry(&copies[i].entry, &bench->gone));
	count_locals(bench, 1);
	DONE(kupaldiz_release_local_locked(&bench->keeper, &cpus[SPENT], &bench->collected));
	IS(EMPTY_HANDLE, kupaldiz_try_release_local(&cpus[OUTER], &bench->collected));
	IS(EMPTY_HANDLE, kupaldiz_forget_local(&bench->collected));
	count_locals(bench, 1);
	DONE(kupaldiz_release_local_locked(&bench->keeper, &cpus[INNER], &copies[2]));
	bench->collected = copies[0];
	count_locals(bench, 1);
	DONE(kupaldiz_release_local_locked(&bench->keeper, &cpus[DEEP], &copies[1]));
	IS(COLLECTED, kupaldiz_try_release_local(&cpus[OUTER], &bench->collected));
	DONE(kupaldiz_release_local_locked(&bench->keeper, NULL, &bench->collected));
	DONE(kupaldiz_destroy(&bench->keeper, bench->gone.number, NULL));
	IS(NOT_RETIRED, kupaldiz_destroy(&bench->keeper, bench->gone.number, NULL));
	DONE(kupaldiz_get_local(&cpus[OUTER], KUPALDIZ_INTERFACE, &wm, &bench->collected));
}

static void open_roomy(void)
{
	open_bench(&benches[ROOMY]);
}

/*
 * A forgotten copy holds the entry permanently. Releases of the others don't change that. It keeps
 * memory, so this is a process of its own, which ends without a checker's last word.
 */
static void check_forgotten(void)
{
	struct bench *bench = &benches[ROOMY];
	struct kupaldiz_local copy = {0};
	DONE(kupaldiz_copy_local(&bench->collected, &copy));
	DONE(kupaldiz_forget_local(&copy));
	IS(EMPTY_HANDLE, kupaldiz_forget_local(&copy));
	count_locals(bench, 1);
	DONE(kupaldiz_release_local_locked(&bench->keeper, &bench->cpus[OUTER], &bench->collected));
	count_locals(bench, 1);
	kill(getpid(), SIGKILL);
}

/* A wait is its CPU's. It may be begun again on another one, and then is that one's. */
static void check_waits(struct bench *bench)
{
	struct kupaldiz_wait *wait = &bench->waits[OUTER];
	DONE(kupaldiz_perform_turn(&bench->keeper, &bench->cpus[OUTER], wait, NULL));
	IS(WRONG_CPU, kupaldiz_perform_turn(&bench->keeper, &bench->cpus[SPENT], wait, NULL));
	DONE(kupaldiz_perform_begin(&bench->keeper, &bench->cpus[SPENT], wait));
	IS(WRONG_CPU, kupaldiz_perform_turn(&bench->keeper, &bench->cpus[OUTER], wait, NULL));
	IS(WAITING, kupaldiz_perform_turn(&bench->keeper, &bench->cpus[SPENT], wait, NULL));
}

/* An opening with a CPU that is open already opens nothing. */
static void check_openings(struct bench *bench)
{
	for (unsigned i = 0; i < CPUS; i++) {
		struct kupaldiz_keeper keeper = {0};
		struct kupaldiz_cpu cpus[CPUS] = {0};
		cpus[i] = bench->cpus[i];
		IS(FULL_HANDLE, kupaldiz_open(NULL, &keeper, cpus, CPUS));
		IS(FULL_HANDLE, kupaldiz_open(&SETTINGS, &keeper, cpus, CPUS));
		for (unsigned other = 0; other < CPUS; other++)
			EXPECT((cpus[other].at != NULL) == (other == i) && keeper.at == NULL);
	}
}

/*
 * A local reference can't be released any more: the keeper that has collected its count is closed,
 * and then the CPUs are.
 */
static void check_outlived(bool early)
{
	struct bench *bench = &benches[ROOMY];
	open_bench(bench);
	DONE(kupaldiz_close(&bench->keeper, NULL, 0));
	IS(EMPTY_HANDLE, kupaldiz_settings_of(&bench->keeper, NULL));
	IS(COLLECTED, kupaldiz_try_release_local(&bench->cpus[OUTER], &bench->collected));
	IS(EMPTY_HANDLE, kupaldiz_release_local_locked(&bench->keeper, NULL, &bench->collected));
	struct kupaldiz_local moved = bench->collected, empty = {0};
	if (early)
		DONE(kupaldiz_forget_local(&bench->collected));
	else
		bench->collected = empty;
	DONE(kupaldiz_get_local(&bench->cpus[OUTER], KUPALDIZ_INTERFACE, &wm, &bench->collected));
	close_bench(bench);
	if (!early) {
		DONE(kupaldiz_forget_local(&moved));
		IS(EMPTY_HANDLE, kupaldiz_forget_local(&moved));
	}
	DONE(kupaldiz_close(&bench->keeper, bench->cpus, CPUS));
}

/* In memory that isn't written to the calls that take handles as const are done. */
static void check_constant(void)
{
	const size_t page = (size_t)sysconf(_SC_PAGESIZE);
	const size_t length = (sizeof(struct bench) + page - 1) / page * page;
	struct kupaldiz_passive copy = {0};
	uint64_t depth;
	bool held;
	void *memory;
	EXPECT(posix_memalign(&memory, page, length) == 0);
	open_bench(&benches[ROOMY]);
	const struct bench *bench = memcpy(memory, &benches[ROOMY], sizeof *bench);
	EXPECT(mprotect(memory, length, PROT_READ) == 0);
	DONE(kupaldiz_settings_of(&bench->keeper, NULL));
	DONE(kupaldiz_room(&bench->keeper));
	DONE(kupaldiz_depth(&bench->cpus[DEEP], &depth));
	DONE(kupaldiz_held(&bench->cpus[INNER], bench->wm.number, &held));
	EXPECT(depth == KUPALDIZ_MOST_DEPTH && held);
	DONE(kupaldiz_copy(&benches[ROOMY].cpus[INNER], &bench->passive, &copy));
	close_bench(&benches[ROOMY]);
	EXPECT(mprotect(memory, length, PROT_READ | PROT_WRITE) == 0);
	free(memory);
}

int main(void)
{
	char said[200];
	wm = name_of("wm");
	full = name_of("full");
	fresh = name_of("fresh");
	absent = name_of("absent");
	for (size_t i = 0; i < 2 * COUNT_OF(ROWS); i++)
		try_each(&ROWS[i / 2], i % 2 != 0);
	const int status = run_in_child(open_roomy, check_forgotten, said, sizeof said);
	EXPECT(said[0] == 0 && WIFSIGNALED(status) && WTERMSIG(status) == SIGKILL);
	open_bench(&benches[ROOMY]);
	check_words(&benches[ROOMY]);
	check_acquired(&benches[ROOMY]);
	check_sought(&benches[ROOMY]);
	check_passive(&benches[ROOMY]);
	check_found(&benches[ROOMY]);
	close_bench(&benches[ROOMY]);
	open_bench(&benches[ROOMY]);
	check_copies(&benches[ROOMY]);
	check_waits(&benches[ROOMY]);
	check_openings(&benches[ROOMY]);
	close_bench(&benches[ROOMY]);
	check_outlived(true);
	check_outlived(false);
	check_constant();
	printf("misuse: %lu calls compared\n", compared);
	return 0;
}
