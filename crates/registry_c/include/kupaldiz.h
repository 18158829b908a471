/*
 * kupaldiz.h - a table of names that threads read without a lock, whose removals say who still
 * holds an entry
 *
 * A registry has one keeper, for changes, and CPUs, for everything else. A CPU is a handle, not a
 * processor: one thread at a time uses it. Calls with the keeper are made under a lock of the
 * caller's, the interlock. No call waits; kupaldiz_waiting(3) has calls that do.
 *
 * A handle and a reference are set to {0} before their first use, which is empty. In C++ {} is the
 * same without a warning. A call returns KUPALDIZ_DONE, which is 0, or an error. On failure nothing
 * changes and no output is written, unless the call's comment says otherwise. An output may be
 * NULL, unless the comment says that it is needed.
 *
 * Each call tests its arguments first, in one order, and then what the registry allows:
 *
 * - KUPALDIZ_EMPTY_HANDLE: a handle or a reference that the call needs is empty
 * - KUPALDIZ_FULL_HANDLE: the place for a new handle or reference isn't empty
 * - KUPALDIZ_NULL: a pointer to something that the call needs is NULL
 * - KUPALDIZ_BAD_KIND, KUPALDIZ_BAD_NAME and what else is wrong with a value that was given
 *
 * Each comment lists its call's errors in the order in which they are tested. All calls are proved,
 * except kupaldiz_strerror and those of the library at the end. kupaldiz(7) has the rules for all.
 */
#ifndef KUPALDIZ_H
#define KUPALDIZ_H

#include <stdbool.h>
#include <stddef.h>
#include <stdint.h>

#include "kupaldiz_limits.h"

#ifdef __cplusplus
extern "C" {
#endif

/* Attributes for compilers: the result must be used; these parameters are never NULL. */
#if defined(__GNUC__)
#define KUPALDIZ_MUST_USE	__attribute__((warn_unused_result))
#define KUPALDIZ_NONNULL(...)	__attribute__((nonnull(__VA_ARGS__)))
#else
#define KUPALDIZ_MUST_USE
#define KUPALDIZ_NONNULL(...)
#endif

/* ---- Results. ---- */

/*
 * What a call returns. Those up to 63 are of the registry, those from 64 of this header. A number
 * is never reused: 9, 67, 70, 72 and 80 are no results.
 */
enum kupaldiz_result {
	KUPALDIZ_DONE = 0,		/* done. */
	KUPALDIZ_NO_MEMORY = 1,		/* memory ran out. */
	KUPALDIZ_BAD_SETTINGS = 2,	/* a setting is out of its range. */
	KUPALDIZ_NAME_TAKEN = 3,	/* a live entry has this kind and name. */
	KUPALDIZ_NO_SLOT = 4,		/* no slot is vacant. */
	/* the history has no room for this change and the detaches to come. */
	KUPALDIZ_HISTORY_FULL = 5,
	KUPALDIZ_NOT_FOUND = 6,		/* no live entry has this kind and name. */
	KUPALDIZ_INSIDE = 7,		/* the CPU is inside a section. */
	KUPALDIZ_SECTIONS_SPENT = 8,	/* the CPU has begun as many sections as it may. */
	/* the CPU has as many passive references to the entry as it may. */
	KUPALDIZ_PASSIVE_FULL = 10,
	KUPALDIZ_WRONG_CPU = 11,	/* the reference or the wait is another CPU's. */
	KUPALDIZ_NOT_HELD = 12,		/* the CPU holds no passive reference to that entry. */
	/* the CPU's net count of local references to the entry is at its limit. */
	KUPALDIZ_LOCAL_FULL = 13,
	KUPALDIZ_NOT_RETIRED = 14,	/* no retired entry has this number. */
	KUPALDIZ_MISSING_CPU = 15,	/* the CPUs are not all CPUs in their order. */
	KUPALDIZ_STILL_HELD = 16,	/* the entry is still held. */
	KUPALDIZ_WAITING = 17,		/* a CPU is still inside its section. */
	KUPALDIZ_TOO_DEEP = 18,		/* the section is nested as deep as it may be. */
	KUPALDIZ_NEEDS_DRIVER = 19,	/* no live driver has the name that the interface names. */

	KUPALDIZ_OUTSIDE = 64,		/* the CPU is outside any section. */
	KUPALDIZ_EMPTY_HANDLE = 65,	/* a handle or a reference is empty that must not be. */
	KUPALDIZ_FULL_HANDLE = 66,	/* a handle or a reference isn't empty that must be. */
	KUPALDIZ_BAD_KIND = 68,		/* neither an interface nor a driver. */
	KUPALDIZ_BAD_NAME = 69,		/* both words of the name are 0, or it isn't an id's. */
	KUPALDIZ_NAME_TOO_LONG = 71,	/* more than 16 bytes. */
	/* the entry is being destroyed: make kupaldiz_release_local_locked, under the interlock. */
	KUPALDIZ_COLLECTED = 73,
	KUPALDIZ_NOT_COLLECTED = 74,	/* no count of the entry was collected: give a CPU. */
	KUPALDIZ_NO_ROOM = 75,		/* the list is too short for the result. */
	KUPALDIZ_NOT_BEGUN = 76,	/* the wait was never begun. */
	KUPALDIZ_NULL = 77,		/* a pointer to something that the call needs is NULL. */
	/* the program was compiled for other limits than the library's. */
	KUPALDIZ_OTHER_LIMITS = 78,
	/* Only calls of kupaldiz_waiting.h return these two. */
	KUPALDIZ_NO_CPU = 79,		/* every CPU is another thread's. */
	KUPALDIZ_NO_THREAD = 81,	/* no thread could be started. */
	/* the name's registry is full, and the table that chose it isn't. */
	KUPALDIZ_CROWDED = 82
};

/*
 * kupaldiz_strerror - the English text of a result, as a string that is never freed
 *
 * It is never NULL, and never written to. For a number that is no result it says so. Any thread may
 * call it. In C: tested, not proved.
 */
const char *kupaldiz_strerror(enum kupaldiz_result result);

/* ---- Names. Any thread may call these, at any time. ---- */

/* A name: its bytes, the first one highest, then zeros up to 16. {0} is no name. */
struct kupaldiz_name {
	uint64_t high;
	uint64_t low;
};

#define KUPALDIZ_NAME_BYTES	16	/* of a name, at most */
#define KUPALDIZ_NAME_ROOM	(KUPALDIZ_NAME_BYTES + 1)	/* of any name, with a zero byte */

/*
 * kupaldiz_name_of_bytes - make the name with these bytes, such as "eth0.100" or an address
 *
 * It takes 1 to 16 bytes, whichever they are, that aren't all 0. Zeros at the end don't count: "a"
 * and "a\0" are one name. So give keys that may end in them, such as addresses, one length.
 * Returns KUPALDIZ_NULL if `bytes` or `name` is NULL, KUPALDIZ_NAME_TOO_LONG, KUPALDIZ_BAD_NAME if
 * there are no bytes, or zeros alone.
 */
enum kupaldiz_result kupaldiz_name_of_bytes(const void *bytes, size_t length,
    struct kupaldiz_name *name) KUPALDIZ_MUST_USE;

/*
 * kupaldiz_name_of_id - make the name of an id: any number, such as an index or an address
 *
 * A name of 13 bytes: a letter, a to p, for the four highest bits, then twelve digits to the base
 * 32, 0 to 9 and a to v. Names order as the ids do. It always returns KUPALDIZ_DONE.
 */
enum kupaldiz_result kupaldiz_name_of_id(uint64_t id, struct kupaldiz_name *name);

/*
 * kupaldiz_id_of_name - write the id whose name it is to `id`
 *
 * Returns KUPALDIZ_NULL if `name` is NULL, KUPALDIZ_BAD_NAME if kupaldiz_name_of_id doesn't make
 * `name` of any id.
 */
enum kupaldiz_result kupaldiz_id_of_name(const struct kupaldiz_name *name, uint64_t *id)
    KUPALDIZ_MUST_USE;

/*
 * kupaldiz_name_format - write the bytes of a name, and a zero byte, to `text`
 *
 * It writes them as they are, up to the last one that isn't 0. KUPALDIZ_NAME_ROOM bytes are always
 * enough, and nothing is cut.
 * Returns KUPALDIZ_NULL if `name` is NULL, or if `text` is NULL and `room` isn't 0,
 * KUPALDIZ_BAD_NAME, KUPALDIZ_NO_ROOM.
 */
enum kupaldiz_result kupaldiz_name_format(const struct kupaldiz_name *name, char *text, size_t room)
    KUPALDIZ_MUST_USE;

/* ---- Handles, and what calls write. ---- */

/* The handles. {0} is empty. A call that takes one as const doesn't change it. */
struct kupaldiz_keeper { void *at; };
struct kupaldiz_cpu { void *at; };

/* The size of a registry, and the limits of its counts. */
struct kupaldiz_settings {
	uint64_t cpus;		/* 1 to KUPALDIZ_MOST_CPUS */
	uint64_t slots;		/* entries at a time, live and retired: 1 to KUPALDIZ_MOST_SLOTS */
	uint64_t change_limit;	/* all changes together: 1 to KUPALDIZ_MOST_CHANGES */
	uint64_t section_limit;	/* outermost sections of each CPU: 1 to KUPALDIZ_MOST_SECTIONS */
	uint64_t passive_limit;	/* a CPU's references to an entry: 1 to KUPALDIZ_MOST_COUNT */
	uint64_t count_limit;	/* a CPU's net count of local ones: 1 to KUPALDIZ_MOST_COUNT */
};

/* So many CPUs and slots, and the largest limits: struct kupaldiz_settings s = this. */
#define KUPALDIZ_SETTINGS(cpus, slots)	{(cpus), (slots), KUPALDIZ_MOST_CHANGES, \
	    KUPALDIZ_MOST_SECTIONS, KUPALDIZ_MOST_COUNT, KUPALDIZ_MOST_COUNT}

/*
 * What an entry is. A plain table has one kind, KUPALDIZ_ENTRY. Where the kernel's model is meant,
 * an entry is a driver, or an interface, whose slot keeps its driver.
 */
enum kupaldiz_kind {
	KUPALDIZ_INTERFACE = 1,
	KUPALDIZ_DRIVER = 2,
	KUPALDIZ_ENTRY = KUPALDIZ_DRIVER
};

/* An entry, as a call writes it. It never changes. */
struct kupaldiz_entry {
	uint64_t number;	/* from 1, never reused */
	uint64_t slot;		/* from 0, reused once the entry is destroyed */
	enum kupaldiz_kind kind;
	struct kupaldiz_name name;
	union {			/* what its attacher gave. The registry never looks at it. */
		uint64_t value;
		void *pointer;
	};
};

/*
 * kupaldiz_value - a pointer as the value of an attach, whose `pointer` it is then
 */
static inline uint64_t kupaldiz_value(const void *pointer)
{
	return (uint64_t)(uintptr_t)pointer;
}

/* ---- The life of a registry. ---- */

/*
 * kupaldiz_open - make a registry: its keeper, and its CPUs in order
 *
 * `count` is settings->cpus. All handles are empty before the call. All memory of the registry is
 * allocated here, except the blocks of local references. A program calls it by a macro, which
 * compares the limits that the program was compiled for with the library's.
 * Returns KUPALDIZ_OTHER_LIMITS, KUPALDIZ_FULL_HANDLE, KUPALDIZ_NULL if `settings` is NULL, or if
 * `cpus` is NULL and `count` isn't 0, KUPALDIZ_BAD_SETTINGS, KUPALDIZ_MISSING_CPU if `count` is
 * another number, KUPALDIZ_NO_MEMORY.
 */
enum kupaldiz_result kupaldiz_open(const struct kupaldiz_settings *settings,
    struct kupaldiz_keeper *keeper, struct kupaldiz_cpu *cpus, size_t count)
    KUPALDIZ_NONNULL(2) KUPALDIZ_MUST_USE;

/*
 * kupaldiz_close - close the keeper and `count` CPUs, all or none
 *
 * Each may be closed by itself, in any order: `keeper` may be NULL, and `count` 0. The last handle
 * frees the registry's memory. Handles that are empty already are skipped, so the call may follow
 * an opening that failed. No other thread uses these handles; if all are closed, no other thread
 * uses the registry.
 *
 * Entries needn't be detached before. Passive references on a CPU that is closed can't be released
 * any more: their entries keep their slots as long as the registry has another open handle. A local
 * reference keeps its block of memory: release it before, or call kupaldiz_forget_local. The memory
 * that an entry's value points to is the caller's, who may free it once all handles are closed.
 * Returns KUPALDIZ_NULL if `cpus` is NULL and `count` isn't 0, KUPALDIZ_INSIDE.
 */
enum kupaldiz_result kupaldiz_close(struct kupaldiz_keeper *keeper, struct kupaldiz_cpu *cpus,
    size_t count);

/*
 * kupaldiz_settings_of - the settings that the registry was opened with
 *
 * Returns KUPALDIZ_EMPTY_HANDLE.
 */
enum kupaldiz_result kupaldiz_settings_of(const struct kupaldiz_keeper *keeper,
    struct kupaldiz_settings *settings) KUPALDIZ_NONNULL(1);

/* ---- Sections and lookups. These are the read sections of pserialize(9). ---- */

/*
 * kupaldiz_enter - enter a section, or nest one more in the open section: pserialize_read_enter
 *
 * Returns KUPALDIZ_EMPTY_HANDLE, KUPALDIZ_TOO_DEEP, KUPALDIZ_SECTIONS_SPENT.
 */
enum kupaldiz_result kupaldiz_enter(struct kupaldiz_cpu *cpu) KUPALDIZ_NONNULL(1) KUPALDIZ_MUST_USE;

/*
 * kupaldiz_exit - exit the section, or one nesting of it: pserialize_read_exit
 *
 * Returns KUPALDIZ_EMPTY_HANDLE, KUPALDIZ_OUTSIDE.
 */
enum kupaldiz_result kupaldiz_exit(struct kupaldiz_cpu *cpu) KUPALDIZ_NONNULL(1);

/*
 * kupaldiz_depth - the number of open enters: 0 outside any section, at most KUPALDIZ_MOST_DEPTH
 *
 * Returns KUPALDIZ_EMPTY_HANDLE.
 */
enum kupaldiz_result kupaldiz_depth(const struct kupaldiz_cpu *cpu, uint64_t *depth)
    KUPALDIZ_NONNULL(1);

/*
 * kupaldiz_look_up - write a copy of the live entry with this kind and name
 *
 * It takes one load if the CPU remembers the entry, and two if it remembers its absence; else it
 * looks up in a section of its own. The result is what the registry had at one moment during the
 * call:
 *
 * - It finds an entry whose attach returned before the call began, unless that entry is detached
 *   before the call returns. A replacement isn't such a detach: the name has an entry throughout.
 * - It doesn't find an entry whose detach returned before the call began.
 *
 * Outside any section nothing holds the entry afterwards: the entry may be freed, and so may the
 * memory that its value points to. To use that memory, call kupaldiz_get. In an open section the
 * call is a kupaldiz_find.
 * Returns KUPALDIZ_EMPTY_HANDLE, KUPALDIZ_NULL if `name` is NULL, KUPALDIZ_BAD_KIND,
 * KUPALDIZ_BAD_NAME, KUPALDIZ_SECTIONS_SPENT outside a section, even if none would begin,
 * KUPALDIZ_NOT_FOUND.
 */
enum kupaldiz_result kupaldiz_look_up(struct kupaldiz_cpu *cpu, enum kupaldiz_kind kind,
    const struct kupaldiz_name *name, struct kupaldiz_entry *found)
    KUPALDIZ_NONNULL(1) KUPALDIZ_MUST_USE;

/*
 * kupaldiz_find - look an entry up by its kind and name, in a section
 *
 * The entry keeps its slot until the section ends. The call takes no lock, waits for no other
 * thread and writes no shared word. The result is what the registry had at one moment during the
 * call, as with kupaldiz_look_up, however long the section has been open.
 * Returns KUPALDIZ_EMPTY_HANDLE, KUPALDIZ_NULL if `name` is NULL, KUPALDIZ_BAD_KIND,
 * KUPALDIZ_BAD_NAME, KUPALDIZ_OUTSIDE, KUPALDIZ_NOT_FOUND.
 */
enum kupaldiz_result kupaldiz_find(struct kupaldiz_cpu *cpu, enum kupaldiz_kind kind,
    const struct kupaldiz_name *name, struct kupaldiz_entry *found)
    KUPALDIZ_NONNULL(1) KUPALDIZ_MUST_USE;

/*
 * kupaldiz_enter_find - enter and find: a section with the live entry of this kind and name in it
 *
 * KUPALDIZ_DONE leaves the CPU inside, one nesting deeper than before, and the caller makes the
 * kupaldiz_exit. A call that fails leaves the CPU as deep inside as before, and has no exit. The
 * entry is as after kupaldiz_find.
 * Returns KUPALDIZ_EMPTY_HANDLE, KUPALDIZ_NULL if `name` is NULL, KUPALDIZ_BAD_KIND,
 * KUPALDIZ_BAD_NAME, KUPALDIZ_TOO_DEEP, KUPALDIZ_SECTIONS_SPENT, KUPALDIZ_NOT_FOUND.
 */
enum kupaldiz_result kupaldiz_enter_find(struct kupaldiz_cpu *cpu, enum kupaldiz_kind kind,
    const struct kupaldiz_name *name, struct kupaldiz_entry *found)
    KUPALDIZ_NONNULL(1) KUPALDIZ_MUST_USE;

/*
 * kupaldiz_walk - all live entries, in a section
 *
 * The entries are written to the first places of `row`, which has `room` places, and their number
 * to `count`. As many places as the registry has slots are enough. An entry comes before those that
 * were attached before it; one that replaced another has that one's place. Each entry of the row
 * keeps its slot until the section ends. If the section was entered for this walk:
 *
 * - An entry whose attach returned before the kupaldiz_enter is in the row, once, unless its detach
 *   or replacement begins before the walk returns.
 * - A name that had an entry then has exactly one in the row, unless that entry is detached.
 * - An entry whose detach returned before the kupaldiz_enter isn't in the row.
 * - An entry that is attached or detached in between may be in the row or not.
 *
 * In a section that was open already, the kupaldiz_enter of these lines is the outermost one, or a
 * kupaldiz_audit since. The walk counts as a lookup that found nothing, so a kupaldiz_acquire of an
 * entry of the row looks it up. The call allocates no memory.
 * Returns KUPALDIZ_EMPTY_HANDLE, KUPALDIZ_NULL if `row` is NULL and `room` isn't 0,
 * KUPALDIZ_OUTSIDE, KUPALDIZ_NO_ROOM if there are more entries than `room`. With the last one the
 * first `room` entries are written to `row`, and the number of all to `count`.
 */
enum kupaldiz_result kupaldiz_walk(struct kupaldiz_cpu *cpu, struct kupaldiz_entry *row,
    size_t room, size_t *count) KUPALDIZ_NONNULL(1) KUPALDIZ_MUST_USE;

/* ---- Passive references. As psref(9)'s they stay with the CPU that acquired them. ---- */

/*
 * A passive reference. {0} is empty. It has its entry, which the caller may read while it is held,
 * and the number of its CPU. The entry keeps its slot until the release, and until then the memory
 * that its value points to may be used. Copy the struct to move a reference, and use only the copy
 * from then on; kupaldiz_copy makes a second one. Only the calls write it, with one exception: one
 * that was lost is made again by entry.number and the number of its CPU.
 */
struct kupaldiz_passive {
	struct kupaldiz_entry entry;
	uint64_t cpu;
};

/*
 * kupaldiz_get - acquire a passive reference to the live entry with this kind and name
 *
 * It writes the reference to `reference`, which is empty before and is needed. It finds what
 * kupaldiz_look_up finds. It takes an addition and a load if the CPU remembers the entry. Until it
 * returns, a turn of the keeper's may write KUPALDIZ_PASSIVE of this CPU for an entry that the CPU
 * has no reference to. The call may be made in a section and outside.
 * Returns KUPALDIZ_EMPTY_HANDLE, KUPALDIZ_FULL_HANDLE, KUPALDIZ_NULL if `name` is NULL,
 * KUPALDIZ_BAD_KIND, KUPALDIZ_BAD_NAME, KUPALDIZ_SECTIONS_SPENT outside a section, even if none
 * would begin, KUPALDIZ_NOT_FOUND, KUPALDIZ_PASSIVE_FULL.
 */
enum kupaldiz_result kupaldiz_get(struct kupaldiz_cpu *cpu, enum kupaldiz_kind kind,
    const struct kupaldiz_name *name, struct kupaldiz_passive *reference)
    KUPALDIZ_NONNULL(1, 4) KUPALDIZ_MUST_USE;

/*
 * kupaldiz_acquire - inside a section, acquire a passive reference to this entry: psref_acquire
 *
 * A call has written the entry. It is known by its number: no other entry is ever acquired in its
 * place. `reference` is empty before and is needed. The caller's entry is copied to it, not the
 * registry's own.
 *
 * If the section's last lookup found the entry, or if this CPU has a passive reference to it, the
 * entry may be live or retired. Otherwise the call is itself a kupaldiz_find of the entry's kind
 * and name, and acquires the entry if it finds it. It doesn't find an entry that was detached or
 * replaced meanwhile, although the section keeps its slot. From then on that find is the section's
 * last lookup, also if the call fails.
 * Returns KUPALDIZ_EMPTY_HANDLE, KUPALDIZ_FULL_HANDLE, KUPALDIZ_NULL if `entry` is NULL,
 * KUPALDIZ_BAD_KIND, KUPALDIZ_BAD_NAME, KUPALDIZ_OUTSIDE, KUPALDIZ_NOT_FOUND if it finds another
 * entry or none, KUPALDIZ_PASSIVE_FULL.
 */
enum kupaldiz_result kupaldiz_acquire(struct kupaldiz_cpu *cpu, const struct kupaldiz_entry *entry,
    struct kupaldiz_passive *reference) KUPALDIZ_NONNULL(1, 3) KUPALDIZ_MUST_USE;

/*
 * kupaldiz_copy - acquire a second reference, to the entry of `from`, on its CPU: psref_copy
 *
 * The entry may be live or retired. It needs no section. Each of the two is released by itself.
 * `copy` is empty before and is needed.
 * Returns KUPALDIZ_EMPTY_HANDLE for the CPU's handle and for `from`, KUPALDIZ_FULL_HANDLE,
 * KUPALDIZ_WRONG_CPU, KUPALDIZ_NOT_HELD, KUPALDIZ_PASSIVE_FULL.
 */
enum kupaldiz_result kupaldiz_copy(struct kupaldiz_cpu *cpu, const struct kupaldiz_passive *from,
    struct kupaldiz_passive *copy) KUPALDIZ_NONNULL(1, 2, 3) KUPALDIZ_MUST_USE;

/*
 * kupaldiz_release - release a passive reference, on the CPU that acquired it, and empty it:
 * psref_release
 *
 * It needs no section. A second release fails with KUPALDIZ_EMPTY_HANDLE, and one on another CPU
 * with KUPALDIZ_WRONG_CPU, and takes nothing away. Of a struct that was copied by assignment only
 * one is released: the CPU's references to an entry are one count. KUPALDIZ_NOT_HELD is for a
 * reference that this CPU can't have acquired: a copy that was released, or another registry's.
 * Returns KUPALDIZ_EMPTY_HANDLE for either, KUPALDIZ_WRONG_CPU, KUPALDIZ_NOT_HELD.
 */
enum kupaldiz_result kupaldiz_release(struct kupaldiz_cpu *cpu, struct kupaldiz_passive *reference)
    KUPALDIZ_NONNULL(1, 2);

/*
 * kupaldiz_held - whether this CPU holds a passive reference to the entry with that number:
 * psref_held
 *
 * Returns KUPALDIZ_EMPTY_HANDLE.
 */
enum kupaldiz_result kupaldiz_held(const struct kupaldiz_cpu *cpu, uint64_t number, bool *held)
    KUPALDIZ_NONNULL(1);

/* ---- Local references. As localcount(9)'s they go anywhere: any CPU may release one. ---- */

/*
 * A local reference. {0} is empty. It has its entry, which the caller may read while it is held.
 * The entry keeps its slot until the release. A reference outlives the section and may go to
 * another thread. It is moved as a passive one is. Only the calls write it.
 *
 * `at` is private. It points to the reference's block. Once the reference was copied, it and each
 * copy point to a small block of their own instead, which leads to the block that they share.
 */
struct kupaldiz_local {
	struct kupaldiz_entry entry;
	void *at[2];		/* private: its block, or its share of one */
};

/*
 * kupaldiz_get_local - acquire a local reference to the live entry with this kind and name
 *
 * It finds what kupaldiz_look_up finds, in a section and outside. `local` is empty before and is
 * needed. Each reference has a block of 64 bytes. A CPU caches one block that was freed on it, so
 * that few calls allocate; a call that fails may leave one cached.
 *
 * A CPU's count of an entry is what it acquired less what it released. A release on another CPU
 * doesn't lower it, and neither does an interface that gives its driver up. So if each of many
 * references is acquired here and released elsewhere, the count reaches count_limit with nothing
 * held: of KUPALDIZ_MOST_COUNT, after twelve days of a million a second. A thread that hands
 * references on holds one and hands copies on, which no CPU counts. Else kupaldiz_replace, with the
 * same value, begins all counts anew; readers notice nothing.
 * Returns KUPALDIZ_EMPTY_HANDLE, KUPALDIZ_FULL_HANDLE, KUPALDIZ_NULL if `name` is NULL,
 * KUPALDIZ_BAD_KIND, KUPALDIZ_BAD_NAME, KUPALDIZ_NO_MEMORY, KUPALDIZ_SECTIONS_SPENT outside a
 * section, KUPALDIZ_NOT_FOUND, KUPALDIZ_LOCAL_FULL.
 */
enum kupaldiz_result kupaldiz_get_local(struct kupaldiz_cpu *cpu, enum kupaldiz_kind kind,
    const struct kupaldiz_name *name, struct kupaldiz_local *local)
    KUPALDIZ_NONNULL(1, 4) KUPALDIZ_MUST_USE;

/*
 * kupaldiz_acquire_local - inside a section, acquire a local reference to this entry:
 * localcount_acquire
 *
 * A call has written the entry, and no other is acquired in its place. If the section's last lookup
 * found it, it may be live or retired. Otherwise the call looks it up, as kupaldiz_acquire does,
 * also if the CPU has a reference to it. The registry's own entry is copied to `local`. The rest
 * is as with kupaldiz_get_local.
 * Returns KUPALDIZ_EMPTY_HANDLE, KUPALDIZ_FULL_HANDLE, KUPALDIZ_NULL if `entry` is NULL,
 * KUPALDIZ_BAD_KIND, KUPALDIZ_BAD_NAME, KUPALDIZ_OUTSIDE, KUPALDIZ_NO_MEMORY, KUPALDIZ_NOT_FOUND if
 * it finds another entry or none, KUPALDIZ_LOCAL_FULL.
 */
enum kupaldiz_result kupaldiz_acquire_local(struct kupaldiz_cpu *cpu,
    const struct kupaldiz_entry *entry, struct kupaldiz_local *local)
    KUPALDIZ_NONNULL(1, 3) KUPALDIZ_MUST_USE;

/*
 * kupaldiz_copy_local - make a second local reference to the entry of `from`
 *
 * The entry may be live or retired, and the caller needs no CPU. Each of the two is released by
 * itself, on any CPU. A reference and its copies, and the copies of those, are one to the table:
 * the last of them that is released lets the entry go, and KUPALDIZ_LOCAL counts them as one.
 * `copy` is empty before and is needed. While the call runs no other call uses `from`.
 * Returns KUPALDIZ_EMPTY_HANDLE, KUPALDIZ_FULL_HANDLE, KUPALDIZ_NO_MEMORY.
 */
enum kupaldiz_result kupaldiz_copy_local(struct kupaldiz_local *from, struct kupaldiz_local *copy)
    KUPALDIZ_NONNULL(1, 2) KUPALDIZ_MUST_USE;

/*
 * kupaldiz_release_local_locked - release a local reference under the interlock, on any CPU of its
 * registry, and empty it: localcount_release
 *
 * The caller holds the interlock, inside a section or outside. It fails only for a mistake of the
 * program. Who doesn't hold the interlock calls kupaldiz_release_local of kupaldiz_waiting.h, which
 * takes it only if it is needed. With NULL for `cpu`, the reference is released only if its entry
 * is being destroyed, and a turn has met KUPALDIZ_LOCAL.
 * Returns KUPALDIZ_EMPTY_HANDLE for any of the three, KUPALDIZ_NOT_COLLECTED if `cpu` is NULL and
 * no count of the entry was collected.
 */
enum kupaldiz_result kupaldiz_release_local_locked(struct kupaldiz_keeper *keeper,
    struct kupaldiz_cpu *cpu, struct kupaldiz_local *local) KUPALDIZ_NONNULL(1, 3);

/*
 * kupaldiz_try_release_local - release a local reference without the interlock, if that is possible
 *
 * It is the half of kupaldiz_release_local that never waits, for an event loop and for another
 * language. KUPALDIZ_COLLECTED says that the entry is being destroyed, and that this CPU's count of
 * it was collected already. Nothing is released then, and the reference stays as it was: the caller
 * takes the interlock and calls kupaldiz_release_local_locked. As long as the reference has copies,
 * the call returns KUPALDIZ_DONE, also once that count was collected: only the last one is counted.
 * Returns KUPALDIZ_EMPTY_HANDLE for either, KUPALDIZ_COLLECTED.
 */
enum kupaldiz_result kupaldiz_try_release_local(struct kupaldiz_cpu *cpu,
    struct kupaldiz_local *local) KUPALDIZ_NONNULL(1, 2) KUPALDIZ_MUST_USE;

/*
 * kupaldiz_forget_local - empty the reference and leave it held, permanently
 *
 * It is for a reference that can't be released any more, as its registry or the keeper is closed.
 * It frees the reference's block of memory and changes nothing else: the entry is never freed, its
 * slot is never reused, and kupaldiz_destroy always meets KUPALDIZ_LOCAL. So does a forgotten copy,
 * even if all others are released; what they share is never freed then.
 * Returns KUPALDIZ_EMPTY_HANDLE.
 */
enum kupaldiz_result kupaldiz_forget_local(struct kupaldiz_local *local) KUPALDIZ_NONNULL(1);

/* ---- Changes. The caller holds the interlock, and runs on the CPU, outside a section. ---- */

/*
 * kupaldiz_attach - attach an entry of a plain table, or a driver
 *
 * Lookups that begin after this call has returned find it, until it is detached or replaced. It
 * gets the next number, and the lowest-numbered vacant slot. The entry is written to `made`. The
 * call allocates no memory. An attach takes two of the registry's change_limit, as it reserves the
 * detach of its entry. kupaldiz_room says whether there is room for it.
 * Returns KUPALDIZ_EMPTY_HANDLE, KUPALDIZ_NULL if `name` is NULL, KUPALDIZ_BAD_NAME,
 * KUPALDIZ_INSIDE, KUPALDIZ_NAME_TAKEN, KUPALDIZ_NO_SLOT, KUPALDIZ_HISTORY_FULL.
 */
enum kupaldiz_result kupaldiz_attach(struct kupaldiz_keeper *keeper, struct kupaldiz_cpu *cpu,
    const struct kupaldiz_name *name, uint64_t value, struct kupaldiz_entry *made)
    KUPALDIZ_NONNULL(1, 2) KUPALDIZ_MUST_USE;

/*
 * kupaldiz_attach_iface - attach an interface, on the live driver with the name `driver`
 *
 * The interface's slot keeps a local reference to the driver until the interface is freed. The call
 * acquires it in a section of its own, which is used up also if the call fails with
 * KUPALDIZ_NEEDS_DRIVER or a later error. Otherwise it is as kupaldiz_attach.
 * Returns KUPALDIZ_EMPTY_HANDLE, KUPALDIZ_NULL if `driver` or `name` is NULL, KUPALDIZ_BAD_NAME for
 * either, KUPALDIZ_INSIDE, KUPALDIZ_SECTIONS_SPENT, KUPALDIZ_NEEDS_DRIVER if no live driver has
 * that name, KUPALDIZ_LOCAL_FULL, KUPALDIZ_NAME_TAKEN, KUPALDIZ_NO_SLOT, KUPALDIZ_HISTORY_FULL.
 */
enum kupaldiz_result kupaldiz_attach_iface(struct kupaldiz_keeper *keeper, struct kupaldiz_cpu *cpu,
    const struct kupaldiz_name *driver, const struct kupaldiz_name *name, uint64_t value,
    struct kupaldiz_entry *made) KUPALDIZ_NONNULL(1, 2) KUPALDIZ_MUST_USE;

/*
 * kupaldiz_replace - replace the live entry or driver with this name by another
 *
 * A lookup meanwhile finds the old one or the new one: none because of the replacement. The new one
 * gets the next number and a vacant slot, and is written to `made`. The old one is written to
 * `gone`, which is needed: it is retired as by kupaldiz_detach, and is to be destroyed. A
 * replacement takes one of the registry's change_limit, but needs the room of an attach, as
 * kupaldiz_room says.
 * Returns KUPALDIZ_EMPTY_HANDLE, KUPALDIZ_NULL if `name` or `gone` is NULL, KUPALDIZ_BAD_NAME,
 * KUPALDIZ_INSIDE, KUPALDIZ_NOT_FOUND, KUPALDIZ_NO_SLOT, KUPALDIZ_HISTORY_FULL.
 */
enum kupaldiz_result kupaldiz_replace(struct kupaldiz_keeper *keeper, struct kupaldiz_cpu *cpu,
    const struct kupaldiz_name *name, uint64_t value, struct kupaldiz_entry *gone,
    struct kupaldiz_entry *made) KUPALDIZ_NONNULL(1, 2) KUPALDIZ_MUST_USE;

/*
 * kupaldiz_replace_iface - replace the live interface with this name by another
 *
 * The new one is on the live driver with the name `driver`, as with kupaldiz_attach_iface. The old
 * one keeps its driver until it is destroyed. Otherwise the call is as kupaldiz_replace.
 * Returns KUPALDIZ_EMPTY_HANDLE, KUPALDIZ_NULL if `driver`, `name` or `gone` is NULL,
 * KUPALDIZ_BAD_NAME for either, KUPALDIZ_INSIDE, KUPALDIZ_SECTIONS_SPENT, KUPALDIZ_NEEDS_DRIVER,
 * KUPALDIZ_LOCAL_FULL, KUPALDIZ_NOT_FOUND, KUPALDIZ_NO_SLOT, KUPALDIZ_HISTORY_FULL.
 */
enum kupaldiz_result kupaldiz_replace_iface(struct kupaldiz_keeper *keeper,
    struct kupaldiz_cpu *cpu, const struct kupaldiz_name *driver, const struct kupaldiz_name *name,
    uint64_t value, struct kupaldiz_entry *gone, struct kupaldiz_entry *made)
    KUPALDIZ_NONNULL(1, 2) KUPALDIZ_MUST_USE;

/*
 * kupaldiz_detach - detach the live entry with this kind and name, and write it to `gone`
 *
 * Lookups that begin after this call has returned don't find it. It is retired until
 * kupaldiz_destroy has freed it; `gone` is needed, as its number is what that takes.
 * Returns KUPALDIZ_EMPTY_HANDLE, KUPALDIZ_NULL if `name` or `gone` is NULL, KUPALDIZ_BAD_KIND,
 * KUPALDIZ_BAD_NAME, KUPALDIZ_INSIDE, KUPALDIZ_NOT_FOUND.
 */
enum kupaldiz_result kupaldiz_detach(struct kupaldiz_keeper *keeper, struct kupaldiz_cpu *cpu,
    enum kupaldiz_kind kind, const struct kupaldiz_name *name, struct kupaldiz_entry *gone)
    KUPALDIZ_NONNULL(1, 2) KUPALDIZ_MUST_USE;

/*
 * kupaldiz_room - whether there is room for an attach or a replacement
 *
 * There is if a slot is vacant, and if the changes so far, the live entries and 2 are together at
 * most change_limit.
 * Returns KUPALDIZ_EMPTY_HANDLE, KUPALDIZ_NO_SLOT, KUPALDIZ_HISTORY_FULL.
 */
enum kupaldiz_result kupaldiz_room(const struct kupaldiz_keeper *keeper)
    KUPALDIZ_NONNULL(1) KUPALDIZ_MUST_USE;

/* ---- Turns. The caller holds the interlock for one turn, and releases it between two. ---- */

/* What a turn met first. */
enum kupaldiz_stage {
	KUPALDIZ_GRACE = 0,	/* a section of the CPU `what` may hold the entry */
	/* the CPU `what` has a passive reference to it, or a kupaldiz_get there may acquire one */
	KUPALDIZ_PASSIVE = 1,
	KUPALDIZ_LOCAL = 2,	/* `what` local references to it are held, each with its copies */
	KUPALDIZ_FREED = 3	/* nothing: the slot `what` is vacant again */
};

/* How far the destruction of a retired entry has come. */
struct kupaldiz_met {
	enum kupaldiz_stage stage;
	uint64_t what;		/* a CPU, a number of references, or a slot */
};

/*
 * kupaldiz_destroy - one turn of destroying the retired entry with this number:
 * psref_target_destroy, localcount_drain
 *
 * It is done exactly when this turn has made the entry's slot vacant. The entry is then gone, on
 * every CPU, now and later: no section may hold it, no passive and no local reference to it is
 * held, and no slot keeps it. The caller repeats the call, without the interlock in between, until
 * it is done, as kupaldiz_destroy_wait does. What the turn met first is written to `met`:
 *
 * - KUPALDIZ_GRACE, of any CPU, comes before any KUPALDIZ_PASSIVE, and KUPALDIZ_PASSIVE before
 *   KUPALDIZ_LOCAL. The lower-numbered of two CPUs comes first.
 * - The caller's own sections and references hold the entry, too. An interface holds a reference to
 *   its driver: destroy the interface first.
 * - A turn that meets KUPALDIZ_LOCAL has collected the counts: from then on
 *   kupaldiz_try_release_local returns KUPALDIZ_COLLECTED.
 *
 * A turn needs no CPU and keeps nothing of the caller's: any thread that holds the interlock makes
 * the next one. Once the entry is freed, a call with its number returns KUPALDIZ_NOT_RETIRED.
 * Returns KUPALDIZ_EMPTY_HANDLE, KUPALDIZ_NOT_RETIRED, KUPALDIZ_STILL_HELD. With the last one `met`
 * is written, too, and what the turn learned and collected stays.
 */
enum kupaldiz_result kupaldiz_destroy(struct kupaldiz_keeper *keeper, uint64_t number,
    struct kupaldiz_met *met) KUPALDIZ_NONNULL(1) KUPALDIZ_MUST_USE;

/*
 * A wait for open sections, between two turns of it. All of it is private: only the calls write it,
 * and if anything else does, the results of its turns mean nothing. {0} was never begun.
 */
struct kupaldiz_wait {
	uint64_t snapshots[KUPALDIZ_MOST_CPUS];
	uint64_t retired[KUPALDIZ_MOST_SLOTS];
	uint64_t begun;		/* the number of its CPU plus 1 */
	bool seen[KUPALDIZ_MOST_CPUS];
};

/*
 * kupaldiz_perform_begin - begin to wait until each section that is open now has ended
 *
 * It is for memory that sections use and that is in no entry: an entry needs no such wait. The call
 * waits for nothing. For pserialize_perform, which waits, the caller repeats kupaldiz_perform_turn
 * with the same wait, without the interlock in between, until that is done: kupaldiz_perform_wait
 * does so. The wait is this CPU's. It may be begun again, on any CPU, done or not, and may be
 * abandoned.
 * Returns KUPALDIZ_EMPTY_HANDLE, KUPALDIZ_NULL if `wait` is NULL, KUPALDIZ_INSIDE.
 */
enum kupaldiz_result kupaldiz_perform_begin(struct kupaldiz_keeper *keeper,
    struct kupaldiz_cpu *cpu, struct kupaldiz_wait *wait) KUPALDIZ_NONNULL(1, 2) KUPALDIZ_MUST_USE;

/*
 * kupaldiz_perform_turn - one turn of that wait, on the CPU that began it
 *
 * It is done exactly when all those sections were seen to have ended. Then:
 *
 * - Each section that was open on any CPU when the wait began has ended. Memory that is in no entry
 *   may be freed, if it had been unlinked by then.
 * - No section may hold an entry that had been detached by then. References may still hold it.
 * - For each entry that was retired when the wait began, the sections of all CPUs count as ended,
 *   except if its slot was reused since.
 *
 * Between the turns the CPU may do anything else.
 * Returns KUPALDIZ_EMPTY_HANDLE, KUPALDIZ_NULL if `wait` is NULL, KUPALDIZ_NOT_BEGUN,
 * KUPALDIZ_WRONG_CPU, KUPALDIZ_INSIDE, KUPALDIZ_WAITING. With the last one the lowest-numbered CPU
 * whose section wasn't seen to have ended is written to `waited`, and those that were seen are
 * written to the wait.
 */
enum kupaldiz_result kupaldiz_perform_turn(struct kupaldiz_keeper *keeper, struct kupaldiz_cpu *cpu,
    struct kupaldiz_wait *wait, uint64_t *waited) KUPALDIZ_NONNULL(1, 2) KUPALDIZ_MUST_USE;

/* The counts of the local references to a live or retired entry. Copies count as one. */
struct kupaldiz_balance {
	uint64_t number;
	uint64_t slot;
	int64_t held;		/* the sum of `locals` and `total` */
	/* of each CPU, 0 once collected and past the last CPU */
	int64_t locals[KUPALDIZ_MOST_CPUS];
	int64_t total;		/* what was collected less what was given up under the interlock */
};

/*
 * kupaldiz_audit - what the counts say of each live or retired entry, the lowest-numbered slot
 * first
 *
 * The caller holds the interlock and all CPUs, in order, and none is closed. `length` is the number
 * of balances written; with KUPALDIZ_NO_ROOM, which writes none, the number that there are. A CPU
 * may be inside a section: a later kupaldiz_walk there is as if the section had begun with this
 * call.
 * Returns KUPALDIZ_EMPTY_HANDLE for the keeper's handle, KUPALDIZ_NULL if `cpus` or `list` is NULL
 * and its length isn't 0, KUPALDIZ_MISSING_CPU if the handles aren't those of all CPUs in order,
 * KUPALDIZ_NO_ROOM.
 */
enum kupaldiz_result kupaldiz_audit(struct kupaldiz_keeper *keeper, struct kupaldiz_cpu *cpus,
    size_t count, struct kupaldiz_balance *list, size_t room, size_t *length)
    KUPALDIZ_NONNULL(1) KUPALDIZ_MUST_USE;

/* ---- The library. Any thread may call these. They are in C: tested, not proved. ---- */

/* The version of this header and of the library. It is written only here. */
#define KUPALDIZ_VERSION_MAJOR	0
#define KUPALDIZ_VERSION_MINOR	1
#define KUPALDIZ_VERSION_PATCH	0

/*
 * kupaldiz_version - the version of the library, such as "0.1.0"
 *
 * The string is never freed and never written to.
 */
const char *kupaldiz_version(void);

/* The limits of a build: what a program was compiled for, or what the library was built for. */
struct kupaldiz_limits {
	uint64_t cpus;		/* KUPALDIZ_MOST_CPUS, and so on */
	uint64_t slots;
	uint64_t changes;
	uint64_t sections;
	uint64_t count;
	uint64_t depth;
};

/* The limits that this header has, for a struct kupaldiz_limits. */
#define KUPALDIZ_LIMITS	{KUPALDIZ_MOST_CPUS, KUPALDIZ_MOST_SLOTS, KUPALDIZ_MOST_CHANGES, \
	    KUPALDIZ_MOST_SECTIONS, KUPALDIZ_MOST_COUNT, KUPALDIZ_MOST_DEPTH}

/*
 * kupaldiz_limits - write the limits that the library was built for
 */
void kupaldiz_limits(struct kupaldiz_limits *limits);

/*
 * Compares the limits of a program with the library's, for kupaldiz_open. Its name has the most
 * CPUs, the most slots and the version, such as kupaldiz_for_64_cpus_255_slots_v0_1, so that no
 * program links or starts with a library whose structs or calls are others.
 * Returns KUPALDIZ_NULL if `limits` is NULL, KUPALDIZ_OTHER_LIMITS if any of them differs.
 */
enum kupaldiz_result KUPALDIZ_BUILT_FOR(const struct kupaldiz_limits *limits) KUPALDIZ_MUST_USE;

/* What a program calls as kupaldiz_open. */
static inline enum kupaldiz_result kupaldiz_open_compared(const struct kupaldiz_settings *settings,
    struct kupaldiz_keeper *keeper, struct kupaldiz_cpu *cpus, size_t count)
    KUPALDIZ_NONNULL(2) KUPALDIZ_MUST_USE;
static inline enum kupaldiz_result kupaldiz_open_compared(const struct kupaldiz_settings *settings,
    struct kupaldiz_keeper *keeper, struct kupaldiz_cpu *cpus, size_t count)
{
	const struct kupaldiz_limits limits = KUPALDIZ_LIMITS;
	enum kupaldiz_result result = KUPALDIZ_BUILT_FOR(&limits);
	return result != KUPALDIZ_DONE ? result : kupaldiz_open(settings, keeper, cpus, count);
}
#define kupaldiz_open	kupaldiz_open_compared

/* The library's words are of 64 bits, the lowest byte first, and pointers are words. */
#if UINTPTR_MAX != UINT64_MAX || \
    (defined(__BYTE_ORDER__) && __BYTE_ORDER__ != __ORDER_LITTLE_ENDIAN__)
#error "kupaldiz.h is for x86-64 and aarch64: 64-bit pointers, the lowest byte first"
#endif

/* The sizes of all structs, in words of 64 bits, and of the enums: as the library writes them. */
#if defined(__cplusplus)
#define KUPALDIZ_BYTES(type, bytes)	static_assert(sizeof(type) == (bytes), "another size")
#else
#define KUPALDIZ_BYTES(type, bytes)	_Static_assert(sizeof(type) == (bytes), "another size")
#endif
#define KUPALDIZ_WORDS(type, words)	KUPALDIZ_BYTES(type, (words) * 8)
KUPALDIZ_BYTES(enum kupaldiz_result, 4);
KUPALDIZ_BYTES(enum kupaldiz_kind, 4);
KUPALDIZ_BYTES(enum kupaldiz_stage, 4);
KUPALDIZ_WORDS(struct kupaldiz_keeper, 1);
KUPALDIZ_WORDS(struct kupaldiz_cpu, 1);
KUPALDIZ_WORDS(struct kupaldiz_name, 2);
KUPALDIZ_WORDS(struct kupaldiz_settings, 6);
KUPALDIZ_WORDS(struct kupaldiz_entry, 6);
KUPALDIZ_WORDS(struct kupaldiz_passive, 7);
KUPALDIZ_WORDS(struct kupaldiz_local, 8);
KUPALDIZ_WORDS(struct kupaldiz_met, 2);
KUPALDIZ_WORDS(struct kupaldiz_balance, 4 + KUPALDIZ_MOST_CPUS);
KUPALDIZ_WORDS(struct kupaldiz_wait, KUPALDIZ_MOST_CPUS + KUPALDIZ_MOST_SLOTS + 1 + \
    (KUPALDIZ_MOST_CPUS + 7) / 8);
KUPALDIZ_WORDS(struct kupaldiz_limits, 6);

#ifdef __cplusplus
}
#endif

/* By this name the checking build sees that a file of a program isn't compiled with it. */
#if defined(__GNUC__) && !defined(KUPALDIZ_CHECK) && !defined(KUPALDIZ_INNER)
#if defined(__cplusplus) && __cplusplus >= 201703L
inline const char kupaldiz_unchecked __attribute__((used, visibility("hidden"))) = 0;
#else
extern const char kupaldiz_unchecked __attribute__((weak, visibility("hidden")));
const char kupaldiz_unchecked = 0;
#endif
#endif

/* Whether the program has the thread sanitizer, as gcc and as clang says it. */
#if defined(__SANITIZE_THREAD__)
#define KUPALDIZ_TSAN
#elif defined(__has_feature)
#if __has_feature(thread_sanitizer)
#define KUPALDIZ_TSAN
#endif
#endif

/* The checking build, and what the thread sanitizer is told: a tool makes both of this header. */
#if defined(KUPALDIZ_CHECK)
#include "kupaldiz_check.h"
#elif defined(KUPALDIZ_TSAN) && !defined(KUPALDIZ_INNER)
#include "kupaldiz_tsan.h"
#endif
#endif
