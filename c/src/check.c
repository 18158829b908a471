/*
 * check.c - the checking build: what kupaldiz_check.h makes of a program's calls
 *
 * Handles of the keeper and of CPUs keep the library's words, and a passive reference gets a tag. A
 * local one gets a number in place of its private words, as the library reuses its memory at once.
 * Neither a tag nor a number is used again.
 */
#ifndef _DEFAULT_SOURCE
#define _DEFAULT_SOURCE
#endif
#undef KUPALDIZ_CHECK
#define KUPALDIZ_INNER
#include "kupaldiz.h"
#include "kupaldiz_check.h"
/* Its calls by their inner names. */
#include "kupaldiz_waiting.h"
#include "kupaldiz_check.h"

#include "records.h"

#include <ctype.h>
#include <time.h>

/* In a passive reference's `cpu` the tag is above the CPU's number. */
enum { CPU_BITS = 8 };
#define CPU_MASK	((UINT64_C(1) << CPU_BITS) - 1)

_Static_assert(KUPALDIZ_MOST_CPUS <= 1 << CPU_BITS, "a tag is above a CPU's number");

/* How many of each were made. */
static atomic_uint_fast64_t registries, cpus_made, locals, tags;

/* There is one if a file of the program isn't compiled with the checking build. */
extern const char kupaldiz_unchecked __attribute__((weak, visibility("hidden")));

/* The records of the handles that this thread's call uses, and its last call that may wait. */
static __thread struct record *used[KUPALDIZ_MOST_CPUS + 2];
static __thread size_t uses;
static __thread int cancels;
static __thread struct event outer = {"kupaldiz_reclaimer_start", "the thread of", 0, 0};
/* What a table adds to the numbers of the registry that it opens next. */
static __thread uint64_t numbers_above;

/* ---- A call, from its beginning to its end. ---- */

/* A call that the modules of kupaldiz_waiting.h make has no place: it is told as the program's. */
static struct event event_within(const char *call, const char *file, unsigned line)
{
	return file != NULL ? event_of(call, file, line) :
	    event_of(outer.call, outer.file, outer.line);
}

/* This thread begins a call, and can't be cancelled until its end. */
static void begin(const char *call, const char *file, unsigned line)
{
	const struct event begun = event_within(call, file, line);
	int type;
	if (now.call != NULL)
		tell(&begun, "a signal handler makes this call, within %s at %s:%u", now.call,
		    now.file, now.line);
	pthread_setcancelstate(PTHREAD_CANCEL_DISABLE, &cancels);
	pthread_setcanceltype(PTHREAD_CANCEL_DEFERRED, &type);
	if (type == PTHREAD_CANCEL_ASYNCHRONOUS && cancels == PTHREAD_CANCEL_ENABLE)
		tell(&begun, "asynchronous cancellation of this thread is enabled");
	pthread_setcanceltype(type, &type);
	now = begun;
	uses = 0;
}

/* The call may have begun or ended the CPU's section. */
static void settle_section(struct record *record)
{
	const struct kupaldiz_cpu cpu = {*(void **)record->home};
	uint64_t depth = 0;
	if (kupaldiz_depth(&cpu, &depth) != KUPALDIZ_DONE)
		return;
	if ((depth == 0) == (record->made.call == NULL))
		return;
	own_sections += depth != 0 ? 1 : -1;
	record->made = depth != 0 ? now : (struct event){0};
}

/* The call has closed or released what is empty now. Whether a handle was closed. */
static bool settle(struct record *record)
{
	record->user.call = NULL;
	if (record->kind == LOCAL && record->local.entry.number == 0) {
		*(struct kupaldiz_local *)record->home = record->local;
		end_record(record);
	} else if (record->kind != LOCAL && *(void **)record->home == NULL) {
		end_record(record);
		return true;
	} else if (record->kind == CPU) {
		settle_section(record);
	}
	return false;
}

static enum kupaldiz_result end(enum kupaldiz_result result)
{
	uint64_t closed = 0;
	for (size_t i = 0; i < uses; i++) {
		const uint64_t registry = used[i]->registry;
		struct table *table = lock_table(used[i]);
		if (settle(used[i]))
			closed = registry;
		unlock_table(table);
	}
	if (closed != 0) {
		lock_all();
		end_registry(closed);
		unlock_all();
	}
	now.call = NULL;
	pthread_setcancelstate(cancels, NULL);
	return result;
}

static const char MIXED[] = "a file of the program is compiled without -DKUPALDIZ_CHECK";

/* Tells of a handle or a local reference that has no record. */
static _Noreturn void tell_unknown(const struct record *sought)
{
	const struct record *was = seek_past(sought);
	const char *kind = KINDS[sought->kind];
	if (&kupaldiz_unchecked != NULL)
		tell(&now, "%s", MIXED);
	if (was == NULL)
		tell(&now, "the handle of the %s is neither {0} nor what a call has set", kind);
	if (was->kind == LOCAL)
		tell(&now, "%s's local reference was released already at %s:%u", was->name,
		    was->ended.file, was->ended.line);
	tell(&now, "the %s was closed at %s:%u, and this is a copy of its handle", kind,
	    was->ended.file, was->ended.line);
}

static void judge_use(const struct record *record)
{
	const struct event *user = &record->user, *opened = &record->opened, *made = &record->made;
	const struct record *other = uses != 0 ? used[0] : record;
	const char *kind = KINDS[record->kind];
	if (record->forks != forks)
		tell(&now, "the registry was opened at %s:%u, before the fork of this process",
		    opened->file, opened->line);
	if (user->call != NULL)
		tell(&now, "another thread uses the %s: %s at %s:%u", kind, user->call, user->file,
		    user->line);
	if (record->kind == CPU && made->call != NULL && made->thread != now.thread &&
	    is_alive(made->thread))
		tell(&now, "the CPU is another thread's, which is inside the section that began "
		    "at %s:%u", made->file, made->line);
	if (other->registry != record->registry)
		tell(&now, "the %s is of the registry opened at %s:%u, and the %s of the one "
		    "opened at %s:%u", kind, opened->file, opened->line, KINDS[other->kind],
		    other->opened.file, other->opened.line);
}

/*
 * Whether the call stays for a moment, as another thread that hasn't ended used the handle before.
 * If nothing keeps that one off, both use it at once.
 */
static bool is_switched(struct record *record)
{
	enum { ALWAYS = 100, SELDOM = 64 };
	const long before = record->before;
	record->before = now.thread;
	if (before == 0 || before == now.thread || !is_alive(before))
		return false;
	record->switches++;
	return record->switches < ALWAYS || record->switches % SELDOM == 0;
}

/* From now on the call uses the handle of such a record, which is at home. */
static struct record *use_known(const struct record *sought, const void *home)
{
	struct table *table = lock_table(sought);
	struct record *record = seek(sought);
	if (record == NULL)
		tell_unknown(sought);
	judge_use(record);
	record->user = now;
	record->home = (void *)(uintptr_t)home;
	used[uses++] = record;
	const bool stays = is_switched(record);
	unlock_table(table);
	if (stays)
		nanosleep(&(struct timespec){0, 20000}, NULL);
	return record;
}

static void judge_pointer(enum kind kind, const void *pointer)
{
	if (pointer == NULL)
		tell(&now, "the pointer to the handle of the %s is NULL", KINDS[kind]);
}

/* The call uses a keeper or a CPU. NULL for an empty handle: the call then fails. */
static struct record *use(enum kind kind, const void *handle)
{
	judge_pointer(kind, handle);
	const struct record sought = of_handle(kind, handle);
	return sought.key != 0 ? use_known(&sought, handle) : NULL;
}

static void use_all(const struct kupaldiz_cpu *cpus, size_t count)
{
	for (size_t i = 0; cpus != NULL && i < count && i < KUPALDIZ_MOST_CPUS; i++)
		use(CPU, &cpus[i]);
}

/* The library's reference of a local one. An empty one is its own. */
static struct kupaldiz_local *use_local(struct kupaldiz_local *local)
{
	judge_pointer(LOCAL, local);
	if (local->entry.number == 0)
		return local;
	const struct record sought = {.kind = LOCAL, .key = (uintptr_t)local->at[0]};
	return &use_known(&sought, local)->local;
}

/* ---- The interlock. ---- */

/* Whether this thread holds the mutex. Only glibc says it: else the answer is `unknown`. */
static bool holds(const pthread_mutex_t *mutex, bool unknown)
{
#ifdef __GLIBC__
	(void)unknown;
	return mutex->__data.__owner == event_of(NULL, NULL, 0).thread;
#else
	(void)mutex;
	return unknown;
#endif
}

/* The call uses the keeper, and this thread has to hold its interlock. */
static void use_locked(const struct kupaldiz_keeper *keeper)
{
	struct record *record = use(KEEPER, keeper);
	if (record == NULL)
		return;
	struct table *table = lock_table(record);
	if (record->last != now.thread)
		record->other = record->last;
	record->last = now.thread;
	bool needed = record->interlock != NULL && (record->is_told || record->other != 0) &&
	    !holds(record->interlock, true);
	if (needed && (record->is_told || is_alive(record->other)))
		tell(&now, "this thread doesn't hold the keeper's interlock, known by %s at %s:%u",
		    record->since.call, record->since.file, record->since.line);
	unlock_table(table);
}

/*
 * The keeper's interlock is this mutex from now on, or none if it is NULL. What the program has
 * told stays when a call takes another one.
 */
static void learn(const struct event *event, const struct kupaldiz_keeper *keeper,
    pthread_mutex_t *mutex, bool is_told)
{
	if (keeper == NULL)
		return;
	const struct record sought = of_handle(KEEPER, keeper);
	struct table *table = lock_table(&sought);
	struct record *record = seek(&sought);
	if (record != NULL &&
	    (is_told || (!record->is_told && mutex != record->interlock))) {
		record->interlock = mutex;
		record->since = *event;
		record->is_told = is_told;
		record->last = event->thread;
		record->other = 0;
	}
	unlock_table(table);
}

void kupaldiz_check_interlock_from(const struct kupaldiz_keeper *keeper, pthread_mutex_t *mutex,
    KUPALDIZ_FROM)
{
	const struct event event = event_of("kupaldiz_check_interlock", file, line);
	learn(&event, keeper, mutex, true);
}

/* ---- What is looked at before a call. ---- */

/* Tells if a CPU of the call is inside a section. */
static void judge_outside(void)
{
	for (size_t i = 0; i < uses; i++)
		if (used[i]->kind == CPU && used[i]->made.call != NULL)
			tell(&now, "CPU %" PRIu64 " is inside the section that began at %s:%u",
			    used[i]->cpu, used[i]->made.file, used[i]->made.line);
}

/* Tells if the name that a call reads lies in the entry that it writes. */
static void judge_apart(const struct kupaldiz_name *name, const struct kupaldiz_entry *entry)
{
	const uintptr_t from = (uintptr_t)entry, read = (uintptr_t)name;
	if (entry != NULL && name != NULL && read + sizeof *name > from &&
	    read < from + sizeof *entry)
		tell(&now, "the name lies within the entry that the call writes");
}

/* Whose reference is meant that the CPU doesn't hold: the end of a line. */
static void describe_holder(char text[LONGEST], const struct record *on,
    const struct record *holder)
{
	const struct event *made = &holder->made, *opened = &holder->opened;
	if (holder->registry == on->registry)
		snprintf(text, LONGEST, "%s's reference %" PRIu64 " is CPU %" PRIu64 "'s, acquired "
		    "at %s:%u", holder->name, holder->number, holder->cpu, made->file, made->line);
	else
		snprintf(text, LONGEST, "%s's reference %" PRIu64 ", acquired at %s:%u, is of the "
		    "registry opened at %s:%u", holder->name, holder->number, made->file,
		    made->line, opened->file, opened->line);
}

/* Tells of a reference that the CPU doesn't hold. */
static _Noreturn void tell_not_held(const struct record *on, struct record sought)
{
	char text[LONGEST] = "";
	const struct record *was = seek_past(&sought), *holder;
	sought.on = 0;
	holder = seek_anywhere(&sought);
	if (holder != NULL)
		describe_holder(text, on, holder);
	if (was != NULL)
		tell(&now, "%s's reference %" PRIu64 " was released already at %s:%u%s%s",
		    was->name, was->number, was->ended.file, was->ended.line,
		    holder != NULL ? "; " : "", text);
	if (holder != NULL)
		tell(&now, "%s, and this is CPU %" PRIu64, text, on->cpu);
	tell(&now, "CPU %" PRIu64 " never acquired a reference %" PRIu64, on->cpu,
	    on->above + sought.key);
}

/*
 * The record of the CPU's reference. NULL if the call fails: a handle is empty. It is NULL, too, if
 * a reference without a tag was acquired by a call that isn't checked.
 */
static struct record *held_by(const struct record *on, const struct kupaldiz_cpu *cpu,
    const struct kupaldiz_passive *reference)
{
	bool held = false;
	judge_pointer(PASSIVE, reference);
	if (on == NULL || reference->entry.number == 0)
		return NULL;
	const struct record sought = {.kind = PASSIVE, .key = reference->entry.number,
	    .on = on->on, .tag = reference->cpu >> CPU_BITS};
	struct table *table = lock_table(&sought);
	struct record *found = seek(&sought);
	unlock_table(table);
	if (found == NULL && (sought.tag != 0 ||
	    kupaldiz_held(cpu, sought.key, &held) != KUPALDIZ_DONE || !held)) {
		lock_all();
		tell_not_held(on, sought);
	}
	return found;
}

/* The library's reference of a passive one. */
static struct kupaldiz_passive untagged(const struct kupaldiz_passive *reference)
{
	struct kupaldiz_passive plain = *reference;
	plain.cpu &= CPU_MASK;
	return plain;
}

/* ---- What a call acquires. ---- */

/* The record of a reference to the entry. It is as that of the call's CPU, or of what is copied. */
static struct record reference_of(enum kind kind, const struct kupaldiz_entry *entry)
{
	struct record record = *used[0];
	record.kind = kind;
	record.user.call = NULL;
	record.made = now;
	record.number = record.above + entry->number;
	if (kupaldiz_name_format(&entry->name, record.name, sizeof record.name) != KUPALDIZ_DONE)
		record.name[0] = 0;
	for (char *byte = record.name; *byte != 0; byte++)
		*byte = isprint((unsigned char)*byte) ? *byte : '?';
	return record;
}

static void insert_locked(const struct record *record)
{
	struct table *table = lock_table(record);
	insert(record);
	unlock_table(table);
}

/* The call's CPU has acquired this reference, which gets a tag. */
static enum kupaldiz_result acquired(enum kupaldiz_result result,
    struct kupaldiz_passive *reference)
{
	if (result != KUPALDIZ_DONE)
		return end(result);
	struct record record = reference_of(PASSIVE, &reference->entry);
	record.key = reference->entry.number;
	record.tag = ++tags;
	insert_locked(&record);
	own_references++;
	reference->cpu |= record.tag << CPU_BITS;
	return end(result);
}

/* The call has acquired this reference, which gets a number. */
static enum kupaldiz_result acquired_local(enum kupaldiz_result result,
    struct kupaldiz_local *local)
{
	if (result != KUPALDIZ_DONE)
		return end(result);
	struct record record = reference_of(LOCAL, &local->entry);
	record.local = *local;
	record.key = ++locals;
	insert_locked(&record);
	local->at[0] = (void *)(uintptr_t)record.key;
	local->at[1] = NULL;
	return end(result);
}

/* ---- The calls that are written by hand. ---- */

enum kupaldiz_result kupaldiz_checked_open(enum kupaldiz_result opened,
    struct kupaldiz_keeper *keeper, struct kupaldiz_cpu *cpus, size_t count, KUPALDIZ_FROM)
{
	begin("kupaldiz_open", file, line);
	if (&kupaldiz_unchecked != NULL)
		tell(&now, "%s", MIXED);
	if (opened != KUPALDIZ_DONE)
		return end(opened);
	struct record record = of_handle(KEEPER, keeper);
	record.registry = ++registries;
	record.above = numbers_above;
	numbers_above = 0;
	record.forks = forks;
	record.opened = now;
	insert_locked(&record);
	record.kind = CPU;
	for (record.cpu = 0; record.cpu < count; record.cpu++) {
		record.key = (uintptr_t)cpus[record.cpu].at;
		record.on = ++cpus_made;
		insert_locked(&record);
	}
	return end(opened);
}

enum kupaldiz_result kupaldiz_checked_close(struct kupaldiz_keeper *keeper,
    struct kupaldiz_cpu *cpus, size_t count, KUPALDIZ_FROM)
{
	begin("kupaldiz_close", file, line);
	use_all(cpus, count);
	if (keeper != NULL)
		use(KEEPER, keeper);
	judge_outside();
	return end(kupaldiz_close(keeper, cpus, count));
}

enum kupaldiz_result kupaldiz_checked_copy(struct kupaldiz_cpu *cpu,
    const struct kupaldiz_passive *from, struct kupaldiz_passive *copy, KUPALDIZ_FROM)
{
	begin("kupaldiz_copy", file, line);
	held_by(use(CPU, cpu), cpu, from);
	judge_pointer(PASSIVE, copy);
	const struct kupaldiz_passive plain = untagged(from);
	return acquired(kupaldiz_copy(cpu, &plain, copy), copy);
}

enum kupaldiz_result kupaldiz_checked_release(struct kupaldiz_cpu *cpu,
    struct kupaldiz_passive *reference, KUPALDIZ_FROM)
{
	begin("kupaldiz_release", file, line);
	struct record *record = held_by(use(CPU, cpu), cpu, reference);
	struct kupaldiz_passive plain = untagged(reference);
	enum kupaldiz_result result = kupaldiz_release(cpu, &plain);
	if (result == KUPALDIZ_DONE)
		*reference = plain;
	if (record != NULL && result == KUPALDIZ_DONE) {
		struct table *table = lock_table(record);
		own_references -= record->made.thread == now.thread;
		end_record(record);
		unlock_table(table);
	}
	return end(result);
}

enum kupaldiz_result kupaldiz_checked_copy_local(struct kupaldiz_local *from,
    struct kupaldiz_local *copy, KUPALDIZ_FROM)
{
	begin("kupaldiz_copy_local", file, line);
	struct kupaldiz_local *library = use_local(from);
	judge_pointer(LOCAL, copy);
	enum kupaldiz_result result = acquired_local(kupaldiz_copy_local(library, copy), copy);
	if (result == KUPALDIZ_DONE)
		copy->entry = from->entry;	/* of a table it has the table's number */
	return result;
}

/* ---- What is looked at before a call of kupaldiz_waiting.h, which makes calls like these. ---- */

void kupaldiz_check_outer(const char *call, KUPALDIZ_FROM)
{
	outer = event_of(call, file, line);
}

void kupaldiz_check_above(uint64_t above)
{
	numbers_above = above;
}

/* Tells if this thread, which is to wait, has such a section or reference of the registry. */
static void judge_waiter(const struct kupaldiz_keeper *keeper, enum kind kind, uint64_t number)
{
	const struct record sought = of_handle(KEEPER, keeper);
	lock_all();
	const struct record *of = seek(&sought), *it = of != NULL ? after(NULL) : NULL;
	for (; it != NULL; it = after(it)) {
		const struct event *made = &it->made;
		if (it->kind != kind || it->registry != of->registry || made->call == NULL ||
		    made->thread != outer.thread || it->number != number)
			continue;
		if (kind == CPU)
			tell(&outer, "this thread is inside the section that began on CPU %" PRIu64
			    " at %s:%u", it->cpu, made->file, made->line);
		tell(&outer, "this thread's own reference holds the entry: %s's reference %" PRIu64
		    ", acquired at %s:%u", it->name, number, made->file, made->line);
	}
	unlock_all();
}

static void judge_may_wait(const struct kupaldiz_interlock *interlock)
{
	if (own_sections != 0)
		judge_waiter(interlock->keeper, CPU, 0);
}

void kupaldiz_check_own(const struct kupaldiz_interlock *interlock, uint64_t number)
{
	if (own_references != 0)
		judge_waiter(interlock->keeper, PASSIVE, number);
}

/* The caller holds the interlock, though the call may make no call with the keeper. */
static void judge_locked(const struct kupaldiz_interlock *interlock)
{
	begin(outer.call, NULL, 0);
	use_locked(interlock->keeper);
	end(KUPALDIZ_DONE);
}

/* The call takes the interlock. Tells if the thread holds it already, and can't take it again. */
static void judge_interlock(const struct kupaldiz_interlock *interlock)
{
	pthread_mutex_t *mutex = interlock->of;
	if (interlock->take != kupaldiz_interlock_of_mutex(interlock->keeper, &guard).take)
		return;
	if (holds(mutex, false) && pthread_mutex_trylock(mutex) != 0)
		tell(&outer, "this thread holds the interlock, which the call takes");
	if (holds(mutex, false))
		pthread_mutex_unlock(mutex);
	learn(&outer, interlock->keeper, mutex, false);
}

void kupaldiz_check_left(const struct kupaldiz_cpu *cpu)
{
	if (cpu == NULL || own_references == 0)
		return;
	const struct record sought = of_handle(CPU, cpu);
	lock_all();
	const struct record *on = seek(&sought), *it = on != NULL ? after(NULL) : NULL;
	for (; it != NULL; it = after(it))
		if (it->kind == PASSIVE && it->on == on->on && it->made.thread == outer.thread)
			tell(&outer, "%s's reference %" PRIu64 ", acquired at %s:%u, stays on CPU %"
			    PRIu64, it->name, it->number, it->made.file, it->made.line, it->cpu);
	unlock_all();
}

/* All other calls. */
#include "checked.h"

/* ---- Who holds an entry. ---- */

/* Whether it is a reference to the entry, or a section that may hold it. */
static bool may_hold(const struct record *record, uint64_t number)
{
	if (record->kind == CPU)
		return record->above == number / KUPALDIZ_MOST_CHANGES * KUPALDIZ_MOST_CHANGES;
	return record->number == number;
}

/* The references to the entry, or the open sections. */
static void print_holders(FILE *out, uint64_t number, bool sections)
{
	static const char *const words[] = {
		[CPU] = "section", [LOCAL] = "local", [PASSIVE] = "passive"
	};
	for (const struct record *it = after(NULL); it != NULL; it = after(it))
		if (it->made.call != NULL && (it->kind == CPU) == sections && may_hold(it, number))
			fprintf(out, "%s, CPU %" PRIu64 ", %s:%u, thread %ld%s\n",
			    words[it->kind], it->cpu, it->made.file, it->made.line,
			    it->made.thread, is_alive(it->made.thread) ? "" : ", which has ended");
}

void kupaldiz_holders(FILE *out, uint64_t number)
{
	watch_once();
	lock_all();
	print_holders(out, number, false);
	print_holders(out, number, true);
	unlock_all();
}
