/*
 * records.h - what the checking build knows of a program's handles, references and threads
 *
 * Each open handle and each held reference has a record in one of several hash tables, each under a
 * mutex of its own. A CPU's passive references are in one table, so threads on different CPUs
 * seldom meet. A record that is closed or released goes into a ring of its table, so that a later
 * use is told with both places. check.c alone includes this.
 */
#ifndef CHECK_RECORDS_H
#define CHECK_RECORDS_H

#include "kupaldiz.h"

#include <pthread.h>
#include <stdio.h>

#include <inttypes.h>
#include <limits.h>
#include <stdarg.h>
#include <stdatomic.h>
#include <stdlib.h>
#include <sys/syscall.h>
#include <unistd.h>

enum { TABLES = 32, BUCKETS = 64, PAST = 128, LONGEST = 500 };

/* A call, and which thread made it where. None if `call` is NULL. */
struct event {
	const char *call;
	const char *file;
	unsigned line;
	long thread;
};

enum kind { KEEPER, CPU, LOCAL, PASSIVE };
static const char *const KINDS[] = {"keeper", "CPU", "local reference", "passive reference"};

/* An open handle, or a held reference. */
struct record {
	struct record *next;
	enum kind kind;
	uint64_t key;		/* the handle's word, a local's own number, a passive's entry's */
	uint64_t registry;	/* a number of it, from 1 */
	uint64_t above;		/* what its table adds to its numbers */
	unsigned forks;		/* before it was opened */
	struct event opened;
	uint64_t on;		/* of the CPU, or of the acquiring one: no other CPU has it */
	uint64_t cpu;		/* that CPU's number in its registry */
	uint64_t number;	/* of the reference's entry, as the program has it, and its name */
	char name[KUPALDIZ_NAME_ROOM];
	uint64_t tag;
	struct event made;	/* what acquired the reference, or began the CPU's section */
	struct event user;	/* the call that uses the handle now, and where that handle is */
	void *home;
	struct kupaldiz_local local;	/* the library's reference */
	struct event ended;	/* what closed or released it */
	/* A keeper's interlock if it is known, who said so, and whether the program did. */
	pthread_mutex_t *interlock;
	struct event since;
	bool is_told;
	/* The last two threads that used the keeper since. */
	long last, other;
	/* The thread that used the handle last, and how often that was a new one. */
	long before;
	unsigned switches;
};

static struct table {
	pthread_mutex_t mutex;	/* of what follows */
	struct record *buckets[BUCKETS];
	struct record past[PAST];
	uint64_t endings;
} tables[TABLES];

static unsigned forks;

/* A thread that has made a call and hasn't ended. */
struct thread {
	struct thread *next;
	long id;
	unsigned rounds;	/* of destructors that it has had at its end */
};

/* Of the threads. Whoever has it takes no other lock. */
static pthread_mutex_t guard = PTHREAD_MUTEX_INITIALIZER;
static struct thread *threads;
static pthread_key_t ends;	/* its destructor is the end of a thread */

/* This thread, and the call that it is in. */
static __thread long thread;
static __thread struct event now;
/* The sections and passive references that it began, less those that it ended. */
static __thread int own_sections, own_references;

static void lock_all(void)
{
	for (unsigned i = 0; i < TABLES; i++)
		pthread_mutex_lock(&tables[i].mutex);
}

static void unlock_all(void)
{
	for (unsigned i = 0; i < TABLES; i++)
		pthread_mutex_unlock(&tables[i].mutex);
}

static void lock_before_fork(void)
{
	lock_all();
	pthread_mutex_lock(&guard);
}

static void unlock_after_fork(void)
{
	pthread_mutex_unlock(&guard);
	unlock_all();
}

/* The child has only this thread. */
static void enter_child(void)
{
	forks++;
	thread = 0;
	threads = NULL;
	unlock_after_fork();
}

static void end_thread(void *of);
static void end_process(int status, void *of);

static void watch(void)
{
	for (unsigned i = 0; i < TABLES; i++)
		pthread_mutex_init(&tables[i].mutex, NULL);
	pthread_atfork(lock_before_fork, unlock_after_fork, enter_child);
	pthread_key_create(&ends, end_thread);
#ifdef __GLIBC__
	on_exit(end_process, NULL);
#else
	(void)end_process;
#endif
}

static void watch_once(void)
{
	static pthread_once_t once = PTHREAD_ONCE_INIT;
	pthread_once(&once, watch);
}

/* From now on the thread is known, until its end. */
static void begin_thread(void)
{
	struct thread *self = malloc(sizeof *self);
	watch_once();
	thread = syscall(SYS_gettid);
	if (self == NULL || pthread_setspecific(ends, self) != 0) {
		free(self);
		return;
	}
	*self = (struct thread){.id = thread};
	pthread_mutex_lock(&guard);
	self->next = threads;
	threads = self;
	pthread_mutex_unlock(&guard);
}

/* Whether another thread hasn't ended yet. */
static bool is_alive(long other)
{
	pthread_mutex_lock(&guard);
	const struct thread *known = threads;
	while (known != NULL && known->id != other)
		known = known->next;
	pthread_mutex_unlock(&guard);
	return known != NULL;
}

static struct event event_of(const char *call, const char *file, unsigned line)
{
	if (thread == 0)
		begin_thread();
	return (struct event){call, file, line, thread};
}

__attribute__((format(printf, 2, 3)))
static _Noreturn void tell(const struct event *event, const char *format, ...)
{
	char text[LONGEST];
	va_list words;
	va_start(words, format);
	vsnprintf(text, sizeof text, format, words);
	va_end(words);
	fprintf(stderr, "%s:%u: %s: %s\n", event->file, event->line, event->call, text);
	abort();
}

/* ---- The records. The caller has their table locked, or all. ---- */

static uint64_t spread(uint64_t key)
{
	return key * UINT64_C(0x9e3779b97f4a7c15) >> 32;
}

/* The table of such a record. */
static struct table *table_of(const struct record *record)
{
	return &tables[spread(record->kind == PASSIVE ? record->on : record->key) % TABLES];
}

static struct record **bucket(const struct record *record)
{
	return &table_of(record)->buckets[spread(record->key) / TABLES % BUCKETS];
}

static struct table *lock_table(const struct record *record)
{
	struct table *table = table_of(record);
	pthread_mutex_lock(&table->mutex);
	return table;
}

static void unlock_table(struct table *table)
{
	pthread_mutex_unlock(&table->mutex);
}

/* The first record from this place on: each table has BUCKETS places. */
static struct record *first_from(size_t place)
{
	for (; place < TABLES * BUCKETS; place++)
		if (tables[place / BUCKETS].buckets[place % BUCKETS] != NULL)
			return tables[place / BUCKETS].buckets[place % BUCKETS];
	return NULL;
}

/* The record after this one, or after NULL the first of all. */
static struct record *after(const struct record *record)
{
	if (record == NULL)
		return first_from(0);
	if (record->next != NULL)
		return record->next;
	const struct table *table = table_of(record);
	const size_t place = (size_t)(bucket(record) - table->buckets);
	return first_from((size_t)(table - tables) * BUCKETS + place + 1);
}

/* Whether a record is like one that is sought: 0 is any CPU, or any tag. */
static bool is_like(const struct record *record, const struct record *sought)
{
	return record->kind == sought->kind && record->key == sought->key &&
	    (sought->on == 0 || record->on == sought->on) &&
	    (sought->tag == 0 || record->tag == sought->tag);
}

/* The newest such record in its table. */
static struct record *seek(const struct record *sought)
{
	for (struct record *record = *bucket(sought); record != NULL; record = record->next)
		if (is_like(record, sought))
			return record;
	return NULL;
}

/* Such a record in any table. */
static const struct record *seek_anywhere(const struct record *sought)
{
	const struct record *record = after(NULL);
	while (record != NULL && !is_like(record, sought))
		record = after(record);
	return record;
}

/* The last such record in its table that ended. */
static const struct record *seek_past(const struct record *sought)
{
	const struct table *table = table_of(sought);
	for (uint64_t i = table->endings; i > 0 && table->endings - i < PAST; i--)
		if (is_like(&table->past[(i - 1) % PAST], sought))
			return &table->past[(i - 1) % PAST];
	return NULL;
}

/* The record that a keeper's or a CPU's handle has. */
static struct record of_handle(enum kind kind, const void *handle)
{
	return (struct record){.kind = kind, .key = (uintptr_t)*(void *const *)handle};
}

static void insert(const struct record *values)
{
	struct record *record = malloc(sizeof *record);
	if (record == NULL)
		tell(&now, "no memory is left to check it");
	*record = *values;
	record->next = *bucket(record);
	*bucket(record) = record;
}

static void take_off(struct record *record)
{
	struct record **at = bucket(record);
	while (*at != record)
		at = &(*at)->next;
	*at = record->next;
}

static void end_record(struct record *record)
{
	struct table *table = table_of(record);
	take_off(record);
	record->ended = now;
	table->past[table->endings++ % PAST] = *record;
	free(record);
}

/* The first of a registry's handles, or of its passive references. */
static struct record *first_of(uint64_t registry, bool passive)
{
	struct record *record = after(NULL);
	while (record != NULL && (record->registry != registry || record->kind == LOCAL ||
	    (record->kind == PASSIVE) != passive))
		record = after(record);
	return record;
}

/* A registry's passive references go with its last handle. */
static void end_registry(uint64_t registry)
{
	struct record *record = NULL;
	if (first_of(registry, false) == NULL)
		record = first_of(registry, true);
	while (record != NULL) {
		take_off(record);
		free(record);
		record = first_of(registry, true);
	}
}

/* ---- The end of a thread. ---- */

/*
 * Tells of a section or a passive reference that the thread has: nobody else knows of it. A local
 * reference may be another thread's by now.
 */
static void judge_end(long ended)
{
	if (own_sections == 0 && own_references == 0)
		return;
	lock_all();
	for (const struct record *it = after(NULL); it != NULL; it = after(it)) {
		if (it->made.call == NULL || it->made.thread != ended)
			continue;
		if (it->kind == CPU)
			tell(&it->made, "thread %ld has ended inside this section", ended);
		if (it->kind == PASSIVE)
			tell(&it->made, "thread %ld has ended with this reference to %s", ended,
			    it->name);
	}
	unlock_all();
}

/* Tells of a local reference that was never released, as its registry is closed. */
static void judge_locals(void)
{
	lock_all();
	for (const struct record *it = after(NULL); it != NULL; it = after(it))
		if (it->kind == LOCAL && it->forks == forks && first_of(it->registry, false) == NULL)
			tell(&it->made, "the registry was closed with this local reference to %s",
			    it->name);
	unlock_all();
}

/*
 * The thread that ends a program well, as by a return from main, ends with it. No call is under
 * way then, except if a signal handler ends the program.
 */
static void end_process(int status, void *of)
{
	(void)of;
	if (status != EXIT_SUCCESS || now.call != NULL)
		return;
	judge_end(thread);
	judge_locals();
}

static void forget_thread(const struct thread *ended)
{
	struct thread **at = &threads;
	while (*at != NULL && *at != ended)
		at = &(*at)->next;
	if (*at != NULL)
		*at = (*at)->next;
}

/* Other destructors may make calls still: it is looked at in the last round of them. */
static void end_thread(void *of)
{
	struct thread *ended = of;
	const bool is_last = ++ended->rounds >= PTHREAD_DESTRUCTOR_ITERATIONS;
	if (!is_last && pthread_setspecific(ends, ended) == 0)
		return;
	judge_end(ended->id);
	pthread_mutex_lock(&guard);
	forget_thread(ended);
	pthread_mutex_unlock(&guard);
	free(ended);
}

#endif
