/* inside.h - what the parts of the explorer share; no program includes it */
#ifndef KUPALDIZ_EXPLORER_INSIDE_H
#define KUPALDIZ_EXPLORER_INSIDE_H

#include "layer.h"
#include "shim.h"

#include "../explorer.h"

enum { THREADS = EXPLORER_THREADS, POINTS = EXPLORER_POINTS, ACCESSES = 12, ANY = 0xffff, NOBODY = 0xff };

enum { CLOCK = THREADS - 1 };	/* the explorer's own thread, which lets time go on */
enum { STACK = 64 * 4096 };	/* of a routine */
#define NEVER	INT64_MAX

/* ---- What a step touches. ---- */

/* Two steps commute unless they touch the same thing and one of them writes it. */
enum kind {
	ON_NOTHING,
	ON_LOCK,	/* a mutex, an rwlock, a CPU's own lock */
	ON_CV,
	ON_SECTION,	/* of a CPU */
	ON_END,		/* of one section of a CPU */
	ON_REFERENCES,	/* of a CPU, to a target or a count */
	ON_TARGET,	/* a target, a count or a class */
	ON_MEMORY,
	ON_THREAD,
	ON_PENDING,	/* soft interrupts of a CPU */
	ON_XCALL,	/* the queue of calls of xcall(9) */
	ON_BOUND,	/* how many threads are bound to a CPU */
	ON_TIME,
	ON_DEADLINE,	/* of a thread, or with ANY of all threads */
	ON_WAKE		/* of a thread that waits */
};

enum {
	WRITES = 1,
	ACQUIRES = 2,	/* what others gave comes before it */
	RELEASES = 4,
	ORDERS = 8,	/* the later step waits for the earlier one, so the two never change places */
	WAITED = 16	/* the step's thread couldn't begin it before this was given */
};

struct access {
	uintptr_t address;
	uint32_t size;
	uint16_t cpu;		/* or ANY */
	uint8_t kind, how;
};

struct set {
	uint32_t count;
	bool full;		/* there was more: it commutes with nothing */
	bool barrier;		/* nobody else was enabled, nor will be before: all that ran comes before it, and all that will run after it */
	struct access of[ACCESSES];
};

/* ---- A run: it is begun anew with the program's memory. ---- */

/* What grows with the code: its rows lie in memory that stays, and each run fills it anew. */
enum table { BLOCKS, SYNCS, PLAIN, THINGS, TABLES };

struct routine;
typedef bool guard_fn(const struct routine *routine);

typedef uint32_t clocks[THREADS];

/* What comes before either. */
static inline void join(uint32_t *clock, const uint32_t *other)
{
	for (unsigned number = 0; number < THREADS; number++)
		if (other[number] > clock[number])
			clock[number] = other[number];
}

/* A call of the explorer's that a thread is in: the one around it, and the level that it has given up. */
struct in_call {
	struct routine *me;
	struct in_call *around;
	int lowered;
};

struct routine {
	void *stack;		/* where it was left */
	void *fake_stack;
	bool made, begun, ended;
	bool daemon;		/* the layer's own, which never ends */
	bool visits;		/* it goes to each CPU in turn: each is a point */
	bool off;		/* it has given its CPU back and goes on having it later */
	unsigned number;
	const char *name;
	void (*body)(void *);
	void *(*start)(void *);	/* of one that the layer makes */
	void *arg;
	struct thread *self;
	struct places places;
	const char *from;	/* the place of the next point that lies in a header */
	struct in_call *in_call;	/* the innermost of the explorer's that it is in */
	const char *call, *place;	/* the point where it is */
	const void *pc;		/* of it, where the compiler's call has made it: no text says the place */
	const volatile void *announced;	/* the atomic access that comes next and has had its point; the thread itself for a barrier */
	guard_fn *guard;	/* NULL, or whether it can go on from there */
	const void *of;		/* what the guard looks at */
	uint64_t noted;
	int64_t deadline;
	const void *queue;	/* what it waits to be woken for */
	uint64_t arrived;
	bool woken;
	kmutex_t *relock;	/* the lock that it takes when it was woken */
	const void *target;	/* of the call that it is in */
	int made_at;		/* the step; -1 for none */
	uint16_t failpoints;	/* that it has met */
	enum ending may_end, last_ending;	/* how the wait may end that it is in, or that comes next; and how the last one did */
	uint64_t sections[KUPALDIZ_CPUS];	/* of each CPU the one that its wait waits for; 0 for none */
	clocks clock, released, pending;
};

enum phase { SETTING_UP, RUNNING, FINISHING };

struct run {
	struct routine routines[THREADS];
	unsigned count;
	struct routine *current;
	enum phase phase;
	unsigned step;		/* the number of steps begun */
	unsigned finish;	/* of them, those before all threads had ended */
	int64_t time;
	unsigned ticks;
	uint64_t arrivals;
	bool inside[KUPALDIZ_CPUS];	/* a section */
	uint64_t ends[KUPALDIZ_CPUS];	/* of sections */
	uint64_t handlers;		/* that have ended */
	bool own_memory;	/* what is taken now is the layer's own */
	size_t rows[TABLES];	/* of each table that this run has filled */
	char outcome[EXPLORER_TEXT];
};

extern struct run run;

/* What a row begins with that is looked up: its key, and the next row in its list, counted from 1; 0 for none. */
struct keyed {
	uintptr_t key;
	uint32_t next;
};

/* A call, and where: a text, or an instruction. */
struct origin {
	const char *call, *place;
	const void *pc;
};

/* By what the code works on. */
struct thing {
	struct keyed by;
	struct origin made;	/* by which it was made */
	bool must_end;		/* it is a lock, a callout or a work, and wasn't ended */
	const char *missed, *missed_at;	/* the last wake-up at a condition variable; NULL where somebody waited for it */
	uint64_t releases;	/* of references to a target or a count */
	unsigned held[THREADS];	/* local references that a thread has acquired, and that weren't released */
	const char *held_at[THREADS];	/* where it acquired the last of them */
	bool astray;		/* of them one was released that neither its thread nor the setup had acquired */
};

/* ---- The search: it lies in memory that the parent shares. ---- */

/* One step of the run, and what is known of the others there. */
struct step {
	uint32_t enabled, backtrack, explored, sleeping, throttled;	/* a bit for each thread */
	uint8_t chosen, cpu;
	bool guarded;		/* its thread waited for something, or had to look whether it waits */
	uint16_t preemptions;	/* up to it */
	uint16_t switches;	/* the same */
	uint16_t turns;		/* of the thread without another one between */
	const char *call, *place;
	const void *pc;
	uint32_t clock[THREADS];
	struct set set;
	struct set explored_sets[THREADS];
	const struct set *sleep_sets[THREADS];
};

enum mode { REDUCED, BOUNDED, RANDOM, REPLAYED };
enum end { ENDED_WELL, CUT, FAILED, UNFIT, DIED };

/* An instruction, and the text of its place. */
struct spot {
	const void *pc;
	char text[128];
};

/* A call that fails or a wait that ends early, by its thread and its number there; and those of a run. */
struct failpoint {
	uint16_t thread, number;
};

struct plan {
	unsigned count;
	struct failpoint of[EXPLORER_FAILURES];	/* in order */
};

enum { SPOTS = 256, MOST_PLANS = 4096 };

struct search {
	enum mode mode;
	enum end end;
	bool over;		/* the child has said all */
	bool apart;		/* each run has a process of its own */
	unsigned bound;		/* of preemptions */
	unsigned most;		/* switches */
	char wanted[EXPLORER_LINE];	/* what a shorter schedule must go wrong by */
	uint64_t limit;
	unsigned prefix;	/* so many steps are given */
	unsigned fresh;		/* those from here on are new */
	unsigned length;	/* of the run */
	unsigned priorities[THREADS], lowest, changes[3];
	uint64_t seed;
	uint64_t runs;
	struct explorer_found found, told;	/* by the child; and what the parent makes of it */
	char names[THREADS][32];
	uint32_t ended;		/* a bit for each thread that has */
	bool stuck;		/* the others can't go on */
	unsigned plan, plan_count;	/* of failures: the one that is tried, and how many there are */
	bool plans_left_out;	/* there was no room for one */
	char failed[EXPLORER_LINE];	/* what has failed in the run */
	/* A later search finds these as they are. */
	struct step steps[POINTS + 1];
	struct plan plans[MOST_PLANS];
	struct spot spots[SPOTS];	/* those that were asked for last */
	unsigned spot_count;
};

extern struct search *search;
extern struct explorer_options options;
enum { MOST_UNSEEN = 8 };

extern const char *unseen_files[MOST_UNSEEN];	/* those that are compiled without -fsanitize=thread */
extern unsigned unseen_count;

/* ---- What a run needs and the next one needn't find empty: it lies in memory of its own. ---- */

struct block {
	unsigned char *at;
	size_t size;
	bool live, judged;
	bool hidden;		/* it was given back to a cache, and stays as it is */
	unsigned by, freed_by;
	uint32_t made_at;	/* the clock of its thread then */
	const char *call, *place, *freed_call, *freed_place;
};

/* By a thing: what was left at it. */
struct sync {
	struct keyed by;
	clocks clock;
};

/* What a thread does with memory, and where: a text, or an instruction. */
struct use {
	const char *verb, *place;
	const void *pc;
	bool writes, atomic;
};

/* By the address of eight bytes: its use of some of them. */
struct plain {
	struct keyed by;
	uint32_t at;		/* the clock of the thread then */
	uint8_t thread, bytes;	/* a bit for each byte */
	struct use use;
};

/* A step that conflicts with a later one; `direct` unless the later one comes after a third that comes after it. */
struct race {
	unsigned at;
	bool direct;
};

enum { LISTS = 1024 };

struct scratch {
	struct {
		void *rows;
		size_t room;	/* in rows */
	} tables[TABLES];
	unsigned list[POINTS + 1];
	struct race races[POINTS + 1];
	uint32_t lists[TABLES][LISTS];	/* by their keys: the row of the first, counted from 1 */
};

extern struct scratch *scratch;

/* ---- The layer's calls, as the explorer has them. ---- */

/* LAYER - the layer's own call, whose name has layer_ before it in this library. */
#define LAYER(type, name, parameters)	type layer_##name parameters

/* IN_CALL - the block is a call of the explorer's: at its end the level is raised again that the call has given up to sleep. */
#define IN_CALL \
	struct in_call in_call __attribute__((cleanup(end_of_call))); \
	begin_of_call(&in_call)

#define IN_PLACE_OF(type, name, parameters, ...) \
	LAYER(type, name, parameters); \
	type name parameters \
	{ \
		IN_CALL; \
		__VA_ARGS__; \
	}

/* WRAPPED - a call that begins with its point and what it touches, and then is the layer's own. Both return nothing where the type is void. */
#define WRAPPED(type, name, parameters, arguments, ...) IN_PLACE_OF(type, name, parameters, __VA_ARGS__; return layer_##name arguments)

/* AROUND, ANSWERED - the same, with what comes behind the layer's own: of a call that returns nothing, and of one whose `answer` that may look at. */
#define AROUND(type, name, parameters, arguments, before, after) IN_PLACE_OF(type, name, parameters, before; layer_##name arguments; after)
#define ANSWERED(type, name, parameters, arguments, before, after) \
	IN_PLACE_OF(type, name, parameters, before; type answer = layer_##name arguments; after; return answer)

/* A call with a thing whose size is known, and one that touches it. */
#define LIVE(thing)		at_made(__func__, thing, sizeof(*(thing)))
#define AT(kind, thing, how)	(at_made(__func__, thing, sizeof(*(thing))), touch(kind, thing, 0, how))

/* ---- What the parts call of one another, file by file. ---- */

void map_stacks(void);
struct routine *make_routine(const char *name, void (*body)(void *), void *arg, bool daemon);
void switch_to(struct routine *routine);
void first_point(struct routine *me);
void run_main(void (*body)(void *));
_Noreturn void leave_run(enum end end);
_Noreturn void end_routine(void);
void point(const char *call, const char *place, guard_fn *guard, const void *of);
void wait_here(guard_fn *guard, const void *of);
void touch(enum kind kind, const volatile void *address, unsigned cpu, unsigned how);
void touch_memory(const volatile void *address, size_t size, unsigned how);
void make_barrier(void);
void find_races_at_end(void);
void find_races_of_fault(void);
void start_routines(void);
struct routine *here(const char *call);
bool all_have_ended(const struct routine *routine);
void begin_of_call(struct in_call *call);
void end_of_call(struct in_call *call);
void at_call(const char *call);
void at_thing(const char *call, enum kind kind, const void *thing, size_t size, unsigned how);
void at_live(const char *call, const void *thing, size_t size);
void at_made(const char *call, const void *thing, size_t size);
void check_made(const char *call, const void *thing, size_t size);
void at_cpu(const char *call);
bool next_failure(void);
void note_ending(struct routine *me, bool early);
void write_failures(char *text, size_t room);
bool read_failures(const char *text);
void track_made(const char *call, const void *thing, const void *pc);
void track_init(const char *call, const void *thing, size_t size, const void *pc);
const char *place_made(const struct thing *thing);
const struct routine *append_held(char *text, const void *count);
void check_none_made(const char *call, const void *from, size_t size);
void check_none_left(void);
const struct thing *lost_wakeup_at(const void *cv);
void note_enter(const struct thread *self);
void note_exit(const struct thread *self);
bool is_free(const struct routine *me);
bool can_take(const struct routine *me);
bool was_woken(const struct routine *me);
unsigned section_waited_for(const struct routine *me);
bool have_ended_sections(const struct routine *me);
bool was_released(const struct routine *me);
bool has_ended_handler(const struct routine *me);
bool has_ended(const struct routine *me);
bool can_begin(const struct routine *me);
bool can_go_on(const struct routine *me);
bool is_xcall_complete(const struct routine *me);
extern struct routine *xcaller;
uint64_t *releases_of(const void *target);
void sleep_until(int64_t time);
void end_self(void);
bool are_dependent(const struct set *one, const struct set *other);
void add_all_backtrack_points(unsigned earlier);
void find_races(unsigned at, unsigned upto);
void find_races_of_disabled(unsigned thread, const struct set *set, unsigned upto);
void release_clock(enum kind kind, const volatile void *address, unsigned cpu);
void acquire_clock(enum kind kind, const volatile void *address, unsigned cpu);
void inherit_clock(struct routine *made);
void acquire_all_clocks(void);
void access_atomically(const volatile void *address, size_t size, unsigned how, const char *place, const void *pc);
void use_memory(const volatile void *address, size_t size, const struct use *use);
void note_init(const char *call, const void *at, size_t size, const void *pc);
void note_use(const void *at);
void access_plainly(const volatile void *address, size_t size, bool writes, const void *pc);
void check_own_calls(void);
const char *place_of(const char *place, const void *pc);
void *map_pages(size_t size, int how);
void *rows_of(enum table table);
void *new_row(enum table table);
void *row_with(enum table table, uintptr_t key);
void *row_after(enum table table, const void *row);
void *add_row(enum table table, uintptr_t key);
void *row_for(enum table table, uintptr_t key);
void map_heap(void);
bool is_live(const void *at);
size_t size_of_block(const void *at);
void check_live(const char *call, const volatile void *at, size_t size);
void check_usable(const struct routine *me, const volatile void *at, size_t size, const struct use *use);
void check_heap(void);
void save_state(void);
void restore_state(void);
int64_t next_time(void);
const char *name_of_routine(const struct routine *routine);
void report_stuck(void);
_Noreturn void end_run(enum end end, const char *format, ...) __attribute__((format(printf, 2, 3)));
#define fail(...)			end_run(FAILED, __VA_ARGS__)
_Noreturn void refuse(const char *format, ...) __attribute__((format(printf, 1, 2)));
#define fail_if(condition, ...)		((condition) ? fail(__VA_ARGS__) : (void)0)
#define refuse_if(condition, ...)	((condition) ? refuse(__VA_ARGS__) : (void)0)
void write_schedule(char *text, size_t room);
const char *place_of_step(const struct step *step);
void show(FILE *to, const struct explorer_found *found);
bool draw(const char *name, const struct explorer_found *found);

#endif
