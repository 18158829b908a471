/*
 * layer.h - what the parts of the layer share; no program includes it, except tests that look into the layer
 *
 * A CPU is a lock, `hold`. A thread has a CPU by taking that lock, for as long as it has a reason: a call, a section, a spin lock, a raised level. Whoever has
 * the CPU alone uses its table of references, and its part of each local count.
 *
 * A read section of pserialize(9) has its CPU throughout. So whoever has had each CPU once has waited for all sections that were open before (visits.c):
 * that is pserialize_perform. A section that begins later took its CPU's lock after the perform had it, so it sees what the writer stored before.
 *
 * A passive reference is a place in the table of its CPU, which its thread doesn't leave. psref_target_destroy marks the target, so that nobody acquires it any
 * more, and goes to each CPU: it waits until the CPU's table has no reference to the target. A copy of one needs one on that CPU, so what it has left behind
 * stays without. A section has its CPU, so the one in which the last reference was released has ended, too. A release of a marked target wakes it.
 *
 * A local count has a part on each CPU, to which an acquire adds 1, and from which a release on any CPU takes 1. localcount_drain marks the count, and adds all
 * parts up, each while it has the CPU. A release that sees the mark takes 1 from the sum, under the caller's lock, and the one that makes it 0 wakes the
 * drain, which can't return before that lock is free. After any other release the count isn't touched again, for the drain may have returned.
 *
 * The order of locks: the caller's, then a CPU's hold, and a sleep queue of lock.c. No other lock is taken under the last.
 */
#ifndef KUPALDIZ_NETBSD_LAYER_H
#define KUPALDIZ_NETBSD_LAYER_H

#define KUPALDIZ_WITHOUT_PLACES

#include <errno.h>
#include <limits.h>
#include <pthread.h>
#include <sched.h>
#include <stdarg.h>
#include <stdio.h>
#include <stdlib.h>
#include <string.h>
#include <sys/types.h>
#include <time.h>
#include <unistd.h>

#include <kupaldiz/cpu.h>
#include <kupaldiz/kernel.h>
#include <kupaldiz/localcount.h>
#include <kupaldiz/locks.h>
#include <kupaldiz/memory.h>
#include <kupaldiz/module_hook.h>
#include <kupaldiz/pserialize.h>
#include <kupaldiz/psref.h>
#include <kupaldiz/softint.h>
#include <kupaldiz/workqueue.h>

/* How many milliseconds a wait lasts before it says what it waits for. */
#ifndef KUPALDIZ_PATIENCE
#define KUPALDIZ_PATIENCE	5000
#endif

enum {
	LINE = 64,
	MOST_PLACES = 6,
	LAST_ROUND = PTHREAD_DESTRUCTOR_ITERATIONS - 1,	/* of destructors: in the one after it the thread sanitizer is gone */
	LONGEST_PAUSE = 1000000,	/* nanoseconds */
	LEVELS = IPL_HIGH + 1
};

/* clang says otherwise that it compiles with the sanitizer of addresses. */
#if defined(__has_feature) && !defined(__SANITIZE_ADDRESS__)
#if __has_feature(address_sanitizer)
#define __SANITIZE_ADDRESS__
#endif
#endif

/* What is told of an object that nobody uses, but that stays as it is: the address sanitizer, or the explorer. */
#ifndef HIDE
#ifdef __SANITIZE_ADDRESS__
void __asan_poison_memory_region(const volatile void *at, size_t size);
void __asan_unpoison_memory_region(const volatile void *at, size_t size);
#define HIDE(at, size)		__asan_poison_memory_region(at, size)
#define UNHIDE(at, size)	__asan_unpoison_memory_region(at, size)
#else
#define HIDE(at, size)		((void)(at), (void)(size))
#define UNHIDE(at, size)	((void)(at), (void)(size))
#endif
#endif

/* How a wait for a condition variable ends: early if nobody ended it. */
enum ending { IN_TIME, AS_IF_WOKEN, BY_SIGNAL };

/* What the explorer alone decides: that a call which may sleep gives a raised level up until its end, also where it needn't wait; whether a call that may fail does
 * so, and whether the code's next wait, which may be one that signals end, ends early; how the last one has ended. It is told of a work that isn't in its
 * queue any more, and what a call reads and writes of the code's own memory. */
#ifndef FAILS
#define MAY_SLEEP()		((void)0)
#define FAILS()			false
#define MAY_END_EARLY(signals)	((void)(signals))
#define LAST_ENDING()		IN_TIME
#define DEQUEUED(work)		((void)(work))
#define TELL_READ(at, size)	((void)0)
#define TELL_WRITE(at, size)	((void)0)
#endif

struct thread;
struct cpu;

/* ---- lock.c: a lock that knows its owner. ---- */

/* Its word is its owner; the lowest bit says that somebody waits. Whoever gives it back doesn't touch it afterwards. */
struct lock {
	uintptr_t word;
};

/* Says which thread a wait for the lock waits for. */
typedef void report_fn(struct thread *me, const uintptr_t *word);

bool lock_tryacquire(uintptr_t *word, struct thread *me);
void lock_acquire(uintptr_t *word, struct thread *me, report_fn *reporter);
void lock_release(uintptr_t *word, struct thread *me);
void lock_hand_over(uintptr_t *word, struct thread *to);
struct thread *lock_owner(const uintptr_t *word);

/* A place to wait in, for an address: many addresses share one. */
struct sleepq;
struct sleepq *sleepq_of(const void *address);
void sleepq_lock(struct sleepq *sleepq);
void sleepq_unlock(struct sleepq *sleepq);
bool sleepq_wait(struct sleepq *sleepq, const void *of, struct thread *me, const struct timespec *deadline);
bool sleepq_wake(struct sleepq *sleepq, const void *of);
bool sleepq_has_waiter(struct sleepq *sleepq, const void *of);
static inline void sleepq_wake_all(struct sleepq *sleepq, const void *of)
{
	while (sleepq_wake(sleepq, of))
		;
}

struct timespec time_after(int64_t nanoseconds);

/* ---- thread.c: threads and CPUs. ---- */

/* A thread as the layer keeps it. Where others read it, it is read and written as an atomic. Its memory is never freed, but used again. */
struct thread {
	struct lwp lwp;			/* what the code looks into; first */
	const char *call, *place;	/* the call that it is in */
	struct cpu *cpu;		/* where it runs, or ran last; NULL at first */
	unsigned holds;			/* reasons why it has its CPU */
	unsigned depth;			/* open sections */
	const char *entered;		/* where the outermost one was entered */
	unsigned references;		/* passive references */
	unsigned locks;			/* locks that don't spin */
	unsigned kernel_locks;		/* how often it has the kernel lock */
	unsigned preemptions;		/* kpreempt_disable */
	unsigned spins;			/* spin locks */
	unsigned spins_at[IPL_HIGH + 1];	/* of them, those of each level */
	int level, level_before;	/* the CPU's level, and what it was before the first spin lock */
	bool softint;
	bool called;			/* it runs a function of xcall(9) with high priority */
	bool kthread;			/* kthread_create made it */
	bool kept;			/* its memory is used again once it was joined */
	struct thread *lender;		/* of a soft interrupt: the thread whose CPU it has */
	struct thread *next;		/* in the list of those that are free, or in a wait */
	const void *waits_for;		/* under the sleep queue's lock */
	bool woken;
	unsigned tries;			/* how often it waited for the lock that it waits for */
	pthread_cond_t cond;
	int id;				/* the system's */
	unsigned rounds;		/* of destructors at its end */
	char name[32];
};

struct reference {
	const struct psref *psref;	/* where it lies, NULL where the place is free */
	const struct psref_target *target;
	const char *place;
	struct thread *thread;
	uint64_t serial;
	uint32_t next;			/* of those that are free, or in the chain of its storage's address */
};

/* Where the calls stand that are about to begin: one, or those of its arguments before it. */
struct places {
	unsigned count;
	const char *at[MOST_PLACES];
};

struct cpu {
	_Alignas(LINE) struct cpu_info info;	/* first */
	uintptr_t hold;			/* the lock of who has the CPU; what follows is theirs */
	struct reference *references;
	uint32_t *chains;		/* the first reference of each, by the address of its storage; NOTHING where there is none */
	uint32_t room, first_free;	/* there are as many chains as places: a power of two, or none */
	uint64_t serial;
	uint32_t pending;		/* an atomic: a bit for each level with a soft interrupt that may run next */
	uint32_t blocked, goes_on;	/* the levels with a handler that waits for a lock; that has it, and waits for the CPU. Under pending_list */
	uint32_t bound;			/* an atomic: threads that are bound to it */
};

#define NOTHING	UINT32_MAX

extern struct cpu cpus[KUPALDIZ_CPUS];
extern _Thread_local struct thread *kupaldiz_self __attribute__((tls_model("initial-exec"), visibility("hidden")));
extern _Thread_local struct places kupaldiz_places __attribute__((tls_model("initial-exec"), visibility("hidden")));

/* The place of the call that begins next; NULL where nothing noted one. */
static inline const char *pop_place(void)
{
	return kupaldiz_places.count == 0 ? NULL : kupaldiz_places.at[--kupaldiz_places.count];
}

void init_cond(pthread_cond_t *cond);
struct thread *named_thread(const char *call, const char *name);
void end_of_thread(struct thread *me);
void reuse_thread(struct thread *ended);
void hold_cpu(struct thread *me);
void unhold_cpu(struct thread *me);
void move_to(struct thread *me, struct cpu *cpu);
void bind_to(struct thread *me, struct cpu *cpu);
void report_cpu_wait(struct thread *me, const uintptr_t *word);
void visit_cpus(struct thread *me);
struct cpu *cpu_of(struct thread *me);
void disable_preemption(struct thread *me);
void enable_preemption(struct thread *me, const char *otherwise);

/* Where each call begins: the thread, with the call's name for its lines. No place is noted for a call that isn't a macro as well. */
static inline struct thread *begin_plain(const char *call)
{
	struct thread *me = kupaldiz_self;
	if (me == NULL)
		me = named_thread(call, "");
	me->call = call;
	me->place = NULL;
	return me;
}

/* The same of a call that is a macro as well. */
static inline struct thread *begin_call(const char *call)
{
	struct thread *me = begin_plain(call);
	me->place = pop_place();
	return me;
}

static inline bool is_bound(const struct thread *me) { return (me->lwp.l_pflag & LP_BOUND) != 0; }

/* A call that waits isn't cancelled meanwhile: what it has would stay taken. What end_wait needs. */
static inline int begin_wait(void)
{
	int before;
	pthread_setcancelstate(PTHREAD_CANCEL_DISABLE, &before);
	return before;
}

static inline void end_wait(int before) { pthread_setcancelstate(before, NULL); }

/* ---- kernel_lock.c: what a thread that sleeps has given up meanwhile, and with its level its CPU. It isn't cancelled, either. ---- */

struct sleep {
	int cancels, level;
	unsigned kernel_locks;
};

extern kmutex_t kernel_lock;

struct sleep begin_sleep(struct thread *me);
void end_sleep(struct thread *me, struct sleep sleep);

/* ---- softint.c, and the threads of soft interrupts in softint_thread.c ---- */

extern pthread_mutex_t pending_list;
extern pthread_cond_t pending_changed;

void note_pending(struct cpu *cpu);
bool run_softint(struct thread *me, int level);
void ensure_softint_thread(struct thread *me, struct cpu *cpu, int level);

void check_handler_return(const struct thread *me, const char *what, int level, unsigned locks, unsigned references);
void lend_cpu(struct thread *me);
void yield_cpu(struct thread *me);
void reclaim_cpu(struct thread *me);
void *make_softint(unsigned flags, void (*handler)(void *), void *arg);
void schedule_on(struct thread *me, void *cookie, struct cpu *cpu);
int raise_level(struct thread *me, int level);
void lower_level(struct thread *me, int level);

extern bool is_strict;	/* kupaldiz_set_strict */

/* The level above which soft interrupts run on the thread's CPU: in the kernel a read section is at IPL_SOFTSERIAL. */
static inline int level_of_cpu(const struct thread *me)
{
	return !is_strict && me->depth > 0 && me->level < IPL_SOFTSERIAL ? IPL_SOFTSERIAL : me->level;
}

/* Whether what waits on the thread's CPU is above that level. The thread has the CPU. */
static inline bool is_interrupted(const struct thread *me)
{
	return (__atomic_load_n(&me->cpu->pending, __ATOMIC_ACQUIRE) >> (level_of_cpu(me) + 1)) != 0;
}

/* Where a call ends that leaves the thread with its CPU: soft interrupts that wait get it now. */
static inline void end_call(struct thread *me)
{
	if (me->holds != 0 && !me->softint && is_interrupted(me))
		lend_cpu(me);
}

/* The thread has its CPU for one reason less, where a call ends. */
static inline void leave_cpu(struct thread *me)
{
	unhold_cpu(me);
	end_call(me);
}

/* ---- report.c: lines on standard error. ---- */

/* Ends the process after one line that names the call and its place. */
_Noreturn void stop_at(const char *call, const char *place, const char *format, ...) __attribute__((format(printf, 3, 4)));
#define stop(me, ...)	stop_at((me)->call, (me)->place, __VA_ARGS__)
#define stop_if(me, condition, ...)	((condition) ? stop(me, __VA_ARGS__) : (void)0)
/* Writes the words behind the parameter `format` of a function to an array. */
#define FORMAT(array, format) \
	do { \
		va_list words; \
		va_start(words, format); \
		vsnprintf(array, sizeof(array), format, words); \
		va_end(words); \
	} while (0)
void report(const struct thread *me, const char *format, ...) __attribute__((format(printf, 2, 3)));
extern int64_t patience_milliseconds;	/* KUPALDIZ_PATIENCE, which a test may change */
struct timespec patience(void);
const char *name_of(const struct thread *thread, char *text, size_t room);
const char *at_place(const char *place, char *text, size_t room);
void require_made(const struct thread *me, uint32_t made, uint32_t wanted, const char *what);
void require_sleepable(const struct thread *me);
void *grow_row(const struct thread *me, void *row, size_t size);
void *memory(const struct thread *me, size_t size);

static inline struct thread *sleepable(struct thread *me)
{
	require_sleepable(me);
	return me;
}

/* The same two, in memory of the block in which they are called. */
#define NAME_OF(thread)	name_of(thread, (char[64]){""}, 64)
#define AT_PLACE(place)	at_place(place, (char[256]){""}, 256)

struct counts;

/* ---- owners.c: the targets and counts that are live. ---- */

/* What a live one has in its word, and one that is being destroyed or drained: with its address, so that one that was copied by its bytes is told. */
static inline uint64_t live_at(const void *owner) { return (uintptr_t)owner ^ UINT64_C(0x4c69766500000000); }
static inline uint64_t ending_at(const void *owner) { return (uintptr_t)owner ^ UINT64_C(0x456e647300000000); }

struct owner {
	const void *at;			/* NULL where the row is free */
	const struct counts *counts;	/* of a count; NULL of a target */
	const char *call, *place;	/* the call that made it live */
};

void note_owner(struct thread *me, const void *at, const struct counts *counts);
void forget_owner(const void *at);
const struct owner *live_owner(void);

/* ---- visits.c: waits that go to each CPU. The explorer has them otherwise. ---- */

void await_sections(struct thread *me);
void await_unreferenced(struct thread *me, const struct psref_target *target);
void tell_release(const struct psref_target *target);
void collect_counts(struct thread *me, struct counts *counts);

/* ---- psref.c and localcount.c ---- */

const struct reference *find_reference(const struct cpu *cpu, const struct psref_target *target, const struct thread *of);
void report_references(struct thread *me, const struct cpu *cpu, const struct psref_target *target);

struct counts {
	int64_t collected;		/* the parts of the CPUs, as a drain found them; the drain's alone */
	int64_t left;			/* under the interlock: what is held, once the drain has added the former; releases take from it before, too */
	const char *place;		/* where a reference in it was acquired */
	int64_t held;			/* an atomic, for assertions */
	const void *cv, *interlock;	/* those of the count, once a release or a drain has named them; atomics */
	struct {
		_Alignas(LINE) int64_t count;	/* under the CPU's lock, as is the next */
		const char *place;	/* where the last one was acquired */
	} on[KUPALDIZ_CPUS];
};

/* ---- Waits: lock.c and pserialize.c. ---- */

struct pserialize {
	unsigned performing;	/* an atomic */
};

/* A wait's pauses: how long the next one is, and when it says what it waits for: not again where the seconds are 0. */
struct pauses {
	long nanoseconds;
	struct timespec tells;
};

struct pauses begin_pauses(void);
bool pause_longer(struct pauses *pauses);
bool pauses_are_over(struct pauses *pauses);

/* ---- mutex.c, condvar.c and kernel.c, for other calls. ---- */

void acquire_mutex(struct thread *me, kmutex_t *mutex);
void enter_mutex(struct thread *me, kmutex_t *mutex);
void release_mutex(struct thread *me, kmutex_t *mutex);
bool has_mutex(const struct thread *me, const kmutex_t *mutex);
void require_mutex(const struct thread *me, const kmutex_t *mutex);
void require_blockable(const struct thread *me);
bool wait_for(struct thread *me, kcondvar_t *cv, kmutex_t *mutex, int64_t nanoseconds);
void wake_cv(struct thread *me, kcondvar_t *cv, bool all);
void await_thread(struct thread *me, pthread_t id, const struct thread *thread);
int64_t now(void);
int64_t tick_length(void);	/* in nanoseconds */
int ending_of(bool woken);

/* What each made thing has in its word, so that one that never was made, or has been ended, is told. */
enum { A_MUTEX = 0x4d757478, A_CV = 0x436f6e64, A_RW = 0x52774c6b, A_CALLOUT = 0x43616c6c, ENDED = 0x456e6465 };

#endif
