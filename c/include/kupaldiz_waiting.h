/*
 * kupaldiz_waiting.h - waits over the turns of kupaldiz.h, a list of what is to be freed with a
 * thread that frees it, and CPUs for threads
 *
 * Nothing here is proved. It is plain C over the calls of kupaldiz.h. A wait takes the interlock
 * for each turn, and sleeps without it. It may be cancelled (pthread_cancel) wherever it sleeps: it
 * holds nothing then, and what its turns learned stays. The calls test their arguments in the order
 * of kupaldiz.h.
 */
#ifndef KUPALDIZ_WAITING_H
#define KUPALDIZ_WAITING_H

#include <pthread.h>
#include <time.h>

#include "kupaldiz.h"

#ifdef __cplusplus
extern "C" {
#endif

/* ---- The interlock. ---- */

/*
 * The interlock: how it is taken, and the keeper that it guards. `take` acquires it and `give`
 * releases it. Each is called with `of`, and throws no C++ exception. If threads share the waiting
 * CPU by a mutex, `take` locks that mutex and then the interlock, and `give` unlocks both. NULL for
 * a pointer to an interlock, for `take` or for `give`, or a struct that was never set, is undefined
 * behaviour. One interlock serves all threads. It stays where it is while a call or a list uses it.
 */
struct kupaldiz_interlock {
	struct kupaldiz_keeper *keeper;
	void (*take)(void *of);
	void (*give)(void *of);
	void *of;
};

KUPALDIZ_WORDS(struct kupaldiz_interlock, 4);

/*
 * kupaldiz_interlock_of_mutex - the interlock of this keeper that is this mutex
 *
 * The mutex may be of any type. If locking or unlocking it fails, the program is aborted, after a
 * line on standard error that names the error. A robust mutex whose owner ended with it fails, too:
 * a program that goes on then has a `take` of its own. A recursive mutex that the caller holds
 * stays locked while the wait sleeps.
 */
struct kupaldiz_interlock kupaldiz_interlock_of_mutex(struct kupaldiz_keeper *keeper,
    pthread_mutex_t *mutex) KUPALDIZ_NONNULL(1, 2);

/* ---- Waits. The caller doesn't hold the interlock. ---- */

/*
 * kupaldiz_release_local - release a local reference on any CPU of its registry, at any time, and
 * empty it: localcount_release
 *
 * It takes the interlock only if the entry is being destroyed. The caller runs on the CPU, inside a
 * section or outside. It fails only for a mistake of the program; the reference then stays as it
 * was.
 * Returns KUPALDIZ_EMPTY_HANDLE for the CPU's handle and for the reference, and for the keeper's if
 * it is needed.
 */
enum kupaldiz_result kupaldiz_release_local(const struct kupaldiz_interlock *interlock,
    struct kupaldiz_cpu *cpu, struct kupaldiz_local *local) KUPALDIZ_NONNULL(1, 2, 3);

/*
 * kupaldiz_destroy_wait - destroy the retired entry with this number: psref_target_destroy and
 * localcount_drain, which wait
 *
 * The caller runs on the CPU, outside a section. Each turn is a kupaldiz_destroy under the
 * interlock. The call makes at least one turn. Between two turns:
 *
 * - It spins at first: 16 times, for at most 256 pause instructions each time and 2,303 in all.
 * - Then it yields 8 times, and then sleeps, for 16 microseconds at first, twice as long each time,
 *   8 milliseconds at most.
 *
 * `deadline` is an absolute time of CLOCK_MONOTONIC: five seconds from now is what clock_gettime
 * writes, with 5 added to `tv_sec`. The call makes no turn after one that ended past the deadline.
 * The deadline doesn't limit the wait for the interlock. With NULL the call waits until the entry
 * is destroyed. The caller's own references hold the entry, too: it releases them first. Otherwise
 * the call returns KUPALDIZ_STILL_HELD at its deadline, and with NULL it never returns.
 * Returns KUPALDIZ_EMPTY_HANDLE, KUPALDIZ_INSIDE, and then the result of its last turn. What the
 * turns learned and collected stays, so a later call goes on from there.
 *
 * - KUPALDIZ_DONE, as kupaldiz_destroy. The slot is in `met`.
 * - KUPALDIZ_NOT_RETIRED if the entry isn't retired, or another thread has freed it meanwhile.
 * - KUPALDIZ_STILL_HELD if the deadline has passed. `met` is what the last turn met. The entry is
 *   still retired: its slot stays occupied, and its memory may not be freed, until a later call
 *   returns KUPALDIZ_DONE.
 */
enum kupaldiz_result kupaldiz_destroy_wait(const struct kupaldiz_interlock *interlock,
    struct kupaldiz_cpu *cpu, uint64_t number, const struct timespec *deadline,
    struct kupaldiz_met *met) KUPALDIZ_NONNULL(1, 2) KUPALDIZ_MUST_USE;

/*
 * kupaldiz_perform_wait - wait until each section that is open now has ended: pserialize_perform,
 * which waits
 *
 * The caller runs on the CPU, outside a section. The call takes the interlock once to begin, and
 * then once a turn. Between two turns it spins, yields and sleeps as kupaldiz_destroy_wait does,
 * and `deadline` means the same. A later call begins anew, with the sections that are open then.
 * Returns KUPALDIZ_EMPTY_HANDLE, KUPALDIZ_INSIDE, and then the result of its last turn.
 *
 * - KUPALDIZ_DONE, as kupaldiz_perform_turn.
 * - KUPALDIZ_WAITING if the deadline has passed. The CPU that it waited for is in `waited`.
 */
enum kupaldiz_result kupaldiz_perform_wait(const struct kupaldiz_interlock *interlock,
    struct kupaldiz_cpu *cpu, const struct timespec *deadline, uint64_t *waited)
    KUPALDIZ_NONNULL(1, 2) KUPALDIZ_MUST_USE;

/* ---- What is to be freed. The caller holds the interlock, except where a call takes it. ---- */

/*
 * A function that is called once each section that was open has ended, as call_rcu's. It lies in
 * the memory that the function frees.
 */
struct kupaldiz_call {
	struct kupaldiz_call *next;	/* private */
	void (*function)(struct kupaldiz_call *call);
};

/*
 * The entries that were detached or replaced and aren't freed yet, oldest first, and the calls that
 * wait. {0} is the empty list. The caller then sets the first six members. NULL for `deferred`, or
 * a list that was never set, is undefined behaviour. Only the list destroys its entries. It
 * allocates no memory. It is empty before its keeper is closed: kupaldiz_deferred_barrier. `freed`
 * and the calls run under the interlock, where the thread isn't cancelled. They make no call with
 * the keeper or the list, and throw no C++ exception. `freed` may write to an eventfd, which an
 * event loop polls.
 */
struct kupaldiz_deferred {
	const struct kupaldiz_interlock *interlock;
	struct kupaldiz_cpu *cpu;	/* the list's own, for kupaldiz_deferred_call, or NULL */
	struct kupaldiz_entry *entries;	/* a row, which only the list writes from now on */
	size_t room;			/* its places: as many as the registry has slots */
	/* Called for each entry once it is gone, or NULL. */
	void (*freed)(void *of, const struct kupaldiz_entry *gone);
	void *of;
	/* The rest is private. */
	size_t count;			/* of the entries */
	void *registry;			/* whose entries and calls wait */
	void *reclaimer;
	struct kupaldiz_call *first;
	struct kupaldiz_call *last;
	uint64_t added, called;		/* how many calls ever were */
	uint64_t awaited;		/* `called` once the sections of `wait` have ended */
	struct kupaldiz_wait wait;
};

KUPALDIZ_BYTES(struct kupaldiz_deferred, 14 * 8 + sizeof(struct kupaldiz_wait));

/*
 * kupaldiz_deferred_count - the number of entries and calls that wait in the list
 */
size_t kupaldiz_deferred_count(const struct kupaldiz_deferred *deferred) KUPALDIZ_NONNULL(1);

/*
 * kupaldiz_deferred_add - append an entry that was detached or replaced just now, in the same hold
 * of the interlock
 *
 * Returns KUPALDIZ_NULL if `gone` is NULL, KUPALDIZ_NO_ROOM if the row is full: never of as many
 * places as the registry has slots. The caller then destroys the entry by itself.
 */
enum kupaldiz_result kupaldiz_deferred_add(struct kupaldiz_deferred *deferred,
    const struct kupaldiz_entry *gone) KUPALDIZ_NONNULL(1) KUPALDIZ_MUST_USE;

/*
 * kupaldiz_deferred_call - have the function called once each section that is open now has ended:
 * call_rcu
 *
 * It is for memory that sections use and that is in no entry. A reference doesn't hold it up, nor
 * does an entry. The caller has set call->function. The list has a CPU of its own.
 * Returns KUPALDIZ_EMPTY_HANDLE if the list has no CPU.
 */
enum kupaldiz_result kupaldiz_deferred_call(struct kupaldiz_deferred *deferred,
    struct kupaldiz_call *call) KUPALDIZ_NONNULL(1, 2) KUPALDIZ_MUST_USE;

/*
 * kupaldiz_deferred_free - free the entries that nothing holds any more, oldest first, and make the
 * calls that are due
 *
 * Made before an attach, it gives a vacant slot if there can be one. It makes one kupaldiz_destroy
 * for each entry that waits, and a turn of a perform for the calls. The caller may be inside a
 * section: an entry that this section may hold isn't freed. One that nothing holds may stay in the
 * list if another CPU is in a kupaldiz_get just then. The call never waits. With KUPALDIZ_DONE the
 * number of freed entries is written to `freed`.
 * Returns KUPALDIZ_EMPTY_HANDLE for the keeper's, and for the CPU's if calls wait,
 * KUPALDIZ_FULL_HANDLE if what waits is another registry's.
 */
enum kupaldiz_result kupaldiz_deferred_free(struct kupaldiz_deferred *deferred, size_t *freed)
    KUPALDIZ_NONNULL(1);

/*
 * kupaldiz_deferred_barrier - wait until all that waits in the list now is freed, and `freed` and
 * the calls have returned: rcu_barrier
 *
 * The caller doesn't hold the interlock, and is outside any section. Each turn is a
 * kupaldiz_deferred_free under the interlock. Between two turns it spins, yields and sleeps as
 * kupaldiz_destroy_wait does, and `deadline` means the same. The caller's own references hold
 * entries, too. The call doesn't wait for what is appended meanwhile.
 * Returns the errors of kupaldiz_deferred_free, then KUPALDIZ_STILL_HELD if the deadline has
 * passed.
 */
enum kupaldiz_result kupaldiz_deferred_barrier(struct kupaldiz_deferred *deferred,
    const struct timespec *deadline) KUPALDIZ_NONNULL(1) KUPALDIZ_MUST_USE;

/*
 * kupaldiz_reclaimer_start - start a thread that frees what waits in the list, until
 * kupaldiz_reclaimer_stop
 *
 * The caller doesn't hold the interlock. The thread takes it for each kupaldiz_deferred_free. It
 * takes no signal. It sleeps while the list is empty. While something is held, it looks after 16
 * microseconds, then after twice as long each time, up to a second; an append makes it look anew.
 * The list stays where it is until the stop.
 * Returns KUPALDIZ_FULL_HANDLE if the list has such a thread, KUPALDIZ_NO_MEMORY,
 * KUPALDIZ_NO_THREAD.
 */
enum kupaldiz_result kupaldiz_reclaimer_start(struct kupaldiz_deferred *deferred)
    KUPALDIZ_NONNULL(1) KUPALDIZ_MUST_USE;

/*
 * kupaldiz_reclaimer_stop - end that thread, and wait until it has ended
 *
 * The caller doesn't hold the interlock, and neither `freed` nor a call makes this call. What is
 * held stays in the list: kupaldiz_deferred_barrier waits for it.
 * Returns KUPALDIZ_EMPTY_HANDLE if the list has no such thread.
 */
enum kupaldiz_result kupaldiz_reclaimer_stop(struct kupaldiz_deferred *deferred)
    KUPALDIZ_NONNULL(1);

/* ---- CPUs for threads. Any thread may call these. They take no lock of the caller's. ---- */

/*
 * CPUs that threads share: each thread has one from its kupaldiz_pool_take to its
 * kupaldiz_pool_give, or to its end. {0} is closed. After a fork it is closed in the child, too,
 * which opens a registry and a pool of its own.
 */
struct kupaldiz_pool {
	void *at;
};

KUPALDIZ_WORDS(struct kupaldiz_pool, 1);

/*
 * kupaldiz_pool_open - let threads share these CPUs
 *
 * Nobody else uses the CPUs, or moves their handles, until kupaldiz_pool_close. They may be some of
 * a registry's CPUs: the thread that makes changes may keep one.
 * Returns KUPALDIZ_EMPTY_HANDLE for a CPU's handle, KUPALDIZ_FULL_HANDLE for the pool's,
 * KUPALDIZ_NULL if `cpus` is NULL, KUPALDIZ_BAD_SETTINGS if `count` is 0 or more than
 * KUPALDIZ_MOST_CPUS, KUPALDIZ_NO_MEMORY, also if keys of threads ran out.
 */
enum kupaldiz_result kupaldiz_pool_open(struct kupaldiz_pool *pool, struct kupaldiz_cpu *cpus,
    size_t count) KUPALDIZ_NONNULL(1) KUPALDIZ_MUST_USE;

/*
 * kupaldiz_pool_close - take the CPUs back, and empty the handle
 *
 * No other thread is in a call with the pool, or makes one later.
 * Returns KUPALDIZ_EMPTY_HANDLE, KUPALDIZ_STILL_HELD if a thread has one of the CPUs.
 */
enum kupaldiz_result kupaldiz_pool_close(struct kupaldiz_pool *pool) KUPALDIZ_NONNULL(1);

/*
 * kupaldiz_pool_take - get a CPU for this thread, and wait until one is free
 *
 * The CPU is written to `cpu`; kupaldiz_pool_cpu returns it, too. It is this thread's until
 * kupaldiz_pool_give. If the thread ends or is cancelled without that, its sections are exited, and
 * the CPU is free. `deadline` is as for kupaldiz_destroy_wait. The wait may be cancelled.
 * Returns KUPALDIZ_EMPTY_HANDLE, KUPALDIZ_FULL_HANDLE if the thread has a CPU of this pool,
 * KUPALDIZ_NO_MEMORY, KUPALDIZ_NO_CPU if none was free by the deadline.
 */
enum kupaldiz_result kupaldiz_pool_take(struct kupaldiz_pool *pool, const struct timespec *deadline,
    struct kupaldiz_cpu **cpu) KUPALDIZ_NONNULL(1) KUPALDIZ_MUST_USE;

/*
 * kupaldiz_pool_give - give this thread's CPU back
 *
 * Release the passive references first: they are the CPU's.
 * Returns KUPALDIZ_EMPTY_HANDLE if the pool is closed or the thread has no CPU of it,
 * KUPALDIZ_INSIDE.
 */
enum kupaldiz_result kupaldiz_pool_give(struct kupaldiz_pool *pool) KUPALDIZ_NONNULL(1);

/*
 * kupaldiz_pool_cpu - this thread's CPU, or NULL if it has none
 */
struct kupaldiz_cpu *kupaldiz_pool_cpu(const struct kupaldiz_pool *pool) KUPALDIZ_NONNULL(1);

#ifdef __cplusplus
}
#endif

/* The checking build and the thread sanitizer: these headers have a part for the calls above. */
#define KUPALDIZ_WAITING_DECLARED
#if defined(KUPALDIZ_CHECK)
#include "kupaldiz_check.h"
#elif defined(KUPALDIZ_TSAN) && !defined(KUPALDIZ_INNER)
#include "kupaldiz_tsan.h"
#endif
#endif
