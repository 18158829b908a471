/*
 * locks.h - mutex(9), condvar(9) and rwlock(9), for threads of user space
 *
 * What differs from the pages: who waits for a spin lock, of type MUTEX_SPIN or of a level from IPL_VM on, sleeps. Its holder keeps its CPU: neither another
 * thread of that CPU nor a soft interrupt of the lock's level runs meanwhile.
 * A wait for a lock, for a CPU or for a condition variable isn't a cancellation point.
 */
#ifndef KUPALDIZ_NETBSD_LOCKS_H
#define KUPALDIZ_NETBSD_LOCKS_H

#include "sys_types.h"

__BEGIN_DECLS

/* A lock. Only the calls look into it. */
typedef struct kmutex {
	uintptr_t mtx_word;	/* its owner; the lowest bit says that somebody waits */
	const char *mtx_place;	/* where it was taken */
	uint32_t mtx_made;
	uint16_t mtx_level;
	uint16_t mtx_spins;
} kmutex_t;

/* What mutex_init takes as the type of a lock. */
typedef enum {
	MUTEX_SPIN = 0,
	MUTEX_ADAPTIVE = 1,
	MUTEX_DEFAULT = 2,
	MUTEX_DRIVER = 3,
	MUTEX_NODEBUG = 4
} kmutex_type_t;

/* mutex_init - make a lock that is free. `level` is the highest level that takes it. */
void mutex_init(kmutex_t *mutex, kmutex_type_t type, int level);

/* mutex_destroy - end a lock. Stops where it is held, and where it isn't a lock. */
void mutex_destroy(kmutex_t *mutex);

/*
 * mutex_enter - take a lock, and wait for it
 *
 * Stops where this thread has it; and, of an adaptive lock, inside a read section, with a spin lock or with preemption disabled, and by the stricter rules of
 * kupaldiz_set_strict in a soft interrupt where the lock's level is IPL_NONE.
 */
void mutex_enter(kmutex_t *mutex);

/* mutex_exit - give a lock back. Stops where this thread doesn't have it. */
void mutex_exit(kmutex_t *mutex);

/* mutex_tryenter - take a lock if it is free. Returns whether it was. It may be called where mutex_enter stops. */
int mutex_tryenter(kmutex_t *mutex);

/* mutex_spin_enter, mutex_spin_exit - the same as mutex_enter and mutex_exit, of a lock that spins. Stop where it doesn't. */
void mutex_spin_enter(kmutex_t *mutex);
void mutex_spin_exit(kmutex_t *mutex);

/* mutex_owned - whether this thread has the lock, for assertions. */
int mutex_owned(const kmutex_t *mutex);

/* mutex_ownable - whether this thread may wait for the lock, for assertions. Returns true, or stops where the thread has it. */
int mutex_ownable(const kmutex_t *mutex);

/* mutex_obj_alloc - a new lock, with one reference. Stops where the thread mustn't sleep. */
kmutex_t *mutex_obj_alloc(kmutex_type_t type, int level);

/* mutex_obj_hold - one reference more. */
void mutex_obj_hold(kmutex_t *mutex);

/* mutex_obj_free - one reference less; with the last one the lock is destroyed and freed. Returns whether it was. */
bool mutex_obj_free(kmutex_t *mutex);

/* A condition variable. Only the calls look into it. */
typedef struct kcondvar {
	const char *cv_name;
	uint32_t cv_made;
	uint32_t cv_waiters;
} kcondvar_t;

/* cv_init - make a condition variable. Its name appears in lines and isn't copied. */
void cv_init(kcondvar_t *cv, const char *name);

/* cv_destroy - end a condition variable. Stops where a thread waits for it. */
void cv_destroy(kcondvar_t *cv);

/*
 * cv_wait - wait to be woken, without the lock meanwhile
 *
 * A wait may end although nobody woke it: in the explorer it does. So the caller looks again at what it waits for.
 * Stops where this thread doesn't have the lock, and where it mustn't sleep. The lock itself may be a spin lock.
 */
void cv_wait(kcondvar_t *cv, kmutex_t *mutex);

/* cv_wait_sig - cv_wait. It returns 0, since there are no signals; in the explorer, kupaldiz_explorer(7), one may end the wait, and it returns EINTR. */
int cv_wait_sig(kcondvar_t *cv, kmutex_t *mutex);

/* cv_timedwait - cv_wait for at most so many ticks of 1/hz second, 0 for ever. Returns 0 where it was woken, EWOULDBLOCK after the time. Below 0 the time is
 * over already. */
int cv_timedwait(kcondvar_t *cv, kmutex_t *mutex, int ticks);

/* cv_timedwait_sig - cv_timedwait, which a signal may end as it ends cv_wait_sig. */
int cv_timedwait_sig(kcondvar_t *cv, kmutex_t *mutex, int ticks);

/* cv_signal - wake the thread that has waited longest. */
void cv_signal(kcondvar_t *cv);

/* cv_broadcast - wake all that wait. */
void cv_broadcast(kcondvar_t *cv);

/* cv_has_waiters - whether anybody waits, for assertions. */
bool cv_has_waiters(kcondvar_t *cv);

/* cv_is_valid - whether it is a condition variable, for assertions. */
bool cv_is_valid(kcondvar_t *cv);

/* A lock for readers and writers. Only the calls look into it. */
typedef struct krwlock {
	uintptr_t rw_writer;
	const char *rw_place;	/* where it was taken last */
	uint32_t rw_made;
	uint32_t rw_readers;
	uint32_t rw_wanted;	/* by this many writers, which go before readers */
} krwlock_t;

typedef enum {
	RW_READER = 0,
	RW_WRITER = 1
} krw_t;

/* rw_init - make a lock that is free. */
void rw_init(krwlock_t *rw);

/* rw_destroy - end it. Stops where it is held. */
void rw_destroy(krwlock_t *rw);

/* rw_enter - take it as a reader, beside others, or as a writer, alone. Stops where mutex_enter does, but not in a soft
 * interrupt. */
void rw_enter(krwlock_t *rw, const krw_t how);

/* rw_tryenter - the same without a wait. Returns whether it was taken. */
int rw_tryenter(krwlock_t *rw, const krw_t how);

/* rw_exit - give it back. Stops where nobody has it, where another thread is its writer, and where this thread has no lock at all. */
void rw_exit(krwlock_t *rw);

/* rw_tryupgrade - from reader to writer, if there is no other reader. Returns whether it is now the writer. Stops where nobody has the lock, and where
 * this thread has no lock at all. */
int rw_tryupgrade(krwlock_t *rw);

/* rw_downgrade - from writer to reader. Stops where this thread isn't the writer. */
void rw_downgrade(krwlock_t *rw);

/* rw_read_held, rw_write_held, rw_lock_held - whether some thread is a reader; whether this one is the writer; whether any thread is
 * either. For assertions. */
int rw_read_held(krwlock_t *rw);
int rw_write_held(krwlock_t *rw);
int rw_lock_held(krwlock_t *rw);

#define KUPALDIZ_PLACES_OF_LOCKS
#include <kupaldiz/places.h>

__END_DECLS
#endif
