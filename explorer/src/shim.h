/* shim.h - what the layer's sources call of the C library, as the explorer has it; the compiler reads it before each of them */
#ifndef KUPALDIZ_EXPLORER_SHIM_H
#define KUPALDIZ_EXPLORER_SHIM_H

#include <errno.h>
#include <fcntl.h>
#include <limits.h>
#include <pthread.h>
#include <sched.h>
#include <stdarg.h>
#include <stdbool.h>
#include <stdio.h>
#include <stdlib.h>
#include <string.h>
#include <sys/types.h>
#include <time.h>
#include <unistd.h>

void *explorer_allocate(size_t size, size_t align, bool judged);
void *explorer_calloc(size_t count, size_t size);
void *explorer_realloc(void *block, size_t size);
void explorer_free(void *block);
void explorer_may_sleep(void);
bool explorer_fails(void);
void explorer_may_end_early(bool signals);
int explorer_last_ending(void);
void track_ended(const void *thing);
struct work;
void explorer_dequeue(const struct work *work);
void explorer_tell(const void *at, size_t size, bool writes);
void explorer_hide(void *at);
void explorer_unhide(void *at);
void explorer_yield(void);
int explorer_create(pthread_t *id, void *(*body)(void *), void *arg, const char *file);
int explorer_join(pthread_t id);
/* The end of a thread is told by the thread itself. */
static inline int explorer_key(const pthread_key_t *key) { (void)key; return 0; }

/* No thread is cancelled. */
static inline void explorer_cancel_state(int state, int *before)
{
	if (before != NULL)
		*before = state;
}

void explorer_exit(void) __attribute__((noreturn));
void explorer_mutex_lock(const void *watched);
void explorer_mutex_unlock(const void *watched);
int explorer_cond_wait(const void *cond, const struct timespec *deadline, const void *watched);
int explorer_sleep(const struct timespec *time);
ssize_t explorer_write(const void *text, size_t length);
void explorer_abort(void) __attribute__((noreturn));

#ifndef KUPALDIZ_EXPLORER_INSIDE_H
/* No wait says after a while what it waits for. */
#define KUPALDIZ_PATIENCE	1000000000

/* A mutex that orders steps, which conflict: that of the list of callouts. What is under the others is told apart by what a call touches. */
#define WATCHED(mutex)			(__builtin_strstr(__FILE__, "callout.c") != NULL ? (const void *)(mutex) : NULL)

#define malloc(size)			explorer_allocate(size, 16, true)
#define calloc(count, size)		explorer_calloc(count, size)
#define realloc(block, size)		explorer_realloc(block, size)
#define free(block)			explorer_free(block)
#define aligned_alloc(align, size)	explorer_allocate(size, align, true)
#define posix_memalign(block, align, size)	(*(block) = explorer_allocate(size, align, false), 0)

#define MAY_SLEEP()			explorer_may_sleep()
#define FAILS()				explorer_fails()
#define MAY_END_EARLY(signals)		explorer_may_end_early(signals)
#define LAST_ENDING()			explorer_last_ending()
#define DEQUEUED(work)			explorer_dequeue(work)
#define TELL_READ(at, size)		explorer_tell(at, size, false)
#define TELL_WRITE(at, size)		explorer_tell(at, size, true)

#define HIDE(at, size)			explorer_hide(at)
#define UNHIDE(at, size)		explorer_unhide(at)

#define pthread_mutex_init(mutex, attributes)	((void)(mutex))
#define pthread_mutex_destroy(mutex)	((void)(mutex))
#define pthread_mutex_lock(mutex)	explorer_mutex_lock(WATCHED(mutex))
#define pthread_mutex_unlock(mutex)	explorer_mutex_unlock(WATCHED(mutex))
#define pthread_cond_init(cond, attributes)	((void)(cond), (void)(attributes))
#define pthread_cond_wait(cond, mutex)	explorer_cond_wait(cond, NULL, WATCHED(mutex))
#define pthread_cond_timedwait(cond, mutex, deadline)	explorer_cond_wait(cond, deadline, WATCHED(mutex))
#define pthread_cond_broadcast(cond)	sleepq_wake_all(NULL, cond)
#define pthread_condattr_init(attributes)	((void)(attributes))
#define pthread_condattr_setclock(attributes, clock)	((void)(attributes))
#define pthread_condattr_destroy(attributes)	((void)(attributes))
#define pthread_once(once, body)	(*(once) == 0 ? (void)(*(once) = 1, (body)()) : (void)0)
#define pthread_key_create(key, end)	((void)(end), explorer_key(key))
#define pthread_setspecific(key, value)	explorer_key(&(key))
#define pthread_atfork(prepare, parent, child)	((void)(child), 0)
#define pthread_setcancelstate(state, before)	explorer_cancel_state(state, before)
#define pthread_create(id, attributes, body, arg)	explorer_create(id, body, arg, __FILE__)
#define pthread_detach(id)		((void)(id))
#define pthread_tryjoin_np(id, answer)	explorer_join(id)
#define pthread_exit(answer)		explorer_exit()

#define nanosleep(time, rest)		explorer_sleep(time)
#define sched_yield()			explorer_yield()
#define write(file, text, length)	explorer_write(text, length)
#define abort()				explorer_abort()
#endif

#endif
