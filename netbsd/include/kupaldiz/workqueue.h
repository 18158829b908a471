/*
 * workqueue.h - workqueue(9): functions that threads of the layer run, one after another
 *
 * What differs from the page: priorities and WQ_FPU change nothing, and without WQ_MPSAFE nothing has the kernel lock. The level is that of the queue's own
 * lock, so it says who may enqueue. In the explorer, kupaldiz_explorer(7), the threads of a queue are the layer's own: a run may end while they wait.
 */
#ifndef KUPALDIZ_NETBSD_WORKQUEUE_H
#define KUPALDIZ_NETBSD_WORKQUEUE_H

#include "cpu.h"

__BEGIN_DECLS

#define WQ_MPSAFE	0x01
#define WQ_PERCPU	0x02
#define WQ_FPU		0x04

/* What is enqueued. It lies in memory of the caller's. Only the calls look into it. */
struct work {
	struct work *wk_next;
};

struct workqueue;

/*
 * workqueue_create - make a queue, and its thread, which calls `body(work, arg)` for each work
 *
 * With WQ_PERCPU there is a queue and a thread for each CPU, and the thread is bound to it. Returns 0 or ENOMEM; the queue is written to `made`. Stops where
 * the thread mustn't sleep.
 */
int workqueue_create(struct workqueue **made, const char *name, void (*body)(struct work *, void *), void *arg, pri_t priority, int level, int flags);

/*
 * workqueue_enqueue - have a work done
 *
 * With WQ_PERCPU on that CPU, or on this thread's where `cpu` is NULL; without it `cpu` must be NULL. Once the work's function was called with it, the work
 * may be enqueued again, or freed. Stops where it is enqueued already, and where mutex_enter of a lock of the queue's level would.
 */
void workqueue_enqueue(struct workqueue *queue, struct work *work, struct cpu_info *cpu);

/*
 * workqueue_wait - wait until a work is neither enqueued nor being done
 *
 * The caller ensures that nobody enqueues it meanwhile. The function of a queue doesn't wait for the works of its own thread: then it returns at once.
 * Stops where the thread mustn't sleep.
 */
void workqueue_wait(struct workqueue *queue, struct work *work);

/* workqueue_destroy - end a queue and its threads. Stops where a work is enqueued, in a function of the queue, and where the thread mustn't sleep. */
void workqueue_destroy(struct workqueue *queue);

#define KUPALDIZ_PLACES_OF_WORKQUEUE
#include <kupaldiz/places.h>

__END_DECLS
#endif
