/*
 * workqueue.c - workqueue(9): the thread of a queue runs one work after another without the queue's lock. A work's memory isn't touched once its
 * function is called, which may have freed it. The condition variable tells of a work for the thread, and of an end for those who wait.
 */
#include "layer.h"

/* Works for one thread. What follows the lock is under it. Static functions that don't take it are called with it. */
struct queue {
	kmutex_t lock;
	kcondvar_t changed;
	struct work *first, **last;	/* those that wait */
	const struct work *current;	/* the one being done */
	bool ends;
	struct thread *thread;		/* NULL until it has begun */
	struct workqueue *all;
	struct cpu *cpu;		/* NULL where the thread isn't bound */
	pthread_t id;
	char name[32];
};

struct workqueue {
	void (*body)(struct work *, void *);
	void *arg;
	unsigned count;	/* of queues: one, or one for each CPU */
	struct queue queues[];
};

/* Does the first work. The lock is free meanwhile. */
static void run_first_work(struct thread *me, struct queue *queue)
{
	struct work *work = queue->first;
	queue->first = work->wk_next;
	if (queue->first == NULL)
		queue->last = &queue->first;
	DEQUEUED(work);
	queue->current = work;
	release_mutex(me, &queue->lock);
	queue->all->body(work, queue->all->arg);
	me->call = "workqueue";
	me->place = NULL;
	check_handler_return(me, "the function", IPL_NONE, 0, 0);
	acquire_mutex(me, &queue->lock);
	queue->current = NULL;
	wake_cv(me, &queue->changed, true);
}

static void *run_queue(void *of)
{
	struct queue *queue = of;
	struct thread *me = named_thread("workqueue", queue->name);
	me->kept = true;
	if (queue->cpu != NULL)
		bind_to(me, queue->cpu);
	acquire_mutex(me, &queue->lock);
	queue->thread = me;
	wake_cv(me, &queue->changed, true);
	for (;;) {
		while (queue->first == NULL && !queue->ends)
			wait_for(me, &queue->changed, &queue->lock, -1);
		if (queue->first == NULL)
			break;
		run_first_work(me, queue);
	}
	release_mutex(me, &queue->lock);
	return NULL;
}

static int begin_queue(struct thread *me, struct queue *queue, int level)
{
	mutex_init(&queue->lock, MUTEX_DEFAULT, level);
	cv_init(&queue->changed, queue->name);
	queue->last = &queue->first;
	int answer = pthread_create(&queue->id, NULL, run_queue, queue);
	if (answer != 0)
		return answer;
	acquire_mutex(me, &queue->lock);
	while (queue->thread == NULL)
		wait_for(me, &queue->changed, &queue->lock, -1);
	release_mutex(me, &queue->lock);
	return 0;
}

static void end_queues(struct thread *me, struct workqueue *all, unsigned count)
{
	for (struct queue *queue = all->queues; queue < &all->queues[count]; queue++) {
		acquire_mutex(me, &queue->lock);
		stop_if(me, queue->thread == me, "in a function of the queue");
		stop_if(me, queue->first != NULL, "a work is enqueued");
		queue->ends = true;
		wake_cv(me, &queue->changed, true);
		release_mutex(me, &queue->lock);
		await_thread(me, queue->id, queue->thread);
		reuse_thread(queue->thread);
	}
	free(all);
}

int workqueue_create(struct workqueue **made, const char *name, void (*body)(struct work *, void *), void *arg, pri_t priority, int level, int flags)
{
	struct thread *me = begin_call(__func__);
	bool each = (flags & WQ_PERCPU) != 0;
	unsigned count = each ? KUPALDIZ_CPUS : 1;
	(void)priority;
	require_sleepable(me);
	if (FAILS())
		return ENOMEM;
	struct workqueue *all = memory(me, sizeof(*all) + count * sizeof(all->queues[0]));
	*all = (struct workqueue){.body = body, .arg = arg, .count = count};
	struct sleep sleep = begin_sleep(me);
	int answer = 0;
	for (unsigned at = 0; at < count && answer == 0; at++) {
		struct queue *queue = &all->queues[at];
		queue->all = all;
		queue->cpu = each ? &cpus[at] : NULL;
		snprintf(queue->name, sizeof(queue->name), each ? "%s/%u" : "%s", name, at);
		if (begin_queue(me, queue, level) != 0) {
			end_queues(me, all, at);
			answer = ENOMEM;
		}
	}
	end_sleep(me, sleep);
	if (answer != 0)
		return answer;
	TELL_WRITE(made, sizeof(*made));
	*made = all;
	return 0;
}

void workqueue_destroy(struct workqueue *all)
{
	struct thread *me = sleepable(begin_call(__func__));
	end_queues(me, all, all->count);
}

static bool is_enqueued(const struct queue *queue, const struct work *work)
{
	const struct work *at = queue->first;
	while (at != NULL && at != work)
		at = at->wk_next;
	return at != NULL;
}

void workqueue_enqueue(struct workqueue *all, struct work *work, struct cpu_info *cpu)
{
	struct thread *me = begin_call(__func__);
	stop_if(me, all->count == 1 && cpu != NULL, "a CPU is named, and the queue is without WQ_PERCPU");
	unsigned number = all->count == 1 ? 0 : cpu != NULL ? cpu->ci_index : cpu_of(me)->info.ci_index;
	struct queue *queue = &all->queues[number];
	enter_mutex(me, &queue->lock);
	stop_if(me, is_enqueued(queue, work), "the work is enqueued already");
	work->wk_next = NULL;
	*queue->last = work;
	queue->last = &work->wk_next;
	wake_cv(me, &queue->changed, true);
	release_mutex(me, &queue->lock);
	end_call(me);
}

void workqueue_wait(struct workqueue *all, struct work *work)
{
	struct thread *me = sleepable(begin_call(__func__));
	struct sleep sleep = begin_sleep(me);
	for (struct queue *queue = all->queues; queue < &all->queues[all->count]; queue++) {
		acquire_mutex(me, &queue->lock);
		while (queue->thread != me && (is_enqueued(queue, work) || queue->current == work))
			wait_for(me, &queue->changed, &queue->lock, -1);
		release_mutex(me, &queue->lock);
	}
	end_sleep(me, sleep);
}
