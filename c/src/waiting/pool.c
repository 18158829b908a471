/* pool.c - CPUs that threads share */
#include "inner.h"

#include <stdlib.h>

struct pool;

/* A CPU of a pool, and whether a thread has it. That thread has the place by the pool's key. */
struct place {
	struct pool *pool;
	struct kupaldiz_cpu *cpu;
	bool taken;
};

struct pool {
	unsigned forks;		/* of the process that opened it */
	pthread_key_t key;
	pthread_mutex_t mutex;	/* of what is taken. Whoever has it takes no other lock */
	pthread_cond_t given;
	size_t count;
	struct place places[KUPALDIZ_MOST_CPUS];
};

/*
 * How many forks lie between this process and the first one. A pool is closed in a child: its other
 * threads aren't there to give their CPUs back.
 */
static unsigned forks;
static int watch_error;

static void count_fork(void)
{
	forks++;
}

static void watch_forks(void)
{
	watch_error = pthread_atfork(NULL, NULL, count_fork);
}

/* The pool, or NULL if it is closed. */
static struct pool *pool_of(const struct kupaldiz_pool *handle)
{
	struct pool *pool = handle->at;
	return pool != NULL && pool->forks == forks ? pool : NULL;
}

/* The place that this thread has, or NULL. */
static struct place *own_place(const struct kupaldiz_pool *handle)
{
	const struct pool *pool = pool_of(handle);
	return pool != NULL ? pthread_getspecific(pool->key) : NULL;
}

static void give_back(struct place *place)
{
	struct pool *pool = place->pool;
	pthread_mutex_lock(&pool->mutex);
	place->taken = false;
	pthread_cond_signal(&pool->given);
	pthread_mutex_unlock(&pool->mutex);
}

/* A thread that has a place ends. Nobody else could exit its sections. */
static void end_thread(void *of)
{
	struct place *place = of;
	if (place->pool->forks != forks)
		return;
	while (kupaldiz_exit(place->cpu) == KUPALDIZ_DONE)
		continue;
	give_back(place);
}

static struct pool *make_pool(struct kupaldiz_cpu *cpus, size_t count)
{
	struct pool *made = malloc(sizeof *made);
	if (made == NULL)
		return NULL;
	*made = (struct pool){.forks = forks, .mutex = PTHREAD_MUTEX_INITIALIZER, .count = count};
	for (size_t i = 0; i < count; i++)
		made->places[i] = (struct place){made, &cpus[i], false};
	if (make_condition(&made->given)) {
		if (pthread_key_create(&made->key, end_thread) == 0)
			return made;
		pthread_cond_destroy(&made->given);
	}
	free(made);
	return NULL;
}

/* Whether any of the handles is empty. More than a registry has aren't looked at. */
static bool any_empty(const struct kupaldiz_cpu *cpus, size_t count)
{
	for (size_t i = 0; cpus != NULL && i < count && count <= KUPALDIZ_MOST_CPUS; i++)
		if (cpus[i].at == NULL)
			return true;
	return false;
}

enum kupaldiz_result kupaldiz_pool_open(struct kupaldiz_pool *handle, struct kupaldiz_cpu *cpus,
    size_t count)
{
	static pthread_once_t once = PTHREAD_ONCE_INIT;
	if (any_empty(cpus, count))
		return KUPALDIZ_EMPTY_HANDLE;
	if (pool_of(handle) != NULL)
		return KUPALDIZ_FULL_HANDLE;
	if (cpus == NULL)
		return KUPALDIZ_NULL;
	if (count == 0 || count > KUPALDIZ_MOST_CPUS)
		return KUPALDIZ_BAD_SETTINGS;
	pthread_once(&once, watch_forks);
	struct pool *made = watch_error == 0 ? make_pool(cpus, count) : NULL;
	if (made == NULL)
		return KUPALDIZ_NO_MEMORY;
	handle->at = made;
	return KUPALDIZ_DONE;
}

/* Whether a thread has one of the CPUs. Whoever gave the last one back has let the mutex go. */
static bool any_taken(struct pool *pool)
{
	bool taken = false;
	pthread_mutex_lock(&pool->mutex);
	for (size_t i = 0; i < pool->count; i++)
		taken = taken || pool->places[i].taken;
	pthread_mutex_unlock(&pool->mutex);
	return taken;
}

enum kupaldiz_result kupaldiz_pool_close(struct kupaldiz_pool *handle)
{
	struct pool *pool = pool_of(handle);
	if (pool == NULL)
		return KUPALDIZ_EMPTY_HANDLE;
	if (any_taken(pool))
		return KUPALDIZ_STILL_HELD;
	pthread_key_delete(pool->key);
	pthread_cond_destroy(&pool->given);
	pthread_mutex_destroy(&pool->mutex);
	free(pool);
	handle->at = NULL;
	return KUPALDIZ_DONE;
}

/* A place that no thread has, or NULL. The caller has the mutex. */
static struct place *free_place(struct pool *pool)
{
	for (size_t i = 0; i < pool->count; i++)
		if (!pool->places[i].taken)
			return &pool->places[i];
	return NULL;
}

static void let_go(void *mutex)
{
	pthread_mutex_unlock(mutex);
}

/*
 * Waits until a place may be free; false once the deadline has passed. A C library may take one
 * that is long past for one to come.
 */
static bool wait_for_place(struct pool *pool, const struct timespec *deadline)
{
	if (deadline == NULL)
		return pthread_cond_wait(&pool->given, &pool->mutex) == 0;
	return time_left(deadline, 1) > 0 &&
	    pthread_cond_timedwait(&pool->given, &pool->mutex, deadline) == 0;
}

/* The next free place, or NULL if none came free by the deadline. The caller has the mutex. */
static struct place *await_place(struct pool *pool, const struct timespec *deadline)
{
	struct place *place;
	bool waits = true;
	while ((place = free_place(pool)) == NULL && waits)
		waits = wait_for_place(pool, deadline);
	return place;
}

/* Takes the next free place. A thread that is cancelled meanwhile has none. */
static struct place *take_place(struct pool *pool, const struct timespec *deadline)
{
	struct place *place;
	pthread_mutex_lock(&pool->mutex);
	pthread_cleanup_push(let_go, &pool->mutex);
	place = await_place(pool, deadline);
	if (place != NULL)
		place->taken = true;
	pthread_cleanup_pop(1);
	return place;
}

enum kupaldiz_result kupaldiz_pool_take(struct kupaldiz_pool *handle,
    const struct timespec *deadline, struct kupaldiz_cpu **cpu)
{
	struct pool *pool = pool_of(handle);
	if (pool == NULL)
		return KUPALDIZ_EMPTY_HANDLE;
	if (pthread_getspecific(pool->key) != NULL)
		return KUPALDIZ_FULL_HANDLE;
	struct place *place = take_place(pool, deadline);
	if (place == NULL)
		return KUPALDIZ_NO_CPU;
	if (pthread_setspecific(pool->key, place) != 0) {
		give_back(place);
		return KUPALDIZ_NO_MEMORY;
	}
	if (cpu != NULL)
		*cpu = place->cpu;
	return KUPALDIZ_DONE;
}

enum kupaldiz_result kupaldiz_pool_give(struct kupaldiz_pool *handle)
{
	struct place *place = own_place(handle);
	uint64_t depth = 0;
	if (place == NULL)
		return KUPALDIZ_EMPTY_HANDLE;
	if (kupaldiz_depth(place->cpu, &depth) == KUPALDIZ_DONE && depth != 0)
		return KUPALDIZ_INSIDE;
	pthread_setspecific(place->pool->key, NULL);
	give_back(place);
	return KUPALDIZ_DONE;
}

struct kupaldiz_cpu *kupaldiz_pool_cpu(const struct kupaldiz_pool *handle)
{
	const struct place *place = own_place(handle);
	return place != NULL ? place->cpu : NULL;
}
