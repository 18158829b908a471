/* mutex.c - mutex(9) */
#include "layer.h"

struct counted_mutex {
	kmutex_t mutex;		/* first */
	unsigned references;	/* an atomic */
};

void mutex_init(kmutex_t *mutex, kmutex_type_t type, int level)
{
	*mutex = (kmutex_t){.mtx_made = A_MUTEX, .mtx_level = (uint16_t)level, .mtx_spins = type == MUTEX_SPIN || level >= IPL_VM};
}

void require_mutex(const struct thread *me, const kmutex_t *mutex)
{
	require_made(me, mutex->mtx_made, A_MUTEX, "the lock");
}

static const char *place_of(const kmutex_t *mutex)
{
	return __atomic_load_n(&mutex->mtx_place, __ATOMIC_RELAXED);
}

static void destroy(struct thread *me, kmutex_t *mutex)
{
	require_mutex(me, mutex);
	struct thread *owner = lock_owner(&mutex->mtx_word);
	stop_if(me, owner != NULL, "the lock is held: thread \"%s\" took it%s", NAME_OF(owner), AT_PLACE(place_of(mutex)));
	mutex->mtx_made = ENDED;
}

void mutex_destroy(kmutex_t *mutex) { destroy(begin_call(__func__), mutex); }

/* Stops where the thread mustn't wait for a lock that doesn't spin. */
void require_blockable(const struct thread *me)
{
	stop_if(me, me->depth > 0, "inside a read section, entered%s", AT_PLACE(me->entered));
	stop_if(me, me->spins > 0, "with a spin lock, and this lock does not spin");
	stop_if(me, me->preemptions > 0, "with preemption disabled");
}

static void report_wait(struct thread *me, const uintptr_t *word)
{
	struct thread *owner = lock_owner(word);
	if (owner != NULL)
		report(me, "waits for the lock that thread \"%s\" took%s", NAME_OF(owner), AT_PLACE(place_of((const kmutex_t *)word)));
}

_Static_assert(offsetof(kmutex_t, mtx_word) == 0, "a lock's word is at its head");

static void note_acquired(struct thread *me, kmutex_t *mutex)
{
	if (!mutex->mtx_spins)
		me->locks++;
	__atomic_store_n(&mutex->mtx_place, me->place, __ATOMIC_RELAXED);
}

/* A lock that spins raises the CPU to this level; IPL_NONE for another one. */
static int level_of(const kmutex_t *mutex)
{
	if (!mutex->mtx_spins)
		return IPL_NONE;
	if (mutex->mtx_level == IPL_NONE)
		return IPL_VM;
	return mutex->mtx_level < IPL_HIGH ? mutex->mtx_level : IPL_HIGH;
}

static void raise_to_level_of(struct thread *me, const kmutex_t *mutex)
{
	int before = raise_level(me, level_of(mutex));
	me->spins_at[level_of(mutex)]++;
	if (me->spins++ == 0)
		me->level_before = before;
}

static void restore_level(struct thread *me, int level)
{
	me->spins_at[level]--;
	if (--me->spins == 0)
		lower_level(me, me->level_before);
}

/* Waits for a lock that doesn't spin. */
static void sleep_for_mutex(struct thread *me, kmutex_t *mutex)
{
	struct sleep sleep = begin_sleep(me);
	if (me->softint)
		yield_cpu(me);
	lock_acquire(&mutex->mtx_word, me, report_wait);
	if (me->softint)
		reclaim_cpu(me);
	end_sleep(me, sleep);
}

void acquire_mutex(struct thread *me, kmutex_t *mutex)
{
	require_mutex(me, mutex);
	stop_if(me, has_mutex(me, mutex), "the thread has the lock already, taken%s", AT_PLACE(mutex->mtx_place));
	if (mutex->mtx_spins) {
		raise_to_level_of(me, mutex);
		lock_acquire(&mutex->mtx_word, me, report_wait);
	} else {
		require_blockable(me);
		if (!lock_tryacquire(&mutex->mtx_word, me))
			sleep_for_mutex(me, mutex);
	}
	note_acquired(me, mutex);
}

void release_mutex(struct thread *me, kmutex_t *mutex)
{
	require_mutex(me, mutex);
	stop_if(me, !has_mutex(me, mutex), "the thread does not have the lock");
	int level = level_of(mutex);
	lock_release(&mutex->mtx_word, me);
	if (level > IPL_NONE)
		restore_level(me, level);
	else
		me->locks--;
}

bool has_mutex(const struct thread *me, const kmutex_t *mutex) { return lock_owner(&mutex->mtx_word) == me; }

void enter_mutex(struct thread *me, kmutex_t *mutex)
{
	if (is_strict && me->softint && mutex->mtx_made == A_MUTEX && !mutex->mtx_spins && mutex->mtx_level == IPL_NONE)
		stop(me, "in a soft interrupt, and the lock is of IPL_NONE");
	acquire_mutex(me, mutex);
}

void mutex_enter(kmutex_t *mutex) { enter_mutex(begin_call(__func__), mutex); }

void mutex_exit(kmutex_t *mutex)
{
	struct thread *me = begin_call(__func__);
	release_mutex(me, mutex);
	end_call(me);
}

int mutex_tryenter(kmutex_t *mutex)
{
	struct thread *me = begin_call(__func__);
	require_mutex(me, mutex);
	if (mutex->mtx_spins)
		raise_to_level_of(me, mutex);
	if (lock_tryacquire(&mutex->mtx_word, me)) {
		note_acquired(me, mutex);
		return 1;
	}
	if (mutex->mtx_spins)
		restore_level(me, level_of(mutex));
	return 0;
}

static void require_spin(const struct thread *me, const kmutex_t *mutex)
{
	require_mutex(me, mutex);
	stop_if(me, !mutex->mtx_spins, "the lock does not spin");
}

void mutex_spin_enter(kmutex_t *mutex)
{
	struct thread *me = begin_call(__func__);
	require_spin(me, mutex);
	acquire_mutex(me, mutex);
}

void mutex_spin_exit(kmutex_t *mutex)
{
	struct thread *me = begin_call(__func__);
	require_spin(me, mutex);
	release_mutex(me, mutex);
	end_call(me);
}

int mutex_owned(const kmutex_t *mutex) { return has_mutex(begin_plain(__func__), mutex); }

int mutex_ownable(const kmutex_t *mutex)
{
	struct thread *me = begin_plain(__func__);
	require_mutex(me, mutex);
	stop_if(me, has_mutex(me, mutex), "the thread has the lock already");
	return 1;
}

kmutex_t *mutex_obj_alloc(kmutex_type_t type, int level)
{
	struct thread *me = sleepable(begin_call(__func__));
	struct counted_mutex *counted = memory(me, sizeof(*counted));
	mutex_init(&counted->mutex, type, level);
	counted->references = 1;
	return &counted->mutex;
}

void mutex_obj_hold(kmutex_t *mutex)
{
	__atomic_fetch_add(&((struct counted_mutex *)mutex)->references, 1, __ATOMIC_RELAXED);
}

bool mutex_obj_free(kmutex_t *mutex)
{
	struct thread *me = begin_call(__func__);
	if (__atomic_fetch_sub(&((struct counted_mutex *)mutex)->references, 1, __ATOMIC_ACQ_REL) != 1)
		return false;
	destroy(me, mutex);
	free(mutex);
	return true;
}
