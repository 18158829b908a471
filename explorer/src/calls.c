/*
 * calls.c - the layer's calls for locks, sections and references: each announces where it is and what must hold before it can go on, says what it touches,
 * and then is the layer's own. Calls that only look at what is the thread's have no point.
 */
#include "inside.h"

/* ---- A sleep at a raised level: the thread gives the level up, as in the kernel, and has it again when the call ends. ---- */

void explorer_may_sleep(void)
{
	struct in_call *call = run.current == NULL ? NULL : run.current->in_call;
	if (call == NULL || kupaldiz_self->level == IPL_NONE)
		return;
	call->lowered = kupaldiz_self->level;
	lower_level(kupaldiz_self, IPL_NONE);
}

void begin_of_call(struct in_call *call)
{
	struct routine *me = run.current;
	*call = (struct in_call){.me = me, .around = me == NULL ? NULL : me->in_call, .lowered = IPL_NONE};
	if (me != NULL)
		me->in_call = call;
}

/* Others may have had the CPU, also where the call didn't wait. */
void end_of_call(struct in_call *call)
{
	if (call->me == NULL)
		return;
	call->me->in_call = call->around;
	if (call->lowered == IPL_NONE)
		return;
	struct thread *self = kupaldiz_self;
	wait_here(is_free, &self->cpu->hold);
	touch(ON_LOCK, &self->cpu->hold, 0, WAITED);
	raise_level(self, call->lowered);
}

void at_call(const char *call)
{
	point(call, NULL, NULL, NULL);
}

void at_live(const char *call, const void *thing, size_t size)
{
	at_call(call);
	check_live(call, thing, size);
}

/* A thing in memory of the code's own, which some call has initialised. */
void check_made(const char *call, const void *thing, size_t size)
{
	check_live(call, thing, size);
	note_use(thing);
}

void at_made(const char *call, const void *thing, size_t size)
{
	at_call(call);
	check_made(call, thing, size);
}

void at_thing(const char *call, enum kind kind, const void *thing, size_t size, unsigned how)
{
	at_live(call, thing, size);
	touch(kind, thing, 0, how);
}

/* A call whose thread takes its CPU, unless it has that. */
void at_cpu(const char *call)
{
	struct routine *me = here(call);
	bool waits = me->self->holds == 0;
	point(call, NULL, waits ? is_free : NULL, &me->self->cpu->hold);
	if (waits)
		touch(ON_LOCK, &me->self->cpu->hold, 0, WAITED);
}

/* ---- What is initialised and must be ended before its memory is given back, works in queues too; and wake-ups that nobody waited for. ---- */

void track_made(const char *call, const void *thing, const void *pc)
{
	if (run.current == NULL)
		return;
	struct thing *row = row_for(THINGS, (uintptr_t)thing);
	row->made = (struct origin){call, NULL, pc};
	row->must_end = true;
}

void track_init(const char *call, const void *thing, size_t size, const void *pc)
{
	note_init(call, thing, size, pc);
	track_made(call, thing, pc);
}

void track_ended(const void *thing)
{
	struct thing *row = row_with(THINGS, (uintptr_t)thing);
	if (row != NULL)
		row->must_end = false;
}

/* A target or a count: the layer knows whether it was ended. */
static void track_owner(const char *call, const void *owner)
{
	struct thing *row = row_for(THINGS, (uintptr_t)owner);
	row->made = (struct origin){call, run.current->place, NULL};
	memset(row->held, 0, sizeof(row->held));
	row->astray = false;
}

const char *place_made(const struct thing *thing)
{
	return place_of(thing->made.place, thing->made.pc);
}

void check_none_made(const char *call, const void *from, size_t size)
{
	const struct thing *rows = rows_of(THINGS);
	for (size_t at = 0; at < run.rows[THINGS]; at++)
		if (rows[at].must_end && rows[at].by.key - (uintptr_t)from < size)
			fail("%s%s: what %s has made at %s lies in it and was never destroyed", call, AT_PLACE(run.current->place), rows[at].made.call,
			    place_made(&rows[at]));
}

void check_none_left(void)
{
	unsigned left = 0;
	const struct thing *rows = rows_of(THINGS), *one = NULL;
	for (size_t at = 0; at < run.rows[THINGS]; at++) {
		if (!rows[at].must_end)
			continue;
		left++;
		one = &rows[at];
	}
	fail_if(left == 1, "what %s has made at %s is left at the end", one->made.call, place_made(one));
	fail_if(left > 1, "%u locks, condition variables or callouts are left at the end, one of them made by %s at %s", left, one->made.call, place_made(one));
}

WRAPPED(void, mutex_init, (kmutex_t *mutex, kmutex_type_t type, int level), (mutex, type, level),
    track_init(__func__, mutex, sizeof(*mutex), __builtin_return_address(0)))
WRAPPED(void, cv_init, (kcondvar_t *cv, const char *name), (cv, name),
    track_init(__func__, cv, sizeof(*cv), __builtin_return_address(0)))
WRAPPED(void, rw_init, (krwlock_t *rw), (rw),
    track_init(__func__, rw, sizeof(*rw), __builtin_return_address(0)))

static void track_wake(const char *call, const char *place, const void *cv, bool waited)
{
	struct thing *row = row_for(THINGS, (uintptr_t)cv);
	row->missed = waited ? NULL : call;
	row->missed_at = place;
}

const struct thing *lost_wakeup_at(const void *cv)
{
	const struct thing *row = row_with(THINGS, (uintptr_t)cv);
	return row != NULL && row->missed != NULL ? row : NULL;
}

/* Whether the thread gives its CPU or the kernel lock back while it waits for a lock. */
static bool steps_off(const struct routine *me, const kmutex_t *mutex)
{
	return !mutex->mtx_spins && (me->self->holds > 0 || me->self->kernel_locks > 0);
}

/* Whether a mutex is free, and the CPU too where the mutex spins. What isn't a mutex, or is the thread's already, is for the layer to judge. */
bool can_take(const struct routine *me)
{
	const kmutex_t *mutex = me->of;
	if (!is_live(mutex) || mutex->mtx_made != A_MUTEX || mutex->mtx_word == (uintptr_t)me->self || steps_off(me, mutex))
		return true;
	const uintptr_t *hold = &me->self->cpu->hold;
	return mutex->mtx_word == 0 && (!mutex->mtx_spins || me->self->holds > 0 || *hold == 0);
}

static void at_enter(const char *call, kmutex_t *mutex)
{
	point(call, NULL, can_take, mutex);
	check_made(call, mutex, sizeof(*mutex));
	struct routine *me = run.current;
	if (steps_off(me, mutex))
		return;
	touch(ON_LOCK, mutex, 0, ACQUIRES | WAITED);
	if (mutex->mtx_spins && me->self->holds == 0)
		touch(ON_LOCK, &me->self->cpu->hold, 0, WAITED);
}

WRAPPED(void, kupaldiz_kernel_lock, (int count), (count), at_enter("KERNEL_LOCK", &kernel_lock))
WRAPPED(void, kupaldiz_kernel_unlock, (int count, int *held), (count, held), at_call("KERNEL_UNLOCK"))
WRAPPED(int, kupaldiz_run_once, (once_t *once, int (*body)(void)), (once, body), at_live("RUN_ONCE", once, sizeof(*once)))
WRAPPED(void, mutex_enter, (kmutex_t *mutex), (mutex), at_enter(__func__, mutex))
WRAPPED(void, mutex_spin_enter, (kmutex_t *mutex), (mutex), at_enter(__func__, mutex))
WRAPPED(void, mutex_exit, (kmutex_t *mutex), (mutex), LIVE(mutex))
WRAPPED(void, mutex_spin_exit, (kmutex_t *mutex), (mutex), LIVE(mutex))
WRAPPED(int, mutex_tryenter, (kmutex_t *mutex), (mutex), LIVE(mutex))
WRAPPED(void, mutex_destroy, (kmutex_t *mutex), (mutex), AT(ON_LOCK, mutex, WRITES); track_ended(mutex))
/* These have no point. */
WRAPPED(int, mutex_ownable, (const kmutex_t *mutex), (mutex), (void)here(__func__); check_made(__func__, mutex, 1); touch(ON_LOCK, mutex, 0, 0))
WRAPPED(int, mutex_owned, (const kmutex_t *mutex), (mutex), (void)here(__func__); check_made(__func__, mutex, 1))
WRAPPED(void, mutex_obj_hold, (kmutex_t *mutex), (mutex), AT(ON_LOCK, mutex, 0))
WRAPPED(bool, mutex_obj_free, (kmutex_t *mutex), (mutex), AT(ON_LOCK, mutex, WRITES | ACQUIRES | RELEASES))

/* A wait gives the lock back, and takes it again in the step in which the thread goes on. */
static void at_cv_wait(const char *call, kcondvar_t *cv, kmutex_t *mutex)
{
	at_made(call, cv, sizeof(*cv));
	check_made(call, mutex, sizeof(*mutex));
	run.current->relock = mutex;
}

static void end_cv_wait(void)
{
	run.current->relock = NULL;
}

AROUND(void, cv_wait, (kcondvar_t *cv, kmutex_t *mutex), (cv, mutex), at_cv_wait(__func__, cv, mutex), end_cv_wait())
ANSWERED(int, cv_wait_sig, (kcondvar_t *cv, kmutex_t *mutex), (cv, mutex), at_cv_wait(__func__, cv, mutex), end_cv_wait())
ANSWERED(int, cv_timedwait, (kcondvar_t *cv, kmutex_t *mutex, int ticks), (cv, mutex, ticks), at_cv_wait(__func__, cv, mutex), end_cv_wait())
ANSWERED(int, cv_timedwait_sig, (kcondvar_t *cv, kmutex_t *mutex, int ticks), (cv, mutex, ticks), at_cv_wait(__func__, cv, mutex), end_cv_wait())

static void at_wake(const char *call, kcondvar_t *cv)
{
	at_made(call, cv, sizeof(*cv));
	track_wake(call, run.current->place, cv, sleepq_has_waiter(NULL, cv));
}

WRAPPED(void, cv_signal, (kcondvar_t *cv), (cv), at_wake(__func__, cv))
WRAPPED(void, cv_broadcast, (kcondvar_t *cv), (cv), at_wake(__func__, cv))
/* tsleep(9): the address needn't be a condition variable's. */
static void at_sleep(const char *call, kmutex_t *mutex)
{
	at_call(call);
	run.current->relock = mutex;
}

ANSWERED(int, tsleep, (const void *ident, pri_t priority, const char *name, int ticks), (ident, priority, name, ticks), at_sleep(__func__, NULL), (void)0)
ANSWERED(int, mtsleep, (const void *ident, pri_t priority, const char *name, int ticks, kmutex_t *mutex), (ident, priority, name, ticks, mutex),
    at_sleep(__func__, (priority & PNORELOCK) == 0 ? mutex : NULL), run.current->relock = NULL)
WRAPPED(void, wakeup, (const void *ident), (ident),
    at_call(__func__); track_wake(__func__, run.current->place, ident, sleepq_has_waiter(NULL, ident)))

WRAPPED(bool, cv_has_waiters, (kcondvar_t *cv), (cv), LIVE(cv))
WRAPPED(bool, cv_is_valid, (kcondvar_t *cv), (cv), AT(ON_CV, cv, 0))
WRAPPED(void, cv_destroy, (kcondvar_t *cv), (cv), AT(ON_CV, cv, WRITES); track_ended(cv))

/* A thread that waits for an rwlock is in the lock's own queue. */
AROUND(void, rw_enter, (krwlock_t *rw, const krw_t how), (rw, how), LIVE(rw),
    touch(ON_LOCK, rw, 0, WRITES); acquire_clock(ON_LOCK, rw, 0))
ANSWERED(int, rw_tryenter, (krwlock_t *rw, const krw_t how), (rw, how), AT(ON_LOCK, rw, WRITES), if (answer) acquire_clock(ON_LOCK, rw, 0))
WRAPPED(void, rw_exit, (krwlock_t *rw), (rw), AT(ON_LOCK, rw, WRITES); release_clock(ON_LOCK, rw, 0))
ANSWERED(int, rw_tryupgrade, (krwlock_t *rw), (rw), AT(ON_LOCK, rw, WRITES), if (answer) acquire_clock(ON_LOCK, rw, 0))
WRAPPED(void, rw_downgrade, (krwlock_t *rw), (rw), AT(ON_LOCK, rw, WRITES); release_clock(ON_LOCK, rw, 0))
WRAPPED(void, rw_destroy, (krwlock_t *rw), (rw), AT(ON_LOCK, rw, 0); track_ended(rw))

/* Whether others read, which rw_write_held doesn't ask. */
WRAPPED(int, rw_read_held, (krwlock_t *rw), (rw), AT(ON_LOCK, rw, 0))
WRAPPED(int, rw_lock_held, (krwlock_t *rw), (rw), AT(ON_LOCK, rw, 0))

WRAPPED(int, pserialize_read_enter, (void), (), at_cpu(__func__); note_enter(run.current->self))
WRAPPED(void, pserialize_read_exit, (int s), (s), at_call(__func__); note_exit(run.current->self))
/* One thread at a time performs with an object: whoever orders them otherwise than by luck orders their accesses to it. */
static void at_perform(const char *call, const struct pserialize *psz)
{
	at_thing(call, ON_TARGET, psz, 1, 0);
	const struct use use = {.verb = "performs", .place = run.current->place, .writes = true};
	use_memory(psz, 1, &use);
	run.current->target = psz;
}

AROUND(void, pserialize_perform, (pserialize_t psz), (psz), at_perform(__func__, psz), run.current->target = NULL)
WRAPPED(void, pserialize_destroy, (pserialize_t psz), (psz), at_thing(__func__, ON_TARGET, psz, 1, WRITES))

WRAPPED(void, psref_class_destroy, (struct psref_class *psref_class), (psref_class),
    at_thing(__func__, ON_TARGET, psref_class, 1, WRITES))
WRAPPED(void, psref_target_init, (struct psref_target *target, struct psref_class *psref_class), (target, psref_class),
    AT(ON_TARGET, target, WRITES); check_live(__func__, psref_class, 1); track_owner(__func__, target))

AROUND(void, psref_target_destroy, (struct psref_target *target, struct psref_class *psref_class), (target, psref_class),
    AT(ON_TARGET, target, WRITES); check_live(__func__, psref_class, 1); touch(ON_TARGET, psref_class, 0, 0); run.current->target = target,
    run.current->target = NULL; acquire_clock(ON_REFERENCES, target, 0))

/* A call with a reference of this CPU's to a target or a count. */
static void at_reference(const char *call, const void *target, size_t size, unsigned how)
{
	struct routine *me = here(call);
	at_cpu(call);
	check_live(call, target, size);
	touch(ON_REFERENCES, target, me->self->cpu->info.ci_index, how);
	touch(ON_TARGET, target, 0, 0);
}

WRAPPED(void, psref_acquire, (struct psref *psref, const struct psref_target *target, struct psref_class *psref_class),
    (psref, target, psref_class), at_reference(__func__, target, sizeof(*target), 0))
AROUND(void, psref_release, (struct psref *psref, const struct psref_target *target, struct psref_class *psref_class), (psref, target, psref_class),
    at_reference(__func__, target, sizeof(*target), WRITES); release_clock(ON_REFERENCES, target, 0), ++*releases_of(target))
WRAPPED(void, psref_copy, (struct psref *to, const struct psref *from, struct psref_class *psref_class),
    (to, from, psref_class), at_reference(__func__, from->psref_target, sizeof(*from->psref_target), 0))
/* A reference that is held on this CPU must be this thread's. */
static void check_own_reference(const char *call, const struct psref_target *target)
{
	const struct cpu *cpu = kupaldiz_self->cpu;
	const struct thread *holder = NULL;
	for (uint32_t place = 0; place < cpu->room && holder != kupaldiz_self; place++)
		if (cpu->references[place].psref != NULL && cpu->references[place].target == target)
			holder = cpu->references[place].thread;
	fail_if(holder != NULL && holder != kupaldiz_self, "%s%s: it is held by thread \"%s\", and not by this one", call, AT_PLACE(run.current->place),
	    NAME_OF(holder));
}

ANSWERED(bool, psref_held, (const struct psref_target *target, struct psref_class *psref_class), (target, psref_class),
    at_reference(__func__, target, sizeof(*target), 0), if (answer) check_own_reference(__func__, target))

/* ---- Local references: who has them, as far as they are released by who has acquired them. ---- */

static void note_acquired(const struct localcount *lc)
{
	struct thing *row = row_for(THINGS, (uintptr_t)lc);
	row->held[run.current->number]++;
	row->held_at[run.current->number] = run.current->place;
}

static unsigned holder_of(const struct thing *row)
{
	unsigned number = 0;
	while (number < THREADS && row->held[number] == 0)
		number++;
	return number;
}

static void note_released(const struct localcount *lc)
{
	struct thing *row = row_for(THINGS, (uintptr_t)lc);
	unsigned number = row->held[run.current->number] > 0 ? run.current->number : holder_of(row);
	if (number < THREADS)
		row->held[number]--;
}

/* How many references are held, and where one was acquired. Its thread; NULL where none is held, or the thread has ended. */
const struct routine *append_held(char *text, const void *count)
{
	const struct thing *row = row_for(THINGS, (uintptr_t)count);
	unsigned all = 0, number = holder_of(row);
	size_t length = strlen(text);
	if (number == THREADS)
		return NULL;
	for (unsigned at = 0; at < THREADS; at++)
		all += row->held[at];
	const struct routine *holder = &run.routines[number];
	snprintf(text + length, EXPLORER_LINE - length, all == 1 ? "%u reference, acquired by thread \"%s\"%s" : "%u references, one of them acquired by thread \"%s\"%s",
	    all, name_of_routine(holder), AT_PLACE(row->held_at[number]));
	return holder->ended ? NULL : holder;
}

/* A release stops where no reference is held on any CPU. As long as each thread has released none but its own and those of the setup, one is held: so until
 * then it needn't look at other CPUs. */

enum { OF_SETUP = KUPALDIZ_CPUS };	/* what is touched of the setup's references, beside those of each CPU */

static void at_count_release(const char *call, const struct localcount *lc)
{
	at_reference(call, lc, sizeof(*lc), WRITES);
	struct thing *row = row_for(THINGS, (uintptr_t)lc);
	if (run.current->number == 0 || row->held[run.current->number] == 0) {
		touch(ON_REFERENCES, lc, OF_SETUP, WRITES);
		row->astray |= row->held[0] == 0;
	}
	if (row->astray)
		touch(ON_REFERENCES, lc, ANY, 0);
}

WRAPPED(void, localcount_init, (struct localcount *lc), (lc), AT(ON_TARGET, lc, WRITES); track_owner(__func__, lc))
WRAPPED(void, localcount_fini, (struct localcount *lc), (lc), AT(ON_TARGET, lc, WRITES))
AROUND(void, localcount_drain, (struct localcount *lc, kcondvar_t *cv, kmutex_t *interlock), (lc, cv, interlock),
    AT(ON_TARGET, lc, WRITES); check_made(__func__, interlock, sizeof(*interlock)); run.current->target = lc; run.current->relock = interlock,
    end_cv_wait(); run.current->target = NULL; acquire_clock(ON_REFERENCES, lc, 0))
AROUND(void, localcount_acquire, (struct localcount *lc), (lc), at_reference(__func__, lc, sizeof(*lc), WRITES), note_acquired(lc))
AROUND(void, localcount_release, (struct localcount *lc, kcondvar_t *cv, kmutex_t *interlock), (lc, cv, interlock),
    at_count_release(__func__, lc); release_clock(ON_REFERENCES, lc, 0); note_released(lc), ++*releases_of(lc))
WRAPPED(uint32_t, localcount_debug_refcnt, (const struct localcount *lc), (lc),
    AT(ON_TARGET, lc, 0); touch(ON_REFERENCES, lc, ANY, 0))
