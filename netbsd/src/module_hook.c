/*
 * module_hook.c - module_hook(9), over localcount(9) as in the kernel
 *
 * A hook is set once its count is live. To unset it, no call finds it any more, those that found it have acquired the count, and the drain waits for them.
 */
#include "layer.h"

#include <sys/atomic.h>

static kmutex_t lock = {.mtx_made = A_MUTEX, .mtx_level = IPL_NONE};
static kcondvar_t drained = {.cv_name = "mod_hook", .cv_made = A_CV};
static struct pserialize psz;

/* A call of another page, at the place of the call that it is made for. */
#define AT(place, call)	(kupaldiz_at(place), (call))

/* The place of a call that needs a hook to be set, or not to be. */
static const char *begin_change(const char *call, const bool *hooked, bool is_set)
{
	struct thread *me = begin_call(call);
	require_sleepable(me);
	stop_if(me, *hooked != is_set, is_set ? "the hook is not set" : "the hook is set already");
	return me->place;
}

void module_hook_set(bool *hooked, struct localcount *lc)
{
	const char *place = begin_change(__func__, hooked, false);
	AT(place, localcount_init(lc));
	AT(place, pserialize_perform(&psz));
	atomic_store_relaxed(hooked, true);
}

void module_hook_unset(bool *hooked, struct localcount *lc)
{
	const char *place = begin_change(__func__, hooked, true);
	atomic_store_relaxed(hooked, false);
	AT(place, pserialize_perform(&psz));
	AT(place, mutex_enter(&lock));
	AT(place, localcount_drain(lc, &drained, &lock));
	AT(place, mutex_exit(&lock));
	AT(place, localcount_fini(lc));
}

bool module_hook_tryenter(const bool *hooked, struct localcount *lc)
{
	const char *place = begin_call(__func__)->place;
	int s = AT(place, pserialize_read_enter());
	bool is_set = atomic_load_relaxed(hooked);
	if (is_set)
		AT(place, localcount_acquire(lc));
	AT(place, pserialize_read_exit(s));
	return is_set;
}

void module_hook_exit(struct localcount *lc)
{
	const char *place = begin_call(__func__)->place;
	AT(place, localcount_release(lc, &drained, &lock));
}
