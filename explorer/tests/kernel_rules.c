/*
 * kernel_rules - what the kernel allows is no fault, unless the search is strict; and two faults that the kernel refuses. The last line is
 * 'N passed, M failed'.
 */
#include <stdlib.h>
#include <sys/atomic.h>
#include <sys/condvar.h>
#include <sys/cpu.h>
#include <sys/intr.h>
#include <sys/localcount.h>
#include <sys/lwp.h>
#include <sys/module_hook.h>
#include <sys/mutex.h>
#include <sys/pserialize.h>
#include <sys/psref.h>
#include <sys/systm.h>
#include <sys/xcall.h>

#include "finds.h"

static kmutex_t lock, spin;
static kcondvar_t cv;
static pserialize_t psz;
static struct psref_class *things;
static struct psref_target target;
static void *softint;
static unsigned plain, handled;
static bool gone, flag;
MODULE_HOOK(hook, unsigned, (void));
struct hook_t hook;

static void make_things(void)
{
	mutex_init(&lock, MUTEX_DEFAULT, IPL_NONE);
	mutex_init(&spin, MUTEX_DEFAULT, IPL_VM);
	cv_init(&cv, "cv");
	psz = pserialize_create();
	things = psref_class_create("thing", IPL_SOFTNET);
	psref_target_init(&target, things);
}

/* ---- What precedes a perform comes before sections that begin after it. ---- */

static unsigned twice_plain(void) { return 2 * plain; }

BODY(set_hook)
{
	plain = 3;
	MODULE_HOOK_SET(hook, twice_plain);
}

BODY(call_hook)
{
	unsigned got;
	MODULE_HOOK_CALL(hook, (), 1, got);
	KASSERT(got == 1 || got == 6);
}

BODY(give_by_perform)
{
	plain = 3;
	pserialize_perform(psz);
	atomic_store_relaxed(&flag, true);
}

BODY(take_in_section)
{
	int s = pserialize_read_enter();
	if (atomic_load_relaxed(&flag))
		KASSERT(plain == 3);
	pserialize_read_exit(s);
}

/* A section that began before the perform did isn't after it, and nor is a thread outside of one. */
BODY(take_outside)
{
	if (atomic_load_relaxed(&flag))
		KASSERT(plain == 3);
}

/* ---- A thread sleeps at a raised level, as if_detach does: its CPU is another's meanwhile, and it has the level again afterwards. ---- */

HANDLER(handle, atomic_store_relaxed(&handled, 1))
static void establish(void) { softint = softint_establish(SOFTINT_NET | SOFTINT_MPSAFE, handle, NULL); }

BODY(use_target)
{
	struct psref psref;
	kupaldiz_bind(0);
	int s = pserialize_read_enter();
	bool found = !atomic_load_acquire(&gone);
	if (found)
		psref_acquire(&psref, &target, things);
	pserialize_read_exit(s);
	if (found)
		psref_release(&psref, &target, things);
	kupaldiz_unbind();
}

/* All of it is at splnet. The handler that is scheduled after the sleep doesn't run before the level is given back. */
BODY(detach_at_splnet)
{
	kupaldiz_bind(0);
	int s = splnet();
	atomic_store_release(&gone, true);
	pserialize_perform(psz);
	psref_target_destroy(&target, things);
	softint_schedule(softint);
	KASSERT(atomic_load_relaxed(&handled) == 0);
	splx(s);
	kupaldiz_unbind();
}

static void wait_for_flag(kmutex_t *with)
{
	kupaldiz_bind(0);
	int s = splnet();
	mutex_enter(with);
	while (!flag)
		cv_wait(&cv, with);
	mutex_exit(with);
	KASSERT(kpreempt_disabled());
	splx(s);
	kupaldiz_unbind();
}

static void set_flag(kmutex_t *with)
{
	kupaldiz_bind(0);
	int s = splnet();
	splx(s);
	mutex_enter(with);
	flag = true;
	cv_broadcast(&cv);
	mutex_exit(with);
	kupaldiz_unbind();
}

BODY(wait_at_splnet) { wait_for_flag(&lock); }
BODY(set_flag_on_its_cpu) { set_flag(&lock); }
BODY(wait_with_spin_lock) { wait_for_flag(&spin); }
BODY(set_flag_with_spin_lock) { set_flag(&spin); }

BODY(do_nothing_else) { explorer_point(); }

/* While it sleeps it has no level, so the handler may run. */
BODY(schedule_and_sleep_at_splnet)
{
	kupaldiz_bind(0);
	int s = splnet();
	softint_schedule(softint);
	pserialize_perform(psz);
	explorer_outcome("%u", atomic_load_relaxed(&handled));
	splx(s);
	kupaldiz_unbind();
}

static void perform_raised(void)
{
	int s = splnet();
	pserialize_perform(psz);
	KASSERT(kpreempt_disabled());
	splx(s);
}

static void sleep_in_call(void *one, void *other) { (void)one; (void)other; perform_raised(); }
static void sleep_at_part(void *own, void *arg, struct cpu_info *cpu) { (void)own; (void)arg; (void)cpu; perform_raised(); }

/* A function of xcall(9) may do so, too, unless it has high priority. */
BODY(call_to_sleep)
{
	percpu_t *percpu = percpu_alloc(sizeof(int));
	xc_wait(xc_unicast(0, sleep_in_call, NULL, NULL, kupaldiz_cpu(1)));
	percpu_foreach_xcall(percpu, 0, sleep_at_part, NULL);
	percpu_free(percpu, sizeof(int));
}

/* ---- A soft interrupt takes a lock of IPL_NONE. ---- */

HANDLER(lock_softly, mutex_enter(&lock); plain++; mutex_exit(&lock))
static void establish_locker(void) { softint = softint_establish(SOFTINT_NET | SOFTINT_MPSAFE, lock_softly, NULL); }
BODY(schedule) { softint_schedule(softint); }

BODY(lock_and_add)
{
	mutex_enter(&lock);
	plain++;
	mutex_exit(&lock);
}

/* ---- No soft interrupt of the CPU runs inside a section, which is at IPL_SOFTSERIAL. ---- */

HANDLER(add_softly, plain++)
static void establish_adder(void) { softint = softint_establish(SOFTINT_NET | SOFTINT_MPSAFE, add_softly, NULL); }

BODY(add_in_section)
{
	kupaldiz_bind(0);
	int s = pserialize_read_enter();
	softint_schedule(softint);
	explorer_point();
	plain++;
	pserialize_read_exit(s);
	kupaldiz_unbind();
}

/* ---- Two threads perform with one object, or one after the other. ---- */

BODY(perform) { pserialize_perform(psz); }

BODY(perform_with_lock)
{
	mutex_enter(&lock);
	pserialize_perform(psz);
	mutex_exit(&lock);
}

/* ---- Whose reference is held. ---- */

BODY(hold)
{
	struct psref psref;
	kupaldiz_bind(0);
	psref_acquire(&psref, &target, things);
	KASSERT(psref_held(&target, things));
	explorer_point();
	psref_release(&psref, &target, things);
	kupaldiz_unbind();
}

BODY(ask_held)
{
	kupaldiz_bind(0);
	(void)psref_held(&target, things);
	kupaldiz_unbind();
}

BODY(ask_held_elsewhere)
{
	kupaldiz_bind(1);
	KASSERT(!psref_held(&target, things));
	kupaldiz_unbind();
}

/* ---- Who waits for a lock or a call gives the kernel lock back meanwhile. ---- */

BODY(lock_in_kernel_lock)
{
	KERNEL_LOCK(1, NULL);
	mutex_enter(&lock);
	mutex_exit(&lock);
	KERNEL_UNLOCK_ONE(NULL);
}

static void lock_kernel(void)
{
	KERNEL_LOCK(1, NULL);
	KERNEL_UNLOCK_ONE(NULL);
}

BODY(kernel_lock_in_lock)
{
	mutex_enter(&lock);
	lock_kernel();
	mutex_exit(&lock);
}

static void lock_kernel_in_call(void *one, void *other) { (void)one; (void)other; lock_kernel(); }

BODY(call_in_kernel_lock)
{
	KERNEL_LOCK(1, NULL);
	xc_wait(xc_unicast(0, lock_kernel_in_call, NULL, NULL, kupaldiz_cpu(1)));
	KERNEL_UNLOCK_ONE(NULL);
}

static void end_things(void)
{
	if (hook.hooked)
		MODULE_HOOK_UNSET(hook);
	if (softint != NULL)
		softint_disestablish(softint);
	if (!gone)
		psref_target_destroy(&target, things);
	psref_class_destroy(things);
	pserialize_destroy(psz);
	cv_destroy(&cv);
	mutex_destroy(&lock);
	mutex_destroy(&spin);
}

static const struct find finds[] = {
	{"a hook that is set beside a call", NULL, set_hook, call_hook, .finish = end_things},
	{"a hook that is set beside two calls", NULL, set_hook, call_hook, call_hook, .finish = end_things},
	{"a perform before a section", NULL, give_by_perform, take_in_section, .finish = end_things},
	{"a perform before no section", "data race: ", give_by_perform, take_outside, .finish = end_things},
	{"a detach at splnet", NULL, detach_at_splnet, use_target, .make = establish, .finish = end_things},
	{"the same, strictly", "pserialize_perform: at a raised level",
	    detach_at_splnet, use_target, .make = establish, .strict = true, .finish = end_things},
	{"a wait at splnet", NULL, wait_at_splnet, set_flag_on_its_cpu, .finish = end_things},
	{"the same, strictly", "cv_wait: at a raised level", wait_at_splnet, set_flag_on_its_cpu, .strict = true, .finish = end_things},
	{"a wait at splnet with a spin lock", NULL, wait_with_spin_lock, set_flag_with_spin_lock, .finish = end_things},
	{"a handler while its CPU's thread sleeps", NULL,
	    schedule_and_sleep_at_splnet, do_nothing_else, .make = establish, .outcomes = {"0", "1"}, .finish = end_things},
	{"functions of xcall(9) that sleep at a raised level", NULL, call_to_sleep, do_nothing_else, .finish = end_things},
	{"a lock of IPL_NONE in a soft interrupt", NULL, schedule, lock_and_add, .make = establish_locker, .finish = end_things},
	{"the same, strictly", "mutex_enter: in a soft interrupt, and the lock is of IPL_NONE",
	    schedule, lock_and_add, .make = establish_locker, .strict = true, .finish = end_things},
	{"a section beside a handler of its CPU", NULL, add_in_section, do_nothing_else, .make = establish_adder, .finish = end_things},
	{"the same, strictly", "data race: ", add_in_section, do_nothing_else, .make = establish_adder, .strict = true, .finish = end_things},
	{"two performs with one object", "data race: thread \"first\" performs at *kernel_rules.c:*, and thread \"second\" performs at *kernel_rules.c:",
	    perform, perform, .finish = end_things},
	{"a lock in the kernel lock, and the other way round", NULL, lock_in_kernel_lock, kernel_lock_in_lock, .finish = end_things},
	{"a call in the kernel lock", NULL, call_in_kernel_lock, do_nothing_else, .finish = end_things},
	{"two performs with a lock", NULL, perform_with_lock, perform_with_lock, .finish = end_things},
	{"a reference that another thread holds", "psref_held at *kernel_rules.c:*: it is held by thread \"first\", and not by this one",
	    hold, ask_held, .finish = end_things},
	{"a reference that is held on another CPU", NULL, hold, ask_held_elsewhere, .finish = end_things},
	{"a thread's own reference", NULL, hold, hold, .finish = end_things},
};

int main(void)
{
	return run_finds(finds, sizeof(finds) / sizeof(finds[0]));
}
