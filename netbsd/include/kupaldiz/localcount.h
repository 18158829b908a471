/*
 * localcount.h - the calls of localcount(9), for threads of user space
 *
 * A local count has a part on each CPU. Acquiring and releasing change this CPU's part, and a reference may be released on another CPU than it was
 * acquired on. Its holder may sleep, and may give it to another thread. To drain a count, unlink the object and call pserialize_perform, so that no
 * new reference is acquired. Then localcount_drain waits for those that are held.
 *
 * What differs from the page:
 * - Each acquire and release also changes one word of the count, which all CPUs write. So a release of a reference that nobody holds is told, as in a kernel
 *   that is built with DEBUG.
 * - A drain has each CPU once, in place of a cross-call, and so it waits for read sections. So a driver that forgets pserialize_perform may run well on real
 *   threads here. The explorer, kupaldiz_explorer(7), finds the reader that then acquires too late.
 *
 * A call stops if it sees what the page forbids, and a long wait prints what it waits for: Lines in kupaldiz_netbsd(7).
 */
#ifndef KUPALDIZ_NETBSD_LOCALCOUNT_H
#define KUPALDIZ_NETBSD_LOCALCOUNT_H

#include "cpu.h"
#include "locks.h"

__BEGIN_DECLS

/* A local count. It lies in the object that it protects; only the calls look into it. */
struct localcount {
	uint64_t lc_state;
	void *lc_counts;
};

/* localcount_init - make a count live, with no reference. Stops where the thread mustn't sleep, where the count is live already, and where memory runs out. */
void localcount_init(struct localcount *lc);

/*
 * localcount_fini - end a count, after localcount_drain
 *
 * It may be called anywhere, also where the thread mustn't sleep. The kernel's frees memory of percpu(9), so a driver calls it where it may sleep.
 * Stops where the count isn't drained.
 */
void localcount_fini(struct localcount *lc);

/*
 * localcount_drain - wait until no reference is held, whoever has it
 *
 * The caller has the interlock. The call gives it up and takes it again, also where nobody has a reference: another thread may have had it when the call
 * returns. `cv` and `interlock` are those of each release.
 * The interlock is an adaptive mutex: not of type MUTEX_SPIN, and made with a level below IPL_VM. With a spin mutex the call stops, even if no
 * reference is held. Afterwards only localcount_fini is called with the count.
 * Stops where the thread mustn't sleep; where it doesn't have the interlock; where `cv` or `interlock` are others than those of a release
 * before; and where the count isn't live, or is being drained already.
 */
void localcount_drain(struct localcount *lc, kcondvar_t *cv, kmutex_t *interlock);

/*
 * localcount_acquire - acquire a reference
 *
 * The caller is inside a read section in which it found the object, or keeps it by a lock or a reference. It never sleeps, and may be called in a soft
 * interrupt, with a spin lock, at a raised level and with preemption disabled.
 * Stops where the count isn't live or is being drained.
 */
void localcount_acquire(struct localcount *lc);

/*
 * localcount_release - release a reference, on any CPU
 *
 * It sleeps only if a drain waits for this reference: it then takes the interlock as mutex_enter does, and wakes the drain by `cv`. So it may be called:
 * - in a thread, and at a raised level;
 * - in a soft interrupt, also where the interlock was made with IPL_NONE, by any rules;
 * - inside a read section, with a spin lock and with preemption disabled only if no drain can wait. It stops if one waits.
 *
 * Stops also where the caller has the interlock; where the count isn't live; where no reference to it is held; and where `cv` or `interlock` are
 * others than those of a release or a drain before.
 */
void localcount_release(struct localcount *lc, kcondvar_t *cv, kmutex_t *interlock);

/* localcount_debug_refcnt - how many references are held, for assertions. Stops where the count isn't live. */
uint32_t localcount_debug_refcnt(const struct localcount *lc);

#define KUPALDIZ_PLACES_OF_LOCALCOUNT
#include <kupaldiz/places.h>

__END_DECLS
#endif
