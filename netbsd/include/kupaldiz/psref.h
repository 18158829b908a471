/*
 * psref.h - the calls of psref(9), for threads of user space
 *
 * A passive reference keeps its target beyond the read section that found it, and its holder may sleep. The thread that acquired it releases it, and is
 * bound to its CPU until then. To destroy a target, unlink it and call pserialize_perform, so that no new reference is acquired. Then
 * psref_target_destroy waits for those that are held.
 *
 * What differs from the page:
 * - A class's level changes nothing: a thread has its CPU during a call with a reference, so no soft interrupt of that CPU runs within the call.
 *   It may run at its end, and between two calls (kupaldiz_softint(3)).
 * - A reference is noted in a table of its CPU, where psref_release and psref_copy look it up. In the kernel it lies in a list of its CPU, and nothing is
 *   looked up.
 * - psref_target_destroy has each CPU once, in place of a cross-call. A read section has its CPU, so it waits for the sections that are open at the call, and
 *   for the one in which a CPU's last reference was released: as a kernel's cross-call does, which such a section keeps off. So a driver that forgets
 *   pserialize_perform may run well on real threads. The explorer, kupaldiz_explorer(7), finds the reader that then acquires too late.
 *
 * A call stops if it sees what the page forbids, and a long wait prints what it waits for: Lines in kupaldiz_netbsd(7).
 */
#ifndef KUPALDIZ_NETBSD_PSREF_H
#define KUPALDIZ_NETBSD_PSREF_H

#include "cpu.h"
#include "locks.h"

__BEGIN_DECLS

struct psref_class;

/* What references are to. It lies in the object that it protects; only the calls look into it. */
struct psref_target {
	struct psref_class *prt_class;	/* NULL once destroyed */
	uint64_t prt_state;
};

/* A passive reference, in the storage of its holder. Only the calls look into it; it isn't copied except by psref_copy. */
struct psref {
	const struct psref_target *psref_target;	/* NULL once released */
	uint64_t psref_serial;
	uint32_t psref_index;
	uint32_t psref_cpu;
};

/* psref_class_create - a class of targets. Its name appears in lines and isn't copied. Stops where the thread mustn't sleep, and where memory runs out. */
struct psref_class *psref_class_create(const char *name, ipl_cookie_t level);

/* psref_class_destroy - end a class. Stops while a target of it is live or is being destroyed. */
void psref_class_destroy(struct psref_class *psref_class);

/* psref_target_init - make a target live. Stops where it is live already. */
void psref_target_init(struct psref_target *target, struct psref_class *psref_class);

/*
 * psref_target_destroy - wait until no reference to the target is held, on any CPU
 *
 * It may sleep. An adaptive mutex may be held, unless a holder of a reference takes it before its release. The target may then be freed or
 * initialised again.
 * Stops where the thread mustn't sleep; where the target isn't live, is of another class, or is being destroyed already; and where this thread
 * has a reference to it, which nobody else could release.
 */
void psref_target_destroy(struct psref_target *target, struct psref_class *psref_class);

/*
 * psref_acquire - acquire a passive reference to the target
 *
 * The caller is inside a read section in which it found the target, or keeps the target by a lock or a reference of its own.
 * Stops where this thread is neither bound nor a soft interrupt and has preemption enabled; where the target isn't live, is being destroyed, or is of
 * another class; and where `psref` is held.
 */
void psref_acquire(struct psref *psref, const struct psref_target *target, struct psref_class *psref_class);

/*
 * psref_release - release a passive reference
 *
 * Stops where the reference isn't held, is to another target, was moved by its bytes, or was acquired by another thread; and where the target
 * is of another class. What is printed if it is never released: kupaldiz_netbsd(7), "A passive reference that is not released".
 */
void psref_release(struct psref *psref, const struct psref_target *target, struct psref_class *psref_class);

/*
 * psref_copy - acquire one more reference to what `from` is to; each of the two is released by itself
 *
 * It needs no read section, and the target may be being destroyed.
 * Stops where `from` isn't held, was moved by its bytes, or was acquired by another thread; where the target is of another class; and where `to` is held.
 */
void psref_copy(struct psref *to, const struct psref *from, struct psref_class *psref_class);

/*
 * psref_held - whether a reference to the target is held that any thread acquired on this thread's CPU, for assertions
 *
 * The target may be being destroyed. Stops where this thread is neither bound nor a soft interrupt and has preemption enabled; and where the target
 * isn't live or is of another class.
 */
bool psref_held(const struct psref_target *target, struct psref_class *psref_class);

#define KUPALDIZ_PLACES_OF_PSREF
#include <kupaldiz/places.h>

__END_DECLS
#endif
