/*
 * pserialize.h - the calls of pserialize(9), for threads of user space
 *
 * A reader walks a list in a read section. It takes none of the writers' locks. A writer unlinks an entry,
 * calls pserialize_perform, and then no reader has the entry. Writers exclude each other by a lock of their own.
 *
 * What differs from the page:
 * - A section keeps the thread on its CPU, and the other threads of that CPU out of theirs. So a reader waits if no CPU is free.
 * - A section raises no level: soft interrupts run inside it too (kupaldiz_softint(3) says when). In the kernel it keeps them off.
 * - A call of this layer that sleeps stops inside a section. A call of the C library that blocks there isn't seen.
 * - pserialize_perform has each CPU once: it waits while a thread that is inside a section, or has the CPU otherwise, keeps it. Sections that begin later
 *   can't hold it up for long: the third that comes before it has to wait. No CPU runs anything for it.
 * - The links of the list are the caller's: a writer stores them with atomic_store_release, and a reader loads them with atomic_load_consume or
 *   atomic_load_acquire, as in the kernel. No other barrier is needed: a section that begins once pserialize_perform has had its CPU sees what was stored
 *   before.
 *
 * A call stops if it sees what the page forbids, and a long wait prints what it waits for: Lines in kupaldiz_netbsd(7).
 */
#ifndef KUPALDIZ_NETBSD_PSERIALIZE_H
#define KUPALDIZ_NETBSD_PSERIALIZE_H

#include "cpu.h"
#include "locks.h"

__BEGIN_DECLS

typedef struct pserialize *pserialize_t;

/* pserialize_create - an object for pserialize_perform. Stops where the thread mustn't sleep, and where memory runs out. */
pserialize_t pserialize_create(void);

/* pserialize_destroy - end it. Stops while a thread performs with it. */
void pserialize_destroy(pserialize_t psz);

/*
 * pserialize_read_enter - enter a read section, or the open one once more
 *
 * Returns what the matching pserialize_read_exit takes: how many sections of this thread were open before. The outermost one takes the lock of a CPU:
 * - a thread that is bound waits while another thread has its CPU;
 * - one that isn't takes any CPU that is free, and waits only if none is.
 */
int pserialize_read_enter(void);

/* pserialize_read_exit - exit the section that was entered last. Stops outside, and where `s` is what another enter returned. */
void pserialize_read_exit(int s);

/*
 * pserialize_perform - wait for every read section that is open on any CPU as the call begins, with any `psz`
 *
 * It may sleep. Any number of threads may call it at once, also with one `psz`. The lock that the page asks for is for the list; no call looks for it,
 * and an adaptive mutex may be held. It need not wait for sections that begin later, and doesn't wait for passive references, local references
 * or callouts.
 * What the thread did before comes before what is done in sections that begin once the call has returned.
 * Stops where the thread mustn't sleep: inside a read section, in a soft interrupt, with a spin lock, and with preemption disabled.
 */
void pserialize_perform(pserialize_t psz);

/* pserialize_in_read_section - whether this thread is inside a read section, for assertions. */
bool pserialize_in_read_section(void);

/* pserialize_not_in_read_section - whether it is outside. */
bool pserialize_not_in_read_section(void);

#define KUPALDIZ_PLACES_OF_PSERIALIZE
#include <kupaldiz/places.h>

__END_DECLS
#endif
