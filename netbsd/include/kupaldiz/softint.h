/*
 * softint.h - softint(9), spl(9), xcall(9) and callout(9), for threads of user space
 *
 * Each CPU has a thread for the soft interrupts of each level. It runs a handler on the CPU where the handler was scheduled:
 * - At once, where no thread of that CPU is in a read section, has a spin lock, is at a raised level or has preemption disabled.
 * - Else once the thread that has the CPU gives it up. Or before that, when this thread ends one of these calls, at a level below the handler's, and in no read
 *   section, which is at IPL_SOFTSERIAL: pserialize_read_enter, pserialize_read_exit, psref_acquire, psref_copy, psref_held, psref_release, localcount_acquire,
 *   localcount_release, mutex_exit, mutex_spin_exit, cv_signal, cv_broadcast, splx, kpreempt_enable, percpu_putref, softint_schedule. The call then waits
 *   for the CPU. It returns when the handlers have ended, or when one of them waits for a lock.
 *
 * Handlers of one CPU run one after another, those of the highest level first, and those of one level in the order in which they were scheduled. While
 * one waits for a lock, those of other levels run on its CPU, and those of its own level wait. A handler stops where it returns in a read section, with a lock, with preemption disabled, with a passive reference, or at a higher level than its own.
 * kupaldiz_netbsd(7) lists what differs from the kernel.
 */
#ifndef KUPALDIZ_NETBSD_SOFTINT_H
#define KUPALDIZ_NETBSD_SOFTINT_H

#include "cpu.h"

__BEGIN_DECLS

#define SOFTINT_CLOCK	0x0000u
#define SOFTINT_BIO	0x0001u
#define SOFTINT_NET	0x0002u
#define SOFTINT_SERIAL	0x0003u
#define SOFTINT_MPSAFE	0x0100u
#define SOFTINT_LVLMASK	0x00ffu

/* softint_establish - make a soft interrupt of this level that runs `handler(arg)`. NULL where memory runs out. Stops where the thread mustn't sleep. */
void *softint_establish(unsigned flags, void (*handler)(void *), void *arg);

/*
 * softint_disestablish - end a soft interrupt, on all CPUs
 *
 * It waits for its handler, if that runs. Stops where the thread mustn't sleep.
 */
void softint_disestablish(void *cookie);

/* softint_schedule - have its handler run once on this CPU. Nothing changes if it is scheduled there already. */
void softint_schedule(void *cookie);

/* kupaldiz_splraise - raise the CPU's level to at least this one, and keep the CPU, until splx. Returns the level before. */
int kupaldiz_splraise(int level);

/* splx - lower the CPU's level to this one. Stops where that is below the level of a spin lock that the thread has. */
void splx(int level);

/* spl0 - set the CPU's level to the lowest. Stops where splx does. */
#define spl0()		splx(IPL_NONE)

/* splsoftclock, splsoftbio, splsoftnet, splsoftserial, splvm, splnet, splbio, spltty, splclock, splserial, splsched, splhigh, splraiseipl - the same as
 * kupaldiz_splraise, with the level of the call's name: IPL_NET for splnet. The last one takes what makeiplcookie has made of a level. */
#define splsoftclock()	kupaldiz_splraise(IPL_SOFTCLOCK)
#define splsoftbio()	kupaldiz_splraise(IPL_SOFTBIO)
#define splsoftnet()	kupaldiz_splraise(IPL_SOFTNET)
#define splsoftserial()	kupaldiz_splraise(IPL_SOFTSERIAL)
#define splvm()		kupaldiz_splraise(IPL_VM)
#define splnet()	kupaldiz_splraise(IPL_NET)
#define splbio()	kupaldiz_splraise(IPL_BIO)
#define spltty()	kupaldiz_splraise(IPL_TTY)
#define splclock()	kupaldiz_splraise(IPL_CLOCK)
#define splserial()	kupaldiz_splraise(IPL_SERIAL)
#define splsched()	kupaldiz_splraise(IPL_SCHED)
#define splhigh()	kupaldiz_splraise(IPL_HIGH)
#define splraiseipl(cookie)	kupaldiz_splraise(cookie)

/* ---- xcall(9): a function on other CPUs. ---- */

typedef void (*xcfunc_t)(void *, void *);

#define XC_HIGHPRI	0x01u

/* XC_HIGHPRI_IPL - the flag XC_HIGHPRI. The level is accepted and changes nothing: the function runs at IPL_SOFTSERIAL. */
#define XC_HIGHPRI_IPL(level)	(XC_HIGHPRI | (unsigned)(level) << 4)

/*
 * xc_broadcast - have each CPU run `body(arg_a, arg_b)` once
 *
 * This thread runs it, on each CPU in turn, once no other thread of that CPU is inside a section; it has ended when the call returns. In the explorer
 * another thread runs it, as in the kernel, and it has ended when xc_wait returns. With XC_HIGHPRI it mustn't sleep. Returns what xc_wait takes. Stops
 * where the thread mustn't sleep, and where the function returns with what a handler mustn't return with.
 */
uint64_t xc_broadcast(unsigned flags, xcfunc_t body, void *arg_a, void *arg_b);

/* xc_unicast - the same on one CPU. */
uint64_t xc_unicast(unsigned flags, xcfunc_t body, void *arg_a, void *arg_b, struct cpu_info *cpu);

/* xc_wait - wait until it has run everywhere. Stops where the thread mustn't sleep. */
void xc_wait(uint64_t ticket);

/* xc_barrier - wait until each CPU has been out of its sections once. Stops where the thread mustn't sleep. */
void xc_barrier(unsigned flags);

/* ---- callout(9): a function after a time. ---- */

#define CALLOUT_MPSAFE	0x0100u
#define CALLOUT_FLAGMASK	0xff00u

/* A callout. Only the calls look into it. */
typedef struct callout {
	struct callout *c_next;
	void (*c_body)(void *);
	void *c_arg;
	int64_t c_due;		/* nanoseconds of the clock that nobody sets */
	uint32_t c_made;
	uint32_t c_state;
	uint32_t c_cpu;
} callout_t;

/* callout_init - make a callout that isn't pending. */
void callout_init(callout_t *callout, unsigned flags);

/* callout_destroy - end a callout. Stops where it is pending or runs. */
void callout_destroy(callout_t *callout);

/* callout_setfunc - set what it runs. */
void callout_setfunc(callout_t *callout, void (*body)(void *), void *arg);

/*
 * callout_reset - run `body(arg)` after so many ticks, instead of what was pending
 *
 * A tick lasts 10 milliseconds (hz is 100), and a number below 1 counts as 1. The body begins no earlier than that time after this call; nothing bounds
 * how late. It runs on the thread of this CPU's soft interrupts, at IPL_SOFTCLOCK, when such a handler can. Callouts that are due on one CPU run in
 * the order of their times, and those of one time in the order in which they were set. This CPU is the one that curcpu returns: for a thread that isn't
 * bound, the CPU that it had last, or the next one in turn if it never had any. A body that still runs on another CPU doesn't keep it from running
 * here. In the explorer the clock is virtual (kupaldiz_explorer(7)).
 */
void callout_reset(callout_t *callout, int ticks, void (*body)(void *), void *arg);

/* callout_schedule - the same, with the body and the argument that it has. */
void callout_schedule(callout_t *callout, int ticks);

/* callout_stop - end its wait, without waiting for its body, which may run. Returns whether it had expired. */
bool callout_stop(callout_t *callout);

/* callout_halt - the same, and wait for its body to end, without the lock meanwhile, which may be NULL. What its body sets meanwhile ends, too. Stops
 * where this thread doesn't have the lock, and where it has to wait and mustn't sleep. */
bool callout_halt(callout_t *callout, void *interlock);

/* callout_pending, callout_expired, callout_active, callout_invoking - whether it waits for its time; whether its time came; whether one of the two holds;
 * whether its body was called, until callout_ack or until it is set again. */
bool callout_pending(callout_t *callout);
bool callout_expired(callout_t *callout);
bool callout_active(callout_t *callout);
bool callout_invoking(callout_t *callout);

/* callout_ack - called by its body: callout_invoking is false from then on. */
void callout_ack(callout_t *callout);

#define KUPALDIZ_PLACES_OF_SOFTINT
#include <kupaldiz/places.h>

__END_DECLS
#endif
