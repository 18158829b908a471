/*
 * cpu.h - threads, and the CPUs that they run on
 *
 * A CPU is virtual, one of KUPALDIZ_CPUS. Any number of threads use them. kupaldiz_netbsd(7) says under Threads and CPUs when a thread has one, and under
 * Where a call is right who may acquire a passive reference.
 */
#ifndef KUPALDIZ_NETBSD_CPU_H
#define KUPALDIZ_NETBSD_CPU_H

#include "sys_types.h"

__BEGIN_DECLS

/* A CPU, as far as it is looked into. */
struct cpu_info {
	unsigned ci_index;
};

/* A thread. Only l_pflag, l_name and l_cpu are looked into. */
struct lwp {
	int l_pflag;
	const char *l_name;
	struct cpu_info *l_cpu;		/* where it ran last, NULL where it never did */
};
typedef struct lwp lwp_t;

/* Of l_pflag: the thread stays on its CPU; it runs soft interrupts. */
#define LP_BOUND	0x00000080
#define LP_INTR		0x00000040

static const int ncpu = KUPALDIZ_CPUS;

/* kupaldiz_curlwp, curlwp - this thread. Stops where memory runs out. */
struct lwp *kupaldiz_curlwp(void);
#define curlwp	kupaldiz_curlwp()

/* kupaldiz_cpu - the CPU with that number; NULL past the last one. */
struct cpu_info *kupaldiz_cpu(unsigned cpu);
typedef unsigned CPU_INFO_ITERATOR;

/* CPU_INFO_FOREACH - in the parentheses of a `for`: `ci` is each CPU in turn, and `place` a CPU_INFO_ITERATOR. */
#define CPU_INFO_FOREACH(place, ci)	(place) = 0; ((ci) = kupaldiz_cpu(place)) != NULL; (place)++

/*
 * kupaldiz_bind - bind this thread to the CPU with that number, as a kernel thread that was created for a CPU
 *
 * It stays bound until kupaldiz_unbind, curlwp_bindx(0) or its end. Other threads may be bound to that CPU as well.
 * Stops where there is no such CPU, where this thread is bound, and where it mustn't sleep.
 */
void kupaldiz_bind(unsigned cpu);

/*
 * kupaldiz_unbind - the thread isn't bound any more
 *
 * Stops where this thread isn't bound, mustn't sleep, or has passive references. The end of a bound thread does the same, once the destructors of its
 * keys have run. The end of any thread stops where it has passive references.
 */
void kupaldiz_unbind(void);

/*
 * curlwp_bind - bind this thread to the CPU that it has
 *
 * Where it has none, it is bound to the one with the fewest bound threads, which may not be the one that curcpu named. It waits for nobody.
 * Returns what curlwp_bindx takes: 0 where this call bound the thread, 1 where it was bound before.
 */
int curlwp_bind(void);

/*
 * curlwp_bindx - undo a curlwp_bind: with 0 the thread is free to move, with 1 it stays bound
 *
 * Stops where the thread isn't bound, and with 0 where it has passive references.
 */
void curlwp_bindx(int bound);

/* curcpu - this thread's CPU. Where the thread isn't bound it may be another one by the next call. */
struct cpu_info *curcpu(void);

/* cpu_index - the number of a CPU, from 0. */
static inline unsigned cpu_index(const struct cpu_info *cpu) { return cpu->ci_index; }

/* cpu_number - the number of this thread's CPU. */
static inline unsigned cpu_number(void) { return cpu_index(curcpu()); }

/* kpreempt_disable - keep the CPU until kpreempt_enable: no other thread of that CPU enters a section meanwhile. It nests. */
void kpreempt_disable(void);

/* kpreempt_enable - undo one kpreempt_disable. Stops where there was none. */
void kpreempt_enable(void);

/* kpreempt_disabled - whether the thread has its CPU: by kpreempt_disable, a section, a spin lock or a raised level. */
bool kpreempt_disabled(void);

/* cpu_intr_p - whether this is a hard interrupt: never, since there are none. */
static inline bool cpu_intr_p(void) { return false; }

/* cpu_softintr_p - whether this is a soft interrupt. */
bool cpu_softintr_p(void);

#define KUPALDIZ_PLACES_OF_CPU
#include <kupaldiz/places.h>

__END_DECLS
#endif
