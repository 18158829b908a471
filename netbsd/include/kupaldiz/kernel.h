/*
 * kernel.h - what kernel files use throughout: assertions, panic(9), kthread(9), kpause(9), copy(9), evcnt(9), module(9)
 *
 * What differs from the pages:
 * - An assertion is always compiled in.
 * - KTHREAD_MPSAFE changes nothing: no thread begins with the kernel lock. KTHREAD_IDLE, KTHREAD_INTR, KTHREAD_TS and the priority change nothing either.
 * - The calls of copy(9) copy within the one memory that there is. They fail with EFAULT where the user's address is NULL or below 4096.
 * - Nobody loads a module: the program calls its command, kupaldiz_NAME_modcmd.
 * - A tick lasts 10 milliseconds: hz is 100. A test may change it, by kupaldiz_set_hz.
 * - The kernel lock is like an adaptive mutex that nests: KERNEL_LOCK stops where mutex_enter does. Flags such as SOFTINT_MPSAFE don't take it.
 */
#ifndef KUPALDIZ_NETBSD_KERNEL_H
#define KUPALDIZ_NETBSD_KERNEL_H

#include "cpu.h"
#include "locks.h"

__BEGIN_DECLS

/* panic - end the process by abort(3), after one line on standard error. */
void panic(const char *format, ...) __attribute__((noreturn, format(printf, 1, 2)));

/* kupaldiz_failed - what an assertion ends with. */
void kupaldiz_failed(const char *what, const char *text, const char *place) __attribute__((noreturn));
void kupaldiz_failed_with(const char *place, const char *text, const char *format, ...) __attribute__((noreturn, format(printf, 3, 4)));

/* KASSERT, KDASSERT, KASSERTMSG, KDASSERTMSG - stop where the condition doesn't hold; the last two print what follows it too, as printf(3) does. */
#define KASSERT(condition) \
	((condition) ? (void)0 : kupaldiz_failed("KASSERT", #condition, KUPALDIZ_HERE))
#define KASSERTMSG(condition, ...) \
	((condition) ? (void)0 : kupaldiz_failed_with(KUPALDIZ_HERE, #condition, __VA_ARGS__))
#define KDASSERT(condition)		KASSERT(condition)
#define KDASSERTMSG(condition, ...)	KASSERTMSG(condition, __VA_ARGS__)

/* ASSERT_SLEEPABLE, kupaldiz_assert_sleepable - stop where the thread mustn't sleep: inside a read section, in a soft interrupt, with a spin lock, and
 * with preemption disabled. */
void kupaldiz_assert_sleepable(void);
#define ASSERT_SLEEPABLE()	(kupaldiz_at(KUPALDIZ_HERE), kupaldiz_assert_sleepable())

/* kupaldiz_hz, hz - how many ticks a second has: 100, unless a test has said otherwise. */
int kupaldiz_hz(void);
#define hz	kupaldiz_hz()

/* kupaldiz_set_hz - let a second have so many ticks, so that waits and callouts of a test take less time. It is for the begin of a program, before another call
 * that counts ticks. Stops where the number isn't from 1 to 1,000,000. */
void kupaldiz_set_hz(int number);

/*
 * kupaldiz_set_strict - have stricter rules than the kernel's, or again the kernel's, which hold at first
 *
 * - By the kernel's rules a thread may sleep at a raised level: it gives the level and its CPU up meanwhile, and has both again afterwards. By the stricter ones
 *   a call that may sleep stops there.
 * - By the kernel's rules a soft interrupt may wait for a mutex of IPL_NONE. By the stricter ones mutex_enter of it stops there.
 * - By the kernel's rules a read section is at IPL_SOFTSERIAL, so no soft interrupt of its CPU runs inside. By the stricter ones they run.
 *
 * It is for a time when no thread is in a section or at a raised level.
 */
void kupaldiz_set_strict(bool strict);

/* Whether the kernel still starts: never. */
static const int cold = 0;

/* getuptime, time_uptime - the time of the clock that nobody sets, in seconds. The second is a word for the same. */
time_t getuptime(void);
#define time_uptime	getuptime()

/* getticks - the time of the clock that nobody sets, in ticks. It wraps around: only the difference of two is of use. */
int getticks(void);

/* delay, DELAY - wait for so many microseconds, without sleep as far as the kernel's assertions go. */
void delay(unsigned microseconds);
#define DELAY(microseconds)	delay(microseconds)

/* kpause - sleep for so many ticks, without the lock meanwhile, which may be NULL. Returns EWOULDBLOCK. In the explorer a signal may end it if it is
 * interruptible, and it returns EINTR. Stops where the thread mustn't sleep. */
int kpause(const char *name, bool interruptible, int ticks, kmutex_t *mutex);

/* The priorities of tsleep(9), which change nothing. PRI_NONE is none of them: it has the bits of the next two. */
enum { PVM = 4, PRIBIO = 16, PZERO = 22, PSOCK = 24, PWAIT = 32 };

/* PCATCH, PNORELOCK - of a priority: a signal may end the sleep, as in the explorer; the lock isn't taken again. */
#define PCATCH		0x100
#define PNORELOCK	0x200

/* tsleep, mtsleep - sleep until a wakeup with the same address, for so many ticks at most, 0 for ever; the second without the lock meanwhile. Return 0 where
 * it came, EWOULDBLOCK after the time, and in the explorer EINTR. Stop where the thread mustn't sleep. */
int tsleep(const void *ident, pri_t priority, const char *name, int ticks);
int mtsleep(const void *ident, pri_t priority, const char *name, int ticks, kmutex_t *mutex);

/* wakeup - wake all that sleep with that address. */
void wakeup(const void *ident);

/* ---- The kernel lock. It nests, and a call that sleeps gives it up meanwhile. ---- */

/* kupaldiz_kernel_lock, KERNEL_LOCK - take it so many times more. Stops where mutex_enter does. */
void kupaldiz_kernel_lock(int count);
#define KERNEL_LOCK(count, lwp)	((void)(lwp), kupaldiz_kernel_lock(count))

/* kupaldiz_kernel_unlock, KERNEL_UNLOCK_ONE, KERNEL_UNLOCK_LAST, KERNEL_UNLOCK_ALL - give it back once; once, for the last time; or as often as the thread has it,
 * which is written to `count`. Stop where the thread has it less often, or the last of all isn't the last. */
void kupaldiz_kernel_unlock(int count, int *held);
#define KERNEL_UNLOCK_ONE(lwp)	((void)(lwp), kupaldiz_kernel_unlock(1, NULL))
#define KERNEL_UNLOCK_LAST(lwp)	((void)(lwp), kupaldiz_kernel_unlock(-1, NULL))
#define KERNEL_UNLOCK_ALL(lwp, count)	((void)(lwp), kupaldiz_kernel_unlock(0, count))

/* kupaldiz_kernel_locked, KERNEL_LOCKED_P - whether this thread has it. */
bool kupaldiz_kernel_locked(void);
#define KERNEL_LOCKED_P()	kupaldiz_kernel_locked()

#ifdef NET_MPSAFE
#define KUPALDIZ_UNLESS_NET_MPSAFE(call)	((void)0)
#else
#define KUPALDIZ_UNLESS_NET_MPSAFE(call)	call
#endif

/* KERNEL_LOCK_UNLESS_NET_MPSAFE, KERNEL_UNLOCK_UNLESS_NET_MPSAFE - take it once, give it back once; nothing in a file that is compiled with NET_MPSAFE. */
#define KERNEL_LOCK_UNLESS_NET_MPSAFE()		KUPALDIZ_UNLESS_NET_MPSAFE(KERNEL_LOCK(1, NULL))
#define KERNEL_UNLOCK_UNLESS_NET_MPSAFE()	KUPALDIZ_UNLESS_NET_MPSAFE(KERNEL_UNLOCK_ONE(NULL))

/* kupaldiz_softnet, softnet_lock - the lock of the network's code. */
kmutex_t *kupaldiz_softnet(void);
#define softnet_lock	kupaldiz_softnet()

/* ---- once(9) ---- */

typedef struct {
	int o_status, o_error;
} once_t;

/* ONCE_DECL - what RUN_ONCE looks at, static or in zeroed memory. */
#define ONCE_DECL(once)	once_t once

/* kupaldiz_run_once, RUN_ONCE - call the function if nobody has; else wait until it has returned. Returns what it has returned, to all. Stops where the thread
 * mustn't sleep. */
int kupaldiz_run_once(once_t *once, int (*body)(void));
#define RUN_ONCE(once, body)	kupaldiz_run_once(once, body)

/* ---- kthread(9) ---- */

/* Priorities, the lowest first: of user threads, of the kernel's, and of those in real time. They change nothing. */
#define PRI_NONE	(-1)
#define PRI_USER	0
#define PRI_IDLE	PRI_USER
#define PRI_KERNEL	64
#define PRI_KTHREAD	96
#define PRI_BIO		111
#define PRI_IOFLUSH	115
#define PRI_VM		119
#define PRI_PGDAEMON	123
#define PRI_XCALL	127
#define PRI_USER_RT	128
#define PRI_KERNEL_RT	192
#define PRI_SOFTCLOCK	211
#define PRI_SOFTBIO	215
#define PRI_SOFTNET	219
#define PRI_SOFTSERIAL	223
#define PRI_COUNT	224

#define KTHREAD_IDLE	0x01
#define KTHREAD_MPSAFE	0x02
#define KTHREAD_INTR	0x04
#define KTHREAD_TS	0x08
#define KTHREAD_MUSTJOIN	0x10

/* kthread_create - a thread that runs `body(arg)`, bound to `cpu` where that isn't NULL. Returns 0 or an errno; the thread is written to `made`. Stops
 * where the thread mustn't sleep, and where the body returns: it ends by kthread_exit. */
int kthread_create(pri_t priority, int flags, struct cpu_info *cpu, void (*body)(void *), void *arg, lwp_t **made, const char *format, ...) __attribute__((format(printf, 7, 8)));

/* kthread_exit - end this thread. Stops where kthread_create didn't make it. */
void kthread_exit(int code) __attribute__((noreturn));

/* kthread_join - wait until a thread that was made with KTHREAD_MUSTJOIN has ended. Stops where it was made otherwise, and where the thread mustn't sleep. */
int kthread_join(lwp_t *thread);

/* ---- copy(9) ---- */

/* copyin, copyout - copy from or to the user's memory. Return 0 or EFAULT. Stop where the thread mustn't sleep. */
int copyin(const void *user, void *kernel, size_t length);
int copyout(const void *kernel, void *user, size_t length);

/* copyinstr, copyoutstr - the same of a text of at most `length` bytes with its zero; ENAMETOOLONG beyond. `copied` may be NULL. */
int copyinstr(const void *user, void *kernel, size_t length, size_t *copied);
int copyoutstr(const void *kernel, void *user, size_t length, size_t *copied);

#define KUPALDIZ_PLACES_OF_KERNEL
#include <kupaldiz/places.h>

/* ---- evcnt(9): counters with names. They are attached by being used. ---- */

#define EVCNT_TYPE_MISC	0
#define EVCNT_TYPE_INTR	1
#define EVCNT_TYPE_TRAP	2

struct evcnt {
	uint64_t ev_count;
	unsigned char ev_type;
	const struct evcnt *ev_parent;
	const char *ev_group;
	const char *ev_name;
};

/* EVCNT_INITIALIZER - for a counter that is initialised where it is declared: 0, with its names, which aren't copied. */
#define EVCNT_INITIALIZER(type, parent, group, name)	{ 0, type, parent, group, name }

/* EVCNT_ATTACH_STATIC, EVCNT_ATTACH_STATIC2 - nothing, outside of functions: a counter that was initialised has its names. */
#define EVCNT_ATTACH_STATIC(counter)
#define EVCNT_ATTACH_STATIC2(counters, place)

/* evcnt_attach_dynamic - a counter of 0 with its names, which aren't copied. */
static inline void evcnt_attach_dynamic(struct evcnt *counter, int type, const struct evcnt *parent, const char *group, const char *name)
{
	counter->ev_count = 0;
	counter->ev_type = (unsigned char)type;
	counter->ev_parent = parent;
	counter->ev_group = group;
	counter->ev_name = name;
}

/* evcnt_attach_static - nothing: a counter that was initialised has its names. */
static inline void evcnt_attach_static(struct evcnt *counter) { (void)counter; }

/* evcnt_detach - it has no name any more. */
static inline void evcnt_detach(struct evcnt *counter) { counter->ev_name = NULL; }

/* ---- module(9) ---- */

typedef enum {
	MODULE_CMD_INIT,
	MODULE_CMD_FINI,
	MODULE_CMD_STAT,
	MODULE_CMD_AUTOUNLOAD
} modcmd_t;

typedef enum {
	MODULE_CLASS_ANY,
	MODULE_CLASS_MISC,
	MODULE_CLASS_VFS,
	MODULE_CLASS_DRIVER,
	MODULE_CLASS_EXEC,
	MODULE_CLASS_SECMODEL
} modclass_t;

/* MODULE - this file is the module `name`: its command, NAME_modcmd, is kupaldiz_NAME_modcmd for the program. */
#define MODULE(class_of, name, required) \
	static int name##_modcmd(modcmd_t, void *); \
	int kupaldiz_##name##_modcmd(modcmd_t command, void *opaque); \
	int kupaldiz_##name##_modcmd(modcmd_t command, void *opaque) \
	{ \
		return name##_modcmd(command, opaque); \
	} \
	extern int kupaldiz_##name##_modcmd(modcmd_t command, void *opaque)

__END_DECLS
#endif
