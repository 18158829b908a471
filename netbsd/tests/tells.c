/*
 * tells - a wait that lasts says who it waits for, once, by one line: over a layer of little patience. What is waited for ends once the line was written: the
 * linker leads write here (--wrap), and open and clock_gettime.
 */
#include <sys/prctl.h>

#include "stops.h"

#include "wraps.h"

#include "things.h"

#include "src/layer.h"

enum { PATIENCE = 300 };	/* in milliseconds */

static kmutex_t spin;
static krwlock_t rw;
static atomic_bool ready, told;

/* From now on no wait that begins is told, however long a busy machine makes it. */
static void be_patient(void) { __atomic_store_n(&patience_milliseconds, INT64_C(1) << 32, __ATOMIC_SEQ_CST); }

ssize_t __wrap_write(int file, const void *bytes, size_t length)
{
	ssize_t written = __real_write(file, bytes, length);
	be_patient();
	atomic_store(&told, true);
	return written;
}

/* Whether the wait that this thread begins next is the only one that is told. */
static _Thread_local bool tells_next;

WRAP(int, clock_gettime, clockid_t clock, struct timespec *time);
int __wrap_clock_gettime(clockid_t clock, struct timespec *time)
{
	if (tells_next)
		be_patient();
	tells_next = false;
	return __real_clock_gettime(clock, time);
}

static int64_t milliseconds(void)
{
	struct timespec now;
	EXPECT(clock_gettime(CLOCK_MONOTONIC, &now) == 0);
	return (int64_t)now.tv_sec * 1000 + now.tv_nsec / 1000000;
}

/* It has it now, and keeps it until the line was written, which isn't soon, and somewhat longer: no second line follows. */
static void keep(void)
{
	int64_t began = milliseconds();
	atomic_store(&ready, true);
	await_flag(&told);
	EXPECT(milliseconds() - began >= PATIENCE);
	sleep_for(20000);
}

static void begin(void)
{
	patience_milliseconds = PATIENCE;
	make_things(IPL_NONE);
	mutex_init(&spin, MUTEX_DEFAULT, IPL_VM);
	rw_init(&rw);
}

/* Runs a body on a thread with a name, on CPU 3, until it has what another thread will wait for. */
static pthread_t hold(const char *name, void *(*body)(void *))
{
	static const char *given;
	pthread_t thread;
	given = name;
	start_thread(&thread, body, &given);
	await_flag(&ready);
	return thread;
}

/* A body that names its thread first. */
#define HOLDER(name, ...)	THREAD(name, prctl(PR_SET_NAME, *(const char **)arg); kupaldiz_bind(3); __VA_ARGS__)

/* Makes a call while such a thread has what the call waits for. */
#define BESIDE(name, body, ...)	pthread_t holder = hold(name, body); __VA_ARGS__; end_thread(holder)

static void release_count(void) { localcount_release(&count, &cv, &lock); }

#define FOR_READER	"waits for CPU 3, whose thread \"reader\" is inside a read section, entered at PLACE"

HOLDER(read_long, int s = pserialize_read_enter(); keep(); pserialize_read_exit(s))
WAITS("pserialize_perform: " FOR_READER, BESIDE("reader", read_long, pserialize_perform(psz)))
WAITS("psref_target_destroy: " FOR_READER, BESIDE("reader", read_long, psref_target_destroy(&target, things)))
WAITS("localcount_drain: " FOR_READER, BESIDE("reader", read_long, drain(&count)))
WAITS("xc_barrier: " FOR_READER, BESIDE("reader", read_long, xc_barrier(0)))
WAITS("pserialize_read_enter: " FOR_READER,
    BESIDE("reader", read_long, kupaldiz_bind(3); int s = pserialize_read_enter(); pserialize_read_exit(s)))
/* What the function calls isn't what waits. */
static void look_where(void *arg, void *other) { EXPECT(arg == NULL && other == NULL && cpu_number() < KUPALDIZ_CPUS); }
WAITS("xc_broadcast: " FOR_READER, BESIDE("reader", read_long, xc_wait(xc_broadcast(0, look_where, NULL, NULL))))
WAITS("xc_broadcast: " FOR_READER, BESIDE("reader", read_long, xc_wait(xc_broadcast(XC_HIGHPRI, look_where, NULL, NULL))))
static struct psref first, second;

HOLDER(refer_long, psref_acquire(&first, &target, things); keep(); psref_release(&first, &target, things))
WAITS("psref_target_destroy: waits for CPU 3, whose thread \"bridge_input\" holds one reference, acquired at PLACE",
    BESIDE("bridge_input", refer_long, psref_target_destroy(&target, things)))
HOLDER(refer_twice,
    psref_acquire(&first, &target, things); psref_copy(&second, &first, things); keep(); psref_release(&first, &target, things);
    psref_release(&second, &target, things))
WAITS("psref_target_destroy: waits for CPU 3, whose thread \"bridge_output\" holds 2 references, one of them acquired at PLACE",
    BESIDE("bridge_output", refer_twice, psref_target_destroy(&target, things)))

HOLDER(count_long, localcount_acquire(&count); keep(); release_count())
WAITS("localcount_drain: waits for 1 reference, acquired at PLACE", BESIDE("open", count_long, drain(&count)))
HOLDER(count_twice, localcount_acquire(&count); localcount_acquire(&count); keep(); release_count(); release_count())
WAITS("localcount_drain: waits for 2 references, one of them acquired at PLACE", BESIDE("open", count_twice, drain(&count)))
HOLDER(lock_long, mutex_enter(&lock); keep(); mutex_exit(&lock))
WAITS("mutex_enter: waits for the lock that thread \"detach\" took at PLACE", BESIDE("detach", lock_long, mutex_enter(&lock); mutex_exit(&lock)))
HOLDER(write_long, rw_enter(&rw, RW_WRITER); keep(); rw_exit(&rw))
WAITS("rw_enter: waits for the lock that thread \"writer\" took as a writer at PLACE",
    BESIDE("writer", write_long, rw_enter(&rw, RW_READER); rw_exit(&rw)))
HOLDER(share_long, rw_enter(&rw, RW_READER); keep(); rw_exit(&rw))
WAITS("rw_enter: waits for 1 readers, the last of which took the lock at PLACE",
    BESIDE("sharer", share_long, rw_enter(&rw, RW_WRITER); rw_exit(&rw)))
/* Takes the lock twice, at two places that hide_places leaves as they are. */
HOLDER(share_twice,
    kupaldiz_at("the first call"); (rw_enter)(&rw, RW_READER); kupaldiz_at("the second call"); EXPECT((rw_tryenter)(&rw, RW_READER)); keep();
    rw_exit(&rw); rw_exit(&rw))
WAITS("rw_enter: waits for 2 readers, the last of which took the lock at the second call",
    BESIDE("sharer", share_twice, rw_enter(&rw, RW_WRITER); rw_exit(&rw)))
/* The lock spins, and this thread has a CPU of its own meanwhile. */
HOLDER(spin_long, mutex_enter(&spin); keep(); mutex_exit(&spin))
WAITS("mutex_spin_enter: waits for the lock that thread \"spinner\" took at PLACE",
    BESIDE("spinner", spin_long, kupaldiz_bind(4); mutex_spin_enter(&spin); mutex_spin_exit(&spin)))

/* The CPU is another thread's, which has raised its level. */
HOLDER(raise_long, pserialize_read_exit(pserialize_read_enter()); int s = splnet(); keep(); splx(s))
WAITS("percpu_getref: waits for CPU 3, whose thread \"raised\" keeps it",
    BESIDE("raised", raise_long, percpu_t *percpu = percpu_alloc(8); kupaldiz_bind(3); (void)percpu_getref(percpu); percpu_putref(percpu);
	percpu_free(percpu, 8)))
HANDLER(handle_long, keep())
WAITS("softint_disestablish: waits for its handler",
    void *cookie = softint_establish(SOFTINT_NET, handle_long, NULL); softint_schedule(cookie); await_flag(&ready); softint_disestablish(cookie))
static callout_t callout;
WAITS("callout_halt: waits for CPU 4, which runs it",
    kupaldiz_bind(4); callout_init(&callout, CALLOUT_MPSAFE); callout_reset(&callout, 1, handle_long, NULL); kupaldiz_unbind(); await_flag(&ready);
    callout_halt(&callout, NULL))
HANDLER(exit_after_long, keep(); kthread_exit(0))
WAITS("kthread_join: waits for thread \"worker\" to end",
    lwp_t *worker; EXPECT(kthread_create(PRI_NONE, KTHREAD_MUSTJOIN, NULL, exit_after_long, NULL, &worker, "worker") == 0);
    await_flag(&ready); EXPECT(kthread_join(worker) == 0))

/* ---- How psref_target_destroy finds the reference that it waits for, in the tables of CPUs that other threads have. ---- */

enum { LAST = KUPALDIZ_CPUS - 1 };

static unsigned looked_at = KUPALDIZ_CPUS;	/* the CPU in whose table the thread is that is asked for its name, if that is known */

static bool has_cpu(unsigned cpu) { return lock_owner(&cpus[cpu].hold) == kupaldiz_self; }

/* The system has a thread's name in a file. Nobody else has the CPU whose table the thread was found in. */
int __wrap_open(const char *path, int how, ...)
{
	EXPECT(looked_at == KUPALDIZ_CPUS || has_cpu(looked_at));
	return __real_open(path, how);
}

/* A thread on a CPU. It may have a reference to the target; and until the line is there its CPU: now and then, or always. */
struct holder {
	const char *name;
	unsigned cpu;
	bool refers;
	enum { FREES, LETS_GO, KEEPS } cpu_is;
	pthread_t thread;
	atomic_bool holds;
};

static struct psref_target next;

/* Has the CPU for a while, or until the line is there. */
static void have_cpu(struct holder *holder)
{
	kpreempt_disable();
	atomic_store(&holder->holds, true);
	do
		sleep_for(8000);
	while (holder->cpu_is == KEEPS && !atomic_load(&told));
	/* Nobody took the CPU away meanwhile. */
	EXPECT(has_cpu(holder->cpu));
	kpreempt_enable();
}

/* A reference to another target is none. */
static void *hold_one(void *of)
{
	struct holder *holder = of;
	struct psref other, held;
	prctl(PR_SET_NAME, holder->name);
	kupaldiz_bind(holder->cpu);
	psref_acquire(&other, &next, things);
	if (holder->refers)
		psref_acquire(&held, &target, things);
	while (holder->cpu_is != FREES && !atomic_load(&told)) {
		have_cpu(holder);
		sleep_for(2000);
	}
	atomic_store(&holder->holds, true);
	await_flag(&told);
	if (holder->refers)
		psref_release(&held, &target, things);
	psref_release(&other, &next, things);
	return of;
}

/*
 * The first wait of the destroy is that for references. Those for CPUs come later, and are told
 * only of one that is kept.
 */
static void destroy_beside(struct holder *holders, unsigned all)
{
	psref_target_init(&next, things);
	for (unsigned at = 0; at < all; at++) {
		start_thread(&holders[at].thread, hold_one, &holders[at]);
		await_flag(&holders[at].holds);
	}
	tells_next = holders->cpu_is != KEEPS;
	psref_target_destroy(&target, things);
	for (unsigned at = 0; at < all; at++)
		end_thread(holders[at].thread);
}

#define HOLDERS(...) \
	struct holder holders[] = {__VA_ARGS__}; \
	destroy_beside(holders, sizeof(holders) / sizeof(holders[0]))
#define HOLDS_ONE(cpu, name)	"psref_target_destroy: waits for CPU " cpu ", whose thread \"" name "\" holds one reference, acquired at PLACE"

WAITS(HOLDS_ONE("0", "first"), looked_at = 0; HOLDERS({.name = "first", .cpu = 0, .refers = true}))
/* What another thread has with the same CPU isn't its own. */
WAITS(HOLDS_ONE("2", "one"), HOLDERS({.name = "one", .cpu = 2, .refers = true}, {.name = "two", .cpu = 2, .refers = true}))
/* The one who has none doesn't matter. */
static char of_last[160];
WAITS(of_last, looked_at = LAST; HOLDERS({.name = "none", .cpu = 0}, {.name = "last", .cpu = LAST, .refers = true}))
/* A CPU is another thread's all the time. The line about references isn't due any more then. */
WAITS("psref_target_destroy: waits for CPU 3, whose thread \"kept\" keeps it", HOLDERS({.name = "kept", .cpu = 3, .cpu_is = KEEPS}))
/* The CPU is free now and then. */
WAITS(HOLDS_ONE("3", "lets_go"), looked_at = 3; HOLDERS({.name = "lets_go", .cpu = 3, .refers = true, .cpu_is = LETS_GO}))
/* What is over two CPUs is told once. */
WAITS(HOLDS_ONE("1", "one"), HOLDERS({.name = "one", .cpu = 1, .refers = true}, {.name = "two", .cpu = 2, .refers = true}))

int main(void)
{
	snprintf(of_last, sizeof(of_last), HOLDS_ONE("%d", "last"), LAST);
	return run_cases(begin);
}
