/*
 * threads - the memory and the CPU that a thread gets; its end: joins, destructors that still give something back, and cancellation; locks that go with
 * their object, or are passed. The linker leads pthread_mutex_unlock here (--wrap).
 */
#include <limits.h>

#include "test.h"
#include "asleep.h"

#include "wraps.h"
#include "things.h"

#include "src/layer.h"

/* A thread that has just begun ran nowhere, and isn't bound, though it has the memory of one that was. */
static void *be_bound(void *kept)
{
	const lwp_t *lwp = curlwp;
	EXPECT(lwp == curlwp && lwp->l_cpu == NULL && lwp->l_pflag == 0 && lwp->l_name[0] == '\0');
	EXPECT(cpu_number() < KUPALDIZ_CPUS && lwp->l_cpu == curcpu());
	kupaldiz_bind(3);
	EXPECT((lwp->l_pflag & LP_BOUND) != 0 && cpu_number() == 3);
	*(const lwp_t **)kept = lwp;
	return kept;
}

/* What the layer kept of a thread that ended bound. */
static const lwp_t *run_bound(void)
{
	pthread_t thread;
	const lwp_t *kept = NULL;
	start_thread(&thread, be_bound, &kept);
	end_thread(thread);
	return kept;
}

HANDLER(have_nothing, kthread_exit(0))

/* The memory of a thread that has ended is the next one's, and that of kthread_create's once it was joined. */
static void test_memory(void)
{
	lwp_t *worker;
	const lwp_t *kept = run_bound();
	EXPECT(kept != curlwp && run_bound() == kept);
	EXPECT(kthread_create(PRI_NONE, KTHREAD_MUSTJOIN, NULL, have_nothing, NULL, &worker, "worker") == 0 && worker == kept);
	EXPECT(kthread_join(worker) == 0);
	EXPECT(run_bound() == kept && run_bound() == kept);
}

/* Made after the layer's: its destructor runs after that in each round. */
static pthread_key_t latest;
static bool is_over;

/* The layer keeps nothing of a thread that has ended, so no destructor calls it again: the memory may be another one's by then. */
static void judge_end(void *of)
{
	static unsigned rounds;
	if (++rounds < LAST_ROUND)
		EXPECT(pthread_setspecific(latest, of) == 0);
	else
		is_over = kupaldiz_self == NULL;
}

THREAD(end_late, EXPECT(pthread_setspecific(latest, curlwp) == 0))

static void test_end(void)
{
	pthread_t thread;
	EXPECT(pthread_key_create(&latest, judge_end) == 0);
	start_thread(&thread, end_late, NULL);
	end_thread(thread);
	EXPECT(is_over);
}

static _Atomic(lwp_t *) itself;

HANDLER(tell_itself, atomic_store(&itself, curlwp); kthread_exit(0))

static void *join_it(void *arg)
{
	while (atomic_load(&itself) == NULL)
		sleep_for(50);
	EXPECT(kthread_join(atomic_load(&itself)) == 0);
	return arg;
}

static void join_beside(void) { pthread_t thread; start_thread(&thread, join_it, NULL); end_thread(thread); }

/* The thread says who it is, and another one joins it before the call is over that made it. */
static void test_joined_early(void)
{
	lwp_t *worker = NULL;
	after = join_beside;
	EXPECT(kthread_create(PRI_NONE, KTHREAD_MUSTJOIN, NULL, tell_itself, NULL, &worker, "worker") == 0 && after == NULL);
	EXPECT(worker == atomic_load(&itself));
}

static kmutex_t own_lock;
static krwlock_t rw;
static kcondvar_t own_cv;
static pthread_key_t early, late;	/* made before the layer's, and after it */
static atomic_uint given_back;
static atomic_bool ready, over;

/* A thread's own: a reference, and a section. */
struct own {
	struct psref psref;
	int section;
	unsigned rounds;	/* of destructors before the one that gives it back */
	pthread_key_t key;
};

static void give_back(void *of)
{
	struct own *own = of;
	if (own->rounds-- > 0) {
		EXPECT(pthread_setspecific(own->key, own) == 0);
		return;
	}
	if (own->section >= 0)
		pserialize_read_exit(own->section);
	psref_release(&own->psref, &target, things);
	free(own);
	atomic_fetch_add(&given_back, 1);
}

/* Ends with a reference, inside a section or not, that a destructor gives back: of a key that was made before the layer's or after it. */
static void *end_with(void *of)
{
	unsigned turn = *(unsigned *)of;
	struct own *own = calloc(1, sizeof(*own));
	EXPECT(own != NULL);
	own->key = turn % 2 == 0 ? early : late;
	own->rounds = turn < 8 ? 0 : turn % 2 == 0 ? 2 : 1;
	EXPECT(pthread_setspecific(own->key, own) == 0);
	kupaldiz_bind(turn % KUPALDIZ_CPUS);
	psref_acquire(&own->psref, &target, things);
	own->section = turn % 4 < 2 ? pserialize_read_enter() : -1;
	return NULL;
}

static void test_destructors(void)
{
	pthread_t thread;
	for (unsigned turn = 0; turn < 16; turn++) {
		start_thread(&thread, end_with, &turn);
		end_thread(thread);
		EXPECT(atomic_load(&given_back) == turn + 1);
	}
}

/* ---- Cancellation, in each call that waits: a thread that was cancelled ends where it waits first, unless the call keeps that off. ---- */

static void *hold_all(void *arg)
{
	struct psref psref;
	kupaldiz_bind(5);
	psref_acquire(&psref, &target, things);
	localcount_acquire(&count);
	rw_enter(&rw, RW_WRITER);
	mutex_enter(&lock);
	int s = pserialize_read_enter();
	atomic_store(&ready, true);
	await_flag(&over);
	pserialize_read_exit(s);
	mutex_enter(&own_lock);
	cv_broadcast(&own_cv);
	mutex_exit(&own_lock);
	mutex_exit(&lock);
	rw_exit(&rw);
	localcount_release(&count, &cv, &lock);
	psref_release(&psref, &target, things);
	return arg;
}

/* A call that waits. */
#define IN(name, ...) \
	static void in_##name(void) { __VA_ARGS__; } \
	__attribute__((constructor)) static void add_##name(void) { waits[wait_count++] = in_##name; }

enum { MOST_WAITS = 20 };

static void (*waits[MOST_WAITS])(void);
static unsigned wait_count;
static atomic_bool runs;

/* Without a sleep, at which the thread would end. */
static void await_runs(void) { while (!atomic_load(&runs)) { } }
static void await_over(void) { atomic_store(&runs, true); await_flag(&over); }
static void add_one(void *count_of, void *other) { (void)other; ++*(unsigned *)count_of; }
HANDLER(run_until_over, await_over())
HANDLER(exit_when_over, await_over(); kthread_exit(0))

IN(perform, pserialize_perform(psz))
IN(destroy, psref_target_destroy(&target, things); psref_target_init(&target, things))
IN(drain, drain(&count); localcount_fini(&count); localcount_init(&count))
IN(mutex, mutex_enter(&lock); mutex_exit(&lock))
IN(rwlock, rw_enter(&rw, RW_READER); rw_exit(&rw))
/* The holder's broadcast wakes it. */
IN(cv_wait, mutex_enter(&own_lock); while (!atomic_load(&over)) cv_wait(&own_cv, &own_lock); mutex_exit(&own_lock))
IN(cv_timedwait,
    mutex_enter(&own_lock); while (!atomic_load(&over)) EXPECT(cv_timedwait(&own_cv, &own_lock, INT_MAX) == 0); mutex_exit(&own_lock))
IN(section, curlwp_bindx(curlwp_bind()); kupaldiz_bind(5); pserialize_read_exit(pserialize_read_enter()))
IN(percpu, percpu_t *percpu = percpu_alloc(8); kupaldiz_bind(5); (void)percpu_getref(percpu); percpu_putref(percpu); percpu_free(percpu, 8))
IN(barrier, xc_barrier(0))
IN(broadcast, unsigned calls = 0; xc_wait(xc_broadcast(0, add_one, &calls, NULL)); xc_wait(xc_broadcast(XC_HIGHPRI, add_one, &calls, NULL));
    EXPECT(calls == 2 * KUPALDIZ_CPUS))
/* It lasts: a tick is ten milliseconds. */
IN(kpause, while (!atomic_load(&over)) EXPECT(kpause("wait", false, 1, NULL) == EWOULDBLOCK))
IN(join, lwp_t *worker; EXPECT(kthread_create(PRI_NONE, KTHREAD_MUSTJOIN, NULL, exit_when_over, NULL, &worker, "worker") == 0);
    EXPECT(kthread_join(worker) == 0))
/* The first soft interrupt of a CPU, whose thread begins then. */
IN(softint, void *cookie = softint_establish(SOFTINT_NET, run_until_over, NULL); kupaldiz_bind(4); softint_schedule(cookie); await_runs();
    softint_disestablish(cookie))
IN(callout, static callout_t callout; kupaldiz_bind(4); callout_init(&callout, CALLOUT_MPSAFE); callout_reset(&callout, 1, run_until_over, NULL); await_runs();
    callout_halt(&callout, NULL); callout_destroy(&callout))

static atomic_int waiter_id;	/* the system's */

/* Makes one of the calls once it was cancelled: the call ends as without, and then the thread does. */
static void *wait_in(void *of)
{
	EXPECT(curlwp == &kupaldiz_self->lwp);
	atomic_store(&waiter_id, kupaldiz_self->id);
	EXPECT(pthread_cancel(pthread_self()) == 0);
	(*(void (**)(void))of)();
	atomic_fetch_add(&given_back, 1);
	pthread_testcancel();
	return NULL;
}

static void test_cancelled(void (**wait)(void))
{
	pthread_t holder, waiter;
	void *answer;
	unsigned before = atomic_load(&given_back);
	atomic_store(&ready, false);
	atomic_store(&over, false);
	atomic_store(&runs, false);
	atomic_store(&waiter_id, 0);
	start_thread(&holder, hold_all, NULL);
	await_flag(&ready);
	start_thread(&waiter, wait_in, wait);
	await_asleep(&waiter_id, &over);
	EXPECT(atomic_load(&given_back) == before);
	atomic_store(&over, true);
	EXPECT(pthread_join(waiter, &answer) == 0 && answer == PTHREAD_CANCELED);
	EXPECT(atomic_load(&given_back) == before + 1);
	end_thread(holder);
	/* Nothing stayed taken. */
	mutex_enter(&lock);
	pserialize_perform(psz);
	mutex_exit(&lock);
	rw_enter(&rw, RW_WRITER);
	rw_exit(&rw);
	pserialize_read_exit(pserialize_read_enter());
}

static bool is_waited_for(const kmutex_t *mutex) { return (__atomic_load_n(&mutex->mtx_word, __ATOMIC_RELAXED) & 1) != 0; }

static atomic_bool gone;

/* Waits for the lock, and ends it: nobody else comes to it any more. */
static void *take_and_end(void *of)
{
	kmutex_t *mutex = of;
	mutex_enter(mutex);
	mutex_exit(mutex);
	mutex_destroy(mutex);
	spoil(mutex, sizeof(*mutex));
	atomic_store(&gone, true);
	return of;
}

static void await_gone(void) { await_flag(&gone); }

/* Whoever gives the lock back loses its processor at once, until the lock is gone. No level is left behind. */
static void test_gone(int level)
{
	pthread_t thread;
	kmutex_t mutex;
	atomic_store(&gone, false);
	mutex_init(&mutex, MUTEX_DEFAULT, level);
	mutex_enter(&mutex);
	start_thread(&thread, take_and_end, &mutex);
	while (!is_waited_for(&mutex))
		sleep_for(50);
	after = await_gone;
	mutex_exit(&mutex);
	EXPECT(after == NULL && atomic_load(&gone));
	end_thread(thread);
	int s = splhigh();
	EXPECT(s == IPL_NONE);
	splx(s);
}

enum { ATTEMPTS = 30, MOST_TURNS = 10 };

static atomic_bool taken;

THREAD(take, mutex_enter(arg); atomic_store(&taken, true); mutex_exit(arg))

/* Takes a lock before another thread that waits for it, as often as it can. How often that is. */
static unsigned take_before(void)
{
	kmutex_t mutex;
	pthread_t taker;
	unsigned turns = 0;
	atomic_store(&taken, false);
	mutex_init(&mutex, MUTEX_DEFAULT, IPL_NONE);
	mutex_enter(&mutex);
	start_thread(&taker, take, &mutex);
	while (!atomic_load(&taken)) {
		if (!is_waited_for(&mutex)) {
			sleep_for(50);
			continue;
		}
		mutex_exit(&mutex);
		EXPECT(turns < MOST_TURNS && !mutex_owned(&mutex));
		if (mutex_tryenter(&mutex))
			turns++;
		else
			mutex_enter(&mutex);
	}
	mutex_exit(&mutex);
	end_thread(taker);
	mutex_destroy(&mutex);
	return turns;
}

/*
 * A lock is free when it is given back, though another thread waits for it: this thread takes it
 * again, once it isn't kept from its processor just then. If others were before that one often
 * enough it is passed to it.
 */
static void test_passed(void)
{
	unsigned most = 0;
	for (unsigned attempt = 0; attempt < ATTEMPTS || most < 2; attempt++) {
		unsigned turns = take_before();
		most = turns > most ? turns : most;
	}
}

static struct keeper {
	pthread_t thread;
	atomic_bool has, ends;
} keepers[KUPALDIZ_CPUS];

static void *keep(void *of)
{
	struct keeper *keeper = of;
	kupaldiz_bind((unsigned)(keeper - keepers));
	kpreempt_disable();
	atomic_store(&keeper->has, true);
	await_flag(&keeper->ends);
	kpreempt_enable();
	return of;
}

static void keep_cpu(unsigned cpu)
{
	atomic_store(&keepers[cpu].has, false);
	atomic_store(&keepers[cpu].ends, false);
	start_thread(&keepers[cpu].thread, keep, &keepers[cpu]);
	await_flag(&keepers[cpu].has);
}

static void free_cpu(unsigned cpu) { atomic_store(&keepers[cpu].ends, true); end_thread(keepers[cpu].thread); }

static void come_from(unsigned cpu) { kupaldiz_bind(cpu); kupaldiz_unbind(); }

/* No other CPU is free or without a bound thread: a thread that waits for another one waits for ever. */
static void test_free(unsigned cpu)
{
	for (unsigned last = 0; last < KUPALDIZ_CPUS; last++) {
		come_from(last);
		int s = pserialize_read_enter();
		EXPECT(cpu_number() == cpu);
		pserialize_read_exit(s);
		come_from(last);
		int before = curlwp_bind();
		EXPECT(before == 0 && cpu_number() == cpu);
		curlwp_bindx(before);
	}
}

static atomic_bool passed;

/* None is free: a thread waits for the CPU where it was last. */
THREAD(enter_from,
    come_from(*(unsigned *)arg); kpreempt_disable(); atomic_store(&passed, true); EXPECT(cpu_number() == *(unsigned *)arg);
    kpreempt_enable())
/* A barrier waits for the one CPU that is kept, whichever it is. */
THREAD(pass, xc_barrier(0); atomic_store(&passed, true))

/* The thread waits as long as the CPU is kept. Then it is free. */
static void test_kept(unsigned cpu, void *(*body)(void *))
{
	pthread_t thread;
	atomic_store(&passed, false);
	start_thread(&thread, body, &cpu);
	sleep_for(3000);
	EXPECT(!atomic_load(&passed));
	free_cpu(cpu);
	end_thread(thread);
	EXPECT(atomic_load(&passed));
}

static void test_cpus(void)
{
	for (unsigned cpu = 0; cpu < KUPALDIZ_CPUS; cpu++) {
		keep_cpu(cpu);
		test_kept(cpu, pass);
	}
	for (unsigned cpu = 0; cpu < KUPALDIZ_CPUS; cpu++)
		keep_cpu(cpu);
	for (unsigned cpu = 0; cpu < KUPALDIZ_CPUS; cpu++) {
		test_kept(cpu, enter_from);
		test_free(cpu);
		keep_cpu(cpu);
	}
	for (unsigned cpu = 0; cpu < KUPALDIZ_CPUS; cpu++)
		free_cpu(cpu);
}

int main(void)
{
	EXPECT(pthread_key_create(&early, give_back) == 0);
	make_things(IPL_NONE);
	EXPECT(pthread_key_create(&late, give_back) == 0);
	mutex_init(&own_lock, MUTEX_DEFAULT, IPL_NONE);
	rw_init(&rw);
	cv_init(&own_cv, "cv");
	test_memory();
	test_joined_early();
	test_destructors();
	EXPECT(wait_count == 15);
	for (unsigned at = 0; at < wait_count; at++)
		test_cancelled(&waits[at]);
	test_gone(IPL_NONE);
	test_gone(IPL_VM);
	test_passed();
	test_cpus();
	test_end();
	end_things();
	puts("each thread had memory and a CPU of its own");
	return 0;
}
