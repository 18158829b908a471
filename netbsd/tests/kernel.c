/* kernel - the calls beside the three pages. It is compiled as a driver's file is, and the explorer runs it too: explorer/tests/named.c. */
#include <sys/param.h>
#include <sys/atomic.h>
#include <sys/container_of.h>

#include <net/net_stats.h>

#include "test.h"
#include "things.h"

static int level_now(void) { return splraiseipl(makeiplcookie(IPL_NONE)); }

/* Each name raises the level to its own, and splx lowers it again. */
#define TEST_LEVEL(raise, level)	test_level(raise(), level)

static void test_level(int before, int level)
{
	EXPECT(before == IPL_NONE && level_now() == level && kpreempt_disabled());
	splx(before);
	EXPECT(level_now() == IPL_NONE && !kpreempt_disabled());
}

static void test_levels(void)
{
	const ipl_cookie_t cookie = makeiplcookie(IPL_SOFTSERIAL);
	int s;
	TEST_LEVEL(splsoftclock, IPL_SOFTCLOCK);
	TEST_LEVEL(splsoftbio, IPL_SOFTBIO);
	TEST_LEVEL(splsoftnet, IPL_SOFTNET);
	TEST_LEVEL(splsoftserial, IPL_SOFTSERIAL);
	TEST_LEVEL(splvm, IPL_VM);
	TEST_LEVEL(splnet, IPL_NET);
	TEST_LEVEL(splbio, IPL_BIO);
	TEST_LEVEL(spltty, IPL_TTY);
	TEST_LEVEL(splclock, IPL_CLOCK);
	TEST_LEVEL(splsched, IPL_SCHED);
	TEST_LEVEL(splserial, IPL_SERIAL);
	TEST_LEVEL(splhigh, IPL_HIGH);
	s = splraiseipl(cookie);
	EXPECT(s == IPL_NONE && level_now() == IPL_SOFTSERIAL && splvm() == IPL_SOFTSERIAL);
	spl0();
	EXPECT(level_now() == IPL_NONE && !kpreempt_disabled() && !cpu_intr_p());
	EXPECT((SOFTINT_BIO | SOFTINT_MPSAFE) != SOFTINT_BIO && (SOFTINT_SERIAL & SOFTINT_LVLMASK) == SOFTINT_SERIAL);
}

static void test_mutexes(void)
{
	static const struct {
		kmutex_type_t type;
		int level, raised;
	} each[] = {{MUTEX_DEFAULT, IPL_NONE, IPL_NONE}, {MUTEX_DEFAULT, IPL_SOFTSERIAL, IPL_NONE}, {MUTEX_DEFAULT, IPL_VM, IPL_VM},
	    {MUTEX_DEFAULT, IPL_HIGH, IPL_HIGH}, {MUTEX_DRIVER, IPL_SOFTBIO, IPL_NONE}, {MUTEX_DRIVER, IPL_BIO, IPL_BIO},
	    {MUTEX_ADAPTIVE, IPL_NONE, IPL_NONE}, {MUTEX_NODEBUG, IPL_SCHED, IPL_SCHED}, {MUTEX_SPIN, IPL_NONE, IPL_VM},
	    {MUTEX_SPIN, IPL_SOFTNET, IPL_SOFTNET}};
	for (unsigned at = 0; at < __arraycount(each); at++) {
		mutex_init(&lock, each[at].type, each[at].level);
		EXPECT(mutex_tryenter(&lock) == 1 && mutex_owned(&lock) && kpreempt_disabled() == (each[at].raised != IPL_NONE) && level_now() == each[at].raised);
		mutex_exit(&lock);
		EXPECT(!kpreempt_disabled());
		mutex_destroy(&lock);
	}
}

/* ---- kmem(9), pool(9), pool_cache(9). ---- */

enum { BLOCK = 200 };

/* A block of zeros, over bytes that may be any, which are left to the next one. */
static void *dirtied(unsigned char *block)
{
	for (unsigned at = 0; at < BLOCK; at++)
		EXPECT(block[at] == 0);
	return memset(block, 0xa5, BLOCK);
}

static void test_zeros(void)
{
	struct pool pool;
	pool_init(&pool, BLOCK, 8, 0, 0, "zeropl", NULL, IPL_NONE);
	for (unsigned turn = 0; turn < 3; turn++) {
		kmem_free(dirtied(kmem_zalloc(BLOCK, KM_SLEEP)), BLOCK);
		kmem_intr_free(dirtied(kmem_intr_zalloc(BLOCK, KM_NOSLEEP)), BLOCK);
		pool_put(&pool, dirtied(pool_get(&pool, PR_WAITOK | PR_ZERO)));
	}
	pool_destroy(&pool);
}

static void test_memory(void)
{
	const km_flag_t flags = KM_SLEEP;
	size_t size = 0;
	char *text = kmem_strdup("bridge0", flags), *sized = kmem_strdupsize("bridge", &size, flags);
	EXPECT(strcmp(text, "bridge0") == 0 && size == 7 && strcmp(sized, "bridge") == 0);
	kmem_strfree(text);
	kmem_strfree(sized);
}

static int made, ended;

static int make(void *arg, void *object, int flags)
{
	EXPECT(arg == &made && (flags & PR_WAITOK) != 0);
	made++;
	*(int *)object = 5;
	return made == 3 ? ENOMEM : 0;
}

static void end(void *arg, void *object) { EXPECT(arg == &made && *(int *)object == 5); ended++; }

/* An object is constructed once, and the third one can't be. What was given back last is got first. */
static void test_cache(void)
{
	pool_cache_t cache = pool_cache_init(sizeof(int), 0, 0, 0, "intpl", NULL, IPL_NONE, make, end, &made);
	void *first = pool_cache_get(cache, PR_WAITOK), *second = pool_cache_get(cache, PR_WAITOK);
	EXPECT(first != NULL && second != NULL && pool_cache_get(cache, PR_WAITOK) == NULL);
	pool_cache_put(cache, first);
	pool_cache_put(cache, second);
	EXPECT(made == 3 && ended == 0);
	EXPECT(pool_cache_get(cache, PR_WAITOK) == second && made == 3);
	pool_cache_put(cache, second);
	pool_cache_destroy(cache);
	EXPECT(ended == 2);
}

/* With PR_PSERIALIZE a reader still looks at an object that was given back; the end of the cache waits for such readers. */
static void test_looked_at(void)
{
	static const int flags = PR_PSERIALIZE | PR_LARGECACHE | PR_NOTOUCH | PR_NOALIGN | PR_RECURSIVE;
	pool_cache_t cache = pool_cache_init(sizeof(unsigned), 0, 0, (unsigned)flags, "lookpl", NULL, IPL_NONE, NULL, NULL, NULL);
	unsigned *object = pool_cache_get(cache, PR_WAITOK | PR_LIMITFAIL);
	int s = pserialize_read_enter();
	*object = 5;
	pool_cache_put(cache, object);
	EXPECT(*object == 5);
	pserialize_read_exit(s);
	pool_cache_destroy(cache);
}

struct aligned {
	_Alignas(64) unsigned char bytes[192];
};

/* A type that begins a line does so in kmem's blocks, and in a pool's objects; a pool aligns any object as it is asked to. */
static void test_alignment(void)
{
	struct pool pools[2];
	void *blocks[16][3];
	pool_init(&pools[0], sizeof(struct aligned), 0, 0, 0, "linepl", NULL, IPL_NONE);
	pool_init(&pools[1], 24, 128, 0, 0, "smallpl", NULL, IPL_NONE);
	for (unsigned i = 0; i < 16; i++) {
		blocks[i][0] = pool_get(&pools[0], PR_WAITOK);
		blocks[i][1] = pool_get(&pools[1], PR_WAITOK);
		blocks[i][2] = kmem_zalloc(sizeof(struct aligned), KM_SLEEP);
		EXPECT((uintptr_t)blocks[i][0] % 64 == 0 && (uintptr_t)blocks[i][1] % 128 == 0 && (uintptr_t)blocks[i][2] % 64 == 0);
	}
	for (unsigned i = 0; i < 16; i++) {
		pool_put(&pools[0], blocks[i][0]);
		pool_put(&pools[1], blocks[i][1]);
		kmem_free(blocks[i][2], sizeof(struct aligned));
	}
	pool_destroy(&pools[0]);
	pool_destroy(&pools[1]);
}

/* ---- percpu(9), xcall(9), and counters. ---- */

enum { STAT_IN, STAT_OUT, STATS };

static void sum_up(void *own, void *arg, struct cpu_info *cpu)
{
	uint64_t *sums = arg, *counters = own;
	EXPECT(cpu != NULL);
	sums[STAT_IN] += counters[STAT_IN];
	sums[STAT_OUT] += counters[STAT_OUT];
}

static void test_counters(void)
{
	const percpu_callback_t look = sum_up;
	percpu_t *stats = percpu_alloc(STATS * sizeof(uint64_t));
	uint64_t sums[STATS] = {0}, *own;
	_NET_STATINC(stats, STAT_IN);
	_NET_STATADD(stats, STAT_OUT, 7);
	_NET_STATDEC(stats, STAT_OUT);
	own = _NET_STAT_GETREF(stats);
	_NET_STATINC_REF(own, STAT_IN);
	_NET_STATADD_REF(own, STAT_OUT, 4);
	_NET_STAT_PUTREF(stats);
	percpu_foreach(stats, look, sums);
	EXPECT(sums[STAT_IN] == 2 && sums[STAT_OUT] == 10 && !kpreempt_disabled());
	percpu_free(stats, STATS * sizeof(uint64_t));
}

static unsigned looks;

/* Looks at a CPU's part, once it was found to be zeros. It begins a line, and the parts lie apart: each has its CPU's number in all bytes. */
static void look_at_part(void *own, void *size, struct cpu_info *cpu)
{
	unsigned char *part = own, wanted = looks < KUPALDIZ_CPUS ? 0 : (unsigned char)(cpu_index(cpu) + 1);
	EXPECT((uintptr_t)part % 64 == 0 && cpu_index(cpu) == looks++ % KUPALDIZ_CPUS);
	for (size_t at = 0; at < *(size_t *)size; at++)
		EXPECT(part[at] == wanted);
	memset(part, (int)cpu_index(cpu) + 1, *(size_t *)size);
}

static void test_parts(void)
{
	static size_t sizes[] = {1, 64, 65, BLOCK};
	for (unsigned at = 0; at < __arraycount(sizes); at++) {
		looks = 0;
		percpu_t *percpu = percpu_create(sizes[at], look_at_part, look_at_part, &sizes[at]);
		percpu_foreach(percpu, look_at_part, &sizes[at]);
		percpu_foreach_xcall(percpu, 0, look_at_part, &sizes[at]);
		EXPECT(looks == 3 * KUPALDIZ_CPUS);
		percpu_free(percpu, sizes[at]);
		EXPECT(looks == 4 * KUPALDIZ_CPUS);
	}
}

static unsigned visited[KUPALDIZ_CPUS];

static void visit_cpu(void *high, void *other)
{
	EXPECT(other == NULL && (curlwp->l_pflag & LP_BOUND) != 0 && curlwp->l_cpu == curcpu() && kpreempt_disabled() == (high != NULL));
	EXPECT(level_now() == (high != NULL ? IPL_SOFTSERIAL : IPL_NONE));
	if (high == NULL)
		kmem_free(kmem_alloc(8, KM_SLEEP), 8);
	visited[cpu_number()]++;
}

/* With high priority the function has its CPU, at a level; without it may sleep. The thread is where it was once it has run, bound or not. */
static void test_calls(void)
{
	const xcfunc_t visit = visit_cpu;
	kupaldiz_bind(3);
	for (unsigned turn = 0; turn < 2; turn++) {
		xc_wait(xc_broadcast(turn == 0 ? 0 : XC_HIGHPRI_IPL(IPL_SOFTNET), visit, turn == 0 ? NULL : &visited, NULL));
		EXPECT(cpu_number() == 3 && curlwp->l_cpu == kupaldiz_cpu(3) && (curlwp->l_pflag & LP_BOUND) != 0 && !kpreempt_disabled());
	}
	for (unsigned cpu = 0; cpu < KUPALDIZ_CPUS; cpu++)
		EXPECT(visited[cpu] == 2);
	kupaldiz_unbind();
	xc_wait(xc_unicast(XC_HIGHPRI, visit_cpu, &visited, NULL, kupaldiz_cpu(KUPALDIZ_CPUS - 1)));
	xc_wait(xc_unicast(0, visit_cpu, NULL, NULL, kupaldiz_cpu(0)));
	EXPECT(visited[KUPALDIZ_CPUS - 1] == 3 && visited[0] == 3 && cpu_number() == 3 && (curlwp->l_pflag & LP_BOUND) == 0 && !kpreempt_disabled());
	EXPECT(level_now() == IPL_NONE);
	xc_barrier(0);
}

static void test_cpus(void)
{
	struct cpu_info *cpu;
	CPU_INFO_ITERATOR place;
	int all = 0;
	for (CPU_INFO_FOREACH(place, cpu))
		EXPECT((int)cpu_index(cpu) == all++);
	EXPECT(all == KUPALDIZ_CPUS && all == ncpu && pserialize_not_in_read_section());
}

/* ---- kthread(9), workqueue(9), time, and copies. ---- */

BODY(run_once)
{
	EXPECT(strncmp(curlwp->l_name, "kind", 4) == 0 && cpu_number() == 4 && (curlwp->l_pflag & LP_BOUND) != 0);
	atomic_inc_uint(arg);
	kthread_exit(0);
}

/* Of threads that ended before each is joined once, by its own name. One isn't joined. */
static void test_threads(void)
{
	static const int kinds[] = {KTHREAD_INTR, KTHREAD_TS, KTHREAD_IDLE, KTHREAD_MPSAFE};
	unsigned runs = 0;
	lwp_t *threads[__arraycount(kinds)];
	for (unsigned at = 0; at < __arraycount(kinds); at++) {
		EXPECT(kthread_create(PRI_NONE, kinds[at] | KTHREAD_MUSTJOIN, kupaldiz_cpu(4), run_once, &runs, &threads[at], "kind%u", at) == 0);
		while (atomic_load_relaxed(&runs) == at)
			(void)kpause("join", false, 1, NULL);
		for (unsigned other = 0; other < at; other++)
			EXPECT(threads[other] != threads[at]);
	}
	for (unsigned at = 0; at < __arraycount(kinds); at++)
		EXPECT(kthread_join(threads[at]) == 0);
	EXPECT(kthread_create(PRI_NONE, KTHREAD_MPSAFE, kupaldiz_cpu(4), run_once, &runs, NULL, "kind") == 0);
	while (atomic_load_relaxed(&runs) == __arraycount(kinds))
		(void)kpause("end", false, 1, NULL);
}

struct job {
	unsigned number;
	struct work work;
};

enum { JOBS = 20 };

static unsigned jobs_done;

static void do_job(struct work *work, void *arg)
{
	struct job *job = container_of(work, struct job, work);
	EXPECT(arg == &jobs_done && (strcmp(curlwp->l_name, "jobs") == 0 || strncmp(curlwp->l_name, "jobs/", 5) == 0));
	EXPECT(strcmp(curlwp->l_name, "jobs") == 0 ? job->number == jobs_done : job->number % KUPALDIZ_CPUS == cpu_number());
	atomic_inc_uint(&jobs_done);
	kmem_free(job, sizeof(*job));
}

HANDLER(enqueue_softly, workqueue_enqueue(*(struct workqueue **)arg, &((struct job *)kmem_intr_zalloc(sizeof(struct job), KM_NOSLEEP))->work, NULL))

/* Works are done in their order, or on their CPUs, and free themselves. The last of one queue is enqueued by a soft interrupt. */
static void test_works(int flags)
{
	static struct workqueue *queue;
	const bool each = (flags & WQ_PERCPU) != 0;
	void *softint = softint_establish(SOFTINT_NET | SOFTINT_MPSAFE, enqueue_softly, &queue);
	jobs_done = 0;
	EXPECT(workqueue_create(&queue, "jobs", do_job, &jobs_done, PRI_SOFTNET, IPL_SOFTNET, flags) == 0);
	kupaldiz_bind(0);
	for (unsigned i = 0; i < JOBS; i++) {
		struct job *job = kmem_zalloc(sizeof(*job), KM_SLEEP);
		job->number = i;
		workqueue_enqueue(queue, &job->work, each && i % KUPALDIZ_CPUS != 0 ? kupaldiz_cpu(i % KUPALDIZ_CPUS) : NULL);
	}
	if (each)
		softint_schedule(softint);
	for (const unsigned all = JOBS + each; atomic_load_acquire(&jobs_done) < all;)
		(void)kpause("jobs", false, 1, NULL);
	kupaldiz_unbind();
	workqueue_destroy(queue);
	softint_disestablish(softint);
}

static void test_time(void)
{
	pri_t priorities[] = {PRI_NONE, PRI_IDLE, PRI_KERNEL, PRI_KTHREAD, PRI_BIO, PRI_IOFLUSH, PRI_VM, PRI_PGDAEMON, PRI_XCALL, PRI_USER_RT,
	    PRI_KERNEL_RT, PRI_SOFTCLOCK, PRI_SOFTBIO, PRI_SOFTNET, PRI_SOFTSERIAL, PRI_COUNT};
	time_t seconds = time_uptime;
	int ticks = getticks();
	for (size_t at = 1; at < sizeof(priorities) / sizeof(priorities[0]); at++)
		EXPECT(priorities[at - 1] < priorities[at]);
	EXPECT(kpause("wait", true, hz, NULL) == EWOULDBLOCK && hz == 100);
	delay(100);
	DELAY(1);
	EXPECT(getticks() - ticks >= hz && PRI_USER == PRI_IDLE && !cold && time_uptime - seconds >= 1);
}

static void test_copies(void)
{
	char user[8] = "abcdefg", there[8] = "", *const first = (char *)(uintptr_t)4096, *const last = first - 1;
	size_t copied = 0;
	EXPECT(copyin(user, there, sizeof(there)) == 0 && strcmp(there, "abcdefg") == 0);
	EXPECT(copyout("ABCDEFG", user, 3) == 0 && strcmp(user, "ABCdefg") == 0 && copyout("a", user, 1) == 0);
	EXPECT(copyin(last, there, 1) == EFAULT && strcmp(there, "abcdefg") == 0);
	EXPECT(copyin(NULL, there, 1) == EFAULT && copyout(there, (void *)8, 1) == EFAULT);
	EXPECT(copyinstr(user, there, sizeof(there), &copied) == 0 && copied == 8 && strcmp(there, "aBCdefg") == 0);
	EXPECT(copyinstr(user, there, 3, &copied) == ENAMETOOLONG && copied == 3);
	EXPECT(copyoutstr("xy", user, sizeof(user), NULL) == 0 && strcmp(user, "xy") == 0);
	/* Of no bytes nothing is copied, so that what lies at the first address that may be the user's isn't touched, and NULL is right. */
	EXPECT(copyoutstr("text", last, 0, &copied) == EFAULT && copied == 3);
	EXPECT(copyoutstr("text", first, 0, &copied) == ENAMETOOLONG && copied == 0);
	EXPECT(copyoutstr("text", NULL, 0, NULL) == EFAULT && copyoutstr("text", first, 0, NULL) == ENAMETOOLONG);
	EXPECT(copyin(NULL, first, 0) == 0 && copyout(there, NULL, 0) == 0 && copyin(there, NULL, 0) == 0 && copyout(NULL, first, 0) == 0);
}

MODULE_HOOK(sum_hook, int, (int, int));
struct sum_hook_t sum_hook;

MODULE_HOOK(tell_hook, void, (void *));
struct tell_hook_t tell_hook;

static int sum(int one, int two) { return one + two; }

static int call_sum(int one, int two)
{
	int result;
	MODULE_HOOK_CALL(sum_hook, (one, two), -1, result);
	return result;
}

HANDLER(tell, atomic_inc_uint(arg))

static void test_hooks(void)
{
	unsigned calls = 0, missed = 0;
	for (unsigned turn = 0; turn < 3; turn++) {
		MODULE_HOOK_CALL_VOID(tell_hook, (&calls), missed++);
		EXPECT(call_sum(2, 3) == -1 && missed == turn + 1 && calls == turn);
		MODULE_HOOK_SET(sum_hook, sum);
		MODULE_HOOK_SET(tell_hook, tell);
		MODULE_HOOK_CALL_VOID(tell_hook, (&calls), missed++);
		EXPECT(call_sum(2, 3) == 5 && missed == turn + 1 && calls == turn + 1);
		MODULE_HOOK_UNSET(sum_hook);
		MODULE_HOOK_UNSET(tell_hook);
	}
}

static void test_queue(void) { test_works(WQ_MPSAFE); }
static void test_queues(void) { test_works(WQ_MPSAFE | WQ_PERCPU | WQ_FPU); }

static void (*const kernel_tests[])(void) = {
	test_levels, test_mutexes, test_memory, test_zeros, test_cache, test_looked_at, test_alignment, test_counters, test_parts, test_calls, test_cpus,
	test_threads, test_queue, test_queues, test_time, test_copies, test_hooks,
};

#ifndef KUPALDIZ_EXPLORER
int main(void)
{
	for (unsigned at = 0; at < __arraycount(kernel_tests); at++)
		kernel_tests[at]();
	puts("the calls beside the three pages did as they say");
	return 0;
}
#endif
