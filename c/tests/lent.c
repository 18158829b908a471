/*
 * lent - the pool of CPUs of kupaldiz_waiting.h: a CPU is one thread's at a time, comes back
 * however that thread ends, and is nobody's after a fork
 *
 * The linker leads malloc and four calls of pthread here (--wrap), so that each of them fails once.
 */
#include <errno.h>
#include <signal.h>
#include <stdatomic.h>
#include <sys/wait.h>
#include <unistd.h>

#include "client.h"
#include "kupaldiz_waiting.h"
#include "wrapped_heap.h"

enum { CPUS = 8, THREADS = 24, ROUNDS = 300 };

/* In a child of several threads the address sanitizer's heap may stay locked for ever. */
#ifdef __SANITIZE_ADDRESS__
enum { FORKS = 0 };
#else
enum { FORKS = 1 };
#endif

/* What fails next. */
static enum { NOTHING, MALLOC, ATTRIBUTES, CONDITION, KEY, OPENING, PLACE } fault;

FAILING(void *, malloc, (size_t size), (size), fault == MALLOC, NULL)
FAILING(int, pthread_condattr_init, (pthread_condattr_t *made), (made), fault == ATTRIBUTES, ENOMEM)
FAILING(int, pthread_cond_init, (pthread_cond_t *made, const pthread_condattr_t *attributes),
    (made, attributes), fault == CONDITION, ENOMEM)
FAILING(int, pthread_key_create, (pthread_key_t *made, void (*end)(void *)), (made, end),
    fault == KEY, EAGAIN)
FAILING(int, pthread_setspecific, (pthread_key_t key, const void *value), (key, value),
    fault == PLACE && value != NULL, ENOMEM)

static const struct kupaldiz_settings settings = {CPUS, 4, 1000, 100000, 100, 100};
static const struct timespec PAST = {0, 0};
static struct kupaldiz_keeper keeper;
static struct kupaldiz_cpu cpus[CPUS];
static struct kupaldiz_pool pool;

static unsigned which(const struct kupaldiz_cpu *cpu)
{
	EXPECT(cpu >= cpus && cpu < cpus + CPUS);
	return (unsigned)(cpu - cpus);
}

static void *run(void *(*function)(void *), void *of)
{
	return joined(started(function, of));
}

/* Each CPU can be had, and is outside any section. So nobody has one. */
static void *take_each(void *of)
{
	unsigned *left = of;
	struct kupaldiz_cpu *cpu;
	uint64_t depth;
	DONE(kupaldiz_pool_take(&pool, &PAST, &cpu));
	DONE(kupaldiz_depth(cpu, &depth));
	EXPECT(depth == 0 && kupaldiz_pool_cpu(&pool) == cpu && which(cpu) == CPUS - *left);
	--*left;
	if (*left > 0)
		run(take_each, left);
	else
		IS(STILL_HELD, kupaldiz_pool_close(&pool));
	return NULL;
}

static void expect_all_free(void)
{
	unsigned left = CPUS;
	run(take_each, &left);
}

/* A pool that is closed, and what opens none. */
static void test_closed(void)
{
	struct kupaldiz_cpu none[CPUS] = {{0}}, *cpu = none;
	IS(EMPTY_HANDLE, kupaldiz_pool_close(&pool));
	IS(EMPTY_HANDLE, kupaldiz_pool_give(&pool));
	IS(EMPTY_HANDLE, kupaldiz_pool_take(&pool, NULL, &cpu));
	EXPECT(cpu == none && kupaldiz_pool_cpu(&pool) == NULL);
	IS(NULL, kupaldiz_pool_open(&pool, NULL, 1));
	IS(NULL, kupaldiz_pool_open(&pool, NULL, 0));
	IS(BAD_SETTINGS, kupaldiz_pool_open(&pool, cpus, 0));
	IS(BAD_SETTINGS, kupaldiz_pool_open(&pool, cpus, KUPALDIZ_MOST_CPUS + 1));
	for (unsigned i = 0; i < CPUS; i++) {
		memcpy(none, cpus, sizeof none);
		none[i].at = NULL;
		IS(EMPTY_HANDLE, kupaldiz_pool_open(&pool, none, CPUS));
		EXPECT(pool.at == NULL);
	}
}

/* Each call says what is wrong with it, and changes nothing. */
static void test_misuse(void)
{
	struct kupaldiz_cpu none, *cpu = &none;
	DONE(kupaldiz_pool_open(&pool, cpus, CPUS));
	IS(FULL_HANDLE, kupaldiz_pool_open(&pool, cpus, CPUS));
	IS(FULL_HANDLE, kupaldiz_pool_open(&pool, NULL, 0));
	IS(EMPTY_HANDLE, kupaldiz_pool_give(&pool));
	EXPECT(kupaldiz_pool_cpu(&pool) == NULL);
	DONE(kupaldiz_pool_take(&pool, NULL, NULL));
	IS(FULL_HANDLE, kupaldiz_pool_take(&pool, NULL, &cpu));
	EXPECT(cpu == &none);
	DONE(kupaldiz_enter(kupaldiz_pool_cpu(&pool)));
	IS(INSIDE, kupaldiz_pool_give(&pool));
	EXPECT(kupaldiz_pool_cpu(&pool) == &cpus[0]);
	IS(STILL_HELD, kupaldiz_pool_close(&pool));
	DONE(kupaldiz_exit(&cpus[0]));
	DONE(kupaldiz_pool_give(&pool));
	EXPECT(kupaldiz_pool_cpu(&pool) == NULL);
	expect_all_free();
}

/*
 * Each thing that an open or a take needs is refused: nothing is opened, no CPU is taken, and the
 * next call does.
 */
static void test_refused(void)
{
	DONE(kupaldiz_pool_close(&pool));
	for (fault = MALLOC; fault < OPENING; fault++)
		EXPECT(kupaldiz_pool_open(&pool, cpus, CPUS) == KUPALDIZ_NO_MEMORY &&
		    pool.at == NULL);
	fault = NOTHING;
	DONE(kupaldiz_pool_open(&pool, cpus, CPUS));
	fault = PLACE;
	IS(NO_MEMORY, kupaldiz_pool_take(&pool, NULL, NULL));
	EXPECT(kupaldiz_pool_cpu(&pool) == NULL);
	fault = NOTHING;
	expect_all_free();
}

static atomic_uint users[CPUS], uses;
static atomic_bool has_forked;

/*
 * Takes a CPU again and again, the last time beyond the thread's end, which comes after the fork.
 * Nobody else has it meanwhile, and the pool stays open.
 */
static void *use_cpus(void *of)
{
	bool is_last = false;
	for (unsigned i = 1; !is_last; i++) {
		struct kupaldiz_cpu *cpu;
		is_last = i >= ROUNDS && atomic_load(&has_forked);
		DONE(kupaldiz_pool_take(&pool, NULL, &cpu));
		EXPECT(atomic_fetch_add(&users[which(cpu)], 1) == 0);
		DONE(kupaldiz_enter(cpu));
		IS(STILL_HELD, kupaldiz_pool_close(&pool));
		if (i % 4 == 0)
			rest();
		DONE(kupaldiz_exit(cpu));
		atomic_fetch_add(&uses, 1);
		EXPECT(atomic_fetch_sub(&users[which(cpu)], 1) == 1);
		if (!is_last)
			DONE(kupaldiz_pool_give(&pool));
	}
	return of;
}

/* A thread ends three sections deep. */
static void *end_inside(void *of)
{
	struct kupaldiz_cpu *cpu;
	DONE(kupaldiz_pool_take(&pool, NULL, &cpu));
	for (unsigned i = 0; i < 3; i++)
		DONE(kupaldiz_enter(cpu));
	if (of != NULL)
		pthread_exit(of);
	return NULL;
}

/*
 * At a thread's end a destructor of its own may find the CPU gone, and get another one, which comes
 * back, too.
 */
static pthread_key_t own;

static void end_own(void *of)
{
	if (kupaldiz_pool_cpu(&pool) == NULL)
		DONE(kupaldiz_pool_take(&pool, &PAST, NULL));
	EXPECT(of == &own);
}

static void *end_with_own(void *of)
{
	DONE(kupaldiz_pool_take(&pool, NULL, NULL));
	EXPECT(pthread_setspecific(own, &own) == 0);
	return of;
}

static void test_ends(void)
{
	run(end_inside, NULL);
	expect_all_free();
	run(end_inside, &pool);
	expect_all_free();
	EXPECT(pthread_key_create(&own, end_own) == 0);
	run(end_with_own, NULL);
	expect_all_free();
	EXPECT(pthread_key_delete(own) == 0);
}

/* With all CPUs taken a take fails at its deadline. */
struct taking {
	struct timespec deadline;
	enum kupaldiz_result result;
};

static void *take_late(void *of)
{
	struct taking *taking = of;
	taking->result = kupaldiz_pool_take(&pool, &taking->deadline, NULL);
	return NULL;
}

static void test_deadlines(void)
{
	static struct taking late[] = {{.deadline = {0, 0}}, {.deadline = {INT64_MIN, 0}},
	    {.deadline = {1, -1}}};
	struct kupaldiz_pool narrow = {0}, wide = pool;
	DONE(kupaldiz_pool_open(&narrow, cpus, 1));
	pool = narrow;
	DONE(kupaldiz_pool_take(&pool, NULL, NULL));
	for (size_t i = 0; i < COUNT_OF(late); i++) {
		run(take_late, &late[i]);
		EXPECT(late[i].result == KUPALDIZ_NO_CPU);
	}
	DONE(kupaldiz_pool_give(&pool));
	run(take_late, &late[0]);
	EXPECT(late[0].result == KUPALDIZ_DONE);
	DONE(kupaldiz_pool_close(&pool));
	pool = wide;
}

/*
 * Ends the child once the thread that forked has ended. No checker then counts what the parent's
 * other threads have left in it.
 */
static void *end_child(void *of)
{
	const pthread_t *forker = of;
	joined(*forker);
	EXPECT(kill(getpid(), SIGKILL) == 0);
	return NULL;
}

/*
 * In the child the pool is closed, also to the thread that has a CPU, and at that thread's end. A
 * registry and a pool of the child's own are as any.
 */
static void go_on_in_child(void)
{
	static pthread_t forker;
	EXPECT(kupaldiz_pool_cpu(&pool) == NULL);
	IS(EMPTY_HANDLE, kupaldiz_pool_give(&pool));
	IS(EMPTY_HANDLE, kupaldiz_pool_take(&pool, NULL, NULL));
	IS(EMPTY_HANDLE, kupaldiz_pool_close(&pool));
	keeper = (struct kupaldiz_keeper){0};
	memset(cpus, 0, sizeof cpus);
	DONE(kupaldiz_open(&settings, &keeper, cpus, CPUS));
	DONE(kupaldiz_pool_open(&pool, cpus, CPUS));
	expect_all_free();
	EXPECT(kupaldiz_pool_cpu(&pool) == NULL);
	DONE(kupaldiz_pool_take(&pool, NULL, NULL));
	forker = pthread_self();
	started(end_child, &forker);
}

static pid_t child;

static void *fork_with_cpu(void *of)
{
	while (atomic_load(&uses) < THREADS)
		rest();
	DONE(kupaldiz_pool_take(&pool, NULL, NULL));
	child = fork();
	EXPECT(child >= 0);
	if (child == 0)
		go_on_in_child();
	return of;
}

static void test_fork(void)
{
	int status;
	run(fork_with_cpu, NULL);
	EXPECT(waitpid(child, &status, 0) == child);
	EXPECT(WIFSIGNALED(status) && WTERMSIG(status) == SIGKILL);
}

/*
 * More threads than CPUs share them. At a fork some have CPUs and others wait for one; the parent
 * goes on.
 */
static void test_crowd(void)
{
	pthread_t threads[THREADS];
	for (unsigned i = 0; i < THREADS; i++)
		threads[i] = started(use_cpus, NULL);
	if (FORKS)
		test_fork();
	atomic_store(&has_forked, true);
	for (unsigned i = 0; i < THREADS; i++)
		joined(threads[i]);
	EXPECT(atomic_load(&uses) >= THREADS * ROUNDS);
	expect_all_free();
}

/* A pool leaves nothing behind: there are fewer keys than this. */
static void test_many(void)
{
	DONE(kupaldiz_pool_close(&pool));
	for (unsigned i = 0; i < 3000; i++) {
		DONE(kupaldiz_pool_open(&pool, cpus, CPUS));
		DONE(kupaldiz_pool_take(&pool, NULL, NULL));
		DONE(kupaldiz_pool_give(&pool));
		DONE(kupaldiz_pool_close(&pool));
	}
}

int main(void)
{
	DONE(kupaldiz_open(&settings, &keeper, cpus, CPUS));
	test_closed();
	test_misuse();
	test_refused();
	test_ends();
	test_deadlines();
	test_crowd();
	test_many();
	DONE(kupaldiz_close(&keeper, cpus, CPUS));
	puts("lent end");
	return 0;
}
