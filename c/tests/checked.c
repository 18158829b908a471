/*
 * checked - what the checking build tells of a program's misuse, and what it says nothing of
 *
 * Each row runs in a process of its own, which prints these lines and ends so: by an abort after a
 * misuse. AT notes the line of a call.
 */
#define _DEFAULT_SOURCE
#include <signal.h>
#include <stdatomic.h>
#include <sys/mman.h>
#include <sys/syscall.h>

#include "child.h"
#include "client.h"
#include "kupaldiz_table.h"
#include "kupaldiz_waiting.h"
#include "wrapped_heap.h"

static const struct kupaldiz_settings SETTINGS = {2, 4, 100, 100, 10, 10};

static struct bench {
	struct kupaldiz_keeper keeper;
	struct kupaldiz_cpu cpus[2];
} one, two;

static struct kupaldiz_cpu *const cpu0 = &one.cpus[0], *const cpu1 = &one.cpus[1];
static pthread_mutex_t mutex = PTHREAD_MUTEX_INITIALIZER;
static struct kupaldiz_interlock interlock;	/* of one.keeper, by that mutex */
static struct kupaldiz_name wm, wm0;
static struct kupaldiz_entry found;
static struct kupaldiz_passive passive;
static struct kupaldiz_local local;
static int *lines;	/* of calls, and the child's thread: the parent sees them */
static atomic_bool is_there;

#define GET(on, to)	kupaldiz_get(on, KUPALDIZ_ENTRY, &wm, to)
#define AT(place, call)	(lines[place] = __LINE__, (call))

/*
 * Which of them are the child's status and thread, and the seconds after which a process that hangs
 * is ended.
 */
enum { STATUS = 6, THREAD, PATIENCE = 3600 };

/* What a find does before the library's. */
static void (*before_find)(void);
WRAPPED(kupaldiz_find);
enum kupaldiz_result __wrap_kupaldiz_find(struct kupaldiz_cpu *on, enum kupaldiz_kind kind,
    const struct kupaldiz_name *name, struct kupaldiz_entry *entry)
{
	if (before_find != NULL)
		before_find();
	return __real_kupaldiz_find(on, kind, name, entry);
}

static void open_both(void)
{
	alarm(PATIENCE);
	lines[STATUS] = EXIT_SUCCESS;
	lines[THREAD] = (int)getpid();
	DONE(AT(8, kupaldiz_open(&SETTINGS, &one.keeper, one.cpus, 2)));
	DONE(AT(9, kupaldiz_open(&SETTINGS, &two.keeper, two.cpus, 2)));
	DONE(kupaldiz_attach(&one.keeper, cpu0, &wm, 7, NULL));
}

/* Leaves a thread behind that has made this, and stays. */
static void beside(void *(*body)(void *))
{
	started(body, NULL);
	while (!atomic_load(&is_there))
		rest();
}

static void stay(void)
{
	atomic_store(&is_there, true);
	while (atomic_load(&is_there))
		rest();
}

static void get_local(struct kupaldiz_local *to)
{
	DONE(kupaldiz_get_local(cpu0, KUPALDIZ_ENTRY, &wm, to));
}

static void detach(void)
{
	DONE(kupaldiz_detach(&one.keeper, cpu0, KUPALDIZ_ENTRY, &wm, &found));
}

/* ---- Passive references. ---- */

/*
 * More are released before than the checking build remembers. The place of the last release is 0.
 */
static struct kupaldiz_passive released(void)
{
	for (int i = 0; i < 5000; i++) {
		DONE(GET(cpu0, &passive));
		DONE(kupaldiz_release(cpu0, &passive));
	}
	DONE(GET(cpu0, &passive));
	const struct kupaldiz_passive copy = passive;
	DONE(AT(0, kupaldiz_release(cpu0, &passive)));
	IS(EMPTY_HANDLE, kupaldiz_release(cpu0, &passive));
	get_local(&local);
	DONE(kupaldiz_try_release_local(cpu0, &local));
	return copy;
}

static void released_twice(void)
{
	passive = released();
	AT(1, kupaldiz_release(cpu0, &passive));
}

/* It is made again, so it has no tag. */
static void released_twice_beside(void)
{
	struct kupaldiz_passive another = {0};
	DONE(AT(2, GET(cpu1, &another)));
	released();
	passive = (struct kupaldiz_passive){{.number = another.entry.number}, 0};
	AT(1, kupaldiz_release(cpu0, &passive));
}

/* The library can't know it: the CPU has another one. */
static void taken_from_another(void)
{
	struct kupaldiz_passive another = {0}, copy;
	DONE(GET(cpu0, &passive));
	DONE(kupaldiz_copy(cpu0, &passive, &another));
	copy = passive;
	DONE(AT(0, kupaldiz_release(cpu0, &passive)));
	AT(1, kupaldiz_release(cpu0, &copy));
}

static void copied_afterwards(void)
{
	struct kupaldiz_passive another = {0}, copy;
	DONE(kupaldiz_enter_find(cpu0, KUPALDIZ_ENTRY, &wm, &found));
	DONE(kupaldiz_acquire(cpu0, &found, &passive));
	copy = passive;
	DONE(AT(0, kupaldiz_release(cpu0, &passive)));
	(void)!AT(1, kupaldiz_copy(cpu0, &copy, &another));
}

static void released_elsewhere(void)
{
	DONE(kupaldiz_enter_find(cpu0, KUPALDIZ_ENTRY, &wm, &found));
	DONE(AT(0, kupaldiz_acquire(cpu0, &found, &passive)));
	AT(1, kupaldiz_release(cpu1, &passive));
}

static void released_to_another(void)
{
	DONE(AT(0, GET(cpu0, &passive)));
	AT(1, kupaldiz_release(&two.cpus[0], &passive));
}

static void never_acquired(void)
{
	passive = (struct kupaldiz_passive){{.number = 1}, 0};
	get_local(&local);
	AT(0, kupaldiz_release(cpu0, &passive));
}

static void left_behind(void)
{
	struct kupaldiz_pool pool = {0};
	struct kupaldiz_cpu *taken;
	DONE(kupaldiz_pool_open(&pool, one.cpus, 2));
	DONE(kupaldiz_pool_take(&pool, NULL, &taken));
	DONE(AT(0, GET(taken, &passive)));
	AT(1, kupaldiz_pool_give(&pool));
}

/* ---- Local references. ---- */

static void local_twice(void)
{
	get_local(&local);
	struct kupaldiz_local copy = local, another = {0};
	DONE(AT(0, kupaldiz_try_release_local(cpu1, &local)));
	IS(EMPTY_HANDLE, kupaldiz_try_release_local(cpu1, &local));
	/* The library reuses the memory of the first one. */
	get_local(&another);
	(void)!AT(1, kupaldiz_try_release_local(cpu1, &copy));
}

static void local_copied_afterwards(void)
{
	struct kupaldiz_local copy = {0}, moved;
	get_local(&local);
	DONE(kupaldiz_copy_local(&local, &copy));
	moved = local;
	DONE(AT(0, kupaldiz_forget_local(&local)));
	(void)!AT(1, kupaldiz_copy_local(&moved, &local));
}

/* ---- Handles. ---- */

static void never_set(void)
{
	struct kupaldiz_cpu unset = {&found};
	(void)!AT(0, kupaldiz_enter(&unset));
}

static void no_pointer(void)
{
	struct kupaldiz_keeper *none = NULL;
	(void)!AT(0, kupaldiz_attach(none, cpu0, &wm0, 7, NULL));
}

static void no_place(void)
{
	struct kupaldiz_passive *none = NULL;
	(void)!AT(0, GET(cpu0, none));
}

static void closed_copy(void)
{
	struct kupaldiz_cpu copy = one.cpus[1];
	AT(0, kupaldiz_close(NULL, cpu1, 1));
	AT(1, kupaldiz_depth(&copy, NULL));
}

/* A wait is told as the program's call. */
static void closed_registry(void)
{
	struct kupaldiz_keeper copy = one.keeper;
	const struct kupaldiz_interlock of_copy = kupaldiz_interlock_of_mutex(&copy, &mutex);
	AT(0, kupaldiz_close(&one.keeper, one.cpus, 2));
	(void)!AT(1, kupaldiz_perform_wait(&of_copy, &two.cpus[0], NULL, NULL));
}

static void two_registries(void)
{
	(void)!AT(0, kupaldiz_attach(&one.keeper, &two.cpus[0], &wm0, 7, NULL));
}

static void *find_and_stay(void *of)
{
	before_find = stay;
	DONE(kupaldiz_enter(cpu0));
	(void)!AT(0, kupaldiz_find(cpu0, KUPALDIZ_ENTRY, &wm, NULL));
	return of;
}

static void two_threads(void)
{
	struct kupaldiz_cpu moved = one.cpus[0];
	beside(find_and_stay);
	AT(1, kupaldiz_depth(&moved, NULL));
}

/* Neither is in a call while the other one makes one. */
static void *find_inside(void *of)
{
	(void)!AT(1, kupaldiz_find(cpu0, KUPALDIZ_ENTRY, &wm, NULL));
	return of;
}

static void two_threads_in_a_section(void)
{
	DONE(AT(0, kupaldiz_enter(cpu0)));
	joined(started(find_inside, NULL));
}

static void *look_up_often(void *of)
{
	for (;;)
		DONE(AT(0, kupaldiz_look_up(cpu0, KUPALDIZ_ENTRY, &wm, NULL)));
	return of;
}

static void two_threads_without_a_lock(void)
{
	started(look_up_often, NULL);
	look_up_often(NULL);
}

static void *use_keeper_often(void *of)
{
	for (;;)
		DONE(AT(0, kupaldiz_settings_of(&one.keeper, NULL)));
	return of;
}

static void changes_without_a_lock(void)
{
	started(use_keeper_often, NULL);
	use_keeper_often(NULL);
}

static void *end_inside(void *of)
{
	DONE(AT(0, kupaldiz_enter(cpu0)));
	lines[THREAD] = (int)syscall(SYS_gettid);
	return of;
}

static void ended_inside(void)
{
	joined(started(end_inside, NULL));
}

static void *end_holding(void *of)
{
	DONE(AT(0, GET(cpu0, &passive)));
	lines[THREAD] = (int)syscall(SYS_gettid);
	return of;
}

static void ended_holding(void)
{
	joined(started(end_holding, NULL));
}

/* The thread that ends the program ends, too. */
static void program_ended_holding(void)
{
	DONE(AT(0, GET(cpu0, &passive)));
	exit(EXIT_SUCCESS);
}

static void program_failed(void)
{
	lines[STATUS] = EXIT_FAILURE;
	DONE(GET(cpu0, &passive));
	exit(EXIT_FAILURE);
}

static void left_local(void)
{
	DONE(AT(0, kupaldiz_get_local(cpu0, KUPALDIZ_ENTRY, &wm, &local)));
	DONE(kupaldiz_close(&one.keeper, one.cpus, 2));
	exit(EXIT_SUCCESS);
}

/* It may be another thread's: it is shown. */
static void *end_counting(void *of)
{
	DONE(AT(0, kupaldiz_get_local(cpu0, KUPALDIZ_ENTRY, &wm, &local)));
	lines[THREAD] = (int)syscall(SYS_gettid);
	return of;
}

static void ended_counting(void)
{
	joined(started(end_counting, NULL));
	kupaldiz_holders(stderr, local.entry.number);
}

static void waits_for_own(void)
{
	DONE(AT(0, GET(cpu0, &passive)));
	detach();
	(void)!AT(1, kupaldiz_destroy_wait(&interlock, cpu1, found.number, NULL, NULL));
}

static void handle_signal(int number)
{
	(void)number;
	AT(1, kupaldiz_depth(cpu1, NULL));
}

static void raise_signal(void)
{
	raise(SIGUSR1);
}

static void in_a_signal(void)
{
	const struct sigaction action = {.sa_handler = handle_signal};
	EXPECT(sigaction(SIGUSR1, &action, NULL) == 0);
	before_find = raise_signal;
	DONE(kupaldiz_enter(cpu0));
	(void)!AT(0, kupaldiz_find(cpu0, KUPALDIZ_ENTRY, &wm, NULL));
}

static void in_a_child(void)
{
	int status;
	pid_t child = fork();
	EXPECT(child >= 0);
	alarm(PATIENCE);
	if (child == 0)
		AT(0, kupaldiz_depth(cpu0, NULL));
	EXPECT(child == 0 || waitpid(child, &status, 0) == child);
	if (child != 0 && WIFSIGNALED(status))
		abort();
}

static void cancelled_anywhere(void)
{
	int type, state;
	EXPECT(pthread_setcancelstate(PTHREAD_CANCEL_DISABLE, &state) == 0);
	EXPECT(pthread_setcanceltype(PTHREAD_CANCEL_ASYNCHRONOUS, &type) == 0);
	DONE(kupaldiz_depth(cpu0, NULL));
	EXPECT(pthread_setcanceltype(PTHREAD_CANCEL_ASYNCHRONOUS, &type) == 0);
	EXPECT(type == PTHREAD_CANCEL_ASYNCHRONOUS);
	EXPECT(pthread_setcancelstate(PTHREAD_CANCEL_ENABLE, &state) == 0);
	AT(0, kupaldiz_depth(cpu0, NULL));
}

static void overlapping(void)
{
	found.name = wm;
	(void)!AT(0, kupaldiz_look_up(cpu0, KUPALDIZ_ENTRY, &found.name, &found));
}

/* ---- The interlock and sections. ---- */

static void told_interlock(void)
{
	AT(0, kupaldiz_check_interlock(&one.keeper, &mutex));
	(void)!AT(1, kupaldiz_attach(&one.keeper, cpu0, &wm0, 7, NULL));
}

static void append_without(void)
{
	struct kupaldiz_entry row[1];
	struct kupaldiz_deferred list = {.interlock = &interlock, .entries = row, .room = 1};
	detach();
	AT(0, kupaldiz_check_interlock(&one.keeper, &mutex));
	(void)!AT(1, kupaldiz_deferred_add(&list, &found));
}

static void *wait_once(void *of)
{
	DONE(AT(0, kupaldiz_perform_wait(&interlock, cpu1, NULL, NULL)));
	return of;
}

static void *wait_and_stay(void *of)
{
	wait_once(of);
	stay();
	return of;
}

static void learned_interlock(void)
{
	beside(wait_and_stay);
	AT(1, kupaldiz_settings_of(&one.keeper, NULL));
}

static void waits_for_itself(void)
{
	pthread_mutex_lock(&mutex);
	get_local(&local);
	AT(0, kupaldiz_release_local(&interlock, cpu0, &local));
}

static void open_at_close(void)
{
	DONE(AT(0, kupaldiz_enter(cpu1)));
	DONE(kupaldiz_enter(cpu1));
	DONE(kupaldiz_exit(cpu1));
	AT(1, kupaldiz_close(&one.keeper, one.cpus, 2));
}

static void waits_inside(void)
{
	DONE(AT(0, kupaldiz_enter_find(cpu1, KUPALDIZ_ENTRY, &wm, NULL)));
	detach();
	(void)!AT(1, kupaldiz_destroy_wait(&interlock, cpu0, found.number, NULL, NULL));
}

static void barrier_inside(void)
{
	struct kupaldiz_entry row[1];
	struct kupaldiz_deferred list = {.interlock = &interlock, .entries = row, .room = 1};
	DONE(AT(0, kupaldiz_enter(cpu1)));
	detach();
	DONE(kupaldiz_deferred_add(&list, &found));
	(void)!AT(1, kupaldiz_deferred_barrier(&list, NULL));
}

/* ---- What is right, or what a result says. ---- */

static void take(void *of)
{
	EXPECT(of == NULL && pthread_mutex_lock(&mutex) == 0);
}

static void give(void *of)
{
	EXPECT(of == NULL && pthread_mutex_unlock(&mutex) == 0);
}

/* It waits while another thread is inside a section, by a lock that is no mutex. */
static void *copy_and_release(void *of)
{
	const struct kupaldiz_interlock unknown = {&one.keeper, take, give, NULL};
	const struct timespec past = {0, 0};
	struct kupaldiz_passive copy = {0};
	IS(WAITING, kupaldiz_perform_wait(&unknown, cpu0, &past, NULL));
	DONE(kupaldiz_copy(cpu0, &passive, &copy));
	stay();
	DONE(kupaldiz_release(cpu0, &copy));
	atomic_store(&is_there, true);
	return of;
}

/* A release takes the thread's own reference, and a close takes all that are passive. */
static void who_holds(void)
{
	struct kupaldiz_passive copy = {0}, last = {0};
	struct kupaldiz_local shared = {0};
	DONE(AT(0, GET(cpu0, &passive)));
	DONE(AT(2, kupaldiz_enter_find(cpu1, KUPALDIZ_ENTRY, &wm, &found)));
	beside(copy_and_release);
	DONE(AT(1, kupaldiz_copy(cpu0, &passive, &copy)));
	atomic_store(&is_there, false);
	while (!atomic_load(&is_there))
		rest();
	DONE(AT(3, kupaldiz_acquire_local(cpu1, &found, &local)));
	DONE(kupaldiz_attach(&one.keeper, cpu0, &wm0, 7, NULL));
	DONE(kupaldiz_get(cpu0, KUPALDIZ_ENTRY, &wm0, &last));
	kupaldiz_holders(stderr, found.number);
	DONE(kupaldiz_copy_local(&local, &shared));
	DONE(kupaldiz_try_release_local(cpu0, &local));
	DONE(kupaldiz_exit(cpu1));
	DONE(kupaldiz_forget_local(&shared));
	DONE(kupaldiz_close(NULL, cpu0, 1));
	kupaldiz_holders(stderr, found.number);
	DONE(kupaldiz_close(&one.keeper, one.cpus, 2));
	kupaldiz_holders(stderr, found.number);
}

/*
 * Another thread releases what this one acquired, waits inside a section of another registry, and
 * needs no lock while it has the keeper.
 */
static void *take_over(void *of)
{
	struct kupaldiz_local moved = local;
	DONE(kupaldiz_release_local(&interlock, cpu1, &moved));
	DONE(kupaldiz_release(cpu0, &passive));
	DONE(kupaldiz_enter(&two.cpus[0]));
	wait_once(of);
	DONE(kupaldiz_exit(&two.cpus[0]));
	DONE(kupaldiz_attach(&one.keeper, cpu0, &wm0, 7, NULL));
	return of;
}

/* A handle is moved there and back. At the end this thread has the keeper. */
static void handed_over(void)
{
	struct kupaldiz_cpu moved = one.cpus[0];
	DONE(GET(&moved, &passive));
	const uint64_t number = passive.entry.number;
	one.cpus[0] = moved;
	get_local(&local);
	joined(started(take_over, NULL));
	kupaldiz_holders(stderr, number);
	detach();
	IS(OUTSIDE, kupaldiz_exit(cpu0));
	IS(EMPTY_HANDLE, kupaldiz_release(cpu0, &passive));
	DONE(kupaldiz_close(&one.keeper, one.cpus, 2));
	DONE(kupaldiz_close(&one.keeper, one.cpus, 2));
	IS(EMPTY_HANDLE, kupaldiz_enter(cpu0));
}

/* A reference that was lost is made again, without a tag. It has its CPU's number. */
static void made_again(void)
{
	struct kupaldiz_passive lost = {0}, copy = {0};
	DONE(GET(cpu1, &lost));
	passive = (struct kupaldiz_passive){{.number = lost.entry.number}, 1};
	DONE(kupaldiz_copy(cpu1, &passive, &copy));
	DONE(kupaldiz_release(cpu1, &copy));
	DONE(kupaldiz_release(cpu1, &passive));
	kupaldiz_holders(stderr, lost.entry.number);
}

/* ---- Tables. ---- */

static struct kupaldiz_table table;
static struct kupaldiz_table_thread user;

static void open_table(uint64_t entries)
{
	const struct kupaldiz_table_settings settings = {2, entries, NULL, NULL};
	DONE(kupaldiz_table_open(&settings, &table));
	DONE(kupaldiz_table_take(&table, NULL, &user));
}

static void released_twice_in_table(void)
{
	open_table(10);
	DONE(kupaldiz_table_attach(&user, &wm, 7, NULL));
	DONE(kupaldiz_table_get(&user, &wm, &passive));
	struct kupaldiz_passive copy = passive;
	DONE(AT(0, kupaldiz_table_release(&user, &passive)));
	(void)!AT(1, kupaldiz_table_release(&user, &copy));
}

static void left_in_table(void)
{
	open_table(10);
	DONE(kupaldiz_table_attach(&user, &wm, 7, NULL));
	DONE(AT(0, kupaldiz_table_get(&user, &wm, &passive)));
	(void)!AT(1, kupaldiz_table_give(&user));
}

/* A destroy that doesn't wait says who holds it. */
static void waits_for_own_in_table(void)
{
	static const struct timespec past = {0, 0};
	open_table(10);
	DONE(kupaldiz_table_attach(&user, &wm, 7, NULL));
	DONE(AT(0, kupaldiz_table_get(&user, &wm, &passive)));
	DONE(kupaldiz_table_detach(&user, &wm, &found));
	IS(STILL_HELD, kupaldiz_table_destroy(&user, found.number, &past, NULL));
	(void)!AT(1, kupaldiz_table_destroy(&user, found.number, NULL, NULL));
}

/* In each registry but the first there is an entry that has the number 1 there. */
static void attach_many(void)
{
	for (uint64_t id = 0; id < 1000; id++) {
		struct kupaldiz_name name;
		struct kupaldiz_entry made;
		DONE(kupaldiz_name_of_id(id, &name));
		DONE(kupaldiz_table_attach(&user, &name, id, &made));
		if (made.number % KUPALDIZ_MOST_CHANGES == 1 &&
		    made.number > KUPALDIZ_MOST_CHANGES)
			found = made;
	}
}

static bool print_in_visit(void *of, const struct kupaldiz_entry *entry)
{
	(void)of;
	if (entry->number == found.number)
		kupaldiz_holders(stderr, found.number);
	return true;
}

/* Of the table's number: not of the entries that have the same one in their registries. */
static void who_holds_in_table(void)
{
	struct kupaldiz_local copy = {0};
	open_table(1000);
	attach_many();
	DONE(GET(cpu0, &passive));
	DONE(kupaldiz_release(cpu0, &passive));
	DONE(AT(0, kupaldiz_table_get(&user, &found.name, &passive)));
	EXPECT(passive.entry.number == found.number);
	kupaldiz_holders(stderr, found.number);
	DONE(kupaldiz_table_release(&user, &passive));
	DONE(AT(1, kupaldiz_table_get_local(&user, &found.name, &local)));
	kupaldiz_holders(stderr, found.number);
	DONE(AT(2, kupaldiz_table_copy_local(&local, &copy)));
	DONE(kupaldiz_table_release_local(&user, &local));
	EXPECT(copy.entry.number == found.number);
	kupaldiz_holders(stderr, found.number);
	DONE(kupaldiz_table_release_local(&user, &copy));
	DONE(AT(3, kupaldiz_table_walk(&user, print_in_visit, NULL)));
	DONE(GET(cpu0, &passive));
	kupaldiz_holders(stderr, found.number);
	DONE(kupaldiz_release(cpu0, &passive));
	DONE(kupaldiz_table_give(&user));
	DONE(kupaldiz_table_close(&table));
}

/* ---- More that is right. ---- */

static void *visit(void *of)
{
	DONE(kupaldiz_pool_take(of, NULL, NULL));
	DONE(kupaldiz_pool_give(of));
	return NULL;
}

/* A thread gives a CPU back where another one has a reference, and that one another CPU. */
static void given_back(void)
{
	struct kupaldiz_pool pool = {0}, others = {0};
	DONE(GET(cpu0, &passive));
	DONE(kupaldiz_pool_open(&pool, cpu0, 1));
	DONE(kupaldiz_pool_open(&others, cpu1, 1));
	joined(started(visit, &pool));
	visit(&others);
}

/* All CPUs of the largest registry, and what calls return and write that no other row makes. */
static void largest(void)
{
	const struct kupaldiz_settings settings = KUPALDIZ_SETTINGS(KUPALDIZ_MOST_CPUS, 2);
	static struct kupaldiz_keeper keeper;
	static struct kupaldiz_cpu cpus[KUPALDIZ_MOST_CPUS];
	struct kupaldiz_entry row[1];
	struct kupaldiz_met met;
	size_t count;
	bool held = false;
	DONE(kupaldiz_open(&settings, &keeper, cpus, KUPALDIZ_MOST_CPUS));
	DONE(kupaldiz_attach(&keeper, &cpus[0], &wm, 6, NULL));
	DONE(kupaldiz_replace(&keeper, &cpus[0], &wm, 7, &found, NULL));
	IS(NO_SLOT, kupaldiz_room(&keeper));
	DONE(kupaldiz_destroy(&keeper, found.number, &met));
	EXPECT(met.stage == KUPALDIZ_FREED && met.what == 0);
	DONE(kupaldiz_look_up(&cpus[0], KUPALDIZ_ENTRY, &wm, row));
	DONE(GET(&cpus[0], &passive));
	DONE(kupaldiz_held(&cpus[0], row->number, &held));
	EXPECT(held && row->value == 7);
	DONE(kupaldiz_release(&cpus[0], &passive));
	DONE(kupaldiz_enter(&cpus[0]));
	DONE(kupaldiz_walk(&cpus[0], row, 1, &count));
	DONE(kupaldiz_exit(&cpus[0]));
	EXPECT(count == 1);
	DONE(kupaldiz_detach(&keeper, &cpus[0], KUPALDIZ_ENTRY, &wm, &found));
	DONE(kupaldiz_destroy(&keeper, found.number, NULL));
	DONE(kupaldiz_audit(&keeper, cpus, KUPALDIZ_MOST_CPUS, NULL, 0, NULL));
	DONE(kupaldiz_close(&keeper, cpus, KUPALDIZ_MOST_CPUS));
}

static void without_interlock(void)
{
	kupaldiz_check_interlock(&one.keeper, NULL);
	learned_interlock();
}

/* A recursive interlock stays locked as often. */
static void lock_often(struct bench *own, const struct kupaldiz_interlock *often)
{
	kupaldiz_check_interlock(&own->keeper, &mutex);
	EXPECT(pthread_mutex_lock(&mutex) == 0);
	DONE(kupaldiz_perform_wait(often, &own->cpus[0], NULL, NULL));
	DONE(kupaldiz_attach(&own->keeper, &own->cpus[0], &wm, 7, NULL));
	EXPECT(pthread_mutex_unlock(&mutex) == 0 && pthread_mutex_unlock(&mutex) != 0);
}

/* In the child of a fork it is that of a registry of its own, too. */
static void recursive(void)
{
	struct bench own = {0};
	const struct kupaldiz_interlock often = kupaldiz_interlock_of_mutex(&own.keeper, &mutex);
	pthread_mutexattr_t type;
	int status;
	EXPECT(pthread_mutexattr_init(&type) == 0);
	EXPECT(pthread_mutexattr_settype(&type, PTHREAD_MUTEX_RECURSIVE) == 0);
	EXPECT(pthread_mutex_init(&mutex, &type) == 0);
	pid_t child = fork();
	alarm(PATIENCE);
	EXPECT(child == 0 || (waitpid(child, &status, 0) == child && status == 0));
	DONE(kupaldiz_open(&SETTINGS, &own.keeper, own.cpus, 2));
	lock_often(&own, &often);
	DONE(kupaldiz_close(&own.keeper, own.cpus, 2));
	if (child == 0)
		_exit(0);
}

/*
 * What a process says, with @0 for the place of the call that AT has noted as 0, and @t for the
 * thread. If it begins with a place, it is aborted.
 */
struct row {
	const char *name;
	void (*body)(void);
	const char *says;
};

#define ROW(body, says)	{#body, body, says}

static const struct row ROWS[] = {
	ROW(released_twice,
	    "@1: kupaldiz_release: wm's reference 1 was released already at @0\n"),
	ROW(released_twice_beside,
	    "@1: kupaldiz_release: wm's reference 1 was released already at @0; wm's reference "
	    "1 is CPU 1's, acquired at @2\n"),
	ROW(taken_from_another,
	    "@1: kupaldiz_release: wm's reference 1 was released already at @0\n"),
	ROW(copied_afterwards,
	    "@1: kupaldiz_copy: wm's reference 1 was released already at @0\n"),
	ROW(released_elsewhere,
	    "@1: kupaldiz_release: wm's reference 1 is CPU 0's, acquired at @0, and this is "
	    "CPU 1\n"),
	ROW(released_to_another,
	    "@1: kupaldiz_release: wm's reference 1, acquired at @0, is of the registry opened "
	    "at @8, and this is CPU 0\n"),
	ROW(never_acquired,
	    "@0: kupaldiz_release: CPU 0 never acquired a reference 1\n"),
	ROW(left_behind,
	    "@1: kupaldiz_pool_give: wm's reference 1, acquired at @0, stays on CPU 0\n"),
	ROW(local_twice,
	    "@1: kupaldiz_try_release_local: wm's local reference was released already at @0\n"),
	ROW(local_copied_afterwards,
	    "@1: kupaldiz_copy_local: wm's local reference was released already at @0\n"),
	ROW(never_set,
	    "@0: kupaldiz_enter: the handle of the CPU is neither {0} nor what a call has set\n"),
	ROW(no_pointer,
	    "@0: kupaldiz_attach: the pointer to the handle of the keeper is NULL\n"),
	ROW(no_place,
	    "@0: kupaldiz_get: the pointer to the handle of the passive reference is NULL\n"),
	ROW(closed_copy,
	    "@1: kupaldiz_depth: the CPU was closed at @0, and this is a copy of its handle\n"),
	ROW(closed_registry,
	    "@1: kupaldiz_perform_wait: the keeper was closed at @0, and this is a copy of its "
	    "handle\n"),
	ROW(two_registries,
	    "@0: kupaldiz_attach: the CPU is of the registry opened at @9, and the keeper of "
	    "the one opened at @8\n"),
	ROW(two_threads,
	    "@1: kupaldiz_depth: another thread uses the CPU: kupaldiz_find at @0\n"),
	ROW(two_threads_in_a_section,
	    "@1: kupaldiz_find: the CPU is another thread's, which is inside the section that "
	    "began at @0\n"),
	ROW(two_threads_without_a_lock,
	    "@0: kupaldiz_look_up: another thread uses the CPU: kupaldiz_look_up at @0\n"),
	ROW(changes_without_a_lock,
	    "@0: kupaldiz_settings_of: another thread uses the keeper: kupaldiz_settings_of at "
	    "@0\n"),
	ROW(ended_inside,
	    "@0: kupaldiz_enter: thread @t has ended inside this section\n"),
	ROW(ended_holding,
	    "@0: kupaldiz_get: thread @t has ended with this reference to wm\n"),
	ROW(program_ended_holding,
	    "@0: kupaldiz_get: thread @t has ended with this reference to wm\n"),
	ROW(program_failed, ""),
	ROW(left_local,
	    "@0: kupaldiz_get_local: the registry was closed with this local reference to wm\n"),
	ROW(ended_counting, "local, CPU 0, @0, thread @t, which has ended\n"),
	ROW(waits_for_own,
	    "@1: kupaldiz_destroy_wait: this thread's own reference holds the entry: wm's "
	    "reference 1, acquired at @0\n"),
	ROW(in_a_signal,
	    "@1: kupaldiz_depth: a signal handler makes this call, within kupaldiz_find at @0\n"),
	ROW(in_a_child,
	    "@0: kupaldiz_depth: the registry was opened at @8, before the fork of this "
	    "process\n"),
	ROW(cancelled_anywhere,
	    "@0: kupaldiz_depth: asynchronous cancellation of this thread is enabled\n"),
	ROW(overlapping,
	    "@0: kupaldiz_look_up: the name lies within the entry that the call writes\n"),
	ROW(told_interlock,
	    "@1: kupaldiz_attach: this thread doesn't hold the keeper's interlock, known by "
	    "kupaldiz_check_interlock at @0\n"),
	ROW(append_without,
	    "@1: kupaldiz_deferred_add: this thread doesn't hold the keeper's interlock, known "
	    "by kupaldiz_check_interlock at @0\n"),
	ROW(learned_interlock,
	    "@1: kupaldiz_settings_of: this thread doesn't hold the keeper's interlock, known "
	    "by kupaldiz_perform_wait at @0\n"),
	ROW(waits_for_itself,
	    "@0: kupaldiz_release_local: this thread holds the interlock, which the call "
	    "takes\n"),
	ROW(open_at_close,
	    "@1: kupaldiz_close: CPU 1 is inside the section that began at @0\n"),
	ROW(waits_inside,
	    "@1: kupaldiz_destroy_wait: this thread is inside the section that began on CPU 1 "
	    "at @0\n"),
	ROW(barrier_inside,
	    "@1: kupaldiz_deferred_barrier: this thread is inside the section that began on "
	    "CPU 1 at @0\n"),
	ROW(who_holds,
	    "local, CPU 1, @3, thread @t\n"
	    "passive, CPU 0, @1, thread @t\npassive, CPU 0, @0, thread @t\n"
	    "section, CPU 1, @2, thread @t\n"
	    "passive, CPU 0, @1, thread @t\npassive, CPU 0, @0, thread @t\n"),
	ROW(released_twice_in_table,
	    "@1: kupaldiz_table_release: wm's reference 1 was released already at @0\n"),
	ROW(left_in_table,
	    "@1: kupaldiz_table_give: wm's reference 1, acquired at @0, stays on CPU 0\n"),
	ROW(waits_for_own_in_table,
	    "@1: kupaldiz_table_destroy: this thread's own reference holds the entry: wm's "
	    "reference 1, acquired at @0\n"),
	ROW(who_holds_in_table,
	    "passive, CPU 0, @0, thread @t\nlocal, CPU 0, @1, thread @t\n"
	    "local, CPU 0, @2, thread @t\nsection, CPU 0, @3, thread @t\n"),
	ROW(handed_over, ""),
	ROW(made_again, ""),
	ROW(given_back, ""),
	ROW(largest, ""),
	ROW(without_interlock, ""),
	ROW(recursive, ""),
};

/* The text with places and the thread in it. */
static void fill(char *filled, size_t room, const char *text)
{
	size_t length = 0;
	for (; *text != 0; text++)
		if (*text != '@')
			length += (size_t)snprintf(filled + length, room - length, "%c", *text);
		else if (*++text == 't')
			length += (size_t)snprintf(filled + length, room - length, "%d",
			    lines[THREAD]);
		else
			length += (size_t)snprintf(filled + length, room - length, "%s:%d",
			    __FILE__, lines[*text - '0']);
	filled[length] = 0;
}

/* An emulator says more of an abort. */
static bool is_as(const struct row *row, const char *said, const char *wanted, int status)
{
	if (row->says[0] != '@')
		return strcmp(said, wanted) == 0 && WIFEXITED(status) &&
		    WEXITSTATUS(status) == lines[STATUS];
	return strncmp(said, wanted, strlen(wanted)) == 0 && WIFSIGNALED(status) &&
	    WTERMSIG(status) == SIGABRT;
}

static bool holds(const struct row *row)
{
	char said[1000], wanted[1000];
	int status = run_in_child(open_both, row->body, said, sizeof said);
	fill(wanted, sizeof wanted, row->says);
	if (is_as(row, said, wanted, status))
		return true;
	printf("FAILED  %s, with status %x. It said:\n%sWanted:\n%s", row->name,
	    (unsigned)status, said, wanted);
	return false;
}

int main(void)
{
	unsigned failed = 0;
	interlock = kupaldiz_interlock_of_mutex(&one.keeper, &mutex);
	wm = name_of("wm");
	wm0 = name_of("wm0");
	lines = mmap(NULL, 10 * sizeof *lines, PROT_READ | PROT_WRITE, MAP_SHARED | MAP_ANONYMOUS,
	    -1, 0);
	EXPECT(lines != MAP_FAILED);
	for (size_t i = 0; i < COUNT_OF(ROWS); i++)
		failed += !holds(&ROWS[i]);
	printf("%zu rows, %u failed\n", COUNT_OF(ROWS), failed);
	return failed != 0;
}
