/*
 * misuses_of_threads - misuses that depend on a fork, on a cancellation, or on when a thread ends or joins; and the line itself: its places, the names of
 * threads, and one that is too long or can't be written. The linker leads here (--wrap) pthread_mutex_unlock, pthread_create, write, open and close.
 */
#include <fcntl.h>
#include <limits.h>
#include <sys/prctl.h>

#include "stops.h"
#include "wraps.h"

#include "things.h"

/* What runs on a thread of its own before the body of the next one that is started. */
static _Atomic(void *(*)(void *)) comes_before;
static void *(*comes_late)(void *);

static void *begin_late(void *arg)
{
	on_thread(atomic_exchange(&comes_before, NULL));
	return comes_late(arg);
}

int __wrap_pthread_create(pthread_t *thread, const pthread_attr_t *how, void *(*body)(void *), void *arg)
{
	if (atomic_load(&comes_before) == NULL || body == atomic_load(&comes_before))
		return __real_pthread_create(thread, how, body, arg);
	comes_late = body;
	return __real_pthread_create(thread, how, begin_late, arg);
}

static bool is_full;	/* nothing can be written */
static int file = -1;	/* that the layer has open */
static const char *instead;	/* the file that the layer gets for each; NULL where it gets its own */
/* No file is open any more where the line is written. */
ssize_t __wrap_write(int to, const void *bytes, size_t length)
{
	EXPECT(file == -1);
	if (!is_full)
		return __real_write(to, bytes, length);
	errno = ENOSPC;
	return -1;
}

/* No program that another thread starts meanwhile gets the file. */
int __wrap_open(const char *path, int how, ...)
{
	EXPECT(file == -1 && how == (O_RDONLY | O_CLOEXEC));
	return file = __real_open(instead == NULL ? path : instead, how);
}

int __wrap_close(int old)
{
	if (old == file)
		file = -1;
	return __real_close(old);
}

static kmutex_t held;
static pthread_key_t early;	/* made before the layer's: its destructor runs before that in each round */
static struct psref psref;
static lwp_t *worker;

/* The destructor gives the reference back in the last round of all. */
static void release_last(void *rounds)
{
	if (++*(unsigned *)rounds < PTHREAD_DESTRUCTOR_ITERATIONS)
		EXPECT(pthread_setspecific(early, rounds) == 0);
	else
		psref_release(&psref, &target, things);
}

static void begin(void)
{
	EXPECT(pthread_key_create(&early, release_last) == 0);
	kupaldiz_bind(0);
	make_things(IPL_NONE);
	mutex_init(&held, MUTEX_DEFAULT, IPL_NONE);
	mutex_enter(&held);
}

/* The layer isn't for the child of a fork whose parent has called it. */
STOPS("pserialize_read_enter: in the child of a fork",
    int status; pid_t child = fork(); EXPECT(child >= 0);
    if (child == 0) {
	    pserialize_read_enter();
	    _exit(0);
    }
    EXPECT(waitpid(child, &status, 0) == child && WIFSIGNALED(status)); abort())

/* The layer ends a thread one round before. */
THREAD(end_holding,
    static unsigned rounds; EXPECT(pthread_setspecific(early, &rounds) == 0); kupaldiz_bind(1); psref_acquire(&psref, &target, things))
ENDS("pthread_exit: the thread has passive references", on_thread(end_holding))

/* Two join one thread: the first has found it, and doesn't wait for it yet. */
static void join_at(const char *place) { kupaldiz_at(place); EXPECT((kthread_join)(worker) == 0); }
HANDLER(exit_at_once, kthread_exit(0))
THREAD(join_second, join_at("the second call"))
static void join_beside(void) { on_thread(join_second); }
ENDS("kthread_join: no thread that was made with KTHREAD_MUSTJOIN, at the second call",
    EXPECT(kthread_create(PRI_NONE, KTHREAD_MUSTJOIN, NULL, exit_at_once, NULL, &worker, "worker") == 0); after = join_beside; join_at("the first call"))

/* A soft interrupt whose end waits for its handler isn't established any more. */
static void *cookie;
static atomic_bool runs;
HANDLER(run_long, atomic_store(&runs, true); stay_here())
/* Schedules itself, which takes no other CPU. */
HANDLER(run_again,
    atomic_store(&runs, true);
    for (;;) {
	    softint_schedule(cookie);
	    sleep_for(100);
    })

static void run_on_4(void (*handler)(void *))
{
	cookie = softint_establish(SOFTINT_NET, handler, NULL);
	kupaldiz_unbind();
	kupaldiz_bind(4);
	softint_schedule(cookie);
	kupaldiz_unbind();
	await_flag(&runs);
}
THREAD(end_softint, softint_disestablish(cookie))
STOPS("softint_schedule: the soft interrupt is not established", run_on_4(run_again); on_thread(end_softint))
STOPS("softint_disestablish: the soft interrupt is not established",
    pthread_t ender; run_on_4(run_long); start_thread(&ender, end_softint, NULL); on_thread(end_softint))

/* The same while the thread for its handler begins. */
HANDLER(run_never, (void)0)
STOPS("softint_schedule: the soft interrupt is not established",
    cookie = softint_establish(SOFTINT_NET, run_never, NULL); atomic_store(&comes_before, end_softint); softint_schedule(cookie))

/* There is room for six places. One more begins anew: the call after the next one has none. */
ENDS("mutex_enter: the thread has the lock already, taken at the seventh place",
    for (unsigned i = 0; i < 6; i++)
	    kupaldiz_at("one of six places");
    kupaldiz_at("the seventh place");
    EXPECT((mutex_tryenter)(&lock)); (mutex_enter)(&lock))

/* A thread that was cancelled and hasn't come to its end yet. The line has the name of a thread: the layer asks the system for it. */
THREAD(destroy_cancelled, EXPECT(pthread_cancel(pthread_self()) == 0); mutex_destroy(&held))
STOPS("mutex_destroy: the lock is held: thread \"misuses_of_thre\" took it at PLACE", on_thread(destroy_cancelled))

enum { ROOM = 512, TEXT = 500, MOST = ROOM - 2 };	/* a line has MOST bytes, and its newline */

static char long_text[TEXT + 1], long_place[MOST], whole[MOST + 1];

/* The longest line that is written whole: of a text as much as there is room for, and so long a place. */
static size_t write_whole(void)
{
	memset(long_text, 'a', TEXT);
	memset(long_place, 'b', sizeof(long_place) - 1);
	size_t begun = (size_t)snprintf(whole, sizeof(whole), "KASSERT: not so: %.311s, at ", long_text);
	memset(whole + begun, 'b', MOST - begun);
	return MOST - begun;
}

static void report_with_place(size_t length)
{
	long_place[length] = '\0';
	kupaldiz_failed("KASSERT", long_text, long_place);
}
ENDS(whole, report_with_place(write_whole()))
ENDS(whole, report_with_place(write_whole() + 1))
/* What can't be written is told by the reason. */
ENDS("KASSERT: No space left on device", is_full = true; kupaldiz_failed("KASSERT", "1 + 1 == 3", NULL))

static atomic_bool ready;

HANDLER(keep_lock, mutex_enter(&lock); atomic_store(&ready, true); stay_here())
THREAD(name_and_keep, EXPECT(prctl(PR_SET_NAME, arg) == 0); keep_lock(NULL))
static void destroy_taken(void) { await_flag(&ready); mutex_destroy(&lock); }

static void destroy_of(const char *name)
{
	pthread_t thread;
	char text[16];
	snprintf(text, sizeof(text), "%s", name);
	start_thread(&thread, name_and_keep, text);
	destroy_taken();
}

#define TAKEN_BY(name)	"mutex_destroy: the lock is held: thread \"" name "\" took it at PLACE, at PLACE"
ENDS(TAKEN_BY("w"), EXPECT(kthread_create(PRI_NONE, 0, NULL, keep_lock, NULL, NULL, "w") == 0); destroy_taken())
ENDS(TAKEN_BY("fifteen_letters"), destroy_of("fifteen_letters"))
ENDS(TAKEN_BY(""), destroy_of(""))
/* The first file that is opened then is the one of number 0. */
ENDS(TAKEN_BY("keeper"), __real_close(STDIN_FILENO); destroy_of("keeper"))
ENDS(TAKEN_BY("?"), instead = "/dev/null/none"; destroy_of("keeper"))
ENDS(TAKEN_BY("?"), instead = "/dev/null"; destroy_of("keeper"))

int main(void)
{
	write_whole();
	return run_cases(begin);
}
