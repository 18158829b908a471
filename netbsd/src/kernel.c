/* kernel.c - assertions, panic(9), kpause(9), kthread(9) and copy_user(9) */
#include "layer.h"

void panic(const char *format, ...)
{
	char text[256];
	FORMAT(text, format);
	struct thread *me = begin_call(__func__);
	stop(me, "%s", text);
}

void kupaldiz_failed(const char *what, const char *text, const char *place)
{
	stop_at(what, place, "not so: %s", text);
}

void kupaldiz_failed_with(const char *place, const char *text, const char *format, ...)
{
	char more[256];
	FORMAT(more, format);
	stop_at("KASSERTMSG", place, "not so: %s: %s", text, more);
}

void kupaldiz_assert_sleepable(void) { require_sleepable(begin_call("ASSERT_SLEEPABLE")); }

/* The clock that nobody sets, in nanoseconds. */
int64_t now(void)
{
	struct timespec time = time_after(0);
	return (int64_t)time.tv_sec * 1000000000 + time.tv_nsec;
}

static int ticks_a_second = 100;

int kupaldiz_hz(void) { return ticks_a_second; }
int64_t tick_length(void) { return 1000000000 / ticks_a_second; }

void kupaldiz_set_hz(int number)
{
	struct thread *me = begin_call(__func__);
	stop_if(me, number < 1 || number > 1000000, "no number of ticks a second");
	ticks_a_second = number;
}

bool is_strict;

void kupaldiz_set_strict(bool strict) { is_strict = strict; }

int getticks(void) { return (int)(now() / tick_length()); }
time_t getuptime(void) { return time_after(0).tv_sec; }

void delay(unsigned microseconds)
{
	int64_t end = now() + (int64_t)microseconds * 1000;
	do
		sched_yield();
	while (now() < end);
}

int kpause(const char *name, bool interruptible, int ticks, kmutex_t *mutex)
{
	struct thread *me = begin_call(__func__);
	int64_t nanoseconds = ticks * tick_length();
	struct timespec left = {nanoseconds / 1000000000, nanoseconds % 1000000000};
	(void)name;
	if (mutex != NULL)
		release_mutex(me, mutex);
	require_sleepable(me);
	stop_if(me, ticks <= 0, "no time to sleep for");
	bool ended = interruptible && FAILS();
	struct sleep sleep = begin_sleep(me);
	if (ended)
		sched_yield();
	while (!ended && nanosleep(&left, &left) != 0)
		;	/* a signal has come to the process, which isn't the thread's */
	end_sleep(me, sleep);
	if (mutex != NULL)
		acquire_mutex(me, mutex);
	return ended ? EINTR : EWOULDBLOCK;
}

/* ---- kthread(9) ---- */

struct kthread {
	pthread_t id;
	struct thread *thread;
	lwp_t **begun;			/* where its maker waits for it */
	struct cpu_info *cpu;
	void (*body)(void *);
	void *arg;
	bool joined;
	char name[32];
	struct kthread *next;
};

static pthread_mutex_t kthreads_lock = PTHREAD_MUTEX_INITIALIZER;
static pthread_cond_t kthread_begun = PTHREAD_COND_INITIALIZER;
static struct kthread *kthreads;	/* those that are joined at their end */

static void *run_kthread(void *of)
{
	struct kthread *kthread = of;
	void (*body)(void *) = kthread->body;
	void *arg = kthread->arg;
	struct thread *me = named_thread("kthread_create", kthread->name);
	me->kthread = true;
	me->kept = kthread->joined;
	if (kthread->cpu != NULL)
		bind_to(me, &cpus[kthread->cpu->ci_index]);
	pthread_mutex_lock(&kthreads_lock);
	if (kthread->joined) {
		kthread->next = kthreads;
		kthreads = kthread;
	}
	kthread->thread = me;
	*kthread->begun = &me->lwp;
	pthread_cond_broadcast(&kthread_begun);
	pthread_mutex_unlock(&kthreads_lock);
	body(arg);
	stop_at("kthread_create", NULL, "the body returned without kthread_exit");
}

/* Once it has begun another thread may join and free it, if it is to be joined. */
int kthread_create(pri_t priority, int flags, struct cpu_info *cpu, void (*body)(void *), void *arg, lwp_t **made, const char *format, ...)
{
	struct thread *me = sleepable(begin_call(__func__));
	if (FAILS())
		return ENOMEM;
	struct kthread *kthread = memory(me, sizeof(*kthread));
	bool joined = (flags & KTHREAD_MUSTJOIN) != 0;
	(void)priority;
	lwp_t *lwp = NULL;
	*kthread = (struct kthread){.begun = &lwp, .cpu = cpu, .body = body, .arg = arg, .joined = joined};
	FORMAT(kthread->name, format);
	int waits = begin_wait();
	pthread_mutex_lock(&kthreads_lock);
	int answer = pthread_create(&kthread->id, NULL, run_kthread, kthread);
	while (answer == 0 && lwp == NULL)
		pthread_cond_wait(&kthread_begun, &kthreads_lock);
	pthread_mutex_unlock(&kthreads_lock);
	if (answer == 0 && !joined)
		pthread_detach(kthread->id);
	if (answer == 0 && made != NULL) {
		TELL_WRITE(made, sizeof(*made));
		*made = lwp;
	}
	end_wait(waits);
	if (answer != 0 || !joined)
		free(kthread);
	return answer;
}

void kthread_exit(int code)
{
	struct thread *me = begin_call(__func__);
	(void)code;
	stop_if(me, !me->kthread, "kthread_create did not make this thread");
	pthread_exit(NULL);
}

void await_thread(struct thread *me, pthread_t id, const struct thread *thread)
{
	struct pauses pauses = begin_pauses();
	struct sleep sleep = begin_sleep(me);
	while (pthread_tryjoin_np(id, NULL) == EBUSY)
		if (pause_longer(&pauses))
			report(me, "waits for thread \"%s\" to end", NAME_OF(thread));
	end_sleep(me, sleep);
}

int kthread_join(lwp_t *thread)
{
	struct thread *me = sleepable(begin_call(__func__));
	struct kthread **at = &kthreads;
	pthread_mutex_lock(&kthreads_lock);
	while (*at != NULL && &(*at)->thread->lwp != thread)
		at = &(*at)->next;
	struct kthread *found = *at;
	if (found != NULL)
		*at = found->next;
	pthread_mutex_unlock(&kthreads_lock);
	stop_if(me, found == NULL, "no thread that was made with KTHREAD_MUSTJOIN");
	await_thread(me, found->id, found->thread);
	reuse_thread(found->thread);
	free(found);
	return 0;
}

/* ---- copy_user(9) ---- */

static bool is_mapped(const void *user) { return (uintptr_t)user >= 4096; }

static int copy_user(struct thread *me, const void *from, void *to, const void *user, size_t length)
{
	require_sleepable(me);
	if (length > 0 && !is_mapped(user))
		return EFAULT;
	if (length == 0)
		return 0;
	TELL_READ(from, length);
	TELL_WRITE(to, length);
	memcpy(to, from, length);
	return 0;
}

int copyin(const void *user, void *kernel, size_t length)
{
	return copy_user(begin_call(__func__), user, kernel, user, length);
}

int copyout(const void *kernel, void *user, size_t length)
{
	return copy_user(begin_call(__func__), kernel, user, user, length);
}

static int copy_text(struct thread *me, const char *from, char *to, const void *user, size_t length, size_t *copied)
{
	require_sleepable(me);
	if (!is_mapped(user))
		return EFAULT;
	size_t all = strnlen(from, length);
	size_t count = all < length ? all + 1 : length;
	TELL_READ(from, count);
	TELL_WRITE(to, count);
	memcpy(to, from, count);
	if (copied != NULL) {
		TELL_WRITE(copied, sizeof(*copied));
		*copied = count;
	}
	return all < length ? 0 : ENAMETOOLONG;
}

int copyinstr(const void *user, void *kernel, size_t length, size_t *copied)
{
	return copy_text(begin_plain(__func__), user, kernel, user, length, copied);
}

int copyoutstr(const void *kernel, void *user, size_t length, size_t *copied)
{
	return copy_text(begin_plain(__func__), kernel, user, user, length, copied);
}
