/* softints - where and when soft interrupts run. Levels, locks that a handler waits for, calls that offer the CPU at their end */
#include "test.h"
#include "things.h"

#include "src/layer.h"

static kmutex_t spin;
static atomic_uint runs, waits;
static atomic_int ran_on;
static unsigned order[4], ordered;

static void handle(void *arg)
{
	EXPECT(cpu_softintr_p() && (curlwp->l_pflag & LP_INTR) != 0 && !pserialize_in_read_section());
	atomic_store(&ran_on, (int)cpu_number());
	atomic_fetch_add((atomic_uint *)arg, 1);
}

/* If the thread has its CPU, the handler has run when the call that scheduled it returns. If nobody has it, it runs soon. */
static void test_runs(bool is_inside)
{
	void *cookie = softint_establish(SOFTINT_NET | SOFTINT_MPSAFE, handle, &runs);
	unsigned before = atomic_load(&runs);
	EXPECT(cookie != NULL);
	for (unsigned round = 0; round < 50; round++) {
		atomic_store(&ran_on, -1);
		int s = is_inside ? pserialize_read_enter() : 0;
		EXPECT(!cpu_softintr_p());
		softint_schedule(cookie);
		while (!is_inside && atomic_load(&runs) == before + round)
			sleep_for(10);
		EXPECT(atomic_load(&runs) == before + round + 1 && atomic_load(&ran_on) == (int)cpu_number());
		EXPECT(pserialize_in_read_section() == is_inside);
		if (is_inside)
			pserialize_read_exit(s);
	}
	softint_disestablish(cookie);
}

static const int levels[] = {[SOFTINT_CLOCK] = IPL_SOFTCLOCK, [SOFTINT_BIO] = IPL_SOFTBIO, [SOFTINT_NET] = IPL_SOFTNET, [SOFTINT_SERIAL] = IPL_SOFTSERIAL};
static atomic_int level_found;

/* A handler is at its own level, and is back at it once a higher one is over. */
BODY(note_level)
{
	int s = splnet();
	EXPECT(splhigh() == IPL_NET);
	splx(s);
	EXPECT(splsoftclock() == s);
	atomic_store(&level_found, s);
}

static void test_own_level(void)
{
	for (unsigned flags = SOFTINT_CLOCK; flags <= SOFTINT_SERIAL; flags++) {
		void *cookie = softint_establish(flags | SOFTINT_MPSAFE, note_level, NULL);
		int s = pserialize_read_enter();
		softint_schedule(cookie);
		EXPECT(atomic_load(&level_found) == levels[flags]);
		pserialize_read_exit(s);
		softint_disestablish(cookie);
	}
}

HANDLER(note, order[ordered++] = *(unsigned *)arg)

/* A level keeps off what isn't above it. What waits runs once the level is lower, the highest first; once, however often it was scheduled. */
static void test_levels(void)
{
	static unsigned clock = SOFTINT_CLOCK, net = SOFTINT_NET, serial = SOFTINT_SERIAL;
	void *low = softint_establish(SOFTINT_CLOCK, note, &clock), *middle = softint_establish(SOFTINT_NET, note, &net);
	void *high = softint_establish(SOFTINT_SERIAL, note, &serial);
	int s = splsoftnet();
	EXPECT(s == IPL_NONE);
	for (unsigned turn = 0; turn < 3; turn++) {
		softint_schedule(low);
		softint_schedule(middle);
	}
	EXPECT(ordered == 0);
	softint_schedule(high);
	EXPECT(ordered == 1 && order[0] == SOFTINT_SERIAL);
	softint_schedule(high);
	EXPECT(ordered == 2 && order[1] == SOFTINT_SERIAL);
	kpreempt_disable();
	splx(s);
	EXPECT(ordered == 4 && order[2] == SOFTINT_NET && order[3] == SOFTINT_CLOCK);
	kpreempt_enable();
	softint_disestablish(low);
	softint_disestablish(middle);
	softint_disestablish(high);
}

static void handle_locked(void *arg)
{
	atomic_fetch_add(&waits, 1);
	mutex_enter(&lock);
	atomic_fetch_add((atomic_uint *)arg, 1);
	mutex_exit(&lock);
}

HANDLER(count_run, atomic_fetch_add((atomic_uint *)arg, 1))

/* While a handler waits for a lock, those of other levels run on its CPU, above and below; one of its own level waits. */
static void test_levels_apart(void)
{
	static const unsigned flags[] = {SOFTINT_NET, SOFTINT_CLOCK, SOFTINT_BIO, SOFTINT_SERIAL};
	atomic_uint done = 0, ran[4] = {0};
	void *cookie = softint_establish(SOFTINT_NET, handle_locked, &done), *others[4];
	unsigned before = atomic_load(&waits);
	mutex_enter(&lock);
	softint_schedule(cookie);
	await_least(&waits, before + 1);
	for (unsigned at = 0; at < 4; at++) {
		others[at] = softint_establish(flags[at], count_run, &ran[at]);
		softint_schedule(others[at]);
	}
	for (unsigned at = 1; at < 4; at++)
		await_least(&ran[at], 1);
	EXPECT(atomic_load(&done) == 0 && atomic_load(&ran[0]) == 0);
	mutex_exit(&lock);
	await_least(&ran[0], 1);
	EXPECT(atomic_load(&done) == 1);
	for (unsigned at = 0; at < 4; at++)
		softint_disestablish(others[at]);
	softint_disestablish(cookie);
}

/* The thread that is interrupted has the lock that the handler waits for, and goes on. It gives the lock back, and keeps its CPU: the handler goes on between
 * two of its calls, once the level is below the handler's. */
static void test_blocked_inside(void)
{
	atomic_uint done = 0;
	unsigned before = atomic_load(&waits);
	void *cookie = softint_establish(SOFTINT_NET, handle_locked, &done);
	mutex_enter(&lock);
	int s = pserialize_read_enter();
	softint_schedule(cookie);
	EXPECT(atomic_load(&waits) == before + 1 && atomic_load(&done) == 0);
	int level = splsoftnet();
	mutex_exit(&lock);
	for (unsigned turn = 0; turn < 30; turn++) {
		sleep_for(100);
		pserialize_read_exit(pserialize_read_enter());
		EXPECT(atomic_load(&done) == 0);
	}
	splx(level);
	while (atomic_load(&done) == 0) {
		sleep_for(100);
		pserialize_read_exit(pserialize_read_enter());
	}
	EXPECT(atomic_load(&done) == 1 && pserialize_in_read_section());
	pserialize_read_exit(s);
	softint_disestablish(cookie);
}

static krwlock_t rw;
static atomic_bool holds;

/* Until another thread waits for the lock whose word this is, and has given its CPU up. */
static void await_waiter(const uintptr_t *word)
{
	while ((__atomic_load_n(word, __ATOMIC_RELAXED) & 1) == 0)
		sleep_for(50);
}

static void await_reader(void)
{
	bool has_waiter = false;
	while (!has_waiter) {
		sleep_for(50);
		sleepq_lock(sleepq_of(&rw));
		has_waiter = sleepq_has_waiter(sleepq_of(&rw), &rw);
		sleepq_unlock(sleepq_of(&rw));
	}
}

/* Has both locks until it was in a section of the CPU whose level another thread has raised. */
static void *hold_both(void *arg)
{
	kupaldiz_bind(2);
	mutex_enter(&lock);
	rw_enter(&rw, RW_WRITER);
	atomic_store(&holds, true);
	await_waiter(&lock.mtx_word);
	pserialize_read_exit(pserialize_read_enter());
	mutex_exit(&lock);
	await_reader();
	pserialize_read_exit(pserialize_read_enter());
	rw_exit(&rw);
	return arg;
}

/* A thread at a raised level waits for a lock: its CPU is another thread's meanwhile, and its own when it goes on, at that level. */
static void test_raised(void)
{
	pthread_t holder;
	rw_init(&rw);
	start_thread(&holder, hold_both, NULL);
	await_flag(&holds);
	int s = splnet();
	mutex_enter(&lock);
	EXPECT(mutex_owned(&lock) && kpreempt_disabled());
	rw_enter(&rw, RW_READER);
	EXPECT(rw_read_held(&rw) && kpreempt_disabled() && splnet() == IPL_VM);
	rw_exit(&rw);
	mutex_exit(&lock);
	splx(s);
	end_thread(holder);
	rw_destroy(&rw);
}

/* Releases its reference, once the level of its CPU is raised. */
static void *release_beside(void *arg)
{
	struct psref passed;
	kupaldiz_bind(2);
	psref_acquire(&passed, &target, things);
	atomic_store(&holds, true);
	await_flag(arg);
	psref_release(&passed, &target, things);
	return NULL;
}

/* A thread sleeps at a raised level, as if_detach does: others have its CPU meanwhile. Afterwards it has the level again, which keeps soft interrupts off. */
static void test_sleep_at_level(void)
{
	atomic_bool raised = false;
	atomic_uint ran = 0;
	void *cookie = softint_establish(SOFTINT_NET, count_run, &ran);
	pthread_t holder;
	atomic_store(&holds, false);
	start_thread(&holder, release_beside, &raised);
	await_flag(&holds);
	int s = splnet();
	atomic_store(&raised, true);
	psref_target_destroy(&target, things);
	EXPECT(kpreempt_disabled() && splnet() == IPL_NET);
	softint_schedule(cookie);
	EXPECT(atomic_load(&ran) == 0);
	splx(s);
	await_least(&ran, 1);
	end_thread(holder);
	softint_disestablish(cookie);
	psref_target_init(&target, things);
}

/* Soft interrupts run at the end of a section whose thread keeps its CPU; inside it only by the stricter rules. */
static void test_section(bool strict)
{
	atomic_uint ran = 0;
	void *cookie = softint_establish(SOFTINT_SERIAL, count_run, &ran);
	kupaldiz_set_strict(strict);
	kpreempt_disable();
	int s = pserialize_read_enter();
	softint_schedule(cookie);
	EXPECT(atomic_load(&ran) == strict);
	pserialize_read_exit(s);
	EXPECT(atomic_load(&ran) == 1);
	kpreempt_enable();
	softint_disestablish(cookie);
}

static void perform_raised(void)
{
	int s = splnet();
	pserialize_perform(psz);
	EXPECT(kpreempt_disabled());
	splx(s);
}

static void perform_in_call(void *one, void *other) { (void)one; (void)other; perform_raised(); }
static void do_nothing(void *one, void *other) { (void)one; (void)other; }

/* A function of xcall(9) may do so, too, unless it has high priority; and so may the thread that has called for one with that. */
static void test_sleep_in_call(void)
{
	xc_wait(xc_unicast(0, perform_in_call, NULL, NULL, kupaldiz_cpu(1)));
	xc_wait(xc_unicast(XC_HIGHPRI, do_nothing, NULL, NULL, kupaldiz_cpu(1)));
	perform_raised();
}

static void do_work(struct work *work, void *arg) { EXPECT(work != NULL); atomic_fetch_add((atomic_uint *)arg, 1); }

/* The queue's own lock spins, at the level of a device. */
static void test_works_at_level(void)
{
	struct workqueue *queue;
	struct work work;
	atomic_uint done = 0;
	int s = splnet();
	EXPECT(workqueue_create(&queue, "queue", do_work, &done, PRI_NONE, IPL_VM, WQ_MPSAFE) == 0);
	workqueue_enqueue(queue, &work, NULL);
	workqueue_wait(queue, &work);
	EXPECT(atomic_load(&done) == 1 && kpreempt_disabled());
	workqueue_destroy(queue);
	EXPECT(splnet() == IPL_NET);
	splx(s);
}

/* A handler takes a lock of IPL_NONE. */
static void test_lock_of_none(void)
{
	atomic_uint done = 0;
	void *cookie = softint_establish(SOFTINT_NET, handle_locked, &done);
	mutex_destroy(&lock);
	mutex_init(&lock, MUTEX_DEFAULT, IPL_NONE);
	softint_schedule(cookie);
	await_least(&done, 1);
	softint_disestablish(cookie);
}

/* ---- Each call at whose end a thread that goes on with its CPU offers it to the soft interrupts that wait. ---- */

static percpu_t *percpu;
static callout_t callout;
static void *other;
static atomic_bool fired;
static struct psref held, psref;
static int section;

HANDLER(fire, atomic_store(&fired, true))
HANDLER(nothing, (void)0)

static struct offer {
	const char *name;
	void (*before)(void), (*call)(void), (*after)(void);
} offers[20];
static unsigned offer_count;

/* A call, with what comes before it and after it. */
#define OFFERS(name, earlier, made, later) \
	static void before_##name(void) { earlier; } \
	static void call_##name(void) { made; } \
	static void after_##name(void) { later; } \
	__attribute__((constructor)) static void add_##name(void) \
	{ \
		offers[offer_count++] = (struct offer){#name, before_##name, call_##name, after_##name}; \
	}

OFFERS(pserialize_read_enter, (void)0, section = pserialize_read_enter(), pserialize_read_exit(section))
OFFERS(pserialize_read_exit, section = pserialize_read_enter(), pserialize_read_exit(section), (void)0)
OFFERS(psref_acquire, (void)0, psref_acquire(&psref, &target, things), psref_release(&psref, &target, things))
OFFERS(psref_release, psref_acquire(&psref, &target, things), psref_release(&psref, &target, things), (void)0)
OFFERS(psref_copy, (void)0, psref_copy(&psref, &held, things), psref_release(&psref, &target, things))
OFFERS(psref_held, (void)0, EXPECT(psref_held(&target, things)), (void)0)
OFFERS(localcount_acquire, (void)0, localcount_acquire(&count), localcount_release(&count, &cv, &lock))
OFFERS(localcount_release, localcount_acquire(&count), localcount_release(&count, &cv, &lock), (void)0)
OFFERS(cv_signal, (void)0, cv_signal(&cv), (void)0)
OFFERS(cv_broadcast, (void)0, cv_broadcast(&cv), (void)0)
OFFERS(softint_schedule, (void)0, softint_schedule(other), (void)0)
OFFERS(mutex_exit, (void)0, mutex_enter(&spin); mutex_exit(&spin), (void)0)
OFFERS(mutex_spin_exit, (void)0, mutex_spin_enter(&spin); mutex_spin_exit(&spin), (void)0)
OFFERS(splx, (void)0, splx(splsoftserial()), (void)0)
OFFERS(kpreempt_enable, (void)0, kpreempt_disable(); kpreempt_enable(), (void)0)
OFFERS(percpu_putref, (void)0, (void)percpu_getref(percpu); percpu_putref(percpu), (void)0)

/* A callout that is due runs by the end of the call, and not before it. */
static void test_offer(const struct offer *offer)
{
	int s = pserialize_read_enter();
	atomic_store(&fired, false);
	offer->before();
	callout_reset(&callout, 1, fire, NULL);
	while (!is_interrupted(kupaldiz_self))
		sleep_for(100);
	bool early = atomic_load(&fired);
	offer->call();
	bool offered = !early && atomic_load(&fired);
	offer->after();
	pserialize_read_exit(s);
	if (!offered)
		fprintf(stderr, "%s offers the CPU to nobody\n", offer->name);
	EXPECT(offered);
}

static void test_offers(void)
{
	percpu = percpu_alloc(sizeof(int));
	callout_init(&callout, CALLOUT_MPSAFE);
	other = softint_establish(SOFTINT_CLOCK, nothing, NULL);
	psref_acquire(&held, &target, things);
	EXPECT(offer_count == 16);
	for (unsigned place = 0; place < offer_count; place++)
		test_offer(&offers[place]);
	psref_release(&held, &target, things);
	callout_destroy(&callout);
	softint_disestablish(other);
	percpu_free(percpu, sizeof(int));
}

int main(void)
{
	make_things(IPL_SOFTNET);
	mutex_init(&spin, MUTEX_DEFAULT, IPL_NET);
	kupaldiz_bind(2);
	test_runs(false);
	test_levels();
	test_levels_apart();
	test_raised();
	test_sleep_at_level();
	test_sleep_in_call();
	test_works_at_level();
	test_section(false);
	test_section(true);
	test_runs(true);
	test_own_level();
	test_blocked_inside();
	test_offers();
	kupaldiz_set_strict(false);
	test_lock_of_none();
	mutex_destroy(&spin);
	end_things();
	puts("soft interrupts ran where and when they may");
	return 0;
}
