/* misuses - what the manual pages forbid and a call sees: each case ends its process with its line. The explorer runs them, too. */
#include <limits.h>

#include "stops.h"
#include "things.h"

static struct psref_target other;
static struct psref psref, second, third;
static struct localcount other_count;
static kmutex_t softlock, spin, other_spin, softspin, wrong_lock;
static kcondvar_t wrong_cv;
static krwlock_t rw;
static struct pool pool, other_pool;
static pool_cache_t cache;
static percpu_t *percpu;
static void *softint;
static callout_t callout;
static lwp_t *worker;
static char here[8], there[8];
static atomic_bool ready;

/* What no case initialises, unless it destroys it. */
static kmutex_t no_lock;
static kcondvar_t no_cv;
static krwlock_t no_rw;
static callout_t no_callout;

HANDLER(nothing, (void)0)

static void begin(void)
{
	kupaldiz_bind(0);
	make_things(IPL_NONE);
	mutex_init(&wrong_lock, MUTEX_DEFAULT, IPL_NONE);
	mutex_init(&softlock, MUTEX_DEFAULT, IPL_SOFTNET);
	mutex_init(&spin, MUTEX_DEFAULT, IPL_VM);
	mutex_init(&other_spin, MUTEX_DEFAULT, IPL_VM);
	mutex_init(&softspin, MUTEX_SPIN, IPL_SOFTNET);
	cv_init(&wrong_cv, "wrong");
	rw_init(&rw);
	pool_init(&pool, 24, 0, 0, 0, "thingpl", NULL, IPL_NONE);
	pool_init(&other_pool, 24, 0, 0, 0, "otherpl", NULL, IPL_NONE);
	cache = pool_cache_init(24, 0, 0, 0, "thingpl", NULL, IPL_NONE, NULL, NULL, NULL);
	percpu = percpu_alloc(8);
	softint = softint_establish(SOFTINT_CLOCK, nothing, NULL);
	callout_init(&callout, CALLOUT_MPSAFE);
}

/* ---- What the cases do. ---- */

static void acquire(void)
{
	int s = pserialize_read_enter();
	psref_acquire(&psref, &target, things);
	pserialize_read_exit(s);
}

static void release(void) { psref_release(&psref, &target, things); }

static void count_in(void)
{
	int s = pserialize_read_enter();
	localcount_acquire(&count);
	pserialize_read_exit(s);
}

static void count_out(void) { localcount_release(&count, &cv, &lock); }
static void drain_count(void) { drain(&count); }
THREAD(drain_beside, mutex_enter(&lock); atomic_store(&ready, true); localcount_drain(&count, &cv, &lock); mutex_exit(&lock))

static void await_ready(void)
{
	while (!atomic_load(&ready))
		sleep_for(100);
}

/* Starts a thread that doesn't end. */
static void start_alone(void *(*body)(void *)) { pthread_t thread; start_thread(&thread, body, NULL); }

static void start(void *(*body)(void *)) { start_alone(body); await_ready(); }
static void on_two_threads(void *(*body)(void *)) { start_alone(body); on_thread(body); }

static void (*soft_body)(void *);

HANDLER(run_softly, atomic_store(&ready, true); soft_body(arg))

/* Runs a handler as a soft interrupt, which stops. If it doesn't, the case ends with it. */
static void as_softint(void (*handler)(void *))
{
	soft_body = handler;
	void *cookie = softint_establish(SOFTINT_NET, run_softly, NULL);
	softint_schedule(cookie);
	await_ready();
	softint_disestablish(cookie);
}

static void run_handler(void *handler, void *arg) { (*(void (**)(void *))handler)(arg); }

static void broadcast(unsigned flags, void (*handler)(void *))
{
	xc_wait(xc_broadcast(flags, run_handler, &handler, NULL));
}

/* A callout that runs a handler on CPU 0 while this thread goes on elsewhere. */
static void run_callout(void (*handler)(void *))
{
	soft_body = handler;
	callout_reset(&callout, 1, run_softly, NULL);
	kupaldiz_unbind();
	kupaldiz_bind(1);
	await_ready();
}

static void make_worker(int flags, void (*body)(void *))
{
	EXPECT(kthread_create(PRI_NONE, flags, NULL, body, NULL, &worker, "worker") == 0);
}

static void acquire_at(const char *place, struct psref *into, const struct psref_target *of)
{
	kupaldiz_at(place);
	(psref_acquire)(into, of, things);
}

static void enter_at(const char *place) { kupaldiz_at(place); (mutex_enter)(&lock); }
static void read_at(const char *place) { kupaldiz_at(place); (void)(pserialize_read_enter)(); }
HANDLER(stay_inside, pserialize_read_enter())
HANDLER(stay_locked, mutex_enter(&softlock))
HANDLER(stay_spinning, mutex_enter(&spin))
HANDLER(stay_bound, kpreempt_disable())
HANDLER(stay_raised, splnet())
HANDLER(stay_holding, psref_acquire(&psref, &target, things))
HANDLER(stay_long, stay_here())
HANDLER(exit_at_once, kthread_exit(0))
HANDLER(perform_there, pserialize_perform(psz))
static void function_stays_holding(void *arg, void *nobody) { (void)nobody; stay_holding(arg); }
static void run_nothing(void *arg, void *nobody) { (void)nobody; nothing(arg); }

/* ---- Threads that aren't bound, and bounds that don't go. ---- */

static char beyond[64];

STOPS("psref_acquire: the thread is not bound to a CPU", kupaldiz_unbind(); psref_acquire(&psref, &target, things))
STOPS("psref_held: the thread is not bound to a CPU", kupaldiz_unbind(); psref_held(&target, things))
STOPS("kupaldiz_unbind: the thread is not bound to a CPU", kupaldiz_unbind(); kupaldiz_unbind())
STOPS("curlwp_bindx: the thread is not bound to a CPU", int bound = curlwp_bind(); curlwp_bindx(0); curlwp_bindx(bound))
STOPS("kupaldiz_bind: the thread is bound to CPU 0", kupaldiz_bind(1))
ENDS(beyond, kupaldiz_unbind(); kupaldiz_bind(KUPALDIZ_CPUS))
/* Inside a section the thread has a CPU, if it isn't bound, too. */
STOPS("kupaldiz_bind: inside a read section, entered at PLACE", kupaldiz_unbind(); pserialize_read_enter(); kupaldiz_bind(1))
STOPS("kupaldiz_unbind: inside a read section, entered at PLACE", pserialize_read_enter(); kupaldiz_unbind())
STOPS("curlwp_bindx: the thread has passive references", acquire(); curlwp_bindx(0))
/* A raised level is then the other CPU's. */
STOPS("panic: it is bound",
    int s = splnet(); kupaldiz_unbind(); kupaldiz_bind(1); EXPECT(cpu_number() == 1 && kpreempt_disabled()); splx(s); EXPECT(!kpreempt_disabled());
    panic("it is bound"))

/* ---- What threads, handlers and functions leave behind. ---- */

THREAD(end_inside, kupaldiz_bind(1); pserialize_read_enter())
ENDS("pthread_exit: inside a read section", on_thread(end_inside))
/* The thread isn't bound: it acquires while it has its CPU. */
THREAD(end_holding_unbound, kpreempt_disable(); psref_acquire(&psref, &target, things); kpreempt_enable())
ENDS("pthread_exit: the thread has passive references", on_thread(end_holding_unbound))
THREAD(end_locked, mutex_enter(&lock))
ENDS("pthread_exit: with a lock", on_thread(end_locked))
THREAD(end_spinning, mutex_enter(&spin))
ENDS("pthread_exit: with a lock", on_thread(end_spinning))
THREAD(end_raised, splnet())
ENDS("pthread_exit: with its CPU", on_thread(end_raised))
ENDS("softint: the handler returned inside a read section", as_softint(stay_inside))
ENDS("softint: the handler returned with a lock", as_softint(stay_locked))
ENDS("softint: the handler returned with a lock", as_softint(stay_spinning))
ENDS("softint: the handler returned with preemption disabled", as_softint(stay_bound))
ENDS("softint: the handler returned at a raised level", as_softint(stay_raised))
ENDS("softint: the handler returned with a passive reference", as_softint(stay_holding))
STOPS("xc_broadcast: the function returned with a passive reference", xc_broadcast(0, function_stays_holding, NULL, NULL))
ENDS("xc_unicast: the function returned inside a read section",
    void (*stay)(void *) = stay_inside; xc_wait(xc_unicast(XC_HIGHPRI, run_handler, &stay, NULL, kupaldiz_cpu(3))))
STOPS("xc_broadcast: the function returned with a lock", broadcast(0, stay_locked))
STOPS("xc_broadcast: the function returned at a raised level", broadcast(0, stay_raised))
STOPS("xc_broadcast: the function returned at a raised level", broadcast(XC_HIGHPRI, stay_raised))
STOPS("pserialize_perform: at a raised level", broadcast(XC_HIGHPRI, perform_there))
STOPS("panic: it has performed", broadcast(0, perform_there); panic("it has performed"))

/* ---- pserialize(9). ---- */

STOPS("pserialize_read_exit: outside any read section", pserialize_read_exit(0))
STOPS("pserialize_read_exit: not the section that was entered last",
    int outer = pserialize_read_enter(); pserialize_read_enter(); pserialize_read_exit(outer))
THREAD(perform, pserialize_perform(psz))
/* A struct pserialize begins with the number of those that perform. No call tells it, and only once it is set is a destroy sure to be stopped. */
STOPS("pserialize_destroy: a thread performs with it",
    pserialize_read_enter(); start_alone(perform);
    while (atomic_load((atomic_uint *)psz) == 0)
	    sleep_for(100);
    pserialize_destroy(psz))

/* ---- psref(9). ---- */

THREAD(release_on_0, kupaldiz_bind(0); release())
THREAD(release_on_1, kupaldiz_bind(1); release())
THREAD(destroy_target, psref_target_destroy(&target, things))
STOPS("psref_release: the reference is of thread \"misuses\", acquired at PLACE", acquire(); on_thread(release_on_0))
STOPS("psref_release: the reference is of CPU 0, and this is CPU 1", acquire(); on_thread(release_on_1))
STOPS("psref_release: the reference is not held", release())
/* A reference that was copied by its bytes is one reference all the same. */
STOPS("psref_release: the reference is not held", acquire(); struct psref bytes = psref; release(); psref_release(&bytes, &target, things))
/* The table of the CPU is asked, and not the storage. */
STOPS("psref_acquire: the reference is held already", acquire(); memset(&psref, 0, sizeof(psref)); acquire())
STOPS("psref_copy: the reference is held already", acquire(); psref_copy(&second, &psref, things); psref_copy(&second, &psref, things))
/* The place in the table is used again by another reference. */
STOPS("psref_release: the reference is not held",
    acquire(); struct psref bytes = psref; release(); acquire(); psref_release(&bytes, &target, things))
/* Storage that was never written: its words may be any. The table isn't read beyond its end, which is that of its first room. */
STOPS("psref_release: the reference is not held", acquire(); psref.psref_cpu = KUPALDIZ_CPUS; release())
STOPS("psref_release: the reference is not held", acquire(); psref.psref_index = 16; release())
STOPS("psref_release: the reference was written over", acquire(); psref.psref_target = &other; psref_release(&psref, &other, things))
STOPS("psref_release: the reference is to another target",
    psref_target_init(&other, things); acquire(); psref_release(&psref, &other, things))
STOPS("psref_copy: the reference is not held", psref_copy(&second, &psref, things))
STOPS("psref_acquire: the target is not live", psref_target_destroy(&target, things); acquire())
STOPS("psref_acquire: the target is not live", struct psref_target copied = target; psref_acquire(&psref, &copied, things))
/* Bytes of anything. */
STOPS("psref_acquire: the target is not live", memset(&target, 0xa5, sizeof(target)); psref_acquire(&psref, &target, things))
/* A thread destroys the target and waits for a reference of CPU 0, which goes on acquiring. */
STOPS("psref_acquire: the target is being destroyed",
    acquire(); start_alone(destroy_target);
    for (;;) {
	    psref_acquire(&second, &target, things);
	    psref_release(&second, &target, things);
    })
STOPS("psref_target_destroy: another thread waits for it already", acquire(); on_two_threads(destroy_target))
STOPS("psref_target_destroy: the target is not live", psref_target_destroy(&target, things); psref_target_destroy(&target, things))
STOPS("psref_target_destroy: this thread has a reference to the target, acquired at PLACE", acquire(); psref_target_destroy(&target, things))
/* It is live, and the only one. Its bytes are gone. */
STOPS("psref_target_init: it is live already",
    drain_count(); localcount_fini(&count); memset(&target, 0, sizeof(target)); psref_target_init(&target, things))
/* Many are live, and some are gone. The last one's bytes are gone. */
STOPS("psref_target_init: it is live already",
    static struct psref_target many[200]; const unsigned last = sizeof(many) / sizeof(many[0]) - 1;
    for (unsigned at = 0; at <= last; at++)
	    psref_target_init(&many[at], things);
    for (unsigned at = 0; at < last; at += 2)
	    psref_target_destroy(&many[at], things);
    memset(&many[last], 0, sizeof(many[last])); psref_target_init(&many[last], things))
STOPS("psref_acquire: the target is not of class other",
    struct psref_class *others = psref_class_create("other", IPL_NONE); pserialize_read_enter(); psref_acquire(&psref, &target, others))
STOPS("psref_class_destroy: a target of class thing is live", psref_class_destroy(things))
/* A thread destroys the last target, and waits. As long as a reference is copied the target isn't gone; once it is retired the class still counts it. */
STOPS("psref_class_destroy: a target of class thing is live",
    acquire(); start_alone(destroy_target);
    while (psref_held(&target, things)) {
	    psref_copy(&second, &psref, things);
	    psref_release(&second, &target, things);
	    sleep_for(20000);
	    psref_class_destroy(things);
    })
/* The same, which waits for the section in which the last reference was released, at the end. */
STOPS("psref_class_destroy: a target of class thing is live",
    acquire(); start_alone(destroy_target); sleep_for(20000); pserialize_read_enter(); release(); sleep_for(20000); psref_class_destroy(things))
/* Of three references the second and the third are to the target. The second was released. */
ENDS("psref_target_destroy: this thread has a reference to the target, acquired at the third call, at the last call",
    psref_target_init(&other, things); acquire_at("the first call", &psref, &other); acquire_at("the second call", &second, &target);
    acquire_at("the third call", &third, &target); psref_release(&second, &target, things); kupaldiz_at("the last call");
    (psref_target_destroy)(&target, things))
/* While the first one is held, its bytes elsewhere are none. */
ENDS("psref_release: the reference was moved by its bytes: it was acquired elsewhere at the second call, at the last call",
    acquire_at("the first call", &psref, &target); acquire_at("the second call", &second, &target); struct psref bytes = second;
    kupaldiz_at("the last call"); (psref_release)(&bytes, &target, things))

/* ---- localcount(9). ---- */

THREAD(keep_lock, mutex_enter(&lock); atomic_store(&ready, true); stay_here())
STOPS("localcount_drain: the count is not live", drain_count(); mutex_enter(&lock); localcount_drain(&count, &cv, &lock))
STOPS("localcount_drain: another thread waits for it already", count_in(); on_two_threads(drain_beside))
STOPS("localcount_drain: the thread does not have the interlock", count_in(); start(keep_lock); localcount_drain(&count, &cv, &lock))
STOPS("localcount_drain: the interlock differs from the one before",
    count_in(); count_out(); mutex_enter(&wrong_lock); localcount_drain(&count, &cv, &wrong_lock))
STOPS("localcount_fini: the count is not drained", localcount_fini(&other_count))
STOPS("localcount_fini: the count is not drained", drain_count(); localcount_fini(&count); localcount_fini(&count))
STOPS("localcount_acquire: the count is not live", drain_count(); count_in())
/* A drain waits for a reference of this thread's, which goes on acquiring. */
STOPS("localcount_acquire: the count is being drained",
    count_in(); start_alone(drain_beside);
    for (;;) {
	    count_in();
	    count_out();
    })
STOPS("localcount_release: no reference to the count is held", count_in(); count_out(); count_out())
STOPS("localcount_release: the count is not live", drain_count(); count_out())
STOPS("localcount_release: the thread has the interlock", count_in(); start(drain_beside); mutex_enter(&lock); count_out())
STOPS("localcount_release: the condition variable differs from the one before",
    count_in(); count_in(); count_out(); localcount_release(&count, &wrong_cv, &lock))
STOPS("localcount_init: it is live already",
    psref_target_destroy(&target, things); memset(&count, 0, sizeof(count)); localcount_init(&count))

/* ---- mutex(9), spl(9). ---- */

STOPS("mutex_enter: the thread has the lock already, taken at PLACE", mutex_enter(&spin); mutex_enter(&spin))
STOPS("mutex_enter: with a spin lock, and this lock does not spin", mutex_enter(&spin); mutex_enter(&lock))
STOPS("mutex_enter: with preemption disabled", kpreempt_disable(); mutex_enter(&lock))
HANDLER(take_softly, mutex_enter(&lock))
STOPS("mutex_enter: in a soft interrupt, and the lock is of IPL_NONE", kupaldiz_set_strict(true); as_softint(take_softly))
STOPS("mutex_exit: the thread does not have the lock", start(keep_lock); mutex_exit(&lock))
STOPS("mutex_spin_exit: the thread does not have the lock", mutex_spin_exit(&spin))
STOPS("mutex_destroy: the lock is held: thread \"misuses\" took it at PLACE", start(keep_lock); mutex_destroy(&lock))
/* The lock stays while there is another reference. */
STOPS("mutex_obj_free: the lock is held: thread \"misuses\" took it at PLACE",
    kmutex_t *counted = mutex_obj_alloc(MUTEX_DEFAULT, IPL_NONE); mutex_obj_hold(counted); mutex_enter(counted);
    EXPECT(!mutex_obj_free(counted) && mutex_owned(counted)); mutex_obj_free(counted))
STOPS("mutex_obj_free: the lock was destroyed",
    kmutex_t *counted = mutex_obj_alloc(MUTEX_DEFAULT, IPL_NONE); mutex_destroy(counted); mutex_obj_free(counted))
STOPS("mutex_spin_enter: the lock does not spin", mutex_spin_enter(&lock))
STOPS("mutex_spin_exit: the lock does not spin", mutex_enter(&lock); mutex_spin_exit(&lock))
ENDS("mutex_ownable: the thread has the lock already", mutex_enter(&lock); mutex_ownable(&lock))
STOPS("splx: with a spin lock", int s = splsoftnet(); mutex_enter(&spin); splx(s))
STOPS("kpreempt_enable: preemption is not disabled", kpreempt_enable())
ENDS("mutex_enter: the thread has the lock already, taken at the second call, at the third call",
    enter_at("the first call"); mutex_exit(&lock); enter_at("the second call"); enter_at("the third call"))
ENDS("mutex_enter: the thread has the lock already, taken at the second call, at the third call",
    enter_at("the first call"); mutex_exit(&lock); kupaldiz_at("the second call"); EXPECT((mutex_tryenter)(&lock)); enter_at("the third call"))
ENDS("mutex_enter: inside a read section, entered at the first call, at the third call",
    read_at("the first call"); read_at("the second call"); enter_at("the third call"))
ENDS("xc_barrier: inside a read section, entered at the second call, at the third call",
    read_at("the first call"); pserialize_read_exit(0); read_at("the second call"); kupaldiz_at("the third call"); (xc_barrier)(0))

/* ---- The kernel lock, and ticks. ---- */

STOPS("KERNEL_UNLOCK: the thread does not have the kernel lock so often", KERNEL_LOCK(1, NULL); KERNEL_UNLOCK_ONE(NULL); KERNEL_UNLOCK_ONE(NULL))
STOPS("KERNEL_UNLOCK: the thread has the kernel lock more often", KERNEL_LOCK(2, NULL); KERNEL_UNLOCK_LAST(NULL))
STOPS("KERNEL_LOCK: inside a read section, entered at PLACE", pserialize_read_enter(); KERNEL_LOCK(1, NULL))
THREAD(end_kernel_locked, KERNEL_LOCK(1, NULL))
ENDS("pthread_exit: with a lock", on_thread(end_kernel_locked))
STOPS("kupaldiz_set_hz: no number of ticks a second", kupaldiz_set_hz(0))

/* ---- condvar(9). ---- */

STOPS("cv_timedwait: the thread does not have the lock", start(keep_lock); cv_timedwait(&cv, &lock, 1))
THREAD(wait_for_it, mutex_enter(&lock); atomic_store(&ready, true); cv_wait(&cv, &lock))
STOPS("cv_destroy: a thread waits for count", start(wait_for_it); mutex_enter(&lock); cv_destroy(&cv))

/* A lock that spins is given back by a wait, but nothing else. */
#define MORE	"cv_timedwait: the thread has more than this spin lock, at PLACE"
ENDS(MORE, mutex_enter(&spin); pserialize_read_enter(); cv_timedwait(&cv, &spin, 1))
ENDS(MORE, mutex_enter(&other_spin); mutex_enter(&spin); cv_timedwait(&cv, &spin, 1))
ENDS(MORE, kupaldiz_set_strict(true); splsoftnet(); mutex_enter(&spin); cv_timedwait(&cv, &spin, 1))
ENDS(MORE, kpreempt_disable(); mutex_enter(&spin); cv_timedwait(&cv, &spin, 1))
HANDLER(wait_spinning, mutex_enter(&spin); cv_timedwait(&cv, &spin, 1))
ENDS(MORE, broadcast(XC_HIGHPRI, wait_spinning))
STOPS("panic: the wait at a level ended",
    int s = splsoftnet(); mutex_enter(&spin); cv_timedwait(&cv, &spin, 1); mutex_exit(&spin); EXPECT(splsoftclock() == IPL_SOFTNET); splx(s);
    panic("the wait at a level ended"))
STOPS("cv_timedwait: in a soft interrupt", as_softint(wait_spinning))
STOPS("cv_timedwait: at a raised level", mutex_enter(&spin); splhigh(); cv_timedwait(&cv, &spin, 1))
STOPS("cv_timedwait: at a raised level", mutex_enter(&softspin); splsoftserial(); cv_timedwait(&cv, &softspin, 1))
/* This lock alone, whose level was raised and lowered again. */
STOPS("panic: the wait ended",
    mutex_enter(&softspin); splx(splsoftserial()); cv_timedwait(&cv, &softspin, 1); EXPECT(mutex_owned(&softspin)); mutex_exit(&softspin);
    EXPECT(!kpreempt_disabled()); panic("the wait ended"))

/* ---- rwlock(9). ---- */

THREAD(write_it, rw_enter(&rw, RW_WRITER); atomic_store(&ready, true); stay_here())
THREAD(read_it, rw_enter(&rw, RW_READER); atomic_store(&ready, true); stay_here())
STOPS("rw_enter: inside a read section, entered at PLACE", pserialize_read_enter(); rw_enter(&rw, RW_READER))
STOPS("rw_exit: nobody has the lock", rw_exit(&rw))
STOPS("rw_exit: another thread has the lock as its writer", start(write_it); rw_exit(&rw))
STOPS("rw_exit: the thread does not have the lock", start(read_it); rw_exit(&rw))
STOPS("rw_enter: the thread has the lock already", rw_enter(&rw, RW_WRITER); rw_enter(&rw, RW_READER))
STOPS("rw_destroy: the lock is held", rw_enter(&rw, RW_READER); rw_destroy(&rw))
STOPS("rw_destroy: the lock is held", rw_enter(&rw, RW_WRITER); rw_destroy(&rw))
ENDS("rw_tryupgrade: nobody has the lock", rw_tryupgrade(&rw))
ENDS("rw_tryupgrade: the thread does not have the lock", start(read_it); rw_tryupgrade(&rw))
ENDS("rw_downgrade: the thread is not the lock's writer", rw_enter(&rw, RW_READER); rw_downgrade(&rw))

/* ---- kmem(9), pool(9), percpu(9). ---- */

HANDLER(alloc_softly, kmem_alloc(8, KM_NOSLEEP))
STOPS("kmem_alloc: in a soft interrupt", as_softint(alloc_softly))
HANDLER(zalloc_softly, kmem_zalloc(8, KM_NOSLEEP))
STOPS("kmem_zalloc: in a soft interrupt", as_softint(zalloc_softly))
HANDLER(free_softly, kmem_free(kmem_intr_alloc(8, KM_NOSLEEP), 8))
STOPS("kmem_free: in a soft interrupt", as_softint(free_softly))
STOPS("kmem_zalloc: a block of no bytes", kmem_zalloc(0, KM_SLEEP))
STOPS("kmem_alloc: neither KM_SLEEP nor KM_NOSLEEP alone", kmem_alloc(8, 0))
STOPS("kmem_alloc: neither KM_SLEEP nor KM_NOSLEEP alone", kmem_alloc(8, KM_SLEEP | KM_NOSLEEP))
STOPS("kmem_free: 64 bytes are given back of a block of 32", kmem_free(kmem_alloc(32, KM_SLEEP), 64))
STOPS("kmem_free: no block", kmem_free(NULL, 8))
STOPS("kmem_free: no block of kmem's, or one that was given back", static uint64_t words[8]; kmem_free(&words[4], 8))
STOPS("pool_destroy: 1 objects of thingpl are in use", (void)pool_get(&pool, PR_WAITOK); pool_destroy(&pool))
STOPS("pool_cache_destroy: 1 objects of thingpl are in use", (void)pool_cache_get(cache, PR_WAITOK); pool_cache_destroy(cache))
STOPS("pool_put: no object of otherpl, or one that was given back", pool_put(&other_pool, pool_get(&pool, PR_WAITOK)))
STOPS("kmem_free: no block of kmem's, or one that was given back", kmem_free(pool_get(&pool, PR_WAITOK), 24))
/* What isn't of the cache isn't ended either. */
static void end_object(void *arg, void *object) { (void)arg; (void)object; panic("of another cache"); }
STOPS("pool_cache_put: no object of otherpl, or one that was given back",
    pool_cache_t ends = pool_cache_init(24, 0, 0, 0, "otherpl", NULL, IPL_NONE, NULL, end_object, NULL);
    pool_cache_put(ends, pool_cache_get(cache, PR_WAITOK)))
STOPS("pool_cache_destroy: inside a read section, entered at PLACE",
    cache = pool_cache_init(8, 0, 0, PR_PSERIALIZE, "lookpl", NULL, IPL_NONE, NULL, NULL, NULL); pserialize_read_enter(); pool_cache_destroy(cache))
STOPS("percpu_free: 16 bytes are given back of 8", percpu_free(percpu, 16))
STOPS("percpu_putref: without a percpu_getref", percpu_putref(percpu))
STOPS("kmem_alloc: with preemption disabled", (void)percpu_getref(percpu); kmem_alloc(8, KM_SLEEP))

/* ---- softint(9), callout(9), xcall(9). ---- */

STOPS("softint_schedule: the soft interrupt is not established", softint_disestablish(softint); softint_schedule(softint))
STOPS("softint_disestablish: the soft interrupt is not established", softint_disestablish(softint); softint_disestablish(softint))
STOPS("callout_destroy: the callout runs", run_callout(stay_long); callout_destroy(&callout))
STOPS("callout_halt: inside a read section, entered at PLACE",
    run_callout(stay_long); pserialize_read_enter(); callout_halt(&callout, NULL))
/* It has no need to wait. */
STOPS("callout_halt: the thread does not have the lock", callout_halt(&callout, &lock))
STOPS("callout_destroy: the callout is pending", callout_reset(&callout, INT_MAX, nothing, NULL); callout_destroy(&callout))
ENDS("callout_schedule: the callout has no function", callout_schedule(&callout, 1))
ENDS("xc_wait: no such call", xc_wait(0))
/* The first call of all was there, and the third one wasn't. */
STOPS("panic: it has run", xc_wait(xc_unicast(0, run_nothing, NULL, NULL, kupaldiz_cpu(1))); panic("it has run"))
ENDS("xc_wait: no such call",
    xc_wait(xc_broadcast(0, run_nothing, NULL, NULL)); xc_wait(xc_unicast(0, run_nothing, NULL, NULL, kupaldiz_cpu(1))); xc_wait(3))

/* ---- workqueue(9), module_hook(9). ---- */

static struct workqueue *queue;
static struct work first_work, second_work;

#define WORK(name, ...)	static void name(struct work *work, void *arg) { (void)work; (void)arg; __VA_ARGS__; }

WORK(work_long, stay_here())
WORK(work_raised, splsoftnet())
WORK(work_locked, mutex_enter(&softlock))
WORK(destroy_own_queue, workqueue_destroy(queue))

/* The queue's thread does the first work for long, or as a function says. */
static void enqueue(void (*body)(struct work *, void *))
{
	EXPECT(workqueue_create(&queue, "queue", body, NULL, PRI_NONE, IPL_NONE, WQ_MPSAFE) == 0);
	workqueue_enqueue(queue, &first_work, NULL);
}

STOPS("workqueue_enqueue: the work is enqueued already",
    enqueue(work_long); workqueue_enqueue(queue, &second_work, NULL); workqueue_enqueue(queue, &second_work, NULL))
STOPS("workqueue_enqueue: a CPU is named, and the queue is without WQ_PERCPU",
    enqueue(work_long); workqueue_enqueue(queue, &second_work, kupaldiz_cpu(1)))
STOPS("workqueue_enqueue: inside a read section, entered at PLACE",
    enqueue(work_long); pserialize_read_enter(); workqueue_enqueue(queue, &second_work, NULL))
STOPS("workqueue_wait: inside a read section, entered at PLACE",
    enqueue(work_long); pserialize_read_enter(); workqueue_wait(queue, &first_work))
STOPS("workqueue_destroy: a work is enqueued",
    enqueue(work_long); workqueue_enqueue(queue, &second_work, NULL); workqueue_destroy(queue))
STOPS("workqueue_destroy: in a function of the queue", enqueue(destroy_own_queue); stay_here())
ENDS("workqueue: the function returned at a raised level", enqueue(work_raised); stay_here())
ENDS("workqueue: the function returned with a lock", enqueue(work_locked); stay_here())

MODULE_HOOK(no_hook, void, (void *));
struct no_hook_t no_hook;

STOPS("module_hook_set: the hook is set already", MODULE_HOOK_SET(no_hook, nothing); MODULE_HOOK_SET(no_hook, nothing))
STOPS("module_hook_unset: the hook is not set", MODULE_HOOK_UNSET(no_hook))
STOPS("module_hook_unset: inside a read section, entered at PLACE",
    MODULE_HOOK_SET(no_hook, nothing); pserialize_read_enter(); MODULE_HOOK_UNSET(no_hook))

/* ---- Threads, assertions, pauses. ---- */

/* It isn't a thread's end to return. */
ENDS("kthread_create: the body returned without kthread_exit", make_worker(KTHREAD_MUSTJOIN, nothing); kthread_join(worker))
/* The layer keeps of it what it kept of a thread of kthread_create's before. */
THREAD(exit_it, kthread_exit(0))
STOPS("kthread_exit: kthread_create did not make this thread",
    make_worker(KTHREAD_MUSTJOIN, exit_at_once); EXPECT(kthread_join(worker) == 0); on_thread(exit_it))
STOPS("kthread_join: no thread that was made with KTHREAD_MUSTJOIN",
    make_worker(KTHREAD_MUSTJOIN, exit_at_once); EXPECT(kthread_join(worker) == 0); kthread_join(worker))
STOPS("kthread_join: no thread that was made with KTHREAD_MUSTJOIN", make_worker(0, stay_long); kthread_join(worker))
STOPS("KASSERT: not so: 1 + 1 == 3", KASSERT(1 + 1 == 3))
STOPS("KASSERTMSG: not so: 1 + 1 == 3: of 7", KASSERTMSG(1 + 1 == 3, "of %d", 7))
STOPS("panic: no way", panic("no %s", "way"))
STOPS("kpause: no time to sleep for", kpause("wait", false, 0, NULL))

/* ---- Each call that may sleep, in each state in which a thread mustn't. ---- */

/* One call, with its words: those of `softlock` are made with that lock. PLACED says that it is a macro, whose line has a place. */
#define CALL(list, what, is_placed, function, words) \
	static void NAMED(call_, __LINE__)(void) { (void)function words; } \
	__attribute__((constructor)) static void NAMED(add_call_, __LINE__)(void) \
	{ \
		list[list##_count++] = (struct call){#function, NAMED(call_, __LINE__), is_placed, strstr(#words, "&softlock") != NULL, what}; \
	}
#define SLEEPS(is_placed, function, words)	CALL(sleepers, A_LOCK, is_placed, function, words)
#define USES(what, is_placed, function, words)	CALL(users, what, is_placed, function, words)

enum { BARE, PLACED, MOST_CALLS = 60 };
enum what { A_LOCK, A_VARIABLE, AN_RWLOCK, A_CALLOUT };

static struct call {
	const char *name;
	void (*body)(void);
	bool has_place, is_locked;
	enum what what;
} sleepers[MOST_CALLS], users[MOST_CALLS];
static unsigned sleepers_count, users_count;

static once_t control;
static int run_nothing_once(void) { return 0; }

SLEEPS(PLACED, pserialize_create, ())
SLEEPS(PLACED, pserialize_perform, (psz))
SLEEPS(PLACED, psref_class_create, ("other", IPL_NONE))
SLEEPS(PLACED, psref_target_destroy, (&target, things))
SLEEPS(PLACED, localcount_init, (&other_count))
SLEEPS(PLACED, localcount_drain, (&count, &cv, &softlock))
SLEEPS(PLACED, cv_wait, (&cv, &softlock))
SLEEPS(PLACED, cv_timedwait, (&cv, &softlock, 1))
SLEEPS(PLACED, mutex_obj_alloc, (MUTEX_DEFAULT, IPL_NONE))
SLEEPS(PLACED, kmem_alloc, (8, KM_SLEEP))
SLEEPS(PLACED, kmem_intr_alloc, (8, KM_SLEEP))
SLEEPS(BARE, kmem_strdupsize, ("text", NULL, KM_SLEEP))
SLEEPS(PLACED, pool_get, (&pool, PR_WAITOK))
SLEEPS(PLACED, pool_cache_init, (8, 0, 0, 0, "otherpl", NULL, IPL_NONE, NULL, NULL, NULL))
SLEEPS(PLACED, pool_cache_get, (cache, PR_WAITOK))
SLEEPS(PLACED, percpu_alloc, (8))
SLEEPS(PLACED, percpu_free, (percpu, 8))
SLEEPS(PLACED, kpause, ("wait", false, 1, NULL))
SLEEPS(PLACED, tsleep, (here, PRI_NONE, "wait", 1))
SLEEPS(PLACED, mtsleep, (here, PRI_NONE, "wait", 1, &softlock))
SLEEPS(PLACED, RUN_ONCE, (&control, run_nothing_once))
SLEEPS(PLACED, kthread_create, (PRI_NONE, 0, NULL, nothing, NULL, NULL, "worker"))
SLEEPS(PLACED, kthread_join, (curlwp))
SLEEPS(PLACED, copyin, (here, there, sizeof(there)))
SLEEPS(BARE, copyinstr, (here, there, sizeof(there), NULL))
SLEEPS(PLACED, xc_broadcast, (0, NULL, NULL, NULL))
SLEEPS(BARE, xc_unicast, (0, NULL, NULL, NULL, kupaldiz_cpu(1)))
SLEEPS(BARE, xc_wait, (1))
SLEEPS(PLACED, xc_barrier, (0))
SLEEPS(PLACED, softint_establish, (SOFTINT_NET, nothing, NULL))
SLEEPS(PLACED, softint_disestablish, (softint))
SLEEPS(PLACED, ASSERT_SLEEPABLE, ())

static const struct call *made;	/* by the case that runs */

static void make_locked(void)
{
	if (made->is_locked)
		mutex_enter(&softlock);
}

HANDLER(make_call, make_locked(); made->body())
static void in_section(void) { make_locked(); (void)pserialize_read_enter(); made->body(); }
static void with_spin(void) { make_locked(); mutex_enter(&spin); made->body(); }
static void at_level(void) { kupaldiz_set_strict(true); make_locked(); (void)splnet(); made->body(); }
static void without_preemption(void) { make_locked(); kpreempt_disable(); made->body(); }
static void in_softint(void) { as_softint(make_call); }

static const struct state {
	void (*body)(void);
	const char *reason;
} states[] = {
    {in_section, "inside a read section, entered at PLACE"},
    {with_spin, "with a spin lock"},
    {at_level, "at a raised level"},
    {without_preemption, "with preemption disabled"},
    {in_softint, "in a soft interrupt"},
};

static void judge_call(void (*body)(void), const char *subject, const char *reason)
{
	char line[160];
	snprintf(line, sizeof(line), "%s: %s%s%s", made->name, subject, reason, made->has_place ? ", at PLACE" : "");
	judge_case(begin, &(const struct stop_case){body, line, false});
}

/* ---- Each call that is given a lock, a condition variable or a callout, with one that was never initialised, and with one that was destroyed. ---- */

USES(A_LOCK, PLACED, mutex_destroy, (&no_lock))
USES(A_LOCK, PLACED, mutex_enter, (&no_lock))
USES(A_LOCK, PLACED, mutex_exit, (&no_lock))
USES(A_LOCK, PLACED, mutex_tryenter, (&no_lock))
USES(A_LOCK, PLACED, mutex_spin_enter, (&no_lock))
USES(A_LOCK, PLACED, mutex_spin_exit, (&no_lock))
USES(A_LOCK, BARE, mutex_ownable, (&no_lock))
USES(A_LOCK, PLACED, cv_wait, (&cv, &no_lock))
USES(A_LOCK, PLACED, kpause, ("wait", false, 1, &no_lock))
USES(A_VARIABLE, PLACED, cv_destroy, (&no_cv))
USES(A_VARIABLE, PLACED, cv_wait, (&no_cv, &softlock))
USES(A_VARIABLE, PLACED, cv_timedwait, (&no_cv, &softlock, 1))
USES(A_VARIABLE, PLACED, cv_signal, (&no_cv))
USES(A_VARIABLE, PLACED, cv_broadcast, (&no_cv))
USES(AN_RWLOCK, PLACED, rw_destroy, (&no_rw))
USES(AN_RWLOCK, PLACED, rw_enter, (&no_rw, RW_READER))
USES(AN_RWLOCK, PLACED, rw_tryenter, (&no_rw, RW_WRITER))
USES(AN_RWLOCK, PLACED, rw_exit, (&no_rw))
USES(AN_RWLOCK, BARE, rw_tryupgrade, (&no_rw))
USES(AN_RWLOCK, BARE, rw_downgrade, (&no_rw))
USES(A_CALLOUT, PLACED, callout_destroy, (&no_callout))
USES(A_CALLOUT, BARE, callout_setfunc, (&no_callout, nothing, NULL))
USES(A_CALLOUT, BARE, callout_reset, (&no_callout, 1000, nothing, NULL))
USES(A_CALLOUT, BARE, callout_schedule, (&no_callout, 1000))
USES(A_CALLOUT, BARE, callout_stop, (&no_callout))
USES(A_CALLOUT, PLACED, callout_halt, (&no_callout, NULL))
USES(A_CALLOUT, BARE, callout_pending, (&no_callout))
USES(A_CALLOUT, BARE, callout_ack, (&no_callout))

static void destroy_lock(void) { mutex_init(&no_lock, MUTEX_DEFAULT, IPL_NONE); mutex_destroy(&no_lock); }
static void destroy_cv(void) { cv_init(&no_cv, "gone"); cv_destroy(&no_cv); }
static void destroy_rw(void) { rw_init(&no_rw); rw_destroy(&no_rw); }
static void destroy_callout(void) { callout_init(&no_callout, CALLOUT_MPSAFE); callout_destroy(&no_callout); }

static const struct kind {
	const char *name;
	void (*destroy)(void);
} kinds[] = {
    [A_LOCK] = {"the lock", destroy_lock},
    [A_VARIABLE] = {"the condition variable", destroy_cv},
    [AN_RWLOCK] = {"the lock", destroy_rw},
    [A_CALLOUT] = {"the callout", destroy_callout},
};

static void use_never_made(void) { make_locked(); made->body(); }
static void use_destroyed(void) { kinds[made->what].destroy(); use_never_made(); }

int main(void)
{
	snprintf(beyond, sizeof(beyond), "kupaldiz_bind: there is no CPU %d, at PLACE", KUPALDIZ_CPUS);
	for (made = sleepers; made < &sleepers[sleepers_count]; made++)
		for (unsigned at = 0; at < sizeof(states) / sizeof(states[0]); at++)
			judge_call(states[at].body, "", states[at].reason);
	for (made = users; made < &users[users_count]; made++) {
		judge_call(use_never_made, kinds[made->what].name, " was never initialised");
		judge_call(use_destroyed, kinds[made->what].name, " was destroyed");
	}
	return run_cases(begin);
}
