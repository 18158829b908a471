/* unload.c - a module that others call by a hook, with a worker and a callout: unloading waits for all of them */
#include <sys/cdefs.h>
__KERNEL_RCSID(0, "$NetBSD$");

#include <sys/param.h>
#include <sys/systm.h>
#include <sys/atomic.h>
#include <sys/callout.h>
#include <sys/condvar.h>
#include <sys/kmem.h>
#include <sys/kthread.h>
#include <sys/localcount.h>
#include <sys/module.h>
#include <sys/mutex.h>
#include <sys/pserialize.h>
#include <sys/rwlock.h>

#include "drivers.h"

MODULE(MODULE_CLASS_MISC, ticker, NULL);

struct ticker_softc {
	kmutex_t	sc_lock;	/* taken by the callout: IPL_SOFTCLOCK */
	kcondvar_t	sc_cv;
	callout_t	sc_callout;
	lwp_t		*sc_worker;
	bool		sc_dying;
	unsigned	sc_ticks;	/* under sc_lock */
	krwlock_t	sc_rwlock;
	unsigned	sc_seen;	/* under sc_rwlock */
};

/* The hook: it is there before and after the module. */
static struct {
	kmutex_t		lock;
	kcondvar_t		cv;
	pserialize_t		psz;
	struct localcount	lc;
	struct ticker_softc	*sc;
	bool			made;
} hook;

int
ticker_call(unsigned value, unsigned *answer)
{
	struct ticker_softc *sc;
	int s;

	s = pserialize_read_enter();
	sc = atomic_load_consume(&hook.sc);
	if (sc == NULL) {
		pserialize_read_exit(s);
		return ENXIO;
	}
	localcount_acquire(&hook.lc);
	pserialize_read_exit(s);

	rw_enter(&sc->sc_rwlock, RW_READER);
	*answer = value + 1;
	(void)sc->sc_seen;
	rw_exit(&sc->sc_rwlock);
	localcount_release(&hook.lc, &hook.cv, &hook.lock);
	return 0;
}

static void
ticker_tick(void *arg)
{
	struct ticker_softc *sc = arg;

	mutex_enter(&sc->sc_lock);
	sc->sc_ticks++;
	cv_signal(&sc->sc_cv);
	if (!sc->sc_dying)
		callout_schedule(&sc->sc_callout, 1);
	mutex_exit(&sc->sc_lock);
}

static void
ticker_worker(void *arg)
{
	struct ticker_softc *sc = arg;

	mutex_enter(&sc->sc_lock);
	while (!sc->sc_dying) {
		unsigned ticks;

		cv_wait(&sc->sc_cv, &sc->sc_lock);
		ticks = sc->sc_ticks;
		mutex_exit(&sc->sc_lock);
		rw_enter(&sc->sc_rwlock, RW_WRITER);
		sc->sc_seen = ticks;
		rw_exit(&sc->sc_rwlock);
		mutex_enter(&sc->sc_lock);
	}
	mutex_exit(&sc->sc_lock);
	kthread_exit(0);
}

static void
ticker_free(struct ticker_softc *sc)
{
	callout_destroy(&sc->sc_callout);
	rw_destroy(&sc->sc_rwlock);
	cv_destroy(&sc->sc_cv);
	mutex_destroy(&sc->sc_lock);
	kmem_free(sc, sizeof(*sc));
}

static int
ticker_load(void)
{
	struct ticker_softc *sc = kmem_zalloc(sizeof(*sc), KM_SLEEP);
	int error;

	if (!hook.made) {
		mutex_init(&hook.lock, MUTEX_DEFAULT, IPL_NONE);
		cv_init(&hook.cv, "tickhook");
		hook.psz = pserialize_create();
		hook.made = true;
	}
	mutex_init(&sc->sc_lock, MUTEX_DEFAULT, IPL_SOFTCLOCK);
	cv_init(&sc->sc_cv, "ticker");
	rw_init(&sc->sc_rwlock);
	callout_init(&sc->sc_callout, CALLOUT_MPSAFE);
	callout_setfunc(&sc->sc_callout, ticker_tick, sc);
	error = kthread_create(PRI_NONE, KTHREAD_MPSAFE | KTHREAD_MUSTJOIN, NULL, ticker_worker, sc, &sc->sc_worker, "ticker");
	if (error) {
		ticker_free(sc);
		return error;
	}
	callout_schedule(&sc->sc_callout, 1);
	localcount_init(&hook.lc);
	atomic_store_release(&hook.sc, sc);
	return 0;
}

static int
ticker_unload(void)
{
	struct ticker_softc *sc = hook.sc;

	/* No new caller; then those who found the hook; then those who are in it. */
	mutex_enter(&hook.lock);
	atomic_store_relaxed(&hook.sc, NULL);
	pserialize_perform(hook.psz);
	localcount_drain(&hook.lc, &hook.cv, &hook.lock);
	mutex_exit(&hook.lock);
	localcount_fini(&hook.lc);

	mutex_enter(&sc->sc_lock);
	sc->sc_dying = true;
	cv_broadcast(&sc->sc_cv);
	callout_halt(&sc->sc_callout, &sc->sc_lock);
	mutex_exit(&sc->sc_lock);
	kthread_join(sc->sc_worker);

	ticker_free(sc);
	return 0;
}

static int
ticker_modcmd(modcmd_t cmd, void *opaque)
{
	(void)opaque;
	switch (cmd) {
	case MODULE_CMD_INIT:
		return ticker_load();
	case MODULE_CMD_FINI:
		return ticker_unload();
	default:
		return ENOTTY;
	}
}
