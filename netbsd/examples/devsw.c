/* devsw.c - a device switch, in the idiom of subr_devsw.c: opens count themselves into the driver by localcount(9) */
#include <sys/cdefs.h>
__KERNEL_RCSID(0, "$NetBSD$");

#include <sys/param.h>
#include <sys/systm.h>
#include <sys/atomic.h>
#include <sys/condvar.h>
#include <sys/kmem.h>
#include <sys/localcount.h>
#include <sys/mutex.h>
#include <sys/pserialize.h>

#include "drivers.h"

#define DEVSW_MAX	8

struct devswref {
	const struct devsw	*dr_devsw;
	struct localcount	dr_lc;
};

static struct devswref	*devswrefs[DEVSW_MAX];
static kmutex_t		device_lock;
static kcondvar_t	device_cv;
static pserialize_t	device_psz;

void
devsw_init(void)
{
	mutex_init(&device_lock, MUTEX_DEFAULT, IPL_NONE);
	cv_init(&device_cv, "devsw");
	device_psz = pserialize_create();
}

int
devsw_attach(unsigned major, const struct devsw *devsw)
{
	struct devswref *ref;

	if (major >= DEVSW_MAX)
		return EINVAL;
	ref = kmem_zalloc(sizeof(*ref), KM_SLEEP);
	ref->dr_devsw = devsw;
	localcount_init(&ref->dr_lc);

	mutex_enter(&device_lock);
	if (devswrefs[major] != NULL) {
		localcount_drain(&ref->dr_lc, &device_cv, &device_lock);
		mutex_exit(&device_lock);
		localcount_fini(&ref->dr_lc);
		kmem_free(ref, sizeof(*ref));
		return EEXIST;
	}
	atomic_store_release(&devswrefs[major], ref);
	mutex_exit(&device_lock);
	return 0;
}

int
devsw_detach(unsigned major)
{
	struct devswref *ref;

	mutex_enter(&device_lock);
	ref = major < DEVSW_MAX ? devswrefs[major] : NULL;
	if (ref == NULL) {
		mutex_exit(&device_lock);
		return ENXIO;
	}
	/* Nobody finds it any more; then wait for those that had found it; then for those that are in it. */
	atomic_store_relaxed(&devswrefs[major], NULL);
	pserialize_perform(device_psz);
	localcount_drain(&ref->dr_lc, &device_cv, &device_lock);
	mutex_exit(&device_lock);

	localcount_fini(&ref->dr_lc);
	kmem_free(ref, sizeof(*ref));
	return 0;
}

static struct devswref *
devsw_acquire(unsigned major)
{
	struct devswref *ref = NULL;
	int s;

	if (major >= DEVSW_MAX)
		return NULL;
	s = pserialize_read_enter();
	ref = atomic_load_consume(&devswrefs[major]);
	if (ref != NULL)
		localcount_acquire(&ref->dr_lc);
	pserialize_read_exit(s);
	return ref;
}

static void
devsw_release(struct devswref *ref)
{
	localcount_release(&ref->dr_lc, &device_cv, &device_lock);
}

int
cdev_open(unsigned major, unsigned minor)
{
	struct devswref *ref;
	int error;

	ref = devsw_acquire(major);
	if (ref == NULL)
		return ENXIO;
	error = (*ref->dr_devsw->d_open)(minor);	/* may sleep */
	devsw_release(ref);
	return error;
}

int
cdev_close(unsigned major, unsigned minor)
{
	struct devswref *ref;
	int error;

	ref = devsw_acquire(major);
	if (ref == NULL)
		return ENXIO;
	error = (*ref->dr_devsw->d_close)(minor);
	devsw_release(ref);
	return error;
}

void
devsw_fini(void)
{
	for (unsigned major = 0; major < DEVSW_MAX; major++)
		(void)devsw_detach(major);
	pserialize_destroy(device_psz);
	cv_destroy(&device_cv);
	mutex_destroy(&device_lock);
}
