/* subr_devsw.c - a device switch as in NetBSD 10's subr_devsw.c: a table that grows once, a localcount(9) for each driver, and opens that count in it */
#include <sys/cdefs.h>
__KERNEL_RCSID(0, "$NetBSD$");

#include <sys/param.h>
#include <sys/systm.h>
#include <sys/atomic.h>
#include <sys/condvar.h>
#include <sys/kmem.h>
#include <sys/localcount.h>
#include <sys/mutex.h>
#include <sys/pserialize.h>

#define SYS_CDEVSWS	2	/* the switch that the kernel is configured with */
#define MAXDEVSW	8

struct cdevsw {
	int	(*d_open)(devminor_t);
	int	(*d_close)(devminor_t);
};

struct devswref {
	struct localcount	*dr_lc;
};

static const struct cdevsw	*cdevsw0[SYS_CDEVSWS];
static const struct cdevsw	**cdevsw = cdevsw0;
static devmajor_t		max_cdevsws = SYS_CDEVSWS;
static struct devswref		*cdevswref;
static kmutex_t			device_lock;
static kcondvar_t		device_cv;
static pserialize_t		device_psz;

void
devsw_init(void)
{
	mutex_init(&device_lock, MUTEX_DEFAULT, IPL_NONE);
	cv_init(&device_cv, "devsw");
	device_psz = pserialize_create();
}

/* Room for a driver of this number. Tables that readers may have found are never freed. */
static int
cdevsw_grow(devmajor_t cmajor)
{
	const struct cdevsw **newptr;

	KASSERT(mutex_owned(&device_lock));
	if (cmajor < 0 || cmajor >= MAXDEVSW)
		return EINVAL;
	if (cmajor >= max_cdevsws) {
		KASSERT(cdevsw == cdevsw0);
		newptr = kmem_zalloc(MAXDEVSW * sizeof(cdevsw[0]), KM_NOSLEEP);
		if (newptr == NULL)
			return ENOMEM;
		memcpy(newptr, cdevsw, (size_t)max_cdevsws * sizeof(cdevsw[0]));
		atomic_store_release(&cdevsw, newptr);
		atomic_store_release(&max_cdevsws, MAXDEVSW);
	}
	if (cdevswref == NULL) {
		cdevswref = kmem_zalloc(MAXDEVSW * sizeof(cdevswref[0]), KM_NOSLEEP);
		if (cdevswref == NULL)
			return ENOMEM;
	}
	return 0;
}

int
devsw_attach(const struct cdevsw *cdev, devmajor_t cmajor)
{
	struct localcount *lc = kmem_zalloc(sizeof(*lc), KM_SLEEP);
	int error;

	mutex_enter(&device_lock);
	error = cdevsw_grow(cmajor);
	if (error == 0 && cdevsw[cmajor] != NULL)
		error = EEXIST;
	if (error) {
		mutex_exit(&device_lock);
		kmem_free(lc, sizeof(*lc));
		return error;
	}
	localcount_init(lc);
	cdevswref[cmajor].dr_lc = lc;
	atomic_store_release(&cdevsw[cmajor], cdev);
	mutex_exit(&device_lock);
	return 0;
}

void
devsw_detach(const struct cdevsw *cdev)
{
	struct localcount *lc;
	devmajor_t i;

	mutex_enter(&device_lock);
	for (i = 0; i < max_cdevsws; i++) {
		if (cdevsw[i] == cdev)
			break;
	}
	KASSERT(i < max_cdevsws);

	/* Prevent new references; wait for lookups; wait for all references to drain. */
	lc = cdevswref[i].dr_lc;
	atomic_store_relaxed(&cdevsw[i], NULL);
	pserialize_perform(device_psz);
	cdevswref[i].dr_lc = NULL;
	localcount_drain(lc, &device_cv, &device_lock);
	mutex_exit(&device_lock);

	localcount_fini(lc);
	kmem_free(lc, sizeof(*lc));
}

static const struct cdevsw *
cdevsw_lookup_acquire(devmajor_t cmajor, struct localcount **lcp)
{
	const struct cdevsw *cdev = NULL;
	int s;

	if (cmajor < 0)
		return NULL;
	s = pserialize_read_enter();
	/* The greatest number never goes down. */
	if (cmajor >= SYS_CDEVSWS && cmajor >= atomic_load_acquire(&max_cdevsws))
		goto out;
	cdev = atomic_load_consume(&atomic_load_consume(&cdevsw)[cmajor]);
	if (cdev == NULL)
		goto out;
	*lcp = cdevswref[cmajor].dr_lc;
	localcount_acquire(*lcp);
out:
	pserialize_read_exit(s);
	return cdev;
}

static void
cdevsw_release(const struct cdevsw *cdev, struct localcount *lc)
{
	KASSERT(cdev != NULL);
	localcount_release(lc, &device_cv, &device_lock);
}

int
cdev_open(devmajor_t cmajor, devminor_t cminor)
{
	const struct cdevsw *cdev;
	struct localcount *lc;
	int error;

	cdev = cdevsw_lookup_acquire(cmajor, &lc);
	if (cdev == NULL)
		return ENXIO;
	error = (*cdev->d_open)(cminor);	/* may sleep */
	cdevsw_release(cdev, lc);
	return error;
}

void
devsw_fini(void)
{
	if (cdevsw != cdevsw0)
		kmem_free(cdevsw, MAXDEVSW * sizeof(cdevsw[0]));
	if (cdevswref != NULL)
		kmem_free(cdevswref, MAXDEVSW * sizeof(cdevswref[0]));
	pserialize_destroy(device_psz);
	cv_destroy(&device_cv);
	mutex_destroy(&device_lock);
}
