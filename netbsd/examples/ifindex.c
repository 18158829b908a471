/* ifindex.c - interfaces by their index, in the idiom of if.c: a table that grows under its readers */
#include <sys/cdefs.h>
__KERNEL_RCSID(0, "$NetBSD$");

#include <sys/param.h>
#include <sys/systm.h>
#include <sys/atomic.h>
#include <sys/kmem.h>
#include <sys/lwp.h>
#include <sys/mutex.h>
#include <sys/pserialize.h>
#include <sys/psref.h>

#include "drivers.h"

struct ifentry {
	struct psref_target	if_psref;
	unsigned		if_index;
};

struct iftable {
	size_t			it_limit;
	struct ifentry		*it_entries[];
};

static kmutex_t			ifnet_mtx;
static pserialize_t		ifnet_psz;
static struct psref_class	*ifnet_psref_class __read_mostly;
static struct iftable		*iftable;

static size_t
iftable_size(size_t limit)
{
	return sizeof(struct iftable) + limit * sizeof(struct ifentry *);
}

void
ifindex_init(void)
{
	mutex_init(&ifnet_mtx, MUTEX_DEFAULT, IPL_NONE);
	ifnet_psz = pserialize_create();
	ifnet_psref_class = psref_class_create("ifnet", IPL_SOFTNET);
	iftable = kmem_zalloc(iftable_size(1), KM_SLEEP);
	iftable->it_limit = 1;
}

/* Gives the readers a table of twice the size, and frees the old one when none of them has it. */
static void
iftable_grow(void)
{
	struct iftable *old = iftable, *new;

	KASSERT(mutex_owned(&ifnet_mtx));
	new = kmem_zalloc(iftable_size(old->it_limit * 2), KM_SLEEP);
	new->it_limit = old->it_limit * 2;
	memcpy(new->it_entries, old->it_entries, old->it_limit * sizeof(old->it_entries[0]));
	atomic_store_release(&iftable, new);
	pserialize_perform(ifnet_psz);
	kmem_free(old, iftable_size(old->it_limit));
}

unsigned
if_attach(void)
{
	struct ifentry *ifp = kmem_zalloc(sizeof(*ifp), KM_SLEEP);
	size_t index;

	psref_target_init(&ifp->if_psref, ifnet_psref_class);
	mutex_enter(&ifnet_mtx);
	for (index = 1;; index++) {
		if (index >= iftable->it_limit)
			iftable_grow();
		if (iftable->it_entries[index] == NULL)
			break;
	}
	ifp->if_index = (unsigned)index;
	atomic_store_release(&iftable->it_entries[index], ifp);
	mutex_exit(&ifnet_mtx);
	return (unsigned)index;
}

int
if_detach(unsigned index)
{
	struct ifentry *ifp;

	mutex_enter(&ifnet_mtx);
	ifp = index < iftable->it_limit ? iftable->it_entries[index] : NULL;
	if (ifp == NULL) {
		mutex_exit(&ifnet_mtx);
		return ENXIO;
	}
	atomic_store_release(&iftable->it_entries[index], NULL);
	pserialize_perform(ifnet_psz);
	mutex_exit(&ifnet_mtx);

	psref_target_destroy(&ifp->if_psref, ifnet_psref_class);
	kmem_free(ifp, sizeof(*ifp));
	return 0;
}

static struct ifentry *
if_get_byindex(unsigned index, struct psref *psref)
{
	struct ifentry *ifp = NULL;
	struct iftable *table;
	int s;

	s = pserialize_read_enter();
	table = atomic_load_consume(&iftable);
	if (__predict_true(index < table->it_limit))
		ifp = atomic_load_consume(&table->it_entries[index]);
	if (__predict_true(ifp != NULL))
		psref_acquire(psref, &ifp->if_psref, ifnet_psref_class);
	pserialize_read_exit(s);
	return ifp;
}

static void
if_put(const struct ifentry *ifp, struct psref *psref)
{
	if (ifp != NULL)
		psref_release(psref, &ifp->if_psref, ifnet_psref_class);
}

bool
if_transmit(unsigned index, void (*send)(unsigned))
{
	struct psref psref;
	struct ifentry *ifp;
	int bound;
	bool sent;

	bound = curlwp_bind();
	ifp = if_get_byindex(index, &psref);
	sent = ifp != NULL;
	if (sent) {
		KASSERTMSG(ifp->if_index == index, "%u and %u", ifp->if_index, index);
		(*send)(ifp->if_index);	/* may sleep */
	}
	if_put(ifp, &psref);
	curlwp_bindx(bound);
	return sent;
}

unsigned
if_limit(void)
{
	unsigned limit;
	int s;

	s = pserialize_read_enter();
	limit = (unsigned)atomic_load_consume(&iftable)->it_limit;
	pserialize_read_exit(s);
	return limit;
}

void
ifindex_fini(void)
{
	for (unsigned index = 1; index < if_limit(); index++)
		(void)if_detach(index);
	kmem_free(iftable, iftable_size(iftable->it_limit));
	psref_class_destroy(ifnet_psref_class);
	pserialize_destroy(ifnet_psz);
	mutex_destroy(&ifnet_mtx);
}
