/* if.c - interfaces in the idiom of if.c and if_vlan.c: found by name, kept by psref(9), their link's state by workqueue(9) */
#include <sys/cdefs.h>
__KERNEL_RCSID(0, "$NetBSD$");

#include <sys/param.h>
#include <sys/systm.h>
#include <sys/atomic.h>
#include <sys/container_of.h>
#include <sys/cpu.h>
#include <sys/intr.h>
#include <sys/kmem.h>
#include <sys/lwp.h>
#include <sys/mutex.h>
#include <sys/percpu.h>
#include <sys/pserialize.h>
#include <sys/pslist.h>
#include <sys/psref.h>
#include <sys/workqueue.h>
#include <net/net_stats.h>

#define IFNAMSIZ	16
#define IF_MAXINDEX	8
enum { if_ipackets, if_opackets, IF_NSTATS };

struct ifnet {
	char			if_xname[IFNAMSIZ];
	u_int			if_index;
	struct pslist_entry	if_pslist_entry;
	struct psref_target	if_psref;
	percpu_t		*if_stats;
	kmutex_t		*if_ioctl_lock;
	struct work		if_link_work;
	u_int			if_link_scheduled;	/* atomic_swap_uint */
	u_int			if_link_changes;
	bool			if_dead;
};

static kmutex_t			ifnet_mtx;
static pserialize_t		ifnet_psz;
static struct psref_class	*ifnet_psref_class __read_mostly;
static struct pslist_head	ifnet_pslist = PSLIST_INITIALIZER;
static struct ifnet		*ifindex2ifnet[IF_MAXINDEX];
static struct workqueue		*ifnet_link_state_wq __read_mostly;

#define IFNET_READER_FOREACH(__ifp) \
	PSLIST_READER_FOREACH((__ifp), &ifnet_pslist, struct ifnet, if_pslist_entry)

#define if_statinc(ifp, x) _NET_STATINC((ifp)->if_stats, (x))

static void
if_link_state_change_work(struct work *work, void *arg)
{
	struct ifnet *ifp = container_of(work, struct ifnet, if_link_work);

	(void)arg;
	mutex_enter(ifp->if_ioctl_lock);
	atomic_swap_uint(&ifp->if_link_scheduled, 0);
	ifp->if_link_changes++;
	mutex_exit(ifp->if_ioctl_lock);
}

void
if_link_state_change(struct ifnet *ifp)
{
	if (atomic_swap_uint(&ifp->if_link_scheduled, 1) == 0)
		workqueue_enqueue(ifnet_link_state_wq, &ifp->if_link_work, NULL);
}

void
ifinit1(void)
{
	mutex_init(&ifnet_mtx, MUTEX_DEFAULT, IPL_NONE);
	ifnet_psz = pserialize_create();
	ifnet_psref_class = psref_class_create("ifnet", IPL_SOFTNET);
	if (workqueue_create(&ifnet_link_state_wq, "iflnkst",
	    if_link_state_change_work, NULL, PRI_SOFTNET, IPL_NONE, WQ_MPSAFE))
		panic("%s: workqueue_create failed", __func__);
}

int
if_attach(struct ifnet *ifp)
{
	u_int i;

	ifp->if_stats = percpu_alloc(sizeof(uint64_t) * IF_NSTATS);
	ifp->if_ioctl_lock = mutex_obj_alloc(MUTEX_DEFAULT, IPL_NONE);
	PSLIST_ENTRY_INIT(ifp, if_pslist_entry);
	psref_target_init(&ifp->if_psref, ifnet_psref_class);

	mutex_enter(&ifnet_mtx);
	for (i = 1; i < IF_MAXINDEX; i++)
		if (ifindex2ifnet[i] == NULL)
			break;
	if (i == IF_MAXINDEX) {
		mutex_exit(&ifnet_mtx);
		psref_target_destroy(&ifp->if_psref, ifnet_psref_class);
		PSLIST_ENTRY_DESTROY(ifp, if_pslist_entry);
		mutex_obj_free(ifp->if_ioctl_lock);
		percpu_free(ifp->if_stats, sizeof(uint64_t) * IF_NSTATS);
		return ENOMEM;
	}
	ifp->if_index = i;
	atomic_store_release(&ifindex2ifnet[i], ifp);
	PSLIST_WRITER_INSERT_HEAD(&ifnet_pslist, ifp, if_pslist_entry);
	mutex_exit(&ifnet_mtx);
	return 0;
}

void
if_acquire(struct ifnet *ifp, struct psref *psref)
{
	KASSERT(ifp->if_index != 0);
	psref_acquire(psref, &ifp->if_psref, ifnet_psref_class);
}

bool
if_held(struct ifnet *ifp)
{
	return psref_held(&ifp->if_psref, ifnet_psref_class);
}

void
if_put(const struct ifnet *ifp, struct psref *psref)
{
	if (ifp == NULL)
		return;
	psref_release(psref, &ifp->if_psref, ifnet_psref_class);
}

struct ifnet *
if_get(const char *name, struct psref *psref)
{
	struct ifnet *ifp;
	int s;

	s = pserialize_read_enter();
	IFNET_READER_FOREACH(ifp) {
		if (atomic_load_relaxed(&ifp->if_dead))
			continue;
		if (strcmp(ifp->if_xname, name) == 0) {
			if_acquire(ifp, psref);
			goto out;
		}
	}
out:
	pserialize_read_exit(s);
	return ifp;
}

void
if_detach(struct ifnet *ifp)
{
	mutex_enter(&ifnet_mtx);
	atomic_store_relaxed(&ifp->if_dead, true);
	atomic_store_release(&ifindex2ifnet[ifp->if_index], NULL);
	PSLIST_WRITER_REMOVE(ifp, if_pslist_entry);
	pserialize_perform(ifnet_psz);
	mutex_exit(&ifnet_mtx);

	psref_target_destroy(&ifp->if_psref, ifnet_psref_class);
	PSLIST_ENTRY_DESTROY(ifp, if_pslist_entry);

	workqueue_wait(ifnet_link_state_wq, &ifp->if_link_work);
	mutex_obj_free(ifp->if_ioctl_lock);
	percpu_free(ifp->if_stats, sizeof(uint64_t) * IF_NSTATS);
}

/* vlan_transmit's shape: a percpu reference inside the psref. */
int
if_output_byname(const char *name)
{
	struct psref psref;
	struct ifnet *ifp;
	int bound = curlwp_bind();

	ifp = if_get(name, &psref);
	if (ifp == NULL) {
		curlwp_bindx(bound);
		return ENXIO;
	}
	KASSERT(if_held(ifp));
	if_statinc(ifp, if_opackets);
	if_link_state_change(ifp);
	if_put(ifp, &psref);
	curlwp_bindx(bound);
	return 0;
}

void
ifnet_fini(void)
{
	workqueue_destroy(ifnet_link_state_wq);
	PSLIST_DESTROY(&ifnet_pslist);
	psref_class_destroy(ifnet_psref_class);
	pserialize_destroy(ifnet_psz);
	mutex_destroy(&ifnet_mtx);
}
