/*
 * if_bridge.c - a bridge with a forwarding table, in the idiom of NetBSD 10's if_bridge.c
 *
 * Packets look both lists up in read sections, and keep a member by psref(9). The table has a lock of its own. A callout enqueues the work that takes
 * old addresses out of it.
 */
#include <sys/cdefs.h>
__KERNEL_RCSID(0, "$NetBSD$");

#include <sys/param.h>
#include <sys/systm.h>
#include <sys/atomic.h>
#include <sys/callout.h>
#include <sys/kernel.h>
#include <sys/kmem.h>
#include <sys/lwp.h>
#include <sys/mutex.h>
#include <sys/pool.h>
#include <sys/pserialize.h>
#include <sys/pslist.h>
#include <sys/psref.h>
#include <sys/workqueue.h>

#define BRIDGE_RTABLE_MAX	4
#define BRIDGE_RTABLE_TIMEOUT	1	/* seconds */
#define BRIDGE_RTABLE_PRUNE	1

struct bridge_iflist {
	struct pslist_entry	bif_next;
	struct psref_target	bif_psref;
	unsigned		bif_index;
};

struct bridge_rtnode {
	struct pslist_entry	brt_list;
	uint64_t		brt_addr;
	unsigned		brt_index;	/* the member's; atomic */
	time_t			brt_expire;	/* atomic */
};

static struct bridge_softc {
	struct pslist_head	sc_iflist;	/* under sc_iflist_lock */
	kmutex_t		sc_iflist_lock;
	pserialize_t		sc_iflist_psz;
	struct pslist_head	sc_rtlist;	/* under sc_rtlist_lock, with the count */
	kmutex_t		sc_rtlist_lock;
	pserialize_t		sc_rtlist_psz;
	unsigned		sc_brtcnt;
	callout_t		sc_brcallout;
	struct workqueue	*sc_rtage_wq;
	struct work		sc_rtage_wk;
	unsigned		sc_rtage_scheduled;
	bool			sc_stopping;	/* under sc_rtlist_lock */
} bridge;

static struct psref_class	*bridge_psref_class;
static struct pool		bridge_rtnode_pool;

/* ---- The forwarding table. ---- */

static struct bridge_rtnode *
bridge_rtnode_lookup(struct bridge_softc *sc, uint64_t addr)
{
	struct bridge_rtnode *brt;

	PSLIST_READER_FOREACH(brt, &sc->sc_rtlist, struct bridge_rtnode, brt_list) {
		if (brt->brt_addr == addr)
			return brt;
	}
	return NULL;
}

/* The member that saw an address last; 0 where none is known. */
static unsigned
bridge_rtlookup(struct bridge_softc *sc, uint64_t addr)
{
	struct bridge_rtnode *brt;
	unsigned index = 0;
	int s;

	s = pserialize_read_enter();
	brt = bridge_rtnode_lookup(sc, addr);
	if (brt != NULL)
		index = atomic_load_relaxed(&brt->brt_index);
	pserialize_read_exit(s);
	return index;
}

static bool
bridge_rtrefresh(struct bridge_softc *sc, uint64_t addr, unsigned index)
{
	struct bridge_rtnode *brt;
	int s;

	s = pserialize_read_enter();
	brt = bridge_rtnode_lookup(sc, addr);
	if (brt != NULL) {
		atomic_store_relaxed(&brt->brt_index, index);
		atomic_store_relaxed(&brt->brt_expire, time_uptime + BRIDGE_RTABLE_TIMEOUT);
	}
	pserialize_read_exit(s);
	return brt != NULL;
}

static int
bridge_rtupdate(struct bridge_softc *sc, uint64_t addr, unsigned index)
{
	struct bridge_rtnode *brt;
	int error = 0;

	if (bridge_rtrefresh(sc, addr, index))
		return 0;
	brt = pool_get(&bridge_rtnode_pool, PR_NOWAIT | PR_ZERO);
	if (brt == NULL)
		return ENOMEM;
	brt->brt_addr = addr;
	brt->brt_index = index;
	brt->brt_expire = time_uptime + BRIDGE_RTABLE_TIMEOUT;
	PSLIST_ENTRY_INIT(brt, brt_list);

	mutex_enter(&sc->sc_rtlist_lock);
	if (bridge_rtnode_lookup(sc, addr) != NULL)
		error = EEXIST;
	else if (sc->sc_brtcnt == BRIDGE_RTABLE_MAX)
		error = ENOSPC;
	if (error == 0) {
		PSLIST_WRITER_INSERT_HEAD(&sc->sc_rtlist, brt, brt_list);
		sc->sc_brtcnt++;
	}
	mutex_exit(&sc->sc_rtlist_lock);
	if (error)
		pool_put(&bridge_rtnode_pool, brt);
	return error;
}

/* Takes out the addresses that match: all, those of a member, or those that have expired. */
static void
bridge_rtlist_remove(struct bridge_softc *sc, unsigned index, bool expired)
{
	struct bridge_rtnode *brt, *next, *gone[BRIDGE_RTABLE_MAX];
	unsigned count = 0;

	mutex_enter(&sc->sc_rtlist_lock);
	for (brt = PSLIST_WRITER_FIRST(&sc->sc_rtlist, struct bridge_rtnode, brt_list); brt != NULL; brt = next) {
		next = PSLIST_WRITER_NEXT(brt, struct bridge_rtnode, brt_list);
		if (expired ? time_uptime < atomic_load_relaxed(&brt->brt_expire) : index != 0 && atomic_load_relaxed(&brt->brt_index) != index)
			continue;
		PSLIST_WRITER_REMOVE(brt, brt_list);
		sc->sc_brtcnt--;
		gone[count++] = brt;
	}
	if (count > 0)
		pserialize_perform(sc->sc_rtlist_psz);
	mutex_exit(&sc->sc_rtlist_lock);

	while (count > 0) {
		brt = gone[--count];
		PSLIST_ENTRY_DESTROY(brt, brt_list);
		pool_put(&bridge_rtnode_pool, brt);
	}
}

static void
bridge_rtage_work(struct work *wk, void *arg)
{
	struct bridge_softc *sc = arg;

	KASSERT(wk == &sc->sc_rtage_wk);
	atomic_swap_uint(&sc->sc_rtage_scheduled, 0);
	bridge_rtlist_remove(sc, 0, true);
	mutex_enter(&sc->sc_rtlist_lock);
	if (!sc->sc_stopping)
		callout_schedule(&sc->sc_brcallout, BRIDGE_RTABLE_PRUNE * hz);
	mutex_exit(&sc->sc_rtlist_lock);
}

static void
bridge_timer(void *arg)
{
	struct bridge_softc *sc = arg;

	if (atomic_swap_uint(&sc->sc_rtage_scheduled, 1) == 0)
		workqueue_enqueue(sc->sc_rtage_wq, &sc->sc_rtage_wk, NULL);
}

/* ---- Members. ---- */

static struct bridge_iflist *
bridge_lookup_member(struct bridge_softc *sc, unsigned index, struct psref *psref)
{
	struct bridge_iflist *bif;
	int s;

	s = pserialize_read_enter();
	PSLIST_READER_FOREACH(bif, &sc->sc_iflist, struct bridge_iflist, bif_next) {
		if (bif->bif_index == index)
			break;
	}
	if (bif != NULL)
		psref_acquire(psref, &bif->bif_psref, bridge_psref_class);
	pserialize_read_exit(s);
	return bif;
}

void
bridge_add(unsigned index)
{
	struct bridge_softc *sc = &bridge;
	struct bridge_iflist *bif = kmem_zalloc(sizeof(*bif), KM_SLEEP);

	bif->bif_index = index;
	PSLIST_ENTRY_INIT(bif, bif_next);
	psref_target_init(&bif->bif_psref, bridge_psref_class);
	mutex_enter(&sc->sc_iflist_lock);
	PSLIST_WRITER_INSERT_HEAD(&sc->sc_iflist, bif, bif_next);
	mutex_exit(&sc->sc_iflist_lock);
}

/* The member goes before its addresses: whoever learns one keeps the member. */
void
bridge_delete(unsigned index)
{
	struct bridge_softc *sc = &bridge;
	struct bridge_iflist *bif;

	mutex_enter(&sc->sc_iflist_lock);
	PSLIST_WRITER_FOREACH(bif, &sc->sc_iflist, struct bridge_iflist, bif_next) {
		if (bif->bif_index == index)
			break;
	}
	KASSERT(bif != NULL);
	PSLIST_WRITER_REMOVE(bif, bif_next);
	pserialize_perform(sc->sc_iflist_psz);
	mutex_exit(&sc->sc_iflist_lock);

	psref_target_destroy(&bif->bif_psref, bridge_psref_class);
	bridge_rtlist_remove(sc, index, false);
	PSLIST_ENTRY_DESTROY(bif, bif_next);
	kmem_free(bif, sizeof(*bif));
}

/* A packet from a member: its source is learnt, and it goes to the member of its destination. Which one; 0 where none is known. */
unsigned
bridge_forward(unsigned from, uint64_t source, uint64_t destination)
{
	struct bridge_softc *sc = &bridge;
	struct bridge_iflist *bif;
	struct psref psref;
	unsigned index, to = 0;
	int bound = curlwp_bind();

	bif = bridge_lookup_member(sc, from, &psref);
	if (bif == NULL)
		goto out;
	(void)bridge_rtupdate(sc, source, from);
	psref_release(&psref, &bif->bif_psref, bridge_psref_class);

	index = bridge_rtlookup(sc, destination);
	bif = index == 0 ? NULL : bridge_lookup_member(sc, index, &psref);
	if (bif == NULL)
		goto out;
	to = bif->bif_index;		/* is sent by it, and may sleep */
	psref_release(&psref, &bif->bif_psref, bridge_psref_class);
out:
	curlwp_bindx(bound);
	return to;
}

/* ---- Its life. ---- */

int
bridge_init(void)
{
	struct bridge_softc *sc = &bridge;
	int error;

	error = workqueue_create(&sc->sc_rtage_wq, "bridge_rtage", bridge_rtage_work, sc, PRI_SOFTNET, IPL_SOFTNET, WQ_MPSAFE);
	if (error)
		return error;
	pool_init(&bridge_rtnode_pool, sizeof(struct bridge_rtnode), 0, 0, 0, "brtpl", NULL, IPL_NET);
	bridge_psref_class = psref_class_create("bridge", IPL_SOFTNET);
	PSLIST_INIT(&sc->sc_iflist);
	PSLIST_INIT(&sc->sc_rtlist);
	mutex_init(&sc->sc_iflist_lock, MUTEX_DEFAULT, IPL_NONE);
	mutex_init(&sc->sc_rtlist_lock, MUTEX_DEFAULT, IPL_SOFTNET);
	sc->sc_iflist_psz = pserialize_create();
	sc->sc_rtlist_psz = pserialize_create();
	callout_init(&sc->sc_brcallout, CALLOUT_MPSAFE);
	callout_setfunc(&sc->sc_brcallout, bridge_timer, sc);
	return 0;
}

void
bridge_start(void)
{
	callout_schedule(&bridge.sc_brcallout, BRIDGE_RTABLE_PRUNE * hz);
}

/* No more work, then no more callouts, and then none of the work that one has left. */
void
bridge_stop(void)
{
	struct bridge_softc *sc = &bridge;

	mutex_enter(&sc->sc_rtlist_lock);
	sc->sc_stopping = true;
	mutex_exit(&sc->sc_rtlist_lock);
	callout_halt(&sc->sc_brcallout, NULL);
	workqueue_wait(sc->sc_rtage_wq, &sc->sc_rtage_wk);
}

void
bridge_fini(void)
{
	struct bridge_softc *sc = &bridge;
	struct bridge_iflist *bif;

	while ((bif = PSLIST_WRITER_FIRST(&sc->sc_iflist, struct bridge_iflist, bif_next)) != NULL)
		bridge_delete(bif->bif_index);
	bridge_rtlist_remove(sc, 0, false);
	workqueue_destroy(sc->sc_rtage_wq);
	callout_destroy(&sc->sc_brcallout);
	pserialize_destroy(sc->sc_rtlist_psz);
	pserialize_destroy(sc->sc_iflist_psz);
	mutex_destroy(&sc->sc_rtlist_lock);
	mutex_destroy(&sc->sc_iflist_lock);
	psref_class_destroy(bridge_psref_class);
	pool_destroy(&bridge_rtnode_pool);
}
