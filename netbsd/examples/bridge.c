/* bridge.c - a bridge's list of members, in the idiom of if_bridge(4) */
#include <sys/cdefs.h>
__KERNEL_RCSID(0, "$NetBSD$");

#include <sys/param.h>
#include <sys/systm.h>
#include <sys/kmem.h>
#include <sys/lwp.h>
#include <sys/mutex.h>
#include <sys/pserialize.h>
#include <sys/pslist.h>
#include <sys/psref.h>

#include "drivers.h"

struct bridge_iflist {
	struct pslist_entry	bif_next;
	struct psref_target	bif_psref;
	unsigned		bif_index;
};

static struct bridge_softc {
	struct pslist_head	sc_iflist;
	pserialize_t		sc_psz;
	kmutex_t		*sc_lock;
	struct psref_class	*sc_class;
} bridge;

#define BRIDGE_LOCK(sc)		mutex_enter((sc)->sc_lock)
#define BRIDGE_UNLOCK(sc)	mutex_exit((sc)->sc_lock)
#define BRIDGE_LOCKED(sc)	mutex_owned((sc)->sc_lock)
#define BRIDGE_PSZ_RENTER(s)	do { s = pserialize_read_enter(); } while (0)
#define BRIDGE_PSZ_REXIT(s)	do { pserialize_read_exit(s); } while (0)
#define BRIDGE_PSZ_PERFORM(sc)	pserialize_perform((sc)->sc_psz)

void
bridge_init(void)
{
	struct bridge_softc *sc = &bridge;

	PSLIST_INIT(&sc->sc_iflist);
	sc->sc_psz = pserialize_create();
	sc->sc_lock = mutex_obj_alloc(MUTEX_DEFAULT, IPL_NONE);
	sc->sc_class = psref_class_create("bridge", IPL_SOFTNET);
}

static struct bridge_iflist *
bridge_lookup_member(struct bridge_softc *sc, unsigned index)
{
	struct bridge_iflist *bif;

	KASSERT(BRIDGE_LOCKED(sc));
	PSLIST_WRITER_FOREACH(bif, &sc->sc_iflist, struct bridge_iflist, bif_next) {
		if (bif->bif_index == index)
			return bif;
	}
	return NULL;
}

int
bridge_add(unsigned index)
{
	struct bridge_softc *sc = &bridge;
	struct bridge_iflist *bif = kmem_zalloc(sizeof(*bif), KM_SLEEP);

	bif->bif_index = index;
	PSLIST_ENTRY_INIT(bif, bif_next);
	psref_target_init(&bif->bif_psref, sc->sc_class);

	BRIDGE_LOCK(sc);
	if (bridge_lookup_member(sc, index) != NULL) {
		BRIDGE_UNLOCK(sc);
		PSLIST_ENTRY_DESTROY(bif, bif_next);
		psref_target_destroy(&bif->bif_psref, sc->sc_class);
		kmem_free(bif, sizeof(*bif));
		return EEXIST;
	}
	PSLIST_WRITER_INSERT_HEAD(&sc->sc_iflist, bif, bif_next);
	BRIDGE_UNLOCK(sc);
	return 0;
}

static void
bridge_delete_member(struct bridge_softc *sc, struct bridge_iflist *bif)
{
	KASSERT(BRIDGE_LOCKED(sc));

	PSLIST_WRITER_REMOVE(bif, bif_next);
	BRIDGE_PSZ_PERFORM(sc);
	BRIDGE_UNLOCK(sc);

	psref_target_destroy(&bif->bif_psref, sc->sc_class);
	PSLIST_ENTRY_DESTROY(bif, bif_next);
	kmem_free(bif, sizeof(*bif));

	BRIDGE_LOCK(sc);
}

int
bridge_delete(unsigned index)
{
	struct bridge_softc *sc = &bridge;
	struct bridge_iflist *bif;

	BRIDGE_LOCK(sc);
	bif = bridge_lookup_member(sc, index);
	if (bif == NULL) {
		BRIDGE_UNLOCK(sc);
		return ENOENT;
	}
	bridge_delete_member(sc, bif);
	BRIDGE_UNLOCK(sc);
	return 0;
}

unsigned
bridge_broadcast(void (*send)(void *, unsigned), void *arg)
{
	struct bridge_softc *sc = &bridge;
	struct bridge_iflist *bif;
	struct psref psref;
	unsigned sent = 0;
	int bound = curlwp_bind();
	int s;

	BRIDGE_PSZ_RENTER(s);
	PSLIST_READER_FOREACH(bif, &sc->sc_iflist, struct bridge_iflist, bif_next) {
		psref_acquire(&psref, &bif->bif_psref, sc->sc_class);
		BRIDGE_PSZ_REXIT(s);

		KASSERT(psref_held(&bif->bif_psref, sc->sc_class));
		(*send)(arg, bif->bif_index);	/* may sleep */
		sent++;

		/* The link is followed in the section in which the reference is given back. */
		BRIDGE_PSZ_RENTER(s);
		psref_release(&psref, &bif->bif_psref, sc->sc_class);
	}
	BRIDGE_PSZ_REXIT(s);
	curlwp_bindx(bound);
	return sent;
}

void
bridge_fini(void)
{
	struct bridge_softc *sc = &bridge;
	struct bridge_iflist *bif;

	BRIDGE_LOCK(sc);
	while ((bif = PSLIST_WRITER_FIRST(&sc->sc_iflist, struct bridge_iflist, bif_next)) != NULL)
		bridge_delete_member(sc, bif);
	BRIDGE_UNLOCK(sc);
	PSLIST_DESTROY(&sc->sc_iflist);
	pserialize_destroy(sc->sc_psz);
	mutex_obj_free(sc->sc_lock);
	psref_class_destroy(sc->sc_class);
}
