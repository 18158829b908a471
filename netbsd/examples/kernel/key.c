/* key.c - security associations in the idiom of netipsec/key.c: a list for read sections, kept by localcount(9), released in the packet's softint(9) */
#include <sys/cdefs.h>
__KERNEL_RCSID(0, "$NetBSD$");

#include <sys/param.h>
#include <sys/systm.h>
#include <sys/atomic.h>
#include <sys/callout.h>
#include <sys/condvar.h>
#include <sys/intr.h>
#include <sys/kernel.h>
#include <sys/kmem.h>
#include <sys/kthread.h>
#include <sys/localcount.h>
#include <sys/mutex.h>
#include <sys/percpu.h>
#include <sys/proc.h>
#include <sys/pserialize.h>
#include <sys/pslist.h>

#define SADB_SASTATE_MATURE	1
#define SADB_SASTATE_DEAD	3

struct secasvar {
	struct pslist_entry	pslist_entry;
	struct localcount	localcount;
	uint32_t		spi;
	u_int			state;
	percpu_t		*lft_c_counters_percpu;
};

static struct {
	kmutex_t		lock;
	kcondvar_t		cv_lc;
	struct pslist_head	savlist;
	pserialize_t		psz;
	kcondvar_t		cv_psz;
	bool			psz_performing;
} key_sad;

#define SAVLIST_READER_FOREACH(sav) \
	PSLIST_READER_FOREACH((sav), &key_sad.savlist, struct secasvar, pslist_entry)
#define SAVLIST_WRITER_FOREACH(sav) \
	PSLIST_WRITER_FOREACH((sav), &key_sad.savlist, struct secasvar, pslist_entry)

static void	*key_input_si;
static struct secasvar *in_flight;	/* what the softint is to release */
static u_int	unrefs;

static void
key_sa_ref(struct secasvar *sav)
{
	localcount_acquire(&sav->localcount);
}

static void
key_sa_unref(struct secasvar *sav)
{
	KDASSERT(mutex_ownable(&key_sad.lock));
	localcount_release(&sav->localcount, &key_sad.cv_lc, &key_sad.lock);
}

static struct secasvar *
key_lookup_sa(uint32_t spi)
{
	struct secasvar *sav;
	int s;

	s = pserialize_read_enter();
	SAVLIST_READER_FOREACH(sav) {
		if (atomic_load_relaxed(&sav->state) == SADB_SASTATE_MATURE && sav->spi == spi) {
			key_sa_ref(sav);
			break;
		}
	}
	pserialize_read_exit(s);
	return sav;
}

static void
key_sad_pserialize_perform(void)
{
	KASSERT(mutex_owned(&key_sad.lock));
	while (key_sad.psz_performing)
		cv_wait(&key_sad.cv_psz, &key_sad.lock);
	key_sad.psz_performing = true;
	mutex_exit(&key_sad.lock);

	pserialize_perform(key_sad.psz);

	mutex_enter(&key_sad.lock);
	key_sad.psz_performing = false;
	cv_broadcast(&key_sad.cv_psz);
}

static void
key_unlink_sav(struct secasvar *sav)
{
	KASSERT(mutex_owned(&key_sad.lock));
	KASSERT(sav->state == SADB_SASTATE_DEAD);
	PSLIST_WRITER_REMOVE(sav, pslist_entry);
	key_sad_pserialize_perform();
	localcount_drain(&sav->localcount, &key_sad.cv_lc, &key_sad.lock);
}

static void
key_destroy_sav(struct secasvar *sav)
{
	mutex_enter(&key_sad.lock);
	atomic_store_relaxed(&sav->state, SADB_SASTATE_DEAD);
	key_unlink_sav(sav);
	mutex_exit(&key_sad.lock);

	localcount_fini(&sav->localcount);
	PSLIST_ENTRY_DESTROY(sav, pslist_entry);
	percpu_free(sav->lft_c_counters_percpu, sizeof(uint64_t) * 2);
	kmem_free(sav, sizeof(*sav));
}

static struct secasvar *
key_newsav(uint32_t spi)
{
	struct secasvar *sav = kmem_zalloc(sizeof(*sav), KM_SLEEP);

	PSLIST_ENTRY_INIT(sav, pslist_entry);
	localcount_init(&sav->localcount);
	sav->lft_c_counters_percpu = percpu_alloc(sizeof(uint64_t) * 2);
	sav->spi = spi;
	sav->state = SADB_SASTATE_MATURE;
	mutex_enter(&key_sad.lock);
	PSLIST_WRITER_INSERT_HEAD(&key_sad.savlist, sav, pslist_entry);
	mutex_exit(&key_sad.lock);
	return sav;
}

static void
key_input(void *arg)
{
	struct secasvar *sav = atomic_swap_ptr(&in_flight, NULL);
	uint64_t *c;

	(void)arg;
	if (sav == NULL)
		return;
	c = percpu_getref(sav->lft_c_counters_percpu);
	c[0]++;
	percpu_putref(sav->lft_c_counters_percpu);
	key_sa_unref(sav);		/* in a softint, while key_destroy_sav drains */
	atomic_inc_uint(&unrefs);
}

/* A packet has come in: the soft interrupt releases its association. */
void
key_receive(uint32_t spi)
{
	struct secasvar *sav = key_lookup_sa(spi);

	if (sav == NULL)
		return;
	sav = atomic_swap_ptr(&in_flight, sav);
	KASSERT(sav == NULL);
	kpreempt_disable();
	softint_schedule(key_input_si);
	kpreempt_enable();
}

void
key_init(void)
{
	mutex_init(&key_sad.lock, MUTEX_DEFAULT, IPL_NONE);
	cv_init(&key_sad.cv_lc, "key_sa_lc");
	cv_init(&key_sad.cv_psz, "key_sa_psz");
	key_sad.psz = pserialize_create();
	key_input_si = softint_establish(SOFTINT_NET | SOFTINT_MPSAFE, key_input, NULL);
}

void
key_fini(void)
{
	if (key_input_si != NULL)
		softint_disestablish(key_input_si);
	PSLIST_DESTROY(&key_sad.savlist);
	pserialize_destroy(key_sad.psz);
	cv_destroy(&key_sad.cv_psz);
	cv_destroy(&key_sad.cv_lc);
	mutex_destroy(&key_sad.lock);
}
