/* rxintr.c - packets from an interrupt to those that listen, in the idiom of a network driver: a queue, and a soft interrupt that empties it */
#include <sys/cdefs.h>
__KERNEL_RCSID(0, "$NetBSD$");

#include <sys/param.h>
#include <sys/systm.h>
#include <sys/intr.h>
#include <sys/kmem.h>
#include <sys/mutex.h>
#include <sys/pserialize.h>
#include <sys/pslist.h>
#include <sys/psref.h>
#include <sys/queue.h>

#include "drivers.h"

struct packet {
	SIMPLEQ_ENTRY(packet)	p_link;
	unsigned		p_number;
};

struct listener {
	struct pslist_entry	l_link;
	struct psref_target	l_target;
	void			(*l_input)(void *, unsigned);
	void			*l_arg;
};

static SIMPLEQ_HEAD(, packet)	rxq = SIMPLEQ_HEAD_INITIALIZER(rxq);
static kmutex_t			rxq_lock;	/* spins, at IPL_NET */
static kmutex_t			listener_lock;
static struct pslist_head	listeners = PSLIST_INITIALIZER;
static struct psref_class	*listener_class;
static pserialize_t		listener_psz;
static void			*rx_si;

/* Gives a packet to each listener, which is kept by a psref while it has it. */
static void
rx_deliver(unsigned number)
{
	struct listener *l;
	struct psref psref;
	int s;

	s = pserialize_read_enter();
	PSLIST_READER_FOREACH(l, &listeners, struct listener, l_link) {
		psref_acquire(&psref, &l->l_target, listener_class);
		pserialize_read_exit(s);
		(*l->l_input)(l->l_arg, number);
		s = pserialize_read_enter();
		psref_release(&psref, &l->l_target, listener_class);
	}
	pserialize_read_exit(s);
}

static void
rx_softint(void *arg)
{
	struct packet *p;

	(void)arg;
	KASSERT(cpu_softintr_p());
	for (;;) {
		mutex_enter(&rxq_lock);
		p = SIMPLEQ_FIRST(&rxq);
		if (p != NULL)
			SIMPLEQ_REMOVE_HEAD(&rxq, p_link);
		mutex_exit(&rxq_lock);
		if (p == NULL)
			break;
		rx_deliver(p->p_number);
		kmem_intr_free(p, sizeof(*p));
	}
}

int
rx_init(void)
{
	rx_si = softint_establish(SOFTINT_NET | SOFTINT_MPSAFE, rx_softint, NULL);
	if (rx_si == NULL)
		return ENOMEM;
	mutex_init(&rxq_lock, MUTEX_DEFAULT, IPL_NET);
	mutex_init(&listener_lock, MUTEX_DEFAULT, IPL_NONE);
	listener_class = psref_class_create("listener", IPL_SOFTNET);
	listener_psz = pserialize_create();
	return 0;
}

/* What an interrupt does: it queues the packet at its level, and leaves the rest to the soft interrupt. */
void
rx_interrupt(unsigned number)
{
	struct packet *p;
	int s;

	s = splnet();
	p = kmem_intr_alloc(sizeof(*p), KM_NOSLEEP);
	if (p != NULL) {
		p->p_number = number;
		mutex_enter(&rxq_lock);
		SIMPLEQ_INSERT_TAIL(&rxq, p, p_link);
		mutex_exit(&rxq_lock);
		softint_schedule(rx_si);
	}
	splx(s);
}

void *
rx_listen(void (*input)(void *, unsigned), void *arg)
{
	struct listener *l = kmem_zalloc(sizeof(*l), KM_SLEEP);

	l->l_input = input;
	l->l_arg = arg;
	PSLIST_ENTRY_INIT(l, l_link);
	psref_target_init(&l->l_target, listener_class);
	mutex_enter(&listener_lock);
	PSLIST_WRITER_INSERT_HEAD(&listeners, l, l_link);
	mutex_exit(&listener_lock);
	return l;
}

void
rx_unlisten(void *cookie)
{
	struct listener *l = cookie;

	mutex_enter(&listener_lock);
	PSLIST_WRITER_REMOVE(l, l_link);
	pserialize_perform(listener_psz);
	mutex_exit(&listener_lock);
	psref_target_destroy(&l->l_target, listener_class);
	PSLIST_ENTRY_DESTROY(l, l_link);
	kmem_free(l, sizeof(*l));
}

void
rx_fini(void)
{
	struct packet *p;

	softint_disestablish(rx_si);
	while ((p = SIMPLEQ_FIRST(&rxq)) != NULL) {
		SIMPLEQ_REMOVE_HEAD(&rxq, p_link);
		kmem_intr_free(p, sizeof(*p));
	}
	PSLIST_DESTROY(&listeners);
	pserialize_destroy(listener_psz);
	psref_class_destroy(listener_class);
	mutex_destroy(&listener_lock);
	mutex_destroy(&rxq_lock);
}
