/* counters.c - counters that each CPU has a part of, in the idiom of net_stats.h */
#include <sys/cdefs.h>
__KERNEL_RCSID(0, "$NetBSD$");

#include <sys/param.h>
#include <sys/systm.h>
#include <sys/evcnt.h>
#include <sys/percpu.h>
#include <sys/xcall.h>

#include <net/net_stats.h>

#include "drivers.h"

static percpu_t		*counters;
static struct evcnt	sums_ev = EVCNT_INITIALIZER(EVCNT_TYPE_MISC, NULL, "counters", "sums");
EVCNT_ATTACH_STATIC(sums_ev);

void
counters_init(void)
{
	counters = percpu_alloc(sizeof(uint64_t) * COUNTERS);
}

void
counters_add(unsigned which, unsigned number)
{
	KASSERT(which < COUNTERS);
	if (number == 1)
		_NET_STATINC(counters, which);
	else
		_NET_STATADD(counters, which, number);
}

static void
counters_sum_cpu(void *p, void *arg, struct cpu_info *ci)
{
	const uint64_t *own = p;
	uint64_t *sums = arg;

	KASSERT(ci == curcpu());
	for (unsigned which = 0; which < COUNTERS; which++)
		sums[which] += own[which];
}

void
counters_sum(uint64_t sums[COUNTERS])
{
	memset(sums, 0, sizeof(sums[0]) * COUNTERS);
	percpu_foreach_xcall(counters, XC_HIGHPRI, counters_sum_cpu, sums);
	sums_ev.ev_count++;
}

void
counters_fini(void)
{
	xc_barrier(0);
	percpu_free(counters, sizeof(uint64_t) * COUNTERS);
}
