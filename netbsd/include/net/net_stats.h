/* net/net_stats.h - counters that each CPU has a part of: words in memory of percpu_alloc */
#ifndef KUPALDIZ_NETBSD_NET_STATS_H
#define KUPALDIZ_NETBSD_NET_STATS_H

#include "../kupaldiz/memory.h"

#define _NET_STAT_GETREF(counters)	((uint64_t *)percpu_getref(counters))
#define _NET_STAT_PUTREF(counters)	percpu_putref(counters)
#define _NET_STATINC_REF(own, which)	((own)[which]++)
#define _NET_STATADD_REF(own, which, number)	((own)[which] += (number))

#define _NET_STATADD(counters, which, number) \
	do { \
		uint64_t *kupaldiz_own = _NET_STAT_GETREF(counters); \
		kupaldiz_own[which] += (number); \
		_NET_STAT_PUTREF(counters); \
	} while (0)
#define _NET_STATINC(counters, which)	_NET_STATADD(counters, which, 1)
#define _NET_STATDEC(counters, which)	_NET_STATADD(counters, which, (uint64_t)-1)

#endif
