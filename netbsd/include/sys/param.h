/* sys/param.h - the system's, and what kernel files expect there besides */
#pragma GCC system_header
#include_next <sys/param.h>

#ifndef KUPALDIZ_NETBSD_SYS_PARAM_H
#define KUPALDIZ_NETBSD_SYS_PARAM_H

#include <sys/cdefs.h>
#include <sys/types.h>

#include "../kupaldiz/kernel.h"

#ifndef CACHE_LINE_SIZE
#define CACHE_LINE_SIZE	64
#endif
#define COHERENCY_UNIT	64
#define MAXCPUS		KUPALDIZ_CPUS

/* roundup2, rounddown2 - the next multiple of a power of two, upwards or downwards; rounddown - of any number. */
#ifndef rounddown
#define rounddown(number, of)	((number) / (of) * (of))
#endif
#define roundup2(number, power)	(((number) + (power) - 1) & ~((power) - 1))
#define rounddown2(number, power)	((number) & ~((power) - 1))

/* mstohz, hztoms - ticks in milliseconds, at least so many, and milliseconds in ticks. */
#define mstohz(milliseconds)	((int)(((int64_t)(milliseconds) * hz + 999) / 1000))
#define hztoms(ticks)		((unsigned)((int64_t)(ticks) * 1000 / hz))

#endif
