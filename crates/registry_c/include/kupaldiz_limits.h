/*
 * kupaldiz_limits.h - the limits that the library was built for
 *
 * tools/limits.py makes this file from the limits in the proved code. A build with other limits has
 * another one. kupaldiz.h includes it.
 */
#ifndef KUPALDIZ_LIMITS_H
#define KUPALDIZ_LIMITS_H

#include <stdint.h>

/* CPUs of a registry, at most. */
#define KUPALDIZ_MOST_CPUS	64

/* Entries of a registry at a time, live and retired, at most: its slots. */
#define KUPALDIZ_MOST_SLOTS	255

/* Attaches, detaches and replacements of a registry together, at most. */
#define KUPALDIZ_MOST_CHANGES	(UINT64_C(1) << 40)

/* Outermost sections of a CPU, at most. */
#define KUPALDIZ_MOST_SECTIONS	(UINT64_C(1) << 62)

/* Passive references of a CPU to an entry, at most, and its net count of local ones. */
#define KUPALDIZ_MOST_COUNT	(UINT64_C(1) << 40)

/* Open enters of a CPU, at most. */
#define KUPALDIZ_MOST_DEPTH	255

/* The name of the library's function that compares limits: kupaldiz.h says what for. */
#define KUPALDIZ_BUILT_FOR	kupaldiz_for_64_cpus_255_slots_v0_1

/* What the shared libraries of this build have in their names. The default build has nothing. */
#define KUPALDIZ_BUILD	""

#endif
