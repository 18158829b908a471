/* things.h - what most tests are about: one thing of each of the three pages, with a lock and a condition variable */
#ifndef NETBSD_THINGS_H
#define NETBSD_THINGS_H

#include "pages.h"

static struct psref_class *things;
static struct psref_target target;
static struct localcount count;
static pserialize_t psz;
static kmutex_t lock;
static kcondvar_t cv;

static inline void make_things(int level)
{
	things = psref_class_create("thing", IPL_SOFTNET);
	psz = pserialize_create();
	mutex_init(&lock, MUTEX_DEFAULT, level);
	cv_init(&cv, "count");
	psref_target_init(&target, things);
	localcount_init(&count);
}

static inline void drain(struct localcount *of)
{
	mutex_enter(&lock);
	localcount_drain(of, &cv, &lock);
	mutex_exit(&lock);
}

static inline void end_things(void)
{
	psref_target_destroy(&target, things);
	psref_class_destroy(things);
	drain(&count);
	localcount_fini(&count);
	pserialize_destroy(psz);
	cv_destroy(&cv);
	mutex_destroy(&lock);
}

#endif
