/*
 * installed_netbsd - a program over the installed headers of the manual pages' own names, in C and
 * in C++: one thing is looked at in a section, referred to and waited for by each of the three
 * pages.
 */
#include <sys/condvar.h>
#include <sys/localcount.h>
#include <sys/lwp.h>
#include <sys/mutex.h>
#include <sys/pserialize.h>
#include <sys/psref.h>

#include <stdio.h>

#ifdef __cplusplus
#define LANGUAGE "C++"
#else
#define LANGUAGE "C"
#endif

/*
 * In a section a passive reference is taken along, which psref_held tells of until it is released.
 */
static bool refers(struct psref_target *target, struct psref_class *psref_class)
{
	struct psref psref;
	int s = pserialize_read_enter();
	psref_acquire(&psref, target, psref_class);
	pserialize_read_exit(s);
	bool held = psref_held(target, psref_class);
	psref_release(&psref, target, psref_class);
	return held && !psref_held(target, psref_class);
}

/* A count that is acquired and released drains. */
static void counts(kmutex_t *lock, kcondvar_t *drained)
{
	struct localcount count;
	localcount_init(&count);
	int s = pserialize_read_enter();
	localcount_acquire(&count);
	pserialize_read_exit(s);
	localcount_release(&count, drained, lock);
	mutex_enter(lock);
	localcount_drain(&count, drained, lock);
	mutex_exit(lock);
	localcount_fini(&count);
}

int main(void)
{
	kmutex_t lock;
	kcondvar_t drained;
	struct psref_target target;
	struct psref_class *psref_class = psref_class_create("installed", IPL_SOFTNET);
	pserialize_t psz = pserialize_create();
	int bound = curlwp_bind();
	mutex_init(&lock, MUTEX_DEFAULT, IPL_NONE);
	cv_init(&drained, "drained");
	psref_target_init(&target, psref_class);
	if (!refers(&target, psref_class))
		return 1;
	pserialize_perform(psz);
	psref_target_destroy(&target, psref_class);
	counts(&lock, &drained);
	curlwp_bindx(bound);
	cv_destroy(&drained);
	mutex_destroy(&lock);
	pserialize_destroy(psz);
	psref_class_destroy(psref_class);
	printf("%s, by the pages' names\n", LANGUAGE);
	return 0;
}
