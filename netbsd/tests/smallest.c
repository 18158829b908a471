/* smallest - a test of kupaldiz_netbsd(7): a thread of CPU 1 looks a target up and keeps it, while main takes it out and waits until nobody has it */
#include <sys/atomic.h>
#include <sys/kthread.h>
#include <sys/pserialize.h>
#include <sys/psref.h>

static struct psref_target target, *list = &target;

static void reader(void *class)
{
	struct psref psref;
	int s = pserialize_read_enter();
	struct psref_target *found = atomic_load_consume(&list);
	if (found != NULL)
		psref_acquire(&psref, found, class);
	pserialize_read_exit(s);
	if (found != NULL)
		psref_release(&psref, found, class);
	kthread_exit(0);
}

int main(void)
{
	lwp_t *thread;
	pserialize_t psz = pserialize_create();
	struct psref_class *class = psref_class_create("thing", IPL_SOFTNET);
	psref_target_init(&target, class);
	if (kthread_create(PRI_NONE, KTHREAD_MPSAFE | KTHREAD_MUSTJOIN,
	    kupaldiz_cpu(1), reader, class, &thread, "reader") != 0)
		return 1;
	atomic_store_release(&list, NULL);
	pserialize_perform(psz);
	psref_target_destroy(&target, class);	/* waits for the release */
	kthread_join(thread);
	psref_class_destroy(class);
	pserialize_destroy(psz);
	return 0;
}
