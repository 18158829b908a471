/* ioctl.c - an ioctl with copies from and to the user, which may sleep: a psref keeps the entry meanwhile */
#include <sys/cdefs.h>
__KERNEL_RCSID(0, "$NetBSD$");

#include <sys/param.h>
#include <sys/systm.h>
#include <sys/kmem.h>
#include <sys/lwp.h>
#include <sys/mutex.h>
#include <sys/pool.h>
#include <sys/pserialize.h>
#include <sys/pslist.h>
#include <sys/psref.h>

#include "drivers.h"

struct entry {
	struct pslist_entry	e_link;
	struct psref_target	e_target;
	struct entry_request	e_content;	/* never changed while it is in the list */
};

static struct pslist_head	entries = PSLIST_INITIALIZER;
static kmutex_t			entry_lock;
static pserialize_t		entry_psz;
static struct psref_class	*entry_class;
static pool_cache_t		entry_cache;

void
entry_init(void)
{
	mutex_init(&entry_lock, MUTEX_DEFAULT, IPL_NONE);
	entry_psz = pserialize_create();
	entry_class = psref_class_create("entry", IPL_NONE);
	entry_cache = pool_cache_init(sizeof(struct entry), 0, 0, 0, "entrypl", NULL, IPL_NONE, NULL, NULL, NULL);
}

static struct entry *
entry_get(unsigned key, struct psref *psref)
{
	struct entry *e;
	int s;

	s = pserialize_read_enter();
	PSLIST_READER_FOREACH(e, &entries, struct entry, e_link) {
		if (e->e_content.er_key == key)
			break;
	}
	if (e != NULL)
		psref_acquire(psref, &e->e_target, entry_class);
	pserialize_read_exit(s);
	return e;
}

/* Takes the entry with a key out of the list. The caller has the lock, which is given back. */
static int
entry_remove(unsigned key)
{
	struct entry *e;

	KASSERT(mutex_owned(&entry_lock));
	PSLIST_WRITER_FOREACH(e, &entries, struct entry, e_link) {
		if (e->e_content.er_key == key)
			break;
	}
	if (e == NULL) {
		mutex_exit(&entry_lock);
		return ENOENT;
	}
	PSLIST_WRITER_REMOVE(e, e_link);
	pserialize_perform(entry_psz);
	mutex_exit(&entry_lock);
	psref_target_destroy(&e->e_target, entry_class);
	PSLIST_ENTRY_DESTROY(e, e_link);
	pool_cache_put(entry_cache, e);
	return 0;
}

static int
entry_set(const struct entry_request *request)
{
	struct entry *e = pool_cache_get(entry_cache, PR_WAITOK), *other;

	e->e_content = *request;
	PSLIST_ENTRY_INIT(e, e_link);
	psref_target_init(&e->e_target, entry_class);
	mutex_enter(&entry_lock);
	PSLIST_WRITER_FOREACH(other, &entries, struct entry, e_link) {
		if (other->e_content.er_key == request->er_key)
			break;
	}
	PSLIST_WRITER_INSERT_HEAD(&entries, e, e_link);
	if (other == NULL) {
		mutex_exit(&entry_lock);
		return 0;
	}
	PSLIST_WRITER_REMOVE(other, e_link);
	pserialize_perform(entry_psz);
	mutex_exit(&entry_lock);
	psref_target_destroy(&other->e_target, entry_class);
	PSLIST_ENTRY_DESTROY(other, e_link);
	pool_cache_put(entry_cache, other);
	return 0;
}

/* The copy to the user sleeps: the section has ended by then, and the reference keeps the entry. */
static int
entry_copyout(unsigned key, void *data)
{
	struct psref psref;
	struct entry *e;
	int bound, error;

	bound = curlwp_bind();
	e = entry_get(key, &psref);
	if (e == NULL) {
		curlwp_bindx(bound);
		return ENOENT;
	}
	error = copyout(&e->e_content, data, sizeof(e->e_content));
	psref_release(&psref, &e->e_target, entry_class);
	curlwp_bindx(bound);
	return error;
}

int
entry_ioctl(unsigned long command, void *data)
{
	struct entry_request request;
	int error;

	error = copyin(data, &request, sizeof(request));
	if (error)
		return error;
	switch (command) {
	case ENTRYSET:
		return entry_set(&request);
	case ENTRYGET:
		return entry_copyout(request.er_key, data);
	case ENTRYDEL:
		mutex_enter(&entry_lock);
		return entry_remove(request.er_key);
	default:
		return ENOTTY;
	}
}

void
entry_fini(void)
{
	struct entry *e;

	mutex_enter(&entry_lock);
	while ((e = PSLIST_WRITER_FIRST(&entries, struct entry, e_link)) != NULL) {
		(void)entry_remove(e->e_content.er_key);
		mutex_enter(&entry_lock);
	}
	mutex_exit(&entry_lock);
	pool_cache_destroy(entry_cache);
	psref_class_destroy(entry_class);
	pserialize_destroy(entry_psz);
	mutex_destroy(&entry_lock);
}
