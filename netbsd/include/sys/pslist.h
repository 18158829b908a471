/*
 * sys/pslist.h - pslist(9): a list that readers walk in read sections while one writer changes it
 *
 * Readers load each link by atomic_load_consume, and writers store it by atomic_store_release. An entry that was removed keeps its own link, so that
 * readers that have reached it go on; it may be destroyed once pserialize_perform has returned.
 */
#ifndef KUPALDIZ_NETBSD_SYS_PSLIST_H
#define KUPALDIZ_NETBSD_SYS_PSLIST_H

#include <stddef.h>

#include "../kupaldiz/kernel.h"
#include "atomic.h"

struct pslist_entry {
	struct pslist_entry **ple_prevp;	/* the link that leads here, NULL where the entry is in no list */
	struct pslist_entry *ple_next;
};

struct pslist_head {
	struct pslist_entry *plh_first;
};

#define PSLIST_INITIALIZER	{ .plh_first = NULL }
#define PSLIST_ENTRY_INITIALIZER	{ .ple_prevp = NULL, .ple_next = NULL }

/* Where a link leads that belongs to an entry of no list any more. */
#define KUPALDIZ_PSLIST_GONE	((struct pslist_entry *)(uintptr_t)1)

static inline void kupaldiz_pslist_init(struct pslist_head *head) { head->plh_first = NULL; }
static inline void kupaldiz_pslist_destroy(struct pslist_head *head) { KASSERT(head->plh_first == NULL); }

static inline void kupaldiz_pslist_entry_init(struct pslist_entry *entry)
{
	entry->ple_prevp = NULL;
	entry->ple_next = NULL;
}

static inline void kupaldiz_pslist_entry_destroy(struct pslist_entry *entry)
{
	KASSERT(entry->ple_prevp == NULL);
	entry->ple_next = KUPALDIZ_PSLIST_GONE;
}

/* Puts an entry where a link leads. */
static inline void kupaldiz_pslist_insert(struct pslist_entry **link, struct pslist_entry *entry)
{
	KASSERT(entry->ple_prevp == NULL && entry->ple_next != KUPALDIZ_PSLIST_GONE);
	entry->ple_prevp = link;
	entry->ple_next = *link;
	if (entry->ple_next != NULL)
		entry->ple_next->ple_prevp = &entry->ple_next;
	atomic_store_release(link, entry);
}

static inline void kupaldiz_pslist_insert_before(struct pslist_entry *at, struct pslist_entry *entry)
{
	KASSERT(at->ple_prevp != NULL);
	kupaldiz_pslist_insert(at->ple_prevp, entry);
}

static inline void kupaldiz_pslist_insert_after(struct pslist_entry *at, struct pslist_entry *entry)
{
	KASSERT(at->ple_prevp != NULL);
	kupaldiz_pslist_insert(&at->ple_next, entry);
}

static inline void kupaldiz_pslist_remove(struct pslist_entry *entry)
{
	KASSERT(entry->ple_prevp != NULL);
	if (entry->ple_next != NULL)
		entry->ple_next->ple_prevp = entry->ple_prevp;
	atomic_store_release(entry->ple_prevp, entry->ple_next);
	entry->ple_prevp = NULL;
}

/* The thing whose part an entry is; NULL where there is none. */
static inline void *kupaldiz_pslist_container(struct pslist_entry *entry, size_t offset)
{
	return entry == NULL ? NULL : (void *)((char *)entry - offset);
}

#define KUPALDIZ_PSLIST_AT(link, type, field) \
	((type *)kupaldiz_pslist_container(atomic_load_consume(link), offsetof(type, field)))

#define PSLIST_INIT(head)		kupaldiz_pslist_init(head)
#define PSLIST_DESTROY(head)		kupaldiz_pslist_destroy(head)
#define PSLIST_ENTRY_INIT(element, field)	kupaldiz_pslist_entry_init(&(element)->field)
#define PSLIST_ENTRY_DESTROY(element, field)	kupaldiz_pslist_entry_destroy(&(element)->field)

#define PSLIST_WRITER_INSERT_HEAD(head, element, field)	KUPALDIZ_FROM(kupaldiz_pslist_insert(&(head)->plh_first, &(element)->field))
#define PSLIST_WRITER_INSERT_BEFORE(at, element, field)	KUPALDIZ_FROM(kupaldiz_pslist_insert_before(&(at)->field, &(element)->field))
#define PSLIST_WRITER_INSERT_AFTER(at, element, field)	KUPALDIZ_FROM(kupaldiz_pslist_insert_after(&(at)->field, &(element)->field))
#define PSLIST_WRITER_REMOVE(element, field)		KUPALDIZ_FROM(kupaldiz_pslist_remove(&(element)->field))
#define PSLIST_WRITER_EMPTY(head)			((head)->plh_first == NULL)
#define PSLIST_WRITER_FIRST(head, type, field)		KUPALDIZ_PSLIST_AT(&(head)->plh_first, type, field)
#define PSLIST_WRITER_NEXT(element, type, field)	KUPALDIZ_PSLIST_AT(&(element)->field.ple_next, type, field)
#define PSLIST_WRITER_FOREACH(element, head, type, field) \
	for ((element) = PSLIST_WRITER_FIRST(head, type, field); (element) != NULL; (element) = PSLIST_WRITER_NEXT(element, type, field))

#define PSLIST_READER_EMPTY(head)			(atomic_load_relaxed(&(head)->plh_first) == NULL)
#define PSLIST_READER_FIRST(head, type, field)		KUPALDIZ_PSLIST_AT(&(head)->plh_first, type, field)
#define PSLIST_READER_NEXT(element, type, field)	KUPALDIZ_PSLIST_AT(&(element)->field.ple_next, type, field)
#define PSLIST_READER_FOREACH(element, head, type, field) \
	for ((element) = PSLIST_READER_FIRST(head, type, field); (element) != NULL; (element) = PSLIST_READER_NEXT(element, type, field))

#endif
