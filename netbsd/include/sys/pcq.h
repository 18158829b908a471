/* sys/pcq.h - pcq(9): a queue of many producers and one consumer, without a lock */
#ifndef KUPALDIZ_NETBSD_SYS_PCQ_H
#define KUPALDIZ_NETBSD_SYS_PCQ_H

#include <sys/atomic.h>

#include "../kupaldiz/memory.h"

__BEGIN_DECLS

/* Where the next item is put and got: both in one word, which a producer and the consumer change in one step. */
typedef struct pcq {
	uint32_t pcq_ends;
	uint32_t pcq_items;
} pcq_t;

/* Its places, which are behind it. */
static inline void **kupaldiz_pcq_place(pcq_t *pcq, uint32_t place) { return (void **)(void *)(pcq + 1) + place; }

static inline size_t kupaldiz_pcq_size(size_t items) { return sizeof(pcq_t) + items * sizeof(void *); }

/* pcq_create - a queue for so many items at most, one less than it has places. */
static inline pcq_t *pcq_create(size_t items, km_flag_t flags)
{
	pcq_t *pcq = (pcq_t *)(kmem_zalloc)(kupaldiz_pcq_size(items + 1), flags);
	if (pcq != NULL)
		pcq->pcq_items = (uint32_t)items + 1;
	return pcq;
}

static inline void pcq_destroy(pcq_t *pcq) { (kmem_free)(pcq, kupaldiz_pcq_size(pcq->pcq_items)); }
static inline size_t pcq_maxitems(pcq_t *pcq) { return pcq->pcq_items - 1; }

/* pcq_put - whether there was room. */
static inline bool pcq_put(pcq_t *pcq, void *item)
{
	uint32_t ends, put, after;
	do {
		ends = atomic_load_relaxed(&pcq->pcq_ends);
		put = ends >> 16;
		after = put + 1 == pcq->pcq_items ? 0 : put + 1;
		if (after == (ends & 0xffff))
			return false;
	} while (atomic_cas_32(&pcq->pcq_ends, ends, after << 16 | (ends & 0xffff)) != ends);
	atomic_store_release(kupaldiz_pcq_place(pcq, put), item);
	return true;
}

/* pcq_peek - the next item; NULL where there is none, or its producer is about to put it. */
static inline void *pcq_peek(pcq_t *pcq)
{
	uint32_t ends = atomic_load_relaxed(&pcq->pcq_ends), got = ends & 0xffff;
	return got == ends >> 16 ? NULL : atomic_load_consume(kupaldiz_pcq_place(pcq, got));
}

/* pcq_get - take it. One thread at a time gets. */
static inline void *pcq_get(pcq_t *pcq)
{
	void *item = pcq_peek(pcq);
	uint32_t ends, got;
	if (item == NULL)
		return NULL;
	got = atomic_load_relaxed(&pcq->pcq_ends) & 0xffff;
	atomic_store_relaxed(kupaldiz_pcq_place(pcq, got), (void *)NULL);
	do
		ends = atomic_load_relaxed(&pcq->pcq_ends);
	while (atomic_cas_32(&pcq->pcq_ends, ends, (ends & 0xffff0000) | (got + 1 == pcq->pcq_items ? 0 : got + 1)) != ends);
	return item;
}

#define KUPALDIZ_PLACES_OF_PCQ
#include <kupaldiz/places.h>

__END_DECLS

#endif
