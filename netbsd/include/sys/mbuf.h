/* sys/mbuf.h - mbuf(9), as far as lists and lookups need it: packets that are made, chained and freed, and how many there are */
#ifndef KUPALDIZ_NETBSD_SYS_MBUF_H
#define KUPALDIZ_NETBSD_SYS_MBUF_H

#include <sys/atomic.h>

#include "../kupaldiz/memory.h"

#define MLEN		224
#define M_DONTWAIT	1
#define M_WAIT		0
#define MT_DATA		1
#define MT_HEADER	2
#define M_PKTHDR	0x02

__BEGIN_DECLS

struct mbuf {
	struct mbuf *m_next, *m_nextpkt;
	char *m_data;
	int m_len, m_flags;
	struct {
		int len;
		void *rcvif;
	} m_pkthdr;
	char m_dat[MLEN];
};

#define mtod(mbuf, type)	((type)(void *)(mbuf)->m_data)

/* Those that were made and not freed. */
__attribute__((weak)) unsigned kupaldiz_mbufs;

static inline struct mbuf *m_get(int how, int type)
{
	struct mbuf *mbuf = (struct mbuf *)(kmem_intr_zalloc)(sizeof(*mbuf), how == M_DONTWAIT ? KM_NOSLEEP : KM_SLEEP);
	(void)type;
	if (mbuf == NULL)
		return NULL;
	mbuf->m_data = mbuf->m_dat;
	atomic_inc_uint(&kupaldiz_mbufs);
	return mbuf;
}

static inline struct mbuf *m_gethdr(int how, int type)
{
	struct mbuf *mbuf = m_get(how, type);
	if (mbuf != NULL)
		mbuf->m_flags = M_PKTHDR;
	return mbuf;
}

/* m_free - free the first of a chain. The next one is returned. */
static inline struct mbuf *m_free(struct mbuf *mbuf)
{
	struct mbuf *next = mbuf->m_next;
	(kmem_intr_free)(mbuf, sizeof(*mbuf));
	atomic_dec_uint(&kupaldiz_mbufs);
	return next;
}

/* kupaldiz_m_freem, m_freem - free all of a chain. The second is a macro, too, which notes where it is. */
static inline void kupaldiz_m_freem(struct mbuf *mbuf, const char *place)
{
	while (mbuf != NULL) {
		kupaldiz_at(place);
		mbuf = m_free(mbuf);
	}
}

static inline void m_freem(struct mbuf *mbuf) { kupaldiz_m_freem(mbuf, NULL); }
#define m_freem(mbuf)	kupaldiz_m_freem(mbuf, KUPALDIZ_HERE)

static inline int m_length(const struct mbuf *mbuf)
{
	int length = 0;
	for (; mbuf != NULL; mbuf = mbuf->m_next)
		length += mbuf->m_len;
	return length;
}

#define KUPALDIZ_PLACES_OF_MBUF
#include <kupaldiz/places.h>

__END_DECLS

#endif
