/* sys/malloc.h - malloc(9), over kmem_intr_alloc: three words, where the C library's has one */
#ifndef KUPALDIZ_NETBSD_SYS_MALLOC_H
#define KUPALDIZ_NETBSD_SYS_MALLOC_H

#include <stdlib.h>
#include <sys/cdefs.h>

#include "../kupaldiz/memory.h"

#define M_WAITOK	0x0000
#define M_NOWAIT	0x0001
#define M_ZERO		0x0002

#define MALLOC_DECLARE(type)
#define MALLOC_DEFINE(type, name, description)

__BEGIN_DECLS

/* kupaldiz_malloc, malloc - memory that free gives back, which is told its size. */
static inline void *kupaldiz_malloc(size_t size, int flags)
{
	km_flag_t how = (flags & M_NOWAIT) != 0 ? KM_NOSLEEP : KM_SLEEP;
	size_t *block = (size_t *)(kmem_intr_alloc)(size + 16, how);
	if (block == NULL)
		return NULL;
	*block = size + 16;
	return (flags & M_ZERO) != 0 ? memset((char *)block + 16, 0, size) : (void *)((char *)block + 16);
}

/* kupaldiz_mfree, free - give it back. */
static inline void kupaldiz_mfree(void *memory)
{
	size_t *block = (size_t *)(void *)((char *)memory - 16);
	(kmem_intr_free)(block, *block);
}

__END_DECLS

#define malloc(size, type, flags)	(kupaldiz_at(KUPALDIZ_HERE), kupaldiz_malloc(size, flags))
#define free(memory, type)		(kupaldiz_at(KUPALDIZ_HERE), kupaldiz_mfree(memory))

#endif
