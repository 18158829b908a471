/* sys/container_of.h - container_of(9): the thing whose field a pointer leads to */
#ifndef KUPALDIZ_NETBSD_SYS_CONTAINER_OF_H
#define KUPALDIZ_NETBSD_SYS_CONTAINER_OF_H

#include <stddef.h>

/* The compiler warns of a pointer that isn't one to such a field. */
#define container_of(pointer, type, field) \
	((type *)((char *)(pointer) - offsetof(type, field)) + 0 * sizeof((pointer) - &((type *)(pointer))->field))

#endif
