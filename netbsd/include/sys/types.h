/* sys/types.h - the system's, and the types that kernel files expect there besides */
#pragma GCC system_header
#include_next <sys/types.h>

#ifndef KUPALDIZ_NETBSD_SYS_TYPES_WRAPPED
#define KUPALDIZ_NETBSD_SYS_TYPES_WRAPPED

#include <stdbool.h>
#include <stdint.h>

typedef int32_t kupaldiz_devmajor_t;
#define devmajor_t	kupaldiz_devmajor_t
typedef int32_t kupaldiz_devminor_t;
#define devminor_t	kupaldiz_devminor_t

#ifndef KUPALDIZ_PRI
#define KUPALDIZ_PRI
typedef int pri_t;
#endif

/* SET, CLR, ISSET - put bits into a word, take them out, and which of them are in it. */
#define SET(word, bits)		((word) |= (bits))
#define CLR(word, bits)		((word) &= ~(bits))
#define ISSET(word, bits)	((word) & (bits))

#endif
