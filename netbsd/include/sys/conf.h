/* sys/conf.h - the flags of devsw(9), and its numbers of devices; netbsd/examples/devsw.c has the lookup */
#ifndef KUPALDIZ_NETBSD_SYS_CONF_H
#define KUPALDIZ_NETBSD_SYS_CONF_H

#include <sys/types.h>
#include <sys/sysmacros.h>

#include "../kupaldiz/kernel.h"

#define D_OTHER		0x0000
#define D_TAPE		0x0001
#define D_DISK		0x0002
#define D_TTY		0x0003
#define D_MPSAFE	0x0100

#define NODEVMAJOR	(-1)

#endif
