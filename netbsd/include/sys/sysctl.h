/* sys/sysctl.h - no node is made: SYSCTL_SETUP is a function that nobody calls */
#ifndef KUPALDIZ_NETBSD_SYS_SYSCTL_H
#define KUPALDIZ_NETBSD_SYS_SYSCTL_H

#include "../kupaldiz/kernel.h"

struct sysctllog;

#define SYSCTL_SETUP(name, description)	static void __attribute__((unused)) name(struct sysctllog **log)
#define sysctl_createv(...)	(0)
#define sysctl_teardown(log)	((void)(log))

#endif
