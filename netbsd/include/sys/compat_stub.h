/* sys/compat_stub.h - hooks, as in module_hook(9) */
#ifndef KUPALDIZ_NETBSD_SYS_COMPAT_STUB_H
#define KUPALDIZ_NETBSD_SYS_COMPAT_STUB_H

#include "../kupaldiz/module_hook.h"

#endif
