/* sys/interrupt.h - what a file that includes it takes of it here: nothing */
#ifndef KUPALDIZ_NETBSD_SYS_INTERRUPT_H
#define KUPALDIZ_NETBSD_SYS_INTERRUPT_H

#include "../kupaldiz/softint.h"

#endif
