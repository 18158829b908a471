/* sys/device.h - device_t, as far as a driver's lists look at it: its name, its unit and its memory */
#ifndef KUPALDIZ_NETBSD_SYS_DEVICE_H
#define KUPALDIZ_NETBSD_SYS_DEVICE_H

#include "../kupaldiz/kernel.h"

typedef struct device {
	const char *dv_xname;
	void *dv_private;
	int dv_unit;
} *device_t;

static inline const char *device_xname(device_t device) { return device->dv_xname; }
static inline void *device_private(device_t device) { return device->dv_private; }
static inline int device_unit(device_t device) { return device->dv_unit; }

#endif
