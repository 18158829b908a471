/*
 * drivers.h - what a program calls of the seven drivers here
 *
 * Each driver is written as a file of the kernel is, includes sys/ and net/ alone, and compiles against the layer unchanged.
 */
#ifndef EXAMPLES_DRIVERS_H
#define EXAMPLES_DRIVERS_H

#include <sys/types.h>

/* bridge.c - a bridge's list of members: walked in a section, each member kept by a psref while a packet is sent by it. */
void bridge_init(void);
void bridge_fini(void);
int bridge_add(unsigned index);
int bridge_delete(unsigned index);
unsigned bridge_broadcast(void (*send)(void *, unsigned), void *arg);

/* ifindex.c - interfaces by their index: a table that grows under its readers. */
struct ifentry;
void ifindex_init(void);
void ifindex_fini(void);
unsigned if_attach(void);
int if_detach(unsigned index);
bool if_transmit(unsigned index, void (*send)(unsigned));
unsigned if_limit(void);

/* devsw.c - a device switch: opens count themselves into the driver, and a detach waits for them. */
struct devsw {
	int (*d_open)(unsigned);
	int (*d_close)(unsigned);
};
void devsw_init(void);
void devsw_fini(void);
int devsw_attach(unsigned major, const struct devsw *devsw);
int devsw_detach(unsigned major);
int cdev_open(unsigned major, unsigned minor);
int cdev_close(unsigned major, unsigned minor);

/* ioctl.c - an ioctl that copies from and to the user while it keeps an entry of a table. */
struct entry_request {
	unsigned er_key;
	unsigned er_value;
	char er_name[16];
};
#define ENTRYSET	1ul
#define ENTRYGET	2ul
#define ENTRYDEL	3ul
void entry_init(void);
void entry_fini(void);
int entry_ioctl(unsigned long command, void *data);

/* rxintr.c - packets from an interrupt to those that listen: a queue under a spin lock, and a soft interrupt that empties it. */
int rx_init(void);
void rx_fini(void);
void rx_interrupt(unsigned packet);
void *rx_listen(void (*input)(void *, unsigned), void *arg);
void rx_unlisten(void *listener);

/* counters.c - counters that each CPU has a part of. */
enum { COUNT_IN, COUNT_OUT, COUNT_DROPPED, COUNTERS };
void counters_init(void);
void counters_fini(void);
void counters_add(unsigned which, unsigned number);
void counters_sum(uint64_t sums[COUNTERS]);

/* unload.c - a module with a hook, a worker and a callout: unloading ends all three. Its command is kupaldiz_ticker_modcmd. */
int ticker_call(unsigned value, unsigned *answer);

#endif
