/* drivers [CASE [SCHEDULE]] - the seven drivers of netbsd/examples: no schedule of their threads breaks anything; nor do real threads, with threads.c */
#include <errno.h>
#include <sys/atomic.h>
#include <sys/module.h>
#include <sys/systm.h>

#include "../../netbsd/examples/drivers.h"
#include "cases.h"

/* ---- bridge.c: a packet goes to each member while one is deleted and another is added. ---- */

static void send_member(void *arg, unsigned index)
{
	unsigned *sum = arg;
	explorer_point();
	*sum += index;
}

HANDLER(broadcast, unsigned sum = 0, sent = bridge_broadcast(send_member, &sum); KASSERT(sent <= sum))
HANDLER(delete_member, KASSERT(bridge_delete(*(unsigned *)arg) == 0))

static unsigned first = 1;

static void make_bridge(void)
{
	bridge_init();
	KASSERT(bridge_add(2) == 0 && bridge_add(1) == 0 && bridge_add(1) == EEXIST && bridge_delete(3) == ENOENT);
}

/* ---- ifindex.c: a packet goes by an interface while that is detached, or while the table grows. ---- */

static void transmit_one(unsigned index)
{
	explorer_point();
	KASSERT(index == 1);
}

HANDLER(transmit, (void)if_transmit(1, transmit_one))
HANDLER(detach_one, KASSERT(if_detach(1) == 0))
HANDLER(attach_one, (void)if_attach())

static void make_interface(void) { ifindex_init(); KASSERT(if_attach() == 1 && if_detach(2) == ENXIO && if_limit() == 2); }

/* ---- devsw.c: a device is opened while its driver is detached. ---- */

static unsigned users;

static int open_it(unsigned minor)
{
	(void)minor;
	atomic_inc_uint(&users);
	atomic_dec_uint(&users);
	return 0;
}

static int close_it(unsigned minor)
{
	return minor < 2 ? 0 : EIO;
}

static const struct devsw device = {open_it, close_it};

HANDLER(open_device, int error = cdev_open(0, 0); KASSERT(error == 0 || error == ENXIO))
HANDLER(detach_device, KASSERT(devsw_detach(0) == 0); KASSERT(users == 0))

static void make_device(void)
{
	devsw_init();
	KASSERT(devsw_attach(0, &device) == 0 && devsw_attach(0, &device) == EEXIST && cdev_open(1, 0) == ENXIO && cdev_close(1, 0) == ENXIO);
}

/* ---- ioctl.c: an entry is read while it is replaced and deleted. ---- */

BODY(get_entry)
{
	struct entry_request request = {.er_key = 1};
	int error = entry_ioctl(ENTRYGET, &request);
	KASSERT(error == ENOENT || (error == 0 && request.er_value >= 5 && strcmp(request.er_name, "entry") == 0));
}

HANDLER(delete_entry, struct entry_request request = {.er_key = 1}; KASSERT(entry_ioctl(ENTRYDEL, &request) == 0))

BODY(set_entry)
{
	struct entry_request request = {.er_key = 1, .er_value = 6, .er_name = "entry"};
	KASSERT(entry_ioctl(ENTRYSET, &request) == 0);
}

static void make_entry(void)
{
	struct entry_request request = {.er_key = 1, .er_value = 5, .er_name = "entry"};
	entry_init();
	KASSERT(entry_ioctl(ENTRYDEL, &request) == ENOENT && entry_ioctl(ENTRYSET, NULL) == EFAULT && entry_ioctl(ENTRYSET, &request) == 0);
}

/* ---- rxintr.c: a packet comes in while a listener goes. ---- */

static unsigned received;
static void *listener;
static int rx_error;

static void input(void *arg, unsigned packet)
{
	KASSERT(packet == 7);
	atomic_inc_uint((unsigned *)arg);
}

BODY(interrupt)
{
	if (rx_error == 0)
		rx_interrupt(7);
}

BODY(unlisten)
{
	if (rx_error == 0)
		rx_unlisten(listener);
}

static void make_listener(void)
{
	rx_error = rx_init();
	KASSERT(rx_error == 0 || rx_error == ENOMEM);
	if (rx_error == 0)
		listener = rx_listen(input, &received);
}

static void end_rxintr(void)
{
	KASSERT(received <= 2);
	if (rx_error == 0)
		rx_fini();
}

/* ---- counters.c: the counters are read while they count. ---- */

HANDLER(count_twice, counters_add(COUNT_IN, 1); counters_add(COUNT_IN, 2))

BODY(sum_up)
{
	uint64_t sums[COUNTERS];
	counters_sum(sums);
	KASSERT(sums[COUNT_IN] == 0 || sums[COUNT_IN] == 1 || sums[COUNT_IN] == 3);
	explorer_outcome("%u", (unsigned)sums[COUNT_IN]);
}

static void end_counters(void)
{
	uint64_t sums[COUNTERS];
	counters_sum(sums);
	KASSERT(sums[COUNT_IN] == 3 && sums[COUNT_OUT] == 0 && sums[COUNT_DROPPED] == 0);
	counters_fini();
}

/* ---- unload.c: a module is unloaded while its hook is called, its worker runs and its callout ticks. ---- */

int kupaldiz_ticker_modcmd(modcmd_t command, void *opaque);

BODY(call_hook)
{
	unsigned answer = 0;
	int error = ticker_call(3, &answer);
	KASSERT(error == ENXIO || (error == 0 && answer == 4));
}

HANDLER(unload, KASSERT(kupaldiz_ticker_modcmd(MODULE_CMD_FINI, NULL) == 0))

static void begin_unload(void)
{
	int error = kupaldiz_ticker_modcmd(MODULE_CMD_INIT, NULL);
	KASSERT((error == 0 || error == ENOMEM) && kupaldiz_ticker_modcmd(MODULE_CMD_STAT, NULL) == ENOTTY);
	explorer_thread("call", call_hook, NULL);
	if (error == 0)
		explorer_thread("unload", unload, NULL);
}

const struct driver_case driver_cases[] = {
	{"bridge", make_bridge, bridge_fini, {{"broadcast", broadcast}, {"delete", delete_member, &first}}},
	{"ifindex", make_interface, ifindex_fini, {{"transmit", transmit}, {"detach", detach_one}}},
	{"growth", make_interface, ifindex_fini, {{"transmit", transmit}, {"attach", attach_one}}},
	{"devsw", make_device, devsw_fini, {{"open", open_device}, {"detach", detach_device}}},
	{"ioctl", make_entry, entry_fini, {{"get", get_entry}, {"delete", delete_entry}}},
	{"replace", make_entry, entry_fini, {{"get", get_entry}, {"set", set_entry}}},
	{"rxintr", make_listener, end_rxintr, {{"interrupt", interrupt}, {"unlisten", unlisten}}},
	{"counters", counters_init, end_counters, {{"count", count_twice}, {"sum", sum_up}}},
	{"bridge-wide", make_bridge, bridge_fini, {{"broadcast", broadcast}, {"delete", delete_member, &first}, {"another", broadcast}}},
	{"ifindex-wide", make_interface, ifindex_fini, {{"transmit", transmit}, {"detach", detach_one}, {"another", transmit}, {"attach", attach_one}}},
	{"devsw-wide", make_device, devsw_fini, {{"open", open_device}, {"detach", detach_device}, {"another", open_device}}},
	{"replace-wide", make_entry, entry_fini, {{"get", get_entry}, {"set", set_entry}, {"another", get_entry}}},
	{"rxintr-wide", make_listener, end_rxintr, {{"interrupt", interrupt}, {"unlisten", unlisten}, {"another", interrupt}}},
	{"unload", begin_unload, .left = 1},	/* the hook is there before and after the module */
};
const unsigned driver_case_count = sizeof(driver_cases) / sizeof(driver_cases[0]);

int main(int count, char **words)
{
	return try_cases(driver_cases, driver_case_count, count, words);
}
