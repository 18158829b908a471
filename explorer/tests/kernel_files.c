/* kernel_files [CASE [SCHEDULE]] - the files of netbsd/examples/kernel: no schedule of their threads breaks them, nor does a failure */
#include "../../netbsd/examples/kernel/if.c"
#include "../../netbsd/examples/kernel/if_bridge.c"
#include "../../netbsd/examples/kernel/key.c"
#include "../../netbsd/examples/kernel/subr_devsw.c"
#include "cases.h"

/* ---- if.c: a packet goes by an interface, whose link changes, while it is detached. ---- */

static struct ifnet *wm0;

HANDLER(output_wm0, int error = if_output_byname("wm0"); KASSERT(error == 0 || error == ENXIO))

HANDLER(detach_wm0, if_detach(wm0); kmem_free(wm0, sizeof(*wm0)))

static void begin_if(void)
{
	ifinit1();
	wm0 = kmem_zalloc(sizeof(*wm0), KM_SLEEP);
	strlcpy(wm0->if_xname, "wm0", sizeof(wm0->if_xname));
	KASSERT(if_attach(wm0) == 0);
}

/* ---- key.c: packets are received while the association that they use is destroyed. ---- */

HANDLER(receive, key_receive(256))
HANDLER(destroy_sav, key_destroy_sav(arg))

static void begin_key(void)
{
	key_init();
	struct secasvar *sav = key_newsav(256);
	if (key_input_si != NULL)
		explorer_thread("receive", receive, NULL);
	explorer_thread("destroy", destroy_sav, sav);
}

static void end_key(void) { KASSERT(unrefs <= 1 && in_flight == NULL); key_fini(); }

/* ---- subr_devsw.c: a device is opened while its driver is detached, and another driver is attached, so that the table grows. ---- */

static u_int in_first;
static int attached;

static int open_first(devminor_t minor)
{
	atomic_inc_uint(&in_first);
	atomic_dec_uint(&in_first);
	return minor;
}

static int open_second(devminor_t minor)
{
	return minor;
}

static const struct cdevsw first_cdev = {.d_open = open_first}, second_cdev = {.d_open = open_second};

BODY(open_devices)
{
	for (devmajor_t major = 1; major <= 5; major += 4) {
		int error = cdev_open(major, 0);
		KASSERT(error == 0 || error == ENXIO);
	}
}

HANDLER(detach_first, devsw_detach(&first_cdev); KASSERT(atomic_load_relaxed(&in_first) == 0))
HANDLER(attach_second, attached = devsw_attach(&second_cdev, 5); KASSERT(attached == 0 || attached == ENOMEM))

static void begin_devsw(void)
{
	attached = -1;
	devsw_init();
	int error = devsw_attach(&first_cdev, 1);
	KASSERT(error == 0 || error == ENOMEM);
	explorer_thread("open", open_devices, NULL);
	if (error == 0)
		explorer_thread("detach", detach_first, NULL);
	explorer_thread("attach", attach_second, NULL);
}

static void end_devsw(void)
{
	if (attached == 0)
		devsw_detach(&second_cdev);
	devsw_fini();
}

/* ---- if_bridge.c: packets are forwarded while a member is deleted, and while old addresses go. ---- */

enum { ONE = 1, TWO = 2 };

static int no_bridge;

HANDLER(forward, unsigned to = no_bridge != 0 ? 0 : bridge_forward(ONE, 0x10, 0x20); KASSERT(to == 0 || to == TWO))
HANDLER(answer, unsigned to = no_bridge != 0 ? 0 : bridge_forward(TWO, 0x20, 0x10); KASSERT(to == 0 || to == ONE))
HANDLER(delete_two, if (no_bridge == 0) bridge_delete(TWO))
HANDLER(stop_bridge, if (no_bridge == 0) bridge_stop(); KASSERT(atomic_load_relaxed(&bridge.sc_rtage_scheduled) == 0))

static void make_bridge(void)
{
	no_bridge = bridge_init();
	if (no_bridge == 0) {
		bridge_add(ONE);
		bridge_add(TWO);
	}
}

static void start_bridge(void)
{
	make_bridge();
	if (no_bridge == 0) {
		(void)bridge_forward(ONE, 0x10, 0x20);
		bridge_start();
	}
}

static void end_bridge(void)
{
	if (no_bridge == 0)
		bridge_fini();
}

/* Where the workqueue can't be made as the kernel starts, if.c panics. */
static const struct driver_case file_cases[] = {
	{"if", begin_if, ifnet_fini, {{"output", output_wm0}, {"detach", detach_wm0}}, .reliable = true},
	{"key", begin_key, end_key},
	{"subr_devsw", begin_devsw, end_devsw},
	{"forward", make_bridge, end_bridge, {{"answer", answer}, {"delete", delete_two}}},
	{"age", start_bridge, end_bridge, {{"forward", forward}, {"stop", stop_bridge}}},
};

int main(int count, char **words)
{
	return try_cases(file_cases, sizeof(file_cases) / sizeof(file_cases[0]), count, words);
}
