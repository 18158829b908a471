/* names - the names of names.txt that are no calls. It is compiled as a driver's file is, and the explorer runs it too: explorer/tests/named.c. */
#include <sys/cdefs.h>
__KERNEL_RCSID(0, "$NetBSD$");

#include <sys/param.h>
#include <sys/systm.h>
#include <sys/atomic.h>
#include <sys/bus.h>
#include <sys/compat_stub.h>
#include <sys/conf.h>
#include <sys/container_of.h>
#include <sys/cprng.h>
#include <sys/device.h>
#include <sys/evcnt.h>
#include <sys/hash.h>
#include <sys/interrupt.h>
#include <sys/kernel.h>
#include <sys/kthread.h>
#include <sys/mbuf.h>
#include <sys/module.h>
#include <sys/once.h>
#include <sys/pcq.h>
#include <sys/pslist.h>
#include <sys/queue.h>
#include <sys/rbtree.h>
#include <sys/socketvar.h>
#include <sys/sysctl.h>
#include <sys/syslog.h>

#include "test.h"

#include <sys/malloc.h>

/* All operations on a word of one type. It holds 5 at first. */
#define TEST_ATOMICS(type, add, add_nv, inc, inc_nv, dec, dec_nv, and, and_nv, or, or_nv, swap, cas, cas_ni) \
	do { \
		type word = 5; \
		add(&word, 4); \
		EXPECT(word == 9 && add_nv(&word, -2) == 7 && word == 7); \
		inc(&word); \
		EXPECT(word == 8 && inc_nv(&word) == 9 && word == 9); \
		dec(&word); \
		EXPECT(word == 8 && dec_nv(&word) == 7 && word == 7); \
		and(&word, 14); \
		EXPECT(word == 6 && and_nv(&word, 3) == 2 && word == 2); \
		or(&word, 5); \
		EXPECT(word == 7 && or_nv(&word, 8) == 15 && word == 15); \
		EXPECT(swap(&word, 3) == 15 && word == 3); \
		EXPECT(cas(&word, 4, 9) == 3 && word == 3 && cas(&word, 3, 9) == 3 && word == 9); \
		EXPECT(cas_ni(&word, 3, 5) == 9 && word == 9 && cas_ni(&word, 9, (type)-1) == 9 && word == (type)-1); \
		EXPECT(inc_nv(&word) == 0 && dec_nv(&word) == (type)-1); \
	} while (0)

static void test_atomics(void)
{
	TEST_ATOMICS(uint32_t, atomic_add_32, atomic_add_32_nv, atomic_inc_32, atomic_inc_32_nv, atomic_dec_32, atomic_dec_32_nv, atomic_and_32,
	    atomic_and_32_nv, atomic_or_32, atomic_or_32_nv, atomic_swap_32, atomic_cas_32, atomic_cas_32_ni);
	TEST_ATOMICS(unsigned int, atomic_add_int, atomic_add_int_nv, atomic_inc_uint, atomic_inc_uint_nv, atomic_dec_uint, atomic_dec_uint_nv,
	    atomic_and_uint, atomic_and_uint_nv, atomic_or_uint, atomic_or_uint_nv, atomic_swap_uint, atomic_cas_uint, atomic_cas_uint_ni);
	TEST_ATOMICS(unsigned long, atomic_add_long, atomic_add_long_nv, atomic_inc_ulong, atomic_inc_ulong_nv, atomic_dec_ulong,
	    atomic_dec_ulong_nv, atomic_and_ulong, atomic_and_ulong_nv, atomic_or_ulong, atomic_or_ulong_nv, atomic_swap_ulong, atomic_cas_ulong,
	    atomic_cas_ulong_ni);
	TEST_ATOMICS(uint64_t, atomic_add_64, atomic_add_64_nv, atomic_inc_64, atomic_inc_64_nv, atomic_dec_64, atomic_dec_64_nv, atomic_and_64,
	    atomic_and_64_nv, atomic_or_64, atomic_or_64_nv, atomic_swap_64, atomic_cas_64, atomic_cas_64_ni);
}

static void test_pointers(void)
{
	char bytes[8], *at = bytes;
	atomic_add_ptr(&at, 6);
	EXPECT(at == bytes + 6 && atomic_add_ptr_nv(&at, -4) == bytes + 2);
	atomic_inc_ptr(&at);
	EXPECT(at == bytes + 3 && atomic_inc_ptr_nv(&at) == bytes + 4);
	atomic_dec_ptr(&at);
	EXPECT(at == bytes + 3 && atomic_dec_ptr_nv(&at) == bytes + 2);
	EXPECT(atomic_cas_ptr_ni(&at, bytes, NULL) == bytes + 2 && atomic_cas_ptr_ni(&at, bytes + 2, NULL) == bytes + 2 && at == NULL);
	EXPECT(atomic_swap_ptr(&at, bytes) == NULL && atomic_cas_ptr(&at, NULL, NULL) == bytes && atomic_cas_ptr(&at, bytes, NULL) == bytes && at == NULL);
	membar_producer();
	membar_consumer();
	membar_sync();
	membar_acquire();
	membar_enter();
	membar_exit();
	membar_datadep_consumer();
	__insn_barrier();
}

/* ---- queue(3): elements come to each kind of list, and some go. ---- */

struct element {
	SLIST_ENTRY(element)	single;
	LIST_ENTRY(element)	both;
	SIMPLEQ_ENTRY(element)	simple;
	STAILQ_ENTRY(element)	tailed;
	TAILQ_ENTRY(element)	tail;
	unsigned		value;
};

static struct element elements[5] = {{.value = 1}, {.value = 2}, {.value = 3}, {.value = 4}, {.value = 5}};

/* The values of a list as the digits of a number. */
#define ORDER(at, foreach) \
	(__extension__({ \
		unsigned order = 0; \
		foreach \
			order = order * 10 + (at)->value; \
		order; \
	}))

static void test_slist(void)
{
	SLIST_HEAD(, element) head = SLIST_HEAD_INITIALIZER(head);
	struct element *at, *after;
	SLIST_INIT(&head);
	SLIST_INSERT_HEAD(&head, &elements[1], single);
	SLIST_INSERT_HEAD(&head, &elements[0], single);
	SLIST_INSERT_AFTER(&elements[1], &elements[3], single);
	SLIST_INSERT_AFTER(&elements[1], &elements[2], single);
	EXPECT(ORDER(at, SLIST_FOREACH(at, &head, single)) == 1234);
	EXPECT(SLIST_FIRST(&head) == &elements[0] && SLIST_NEXT(&elements[0], single) == &elements[1]);
	SLIST_REMOVE_AFTER(&elements[1], single);
	SLIST_REMOVE(&head, &elements[3], element, single);
	EXPECT(ORDER(at, SLIST_FOREACH(at, &head, single)) == 12);
	SLIST_FOREACH_SAFE(at, &head, single, after)
		SLIST_REMOVE_HEAD(&head, single);
	EXPECT(SLIST_EMPTY(&head));
}

static void test_list(void)
{
	LIST_HEAD(elements, element) head = LIST_HEAD_INITIALIZER(head), other;
	struct element *at, *after;
	LIST_INIT(&head);
	LIST_INSERT_HEAD(&head, &elements[1], both);
	LIST_INSERT_BEFORE(&elements[1], &elements[0], both);
	LIST_INSERT_AFTER(&elements[1], &elements[2], both);
	LIST_REPLACE(&elements[1], &elements[3], both);
	EXPECT(ORDER(at, LIST_FOREACH(at, &head, both)) == 143);
	EXPECT(LIST_FIRST(&head) == &elements[0] && LIST_NEXT(&elements[3], both) == &elements[2]);
	LIST_REPLACE(&elements[0], &elements[1], both);
	LIST_REPLACE(&elements[2], &elements[4], both);
	LIST_MOVE(&head, &other, both);
	EXPECT(ORDER(at, LIST_FOREACH(at, &other, both)) == 245 && LIST_EMPTY(&head));
	LIST_MOVE(&head, &other, both);
	EXPECT(LIST_EMPTY(&other));
	LIST_INSERT_HEAD(&other, &elements[0], both);
	LIST_FOREACH_SAFE(at, &other, both, after)
		LIST_REMOVE(at, both);
	EXPECT(LIST_EMPTY(&other));
}

static void test_simpleq(void)
{
	SIMPLEQ_HEAD(simples, element) head = SIMPLEQ_HEAD_INITIALIZER(head), more;
	struct element *at, *after;
	SIMPLEQ_INIT(&head);
	SIMPLEQ_INIT(&more);
	EXPECT(SIMPLEQ_LAST(&head, element, simple) == NULL);
	SIMPLEQ_INSERT_TAIL(&head, &elements[1], simple);
	SIMPLEQ_INSERT_HEAD(&head, &elements[0], simple);
	SIMPLEQ_INSERT_AFTER(&head, &elements[1], &elements[2], simple);
	SIMPLEQ_INSERT_TAIL(&more, &elements[3], simple);
	SIMPLEQ_CONCAT(&head, &more);
	SIMPLEQ_CONCAT(&head, &more);
	EXPECT(ORDER(at, SIMPLEQ_FOREACH(at, &head, simple)) == 1234);
	EXPECT(SIMPLEQ_EMPTY(&more) && SIMPLEQ_LAST(&head, element, simple) == &elements[3]);
	SIMPLEQ_REMOVE_AFTER(&head, &elements[2], simple);
	EXPECT(SIMPLEQ_LAST(&head, element, simple) == &elements[2] && SIMPLEQ_NEXT(&elements[2], simple) == NULL);
	SIMPLEQ_REMOVE(&head, &elements[1], element, simple);
	SIMPLEQ_INSERT_TAIL(&head, &elements[4], simple);
	EXPECT(ORDER(at, SIMPLEQ_FOREACH(at, &head, simple)) == 135 && SIMPLEQ_FIRST(&head) == &elements[0]);
	SIMPLEQ_FOREACH_SAFE(at, &head, simple, after)
		SIMPLEQ_REMOVE_HEAD(&head, simple);
	EXPECT(SIMPLEQ_EMPTY(&head));
}

static void test_stailq(void)
{
	STAILQ_HEAD(taileds, element) head = STAILQ_HEAD_INITIALIZER(head), more = STAILQ_HEAD_INITIALIZER(more);
	struct element *at, *after;
	STAILQ_INIT(&head);
	EXPECT(STAILQ_LAST(&head, element, tailed) == NULL);
	STAILQ_INSERT_HEAD(&head, &elements[4], tailed);
	STAILQ_INSERT_AFTER(&head, &elements[4], &elements[2], tailed);
	STAILQ_INSERT_TAIL(&more, &elements[1], tailed);
	STAILQ_CONCAT(&head, &more);
	EXPECT(ORDER(at, STAILQ_FOREACH(at, &head, tailed)) == 532);
	EXPECT(STAILQ_LAST(&head, element, tailed) == &elements[1] && STAILQ_NEXT(&elements[4], tailed) == &elements[2]);
	STAILQ_REMOVE(&head, &elements[2], element, tailed);
	EXPECT(STAILQ_FIRST(&head) == &elements[4] && STAILQ_NEXT(&elements[4], tailed) == &elements[1]);
	STAILQ_FOREACH_SAFE(at, &head, tailed, after)
		STAILQ_REMOVE_HEAD(&head, tailed);
	EXPECT(STAILQ_EMPTY(&head) && STAILQ_EMPTY(&more));
}

static void test_tailq(void)
{
	TAILQ_HEAD(tails, element) head = TAILQ_HEAD_INITIALIZER(head), more = TAILQ_HEAD_INITIALIZER(more);
	struct element *at, *before;
	TAILQ_INIT(&head);
	TAILQ_INSERT_HEAD(&head, &elements[1], tail);
	TAILQ_INSERT_BEFORE(&elements[1], &elements[0], tail);
	TAILQ_INSERT_AFTER(&head, &elements[1], &elements[2], tail);
	TAILQ_INSERT_TAIL(&more, &elements[3], tail);
	TAILQ_CONCAT(&head, &more, tail);
	EXPECT(ORDER(at, TAILQ_FOREACH(at, &head, tail)) == 1234);
	EXPECT(TAILQ_FIRST(&head) == &elements[0] && TAILQ_LAST(&head, tails) == &elements[3]);
	TAILQ_REPLACE(&head, &elements[3], &elements[4], tail);
	EXPECT(TAILQ_LAST(&head, tails) == &elements[4]);
	TAILQ_REPLACE(&head, &elements[1], &elements[3], tail);
	EXPECT(ORDER(at, TAILQ_FOREACH_REVERSE(at, &head, tails, tail)) == 5341);
	EXPECT(TAILQ_NEXT(&elements[0], tail) == &elements[3] && TAILQ_PREV(&elements[3], tails, tail) == &elements[0]);
	TAILQ_FOREACH_REVERSE_SAFE(at, &head, tails, tail, before)
		if (at != &elements[0])
			TAILQ_REMOVE(&head, at, tail);
	TAILQ_FOREACH_SAFE(at, &head, tail, before)
		TAILQ_REMOVE(&head, at, tail);
	EXPECT(TAILQ_EMPTY(&head));
}

struct item {
	struct pslist_entry link;
	unsigned value;
};

static void test_pslist(void)
{
	struct pslist_head head = PSLIST_INITIALIZER;
	struct item items[4], only = {PSLIST_ENTRY_INITIALIZER, 7}, *at;
	unsigned order = 0;
	for (unsigned i = 0; i < 4; i++) {
		items[i].value = i + 1;
		PSLIST_ENTRY_INIT(&items[i], link);
	}
	EXPECT(PSLIST_READER_EMPTY(&head) && PSLIST_WRITER_EMPTY(&head) && PSLIST_READER_FIRST(&head, struct item, link) == NULL);
	PSLIST_WRITER_INSERT_HEAD(&head, &items[1], link);
	PSLIST_WRITER_INSERT_BEFORE(&items[1], &items[0], link);
	PSLIST_WRITER_INSERT_AFTER(&items[1], &items[3], link);
	PSLIST_WRITER_INSERT_AFTER(&items[1], &items[2], link);
	PSLIST_READER_FOREACH(at, &head, struct item, link)
		order = order * 10 + at->value;
	EXPECT(order == 1234 && PSLIST_READER_NEXT(&items[3], struct item, link) == NULL);
	/* Whoever has reached an entry goes on from it when it was removed. */
	PSLIST_WRITER_REMOVE(&items[1], link);
	EXPECT(PSLIST_READER_NEXT(&items[1], struct item, link) == &items[2]);
	PSLIST_WRITER_FOREACH(at, &head, struct item, link)
		order = order * 10 + at->value;
	EXPECT(order == 1234134 && PSLIST_WRITER_NEXT(&items[0], struct item, link) == &items[2]);
	PSLIST_ENTRY_DESTROY(&items[1], link);
	while ((at = PSLIST_WRITER_FIRST(&head, struct item, link)) != NULL)
		PSLIST_WRITER_REMOVE(at, link);
	PSLIST_DESTROY(&head);
	PSLIST_INIT(&head);
	PSLIST_WRITER_INSERT_HEAD(&head, &only, link);
	EXPECT(!PSLIST_READER_EMPTY(&head));
	PSLIST_WRITER_REMOVE(&only, link);
	PSLIST_ENTRY_DESTROY(&only, link);
	PSLIST_DESTROY(&head);
}

static struct evcnt events[2] = {EVCNT_INITIALIZER(EVCNT_TYPE_TRAP, NULL, "named", "first"), EVCNT_INITIALIZER(EVCNT_TYPE_MISC, &events[0], "named", "second")};
EVCNT_ATTACH_STATIC2(events, 1);

static void test_events(void)
{
	evcnt_attach_static(&events[1]);
	events[1].ev_count += 2;
	EXPECT(events[1].ev_count == 2 && strcmp(events[1].ev_name, "second") == 0 && events[1].ev_parent == &events[0]);
	evcnt_detach(&events[1]);
	evcnt_attach_dynamic(&events[1], EVCNT_TYPE_INTR, NULL, "group", "other");
	EXPECT(events[1].ev_count == 0 && strcmp(events[1].ev_group, "group") == 0 && strcmp(events[1].ev_name, "other") == 0);
	evcnt_detach(&events[1]);
}

MODULE(MODULE_CLASS_DRIVER, named, NULL);

static int named_modcmd(modcmd_t command, void *opaque)
{
	const modclass_t class_of = MODULE_CLASS_DRIVER;
	return class_of == MODULE_CLASS_DRIVER && command == MODULE_CMD_AUTOUNLOAD && opaque == NULL ? 0 : ENOTTY;
}

static void test_module(void)
{
	EXPECT(kupaldiz_named_modcmd(MODULE_CMD_AUTOUNLOAD, NULL) == 0 && kupaldiz_named_modcmd(MODULE_CMD_STAT, NULL) == ENOTTY);
}

struct __packed tight {
	uint8_t	byte;
	u_int	word;
};
CTASSERT(sizeof(struct tight) == 1 + sizeof(u_int));
__CTASSERT(MAXCPUS == KUPALDIZ_CPUS);

static unsigned lonely __cacheline_aligned = 1;
static u_int never_read __unused;
static const char kept[] __used = "kept";

static __noinline int noinline_sum(int32_t one, int two __diagused)
{
	KDASSERT(two > 0);
	KDASSERTMSG(one > 0, "%d", one);
	return one + two;
}

static __dead void dies(void) { panic("not called"); }

static void test_words(void)
{
	const devmajor_t major = 3;
	const devminor_t minor = 4;
	const dev_t device = (dev_t)(major << 8 | minor);
	u_long flags = 5;
	void *plain = __UNCONST(kept);
	SET(flags, 10);
	EXPECT(flags == 15 && ISSET(flags, 8) && !ISSET(flags, 16));
	CLR(flags, 3ul);
	EXPECT(flags == 12 && device == 0x304 && plain == kept);
	EXPECT(__BIT(4) == 16 && __SHIFTIN(5, __BITS(6, 4)) == 0x50 && noinline_sum(1, 2) == 3);
	EXPECT((uintptr_t)&lonely % COHERENCY_UNIT == 0 && CACHE_LINE_SIZE == COHERENCY_UNIT && lonely == 1);
	if (__predict_false(flags == 0))
		dies();
	__USE(kept);
}

static void test_numbers(void)
{
	char text[5] = "";
	EXPECT(strlcpy(text, "bridge", sizeof(text)) == 6 && strcmp(text, "brid") == 0 && strlcpy(text, "wm", sizeof(text)) == 2);
	EXPECT(strlcat(text, "0123", sizeof(text)) == 6 && strcmp(text, "wm01") == 0 && strlcpy(text, "wm", 0) == 2);
	EXPECT(imin(-1, 2) == -1 && imax(-1, 2) == 2 && min(1, 2) == 1 && ulmax(1, 2) == 2 && lmin(-3, 3) == -3);
	EXPECT(__arraycount(text) == 5 && __BITS(4, 2) == 0x1c && __SHIFTOUT(0x1cul, __BITS(4, 2)) == 7 && howmany(9, 4) == 3);
	EXPECT(MIN(2, 3) == 2 && MAX(2, 3) == 3 && uimin(2, 3) == 2 && uimax(2, 3) == 3 && ulmin(2, 3) == 2 && lmax(-2, 3) == 3);
	EXPECT(roundup(9, 4) == 12 && rounddown(9, 4) == 8 && roundup2(9, 8) == 16 && rounddown2(15, 8) == 8 && powerof2(64) && !powerof2(65));
	EXPECT(mstohz(21) == 3 && hztoms(3) == 30 && nullop(NULL) == 0);
	EXPECT(hash32_buf("ab", 2, HASH32_BUF_INIT) == hash32_str("ab", HASH32_STR_INIT) && hash32_str("", 7) == 7);
	EXPECT(cprng_fast32() != cprng_fast32() && cprng_strong64() != cprng_fast64() && cprng_strong32() != cprng_strong32());
}

/* A queue of three items, which goes round. */
static void test_pcq(void)
{
	int items[3];
	pcq_t *pcq = pcq_create(3, KM_SLEEP);
	EXPECT(pcq_maxitems(pcq) == 3 && pcq_get(pcq) == NULL && pcq_peek(pcq) == NULL);
	for (unsigned turn = 0; turn < 6; turn++) {
		for (unsigned at = 0; at < 3; at++)
			EXPECT(pcq_put(pcq, &items[at]));
		EXPECT(!pcq_put(pcq, &items[0]) && pcq_peek(pcq) == &items[0]);
		for (unsigned at = 0; at < 3; at++)
			EXPECT(pcq_get(pcq) == &items[at]);
		EXPECT(pcq_get(pcq) == NULL && pcq_put(pcq, &items[1]) && pcq_get(pcq) == &items[1]);
	}
	pcq_destroy(pcq);
}

static void test_hash_tables(void)
{
	unsigned long mask = 0;
	LIST_HEAD(, named) *lists = hashinit(5, HASH_LIST, true, &mask);
	EXPECT(mask == 7 && LIST_EMPTY(&lists[7]));
	hashdone(lists, HASH_LIST, mask);
	TAILQ_HEAD(, named) *queues = hashinit(2, HASH_TAILQ, false, &mask);
	EXPECT(mask == 1 && TAILQ_EMPTY(&queues[1]) && queues[1].tqh_last == &queues[1].tqh_first);
	hashdone(queues, HASH_TAILQ, mask);
}

/* What a chain has is freed, and counted. */
static void test_mbufs(void)
{
	unsigned before = kupaldiz_mbufs;
	struct mbuf *first = m_gethdr(M_DONTWAIT, MT_HEADER);
	first->m_next = m_get(M_WAIT, MT_DATA);
	first->m_len = 3;
	first->m_next->m_len = 4;
	*mtod(first, char *) = 'a';
	EXPECT(m_length(first) == 7 && first->m_dat[0] == 'a' && (first->m_flags & M_PKTHDR) != 0 && kupaldiz_mbufs == before + 2);
	m_freem(m_free(first));
	EXPECT(kupaldiz_mbufs == before);
}

static unsigned once_runs;
static int run_it(void) { once_runs++; return ENXIO; }

static void test_once(void)
{
	static ONCE_DECL(control);
	const once_t *const ran = &control;
	EXPECT(RUN_ONCE(&control, run_it) == ENXIO && RUN_ONCE(&control, run_it) == ENXIO && once_runs == 1 && ran->o_error == ENXIO);
}

/* It nests, and is given up by whoever sleeps; the words of NET_MPSAFE take it as well. */
static void test_kernel_lock(void)
{
	int held = 0;
	KERNEL_LOCK(2, NULL);
	KERNEL_LOCK_UNLESS_NET_MPSAFE();
	EXPECT(KERNEL_LOCKED_P());
	KERNEL_UNLOCK_UNLESS_NET_MPSAFE();
	KERNEL_UNLOCK_ALL(NULL, &held);
	EXPECT(held == 2 && !KERNEL_LOCKED_P());
	SOFTNET_KERNEL_LOCK_UNLESS_NET_MPSAFE();
	EXPECT(KERNEL_LOCKED_P() && mutex_owned(softnet_lock));
	SOFTNET_KERNEL_UNLOCK_UNLESS_NET_MPSAFE();
	KERNEL_LOCK(1, NULL);
	EXPECT(tsleep(&held, PWAIT | PCATCH, "names", 1) != 0 && KERNEL_LOCKED_P());
	mutex_enter(softnet_lock);
	(void)mtsleep(&held, PSOCK | PNORELOCK, "names", 1, softnet_lock);
	EXPECT(!mutex_owned(softnet_lock) && KERNEL_LOCKED_P());
	KERNEL_LOCK(1, NULL);
	KERNEL_UNLOCK_ONE(NULL);
	KERNEL_UNLOCK_LAST(NULL);
	wakeup(&held);
	EXPECT(PVM < PRIBIO && PRIBIO < PZERO && PZERO < PSOCK && ((PSOCK | PWAIT) & (PCATCH | PNORELOCK)) == 0);
	SOFTNET_LOCK_UNLESS_NET_MPSAFE();
	SOFTNET_UNLOCK_UNLESS_NET_MPSAFE();
}

static void test_device(void)
{
	struct device wm0 = {"wm0", &once_runs, 0};
	const device_t device = &wm0;
	char *text = malloc(8, M_TEMP, M_WAITOK | M_ZERO);
	EXPECT(strcmp(device_xname(device), "wm0") == 0 && device_private(device) == &once_runs && device_unit(device) == 0);
	EXPECT(text != NULL && text[7] == 0 && D_MPSAFE != D_OTHER && makedev(3, 4) != makedev(3, 5));
	free(text, M_TEMP);
	log(LOG_DEBUG, "%s", "");
	aprint_normal("%s", "");
	aprint_verbose("%s", "");
	aprint_debug("%s", "");
	aprint_error("%s", "");
}

static void test_names(void)
{
	test_atomics();
	test_pointers();
	test_slist();
	test_list();
	test_simpleq();
	test_stailq();
	test_tailq();
	test_pslist();
	test_events();
	test_module();
	test_words();
	test_numbers();
	test_pcq();
	test_hash_tables();
	test_mbufs();
	test_once();
	test_kernel_lock();
	test_device();
}

#ifndef KUPALDIZ_EXPLORER
int main(void)
{
	test_names();
	puts("each name did what its page says");
	return 0;
}
#endif
