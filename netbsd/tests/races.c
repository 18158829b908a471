/*
 * races - what orders the threads that have references, as the detector of races sees it: the CPU that two share, the release that a destroy waits for, the
 * part of a count that a drain adds, the sections that a perform waits for, and those that begin after it. They wait for each other by steps that order
 * nothing.
 */
#include "test.h"
#include "things.h"

static struct psref_target other;
static atomic_uint step;
static unsigned used;	/* plain */

static void await_step(unsigned wanted)
{
	while (atomic_load_explicit(&step, memory_order_relaxed) != wanted)
		sleep_for(50);
}

static void take_step(void) { atomic_fetch_add_explicit(&step, 1, memory_order_relaxed); }

/* Has the table's first place, until the other thread has asked. */
static void *refer_first(void *arg)
{
	struct psref psref;
	kupaldiz_bind(3);
	psref_acquire(&psref, &other, things);
	take_step();
	await_step(2);
	psref_release(&psref, &other, things);
	return arg;
}

/* psref_held looks into the table of its CPU while the thread has that CPU. */
static void test_asked(void)
{
	pthread_t thread;
	kupaldiz_bind(3);
	start_thread(&thread, refer_first, NULL);
	await_step(1);
	EXPECT(!psref_held(&target, things));
	take_step();
	end_thread(thread);
	kupaldiz_unbind();
	atomic_store_explicit(&step, 0, memory_order_relaxed);
}

/* Uses what it keeps until the last step, and does nothing else then that orders it. */
#define USER(name, begin, end) \
	static void *name(void *arg) \
	{ \
		struct psref psref = {0}; \
		int s = 0; \
		kupaldiz_bind(4); \
		begin; \
		take_step(); \
		used++; \
		end; \
		await_step(2); \
		(void)psref; \
		(void)s; \
		return arg; \
	}

USER(use_referred, psref_acquire(&psref, &target, things), psref_release(&psref, &target, things))
USER(use_counted, localcount_acquire(&count), localcount_release(&count, &cv, &lock))
USER(use_read, s = pserialize_read_enter(), pserialize_read_exit(s))

/* What came before the end of the use is over when the wait returns. */
static void test_waited(void *(*user)(void *), void (*wait)(void))
{
	pthread_t thread;
	used = 0;
	start_thread(&thread, user, NULL);
	await_step(1);
	wait();
	used++;
	take_step();
	end_thread(thread);
	EXPECT(used == 2);
	atomic_store_explicit(&step, 0, memory_order_relaxed);
}

static void wait_for_references(void) { psref_target_destroy(&target, things); psref_target_init(&target, things); }
static void wait_for_counts(void) { drain(&count); localcount_fini(&count); localcount_init(&count); }
static void wait_for_sections(void) { pserialize_perform(psz); }

static atomic_bool given;

/* Enters sections until it sees what came after a perform. */
static void *take_in_section(void *arg)
{
	bool found = false;
	take_step();
	while (!found) {
		int s = pserialize_read_enter();
		found = atomic_load_explicit(&given, memory_order_relaxed);
		EXPECT(!found || used == 3);
		pserialize_read_exit(s);
	}
	return arg;
}

/* What came before a perform comes before the sections that begin after it. */
static void test_performed(void)
{
	pthread_t thread;
	start_thread(&thread, take_in_section, NULL);
	await_step(1);
	used = 3;
	pserialize_perform(psz);
	atomic_store_explicit(&given, true, memory_order_relaxed);
	end_thread(thread);
	atomic_store_explicit(&given, false, memory_order_relaxed);
	atomic_store_explicit(&step, 0, memory_order_relaxed);
}

int main(void)
{
	make_things(IPL_NONE);
	psref_target_init(&other, things);
	test_asked();
	for (unsigned turn = 0; turn < 100; turn++) {
		test_waited(use_referred, wait_for_references);
		test_waited(use_counted, wait_for_counts);
		test_waited(use_read, wait_for_sections);
		test_performed();
	}
	psref_target_destroy(&other, things);
	end_things();
	puts("no thread met what another one was writing");
	return 0;
}
