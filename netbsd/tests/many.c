/*
 * many - many targets, counts and references, one after another and at once: the tables grow, and their places are used again; and performs beside many
 * sections
 */
#include <sched.h>

#include "test.h"
#include "things.h"

enum { LIVE = 300, CHANGES = 3000, REFERENCES = 3501, READERS = 4, ROUNDS = 30, SECTIONS = 3000 };	/* 3501 is no multiple of 7 */

static struct psref_target targets[LIVE];
static struct localcount counts[LIVE];
static atomic_bool over;
static _Atomic(int *) shown;
static atomic_uint sections;

/* One target and one count after another, beside a target that stays. */
static void test_changes(void)
{
	struct psref kept, psref;
	psref_target_init(&targets[0], things);
	psref_acquire(&kept, &targets[0], things);
	for (unsigned i = 0; i < CHANGES; i++) {
		psref_target_init(&targets[1], things);
		psref_acquire(&psref, &targets[1], things);
		EXPECT(psref.psref_index < 16);		/* places of the table are used again */
		psref_release(&psref, &targets[1], things);
		psref_target_destroy(&targets[1], things);
		EXPECT(psref_held(&targets[0], things));
		localcount_init(&counts[0]);
		drain(&counts[0]);
		localcount_fini(&counts[0]);
	}
	psref_release(&kept, &targets[0], things);
	psref_target_destroy(&targets[0], things);
}

/* Many at once, which end in another order than that in which they began. */
static void test_live(void)
{
	for (unsigned i = 0; i < LIVE; i++) {
		psref_target_init(&targets[i], things);
		localcount_init(&counts[i]);
	}
	for (unsigned i = 0; i < LIVE; i++) {
		psref_target_destroy(&targets[i * 7 % LIVE], things);
		drain(&counts[i * 11 % LIVE]);
		localcount_fini(&counts[i * 11 % LIVE]);
	}
}

/* Many references of one CPU to one target, released in the order in which they were acquired, or in another one. */
static void test_references(unsigned stride)
{
	static struct psref psrefs[REFERENCES];
	psref_target_init(&targets[0], things);
	for (unsigned i = 0; i < REFERENCES; i++) {
		if (i % 2 == 1)
			psref_copy(&psrefs[i], &psrefs[i - 1], things);
		else
			psref_acquire(&psrefs[i], &targets[0], things);
	}
	for (unsigned i = 0; i < REFERENCES; i++) {
		EXPECT(psref_held(&targets[0], things));
		psref_release(&psrefs[i * stride % REFERENCES], &targets[0], things);
	}
	EXPECT(!psref_held(&targets[0], things) && !kpreempt_disabled());
	psref_target_destroy(&targets[0], things);
}

THREAD(release_all,
    kupaldiz_bind(5);
    for (unsigned i = 0; i < REFERENCES; i++)
	    localcount_release(&counts[0], &cv, &lock))

/* Each reference is acquired on one CPU and released on another: one part is above 0, and one below. */
static void test_one_way(void)
{
	pthread_t other;
	localcount_init(&counts[0]);
	for (unsigned i = 0; i < REFERENCES; i++)
		localcount_acquire(&counts[0]);
	EXPECT(localcount_debug_refcnt(&counts[0]) == REFERENCES);
	start_thread(&other, release_all, NULL);
	end_thread(other);
	EXPECT(localcount_debug_refcnt(&counts[0]) == 0);
	drain(&counts[0]);
	localcount_fini(&counts[0]);
}

/* Reads what is shown, in one section after another. */
static void *read_all(void *arg)
{
	for (unsigned turn = 0; !atomic_load(&over); turn++) {
		int s = pserialize_read_enter();
		const int *now = atomic_load(&shown);
		EXPECT(*now == 77);
		if (turn % 1024 == 0)
			sched_yield();
		EXPECT(*now == 77);
		pserialize_read_exit(s);
		atomic_fetch_add(&sections, 1);
	}
	return arg;
}

static int *show(void)
{
	int *next = malloc(sizeof(*next));
	EXPECT(next != NULL);
	*next = 77;
	return atomic_exchange(&shown, next);
}

static void test_sections(void)
{
	pthread_t readers[READERS];
	show();
	for (unsigned i = 0; i < READERS; i++)
		start_thread(&readers[i], read_all, NULL);
	for (unsigned i = 0; i < ROUNDS || atomic_load(&sections) < SECTIONS; i++) {
		int *before = show();
		pserialize_perform(psz);
		*before = 0;
		free(before);
		sleep_for(200);		/* the readers go on */
	}
	atomic_store(&over, true);
	for (unsigned i = 0; i < READERS; i++)
		end_thread(readers[i]);
	free(atomic_load(&shown));
}

int main(void)
{
	make_things(IPL_NONE);
	kupaldiz_bind(1);
	test_changes();
	test_live();
	test_references(1);
	test_references(7);
	test_one_way();
	test_sections();
	end_things();
	puts("many were live, and none was lost");
	return 0;
}
