/* refusals - what the explorer refuses: each ends its process with status 2, after one line */
#include "../explorer.h"
#include "../../c/examples/expect.h"
#include "../../netbsd/tests/bodies.h"
#include "../../netbsd/tests/child.h"
#include "../../netbsd/tests/pages.h"

static kmutex_t one, two;
static unsigned word, other;

HANDLER(one_two, mutex_enter(&one); mutex_enter(&two); mutex_exit(&two); mutex_exit(&one))
HANDLER(two_one, mutex_enter(&two); mutex_enter(&one); mutex_exit(&one); mutex_exit(&two))

static void call_outside(void) { mutex_init(&one, MUTEX_DEFAULT, IPL_NONE); mutex_enter(&one); }
static void thread_outside(void) { explorer_thread("lost", one_two, NULL); }
static void atomic_outside(void) { atomic_inc_uint(&word); }
static void outcome_outside(void) { explorer_outcome("%u", word); }
static void no_setup(void) { explorer_run(NULL, NULL); }

static void two_orders(void)
{
	mutex_init(&one, MUTEX_DEFAULT, IPL_NONE);
	mutex_init(&two, MUTEX_DEFAULT, IPL_NONE);
	explorer_thread("first", one_two, NULL);
	explorer_thread("second", two_one, NULL);
}

static void nobody(void) { }
static void make_bodiless(void) { explorer_thread("none", NULL, NULL); }

HANDLER(explore_inside, explorer_run(two_orders, NULL))
static void make_explorer(void) { explorer_thread("explorer", explore_inside, NULL); }

HANDLER(set_word, atomic_store_relaxed(&word, 1))
static void make_many(void)
{
	for (unsigned at = 0; at < EXPLORER_THREADS; at++)
		explorer_thread("one of many", set_word, NULL);
}

HANDLER(take_much, (void)kmem_alloc(5u << 20, KM_SLEEP))
static void make_taker(void) { explorer_thread("taker", take_much, NULL); }

HANDLER(tell_much, for (unsigned at = 0; at < EXPLORER_TEXT; at++) explorer_outcome("%u", at % 10))
static void make_teller(void) { explorer_thread("teller", tell_much, NULL); }

/* Its memory is no part of a run. */
static unsigned *volatile shared;

BODY(differ)
{
	if ((*shared)++ % 2 == 0)
		atomic_inc_uint(&other);
	atomic_inc_uint(&word);
}

static void differs(void)
{
	explorer_thread("first", differ, NULL);
	explorer_thread("second", set_word, NULL);
}

/* A call, or a search: a setup with options. */
static const struct refusal {
	const char *name, *line;
	void (*call)(void), (*setup)(void);
	struct explorer_options options;
} refusals[] = {
	{"a call outside", "explorer: mutex_enter outside of explorer_run\n", .call = call_outside},
	{"a thread outside", "explorer: explorer_thread outside of explorer_run\n", .call = thread_outside},
	{"an atomic access outside", "explorer: atomic change outside of explorer_run\n", .call = atomic_outside},
	{"an outcome outside", "explorer: explorer_outcome outside of explorer_run\n", .call = outcome_outside},
	{"no setup", "explorer: there is no setup\n", .call = no_setup},
	{"no thread", "explorer: setup has made no thread\n", .setup = nobody},
	{"a thread without a body", "explorer: explorer_thread without a body\n", .setup = make_bodiless},
	{"a run inside of a run", "explorer: explorer_run inside of a run\n", .setup = make_explorer},
	{"too many threads", "explorer: there are more than 15 threads\n", .setup = make_many},
	{"too many bytes", "explorer: the code takes more than 4194304 bytes in one run\n", .setup = make_taker},
	{"a long outcome", "explorer: an outcome has more than 63 bytes\n", .setup = make_teller},
	{"a picture that can't be written", "explorer: /no/such/folder/picture.svg can't be written\n", .setup = two_orders,
	    .options = {.quiet = true, .picture = "/no/such/folder/picture.svg"}},
	{"a schedule that is too long", "explorer: the schedule is too long\n",
	    .setup = two_orders, .options = {.replay = "b2001"}},
	{"a schedule with a huge number", "explorer: the schedule is too long\n",
	    .setup = two_orders, .options = {.replay = "b99999999999999999999"}},
	{"no schedule", "explorer: \"b3?\" is no schedule: ", .setup = two_orders, .options = {.replay = "b3?"}},
	{"no points", "explorer: \"b0\" is no schedule: ", .setup = two_orders, .options = {.replay = "b0"}},
	{"no failure", "explorer: \"!b0\" is no schedule: ", .setup = two_orders, .options = {.replay = "b2!b0"}},
	{"too many failures", "explorer: at most 3 failures in a run\n", .setup = two_orders, .options = {.failures = 4}},
	{"a schedule that doesn't fit", "explorer: the schedule doesn't fit: at point ",
	    .setup = two_orders, .options = {.replay = "b2c99"}},
	{"code that depends on something else", "explorer: two runs by one schedule differ at point ", .setup = differs},
};

static const struct refusal *refused;

static void begin(void) { shared = calloc(1, sizeof(*shared)); }

static void run_refused(void)
{
	if (refused->call != NULL)
		refused->call();
	else
		explorer_run(refused->setup, &refused->options);
}

static bool is_refused(const struct refusal *refusal)
{
	char said[512];
	refused = refusal;
	int status = run_in_child(begin, run_refused, said, sizeof(said));
	bool right = WIFEXITED(status) && WEXITSTATUS(status) == 2 && strncmp(said, refusal->line, strlen(refusal->line)) == 0 &&
	    strchr(said, '\n') == said + strlen(said) - 1;
	if (!right)
		printf("FAILED %s: status %d, and said: %s\n", refusal->name, status, said);
	return right;
}

int main(void)
{
	const unsigned all = sizeof(refusals) / sizeof(refusals[0]);
	unsigned passed = 0;
	for (unsigned at = 0; at < all; at++)
		passed += is_refused(&refusals[at]);
	printf("%u passed, %u failed\n", passed, all - passed);
	return passed != all;
}
