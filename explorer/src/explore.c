/*
 * explore.c - the search: one run after another, in a child of the process
 *
 * First all schedules, with the reduction; where these don't end, all with at most 0, 1, 2, .. preemptions; and then some by random priorities. Once a run
 * goes wrong, schedules with fewer switches are tried until one of them does.
 */
#include <malloc.h>
#include <signal.h>
#include <sys/mman.h>
#include <sys/wait.h>

#include "inside.h"

struct search *search;
struct explorer_options options;
static void (*prepare)(void);

void refuse(const char *format, ...)
{
	va_list words;
	fprintf(stderr, "%s: ", options.name == NULL ? "explorer" : options.name);
	va_start(words, format);
	vfprintf(stderr, format, words);
	va_end(words);
	fputc('\n', stderr);
	fflush(NULL);
	_exit(2);
}

__attribute__((noinline)) void explorer_fault(const char *line)
{
	__asm__ volatile("" : : "r"(line) : "memory");
}

void end_run(enum end end, const char *format, ...)
{
	FORMAT(search->found.line, format);
	if (end == FAILED)
		explorer_fault(search->found.line);
	if (end == FAILED && options.goes_on)
		find_races_of_fault();
	leave_run(end);
}

/* No target and no local count is left. */
static void check_no_owner_left(void)
{
	char text[EXPLORER_LINE] = "";
	const struct owner *left = live_owner();
	if (left == NULL)
		return;
	bool held = left->counts != NULL && left->counts->held > 0;
	const struct thing *thing = row_for(THINGS, (uintptr_t)left->at);
	if (held)
		append_held(text, left->at);
	fail("what %s has made at %s is left at the end%s%s", thing->made.call, place_made(thing), held ? ", with " : "", text);
}

static void run_setup(void *arg)
{
	(void)arg;
	prepare();
	refuse_if(run.count == 1, "setup has made no thread");
	start_routines();
	run.phase = RUNNING;
	point("finish", NULL, all_have_ended, NULL);
	run.finish = run.step - 1;
	make_barrier();
	touch(ON_TIME, NULL, 0, 0);
	acquire_all_clocks();
	run.phase = FINISHING;
	if (options.finish != NULL)
		options.finish();
	end_of_thread(kupaldiz_self);
	check_no_owner_left();
	check_heap();
	if (options.finish != NULL)
		check_none_left();
	find_races_at_end();
	leave_run(ENDED_WELL);
}

static void keep_outcome(void)
{
	struct explorer_found *found = &search->found;
	struct explorer_outcome *at = found->outcome;
	while (at < &found->outcome[found->outcomes] && strcmp(at->text, run.outcome) != 0)
		at++;
	if (at == &found->outcome[EXPLORER_OUTCOMES]) {
		found->others++;
		return;
	}
	found->outcomes += at == &found->outcome[found->outcomes];
	memcpy(at->text, run.outcome, sizeof(at->text));
	at->count++;
}

static void make_fault_an_outcome(void)
{
	snprintf(run.outcome, sizeof(run.outcome), "%.*s", EXPLORER_TEXT - 1, search->found.line);
	search->found.line[0] = '\0';
	search->end = ENDED_WELL;
}

static void run_here(void)
{
	restore_state();
	search->failed[0] = '\0';
	search->end = DIED;
	search->length = 0;
	search->stuck = false;
	run_main(run_setup);
	search->runs++;
	search->ended = 0;
	for (const struct routine *at = run.routines; at < &run.routines[run.count]; at++) {
		snprintf(search->names[at->number], sizeof(search->names[0]), "%s", name_of_routine(at));
		search->ended |= (uint32_t)at->ended << at->number;
	}
	snprintf(search->names[CLOCK], sizeof(search->names[0]), "clock");
	kupaldiz_self = NULL;
	if (search->end == FAILED && options.goes_on)
		make_fault_an_outcome();
	if (search->end == ENDED_WELL) {
		search->found.schedules++;
		keep_outcome();
	}
	search->found.cut += search->end == CUT;
}

/* Does something in a process of its own. That one's status. */
static int status_of(void (*body)(void))
{
	int status;
	fflush(NULL);
	pid_t child = fork();
	refuse_if(child < 0, "no process is left");
	if (child == 0) {
		body();
		fflush(NULL);
		_exit(0);
	}
	refuse_if(waitpid(child, &status, 0) != child, "the child is gone");
	return status;
}

/* Executes one, in a process of its own where the program needs that, and ends as that one does where it crashes. */
static void run_once(void)
{
	if (!search->apart) {
		run_here();
		return;
	}
	int status = status_of(run_here);
	if (WIFSIGNALED(status)) {
		signal(WTERMSIG(status), SIG_DFL);
		raise(WTERMSIG(status));
	}
	if (status != 0)
		_exit(WIFEXITED(status) ? WEXITSTATUS(status) : 1);
}

static bool is_wrong(void)
{
	return search->end == FAILED || search->end == UNFIT;
}

/* The last step at which something else is planned. Whether there is one. */
static bool next_schedule(void)
{
	for (unsigned at = search->length; at-- > 0;) {
		struct step *step = &search->steps[at];
		uint32_t chosen = UINT32_C(1) << step->chosen;
		step->explored |= chosen;
		step->explored_sets[step->chosen] = step->set;
		uint32_t left = step->backtrack & ~step->explored & ~step->sleeping;
		if (left == 0)
			continue;
		step->chosen = (uint8_t)__builtin_ctz(left);
		search->prefix = at + 1;
		search->fresh = at;
		return true;
	}
	return false;
}

static void begin_search(enum mode mode, uint64_t limit, unsigned bound)
{
	search->mode = mode;
	search->limit = limit;
	search->bound = bound;
	search->most = UINT_MAX;
	search->prefix = search->fresh = 0;
}

static bool run_all(void)
{
	for (; search->limit > 0; search->limit--) {
		run_once();
		if (is_wrong())
			return false;
		if (!next_schedule())
			return true;
	}
	return false;
}

static void run_bounded(void)
{
	for (unsigned bound = 0; bound <= options.preemptions && !is_wrong(); bound++) {
		uint64_t throttled = search->found.throttled;
		begin_search(BOUNDED, options.bounded, bound);
		if (!run_all() || search->found.throttled > throttled)
			return;
		search->found.bound = (int)bound;
	}
}

static uint64_t random_number(void)
{
	uint64_t at = search->seed;
	at ^= at << 13;
	at ^= at >> 7;
	at ^= at << 17;
	return search->seed = at;
}

/* Priorities that fall do so below all that were drawn. */
static void run_random(void)
{
	unsigned length = search->length;
	begin_search(RANDOM, options.random, 0);
	for (uint64_t count = 0; count < options.random && !is_wrong(); count++) {
		search->lowest = POINTS + 16;
		for (unsigned at = 0; at < THREADS; at++)
			search->priorities[at] = search->lowest + (unsigned)(random_number() >> 33 & 0xffffff);
		for (unsigned at = 0; at < sizeof(search->changes) / sizeof(search->changes[0]); at++)
			search->changes[at] = (unsigned)(random_number() % (length + 1));
		run_once();
		length = search->length > length ? search->length : length;
		search->found.random++;
	}
}

static bool search_orders(void)
{
	begin_search(options.whole ? BOUNDED : REDUCED, options.schedules, UINT_MAX);
	return run_all();
}

/* First without a failure, and then with each in turn. */
static void search_all(void)
{
	search->found.complete = search_orders();
	if (!search->found.complete && !is_wrong() && !options.whole) {
		run_bounded();
		if (!is_wrong())
			run_random();
	}
	while (!is_wrong() && next_failure())
		search->found.complete &= search_orders();
	search->found.complete &= !search->plans_left_out;
	search->found.exhausted = search->found.complete && search->found.throttled == 0 && search->found.hurried == 0;
}

/* Goes on until a run goes wrong by the line that is wanted. */
static void search_below(void)
{
	while (!run_all() && search->limit > 1 && search->end == FAILED && strcmp(search->found.line, search->wanted) != 0 && next_schedule())
		search->limit--;
}

static void (*search_body)(void);
static bool silent;	/* it says nothing on standard error */

static void search_in_child(void)
{
	if (silent && freopen("/dev/null", "w", stderr) == NULL)
		_exit(2);
	/* The memory of a run's registry is the next one's: the system gets none of it back meanwhile. */
	mallopt(M_MMAP_THRESHOLD, 1 << 25);
	mallopt(M_TRIM_THRESHOLD, -1);
	save_state();
	search_body();
	search->over = true;
}

static enum end in_child(void (*body)(void), bool is_silent)
{
	search_body = body;
	silent = is_silent;
	search->over = false;
	search->end = ENDED_WELL;
	int status = status_of(search_in_child);
	if (search->over)
		return search->end;
	if (WIFEXITED(status) && WEXITSTATUS(status) == 2)
		_exit(2);
	if (WIFSIGNALED(status))
		snprintf(search->found.line, sizeof(search->found.line), "the code ends by signal %d, %s", WTERMSIG(status), strsignal(WTERMSIG(status)));
	else
		snprintf(search->found.line, sizeof(search->found.line), "the code ends the process with status %d", WEXITSTATUS(status));
	search->runs++;
	return FAILED;
}

static void keep_schedule(struct explorer_found *found)
{
	const struct step *last = &search->steps[search->length == 0 ? 0 : search->length - 1];
	found->preemptions = search->length == 0 ? 0 : last->preemptions;
	found->changes = search->length == 0 ? 0 : last->switches;
	write_schedule(found->schedule, sizeof(found->schedule));
	write_failures(found->schedule, sizeof(found->schedule));
	memcpy(found->failed, search->failed, sizeof(found->failed));
}

/* Looks for a schedule with at most so many preemptions and switches that goes wrong by the same line. Whether there is one, which is kept then. */
static bool find_shorter(struct explorer_found *found, unsigned preemptions, unsigned switches)
{
	begin_search(BOUNDED, options.bounded, preemptions);
	search->most = switches;
	memcpy(search->wanted, found->line, sizeof(search->wanted));
	if (in_child(search_below, true) != FAILED || strcmp(search->found.line, found->line) != 0)
		return false;
	keep_schedule(found);
	return true;
}

/* Cuts the schedule of a fault down: to few preemptions; then, with no more of them, to few switches; and then to the fewest switches, as far as all
 * schedules with so many can be tried. */
static void cut_down(struct explorer_found *found)
{
	for (unsigned bound = 0; bound < found->preemptions && !find_shorter(found, bound, UINT_MAX); bound++)
		;
	for (unsigned most = 0; most < found->changes && !find_shorter(found, found->preemptions, most); most++)
		;
	search->limit = 1;
	for (unsigned most = 0; most < found->changes && search->limit > 0 && !find_shorter(found, UINT_MAX, most); most++)
		;
}

/* The threads of a schedule, as the choices of the first steps. */
static void read_schedule(const char *text)
{
	unsigned count = 0;
	const char *failures = strchr(text, '!');
	for (const char *at = text; *at != '\0' && at != failures;) {
		unsigned thread = *at == '.' ? CLOCK : (unsigned)(*at - 'a');
		char *end = (char *)at + 1;
		unsigned long turns = at[1] >= '0' && at[1] <= '9' ? strtoul(at + 1, &end, 10) : 1;
		if (thread >= THREADS || turns == 0)
			refuse("\"%s\" is no schedule: a letter for each thread, or a dot for the clock, and how many points it goes on", text);
		refuse_if(turns > POINTS - count, "the schedule is too long");
		for (; turns > 0; turns--)
			search->steps[count++].chosen = (uint8_t)thread;
		at = end;
	}
	if (!read_failures(failures == NULL ? "" : failures))
		refuse("\"%s\" is no schedule: \"!\", a letter for a thread, and which of its calls fails", failures);
	begin_search(REPLAYED, 1, 0);
	search->prefix = count;
	search->fresh = 0;
}

/* Whether the run goes wrong that such a search comes to last. */
static bool goes_wrong(void (*body)(void), struct explorer_found *found)
{
	enum end end = in_child(body, false);
	*found = search->found;
	refuse_if(end == UNFIT, "%s", found->line);
	found->first = end == FAILED ? search->runs : 0;
	return end == FAILED;
}

static void explore(struct explorer_found *found)
{
	if (!goes_wrong(search_all, found))
		return;
	found->complete = found->exhausted = false;
	keep_schedule(found);
	cut_down(found);
	/* The steps that are shown are those of the schedule that is told. */
	read_schedule(found->schedule);
	in_child(run_once, true);
}

/* The schedule in EXPLORER_REPLAY, behind the name of its search; NULL where there is none. */
static const char *replay_by_environment(void)
{
	const char *all = getenv("EXPLORER_REPLAY"), *colon = all == NULL ? NULL : strrchr(all, ':');
	size_t length = strlen(options.name);
	if (colon == NULL)
		return all;
	return (size_t)(colon - all) == length && strncmp(all, options.name, length) == 0 ? colon + 1 : NULL;
}

/* Whether only another search of the program is to run. */
static bool is_passed_over(void)
{
	const char *all = getenv("EXPLORER_REPLAY");
	return all != NULL && options.replay == NULL;
}

static void fill_options(const struct explorer_options *given)
{
	options = given == NULL ? (struct explorer_options){0} : *given;
	options.name = options.name == NULL ? "explorer" : options.name;
	options.schedules = options.schedules == 0 ? 100000 : options.schedules;
	options.bounded = options.bounded == 0 ? 20000 : options.bounded;
	options.preemptions = options.preemptions == 0 ? 2 : options.preemptions;
	options.random = options.random == 0 ? 10000 : options.random;
	options.seed = options.seed == 0 ? 1 : options.seed;
	options.ticks = options.ticks == 0 ? 1 : options.ticks;
	options.failures = options.failures == 0 ? 1 : options.failures;
	is_strict = options.strict;
	options.replay = options.replay == NULL ? replay_by_environment() : options.replay;
	refuse_if(options.failures > EXPLORER_FAILURES, "at most %d failures in a run", EXPLORER_FAILURES);
}

static void make_search(void)
{
	/* A process that was forked doesn't search in its parent's memory. */
	static pid_t mapped_by;
	if (mapped_by != getpid()) {
		mapped_by = getpid();
		search = map_pages(sizeof(*search), MAP_SHARED);
		map_stacks();
		map_heap();
	}
	memset(search, 0, offsetof(struct search, steps));
	search->found.bound = -1;
	search->seed = options.seed * 0x9e3779b97f4a7c15;
	search->plans[0] = (struct plan){0};
	search->plan_count = 1;
}

int explorer_run(void (*setup)(void), const struct explorer_options *given)
{
	refuse_if(run.current != NULL, "explorer_run inside of a run");
	fill_options(given);
	check_own_calls();
	refuse_if(setup == NULL, "there is no setup");
	prepare = setup;
	make_search();
	struct explorer_found *found = &search->told;
	if (is_passed_over()) {
		if (options.found != NULL)
			*options.found = *found;
		return 0;
	}
	if (options.replay != NULL) {
		read_schedule(options.replay);
		goes_wrong(run_once, found);
		keep_schedule(found);
	} else {
		explore(found);
	}
	if (!options.quiet)
		show(stdout, found);
	refuse_if(options.picture != NULL && found->first != 0 && !draw(options.picture, found), "%s can't be written", options.picture);
	if (options.found != NULL)
		*options.found = *found;
	return found->first != 0;
}

void explorer_thread(const char *name, void (*body)(void *), void *arg)
{
	(void)here(__func__);
	refuse_if(body == NULL, "explorer_thread without a body");
	make_routine(name, body, arg, false);
	if (run.phase != SETTING_UP)
		start_routines();
}

void explorer_outcome(const char *format, ...)
{
	(void)here(__func__);
	/* The order in which threads add to it is part of it. */
	touch_memory(run.outcome, sizeof(run.outcome), WRITES);
	size_t length = strlen(run.outcome);
	va_list words;
	va_start(words, format);
	length += (size_t)vsnprintf(run.outcome + length, sizeof(run.outcome) - length, format, words);
	va_end(words);
	refuse_if(length >= sizeof(run.outcome), "an outcome has more than %d bytes", EXPLORER_TEXT - 1);
}
