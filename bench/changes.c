/*
 * changes COUNT [CPUS SLOTS] - what each call behind the interlock takes, through kupaldiz.h, on
 * one thread, in a registry of so many: by default 2 and 32
 *
 * A lock of the caller's is taken for each call that takes the keeper, as a program with more
 * threads has to. With CPUS and SLOTS the line also has a lookup and a walk over all entries that
 * stay, an opening with its closing, and the bytes of heap of the registry. bench/README.md has
 * what it printed.
 */
#include <inttypes.h>
#include <malloc.h>
#include <pthread.h>
#include <time.h>

#include "client.h"

enum { LEAST_CPUS = 2, LEAST_SLOTS = 3, USUAL_SLOTS = 32, MOST_ROUNDS = 20000 };

static pthread_mutex_t interlock = PTHREAD_MUTEX_INITIALIZER;
static struct kupaldiz_keeper keeper;
static struct kupaldiz_cpu cpus[KUPALDIZ_MOST_CPUS];
static unsigned cpu_count = LEAST_CPUS, slots = USUAL_SLOTS, staying, changing_count;
static struct kupaldiz_name names[KUPALDIZ_MOST_SLOTS];

/*
 * The names of the entries that are attached and freed again and again: those behind the first,
 * which stay.
 */
static const struct kupaldiz_name *changing;

static double now(void)
{
	struct timespec time;
	clock_gettime(CLOCK_MONOTONIC, &time);
	return (double)time.tv_sec * 1e9 + (double)time.tv_nsec;
}

/* The nanoseconds that it takes, so many times. */
static double timed(void (*once)(unsigned), unsigned count)
{
	const double began = now();
	for (unsigned made = 0; made < count; made++)
		once(made);
	return now() - began;
}

static uint64_t attach(const struct kupaldiz_name *name, uint64_t value)
{
	struct kupaldiz_entry made;
	DONE_UNDER(&interlock, kupaldiz_attach(&keeper, &cpus[0], name, value, &made));
	return made.number;
}

static uint64_t detach(const struct kupaldiz_name *name)
{
	struct kupaldiz_entry gone;
	DONE_UNDER(&interlock, kupaldiz_detach(&keeper, &cpus[0], KUPALDIZ_ENTRY, name, &gone));
	return gone.number;
}

/* One turn of the work on a retired entry, which meets this. */
static void turn(uint64_t number, enum kupaldiz_stage stage)
{
	struct kupaldiz_met met;
	pthread_mutex_lock(&interlock);
	enum kupaldiz_result result = kupaldiz_destroy(&keeper, number, &met);
	pthread_mutex_unlock(&interlock);
	EXPECT(met.stage == stage);
	EXPECT(result == (stage == KUPALDIZ_FREED ? KUPALDIZ_DONE : KUPALDIZ_STILL_HELD));
}

static void open_empty(void)
{
	const struct kupaldiz_settings settings = KUPALDIZ_SETTINGS(cpu_count, slots);
	DONE(kupaldiz_open(&settings, &keeper, cpus, cpu_count));
}

static void open_registry(void)
{
	open_empty();
	for (unsigned place = 0; place < slots; place++)
		names[place] = numbered('d', place);
	for (unsigned place = 0; place < staying; place++)
		attach(&names[place], place);
}

/* The numbers of the retired entries, each in its place. */
static uint64_t numbers[KUPALDIZ_MOST_SLOTS];

static void attach_one(unsigned place)
{
	attach(&changing[place], place);
}

static void detach_one(unsigned place)
{
	numbers[place] = detach(&changing[place]);
}

static void free_one(unsigned place)
{
	turn(numbers[place], KUPALDIZ_FREED);
}

/* Gives all slots that are left and frees them, so many times. What each of the three takes. */
static void replace_all(unsigned count)
{
	double attached = 0, detached = 0, freed = 0, many = (double)count * changing_count;
	for (unsigned made = 0; made < count; made++) {
		attached += timed(attach_one, changing_count);
		detached += timed(detach_one, changing_count);
		freed += timed(free_one, changing_count);
	}
	printf("changes %u attach %.1f detach %.1f freed %.1f", count, attached / many,
	    detached / many, freed / many);
}

/* Replaces an entry in its place and frees the old one. */
static void exchange(unsigned made)
{
	struct kupaldiz_entry gone;
	DONE_UNDER(&interlock,
	    kupaldiz_replace(&keeper, &cpus[0], &changing[0], made, &gone, NULL));
	turn(gone.number, KUPALDIZ_FREED);
}

static void meet_grace(unsigned made)
{
	(void)made;
	turn(numbers[0], KUPALDIZ_GRACE);
}

static void meet_local(unsigned made)
{
	(void)made;
	turn(numbers[0], KUPALDIZ_LOCAL);
}

/*
 * Turns on an entry that a section of the other CPU holds, and then on the same while a local
 * reference does.
 */
static void meet_all(unsigned count)
{
	struct kupaldiz_local reference = {0};
	attach_one(0);
	DONE(kupaldiz_enter(&cpus[1]));
	DONE(kupaldiz_get_local(&cpus[1], KUPALDIZ_ENTRY, &changing[0], &reference));
	detach_one(0);
	printf(" grace %.1f", timed(meet_grace, count) / count);
	DONE(kupaldiz_exit(&cpus[1]));
	printf(" local %.1f", timed(meet_local, count) / count);
	IS(COLLECTED, kupaldiz_try_release_local(&cpus[1], &reference));
	DONE_UNDER(&interlock, kupaldiz_release_local_locked(&keeper, &cpus[1], &reference));
	free_one(0);
}

/* A wait that nobody prolongs. */
static void perform(unsigned made)
{
	struct kupaldiz_wait wait;
	uint64_t waited;
	(void)made;
	DONE_UNDER(&interlock, kupaldiz_perform_begin(&keeper, &cpus[0], &wait));
	DONE_UNDER(&interlock, kupaldiz_perform_turn(&keeper, &cpus[0], &wait, &waited));
}

static void audit(unsigned made)
{
	static struct kupaldiz_balance list[KUPALDIZ_MOST_SLOTS];
	size_t length;
	(void)made;
	DONE_UNDER(&interlock, kupaldiz_audit(&keeper, cpus, cpu_count, list, slots, &length));
	EXPECT(length == staying);
}

static void look_up(unsigned made)
{
	DONE(kupaldiz_look_up(&cpus[0], KUPALDIZ_ENTRY, &names[made % staying], NULL));
}

static void walk(unsigned made)
{
	struct kupaldiz_entry row[KUPALDIZ_MOST_SLOTS];
	size_t met;
	(void)made;
	DONE(kupaldiz_enter(&cpus[0]));
	DONE(kupaldiz_walk(&cpus[0], row, slots, &met));
	DONE(kupaldiz_exit(&cpus[0]));
	EXPECT(met == staying);
}

static void open_once(unsigned made)
{
	(void)made;
	open_empty();
	DONE(kupaldiz_close(&keeper, cpus, cpu_count));
}

/* What more is told of a registry of a size that was asked for: also the bytes of its heap. */
static void tell_size(unsigned count)
{
	printf(" look_up %.1f", timed(look_up, count) / count);
	printf(" walk %.1f", timed(walk, count) / count);
	DONE(kupaldiz_close(&keeper, cpus, cpu_count));
	const size_t before = mallinfo2().uordblks;
	open_empty();
	const size_t bytes = mallinfo2().uordblks - before;
	DONE(kupaldiz_close(&keeper, cpus, cpu_count));
	printf(" open %.1f bytes %zu", timed(open_once, count) / count, bytes);
}

static void run(unsigned count, bool is_sized)
{
	open_registry();
	replace_all(count);
	attach_one(0);
	printf(" exchange %.1f", timed(exchange, count) / count);
	detach_one(0);
	free_one(0);
	meet_all(count);
	printf(" perform %.1f", timed(perform, count) / count);
	printf(" audit %.1f", timed(audit, count) / count);
	if (is_sized)
		tell_size(count);
	puts("");
	DONE(kupaldiz_close(&keeper, cpus, cpu_count));
}

int main(int argc, char **argv)
{
	unsigned long count = argc == 2 || argc == 4 ? strtoul(argv[1], NULL, 10) : 0;
	cpu_count = argc == 4 ? (unsigned)strtoul(argv[2], NULL, 10) : LEAST_CPUS;
	slots = argc == 4 ? (unsigned)strtoul(argv[3], NULL, 10) : USUAL_SLOTS;
	if (count < 1 || count > MOST_ROUNDS || cpu_count < LEAST_CPUS ||
	    cpu_count > KUPALDIZ_MOST_CPUS || slots < LEAST_SLOTS || slots > KUPALDIZ_MOST_SLOTS) {
		fprintf(stderr, "usage: changes COUNT [CPUS SLOTS]\n");
		return 2;
	}
	/* Eight of 32, so one of four. */
	staying = slots < USUAL_SLOTS ? (slots + 3) / 4 : 8;
	changing_count = slots - staying;
	changing = names + staying;
	run((unsigned)count, argc == 4);
	return 0;
}
