/*
 * recalls - lookups by memory, by a reference and by a section, stopped after each of their
 * instructions, while changes go on from each of their writes to each later one
 *
 * One thread changes the registry, round after round. First it detaches and destroys two entries,
 * and attaches two by the same names, each in the slot of the other. Then it replaces one of them,
 * and destroys the old one. A lookup that is stopped has a whole replacement in its stop. A
 * replacement that is stopped after a write has a whole lookup there, which finds the old entry or
 * the new one. The other thread looks that one up, and releases at once what it acquires. So the
 * entry that its CPU remembers is live or not, its slot has another name, or its name is in another
 * slot.
 *
 * One of the two threads runs at a time. In a round the changer stops twice, each time before a
 * write to the registry's table or at the round's end. At the first stop a lookup begins, and goes
 * on for some instructions. At the second one it goes on to its end, and another lookup is made.
 * Every second time one is made as the round begins, too. Any SHARE adjacent numbers of
 * instructions have all pairs of stops. A lookup that is stopped, and keeps an entry from being
 * destroyed, goes on to its end before the second stop.
 *
 * The table can't be written, so each write ends in a signal. There the changer stops, and then the
 * write is done by one instruction while the table is open. The looker stops by a trap after an
 * instruction. The program is linked with --wrap for malloc, so that the table has pages of its
 * own.
 */
#include <semaphore.h>
#include <signal.h>
#include <sys/mman.h>
#include <ucontext.h>

#include "client.h"
#include "wrapped_heap.h"

enum { SLOTS = 3, TRAP_FLAG = 0x100, NEVER = 1000000, AT_ITS_END = NEVER - 1, SHARE = 61 };

/* The two threads, and the CPU of each. The looker has a second CPU, the witness. */
enum { CHANGER, LOOKER, WITNESS, CPUS };

/* In the table, the section word of the looker's CPU, which its passive words follow. */
enum { OWN_WORDS = TABLE_ROW(SLOTS, LOOKER), PAGE = 4096 };
enum { BYTES = TABLE_BYTES(SLOTS, CPUS), PAGES = (BYTES + PAGE - 1) / PAGE * PAGE };

static struct kupaldiz_keeper keeper;
static struct kupaldiz_cpu cpus[CPUS];

/* The names of the entry that is looked up, and of the other one. */
static struct kupaldiz_name wm, other;

/*
 * What the looker's CPU remembers: the entry's number, or 0, and the number of the newest entry as
 * it found none in a section, or 0 if that isn't certain. After how many changes the registry was
 * as the last lookup of any CPU had it.
 */
static uint64_t remembered, missed, last_seen;

/*
 * The table's memory, which can be written only while a write of a thread's is done; and the blocks
 * of its size: the second is the table.
 */
static char *table;
static unsigned table_blocks;

/* Whose turn it is, who this thread is, and whether the table is open for one instruction of it. */
static sem_t turns[2];
static _Thread_local int self;
static _Thread_local bool writes_now;

/*
 * What the changer has done: changes begun and returned, and the last entry destroyed. From the
 * change `replaces_from` on each is a replacement; the entry was the one with that number before.
 */
static uint64_t begun, returned, destroyed, replaces_from = UINT64_MAX, replaced_first;

/*
 * Writes of this round, before which of them the changer stops, and after how many instructions the
 * lookup that begins then. Past the second stop no write is looked at until the round ends.
 */
static unsigned writes, first_stop = NEVER, second_stop = NEVER, stopped_after;
static bool is_past_stops;

/* How the looker looks up, what that is called, and how many sections of its own it has. */
static const struct way {
	const char *name;
	enum kupaldiz_result (*look_up)(struct kupaldiz_passive *reference);
	bool refers, enters;
} *way;

/*
 * The most instructions that a lookup has. After how many it stops. How far it is: instructions,
 * writes to its CPU's words, and whether it returned.
 */
static unsigned longest, stop_after = NEVER, steps, section_writes, passive_writes;
static bool has_ended = true, over;

/*
 * By this way: lookups, those without a section, those that found the name in another slot than was
 * remembered, those begun while another name had that slot; and how often one kept an entry from
 * being destroyed, by its section and by its reference.
 */
static struct { unsigned long lookups, recalled, moved, reused, holds[2]; } met;

void *__wrap_malloc(size_t size)
{
	if (size != BYTES || ++table_blocks != 2)
		return __real_malloc(size);
	table = mmap(NULL, PAGES, PROT_READ | PROT_WRITE, MAP_PRIVATE | MAP_ANONYMOUS, -1, 0);
	EXPECT(table != MAP_FAILED);
	return table;
}

static void protect(int access)
{
	EXPECT(table != NULL && mprotect(table, PAGES, access) == 0);
}

/* ---- The two threads, by turns. ---- */

static void wait_for_turn(void)
{
	while (sem_wait(&turns[self]) != 0)
		continue;
}

/* The other thread runs, until it hands over. */
static void hand_over(void)
{
	EXPECT(sem_post(&turns[self == CHANGER ? LOOKER : CHANGER]) == 0);
	wait_for_turn();
}

/* The looker makes a lookup, or begins one. */
static void look(unsigned after)
{
	stop_after = after;
	has_ended = false;
	hand_over();
}

static void stop_again(void)
{
	if (!has_ended)
		hand_over();
	look(NEVER);
	second_stop = NEVER;
	is_past_stops = true;
}

static void stop_at(unsigned place)
{
	if (place == first_stop)
		look(stopped_after);
	if (place == second_stop)
		stop_again();
}

static void set_trap(void *context, bool on)
{
	greg_t *flags = &((ucontext_t *)context)->uc_mcontext.gregs[REG_EFL];
	*flags = on ? *flags | TRAP_FLAG : *flags & ~(greg_t)TRAP_FLAG;
}

/*
 * A write to the table is to be done: the looker's are to its CPU's section word, or to a passive
 * word.
 */
static void on_write(int number, siginfo_t *info, void *context)
{
	uintptr_t distance = (uintptr_t)info->si_addr - (uintptr_t)table;
	uintptr_t place = distance / sizeof(uint64_t);
	if (writes_now || distance >= BYTES) {
		signal(number, SIG_DFL);
		return;
	}
	EXPECT(self == CHANGER || (place >= OWN_WORDS && place <= OWN_WORDS + SLOTS));
	if (self == CHANGER)
		stop_at(writes++);
	else
		(*(place == OWN_WORDS ? &section_writes : &passive_writes))++;
	protect(PROT_READ | PROT_WRITE);
	writes_now = !is_past_stops;
	set_trap(context, writes_now);
}

/* An instruction was done: a write to the table, or one of the looker's. */
static void on_step(int number, siginfo_t *info, void *context)
{
	bool is_counted = self == LOOKER && stop_after != NEVER && steps < stop_after;
	(void)number;
	(void)info;
	if (writes_now)
		protect(PROT_READ);
	writes_now = false;
	if (is_counted && ++steps == stop_after) {
		hand_over();
		is_counted = false;
	}
	set_trap(context, is_counted);
}

/* ---- What a lookup may find, and what it may write. ---- */

/* The references of the looker's CPU, by its passive words. */
static uint64_t references(void)
{
	const volatile uint64_t *words = (const volatile uint64_t *)(void *)table + OWN_WORDS + 1;
	uint64_t sum = 0;
	for (unsigned slot = 0; slot < SLOTS; slot++)
		sum += words[slot];
	return sum;
}

/*
 * The number of the entry that is looked up, after so many changes, or 0. Of each eight changes of
 * the first rounds two attach it, to one slot and to the other.
 */
static uint64_t number_after(uint64_t changes)
{
	const uint64_t place = changes % 8 % 5;
	if (changes >= replaces_from)
		return changes == replaces_from ? replaced_first : changes;
	return place == 1 ? changes : place == 2 ? changes - 1 : 0;
}

/* The number of the newest entry, after so many changes, or 0. */
static uint64_t newest_after(uint64_t changes)
{
	const uint64_t place = changes % 4;
	if (changes > replaces_from)
		return changes;
	return place == 0 ? 0 : place == 3 ? changes - 1 : changes;
}

/* Whether the CPU knows the result without a section: what it remembers was so all the time. */
static bool is_known(uint64_t from, uint64_t to)
{
	const uint64_t newest = newest_after(to), number = number_after(to);
	if (remembered != 0 && number_after(from) == remembered && number == remembered)
		return true;
	return from == to && number == 0 && (newest == 0 || newest == missed);
}

/*
 * The result of a lookup is what the registry had after so many changes, and from no earlier moment
 * than the one before it, of any CPU.
 */
static void judge_moment(uint64_t from, uint64_t to, uint64_t number)
{
	last_seen = from > last_seen ? from : last_seen;
	while (last_seen <= to && number_after(last_seen) != number)
		last_seen++;
	EXPECT(last_seen <= to);
	EXPECT(number != 0 || from < replaces_from);
}

/*
 * What a lookup wrote: it began after `from` changes had returned, and ended before the one after
 * `to` began. A section writes the CPU's section word twice. A lookup by memory has one if the CPU
 * doesn't know the result, and a get one more if it tries what it has found in vain. A get writes
 * its passive word once for its reference, and twice for each such try.
 */
static void judge_writes(uint64_t from, uint64_t to, uint64_t number)
{
	const bool is_recalled = section_writes == 0 && number == remembered;
	const uint64_t vain = way->refers && remembered != 0 && !is_recalled;
	const uint64_t again = section_writes == 4;
	EXPECT(references() == (way->refers && number != 0));
	EXPECT(passive_writes == references() + 2 * (vain + again));
	if (way->enters)
		EXPECT(section_writes == 2);
	else if (section_writes == 0)
		EXPECT(number == 0 || number == remembered);
	else
		EXPECT(!is_known(from, to) && (section_writes == 2 || (again && way->refers)));
}

/* The same, and what the lookup returned. */
static void judge(uint64_t from, uint64_t to, enum kupaldiz_result result,
    const struct kupaldiz_entry *found)
{
	const uint64_t number = result == KUPALDIZ_DONE ? found->number : 0;
	EXPECT(result == KUPALDIZ_DONE || result == KUPALDIZ_NOT_FOUND);
	if (number != 0)
		EXPECT(found->kind == KUPALDIZ_ENTRY && same_name(&found->name, &wm) &&
		    found->value == number * 3);
	if (number != 0 && from < replaces_from)
		EXPECT(found->slot == (number % 8 == 6 ? 1 : 0));
	EXPECT(!way->refers || number == 0 || number > destroyed);
	judge_writes(from, to, number);
	met.lookups++;
	met.recalled += section_writes == 0;
	met.moved += number != 0 && remembered != 0 && number != remembered;
	met.reused += remembered != 0 && from % 8 == 5;
	judge_moment(from, to, number);
	if (number == 0 && section_writes != 0)
		missed = from == to && !way->enters ? newest_after(to) : 0;
	if (number != 0 || section_writes != 0)
		remembered = number;
}

/* ---- The looker. ---- */

static enum kupaldiz_result by_memory(struct kupaldiz_passive *reference)
{
	return kupaldiz_look_up(&cpus[LOOKER], KUPALDIZ_ENTRY, &wm, &reference->entry);
}

static enum kupaldiz_result by_get(struct kupaldiz_passive *reference)
{
	return kupaldiz_get(&cpus[LOOKER], KUPALDIZ_ENTRY, &wm, reference);
}

static enum kupaldiz_result by_section(struct kupaldiz_passive *reference)
{
	struct kupaldiz_cpu *cpu = &cpus[LOOKER];
	enum kupaldiz_result result =
	    kupaldiz_enter_find(cpu, KUPALDIZ_ENTRY, &wm, &reference->entry);
	if (result == KUPALDIZ_DONE)
		kupaldiz_exit(cpu);
	return result;
}

static const struct way WAYS[] = {{"by memory", by_memory, false, false},
    {"by get", by_get, true, false}, {"by section", by_section, false, true}};

/* Finds the entry on the other CPU. */
static void witness(void)
{
	struct kupaldiz_cpu *cpu = &cpus[WITNESS];
	struct kupaldiz_entry found = {0};
	protect(PROT_READ | PROT_WRITE);
	DONE(kupaldiz_enter(cpu));
	enum kupaldiz_result result = kupaldiz_find(cpu, KUPALDIZ_ENTRY, &wm, &found);
	DONE(kupaldiz_exit(cpu));
	protect(PROT_READ);
	judge_moment(returned, begun, result == KUPALDIZ_DONE ? found.number : 0);
}

/* What a get has acquired is released: exactly one reference. */
static void look_up(void)
{
	struct kupaldiz_passive reference = {0};
	const uint64_t from = returned;
	witness();
	steps = section_writes = passive_writes = 0;
	if (stop_after != NEVER)
		__asm__ volatile("pushfq; orq $0x100, (%%rsp); popfq" ::: "cc", "memory");
	enum kupaldiz_result result = way->look_up(&reference);
	__asm__ volatile("pushfq; andq $~0x100, (%%rsp); popfq" ::: "cc", "memory");
	if (stop_after == AT_ITS_END && steps > longest)
		longest = steps;
	steps = NEVER;
	judge(from, begun, result, &reference.entry);
	if (way->refers && result == KUPALDIZ_DONE) {
		const struct kupaldiz_passive was = reference;
		DONE(kupaldiz_release(&cpus[LOOKER], &reference));
		reference = was;
		IS(NOT_HELD, kupaldiz_release(&cpus[LOOKER], &reference));
		EXPECT(references() == 0);
	}
	has_ended = true;
}

static void *look_all(void *unused)
{
	self = LOOKER;
	for (wait_for_turn(); !over; hand_over())
		look_up();
	EXPECT(sem_post(&turns[CHANGER]) == 0);
	return unused;
}

/* ---- The changer. ---- */

static void attach(const struct kupaldiz_name *name)
{
	struct kupaldiz_entry made;
	begun++;
	DONE(kupaldiz_attach(&keeper, &cpus[CHANGER], name, begun * 3, &made));
	EXPECT(made.number == begun);
	returned++;
}

/*
 * One turn destroys an entry, unless a lookup that is stopped holds it, or may. Then that goes on
 * to its end, and the next turn does.
 */
static void destroy(uint64_t number)
{
	struct kupaldiz_met stage;
	enum kupaldiz_result result = kupaldiz_destroy(&keeper, number, &stage);
	if (result == KUPALDIZ_STILL_HELD) {
		EXPECT(!has_ended && stage.what == LOOKER && stage.stage <= KUPALDIZ_PASSIVE);
		EXPECT(stage.stage == KUPALDIZ_GRACE ? section_writes % 2 == 1 : references() == 1);
		met.holds[stage.stage]++;
		stop_again();
		result = kupaldiz_destroy(&keeper, number, &stage);
	}
	DONE(result);
	destroyed = number;
}

static void detach(const struct kupaldiz_name *name)
{
	struct kupaldiz_entry gone;
	begun++;
	DONE(kupaldiz_detach(&keeper, &cpus[CHANGER], KUPALDIZ_ENTRY, name, &gone));
	returned++;
	destroy(gone.number);
}

/* It begins with the entry in the lower slot, or with the other one, in turn. */
static void exchange(void)
{
	const bool is_low = returned % 8 == 2;
	const struct kupaldiz_name *low = is_low ? &wm : &other, *high = is_low ? &other : &wm;
	detach(low);
	detach(high);
	attach(high);
	attach(low);
}

static void replace(void)
{
	struct kupaldiz_entry gone, made;
	const uint64_t before = number_after(begun++);
	DONE(kupaldiz_replace(&keeper, &cpus[CHANGER], &wm, begun * 3, &gone, &made));
	EXPECT(made.number == begun && gone.number == before && made.slot != gone.slot);
	returned++;
	destroy(gone.number);
}

static void (*change)(void) = exchange;

/* A round: how many writes it has, if there is no second stop. */
static unsigned run_round(bool begins_known, unsigned first, unsigned second, unsigned after)
{
	if (begins_known)
		look(NEVER);
	writes = 0;
	first_stop = first;
	second_stop = second;
	stopped_after = after;
	change();
	stop_at(writes);
	is_past_stops = false;
	protect(PROT_READ);
	return writes;
}

/* A share of the rounds in which the lookup stops after so many instructions. */
static void stop_after_each(unsigned last, unsigned after)
{
	const unsigned stops = last + 1;
	for (unsigned pair = after % SHARE; pair < stops * stops; pair += SHARE)
		if (pair / stops <= pair % stops)
			run_round(after / SHARE % 2 == 0, pair / stops, pair % stops, after);
}

/*
 * All rounds with lookups of this way. The first ones tell how many writes a round has, and how
 * many instructions a lookup.
 */
static void stop_in(const struct way *of)
{
	way = of;
	longest = 0;
	memset(&met, 0, sizeof met);
	unsigned last = run_round(true, NEVER, NEVER, NEVER);
	for (unsigned i = 0; i < 2; i++)
		run_round(true, last, last, AT_ITS_END);
	for (unsigned after = 1; after <= longest; after++)
		stop_after_each(last, after);
	EXPECT(met.moved > 0 && (change == replace || met.reused > 0));
	EXPECT(of->enters ? met.recalled == 0 : met.recalled > 0 && met.recalled < met.lookups);
	EXPECT(met.holds[KUPALDIZ_GRACE] > 0 && (met.holds[KUPALDIZ_PASSIVE] > 0) == of->refers);
	printf("%s, %s: %u writes, %u instructions, %lu lookups, %lu of them without a section\n",
	    change == replace ? "replaced" : "exchanged", of->name, last, longest, met.lookups,
	    met.recalled);
}

static void open_all(void)
{
	struct kupaldiz_settings settings = KUPALDIZ_SETTINGS(CPUS, SLOTS);
	struct sigaction write = {.sa_sigaction = on_write, .sa_flags = SA_SIGINFO};
	struct sigaction step = {.sa_sigaction = on_step, .sa_flags = SA_SIGINFO};
	settings.passive_limit = settings.count_limit = 1;
	DONE(kupaldiz_open(&settings, &keeper, cpus, CPUS));
	EXPECT(sigaction(SIGSEGV, &write, NULL) == 0 && sigaction(SIGTRAP, &step, NULL) == 0);
	protect(PROT_READ);
	EXPECT(sem_init(&turns[CHANGER], 0, 0) == 0 && sem_init(&turns[LOOKER], 0, 0) == 0);
}

int main(void)
{
	wm = name_of("wm");
	other = name_of("vga");
	open_all();
	pthread_t looker = started(look_all, NULL);
	attach(&wm);
	attach(&other);
	for (size_t i = 0; i < COUNT_OF(WAYS); i++)
		stop_in(&WAYS[i]);
	while (returned % 8 != 2)
		run_round(false, NEVER, NEVER, NEVER);
	replaced_first = number_after(returned);
	replaces_from = returned;
	change = replace;
	for (size_t i = 0; i < COUNT_OF(WAYS); i++)
		stop_in(&WAYS[i]);
	over = true;
	hand_over();
	joined(looker);
	return 0;
}
