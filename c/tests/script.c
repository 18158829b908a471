/*
 * script FILE - carries a script out by the calls of kupaldiz.h, and prints its report
 *
 * docs/SCRIPTS.md has the commands. The script has no fault. tools/conformance.py compares the
 * report with those of the engines.
 *
 * The registry is the largest one. The script's CPUs and slots are its last ones. Spare drivers
 * have the other slots, and numbers that the report doesn't count.
 *
 * An interface of a script is on the driver that a label refers to, also if that driver is retired.
 * kupaldiz_attach_iface takes the name of a live one, so such an interface is attached to a spare
 * driver, and the program keeps the label's reference until the interface is freed. That call uses
 * up a section, so it is made on a CPU that the script doesn't have.
 */
#include <inttypes.h>

#include "client.h"

enum { WORDS = 7, LINE = 130, LABELS = 26, SLOTS = KUPALDIZ_MOST_SLOTS, CPUS = KUPALDIZ_MOST_CPUS };

/* The script's first CPU, and the one below it that attaches interfaces now. */
static unsigned first_cpu, helper;

static struct kupaldiz_settings settings = {CPUS, SLOTS, 1000, 1000, 100, 100};
static struct kupaldiz_keeper keeper;
static struct kupaldiz_cpu cpus[CPUS];

/* The spare drivers have so many slots and numbers, and this is the name of one. */
static uint64_t spares;
static struct kupaldiz_name spare;

/* What each CPU's section found last, and what each label refers to. Number 0 is none. */
static struct kupaldiz_entry found[CPUS];
static struct kupaldiz_passive passives[LABELS];
static struct kupaldiz_local locals[LABELS];

/* Of each slot: its live entry's number, and the reference that an interface on `spare` keeps. */
static uint64_t live[SLOTS];
static struct kupaldiz_local kept[SLOTS];

/* ---- What a command says, and what it prints. ---- */

static uint64_t number(const char *word)
{
	return strtoull(word, NULL, 10);
}

static unsigned place(const char *word)
{
	return first_cpu + (unsigned)number(word);
}

static struct kupaldiz_cpu *cpu(const char *word)
{
	return &cpus[place(word)];
}

static enum kupaldiz_kind kind(const char *word)
{
	return word[0] == 'd' ? KUPALDIZ_DRIVER : KUPALDIZ_INTERFACE;
}

static struct kupaldiz_passive *passive(const char *label)
{
	return &passives[label[0] - 'a'];
}

static struct kupaldiz_local *local(const char *label)
{
	return &locals[label[0] - 'a'];
}

static bool is_inside(const char *word)
{
	uint64_t depth;
	DONE(kupaldiz_depth(cpu(word), &depth));
	return depth != 0;
}

static const char *const REFUSALS[] = {
	[KUPALDIZ_NAME_TAKEN] = "NameTaken", [KUPALDIZ_NO_SLOT] = "NoSlot",
	[KUPALDIZ_HISTORY_FULL] = "HistoryFull", [KUPALDIZ_NOT_FOUND] = "NotFound",
	[KUPALDIZ_INSIDE] = "Inside", [KUPALDIZ_SECTIONS_SPENT] = "SectionsSpent",
	[KUPALDIZ_PASSIVE_FULL] = "PassiveFull", [KUPALDIZ_WRONG_CPU] = "WrongCpu",
	[KUPALDIZ_NOT_HELD] = "NotHeld", [KUPALDIZ_LOCAL_FULL] = "LocalFull",
	[KUPALDIZ_NOT_RETIRED] = "NotRetired", [KUPALDIZ_STILL_HELD] = "StillHeld",
	[KUPALDIZ_WAITING] = "Waiting", [KUPALDIZ_TOO_DEEP] = "TooDeep",
	[KUPALDIZ_NEEDS_DRIVER] = "NeedsDriver",
};

/* Whether the call isn't done, which is printed. */
static bool is_refused(enum kupaldiz_result result)
{
	if (result == KUPALDIZ_DONE)
		return false;
	EXPECT((size_t)result < COUNT_OF(REFUSALS) && REFUSALS[result] != NULL);
	printf("refused %s", REFUSALS[result]);
	return true;
}

static void print_entry(const char *verb, const struct kupaldiz_entry *entry)
{
	printf("%s %" PRIu64 " slot %" PRIu64, verb, entry->number - spares, entry->slot - spares);
}

static void print_value(const char *verb, const struct kupaldiz_entry *entry)
{
	printf("%s %" PRIu64 " value %" PRIu64, verb, entry->number - spares, entry->value);
}

static void print_reference(const char *verb, const char *label,
    const struct kupaldiz_entry *entry)
{
	printf("%s %s %" PRIu64, verb, label, entry->number - spares);
}

static void print_met(const struct kupaldiz_met *met)
{
	static const char *const stages[] = {"grace cpu", "passive cpu", "local", "freed slot"};
	const uint64_t from[] = {first_cpu, first_cpu, 0, spares};
	printf("%s %" PRIu64, stages[met->stage], met->what - from[met->stage]);
}

static bool lacks(const struct kupaldiz_entry *entry)
{
	if (entry->number == 0)
		printf("no label");
	return entry->number == 0;
}

static bool is_taken(const struct kupaldiz_entry *entry)
{
	if (entry->number != 0)
		printf("label taken");
	return entry->number != 0;
}

/* ---- The registry. ---- */

static void domain(char **word)
{
	const uint64_t count = number(word[1]), slots = number(word[2]);
	first_cpu = CPUS - (unsigned)count;
	spares = SLOTS - slots;
	printf("domain %" PRIu64 " %" PRIu64, count, slots);
}

static void limits(char **word)
{
	settings.change_limit = number(word[1]);
	settings.section_limit = number(word[2]);
	settings.passive_limit = number(word[3]);
	settings.count_limit = number(word[4]);
	printf("limits %" PRIu64 " %" PRIu64 " %" PRIu64 " %" PRIu64, settings.change_limit,
	    settings.section_limit, settings.passive_limit, settings.count_limit);
}

/* Before the first call, when the settings are known. */
static void open_once(void)
{
	if (keeper.at != NULL)
		return;
	settings.change_limit += 2 * spares;
	DONE(kupaldiz_open(&settings, &keeper, cpus, CPUS));
	for (unsigned i = 0; i < spares; i++) {
		spare = numbered('S', i);
		DONE(kupaldiz_attach(&keeper, &cpus[helper], &spare, 0, NULL));
	}
}

/* ---- Changes. ---- */

static void print_attached(enum kupaldiz_result result, const struct kupaldiz_entry *made)
{
	if (is_refused(result))
		return;
	live[made->slot] = made->number;
	print_entry("attached", made);
}

static void attach(char **word)
{
	const struct kupaldiz_name name = name_of(word[3]);
	enum kupaldiz_result result = is_inside(word[1]) ? KUPALDIZ_INSIDE : KUPALDIZ_NEEDS_DRIVER;
	struct kupaldiz_entry made;
	if (kind(word[2]) == KUPALDIZ_DRIVER)
		result = kupaldiz_attach(&keeper, cpu(word[1]), &name, number(word[4]), &made);
	print_attached(result, &made);
}

/* On the next helper if this one may begin no section more, or acquire no reference more. */
static enum kupaldiz_result attach_iface(const struct kupaldiz_name *driver, char **word,
    struct kupaldiz_entry *made)
{
	const struct kupaldiz_name name = name_of(word[2]);
	enum kupaldiz_result result;
	for (;; helper++) {
		EXPECT(helper < first_cpu);
		result = kupaldiz_attach_iface(&keeper, &cpus[helper], driver, &name,
		    number(word[3]), made);
		if (result != KUPALDIZ_SECTIONS_SPENT && result != KUPALDIZ_LOCAL_FULL)
			return result;
	}
}

/* A reference to a live driver is the slot's own from now on. */
static void plug(char **word)
{
	struct kupaldiz_local *on = local(word[4]);
	const bool is_live = live[on->entry.slot] == on->entry.number;
	enum kupaldiz_result result = is_inside(word[1]) ? KUPALDIZ_INSIDE : KUPALDIZ_NEEDS_DRIVER;
	struct kupaldiz_entry made;
	if (lacks(&on->entry))
		return;
	if (result != KUPALDIZ_INSIDE && on->entry.kind == KUPALDIZ_DRIVER)
		result = attach_iface(is_live ? &on->entry.name : &spare, word, &made);
	print_attached(result, &made);
	if (result != KUPALDIZ_DONE)
		return;
	if (is_live)
		DONE(kupaldiz_release_local_locked(&keeper, &cpus[helper], on));
	else
		kept[made.slot] = *on;
	*on = (struct kupaldiz_local){0};
}

static void detach(char **word)
{
	const struct kupaldiz_name name = name_of(word[3]);
	struct kupaldiz_entry gone;
	if (is_refused(kupaldiz_detach(&keeper, cpu(word[1]), kind(word[2]), &name, &gone)))
		return;
	live[gone.slot] = 0;
	print_entry("retired", &gone);
}

/* ---- Sections, lookups and passive references. ---- */

static void enter(char **word)
{
	if (!is_refused(kupaldiz_enter(cpu(word[1]))))
		printf("inside");
}

static void leave(char **word)
{
	const bool was_outside = kupaldiz_exit(cpu(word[1])) == KUPALDIZ_OUTSIDE;
	const bool is_in = is_inside(word[1]);
	if (!is_in)
		found[place(word[1])].number = 0;
	printf(was_outside ? "not inside" : is_in ? "inside" : "outside");
}

static void find(char **word)
{
	const struct kupaldiz_name name = name_of(word[3]);
	struct kupaldiz_entry *last = &found[place(word[1])];
	const enum kupaldiz_result result =
	    kupaldiz_find(cpu(word[1]), kind(word[2]), &name, last);
	if (result == KUPALDIZ_DONE) {
		print_entry("found", last);
		printf(" value %" PRIu64, last->value);
	} else {
		EXPECT(result == KUPALDIZ_OUTSIDE || result == KUPALDIZ_NOT_FOUND);
		printf(result == KUPALDIZ_OUTSIDE ? "not inside" : "none");
		last->number = 0;
	}
}

static bool holds(const char *word, const struct kupaldiz_entry *entry)
{
	bool held;
	DONE(kupaldiz_held(cpu(word), entry->number, &held));
	return held;
}

/* Whether the CPU has no last found entry, which is printed. */
static bool found_nothing(const char *word)
{
	const bool is_none = found[place(word)].number == 0;
	if (is_none)
		printf("refused NothingFound");
	return is_none;
}

static void ref(char **word)
{
	struct kupaldiz_passive *to = passive(word[2]);
	if (is_taken(&to->entry) || found_nothing(word[1]))
		return;
	if (!is_refused(kupaldiz_acquire(cpu(word[1]), &found[place(word[1])], to)))
		print_reference("ref", word[2], &to->entry);
}

static void copy(char **word)
{
	struct kupaldiz_passive *from = passive(word[2]), *to = passive(word[3]);
	if (lacks(&from->entry) || is_taken(&to->entry))
		return;
	if (!is_refused(kupaldiz_copy(cpu(word[1]), from, to)))
		print_reference("ref", word[3], &to->entry);
}

static void held(char **word)
{
	const struct kupaldiz_entry *entry = &passive(word[2])->entry;
	if (!lacks(entry))
		printf(holds(word[1], entry) ? "yes" : "no");
}

static void look(char **word)
{
	const struct kupaldiz_passive *of = passive(word[2]);
	const bool is_own = of->cpu == place(word[1]);
	if (lacks(&of->entry) || is_refused(is_own ? KUPALDIZ_DONE : KUPALDIZ_WRONG_CPU))
		return;
	EXPECT(holds(word[1], &of->entry));
	print_value("read", &of->entry);
}

static void drop(char **word)
{
	const struct kupaldiz_entry was = passive(word[2])->entry;
	if (!lacks(&was) && !is_refused(kupaldiz_release(cpu(word[1]), passive(word[2]))))
		print_reference("dropped", word[2], &was);
}

/* ---- Local references, retired entries. ---- */

static void count(char **word)
{
	struct kupaldiz_local *to = local(word[2]);
	if (is_taken(&to->entry) || found_nothing(word[1]))
		return;
	if (!is_refused(kupaldiz_acquire_local(cpu(word[1]), &found[place(word[1])], to)))
		print_reference("count", word[2], &to->entry);
}

static void peek(char **word)
{
	if (!lacks(&local(word[1])->entry))
		print_value("peek", &local(word[1])->entry);
}

static void release_local(struct kupaldiz_cpu *on, struct kupaldiz_local *of)
{
	if (kupaldiz_try_release_local(on, of) == KUPALDIZ_COLLECTED)
		DONE(kupaldiz_release_local_locked(&keeper, on, of));
	EXPECT(of->entry.number == 0);
}

static void uncount(char **word)
{
	const struct kupaldiz_entry was = local(word[2])->entry;
	if (lacks(&was))
		return;
	release_local(cpu(word[1]), local(word[2]));
	print_reference("uncounted", word[2], &was);
}

/* A turn. An interface that is freed gives its driver up. */
static enum kupaldiz_result turn(const char *word, struct kupaldiz_met *met)
{
	const enum kupaldiz_result result = kupaldiz_destroy(&keeper, number(word) + spares, met);
	if (result == KUPALDIZ_DONE && kept[met->what].entry.number != 0)
		release_local(&cpus[helper], &kept[met->what]);
	return result;
}

static void advance(char **word)
{
	struct kupaldiz_met met;
	const enum kupaldiz_result result = turn(word[1], &met);
	if (!is_refused(result == KUPALDIZ_STILL_HELD ? KUPALDIZ_DONE : result))
		print_met(&met);
}

static void destroy(char **word)
{
	enum kupaldiz_result result = is_inside(word[1]) ? KUPALDIZ_INSIDE : KUPALDIZ_STILL_HELD;
	struct kupaldiz_met met;
	for (uint64_t turns = number(word[3]); turns > 0 && result == KUPALDIZ_STILL_HELD; turns--)
		result = turn(word[2], &met);
	if (!is_refused(result)) {
		printf("destroyed slot %" PRIu64, met.what - spares);
	} else if (result == KUPALDIZ_STILL_HELD) {
		printf(" ");
		print_met(&met);
	}
}

static void perform(char **word)
{
	struct kupaldiz_wait wait;
	uint64_t waited;
	enum kupaldiz_result result = kupaldiz_perform_begin(&keeper, cpu(word[1]), &wait);
	if (is_refused(result))
		return;
	result = KUPALDIZ_WAITING;
	for (uint64_t turns = number(word[2]); turns > 0 && result == KUPALDIZ_WAITING; turns--)
		result = kupaldiz_perform_turn(&keeper, cpu(word[1]), &wait, &waited);
	if (is_refused(result))
		printf(" cpu %" PRIu64, waited - first_cpu);
	else
		printf("performed");
}

/* What is counted on CPUs that the script doesn't have is a part of the total. */
static void print_balance(const struct kupaldiz_balance *balance)
{
	int64_t total = balance->total;
	for (unsigned c = 0; c < first_cpu; c++)
		total += balance->locals[c];
	printf("slot %" PRIu64 " number %" PRIu64 " held %" PRId64 " locals",
	    balance->slot - spares, balance->number - spares, balance->held);
	for (unsigned c = first_cpu; c < CPUS; c++)
		printf(" %" PRId64, balance->locals[c]);
	printf(" total %" PRId64, total);
}

/* Those of the spare drivers come first. */
static void audit(char **word)
{
	static struct kupaldiz_balance list[SLOTS];
	size_t length;
	(void)word;
	DONE(kupaldiz_audit(&keeper, cpus, CPUS, list, SLOTS, &length));
	for (size_t i = spares; i < length; i++) {
		if (i > spares)
			printf("\n");
		print_balance(&list[i]);
	}
	if (length == spares)
		printf("empty");
}

static const struct {
	const char *verb;
	void (*act)(char **word);
} COMMANDS[] = {
	{"domain", domain}, {"limits", limits}, {"attach", attach}, {"plug", plug},
	{"detach", detach}, {"enter", enter}, {"exit", leave}, {"find", find}, {"ref", ref},
	{"copy", copy}, {"held", held}, {"read", look}, {"drop", drop}, {"count", count},
	{"peek", peek}, {"uncount", uncount}, {"advance", advance}, {"destroy", destroy},
	{"perform", perform}, {"audit", audit},
};

/* ---- A script. ---- */

static void carry_out(char **word)
{
	size_t i = 0;
	while (i < COUNT_OF(COMMANDS) && strcmp(word[0], COMMANDS[i].verb) != 0)
		i++;
	EXPECT(i < COUNT_OF(COMMANDS));
	if (COMMANDS[i].act != domain && COMMANDS[i].act != limits)
		open_once();
	COMMANDS[i].act(word);
	printf("\n");
}

/* A comment, or a line without words, is no command. */
static void carry_out_line(char *line)
{
	char *word[WORDS] = {NULL};
	unsigned words = 0;
	for (char *next = strtok(line, " \n"); next != NULL && words < WORDS;
	     next = strtok(NULL, " \n"))
		word[words++] = next;
	if (words > 0 && word[0][0] != '#')
		carry_out(word);
}

/* Each block of memory is freed. */
static void close_all(void)
{
	for (unsigned i = 0; i < LABELS; i++)
		kupaldiz_forget_local(&locals[i]);
	for (unsigned s = 0; s < SLOTS; s++)
		kupaldiz_forget_local(&kept[s]);
	for (unsigned c = first_cpu; c < CPUS; c++)
		while (kupaldiz_exit(&cpus[c]) == KUPALDIZ_DONE)
			continue;
	DONE(kupaldiz_close(&keeper, cpus, CPUS));
}

int main(int argc, char **argv)
{
	char line[LINE];
	FILE *script = argc == 2 ? fopen(argv[1], "r") : NULL;
	if (script == NULL) {
		fprintf(stderr, "usage: script FILE\n");
		return 2;
	}
	while (fgets(line, sizeof line, script) != NULL)
		carry_out_line(line);
	fclose(script);
	close_all();
	return fflush(stdout) != 0;
}
