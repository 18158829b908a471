/* show.c - what was found, as lines; a schedule as a short text; the place of an instruction for addr2line(1) */
#include <ctype.h>
#include <dlfcn.h>
#include <link.h>

#include "inside.h"

/* A letter for each thread, a dot for the clock, and how many points it goes on where that isn't 1. */
void write_schedule(char *text, size_t room)
{
	size_t length = 0;
	for (unsigned at = 0, turns; at < search->length && length + 8 < room; at += turns) {
		unsigned thread = search->steps[at].chosen;
		for (turns = 1; at + turns < search->length && search->steps[at + turns].chosen == thread; turns++)
			;
		char letter = thread == CLOCK ? '.' : (char)('a' + thread);
		length += (size_t)snprintf(text + length, room - length, turns == 1 ? "%c" : "%c%u", letter, turns);
	}
	text[length] = '\0';
}

static const char *short_place(const char *place)
{
	const char *slash = place == NULL ? NULL : strrchr(place, '/');
	return place == NULL ? "" : slash == NULL ? place : slash + 1;
}

const char *place_of_step(const struct step *step)
{
	return step->place == NULL && step->pc == NULL ? "" : short_place(place_of(step->place, step->pc));
}

/* How many steps of a thread's are the same call at the same place, from this one on. */
static unsigned equal_steps(unsigned at)
{
	const struct step *first = &search->steps[at];
	unsigned count = 1;
	for (const struct step *step = first + 1; at + count < search->length; step++, count++)
		if (step->chosen != first->chosen || step->cpu != first->cpu || step->call != first->call || step->place != first->place || step->pc != first->pc)
			break;
	return count;
}

static void show_steps(FILE *to)
{
	for (unsigned at = 0, count; at < search->length; at += count) {
		const struct step *step = &search->steps[at];
		bool changes = at == 0 || search->steps[at - 1].chosen != step->chosen;
		char cpu[8] = "", times[24] = "";
		count = equal_steps(at);
		if (step->cpu != NOBODY)
			snprintf(cpu, sizeof(cpu), "CPU %u", step->cpu);
		if (count > 1)
			snprintf(times, sizeof(times), ", %u times", count);
		fprintf(to, "  %4u  %-16s %-5s  %-22s %s%s\n", at + 1, changes ? search->names[step->chosen] : "", cpu, step->call, place_of_step(step), times);
	}
}

static void show_left_out(FILE *to, const struct explorer_found *found)
{
	char which[48] = "that weren't reached";
	if (found->bound >= 0)
		snprintf(which, sizeof(which), "with more than %d preemptions", found->bound);
	fprintf(to, "%s: left out: schedules %s, except %llu by random priorities, seed %llu\n", options.name, which, (unsigned long long)found->random,
	    (unsigned long long)options.seed);
}

/* The search came to its end, within two bounds of each run. */
static void show_withheld(FILE *to, const struct explorer_found *found)
{
	if (found->hurried > 0)
		fprintf(to, "%s: left out: schedules in which time goes on early more than %u times\n", options.name, options.ticks);
	if (found->throttled > 0)
		fprintf(to, "%s: left out: schedules in which a thread goes on for more than 200 points while another can\n", options.name);
}

static void show_counts(FILE *to, const struct explorer_found *found)
{
	fprintf(to, "%s: %llu schedules, %llu cut short, %llu states, %llu points, %llu switches\n", options.name, (unsigned long long)found->schedules,
	    (unsigned long long)found->cut, (unsigned long long)found->states, (unsigned long long)found->points, (unsigned long long)found->switches);
	if (found->exhausted)
		fprintf(to, "%s: every schedule of its points was tried%s\n", options.name, options.whole ? "" : ", or one that is the same as it");
	else if (found->complete)
		show_withheld(to, found);
	else if (found->first == 0 && options.replay == NULL)
		show_left_out(to, found);
	if (found->failures > 0)
		fprintf(to, "%s: %llu failures were tried in turn\n", options.name, (unsigned long long)found->failures);
}

static void show_unseen(FILE *to)
{
	if (unseen_count > 0)
		fprintf(to, "%s: plain accesses weren't seen in ", options.name);
	for (unsigned at = 0; at < unseen_count && at < MOST_UNSEEN; at++)
		fprintf(to, "%s%s", at > 0 ? ", " : "", short_place(unseen_files[at]));
	if (unseen_count > 0)
		fprintf(to, "%s: compiled without -fsanitize=thread\n", unseen_count > MOST_UNSEEN ? ", .." : "");
}

static void show_outcomes(FILE *to, const struct explorer_found *found)
{
	for (const struct explorer_outcome *outcome = found->outcome; outcome < &found->outcome[found->outcomes]; outcome++) {
		if (outcome->text[0] != '\0')
			fprintf(to, "%s: outcome %s: %llu\n", options.name, outcome->text, (unsigned long long)outcome->count);
		else if (found->outcomes > 1)
			fprintf(to, "%s: no outcome: %llu\n", options.name, (unsigned long long)outcome->count);
	}
	if (found->others > 0)
		fprintf(to, "%s: other outcomes: %llu\n", options.name, (unsigned long long)found->others);
}

/* The program and its words, as a shell reads them. */
static void show_command(FILE *to)
{
	FILE *words = fopen("/proc/self/cmdline", "r");
	for (int byte, before = ' '; words != NULL && (byte = getc(words)) != EOF; before = byte) {
		if (before == '\0')
			fputc(' ', to);
		if (byte != '\0')
			fprintf(to, isalnum(byte) || byte > 127 || strchr("_./=:,+-", byte) != NULL ? "%c" : "\\%c", byte);
	}
	if (words == NULL)
		fputs(program_invocation_name, to);
	else
		fclose(words);
}

void show(FILE *to, const struct explorer_found *found)
{
	show_counts(to, found);
	show_unseen(to);
	show_outcomes(to, found);
	if (found->first == 0)
		return;
	fprintf(to, "%s: FAULT: %s\n", options.name, found->line);
	if (found->failed[0] != '\0')
		fprintf(to, "%s: before that: %s\n", options.name, found->failed);
	fprintf(to, "%s: found by run %llu; schedule %s, switches %u, preemptions %u\n", options.name, (unsigned long long)found->first,
	    found->schedule, found->changes, found->preemptions);
	fprintf(to, "%s: again: EXPLORER_REPLAY='%s:%s' ", options.name, options.name, found->schedule);
	show_command(to);
	fputc('\n', to);
	show_steps(to);
}

static unsigned long find_origin(const void *pc, char *file, size_t room)
{
	Dl_info info;
	struct link_map *object = NULL;
	if (dladdr1(pc, &info, (void **)&object, RTLD_DL_LINKMAP) != 0 && object != NULL && object->l_name[0] != '\0')
		snprintf(file, room, "%s", object->l_name);
	else
		snprintf(file, room, "/proc/%d/exe", (int)getpid());
	return (uintptr_t)pc - (object == NULL ? 0 : object->l_addr) - 1;
}

static bool is_header(const char *place)
{
	const char *colon = strrchr(place, ':');
	return colon != NULL && colon - place > 2 && strncmp(colon - 2, ".h", 2) == 0;
}

/* Reads what addr2line says: a function and a place in turn, from the inlined one outwards. The place is the first that lies in no header. */
static void read_place(FILE *from, unsigned long at, struct spot *spot)
{
	char function[96], place[sizeof(spot->text)];
	while (fgets(function, sizeof(function), from) != NULL && fgets(place, sizeof(place), from) != NULL) {
		function[strcspn(function, " \n")] = '\0';
		place[strcspn(place, " \n")] = '\0';
		if (spot->text[0] != '\0' && place[0] == '?')
			return;
		if (place[0] != '?')
			snprintf(spot->text, sizeof(spot->text), "%s", place);
		else if (function[0] != '?')
			snprintf(spot->text, sizeof(spot->text), "%s(), compiled without -g", function);
		if (!is_header(spot->text))
			break;
	}
	if (spot->text[0] == '\0')
		snprintf(spot->text, sizeof(spot->text), "instruction %#lx", at);
}

/* The text of a place that has one in no header, else that of the instruction, which is looked for once. */
const char *place_of(const char *place, const void *pc)
{
	if (pc == NULL || (place != NULL && !is_header(place)))
		return place == NULL ? "a place unknown" : place;
	for (unsigned at = 0; at < SPOTS && at < search->spot_count; at++)
		if (search->spots[at].pc == pc)
			return search->spots[at].text;
	struct spot *spot = &search->spots[search->spot_count++ % SPOTS];
	char command[512], file[256];
	unsigned long origin = find_origin(pc, file, sizeof(file));
	*spot = (struct spot){.pc = pc};
	snprintf(command, sizeof(command), "addr2line -f -s -i -e '%s' %#lx 2>/dev/null", file, origin);
	FILE *said = popen(command, "r");
	refuse_if(said == NULL, "no process is left");
	read_place(said, origin, spot);
	pclose(said);
	return spot->text;
}
