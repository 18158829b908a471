/* picture.c - a schedule as a picture: a row for each thread, time to the right, and the steps underneath */
#include "inside.h"

enum { WIDE = 900, LEFT = 110, RIGHT = 18, TOP = 60, ROW = 58, LINE_HIGH = 16, LETTERS = 125 };

static const char style[] =
    "text { font: 11px ui-monospace, 'DejaVu Sans Mono', Menlo, Consolas, monospace; fill: #1f2328 }\n"
    ".paper { fill: #ffffff } .title { font: bold 15px sans-serif } .row { font: bold 12px sans-serif }\n"
    ".faint { fill: #59636e } .said { fill: #b3141d }\n"
    ".fault { fill: #b3141d; stroke: #b3141d; stroke-width: 2px } .base { stroke: #8c959f }\n"
    ".section { fill: #cfe5ff; stroke: #0969da } .reference { fill: #8250df } .lock { fill: #9a6700 } .wait { fill: #ffe3c7; stroke: #bc4c00 }\n"
    ".count { fill: #1a7f37 } .step { fill: #59636e }\n"
    "@media (prefers-color-scheme: dark) {\n"
    "text { fill: #e6edf3 } .paper { fill: #0d1117 }\n"
    ".faint { fill: #9da7b1 } .said { fill: #ff8182 } .fault { fill: #ff8182; stroke: #ff8182 }\n"
    ".base { stroke: #6e7681 } .section { fill: #14365f; stroke: #58a6ff } .reference { fill: #bc8cff } .lock { fill: #e3b341 }\n"
    ".wait { fill: #4d2a0b; stroke: #f0883e } .count { fill: #3fb950 } .step { fill: #9da7b1 }\n"
    "}\n";

/* What begins a bar and what ends it. */
static const struct pair {
	const char *begins, *ends, *kind;
	unsigned thing;		/* the kind of what it is of */
	unsigned lane;
} pairs[] = {
	{"pserialize_read_enter", "pserialize_read_exit", "section", ON_NOTHING, 0},
	{"mutex_enter", "mutex_exit", "lock", ON_LOCK, 1},
	{"mutex_spin_enter", "mutex_spin_exit", "lock", ON_LOCK, 1},
	{"rw_enter", "rw_exit", "lock", ON_LOCK, 1},
	{"psref_acquire", "psref_release", "reference", ON_REFERENCES, 2},
	{"localcount_acquire", "localcount_release", "count", ON_REFERENCES, 2},
};

static double x_of(unsigned at)
{
	return LEFT + (at + 0.5) * (WIDE - LEFT - RIGHT) / (search->length == 0 ? 1 : search->length);
}

static void escape(FILE *to, const char *text)
{
	for (; *text != '\0'; text++) {
		if (*text == '<' || *text == '>' || *text == '&' || *text == '"')
			fprintf(to, "&#%d;", *text);
		else
			fputc(*text, to);
	}
}

__attribute__((format(printf, 5, 6))) static void text_at(FILE *to, double x, double y, const char *kind, const char *format, ...)
{
	char text[256];
	FORMAT(text, format);
	fprintf(to, "<text x=\"%.0f\" y=\"%.0f\" class=\"%s\">", x, y, kind);
	escape(to, text);
	fputs("</text>", to);
}

static uintptr_t object_of(const struct step *step, unsigned kind)
{
	for (uint32_t at = 0; at < step->set.count; at++)
		if (step->set.of[at].kind == kind)
			return step->set.of[at].address;
	return 0;
}

static unsigned row_of(unsigned thread)
{
	uint32_t seen = 0;
	for (unsigned at = 0; at < search->length; at++)
		seen |= UINT32_C(1) << search->steps[at].chosen;
	return (unsigned)__builtin_popcount(seen & ((UINT32_C(1) << thread) - 1));
}

static unsigned end_of(unsigned from, const struct pair *pair)
{
	const struct step *first = &search->steps[from];
	unsigned depth = 1;
	for (unsigned at = from + 1; at < search->length; at++) {
		const struct step *step = &search->steps[at];
		if (step->chosen != first->chosen || object_of(step, pair->thing) != object_of(first, pair->thing))
			continue;
		depth += strcmp(step->call, pair->begins) == 0;
		if (strcmp(step->call, pair->ends) == 0 && --depth == 0)
			return at;
	}
	return search->length;
}

static void draw_bar(FILE *to, unsigned from, unsigned until, const char *kind, unsigned lane)
{
	double top = TOP + row_of(search->steps[from].chosen) * ROW, left = x_of(from);
	double right = until >= search->length ? WIDE - RIGHT : x_of(until);
	double high = lane == 0 ? 16 : 4, y = lane == 0 ? top - 8 : top + 6 + 7 * lane;
	fprintf(to, "<rect class=\"%s\" x=\"%.0f\" y=\"%.0f\" width=\"%.0f\" height=\"%.0f\" rx=\"2\"/>\n", kind, left, y, right - left, high);
}

static void draw_pairs(FILE *to, unsigned at)
{
	for (unsigned place = 0; place < sizeof(pairs) / sizeof(pairs[0]); place++)
		if (strcmp(search->steps[at].call, pairs[place].begins) == 0)
			draw_bar(to, at, end_of(at, &pairs[place]), pairs[place].kind, pairs[place].lane);
}

/* A thread that goes on in the call that it was in has waited, and so does one that can't go on at the end. */
static void draw_wait(FILE *to, unsigned at)
{
	const struct step *step = &search->steps[at];
	unsigned next = at + 1;
	while (next < search->length && search->steps[next].chosen != step->chosen)
		next++;
	bool stuck = next == search->length && search->stuck && step->chosen != 0 && (search->ended >> step->chosen & 1) == 0;
	bool waits = next < search->length && next > at + 1 && search->steps[next].call == step->call && search->steps[next].place == step->place;
	if (stuck || waits)
		draw_bar(to, at, next, "wait", 0);
}

static void draw_rows(FILE *to)
{
	uint32_t seen = 0;
	for (unsigned at = 0; at < search->length; at++) {
		unsigned thread = search->steps[at].chosen;
		double y = TOP + row_of(thread) * ROW;
		if ((seen & UINT32_C(1) << thread) == 0) {
			text_at(to, 14, y + 4, "row", "%s", search->names[thread]);
			if (search->steps[at].cpu != NOBODY)
				text_at(to, 14, y + 18, "faint", "CPU %u", search->steps[at].cpu);
			fprintf(to, "<line class=\"base\" x1=\"%d\" y1=\"%.0f\" x2=\"%d\" y2=\"%.0f\"/>\n", LEFT, y, WIDE - RIGHT, y);
		}
		seen |= UINT32_C(1) << thread;
	}
}

static void draw_steps(FILE *to)
{
	for (unsigned at = 0; at < search->length; at++) {
		double x = x_of(at), y = TOP + row_of(search->steps[at].chosen) * ROW;
		fprintf(to, "<circle class=\"step\" cx=\"%.0f\" cy=\"%.0f\" r=\"3\"/>", x, y);
		if (search->length <= 45 || (at + 1) % 5 == 0)
			text_at(to, x - 4, y - 12, "faint", "%u", at + 1);
		fputc('\n', to);
	}
}

/* The steps, one a line. Where the list ends. */
static double list_steps(FILE *to, double y)
{
	for (unsigned at = 0; at < search->length; at++, y += LINE_HIGH) {
		const struct step *step = &search->steps[at];
		text_at(to, 14, y, "faint", "%3u  ", at + 1);
		text_at(to, 50, y, at == 0 || search->steps[at - 1].chosen != step->chosen ? "" : "faint", "%s", search->names[step->chosen]);
		text_at(to, 180, y, "", "%s", step->call);
		text_at(to, 380, y, "", "%s", place_of_step(step));
		fputc('\n', to);
	}
	return y;
}

/* How much of a text is a line: up to a blank, where there is one. */
static size_t length_of_line(const char *text)
{
	size_t length = strlen(text), cut = LETTERS;
	if (length <= LETTERS)
		return length;
	while (cut > 0 && text[cut] != ' ')
		cut--;
	return cut == 0 ? LETTERS : cut;
}

static void write_lines(FILE *to, double y, const char *text)
{
	while (*text != '\0') {
		size_t cut = length_of_line(text);
		text_at(to, 14, y, "said", "%.*s", (int)cut, text);
		fputc('\n', to);
		text += cut + (text[cut] == ' ');
		y += LINE_HIGH;
	}
}

static void draw_legend(FILE *to)
{
	static const char *const kinds[] = {"section", "lock", "reference", "count", "wait"};
	double x = 430;
	for (unsigned at = 0; at < sizeof(kinds) / sizeof(kinds[0]); at++, x += 92) {
		fprintf(to, "<rect class=\"%s\" x=\"%.0f\" y=\"14\" width=\"16\" height=\"9\" rx=\"1\"/>", kinds[at], x);
		text_at(to, x + 21, 23, "", "%s", kinds[at]);
		fputc('\n', to);
	}
}

/* The picture of the schedule that was run last, with its fault. Whether it could be written. */
bool draw(const char *name, const struct explorer_found *found)
{
	FILE *to = fopen(name, "w");
	double list = TOP + row_of(THREADS) * ROW + 20, high = list + (search->length + 2 + (unsigned)strlen(found->line) / 100) * LINE_HIGH;
	if (to == NULL)
		return false;
	fprintf(to, "<svg xmlns=\"http://www.w3.org/2000/svg\" width=\"%d\" height=\"%.0f\" viewBox=\"0 0 %d %.0f\" role=\"img\">\n<title>", WIDE, high,
	    WIDE, high);
	escape(to, found->line);
	fprintf(to, "</title>\n<style>%s</style>\n<rect class=\"paper\" width=\"100%%\" height=\"100%%\"/>\n", style);
	text_at(to, 14, 24, "title", "%s", options.name);
	draw_legend(to);
	draw_rows(to);
	for (unsigned at = 0; at < search->length; at++)
		draw_wait(to, at);
	for (unsigned at = 0; at < search->length; at++)
		draw_pairs(to, at);
	draw_steps(to);
	if (search->length > 0) {
		double x = x_of(search->length - 1), middle = TOP + row_of(search->steps[search->length - 1].chosen) * ROW;
		fprintf(to, "<path class=\"fault\" d=\"M%.0f %.0fl12 12m0 -12l-12 12\"/>\n", x - 6, middle - 6);
	}
	write_lines(to, list_steps(to, list) + 6, found->line);
	fputs("</svg>\n", to);
	bool written = ferror(to) == 0;
	return fclose(to) == 0 && written;
}
