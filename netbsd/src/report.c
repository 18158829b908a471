/* report.c - lines on standard error: what stops the process, and what a wait waits for */
#include <fcntl.h>

#include "layer.h"

/* Writes one line at once, so that no other line mixes with it. A thread that was cancelled writes it, too, and goes on. */
static void write_line(const char *call, const char *place, const char *reason)
{
	char line[512];
	int length = snprintf(line, sizeof(line), "%s: %s%s%s\n", call, reason, place == NULL ? "" : ", at ", place == NULL ? "" : place);
	if (length >= (int)sizeof(line)) {
		length = sizeof(line) - 1;
		line[length - 1] = '\n';
	}
	int waits = begin_wait();
	if (write(STDERR_FILENO, line, (size_t)length) != length)
		perror(call);
	end_wait(waits);
}

void stop_at(const char *call, const char *place, const char *format, ...)
{
	char reason[320];
	FORMAT(reason, format);
	write_line(call, place, reason);
	abort();
}

void report(const struct thread *me, const char *format, ...)
{
	char reason[320];
	FORMAT(reason, format);
	write_line(me->call, NULL, reason);
}

int64_t patience_milliseconds = KUPALDIZ_PATIENCE;

struct timespec patience(void) { return time_after(patience_milliseconds * 1000000); }

/* What a thread is called: the system's name of it, as it is now. The caller isn't cancelled meanwhile. */
const char *name_of(const struct thread *thread, char *text, size_t room)
{
	char path[64];
	if (thread->name[0] != '\0')
		return thread->name;
	snprintf(path, sizeof(path), "/proc/self/task/%d/comm", __atomic_load_n(&thread->id, __ATOMIC_RELAXED));
	int waits = begin_wait();
	int file = open(path, O_RDONLY | O_CLOEXEC);
	ssize_t length = file < 0 ? -1 : read(file, text, room - 1);
	if (file >= 0)
		close(file);
	end_wait(waits);
	if (length <= 0)
		return "?";
	text[length] = '\0';
	text[strcspn(text, "\n")] = '\0';
	return text;
}

/* " at FILE:LINE" where the place is known, else nothing. */
const char *at_place(const char *place, char *text, size_t room)
{
	if (place == NULL)
		return "";
	snprintf(text, room, " at %s", place);
	return text;
}

void require_made(const struct thread *me, uint32_t made, uint32_t wanted, const char *what)
{
	stop_if(me, made == ENDED, "%s was destroyed", what);
	stop_if(me, made != wanted, "%s was never initialised", what);
}

void require_sleepable(const struct thread *me)
{
	stop_if(me, me->depth > 0, "inside a read section, entered%s", AT_PLACE(me->entered));
	stop_if(me, me->softint, "in a soft interrupt");
	stop_if(me, me->spins > 0, "with a spin lock");
	stop_if(me, me->level > IPL_NONE && (is_strict || me->called), "at a raised level");
	stop_if(me, me->holds > (me->level > IPL_NONE), "with preemption disabled");
	MAY_SLEEP();
}

void *grow_row(const struct thread *me, void *row, size_t size)
{
	row = realloc(row, size);
	stop_if(me, row == NULL, "out of memory");
	return row;
}

void *memory(const struct thread *me, size_t size)
{
	void *block = calloc(1, size);
	stop_if(me, block == NULL, "out of memory");
	return block;
}
