/* stuck.c - what is wrong where no thread can go on */
#include "inside.h"

const char *name_of_routine(const struct routine *routine)
{
	return routine->name != NULL ? routine->name : routine->self != NULL ? routine->self->name : "?";
}

static const struct routine *routine_of(const struct thread *thread)
{
	for (unsigned number = 0; number < run.count && thread != NULL; number++)
		if (run.routines[number].self == thread)
			return &run.routines[number];
	return NULL;
}

static const struct routine *stuck_softint(void)
{
	for (unsigned number = 0; number < run.count; number++)
		if (run.routines[number].daemon && run.routines[number].off)
			return &run.routines[number];
	return NULL;
}

__attribute__((format(printf, 2, 3))) static void append(char *text, const char *format, ...)
{
	size_t length = strlen(text);
	va_list words;
	va_start(words, format);
	vsnprintf(text + length, EXPLORER_LINE - length, format, words);
	va_end(words);
}

/* A passive reference of a CPU's, and where it was acquired: whose it is. */
static const struct routine *append_reference(char *text, unsigned cpu, const void *target)
{
	const struct cpu *at = &cpus[cpu];
	append(text, "a reference of CPU %u", cpu);
	for (uint32_t place = 0; cpu < KUPALDIZ_CPUS && place < at->room; place++) {
		const struct reference *found = &at->references[place];
		if (found->psref == NULL || (const void *)found->target != target)
			continue;
		append(text, ", acquired%s,", AT_PLACE(found->place));
		return routine_of(found->thread);
	}
	return NULL;
}

/* What a thread waits for, and whose that is; NULL where no thread can be told. */
static const struct routine *append_cause(char *text, const struct routine *me)
{
	unsigned cpu = me->guard == have_ended_sections ? section_waited_for(me) : (unsigned)(uintptr_t)me->of;
	if (me->guard == have_ended_sections) {
		append(text, "CPU %u", cpu);
		return routine_of(lock_owner(&cpus[cpu].hold));
	}
	if (me->guard == was_released) {
		return append_reference(text, cpu, me->target);
	}
	if (me->guard == is_xcall_complete) {
		append(text, "the call");
		return xcaller;
	}
	if (me->guard == has_ended) {
		append(text, "its end");
		return me->of;
	}
	if (me->guard == has_ended_handler || (me->guard == was_woken && me->relock == NULL && stuck_softint() != NULL)) {
		append(text, "the handler");
		return stuck_softint();
	}
	if (me->guard == was_woken && !me->woken && me->target != NULL) {
		size_t length = strlen(text);
		const struct routine *holder = append_held(text, me->target);
		if (text[length] != '\0')
			return holder;
	}
	if (me->guard == was_woken && !me->woken && run.time < me->deadline) {
		const struct thing *cv = lost_wakeup_at(me->queue);
		append(text, "a wake-up that nobody is left to give");
		if (cv != NULL)
			append(text, "; %s%s came while nobody waited", cv->missed, AT_PLACE(cv->missed_at));
		return NULL;
	}
	const uintptr_t *word = me->guard == was_woken ? &me->relock->mtx_word : me->of;
	append(text, word == NULL ? "something" : "the lock");
	return word == NULL ? NULL : routine_of(lock_owner(word));
}

/* Tells who waits, and who each waits for, up to one who waits for nobody, or for one that was told. */
void report_stuck(void)
{
	char text[EXPLORER_LINE] = "";
	uint32_t told = 0;
	search->stuck = true;
	/* The first thread that isn't the layer's and hasn't ended, the one of the setup last. */
	const struct routine *at = &run.routines[1], *end = &run.routines[run.count];
	while (at < end && (at->daemon || at->ended))
		at++;
	at = at < end ? at : run.routines;
	while (at != NULL && (told & UINT32_C(1) << at->number) == 0) {
		told |= UINT32_C(1) << at->number;
		if (text[0] != '\0')
			append(text, "; ");
		append(text, "thread \"%s\" waits in %s%s for ", name_of_routine(at), at->call, AT_PLACE(at->place));
		const struct routine *on = append_cause(text, at);
		if (on != NULL && on != at)
			append(text, " of thread \"%s\"", name_of_routine(on));
		at = on;
	}
	fail("%s: %s", at == NULL ? "nobody can go on" : "deadlock", text);
}
