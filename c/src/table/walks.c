/* walks.c - calls over all registries: a walk, and a wait for walks */
#include "inner.h"

/* The thread sanitizer's, if the program has it: the library isn't compiled with it. */
extern void __tsan_acquire(void *address) __attribute__((weak));
extern void __tsan_release(void *address) __attribute__((weak));

/* Tells it what kupaldiz_tsan.h tells of a lookup: KUPALDIZ_SHOWN. */
static void tell_found(void)
{
	if (__tsan_acquire != NULL)
		__tsan_acquire((void *)(uintptr_t)kupaldiz_version);
}

/* Tells it what kupaldiz_tsan.h tells of an exit: KUPALDIZ_LET_GO. */
static void tell_left(void)
{
	if (__tsan_release != NULL)
		__tsan_release((void *)(uintptr_t)kupaldiz_limits);
}

/* A walk that is under way. */
struct walk {
	const struct member *member;
	kupaldiz_table_visit *visit;
	void *of;
	bool goes_on;
};

/* Visits the entries of one registry, inside a section, which holds them. */
static enum kupaldiz_result walk_registry(struct walk *walk, size_t index)
{
	const struct member *member = walk->member;
	struct kupaldiz_table_cpu *seat = &member->memory.cpus[index];
	size_t count;
	enum kupaldiz_result result = kupaldiz_enter(&seat->cpu);
	if (result != KUPALDIZ_DONE)
		return result;
	result = kupaldiz_walk(&seat->cpu, member->row, member->table->choice.slots, &count);
	tell_found();
	for (size_t i = 0; result == KUPALDIZ_DONE && i < count && walk->goes_on; i++) {
		kupaldiz_table_widen(seat, &member->row[i]);
		walk->goes_on = walk->visit(walk->of, &member->row[i]);
	}
	tell_left();
	kupaldiz_exit(&seat->cpu);
	return result;
}

enum kupaldiz_result kupaldiz_table_walk(const struct kupaldiz_table_thread *thread,
    kupaldiz_table_visit *visit, void *of)
{
	struct member *member = thread->at;
	struct walk walk = {member, visit, of, true};
	enum kupaldiz_result result = KUPALDIZ_DONE;
	if (member == NULL)
		return KUPALDIZ_EMPTY_HANDLE;
	if (visit == NULL)
		return KUPALDIZ_NULL;
	if (member->walks)
		return KUPALDIZ_INSIDE;
	member->walks = true;
	for (size_t i = 0; i < member->memory.registries && walk.goes_on &&
	    result == KUPALDIZ_DONE; i++)
		result = walk_registry(&walk, i);
	member->walks = false;
	return result;
}

enum kupaldiz_result kupaldiz_table_perform(const struct kupaldiz_table_thread *thread,
    const struct timespec *deadline, uint64_t *waited)
{
	const struct member *member = thread->at;
	enum kupaldiz_result result = KUPALDIZ_DONE;
	if (member == NULL)
		return KUPALDIZ_EMPTY_HANDLE;
	if (member->walks)
		return KUPALDIZ_INSIDE;
	for (size_t i = 0; i < member->memory.registries && result == KUPALDIZ_DONE; i++)
		result = kupaldiz_perform_wait(&member->memory.cpus[i].registry->interlock,
		    &member->memory.cpus[i].cpu, deadline, waited);
	return result;
}
