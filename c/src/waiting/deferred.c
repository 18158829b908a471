/*
 * deferred.c - the list of what is to be freed: entries that nothing holds any more, and calls that
 * are due once sections have ended
 */
#include "inner.h"
#include "reclaimer.h"

size_t kupaldiz_deferred_count(const struct kupaldiz_deferred *deferred)
{
	return deferred->count + (size_t)(deferred->added - deferred->called);
}

/* Whether the keeper, and for calls the CPU, may work on what waits. */
static enum kupaldiz_result judge_list(const struct kupaldiz_deferred *deferred)
{
	const struct kupaldiz_keeper *keeper = deferred->interlock->keeper;
	if (keeper->at == NULL)
		return KUPALDIZ_EMPTY_HANDLE;
	if (kupaldiz_deferred_count(deferred) != 0 && deferred->registry != keeper->at)
		return KUPALDIZ_FULL_HANDLE;
	const bool has_calls = deferred->added != deferred->called;
	return has_calls && deferred->cpu->at == NULL ? KUPALDIZ_EMPTY_HANDLE : KUPALDIZ_DONE;
}

/* One turn of the entry's destruction. It is gone, too, if somebody else has destroyed it. */
static bool is_gone(const struct kupaldiz_deferred *deferred, const struct kupaldiz_entry *entry)
{
	struct kupaldiz_keeper *keeper = deferred->interlock->keeper;
	return kupaldiz_destroy(keeper, entry->number, NULL) != KUPALDIZ_STILL_HELD;
}

/* The last word that the list says of an entry. */
static void tell_freed(const struct kupaldiz_deferred *deferred, const struct kupaldiz_entry *gone)
{
	tell_sanitizer();
	if (deferred->freed != NULL)
		deferred->freed(deferred->of, gone);
}

/* Frees the entries that nothing holds. The others keep their order. */
static void free_entries(struct kupaldiz_deferred *deferred)
{
	size_t kept = 0;
	for (size_t i = 0; i < deferred->count; i++) {
		const struct kupaldiz_entry entry = deferred->entries[i];
		if (is_gone(deferred, &entry))
			tell_freed(deferred, &entry);
		else
			deferred->entries[kept++] = entry;
	}
	deferred->count = kept;
}

/* A turn of the wait for sections. It begins one for all calls in the list if none has begun. */
static enum kupaldiz_result turn_for_calls(struct kupaldiz_deferred *deferred)
{
	struct kupaldiz_keeper *keeper = deferred->interlock->keeper;
	if (deferred->awaited == deferred->called) {
		enum kupaldiz_result result = kupaldiz_perform_begin(keeper, deferred->cpu,
		    &deferred->wait);
		if (result != KUPALDIZ_DONE)
			return result;
		deferred->awaited = deferred->added;
	}
	return kupaldiz_perform_turn(keeper, deferred->cpu, &deferred->wait, NULL);
}

/* Makes the calls that the wait was for. Each may free the memory that it lies in. */
static void make_calls(struct kupaldiz_deferred *deferred)
{
	tell_sanitizer();
	while (deferred->called != deferred->awaited) {
		struct kupaldiz_call *call = deferred->first;
		deferred->first = call->next;
		deferred->called++;
		call->function(call);
	}
}

/* What `freed` and the calls do is done as a whole: the thread isn't cancelled within. */
enum kupaldiz_result kupaldiz_deferred_free(struct kupaldiz_deferred *deferred, size_t *freed)
{
	const size_t before = deferred->count;
	int cancels;
	enum kupaldiz_result result = judge_list(deferred);
	if (result != KUPALDIZ_DONE)
		return result;
	pthread_setcancelstate(PTHREAD_CANCEL_DISABLE, &cancels);
	free_entries(deferred);
	while (deferred->called != deferred->added && turn_for_calls(deferred) == KUPALDIZ_DONE)
		make_calls(deferred);
	pthread_setcancelstate(cancels, NULL);
	if (freed != NULL)
		*freed = before - deferred->count;
	return KUPALDIZ_DONE;
}

/* Something is appended: if it is the first, the list is of the keeper's registry from now on. */
static void note_more(struct kupaldiz_deferred *deferred)
{
	struct reclaimer *reclaimer = deferred->reclaimer;
	if (kupaldiz_deferred_count(deferred) == 0)
		deferred->registry = deferred->interlock->keeper->at;
	if (reclaimer != NULL)
		tell(reclaimer, &reclaimer->more);
}

enum kupaldiz_result kupaldiz_deferred_add(struct kupaldiz_deferred *deferred,
    const struct kupaldiz_entry *gone)
{
	if (gone == NULL)
		return KUPALDIZ_NULL;
	if (deferred->count >= deferred->room)
		return KUPALDIZ_NO_ROOM;
	note_more(deferred);
	deferred->entries[deferred->count++] = *gone;
	return KUPALDIZ_DONE;
}

enum kupaldiz_result kupaldiz_deferred_call(struct kupaldiz_deferred *deferred,
    struct kupaldiz_call *call)
{
	if (deferred->cpu == NULL || deferred->cpu->at == NULL)
		return KUPALDIZ_EMPTY_HANDLE;
	note_more(deferred);
	call->next = NULL;
	if (deferred->added == deferred->called)
		deferred->first = call;
	else
		deferred->last->next = call;
	deferred->last = call;
	deferred->added++;
	return KUPALDIZ_DONE;
}

/* What a barrier waits for: calls, and entries by their numbers, in the list's order. */
struct awaited {
	bool is_known;
	uint64_t called;
	size_t count;
	uint64_t numbers[KUPALDIZ_MOST_SLOTS];
};

/* All that waits now is awaited. */
static void await_all(struct awaited *awaited, const struct kupaldiz_deferred *deferred)
{
	awaited->is_known = true;
	awaited->called = deferred->added;
	while (awaited->count < deferred->count && awaited->count < KUPALDIZ_MOST_SLOTS) {
		awaited->numbers[awaited->count] = deferred->entries[awaited->count].number;
		awaited->count++;
	}
}

/* Keeps the numbers that wait still. What isn't awaited was appended since, and comes later. */
static void keep_waiting(struct awaited *awaited, const struct kupaldiz_deferred *deferred)
{
	size_t kept = 0;
	for (size_t i = 0; i < awaited->count && kept < deferred->count; i++)
		if (awaited->numbers[i] == deferred->entries[kept].number)
			awaited->numbers[kept++] = awaited->numbers[i];
	awaited->count = kept;
}

/* Frees what it can. STILL_HELD if something awaited waits then. */
static enum kupaldiz_result turn_of_barrier(struct kupaldiz_deferred *deferred,
    struct awaited *awaited)
{
	enum kupaldiz_result result = kupaldiz_deferred_free(deferred, NULL);
	if (result != KUPALDIZ_DONE)
		return result;
	if (awaited->is_known)
		keep_waiting(awaited, deferred);
	else
		await_all(awaited, deferred);
	const bool is_over = awaited->count == 0 && deferred->called >= awaited->called;
	return is_over ? KUPALDIZ_DONE : KUPALDIZ_STILL_HELD;
}

enum kupaldiz_result kupaldiz_deferred_barrier(struct kupaldiz_deferred *deferred,
    const struct timespec *deadline)
{
	const struct kupaldiz_interlock *interlock = deferred->interlock;
	struct pause pause = {deadline, 0, FIRST_SLEEP};
	struct awaited awaited = {.is_known = false};
	enum kupaldiz_result result;
	do {
		take(interlock);
		result = turn_of_barrier(deferred, &awaited);
		give(interlock);
	} while (result == KUPALDIZ_STILL_HELD && pause_once(&pause));
	return result;
}
