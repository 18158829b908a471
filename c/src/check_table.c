/* check_table.c - the calls of kupaldiz_table.h in the checking build, each told by its place */
#undef KUPALDIZ_CHECK
#define KUPALDIZ_INNER
#include "kupaldiz.h"
#include "kupaldiz_check.h"
/* Its calls by their inner names. */
#include "table/inner.h"
#include "kupaldiz_check.h"

/* Tells if the thread gives back a handle on which it has a passive reference. */
static void judge_left(const struct kupaldiz_table_thread *thread)
{
	const struct member *member = thread->at;
	for (uint64_t i = 0; member != NULL && i < member->memory.registries; i++)
		kupaldiz_check_left(&member->memory.cpus[i].cpu);
}

/* Tells if the thread itself refers to what it waits for without a deadline. */
static void judge_own(const struct kupaldiz_table_thread *thread, uint64_t number,
    const struct timespec *deadline)
{
	const struct kupaldiz_table_cpu *seat = NULL;
	if (thread->at != NULL && deadline == NULL)
		seat = seat_of_number(thread->at, number);
	if (seat != NULL)
		kupaldiz_check_own(&seat->registry->interlock, number);
}

#include "checked_table.h"
