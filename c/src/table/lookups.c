/* lookups.c - lookups, and references: each is one call of the registry that the name chose */
#include "inner.h"

enum kupaldiz_result kupaldiz_table_look_up(const struct kupaldiz_table_thread *thread,
    const struct kupaldiz_name *name, struct kupaldiz_entry *found)
{
	struct kupaldiz_table_cpu *seat = seat_of_name(thread, name);
	return widened(seat, kupaldiz_look_up(&seat->cpu, KUPALDIZ_ENTRY, name, found), found);
}

enum kupaldiz_result kupaldiz_table_get(const struct kupaldiz_table_thread *thread,
    const struct kupaldiz_name *name, struct kupaldiz_passive *reference)
{
	struct kupaldiz_table_cpu *seat = seat_of_name(thread, name);
	return widened(seat, kupaldiz_get(&seat->cpu, KUPALDIZ_ENTRY, name, reference),
	    &reference->entry);
}

enum kupaldiz_result kupaldiz_table_release(const struct kupaldiz_table_thread *thread,
    struct kupaldiz_passive *reference)
{
	struct kupaldiz_table_cpu *seat;
	enum kupaldiz_result result = find_seat(thread, reference->entry.number, KUPALDIZ_NOT_HELD,
	    &seat);
	if (result != KUPALDIZ_DONE)
		return result;
	narrow(seat, &reference->entry);
	return kept(seat, kupaldiz_release(&seat->cpu, reference), &reference->entry);
}

enum kupaldiz_result kupaldiz_table_get_local(const struct kupaldiz_table_thread *thread,
    const struct kupaldiz_name *name, struct kupaldiz_local *local)
{
	struct kupaldiz_table_cpu *seat = seat_of_name(thread, name);
	return widened(seat, kupaldiz_get_local(&seat->cpu, KUPALDIZ_ENTRY, name, local),
	    &local->entry);
}

enum kupaldiz_result kupaldiz_table_copy_local(struct kupaldiz_local *from,
    struct kupaldiz_local *copy)
{
	return kupaldiz_copy_local(from, copy);
}

enum kupaldiz_result kupaldiz_table_release_local(const struct kupaldiz_table_thread *thread,
    struct kupaldiz_local *local)
{
	struct kupaldiz_table_cpu *seat;
	enum kupaldiz_result result = find_seat(thread, local->entry.number, KUPALDIZ_NOT_HELD,
	    &seat);
	if (result != KUPALDIZ_DONE)
		return result;
	narrow(seat, &local->entry);
	return kept(seat, kupaldiz_release_local(&seat->registry->interlock, &seat->cpu, local),
	    &local->entry);
}
