/*
 * both_forms.h - kupaldiz_table_look_up and kupaldiz_table_get by the library's functions and by
 * what a program calls, which is inlined: both return the same
 */
#ifndef BOTH_FORMS_H
#define BOTH_FORMS_H

#include "client.h"
#include "kupaldiz_table.h"

static inline enum kupaldiz_result look_up_both(const struct kupaldiz_table_thread *thread,
    const struct kupaldiz_name *name, struct kupaldiz_entry *found)
{
	struct kupaldiz_entry other;
	const enum kupaldiz_result inlined = kupaldiz_table_look_up_inlined(thread, name,
	    found != NULL ? &other : NULL);
	const enum kupaldiz_result result = kupaldiz_table_look_up(thread, name, found);
	EXPECT(inlined == result);
	EXPECT(result != KUPALDIZ_DONE || found == NULL || same_entry(found, &other));
	return result;
}

static inline enum kupaldiz_result get_both(const struct kupaldiz_table_thread *thread,
    const struct kupaldiz_name *name, struct kupaldiz_passive *reference)
{
	struct kupaldiz_passive other = *reference;
	const enum kupaldiz_result inlined = kupaldiz_table_get_inlined(thread, name, &other);
	const enum kupaldiz_result result = kupaldiz_table_get(thread, name, reference);
	EXPECT(inlined == result && other.cpu == reference->cpu);
	EXPECT(same_entry(&reference->entry, &other.entry));
	if (result == KUPALDIZ_DONE)
		DONE(kupaldiz_table_release(thread, &other));
	return result;
}

/* The library's function alone. */
static inline enum kupaldiz_result look_up_plainly(const struct kupaldiz_table_thread *thread,
    const struct kupaldiz_name *name, struct kupaldiz_entry *found)
{
	return kupaldiz_table_look_up(thread, name, found);
}

#define kupaldiz_table_look_up	look_up_both
#define kupaldiz_table_get	get_both

#endif
