/* pserialize.c - pserialize(9): a section has its CPU */
#include "layer.h"

pserialize_t pserialize_create(void)
{
	struct thread *me = sleepable(begin_call(__func__));
	return memory(me, sizeof(struct pserialize));
}

void pserialize_destroy(pserialize_t psz)
{
	struct thread *me = begin_call(__func__);
	stop_if(me, __atomic_load_n(&psz->performing, __ATOMIC_ACQUIRE) != 0, "a thread performs with it");
	free(psz);
}

int pserialize_read_enter(void)
{
	struct thread *me = begin_call(__func__);
	if (me->depth == 0) {
		hold_cpu(me);
		__atomic_store_n(&me->entered, me->place == NULL ? "a place unknown" : me->place, __ATOMIC_RELAXED);
	}
	me->depth++;
	end_call(me);
	return (int)(me->depth - 1);
}

void pserialize_read_exit(int s)
{
	struct thread *me = begin_call(__func__);
	stop_if(me, me->depth == 0, "outside any read section");
	stop_if(me, s < 0 || (unsigned)s != me->depth - 1, "not the section that was entered last");
	if (--me->depth == 0) {
		__atomic_store_n(&me->entered, NULL, __ATOMIC_RELAXED);
		unhold_cpu(me);
	}
	end_call(me);
}

void pserialize_perform(pserialize_t psz)
{
	struct thread *me = sleepable(begin_call(__func__));
	struct sleep sleep = begin_sleep(me);
	__atomic_fetch_add(&psz->performing, 1, __ATOMIC_ACQ_REL);
	await_sections(me);
	__atomic_fetch_sub(&psz->performing, 1, __ATOMIC_ACQ_REL);
	end_sleep(me, sleep);
}

bool pserialize_in_read_section(void) { return begin_plain(__func__)->depth > 0; }
bool pserialize_not_in_read_section(void) { return begin_plain(__func__)->depth == 0; }
