/* psref.c - psref(9) */
#include "layer.h"

struct psref_class {
	const char *name;
	size_t targets;		/* an atomic: those that are live or are being destroyed */
	ipl_cookie_t level;
};

enum { FIRST_ROOM = 16 };

struct psref_class *psref_class_create(const char *name, ipl_cookie_t level)
{
	struct thread *me = sleepable(begin_call(__func__));
	struct psref_class *psref_class = memory(me, sizeof(*psref_class));
	*psref_class = (struct psref_class){.name = name, .level = level};
	return psref_class;
}

void psref_class_destroy(struct psref_class *psref_class)
{
	struct thread *me = begin_call(__func__);
	stop_if(me, __atomic_load_n(&psref_class->targets, __ATOMIC_ACQUIRE) != 0, "a target of class %s is live", psref_class->name);
	free(psref_class);
}

void psref_target_init(struct psref_target *target, struct psref_class *psref_class)
{
	struct thread *me = begin_call(__func__);
	note_owner(me, target, NULL);
	target->prt_class = psref_class;
	__atomic_store_n(&target->prt_state, live_at(target), __ATOMIC_RELEASE);
	__atomic_fetch_add(&psref_class->targets, 1, __ATOMIC_ACQ_REL);
}

static bool is_ending(const struct psref_target *target)
{
	return __atomic_load_n(&target->prt_state, __ATOMIC_ACQUIRE) == ending_at(target);
}

static void require_target(const struct thread *me, const struct psref_target *target, const struct psref_class *psref_class)
{
	stop_if(me, __atomic_load_n(&target->prt_state, __ATOMIC_ACQUIRE) != live_at(target) && !is_ending(target), "the target is not live");
	stop_if(me, target->prt_class != psref_class, "the target is not of class %s", psref_class->name);
}

/* ---- The table of a CPU's references. The thread has the CPU. ---- */

/* The chain of those whose storage lies there, or at other addresses with the same place. There is room. */
static uint32_t *chain_of(struct cpu *cpu, const struct psref *psref)
{
	uint64_t mixed = (uint64_t)(uintptr_t)psref * UINT64_C(0x9e3779b97f4a7c15);
	return &cpu->chains[(uint32_t)(mixed >> 32) & (cpu->room - 1)];
}

/* The storage itself isn't read: it may never have been written. */
static void require_unheld(const struct thread *me, const struct psref *psref)
{
	uint32_t place = me->cpu->room == 0 ? NOTHING : *chain_of(me->cpu, psref);
	while (place != NOTHING && me->cpu->references[place].psref != psref)
		place = me->cpu->references[place].next;
	stop_if(me, place != NOTHING, "the reference is held already");
}

static void add_to_chain(struct cpu *cpu, uint32_t place)
{
	uint32_t *chain = chain_of(cpu, cpu->references[place].psref);
	cpu->references[place].next = *chain;
	*chain = place;
}

static void extend(struct thread *me)
{
	struct cpu *cpu = me->cpu;
	uint32_t before = cpu->room, room = before == 0 ? FIRST_ROOM : before * 2;
	cpu->references = grow_row(me, cpu->references, room * sizeof(*cpu->references));
	cpu->chains = grow_row(me, cpu->chains, room * sizeof(*cpu->chains));
	cpu->room = room;
	memset(cpu->chains, 0xff, room * sizeof(*cpu->chains));
	for (uint32_t place = 0; place < before; place++)
		add_to_chain(cpu, place);
	for (uint32_t place = before; place < room; place++)
		cpu->references[place] = (struct reference){.next = place + 1 < room ? place + 1 : NOTHING};
	cpu->first_free = before;
}

/* Notes a reference in the table and in its holder's storage. */
static void note_reference(struct thread *me, struct psref *psref, const struct psref_target *target)
{
	struct cpu *cpu = me->cpu;
	if (cpu->room == 0 || cpu->first_free == NOTHING)
		extend(me);
	uint32_t place = cpu->first_free;
	struct reference *reference = &cpu->references[place];
	cpu->first_free = reference->next;
	*reference = (struct reference){psref, target, me->place, me, ++cpu->serial, NOTHING};
	add_to_chain(cpu, place);
	TELL_WRITE(psref, sizeof(*psref));
	*psref = (struct psref){target, cpu->serial, place, cpu->info.ci_index};
	me->references++;
}

static struct reference *own_reference(const struct thread *me, const struct psref *psref)
{
	TELL_READ(psref, sizeof(*psref));
	stop_if(me, psref->psref_target == NULL || psref->psref_cpu >= KUPALDIZ_CPUS, "the reference is not held");
	stop_if(me, psref->psref_cpu != me->cpu->info.ci_index, "the reference is of CPU %u, and this is CPU %u", psref->psref_cpu, me->cpu->info.ci_index);
	struct reference *found = psref->psref_index < me->cpu->room ? &me->cpu->references[psref->psref_index] : NULL;
	stop_if(me, found == NULL || found->psref == NULL || found->serial != psref->psref_serial, "the reference is not held");
	stop_if(me, found->psref != psref, "the reference was moved by its bytes: it was acquired elsewhere%s", AT_PLACE(found->place));
	stop_if(me, found->thread != me, "the reference is of thread \"%s\", acquired%s", NAME_OF(found->thread), AT_PLACE(found->place));
	stop_if(me, found->target != psref->psref_target, "the reference was written over");
	return found;
}

static void forget_reference(struct thread *me, struct reference *reference)
{
	struct cpu *cpu = me->cpu;
	uint32_t place = (uint32_t)(reference - cpu->references), *link = chain_of(cpu, reference->psref);
	while (*link != place)
		link = &cpu->references[*link].next;
	*link = reference->next;
	*reference = (struct reference){.next = cpu->first_free};
	cpu->first_free = place;
	me->references--;
}

static void require_bound(const struct thread *me)
{
	stop_if(me, !is_bound(me) && me->preemptions == 0, "the thread is not bound to a CPU");
}

void psref_acquire(struct psref *psref, const struct psref_target *target, struct psref_class *psref_class)
{
	struct thread *me = begin_call(__func__);
	require_bound(me);
	require_target(me, target, psref_class);
	hold_cpu(me);
	require_unheld(me, psref);
	stop_if(me, is_ending(target), "the target is being destroyed");
	note_reference(me, psref, target);
	leave_cpu(me);
}

void psref_release(struct psref *psref, const struct psref_target *target, struct psref_class *psref_class)
{
	struct thread *me = begin_call(__func__);
	hold_cpu(me);
	struct reference *reference = own_reference(me, psref);
	stop_if(me, psref->psref_target != target, "the reference is to another target");
	require_target(me, target, psref_class);
	TELL_WRITE(psref, sizeof(*psref));
	psref->psref_target = NULL;
	forget_reference(me, reference);
	if (is_ending(target))
		tell_release(target);
	leave_cpu(me);
}

void psref_copy(struct psref *to, const struct psref *from, struct psref_class *psref_class)
{
	struct thread *me = begin_call(__func__);
	hold_cpu(me);
	(void)own_reference(me, from);
	require_unheld(me, to);
	require_target(me, from->psref_target, psref_class);
	note_reference(me, to, from->psref_target);
	leave_cpu(me);
}

/* The first reference of a CPU's to a target, of one thread or of all; NULL where there is none. The caller has that CPU. */
const struct reference *find_reference(const struct cpu *cpu, const struct psref_target *target, const struct thread *of)
{
	for (uint32_t place = 0; place < cpu->room; place++) {
		const struct reference *found = &cpu->references[place];
		if (found->psref != NULL && found->target == target && (of == NULL || found->thread == of))
			return found;
	}
	return NULL;
}

bool psref_held(const struct psref_target *target, struct psref_class *psref_class)
{
	struct thread *me = begin_call(__func__);
	require_bound(me);
	require_target(me, target, psref_class);
	hold_cpu(me);
	bool held = find_reference(me->cpu, target, NULL) != NULL;
	leave_cpu(me);
	return held;
}

/* Stops where the thread itself has a reference, which nobody else could release. */
static void require_unreferring(struct thread *me, const struct psref_target *target)
{
	if (me->references == 0)
		return;
	hold_cpu(me);
	const struct reference *found = find_reference(me->cpu, target, me);
	stop_if(me, found != NULL, "this thread has a reference to the target, acquired%s", AT_PLACE(found->place));
	unhold_cpu(me);
}

void psref_target_destroy(struct psref_target *target, struct psref_class *psref_class)
{
	struct thread *me = sleepable(begin_call(__func__));
	require_target(me, target, psref_class);
	require_unreferring(me, target);
	uint64_t live = live_at(target);
	stop_if(me, !__atomic_compare_exchange_n(&target->prt_state, &live, ending_at(target), false, __ATOMIC_SEQ_CST, __ATOMIC_SEQ_CST),
	    "another thread waits for it already");
	struct sleep sleep = begin_sleep(me);
	await_unreferenced(me, target);
	forget_owner(target);
	target->prt_class = NULL;
	__atomic_store_n(&target->prt_state, 0, __ATOMIC_RELEASE);
	__atomic_fetch_sub(&psref_class->targets, 1, __ATOMIC_ACQ_REL);
	end_sleep(me, sleep);
}

/* Says which thread has the first of a CPU's references to a target, if there is one, and how many it has. The caller has that CPU. */
void report_references(struct thread *me, const struct cpu *cpu, const struct psref_target *target)
{
	unsigned count = 0, number = cpu->info.ci_index;
	const struct reference *first = find_reference(cpu, target, NULL);
	if (first == NULL)
		return;
	for (uint32_t place = 0; place < cpu->room; place++)
		count += cpu->references[place].psref != NULL && cpu->references[place].target == target && cpu->references[place].thread == first->thread;
	if (count == 1)
		report(me, "waits for CPU %u, whose thread \"%s\" holds one reference, acquired%s", number, NAME_OF(first->thread), AT_PLACE(first->place));
	else
		report(me, "waits for CPU %u, whose thread \"%s\" holds %u references, one of them acquired%s", number, NAME_OF(first->thread), count,
		    AT_PLACE(first->place));
}
