/*
 * model SEED STEPS - random programs of several threads against a model of pserialize(9), psref(9) and localcount(9)
 *
 * The model counts beside the layer which sections are open, and how many references of each kind an object has, and says what must hold when a call
 * returns. An object's words are plain memory, so that the thread sanitizer, too, judges the order between the last use and the free.
 */
#include "test.h"
#include "random.h"
#include "things.h"

enum { THREADS = 10, OBJECTS = 6, MOST_HELD = 5, HANDED = 24, LIVE = 0x600d, FREED = 0xdead };

struct object {
	struct psref_target target;
	struct localcount count;
	unsigned state, place;			/* plain */
	atomic_int passive, local;		/* the model's counts: never more than the layer's */
};

/* A thread of the model. Its section counter is odd while a section is open. */
struct actor {
	unsigned number, sections_open;
	uint64_t random;
	atomic_uint section;
	struct psref held[MOST_HELD];
	struct object *of[MOST_HELD];
	bool by_copy[MOST_HELD];
};

static kmutex_t writer_lock;
static _Atomic(struct object *) objects[OBJECTS];
static atomic_bool entered[KUPALDIZ_CPUS];	/* a thread's section: no other one of this CPU is */
static struct actor actors[THREADS];
static _Atomic(struct object *) handed[HANDED];	/* local references on their way to whoever releases them */
static atomic_uint copies, interrupts;
static unsigned steps;
static void *cookies[SOFTINT_SERIAL + 1];

static unsigned below(struct actor *actor, unsigned bound) { return random_below(&actor->random, bound); }

static void judge(const struct object *object) { EXPECT(object->state == LIVE && object->place < OBJECTS); }

static int enter(struct actor *actor)
{
	int s = pserialize_read_enter();
	EXPECT((unsigned)s == actor->sections_open);
	if (actor->sections_open++ == 0) {
		atomic_fetch_add(&actor->section, 1);
		EXPECT(!atomic_exchange(&entered[cpu_number()], true));
	}
	return s;
}

static void leave(struct actor *actor, int s)
{
	if (--actor->sections_open == 0) {
		atomic_fetch_add(&actor->section, 1);
		EXPECT(atomic_exchange(&entered[cpu_number()], false));
	}
	pserialize_read_exit(s);
}

/* An object that is linked, met in the open section; NULL where there is none at its place. */
static struct object *meet(struct actor *actor)
{
	struct object *object = atomic_load_explicit(&objects[below(actor, OBJECTS)], memory_order_acquire);
	if (object != NULL)
		judge(object);
	return object;
}

/* A place of the actor's that is free, or is not. MOST_HELD where there is none. */
static unsigned find_place(struct actor *actor, bool taken)
{
	unsigned first = below(actor, MOST_HELD);
	for (unsigned turn = 0; turn < MOST_HELD; turn++)
		if ((actor->of[(first + turn) % MOST_HELD] != NULL) == taken)
			return (first + turn) % MOST_HELD;
	return MOST_HELD;
}

static void acquire(struct actor *actor)
{
	unsigned place = find_place(actor, false);
	if (place == MOST_HELD)
		return;
	int s = enter(actor), t = below(actor, 3) == 0 ? enter(actor) : -1;
	struct object *object = meet(actor);
	if (object != NULL) {
		psref_acquire(&actor->held[place], &object->target, things);
		atomic_fetch_add(&object->passive, 1);
		actor->of[place] = object;
	}
	if (t >= 0)
		leave(actor, t);
	leave(actor, s);
}

static void release(struct actor *actor)
{
	unsigned place = find_place(actor, true);
	if (place == MOST_HELD)
		return;
	struct object *object = actor->of[place];
	bool inside = below(actor, 2) == 0;
	int s = inside ? enter(actor) : -1;
	judge(object);
	EXPECT(psref_held(&object->target, things));
	atomic_fetch_sub(&object->passive, 1);
	psref_release(&actor->held[place], &object->target, things);
	EXPECT(actor->held[place].psref_target == NULL);
	actor->of[place] = NULL;
	if (!inside)
		return;
	/* Of what was unlinked before, the destroy waits for this section. */
	judge(object);
	leave(actor, s);
}

static void copy(struct actor *actor)
{
	unsigned from = find_place(actor, true), to = find_place(actor, false);
	if (from == MOST_HELD || to == MOST_HELD)
		return;
	psref_copy(&actor->held[to], &actor->held[from], things);
	actor->of[to] = actor->of[from];
	atomic_fetch_add(&actor->of[to]->passive, 1);
	atomic_fetch_add(&copies, 1);
	judge(actor->of[to]);
}

/* Acquires a local reference and hands it on; where somebody's was not taken yet, that one is released here. */
static void count_in(struct actor *actor)
{
	int s = enter(actor);
	struct object *object = meet(actor);
	if (object != NULL) {
		localcount_acquire(&object->count);
		atomic_fetch_add(&object->local, 1);
	}
	leave(actor, s);
	object = atomic_exchange(&handed[below(actor, HANDED)], object);
	if (object == NULL)
		return;
	judge(object);
	EXPECT(localcount_debug_refcnt(&object->count) > 0);
	atomic_fetch_sub(&object->local, 1);
	localcount_release(&object->count, &cv, &lock);
}

static void count_out(struct actor *actor)
{
	struct object *object = atomic_exchange(&handed[below(actor, HANDED)], NULL);
	if (object == NULL)
		return;
	judge(object);
	atomic_fetch_sub(&object->local, 1);
	localcount_release(&object->count, &cv, &lock);
}

static void read_for_a_while(struct actor *actor)
{
	int s = enter(actor);
	struct object *object = meet(actor);
	if (below(actor, 4) == 0)
		softint_schedule(cookies[below(actor, SOFTINT_SERIAL + 1)]);
	if (below(actor, 8) == 0)
		sleep_for(20);
	if (object != NULL)
		judge(object);
	leave(actor, s);
}

/* A soft interrupt is a reader of its own. It waits for a lock that others have. */
BODY(interrupt)
{
	struct psref psref;
	mutex_enter(&lock);
	mutex_exit(&lock);
	int s = pserialize_read_enter();
	EXPECT(s == 0);
	struct object *object = atomic_load_explicit(&objects[cpu_number() % OBJECTS], memory_order_acquire);
	if (object != NULL) {
		judge(object);
		psref_acquire(&psref, &object->target, things);
	}
	pserialize_read_exit(s);
	if (object != NULL) {
		judge(object);
		psref_release(&psref, &object->target, things);
	}
	atomic_fetch_add(&interrupts, 1);
}

static struct object *new_object(unsigned place)
{
	struct object *object = calloc(1, sizeof(*object));
	EXPECT(object != NULL);
	object->state = LIVE;
	object->place = place;
	psref_target_init(&object->target, things);
	localcount_init(&object->count);
	return object;
}

/* A perform, judged by the sections that were open as it began. */
static void perform(struct actor *actor)
{
	unsigned before[THREADS];
	for (unsigned i = 0; i < THREADS; i++)
		before[i] = atomic_load(&actors[i].section);
	pserialize_perform(psz);
	for (unsigned i = 0; i < THREADS; i++)
		EXPECT(&actors[i] == actor || before[i] % 2 == 0 || atomic_load(&actors[i].section) != before[i]);
}

/* Waits for both kinds of reference, in either order, and frees the object. */
static void end_object(struct actor *actor, struct object *object)
{
	bool drains_first = below(actor, 2) == 0;
	for (unsigned part = 0; part < 2; part++) {
		if ((part == 0) == drains_first) {
			drain(&object->count);
			localcount_fini(&object->count);
			EXPECT(atomic_load(&object->local) == 0);
		} else {
			psref_target_destroy(&object->target, things);
			EXPECT(atomic_load(&object->passive) == 0 && object->target.prt_class == NULL);
		}
	}
	object->state = FREED;
	free(object);
}

/* Gives up all that the actor itself has: else it would wait for itself. */
static void release_all(struct actor *actor)
{
	while (find_place(actor, true) != MOST_HELD)
		release(actor);
}

/* Lets go of what is on its way to an object: whoever would release it may be waiting. */
static void sweep(struct object *object)
{
	for (unsigned i = 0; i < HANDED; i++) {
		struct object *expected = object;
		if (!atomic_compare_exchange_strong(&handed[i], &expected, NULL))
			continue;
		atomic_fetch_sub(&object->local, 1);
		localcount_release(&object->count, &cv, &lock);
	}
}

static void replace(struct actor *actor)
{
	unsigned place = below(actor, OBJECTS);
	if (!mutex_tryenter(&writer_lock))
		return;
	release_all(actor);
	struct object *object = atomic_exchange(&objects[place], below(actor, 3) == 0 ? NULL : new_object(place));
	perform(actor);
	mutex_exit(&writer_lock);
	if (object == NULL)
		return;
	sweep(object);
	end_object(actor, object);
}

static void step(struct actor *actor)
{
	static void (*const deeds[])(struct actor *) = {acquire, acquire, release, release, copy, count_in, count_out, count_out, read_for_a_while};
	if (below(actor, 40) == 0)
		replace(actor);
	else
		deeds[below(actor, sizeof(deeds) / sizeof(deeds[0]))](actor);
}

/* Some actors stay bound, and some bind themselves again and again, where they hold nothing. */
static void *act(void *of)
{
	struct actor *actor = of;
	int bound = curlwp_bind();
	/* On a busy machine the others may begin late. */
	for (unsigned turn = 0; turn < steps || atomic_load(&copies) == 0 || atomic_load(&interrupts) == 0; turn++) {
		step(actor);
		if (actor->number % 2 == 0 && below(actor, 8) == 0) {
			release_all(actor);
			curlwp_bindx(bound);
			read_for_a_while(actor);
			bound = curlwp_bind();
		}
	}
	release_all(actor);
	curlwp_bindx(bound);
	return of;
}

/* What was handed on and not released yet is released; what is linked still is ended. */
static void end_all(struct actor *actor)
{
	for (unsigned i = 0; i < OBJECTS; i++) {
		struct object *object = atomic_exchange(&objects[i], NULL);
		if (object == NULL)
			continue;
		sweep(object);
		EXPECT(atomic_load(&object->local) == 0 && localcount_debug_refcnt(&object->count) == 0);
		perform(actor);
		end_object(actor, object);
	}
	for (unsigned i = 0; i < HANDED; i++)
		EXPECT(atomic_load(&handed[i]) == NULL);
}

static void begin(uint64_t seed)
{
	make_things(IPL_SOFTSERIAL);
	mutex_init(&writer_lock, MUTEX_DEFAULT, IPL_NONE);
	for (unsigned level = 0; level <= SOFTINT_SERIAL; level++)
		cookies[level] = softint_establish(level, interrupt, NULL);
	for (unsigned i = 0; i < OBJECTS; i++)
		atomic_store(&objects[i], new_object(i));
	for (unsigned i = 0; i < THREADS; i++) {
		actors[i].number = i;
		actors[i].random = random_of(seed, i);
	}
}

int main(int argc, char **argv)
{
	pthread_t threads[THREADS];
	uint64_t seed = argc == 3 ? strtoull(argv[1], NULL, 10) : 1;
	steps = argc == 3 ? (unsigned)strtoul(argv[2], NULL, 10) : 3000;
	begin(seed);
	for (unsigned i = 0; i < THREADS; i++)
		start_thread(&threads[i], act, &actors[i]);
	for (unsigned i = 0; i < THREADS; i++)
		end_thread(threads[i]);
	for (unsigned level = 0; level <= SOFTINT_SERIAL; level++)
		softint_disestablish(cookies[level]);
	end_all(&actors[0]);
	mutex_destroy(&writer_lock);
	end_things();
	printf("%u copies, %u soft interrupts: as the model says\n", atomic_load(&copies), atomic_load(&interrupts));
	return 0;
}
