/*
 * pools SEED STEPS - random programs of several threads against a model of pool(9) and pool_cache(9)
 *
 * Each object that a thread has got has the thread's number in all its words until it is put. An object of a cache is constructed whenever it is got. The one
 * that is shown belongs to a cache of its own, with PR_PSERIALIZE, which ends again and again while readers look at the object.
 */
#include "test.h"
#include "asleep.h"
#include "random.h"
#include "things.h"

#include "src/layer.h"

enum { ACTORS = 6, MOST_HELD = 12, WORDS = 6, MADE = 0x600d, ENDED_ONCE = 0xdead };

struct object {
	unsigned made, words[WORDS];
};

struct actor {
	unsigned number;
	uint64_t random;
	struct object *of_pool[MOST_HELD], *of_cache[MOST_HELD];
	unsigned in_pool, in_cache;	/* how many it has */
};

static struct pool pool;
static pool_cache_t cache, shown_cache;
static _Atomic(struct object *) shown;
static atomic_uint made, ended, looks, renewals;
static kmutex_t renewing;
static struct actor actors[ACTORS];
static unsigned steps;

static int make(void *arg, void *object, int flags)
{
	(void)flags;
	EXPECT(arg == &made);
	((struct object *)object)->made = MADE;
	atomic_fetch_add(&made, 1);
	return 0;
}

static void end(void *arg, void *object)
{
	EXPECT(arg == &made && ((struct object *)object)->made == MADE);
	((struct object *)object)->made = ENDED_ONCE;
	atomic_fetch_add(&ended, 1);
}

static pool_cache_t new_cache(int flags)
{
	return pool_cache_init(sizeof(struct object), 0, 0, (unsigned)flags, "modelpl", NULL, IPL_NONE, make, end, &made);
}

static void stamp(struct object *object, unsigned number)
{
	for (unsigned word = 0; word < WORDS; word++)
		object->words[word] = number;
}

static void judge(const struct object *object, unsigned number)
{
	for (unsigned word = 0; word < WORDS; word++)
		EXPECT(object->words[word] == number);
}

static void get_of_pool(struct actor *actor)
{
	if (actor->in_pool == MOST_HELD)
		return;
	struct object *object = pool_get(&pool, random_below(&actor->random, 2) == 0 ? PR_WAITOK : PR_NOWAIT | PR_ZERO);
	EXPECT(object != NULL);
	stamp(object, actor->number);
	actor->of_pool[actor->in_pool++] = object;
}

static void put_to_pool(struct actor *actor)
{
	if (actor->in_pool == 0)
		return;
	judge(actor->of_pool[--actor->in_pool], actor->number);
	pool_put(&pool, actor->of_pool[actor->in_pool]);
}

static void get_of_cache(struct actor *actor)
{
	if (actor->in_cache == MOST_HELD)
		return;
	struct object *object = pool_cache_get(cache, PR_WAITOK);
	EXPECT(object != NULL && object->made == MADE);
	stamp(object, actor->number);
	actor->of_cache[actor->in_cache++] = object;
}

static void put_to_cache(struct actor *actor)
{
	if (actor->in_cache == 0)
		return;
	judge(actor->of_cache[--actor->in_cache], actor->number);
	pool_cache_put(cache, actor->of_cache[actor->in_cache]);
}

/* What is met in a section stays constructed until its end. */
static void look(struct actor *actor)
{
	int s = pserialize_read_enter();
	const struct object *object = atomic_load(&shown);
	EXPECT(object == NULL || object->made == MADE);
	if (random_below(&actor->random, 32) == 0)
		sched_yield();
	EXPECT(object == NULL || object->made == MADE);
	pserialize_read_exit(s);
	atomic_fetch_add(&looks, object != NULL);
}

static void show(void)
{
	shown_cache = new_cache(PR_PSERIALIZE);
	atomic_store(&shown, pool_cache_get(shown_cache, PR_WAITOK));
}

static void hide(void)
{
	pool_cache_put(shown_cache, atomic_exchange(&shown, NULL));
	pool_cache_destroy(shown_cache);
}

/* The cache of what is shown ends, and another one begins. Mostly one is shown. */
static void renew(struct actor *actor)
{
	if (random_below(&actor->random, 16) != 0 || !mutex_tryenter(&renewing))
		return;
	hide();
	show();
	mutex_exit(&renewing);
	atomic_fetch_add(&renewals, 1);
}

static void *act(void *of)
{
	static void (*const deeds[])(struct actor *) = {get_of_pool, put_to_pool, get_of_cache, put_to_cache, look, look, renew};
	struct actor *actor = of;
	for (unsigned turn = 0; turn < steps || atomic_load(&looks) == 0 || atomic_load(&renewals) == 0; turn++)
		deeds[random_below(&actor->random, sizeof(deeds) / sizeof(deeds[0]))](actor);
	while (actor->in_pool > 0)
		put_to_pool(actor);
	while (actor->in_cache > 0)
		put_to_cache(actor);
	return of;
}

static void test_random(uint64_t seed)
{
	pthread_t threads[ACTORS];
	pool_init(&pool, sizeof(struct object), 0, 0, 0, "modelpl", NULL, IPL_NONE);
	cache = new_cache(0);
	show();
	for (unsigned i = 0; i < ACTORS; i++) {
		actors[i].number = i + 1;
		actors[i].random = random_of(seed, i);
		start_thread(&threads[i], act, &actors[i]);
	}
	for (unsigned i = 0; i < ACTORS; i++)
		end_thread(threads[i]);
	hide();
	pool_cache_destroy(cache);
	pool_destroy(&pool);
	EXPECT(atomic_load(&made) == atomic_load(&ended));
}

static atomic_int destroyer;
static atomic_bool over;

static void *hide_beside(void *arg)
{
	EXPECT(curlwp == &kupaldiz_self->lwp);
	atomic_store(&destroyer, kupaldiz_self->id);
	hide();
	atomic_store(&over, true);
	return arg;
}

/* The end of a cache waits for a reader who still looks at its object. */
static void test_waited_for(void)
{
	pthread_t thread;
	show();
	int s = pserialize_read_enter();
	const struct object *object = atomic_load(&shown);
	start_thread(&thread, hide_beside, NULL);
	await_asleep(&destroyer, &over);
	EXPECT(!atomic_load(&over) && object->made == MADE);
	pserialize_read_exit(s);
	end_thread(thread);
}

int main(int argc, char **argv)
{
	uint64_t seed = argc == 3 ? strtoull(argv[1], NULL, 10) : 1;
	steps = argc == 3 ? (unsigned)strtoul(argv[2], NULL, 10) : 2000;
	make_things(IPL_NONE);
	mutex_init(&renewing, MUTEX_DEFAULT, IPL_NONE);
	test_waited_for();
	test_random(seed);
	mutex_destroy(&renewing);
	end_things();
	printf("%u looks, %u renewals: as the model says\n", atomic_load(&looks), atomic_load(&renewals));
	return 0;
}
