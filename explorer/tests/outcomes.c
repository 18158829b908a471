/*
 * outcomes - small programs come to the same outcomes, and to the same faults, with the reduction and without
 *
 * A program is a text for each thread, and each letter of it is a thing to do. Some programs are written here, others are made by a random generator.
 *
 *     outcomes [FIRST COUNT]        the random programs with these seeds
 *     outcomes for SECONDS FIRST    short ones, from this seed on, as many as there is time for
 *     outcomes reduced FIRST COUNT  what the search with the reduction comes to, for a comparison with a reduction that has a fault
 *     outcomes print FIRST COUNT    the same of those that real threads may be compared with; of these the ones with a 1 in their place in OUTCOMES_OF, if that
 *                                   is in the environment
 */
#include "deeds.h"

enum { MOST = 4, LONGEST = 16 };

static char texts[MOST][LONGEST];

static unsigned plains[2];	/* by plain ones */
static bool racy;		/* a data race is no fault, and what it decides is an outcome */
static bool reduced_alone;	/* shows what it comes to, instead of comparing that */
static bool prints;		/* the same, for real threads */
static kmutex_t *shared;
static bool has_rw[MOST];
static void *own_softints[MOST];
static unsigned *blocks[MOST];
static struct pool pool;
static void *pooled;
static struct work *work;
static char seen[MOST][LONGEST + 1];
static unsigned count[MOST];

UNSEEN static void observe(unsigned thread, unsigned value)
{
	if (count[thread] < LONGEST)
		seen[thread][count[thread]++] = (char)(value == 0 ? '-' : 'a' + (value - 1) % 26);
}

static unsigned load_plainly(unsigned at)
{
	return plains[at];
}

static void store(unsigned at, unsigned value)
{
	plains[at] = value;
}

static void store_both(unsigned value)
{
	memset(plains, (int)value, sizeof(plains));
}

HANDLER(count_plainly, plains[0]++)
HANDLER(handle, atomic_store_relaxed(&words[1], 26))
HANDLER(lock_and_store, atomic_store_relaxed(&words[0], 23); mutex_enter(&locks[0]); atomic_store_relaxed(&words[1], 22); mutex_exit(&locks[0]))
HANDLER(ring, atomic_store_relaxed(&words[0], 25))

enum { STORES, COUNTS, LOCKS, SOFTINTS };
static struct {
	const char *letters;
	void (*handler)(void *);
	void *cookie;
} softints[SOFTINTS] = {[STORES] = {"ih", handle, NULL}, [COUNTS] = {"p:", count_plainly, NULL}, [LOCKS] = {"m", lock_and_store, NULL}};

UNSEEN static void change_block(void *arg)
{
	unsigned thread = (unsigned)((char(*)[LONGEST])arg - texts);
	atomic_store_relaxed(&words[0], atomic_inc_uint_nv(blocks[thread]) + 4 * thread);
}

/* Whether the program does one of these things: what it doesn't need isn't made. */
static bool uses(const char *letters)
{
	for (unsigned at = 0; at < MOST; at++)
		if (strpbrk(texts[at], letters) != NULL)
			return true;
	return false;
}

/* Ends the thread's own soft interrupt: with `frees`, what its handler uses is freed first. */
UNSEEN static void end_softint(unsigned thread, bool frees)
{
	if (own_softints[thread] == NULL)
		return;
	if (frees)
		kmem_free(blocks[thread], sizeof(unsigned));
	softint_disestablish(own_softints[thread]);
	if (!frees)
		kmem_free(blocks[thread], sizeof(unsigned));
	own_softints[thread] = NULL;
}

static void drain(void)
{
	mutex_enter(&locks[1]);
	atomic_store_release(&drained, true);
	pserialize_perform(psz);
	localcount_drain(&local, &cv, &locks[1]);
	mutex_exit(&locks[1]);
	localcount_fini(&local);
}

HANDLER(store_and_exit, atomic_store_relaxed(&words[1], 24); *(unsigned *)arg = cpu_number() + 1; kthread_exit(0))

/* Has a thread that it makes store a word, looks at another word meanwhile, and waits for its end. */
static void make_thread(unsigned thread, struct cpu_info *on)
{
	lwp_t *made;
	unsigned cpu;
	EXPECT(kthread_create(PRI_NONE, KTHREAD_MUSTJOIN, on, store_and_exit, &cpu, &made, "worker") == 0);
	observe(thread, atomic_load_relaxed(&words[0]));
	kthread_join(made);
	observe(thread, cpu);
}

/* Acquires a reference twice, as if the target were never gone. */
static void use_rashly(void)
{
	struct psref one, two;
	int bound = curlwp_bind();
	psref_acquire(&one, &target, things);
	psref_copy(&two, &one, things);
	psref_release(&one, &target, things);
	psref_release(&two, &target, things);
	curlwp_bindx(bound);
}

static void ask_held(unsigned thread)
{
	int bound = curlwp_bind();
	observe(thread, psref_held(&target, things));
	curlwp_bindx(bound);
}

static void bind_anywhere(unsigned thread)
{
	int bound = curlwp_bind();
	observe(thread, cpu_number() + 1);
	observe(thread, atomic_load_relaxed(&words[1]));
	curlwp_bindx(bound);
}

static void store_value(void *value, void *other)
{
	(void)other;
	atomic_store_relaxed(&words[0], *(const unsigned *)value);
}

static void look_at(void *own, void *arg, struct cpu_info *cpu)
{
	(void)own;
	(void)arg;
	(void)cpu;
}

static void tell_cpu(struct work *done, void *cpu)
{
	(void)done;
	*(unsigned *)cpu = cpu_number() + 1;
}

/* Has a queue of its own do a work, on the CPU of the queue's thread. */
static void make_own_queue(unsigned thread)
{
	struct workqueue *own;
	struct work once;
	unsigned cpu = 0;
	EXPECT(workqueue_create(&own, "own", tell_cpu, &cpu, PRI_NONE, IPL_NONE, WQ_MPSAFE) == 0);
	workqueue_enqueue(own, &once, NULL);
	workqueue_wait(own, &once);
	workqueue_destroy(own);
	observe(thread, cpu);
}

UNSEEN static void use_cache(unsigned thread)
{
	unsigned *object = pool_cache_get(cache, PR_WAITOK);
	observe(thread, *object);
	pool_cache_put(cache, object);
}

static void try_spin(unsigned thread)
{
	int got = mutex_tryenter(&spin);
	observe(thread, (unsigned)got);
	if (got)
		mutex_exit(&spin);
}

UNSEEN static void execute(unsigned thread, char letter, unsigned value)
{
	switch (letter) {
	case 'a': observe(thread, atomic_load_relaxed(&words[0])); break;
	case 'b': observe(thread, atomic_load_relaxed(&words[1])); break;
	case 'A': atomic_store_relaxed(&words[0], value); break;
	case 'B': atomic_store_relaxed(&words[1], value); break;
	case '+': observe(thread, atomic_inc_uint_nv(&words[0])); break;
	case '(': mutex_enter(&locks[0]); break;
	case ')': if (mutex_owned(&locks[0])) mutex_exit(&locks[0]); break;
	case '[': mutex_enter(&locks[1]); break;
	case ']': mutex_exit(&locks[1]); break;
	case 't': observe(thread, (unsigned)mutex_tryenter(&locks[0])); break;
	case '<': (void)pserialize_read_enter(); break;
	case '>': pserialize_read_exit(0); break;
	case 'P': pserialize_perform(psz); break;
	case 'w': await_flag(thread); break;
	case 's': set_flag(thread); break;
	case 'r': case 'W': rw_enter(&rw, letter == 'r' ? RW_READER : RW_WRITER); has_rw[thread] = true; break;
	case '|': if (has_rw[thread]) rw_exit(&rw); break;
	case 'g': refer(thread); break;
	case 'D': atomic_store_release(&gone, true); pserialize_perform(psz); psref_target_destroy(&target, things); break;
	case 'h': case ':': case 'I': break;
	case '9': try_spin(thread); break;
	case 'i': softint_schedule(softints[STORES].cookie); break;
	case 'o': callout_reset(&callout, 1, ring, NULL); break;
	case 'O': (void)callout_halt(&callout, NULL); break;
	case 'c': kupaldiz_bind(0); break;
	case 'k': (void)kpause("outcomes", false, 1, NULL); break;
	case 'K': (void)kpause("outcomes", false, 2, NULL); break;
	case 'd': delay(10000); break;
	case 'm': softint_schedule(softints[LOCKS].cookie); break;
	case 'v': observe(thread, (unsigned)getticks()); break;
	case 'T': await_flag_for_a_tick(thread); break;
	case 'S': cv_signal(&cv); break;
	case 'j': if (own_softints[thread] != NULL) softint_schedule(own_softints[thread]); break;
	case 'e': end_softint(thread, false); break;
	case 'f': end_softint(thread, true); break;
	case 'l': (void)splnet(); break;
	case 'L': splx(IPL_NONE); break;
	case 'x': observe(thread, load_plainly(0)); break;
	case 'y': observe(thread, load_plainly(1)); break;
	case 'X': store(0, value); break;
	case 'Y': store(1, value); break;
	case '#': count_plainly(NULL); break;
	case 'z': store_both(value); break;
	case 'p': softint_schedule(softints[COUNTS].cookie); break;
	case '{': mutex_enter(&spin); break;
	case '}': mutex_exit(&spin); break;
	case 'n': make_thread(thread, NULL); break;
	case '.': make_thread(thread, kupaldiz_cpu(0)); break;
	case 'q': count_in(thread); break;
	case 'Q': drain(); break;
	case 'u': mutex_enter(&locks[0]); cv_wait(&cv, &locks[0]); mutex_exit(&locks[0]); break;
	case 'N': observe(thread, cv_has_waiters(&cv)); break;
	case 'V': observe(thread, cv_is_valid(&cv)); break;
	case 'C': cv_destroy(&cv); break;
	case 'M': mutex_destroy(&locks[1]); break;
	case 'H': mutex_obj_hold(shared); break;
	case 'F': observe(thread, mutex_obj_free(shared)); break;
	case 'R': case 'J': observe(thread, has_rw[thread] = rw_tryenter(&rw, letter == 'R' ? RW_READER : RW_WRITER)); break;
	case 'U': observe(thread, (unsigned)rw_tryupgrade(&rw)); break;
	case 'E': rw_downgrade(&rw); break;
	case 'G': observe(thread, (unsigned)rw_read_held(&rw)); break;
	case '!': observe(thread, (unsigned)rw_lock_held(&rw)); break;
	case '-': rw_destroy(&rw); break;
	case '^': softint_disestablish(softints[STORES].cookie); softints[STORES].cookie = NULL; break;
	case 'Z': pserialize_destroy(psz); break;
	case '0': psref_class_destroy(things); break;
	case '1': psref_target_init(&target, things); break;
	case '2': use_rashly(); break;
	case '3': ask_held(thread); break;
	case '4': localcount_init(&local); break;
	case '5': localcount_acquire(&local); break;
	case '6': mutex_enter(&locks[1]); localcount_drain(&local, &cv, &locks[1]); mutex_exit(&locks[1]); break;
	case '7': localcount_fini(&local); break;
	case '8': observe(thread, localcount_debug_refcnt(&local)); break;
	case '%': localcount_release(&local, &cv, &locks[1]); break;
	case '&': bind_anywhere(thread); break;
	case '=': kupaldiz_unbind(); break;
	case '~': xc_wait(xc_unicast(0, store_value, &value, NULL, kupaldiz_cpu(0))); break;
	case '?': pool_put(&pool, pooled); break;
	case '*': pool_destroy(&pool); break;
	case '/': use_cache(thread); break;
	case '_': pool_cache_destroy(cache); break;
	case ';': (void)percpu_getref(percpu); percpu_putref(percpu); break;
	case '\'': percpu_foreach(percpu, look_at, NULL); break;
	case '`': make_own_queue(thread); break;
	case '"': percpu_free(percpu, sizeof(unsigned)); break;
	case '@': workqueue_enqueue(queue, work, NULL); break;
	case '$': kmem_free(work, sizeof(*work)); break;
	case ',': workqueue_wait(queue, work); break;
	default: EXPECT(letter == '\0');
	}
}

UNSEEN static void run_text(void *arg)
{
	const char *text = arg;
	unsigned thread = (unsigned)((char(*)[LONGEST])arg - texts);
	for (unsigned at = 0; text[at] != '\0'; at++)
		execute(thread, text[at], thread * 8 + at + 1);
}

#define PLAINLY		"xyXYz#p"
#define NOT_BESIDE	PLAINLY "vn.&`"	/* a processor reorders plain accesses; real time is another one, and a thread's CPU */

/* ---- What programs work on: what one doesn't need isn't made. ---- */

static struct thing {
	const char *letters, *maker, *ender;
	void (*make)(void), (*end)(void);
} all_things[24];
static unsigned thing_count;

/* Programs with these letters work on it, and one with a letter of the next two makes or ends it itself. */
#define THING(name, letters, maker, ender, made, ended) \
	static void make_##name(void) { made; } \
	static void end_##name(void) { ended; } \
	__attribute__((constructor)) static void add_##name(void) \
	{ \
		all_things[thing_count++] = (struct thing){letters, maker, ender, make_##name, end_##name}; \
	}

static void do_work(struct work *done, void *arg) { (void)done; (void)arg; atomic_store_relaxed(&words[0], 21); }

static void make_softints(void)
{
	for (unsigned at = 0; at < SOFTINTS; at++)
		if (uses(softints[at].letters))
			softints[at].cookie = softint_establish(SOFTINT_NET | SOFTINT_MPSAFE, softints[at].handler, NULL);
}

static void end_softints(void)
{
	for (unsigned at = 0; at < SOFTINTS; at++)
		if (softints[at].cookie != NULL)
			softint_disestablish(softints[at].cookie);
}

THING(lock, "()[]twsTSqQmuM56%", "", "", mutex_init(&locks[0], MUTEX_DEFAULT, IPL_SOFTNET), mutex_destroy(&locks[0]))
THING(other_lock, "()[]twsTSqQmuM56%", "", "M", mutex_init(&locks[1], MUTEX_DEFAULT, IPL_SOFTNET), mutex_destroy(&locks[1]))
THING(shared, "HF", "", "", shared = mutex_obj_alloc(MUTEX_DEFAULT, IPL_NONE), (void)0)
THING(held, "I", "", "", mutex_obj_hold(shared), (void)0)
THING(spin, "{}9", "", "", mutex_init(&spin, MUTEX_SPIN, IPL_SOFTNET), mutex_destroy(&spin))
THING(rw, "rWRJUEG!-", "", "-", rw_init(&rw), rw_destroy(&rw))
THING(cv, "wsTSqQuNVC56%", "", "C", cv_init(&cv, "flag"), cv_destroy(&cv))
THING(psz, "<>PgDqQZ58", "", "Z", psz = pserialize_create(), pserialize_destroy(psz))
THING(class, "gD0123", "", "0", things = psref_class_create("thing", IPL_SOFTNET), psref_class_destroy(things))
THING(target_left, "gD0123", "1", "0", psref_target_init(&target, things), if (!gone) psref_target_destroy(&target, things))
THING(all_softints, "ihpm:", "", "", make_softints(), end_softints())
/* A soft interrupt waits on CPU 0 from the beginning, and its thread is made before the others. */
THING(early, "h", "", "", kupaldiz_bind(0); softint_schedule(softints[STORES].cookie); kupaldiz_unbind(), (void)0)
/* The same of one whose handler is one step. */
THING(early_count, ":", "", "", kupaldiz_bind(0); softint_schedule(softints[COUNTS].cookie); kupaldiz_unbind(), (void)0)
THING(callout, "oO", "", "", callout_init(&callout, 0), (void)callout_halt(&callout, NULL); callout_destroy(&callout))
THING(local, "qQ5678%", "4", "67", localcount_init(&local), if (!drained) drain())
THING(pool, "?*", "", "", pool_init(&pool, 8, 0, 0, 0, "pool", NULL, IPL_NONE); pooled = pool_get(&pool, PR_WAITOK), (void)0)
THING(cache, "/_", "", "_", cache = pool_cache_init(sizeof(unsigned), 0, 0, 0, "cache", NULL, IPL_NONE, number_object, NULL, NULL), pool_cache_destroy(cache))
THING(parts, "';\"", "", "", percpu = percpu_alloc(sizeof(unsigned)), (void)0)
THING(queue, "@$,", "", "", work = kmem_zalloc(sizeof(*work), KM_SLEEP);
    EXPECT(workqueue_create(&queue, "queue", do_work, NULL, PRI_NONE, IPL_NONE, WQ_MPSAFE) == 0), workqueue_destroy(queue))

static void begin(void)
{
	static const char *const names[] = {"one", "two", "three", "four"};
	for (const struct thing *it = all_things; it < &all_things[thing_count]; it++)
		if (uses(it->letters) && !uses(it->maker))
			it->make();
	for (unsigned at = 0; at < MOST; at++) {
		if (strpbrk(texts[at], "jef") != NULL) {
			blocks[at] = kmem_zalloc(sizeof(unsigned), KM_SLEEP);
			own_softints[at] = softint_establish(SOFTINT_NET | SOFTINT_MPSAFE, change_block, texts[at]);
		}
		if (texts[at][0] != '\0')
			explorer_thread(names[at], run_text, texts[at]);
	}
}

static void finish(void)
{
	for (unsigned at = 0; at < MOST; at++)
		explorer_outcome("%s,", seen[at]);
	for (unsigned at = 0; at < MOST; at++)
		end_softint(at, false);
	/* A soft interrupt of real threads may run later. */
	if (!prints || !uses("iohjm"))
		explorer_outcome("%u %u %u %u", words[0], words[1], plains[0], plains[1]);
	for (const struct thing *it = &all_things[thing_count]; it-- > all_things;)
		if (uses(it->letters) && !uses(it->ender))
			it->end();
}

/* A program that has more schedules without the reduction is too long. */
static uint64_t most_schedules = 15000;
static unsigned ticks = 1;	/* how often the clock may jump */

static struct explorer_found explore(bool whole)
{
	struct explorer_found found;
	/* A real thread may be late by several ticks on a busy machine. */
	const struct explorer_options options = {.quiet = true, .whole = whole, .reliable = true, .schedules = most_schedules, .finish = finish,
	    .found = &found, .bounded = 1, .preemptions = 1, .random = 1, .racy = racy, .ticks = prints ? 3 : ticks};
	explorer_run(begin, &options);
	return found;
}

static void show(const struct explorer_found *found, const char *which)
{
	printf("%s: %llu schedules, %u outcomes, %s%s\n", which, (unsigned long long)(found->schedules + found->cut), found->outcomes, found->line,
	    is_tried(found) || found->states == 0 ? "" : " (not tried)");
	for (unsigned at = 0; at < found->outcomes; at++)
		printf("    %s\n", found->outcome[at].text);
}

/* Whether the reduced search has found a fault where the other one has, else each outcome of that one; and nothing more, if that one has tried all. */
static bool agree(const struct explorer_found *whole, const struct explorer_found *reduced)
{
	if (whole->first != 0 || reduced->first != 0)
		return reduced->first != 0 && (whole->first != 0 || !is_tried(whole));
	for (unsigned at = 0; at < whole->outcomes; at++)
		if (!has_outcome(reduced, whole->outcome[at].text))
			return false;
	return is_tried(reduced) && (!is_tried(whole) || whole->outcomes == reduced->outcomes);
}

static unsigned long long wholes, reduceds;
static unsigned compared, faults, begun, skipped;

static void show_program(const char *head)
{
	printf("%s%s, ticks %u: %s | %s | %s | %s\n", head, racy ? ", racy" : "", ticks, texts[0], texts[1], texts[2], texts[3]);
}

/* Whether the next program is one that OUTCOMES_OF asks for. */
static bool is_asked_for(void)
{
	static size_t place;
	const char *of = getenv("OUTCOMES_OF");
	return of == NULL || (place < strlen(of) && of[place++] == '1');
}

static void compare(void)
{
	if (prints && (uses(NOT_BESIDE) || !is_asked_for()))
		return;
	if (reduced_alone || prints) {
		struct explorer_found found = explore(false);
		show_program("program");
		show(&found, "reduced");
		return;
	}
	struct explorer_found whole = explore(true), reduced = explore(false);
	bool all = is_tried(&whole) || whole.first != 0;
	if (whole.others > 0 || (!all && !is_tried(&reduced) && reduced.first == 0)) {
		skipped++;
		return;
	}
	*(all ? &compared : &begun) += 1;
	faults += whole.first != 0;
	wholes += whole.schedules;
	reduceds += reduced.schedules + reduced.cut;
	if (agree(&whole, &reduced))
		return;
	show_program("different");
	show(&whole, "whole");
	show(&reduced, "reduced");
	exit(1);
}

/* ---- Random programs: balanced in their locks and sections. ---- */

static unsigned seconds;	/* for short programs */

static void add(char *text, const char *more)
{
	size_t length = strlen(text);
	snprintf(text + length, LONGEST - length, "%s", more);
}

static void make_text(char *text, unsigned parts)
{
	static const char *const pieces[] = {"a", "b", "A", "B", "+", "(a)", "[A]", "([B])", "t)", "<a>", "<ab>", "P", "(A)", "ra|", "WA|", "AB", "ba", "s", "w", "g", "i",
	    "k", "o", "oO", "<iab>", "<iA>", "<ib>", "T", "TS", "S", "j", "je", "jAe", "jf", "lAL", "lAjL", "q",
	    "q", "(S)", "kA", "x", "X", "xy", "Y", "z", "(x)", "(X)", "[Y]", "#", "({#})", "{x}", "<y>", "lXL", "lpyL", "p", "n", "B(t)", "v", "vS", "K", "d", "kv", "m", "(m)",
	    "R|", "J|", "rU|", "WEa|", "G!", "N", "&", "~", "/", ";"};
	for (unsigned at = 0; at < parts; at++)
		add(text, pieces[pick(sizeof(pieces) / sizeof(pieces[0]))]);
}

static unsigned points_of(const char *text)
{
	unsigned points = 0;
	for (; *text != '\0'; text++)
		points += strchr("gqDQ~", *text) != NULL ? 6 : strchr("wsTjfeoOnphm/", *text) != NULL ? 3 : *text != 'c';
	return points;
}

/* Whether the program of so many threads may have few enough orders. */
static bool is_short(unsigned threads)
{
	unsigned points[MOST];
	for (unsigned thread = 0; thread < threads; thread++)
		points[thread] = points_of(texts[thread]);
	return 4 * orders_of(points, threads) < (double)most_schedules;
}

static void compare_random(uint64_t of)
{
	seed = of * 2654435761u + 7;
	memset(texts, 0, sizeof(texts));
	unsigned threads = 2 + pick(2), parts = seconds > 0 ? 1 : 2;
	bool one_cpu = pick(3) == 0, early = pick(3) == 0;
	for (unsigned thread = 0; thread < threads; thread++) {
		if (one_cpu)
			add(texts[thread], early && thread == 0 ? "hc" : "c");
		make_text(texts[thread], threads == 2 ? parts + pick(2) : 1 + pick(parts));
	}
	if (pick(4) == 0)
		add(texts[threads - 1], pick(2) == 0 ? "D" : "Q");
	racy = pick(4) > 0;
	ticks = 1 + pick(4) / 3;
	if (seconds == 0 || is_short(threads))
		compare();
}

/* The programs that are written here: the texts of up to three threads. */
static const char *const written[][3] = {
	{"Ab", "Ba"}, {"A", "A", "a"}, {"(a)(A)", "(a)(A)"}, {"([A])", "[(A)]"}, {"<ab>", "APB"}, {"<a><b>", "AP", "BP"}, {"w", "s"}, {"w", "w", "s"},
	{"w", "a", "b"}, {"(t)", "(a)"}, {"ia", "b", "A"}, {"<iab>", "A"}, {"<iB>b", "b"}, {"g", "D"}, {"gA", "D"}, {"g", "g", "D"}, {"ra|", "WA|", "ra|"},
	{"ka", "A"}, {"kA", "ka"}, {"oa", "a"}, {"o", "<a>O"}, {"oOa", "A"}, {"c<a>A", "c<aA>"}, {"c<ab>i", "cA", "B"}, {"c(a)", "c<A>", "(a)"}, {"T", "s"},
	{"T", "S", "s"}, {"T", "T", "S"}, {"T", "vS"}, {"je", "a"}, {"jf", "a"}, {"jAe", "ab"}, {"cjlAALe", "a"}, {"cjlALb", "cA", "oO"}, {"q", "Q"},
	{"q", "q", "Q"}, {"T", "jS", "k"}, {"ba", "je"}, {"TST", "S(A)", "AB"}, {"s", "TS", "T"}, {"lAjL", "jf"}, {"#", "#"}, {"xY", "yX"}, {"(X)", "[x]"},
	{"(#)", "(#)", "(x)"}, {"X(A)", "(a)x"}, {"X{a}", "{A}Y", "y"}, {"{#}", "c{p}"}, {"clpxL", "x"}, {"n", "Ba"}, {"nx", "Xb"}, {"A(a)", "ko"}, {"o"},
	{"z", "y"}, {"Ab", "aB", "ab"}, {"t)", "[A](a)"}, {"hc<b>"}, {"T", "oaS"}, {"cai", "cb<A>"}, {"kv", "kv"}, {"hc<bb>", "B"}, {"cm", "()", "c<ab>"},
	{"K", "dv", "k"}, {"ckj", "cj"},
	{"[]", "M"}, {"HF", "F"}, {"F", "IF"}, {"V", "C"}, {"u", "S"}, {"u", "NS"}, {"T", "NN"}, {"TS", "N"},
	{"R|", "WA|"}, {"rU|", "ra|"}, {"rU|", "R|"}, {"WEa|", "ra|"}, {"WEa|", "R|"}, {"G", "ra|"}, {"!", "ra|"}, {"!", "WA|"},
	{"ra|", "-"}, {"P", "Z"}, {"D", "0"}, {"1", "2"}, {"2", "D"}, {"3", "D"}, {"c2", "c33"}, {"4", "5%"},
	{"6", "7"}, {"8", "6"}, {"5A%", "8a"}, {"b&", "bcb"}, {"b&", "bcb=b"}, {"&", "c=&"}, {"'", "\""},
	{"b`", "b`"}, {"ib", "^"}, {"J|", "J|"}, {"rU|", "!G!"}, {"WEa|", "!G!"}, {"bn", "bi"}, {"cjAe", "cm", "k"},
	{"bn", "bn"}, {"b&", "b."}, {"~", "~"}, {"~a", "A"}, {"?", "*"}, {"/", "/"}, {"/", "//"}, {"/", "_"},
	{";", "\""}, {"@", "$"}, {"5a%", "c<>A"}, {"c<A>", "c9a"}, {":c<x>"}, {":c<x>", "c<>"},
};

static void compare_written(void)
{
	for (unsigned row = 0; row < sizeof(written) / sizeof(written[0]); row++) {
		for (unsigned thread = 0; thread < 3; thread++)
			snprintf(texts[thread], LONGEST, "%s", written[row][thread] == NULL ? "" : written[row][thread]);
		racy = false;
		compare();
		racy = uses(PLAINLY);
		if (racy)
			compare();
	}
}

int main(int count_of_words, char **given)
{
	const char *how = count_of_words == 4 ? given[1] : "";
	uint64_t first = count_of_words >= 3 ? strtoull(given[count_of_words - 2], NULL, 10) : 1;
	uint64_t number = count_of_words >= 3 ? strtoull(given[count_of_words - 1], NULL, 10) : 60;
	prints = strcmp(how, "print") == 0;
	reduced_alone = strcmp(how, "reduced") == 0;
	if (strcmp(how, "for") == 0) {
		seconds = (unsigned)first;
		first = number;
		number = UINT64_MAX;
		most_schedules = 150;
	}
	compare_written();
	for (time_t end = now() + seconds; number > 0 && (seconds == 0 || now() < end); number--)
		compare_random(first++);
	if (prints || reduced_alone)
		return 0;
	EXPECT(2 * faults < compared);
	if (seconds > 0)
		printf("in %u seconds ", seconds);
	printf("%u programs have the same outcomes by %llu schedules as by %llu; %u of them a fault; of %u others a part was compared; %u were too long\n",
	    compared, reduceds, wholes, faults, begun, skipped);
	return 0;
}
