/*
 * built - what the library says of its build: its version, and its limits, which are those that its
 * calls have
 *
 * kupaldiz_limits.h is made of the limits that the library was proved for. Here each of them is
 * met: what it allows is done, and one more is refused.
 */
#include "client.h"

static const struct kupaldiz_limits LIMITS = KUPALDIZ_LIMITS;
static const struct kupaldiz_settings SMALL = {1, 1, 1, 1, 1, 1};

static struct kupaldiz_keeper keeper;
static struct kupaldiz_cpu cpus[KUPALDIZ_MOST_CPUS];

/* The version is the header's, and the same string each time. */
static void test_version(void)
{
	char text[40];
	snprintf(text, sizeof text, "%d.%d.%d", KUPALDIZ_VERSION_MAJOR, KUPALDIZ_VERSION_MINOR,
	    KUPALDIZ_VERSION_PATCH);
	EXPECT(strcmp(kupaldiz_version(), text) == 0 && kupaldiz_version() == kupaldiz_version());
}

static void test_limits(void)
{
	struct kupaldiz_limits limits;
	memset(&limits, 0, sizeof limits);
	kupaldiz_limits(NULL);
	kupaldiz_limits(&limits);
	EXPECT(memcmp(&limits, &LIMITS, sizeof limits) == 0);
}

/* One more of any limit, and one less, is another build. */
static void test_comparison(void)
{
	DONE(KUPALDIZ_BUILT_FOR(&LIMITS));
	IS(NULL, KUPALDIZ_BUILT_FOR(NULL));
	for (size_t place = 0; place < 2 * sizeof LIMITS / sizeof(uint64_t); place++) {
		uint64_t words[sizeof LIMITS / sizeof(uint64_t)];
		struct kupaldiz_limits other;
		memcpy(words, &LIMITS, sizeof words);
		words[place / 2] += place % 2 == 0 ? 1 : UINT64_MAX;
		memcpy(&other, words, sizeof other);
		IS(OTHER_LIMITS, KUPALDIZ_BUILT_FOR(&other));
	}
}

static enum kupaldiz_result opened(const struct kupaldiz_settings *settings, size_t count)
{
	enum kupaldiz_result result = kupaldiz_open(settings, &keeper, cpus, count);
	if (result == KUPALDIZ_DONE)
		DONE(kupaldiz_close(&keeper, cpus, count));
	return result;
}

/* The setting at this place is at least 1 and at most so much. */
static void test_most(size_t place, uint64_t most)
{
	const uint64_t bad[] = {0, most + 1, UINT64_MAX};
	const size_t count = place == 0 ? (size_t)most : 1;
	uint64_t words[sizeof SMALL / sizeof(uint64_t)];
	struct kupaldiz_settings settings;
	memcpy(words, &SMALL, sizeof words);
	words[place] = most;
	memcpy(&settings, words, sizeof settings);
	DONE(opened(&settings, count));
	for (size_t i = 0; i < COUNT_OF(bad); i++) {
		words[place] = bad[i];
		memcpy(&settings, words, sizeof settings);
		IS(BAD_SETTINGS, opened(&settings, count));
		IS(BAD_SETTINGS, opened(&settings, 0));
	}
}

static void test_settings(void)
{
	static const uint64_t most[] = {KUPALDIZ_MOST_CPUS, KUPALDIZ_MOST_SLOTS,
	    KUPALDIZ_MOST_CHANGES, KUPALDIZ_MOST_SECTIONS, KUPALDIZ_MOST_COUNT,
	    KUPALDIZ_MOST_COUNT};
	const struct kupaldiz_settings many = {258, 4, 100, 100, 10, 10};
	const struct kupaldiz_settings largest =
	    KUPALDIZ_SETTINGS(KUPALDIZ_MOST_CPUS, KUPALDIZ_MOST_SLOTS);
	struct kupaldiz_settings told;
	for (size_t i = 0; i < COUNT_OF(most); i++)
		test_most(i, most[i]);
	IS(BAD_SETTINGS, opened(&many, 2));
	EXPECT(memcmp(&largest, most, sizeof largest) == 0);
	DONE(kupaldiz_open(&largest, &keeper, cpus, KUPALDIZ_MOST_CPUS));
	DONE(kupaldiz_settings_of(&keeper, &told));
	EXPECT(memcmp(&told, &largest, sizeof told) == 0);
	DONE(kupaldiz_close(&keeper, cpus, KUPALDIZ_MOST_CPUS));
}

/* The name is a macro: an argument may have commas in braces, and the address is a function's. */
static void test_forms(void)
{
	enum kupaldiz_result (*const open)(const struct kupaldiz_settings *,
	    struct kupaldiz_keeper *, struct kupaldiz_cpu *, size_t) = kupaldiz_open;
	IS(BAD_SETTINGS, kupaldiz_open(&(const struct kupaldiz_settings){.cpus = 0, .slots = 1},
	    &keeper, cpus, 0));
	IS(BAD_SETTINGS, open(&(const struct kupaldiz_settings){.cpus = 0, .slots = 1}, &keeper,
	    cpus, 0));
}

int main(void)
{
	test_version();
	test_limits();
	test_comparison();
	test_settings();
	test_forms();
	printf("version %s, built for %d CPUs and %d slots\n", kupaldiz_version(),
	    KUPALDIZ_MOST_CPUS, KUPALDIZ_MOST_SLOTS);
	return 0;
}
