/*
 * strings.c - kupaldiz_strerror, kupaldiz_version, kupaldiz_limits and the comparison of limits:
 * the constants of the library, in C
 *
 * Nothing here is proved. kupaldiz_limits.h is made of the limits that the archive is proved for,
 * and built.c compares both.
 */
#define KUPALDIZ_INNER
#include <string.h>

#include "kupaldiz.h"

/* What the header's comments say of each result: tools/call-headers.py makes the file of it. */
static const char *const TEXTS[] = {
#include "texts.h"
};

const char *kupaldiz_strerror(enum kupaldiz_result result)
{
	const unsigned number = (unsigned)result;
	const char *text = number < sizeof TEXTS / sizeof TEXTS[0] ? TEXTS[number] : NULL;
	return text != NULL ? text : "no call returns this";
}

#define TEXT_OF(number)			#number
#define TEXT_OF_ALL(major, minor, patch)	TEXT_OF(major) "." TEXT_OF(minor) "." TEXT_OF(patch)

static const struct kupaldiz_limits LIMITS = KUPALDIZ_LIMITS;

const char *kupaldiz_version(void)
{
	return TEXT_OF_ALL(KUPALDIZ_VERSION_MAJOR, KUPALDIZ_VERSION_MINOR, KUPALDIZ_VERSION_PATCH);
}

void kupaldiz_limits(struct kupaldiz_limits *limits)
{
	if (limits != NULL)
		*limits = LIMITS;
}

enum kupaldiz_result KUPALDIZ_BUILT_FOR(const struct kupaldiz_limits *limits)
{
	if (limits == NULL)
		return KUPALDIZ_NULL;
	const bool is_same = memcmp(limits, &LIMITS, sizeof LIMITS) == 0;
	return is_same ? KUPALDIZ_DONE : KUPALDIZ_OTHER_LIMITS;
}
