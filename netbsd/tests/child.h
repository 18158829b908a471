/* child.h - a process of its own, and what it says: the places in such a text are hidden, as a change of a test moves them */
#ifndef NETBSD_CHILD_H
#define NETBSD_CHILD_H

#include <ctype.h>
#include <string.h>

#include "../../c/tests/child.h"

/* Writes PLACE for each word in which ".c:" and digits stand. */
static inline void hide_places(char *text)
{
	char *colon;
	while ((colon = strstr(text, ".c:")) != NULL && isdigit((unsigned char)colon[3])) {
		char *from = colon, *to = colon + 3;
		while (from > text && from[-1] != ' ' && from[-1] != '\n')
			from--;
		while (isdigit((unsigned char)*to))
			to++;
		EXPECT(to - from >= 5);
		memcpy(from, "PLACE", 5);
		memmove(from + 5, to, strlen(to) + 1);
	}
}

#endif
