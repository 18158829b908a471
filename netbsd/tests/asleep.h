/* asleep.h - whether a thread sleeps, for tests that wait until it waits; they look into the layer */
#ifndef NETBSD_ASLEEP_H
#define NETBSD_ASLEEP_H

#include "test.h"

/* What the system says of a thread: S where it sleeps; 0 where it has ended. */
static inline char state_of_thread(int id)
{
	char path[64], text[256] = "";
	snprintf(path, sizeof(path), "/proc/self/task/%d/stat", id);
	FILE *file = fopen(path, "r");
	if (file == NULL)
		return 0;
	size_t length = fread(text, 1, sizeof(text) - 1, file);
	fclose(file);
	const char *name_ends = strrchr(text, ')');
	return length == 0 || name_ends == NULL ? 0 : name_ends[2];
}

/* Until the thread with the number that is told here sleeps, or it says that it is over. */
static inline void await_asleep(atomic_int *id, atomic_bool *over)
{
	while (!atomic_load(over) && (atomic_load(id) == 0 || state_of_thread(atomic_load(id)) != 'S'))
		sleep_for(50);
}

#endif
