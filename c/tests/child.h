/* child.h - what a process of its own says on standard error, and how it ends */
#ifndef CHILD_H
#define CHILD_H

#include <stdio.h>
#include <stdlib.h>
#include <sys/wait.h>
#include <unistd.h>

#include "../examples/expect.h"

/*
 * Runs two bodies, one after the other, in a child, and reads all that it says on standard error.
 * Its status.
 */
static inline int run_in_child(void (*begin)(void), void (*body)(void), char *said, size_t room)
{
	int ends[2], status;
	size_t length = 0;
	ssize_t part;
	EXPECT(pipe(ends) == 0);
	fflush(NULL);
	pid_t child = fork();
	EXPECT(child >= 0);
	if (child == 0) {
		close(ends[0]);
		dup2(ends[1], STDERR_FILENO);
		begin();
		body();
		_exit(0);
	}
	close(ends[1]);
	while (length < room - 1 && (part = read(ends[0], said + length, room - 1 - length)) > 0)
		length += (size_t)part;
	said[length] = '\0';
	close(ends[0]);
	EXPECT(waitpid(child, &status, 0) == child);
	return status;
}

#endif
