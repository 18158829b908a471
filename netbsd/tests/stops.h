/*
 * stops.h - runs the cases of cases.h, each in a child, which must say on standard error nothing but its line
 */
#ifndef NETBSD_STOPS_H
#define NETBSD_STOPS_H

#include <signal.h>

#include "child.h"
#include "test.h"

#include "cases.h"

bool is_right(void (*begin)(void), const struct stop_case *the_case)
{
	char said[1024], wanted[512];
	int status = run_in_child(begin, the_case->body, said, sizeof(said));
	hide_places(said);
	snprintf(wanted, sizeof(wanted), "%s\n", the_case->line);
	bool ended = the_case->goes_on ? WIFEXITED(status) && WEXITSTATUS(status) == 0 : WIFSIGNALED(status) && WTERMSIG(status) == SIGABRT;
	bool right = ended && strcmp(said, wanted) == 0;
	if (!right)
		printf("wanted: %sstatus %d and said: %s\n", wanted, status, said);
	return right;
}

#endif
