/*
 * A test that ends the program where it fails: of all clients in C.
 */
#ifndef EXPECT_H
#define EXPECT_H

#include <stdio.h>
#include <stdlib.h>

/* Ends the program with status 1 where a condition doesn't hold, and says which. */
#define EXPECT(condition)									\
	do {											\
		if (!(condition)) {								\
			fprintf(stderr, "%s:%d: not so: %s\n", __FILE__, __LINE__, #condition);	\
			exit(1);								\
		}										\
	} while (0)

#endif
