/* bodies.h - the bodies of a test's threads and handlers: short ones are a row each */
#ifndef NETBSD_BODIES_H
#define NETBSD_BODIES_H

/* What a thread does; and what a handler, a thread of kthread_create's or a thread of the explorer does. */
#define THREAD(name, ...)	static void *name(void *arg) { __VA_ARGS__; return arg; }
#define HANDLER(name, ...)	static void name(void *arg) { (void)arg; __VA_ARGS__; }

/* The head of a handler that has more than a row. */
#define BODY(name)		static void name(__attribute__((unused)) void *arg)

#endif
