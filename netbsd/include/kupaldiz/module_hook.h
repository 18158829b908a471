/*
 * module_hook.h - module_hook(9): a function of a module, which others call while the module is there
 *
 * A hook is a localcount(9): each call has a reference to it, and MODULE_HOOK_UNSET waits until no call is under way. The function may sleep.
 * As in the kernel, whoever sets and unsets hooks excludes others by a lock; here no call asks for kernconfig_lock.
 */
#ifndef KUPALDIZ_NETBSD_MODULE_HOOK_H
#define KUPALDIZ_NETBSD_MODULE_HOOK_H

#include "localcount.h"

__BEGIN_DECLS

/* MODULE_HOOK - declare a hook of this name for functions of this type. One file defines it: `struct NAME_t NAME;`. */
#define MODULE_HOOK(hook, type, parameters) \
	extern struct hook##_t { \
		struct localcount lc; \
		bool hooked; \
		type (*f) parameters; \
	} hook

/* module_hook_set, module_hook_unset, module_hook_tryenter, module_hook_exit - what the macros below call. */
void module_hook_set(bool *hooked, struct localcount *lc);
void module_hook_unset(bool *hooked, struct localcount *lc);
bool module_hook_tryenter(const bool *hooked, struct localcount *lc);
void module_hook_exit(struct localcount *lc);

#define KUPALDIZ_PLACES_OF_MODULE_HOOK
#include <kupaldiz/places.h>

/* MODULE_HOOK_SET - from now on calls of the hook call the function. Stops where the hook is set, and where the thread mustn't sleep. */
#define MODULE_HOOK_SET(hook, function) \
	do { \
		(hook).f = (function); \
		module_hook_set(&(hook).hooked, &(hook).lc); \
	} while (0)

/* MODULE_HOOK_UNSET - no call reaches the function any more: waits for those under way. Stops where the hook isn't set, and where the thread mustn't sleep. */
#define MODULE_HOOK_UNSET(hook)	module_hook_unset(&(hook).hooked, &(hook).lc)

/* A call of the hook, or what is done otherwise. */
#define KUPALDIZ_HOOK_CALL(hook, call, otherwise) \
	do { \
		if (module_hook_tryenter(&(hook).hooked, &(hook).lc)) { \
			call; \
			module_hook_exit(&(hook).lc); \
		} else { \
			otherwise; \
		} \
	} while (0)

/* MODULE_HOOK_CALL - call the function with the arguments `words`, in parentheses, and set `result`: to `otherwise` where the hook isn't set. */
#define MODULE_HOOK_CALL(hook, words, otherwise, result) \
	KUPALDIZ_HOOK_CALL(hook, (result) = (*(hook).f)words, (result) = (otherwise))

/* MODULE_HOOK_CALL_VOID - the same of a function without a result; `otherwise` is evaluated where the hook isn't set. */
#define MODULE_HOOK_CALL_VOID(hook, words, otherwise)	KUPALDIZ_HOOK_CALL(hook, (*(hook).f)words, otherwise)

__END_DECLS
#endif
