/* module_hooks.c - module_hook.c over the explorer's calls, so that each of its calls and accesses is a point. It has no plain accesses that need be seen. */
#define KUPALDIZ_EXPLORER
#define kupaldiz_unseen	has_nothing_unseen
static inline void has_nothing_unseen(const char *file) { (void)file; }
#include "module_hook.c"
