/* sys/queue.h - the system's queue(3), and the macros of it that kernel files use and the system lacks */
#pragma GCC system_header
#include_next <sys/queue.h>

#ifndef KUPALDIZ_NETBSD_SYS_QUEUE_H
#define KUPALDIZ_NETBSD_SYS_QUEUE_H

#include <stddef.h>

/* Each element, from the first on: the one behind it is known before, since the loop may remove it. */
#define KUPALDIZ_EACH(at, first, next, after)	for ((at) = (first); (at) != NULL && ((after) = (next), 1); (at) = (after))

#ifndef LIST_FOREACH_SAFE
#define LIST_FOREACH_SAFE(at, head, field, after)	KUPALDIZ_EACH(at, LIST_FIRST(head), LIST_NEXT(at, field), after)
#endif
#ifndef SLIST_FOREACH_SAFE
#define SLIST_FOREACH_SAFE(at, head, field, after)	KUPALDIZ_EACH(at, SLIST_FIRST(head), SLIST_NEXT(at, field), after)
#endif
#ifndef STAILQ_FOREACH_SAFE
#define STAILQ_FOREACH_SAFE(at, head, field, after)	KUPALDIZ_EACH(at, STAILQ_FIRST(head), STAILQ_NEXT(at, field), after)
#endif
#ifndef SIMPLEQ_FOREACH_SAFE
#define SIMPLEQ_FOREACH_SAFE(at, head, field, after)	KUPALDIZ_EACH(at, SIMPLEQ_FIRST(head), SIMPLEQ_NEXT(at, field), after)
#endif
#ifndef TAILQ_FOREACH_SAFE
#define TAILQ_FOREACH_SAFE(at, head, field, after)	KUPALDIZ_EACH(at, TAILQ_FIRST(head), TAILQ_NEXT(at, field), after)
#endif
#ifndef TAILQ_FOREACH_REVERSE_SAFE
#define TAILQ_FOREACH_REVERSE_SAFE(at, head, name, field, before)	KUPALDIZ_EACH(at, TAILQ_LAST(head, name), TAILQ_PREV(at, name, field), before)
#endif

#ifndef SLIST_REMOVE_AFTER
#define SLIST_REMOVE_AFTER(at, field)	(SLIST_NEXT(at, field) = SLIST_NEXT(SLIST_NEXT(at, field), field))
#endif

/* LIST_REPLACE - another element instead of one; LIST_MOVE - all elements of one list to an empty one. */
#ifndef LIST_REPLACE
#define LIST_REPLACE(before, after, field) \
	do { \
		if ((LIST_NEXT(after, field) = LIST_NEXT(before, field)) != NULL) \
			LIST_NEXT(after, field)->field.le_prev = &LIST_NEXT(after, field); \
		(after)->field.le_prev = (before)->field.le_prev; \
		*(after)->field.le_prev = (after); \
	} while (0)
#endif
#ifndef LIST_MOVE
#define LIST_MOVE(from, to, field) \
	do { \
		if ((LIST_FIRST(to) = LIST_FIRST(from)) != NULL) \
			LIST_FIRST(to)->field.le_prev = &LIST_FIRST(to); \
		LIST_INIT(from); \
	} while (0)
#endif

#ifndef SIMPLEQ_LAST
#define SIMPLEQ_LAST(head, type, field) \
	(SIMPLEQ_EMPTY(head) ? NULL : (struct type *)(void *)((char *)(head)->sqh_last - offsetof(struct type, field)))
#endif
#ifndef SIMPLEQ_REMOVE_AFTER
#define SIMPLEQ_REMOVE_AFTER(head, at, field) \
	do { \
		if ((SIMPLEQ_NEXT(at, field) = SIMPLEQ_NEXT(SIMPLEQ_NEXT(at, field), field)) == NULL) \
			(head)->sqh_last = &SIMPLEQ_NEXT(at, field); \
	} while (0)
#endif
#ifndef SIMPLEQ_CONCAT
#define SIMPLEQ_CONCAT(head, more) \
	do { \
		if (!SIMPLEQ_EMPTY(more)) { \
			*(head)->sqh_last = SIMPLEQ_FIRST(more); \
			(head)->sqh_last = (more)->sqh_last; \
			SIMPLEQ_INIT(more); \
		} \
	} while (0)
#endif
#ifndef STAILQ_LAST
#define STAILQ_LAST(head, type, field) \
	(STAILQ_EMPTY(head) ? NULL : (struct type *)(void *)((char *)(head)->stqh_last - offsetof(struct type, field)))
#endif

/* TAILQ_REPLACE - another element instead of one. */
#ifndef TAILQ_REPLACE
#define TAILQ_REPLACE(head, before, after, field) \
	do { \
		if ((TAILQ_NEXT(after, field) = TAILQ_NEXT(before, field)) != NULL) \
			TAILQ_NEXT(after, field)->field.tqe_prev = &TAILQ_NEXT(after, field); \
		else \
			(head)->tqh_last = &TAILQ_NEXT(after, field); \
		(after)->field.tqe_prev = (before)->field.tqe_prev; \
		*(after)->field.tqe_prev = (after); \
	} while (0)
#endif

#endif
