/* reclaimer.h - the thread that frees what waits in a list: what the list tells it */
#ifndef WAITING_RECLAIMER_H
#define WAITING_RECLAIMER_H

#include "inner.h"

struct reclaimer {
	struct kupaldiz_deferred *deferred;
	pthread_t thread;
	pthread_mutex_t mutex;	/* of what follows. Whoever has it takes no other lock */
	pthread_cond_t changed;
	bool more;		/* something was appended since this was last looked at */
	bool ends;
};

/* Tells the thread that there is more to do, or that it ends. */
static inline void tell(struct reclaimer *reclaimer, bool *what)
{
	pthread_mutex_lock(&reclaimer->mutex);
	*what = true;
	pthread_cond_signal(&reclaimer->changed);
	pthread_mutex_unlock(&reclaimer->mutex);
}

#endif
