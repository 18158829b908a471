/* Lookups under one lock that all threads share: a read lock, and a mutex. */
#include "entries.h"

#include <pthread.h>

static pthread_rwlock_t read_lock = PTHREAD_RWLOCK_INITIALIZER;
static pthread_mutex_t whole_lock = PTHREAD_MUTEX_INITIALIZER;

LISTED_LOOKUPS(rwlock, pthread_rwlock_rdlock(&read_lock), pthread_rwlock_unlock(&read_lock))
LISTED_LOOKUPS(mutex, pthread_mutex_lock(&whole_lock), pthread_mutex_unlock(&whole_lock))

const struct contender rwlock = {
    .name = "pthread_rwlock",
    .open = make_list,
    NOTHING_AROUND,
    LOOKUPS_OF(rwlock),
};

const struct contender mutex = {
    .name = "pthread_mutex",
    .open = make_list,
    NOTHING_AROUND,
    LOOKUPS_OF(mutex),
};
