/*
 * wraps.h - the calls that the linker leads to a test which defines their __wrap_ (--wrap), as NAME is led to __wrap_NAME, which may call __real_NAME
 */
#ifndef NETBSD_WRAPS_H
#define NETBSD_WRAPS_H

#include <pthread.h>
#include <stdint.h>
#include <sys/types.h>
#include <time.h>

#define WRAP(type, name, ...)	type __real_##name(__VA_ARGS__); type __wrap_##name(__VA_ARGS__)

WRAP(int, pthread_mutex_unlock, pthread_mutex_t *mutex);
WRAP(int, pthread_create, pthread_t *thread, const pthread_attr_t *how, void *(*body)(void *), void *arg);
WRAP(ssize_t, write, int file, const void *bytes, size_t length);
WRAP(int, open, const char *path, int how, ...);
WRAP(int, close, int file);
WRAP(void, free, void *block);

/* What this thread does once it has given back its next lock, while its call goes on. */
static _Thread_local void (*after)(void);

int __wrap_pthread_mutex_unlock(pthread_mutex_t *mutex)
{
	void (*does)(void) = after;
	after = NULL;
	int answer = __real_pthread_mutex_unlock(mutex);
	if (does != NULL)
		does();
	return answer;
}

#endif
