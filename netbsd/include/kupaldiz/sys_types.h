/*
 * sys_types.h - what all headers of the layer use: the number of CPUs, the place of a call, priority levels, and where the explorer may look in
 *
 * Each call that can stop or wait is also a macro of its own name, which records file and line for the lines on standard error. Code that needs
 * the plain functions defines KUPALDIZ_WITHOUT_PLACES before it includes anything of the layer.
 */
#ifndef KUPALDIZ_NETBSD_SYS_TYPES_H
#define KUPALDIZ_NETBSD_SYS_TYPES_H

#include <pthread.h>
#include <stdbool.h>
#include <stddef.h>
#include <stdint.h>
#include <string.h>

#include <kupaldiz/names.h>

__BEGIN_DECLS

/* How many CPUs there are, numbered from 0. A build of the layer may have up to 63, by -D. */
#ifndef KUPALDIZ_CPUS
#define KUPALDIZ_CPUS	7
#endif

/* A symbol with the number of CPUs in its name. Each file that has this header refers to it: for others it neither links nor starts. The explorer's has another
 * name: a file without -DKUPALDIZ_EXPLORER doesn't link with it. */
#if defined(KUPALDIZ_EXPLORER) || defined(KUPALDIZ_IN_EXPLORER)
#define KUPALDIZ_NAMED_BY(cpus)	kupaldiz_for_##cpus##_cpus_of_explorer
#else
#define KUPALDIZ_NAMED_BY(cpus)	kupaldiz_for_##cpus##_cpus
#endif
#define KUPALDIZ_BUILT_FOR(cpus)	KUPALDIZ_NAMED_BY(cpus)
extern const char KUPALDIZ_BUILT_FOR(KUPALDIZ_CPUS);
static const char *const kupaldiz_built_for __attribute__((used)) = &KUPALDIZ_BUILT_FOR(KUPALDIZ_CPUS);

#define KUPALDIZ_TEXT_OF(line)	#line
#define KUPALDIZ_TEXT(line)	KUPALDIZ_TEXT_OF(line)
#define KUPALDIZ_HERE		__FILE__ ":" KUPALDIZ_TEXT(__LINE__)

/* kupaldiz_at - the next call of this thread is at this place. The text isn't copied. */
void kupaldiz_at(const char *place);

/* What a point says of an atomic access or a barrier: KUPALDIZ_EXCHANGES is all of it. */
enum {
	KUPALDIZ_LOADS = 1,
	KUPALDIZ_STORES = 2,
	KUPALDIZ_ACQUIRES = 4,
	KUPALDIZ_RELEASES = 8,
	KUPALDIZ_EXCHANGES = 15
};

/* KUPALDIZ_POINT, KUPALDIZ_BARRIER - before an atomic access or a barrier of the code's own. The address is evaluated once more for the access. Nothing here;
 * kupaldiz_explorer(7), which tries schedules, has a call there. KUPALDIZ_FROM gives it the place of a macro whose accesses lie in a header. */
#ifdef KUPALDIZ_EXPLORER
void kupaldiz_point(const volatile void *address, size_t size, unsigned how, const char *place);
#define KUPALDIZ_POINT(address, how)	kupaldiz_point(address, sizeof(*(address)), how, KUPALDIZ_HERE)
#define KUPALDIZ_BARRIER(how)		kupaldiz_point(NULL, 0, how, KUPALDIZ_HERE)
void kupaldiz_from(const char *place);
#define KUPALDIZ_FROM(call)		(kupaldiz_from(KUPALDIZ_HERE), (call))

/* The compiler's calls of -fsanitize=thread tell the explorer a file's plain accesses, and these what memcpy and the like access. Without that flag the file
 * tells its name. */
#if defined(__has_feature)
#if __has_feature(thread_sanitizer)
#define KUPALDIZ_SEEN
#endif
#elif defined(__SANITIZE_THREAD__)
#define KUPALDIZ_SEEN
#endif
#ifdef KUPALDIZ_SEEN
void *__tsan_memcpy(void *to, const void *from, size_t size);
void *__tsan_memmove(void *to, const void *from, size_t size);
void *__tsan_memset(void *to, int byte, size_t size);
#define memcpy	__tsan_memcpy
#define memmove	__tsan_memmove
#define memset	__tsan_memset
#else
void kupaldiz_unseen(const char *file);
static void __attribute__((constructor)) kupaldiz_unseen_here(void) { kupaldiz_unseen(__BASE_FILE__); }
#endif
#else
#define KUPALDIZ_POINT(address, how)	((void)0)
#define KUPALDIZ_BARRIER(how)		((void)0)
#define KUPALDIZ_FROM(call)		(call)
#endif

/* Priority levels, the lowest first. A soft interrupt runs on its CPU where the CPU's level is below its own. */
enum {
	IPL_NONE = 0,
	IPL_SOFTCLOCK,
	IPL_SOFTBIO,
	IPL_SOFTNET,
	IPL_SOFTSERIAL,
	IPL_VM,
	IPL_SCHED,
	IPL_HIGH
};

#define IPL_NET		IPL_VM
#define IPL_BIO		IPL_VM
#define IPL_TTY		IPL_VM
#define IPL_CLOCK	IPL_SCHED
#define IPL_SERIAL	IPL_HIGH

typedef int ipl_cookie_t;

/* A priority, which sys/types.h has too. */
#ifndef KUPALDIZ_PRI
#define KUPALDIZ_PRI
typedef int pri_t;
#endif

/* makeiplcookie - the level itself. */
static inline ipl_cookie_t makeiplcookie(int level) { return level; }

__END_DECLS
#endif
