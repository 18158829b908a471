/* sys/cdefs.h - the system's, and what kernel files expect there besides */
#pragma GCC system_header
#include_next <sys/cdefs.h>

#ifndef KUPALDIZ_NETBSD_SYS_CDEFS_H
#define KUPALDIZ_NETBSD_SYS_CDEFS_H

#define __KERNEL_RCSID(number, text)
#define __COPYRIGHT(text)
#define __FBSDID(text)

#define __dead		__attribute__((__noreturn__))
#define __unused	__attribute__((__unused__))
#define __used		__attribute__((__used__))
#define __diagused	__attribute__((__unused__))
#define __debugused	__attribute__((__unused__))
#define __packed	__attribute__((__packed__))
#define __aligned(size)	__attribute__((__aligned__(size)))
#define __noinline	__attribute__((__noinline__))
#define __weak		__attribute__((__weak__))
#define __section(name)	__attribute__((__section__(name)))
#define __printflike(format, first)	__attribute__((__format__(__printf__, format, first)))
#define __read_mostly
#define __cacheline_aligned	__attribute__((__aligned__(64)))
#define __predict_true(condition)	__builtin_expect((condition) != 0, 1)
#define __predict_false(condition)	__builtin_expect((condition) != 0, 0)
#define __insn_barrier()	__asm__ volatile("" : : : "memory")

#define __arraycount(array)	(sizeof(array) / sizeof((array)[0]))
#define __UNCONST(pointer)	((void *)(unsigned long)(const void *)(pointer))
#define __UNVOLATILE(pointer)	((void *)(unsigned long)(volatile void *)(pointer))
#define __USE(value)		((void)(value))
#define __BIT(n)		((unsigned long)1 << (n))
#define __BITS(high, low)	((((unsigned long)2 << ((high) - (low))) - 1) << (low))
#define __LOWEST_SET_BIT(mask)	((((mask) - 1) & (mask)) ^ (mask))
#define __SHIFTOUT(value, mask)	(((value) & (mask)) / __LOWEST_SET_BIT(mask))
#define __SHIFTIN(value, mask)	((value) * __LOWEST_SET_BIT(mask))
#ifdef __cplusplus
#define __CTASSERT(condition)	static_assert(condition, #condition)
#else
#define __CTASSERT(condition)	_Static_assert(condition, #condition)
#endif
#define CTASSERT(condition)	__CTASSERT(condition)

#endif
