/* routine.c - threads as coroutines of one thread, each with a stack of its own */
#if !defined(__x86_64__) || !defined(__LP64__)
#error "the explorer is for x86-64 alone: it switches stacks by that processor's instructions"
#endif

#include <sys/mman.h>

#if __has_include(<valgrind/valgrind.h>)
#include <valgrind/valgrind.h>
#else
#define VALGRIND_STACK_REGISTER(from, to)	0
#endif

#include "inside.h"

/* What the address sanitizer is told of a switch, where the program is built with it. */
void __sanitizer_start_switch_fiber(void **fake_stack, const void *bottom, size_t size) __attribute__((weak));
void __sanitizer_finish_switch_fiber(void *fake_stack, const void **bottom, size_t *size) __attribute__((weak));
void __asan_unpoison_memory_region(const volatile void *at, size_t size) __attribute__((weak));

/* Of the child's own stack, on which no thread of the code runs. */
static void *home, *home_fake;
static const void *home_bottom;
static size_t home_size;

static struct routine *starter;	/* who waits until a new one has come to its first point */
static char *stacks;

static char *stack_of(unsigned number)
{
	return stacks + (size_t)number * 2 * STACK + STACK;
}

/* A switch isn't a return to where the last call was made from, so a shadow stack would end the program. This instruction does nothing without one. */
void map_stacks(void)
{
	uint64_t top = 0;
	__asm__ volatile(".byte 0xf3, 0x48, 0x0f, 0x1e, 0xc8" : "+a"(top));	/* rdsspq %rax */
	if (top != 0)
		refuse("the program runs with a shadow stack, which the explorer can't switch: link it with -z noshstk, or run it with "
		       "GLIBC_TUNABLES=glibc.cpu.hwcaps=-SHSTK");
	/* A stack for each, with as much room below that nothing may touch. They stay. */
	stacks = map_pages((size_t)THREADS * 2 * STACK, MAP_PRIVATE);
	for (unsigned number = 0; number < THREADS; number++) {
		mprotect(stack_of(number) - STACK, STACK, PROT_NONE);
		(void)VALGRIND_STACK_REGISTER(stack_of(number), stack_of(number) + STACK);
	}
}

/* Leaves one stack, with what a call keeps: six registers, MXCSR and the control word of the x87. Goes on where another one was left. */
void explorer_switch(void **left, void *to);
__asm__(".text\n"
	".globl explorer_switch\n"
	".hidden explorer_switch\n"
	".type explorer_switch, @function\n"
	"explorer_switch:\n"
	"	pushq %rbp\n"
	"	pushq %rbx\n"
	"	pushq %r12\n"
	"	pushq %r13\n"
	"	pushq %r14\n"
	"	pushq %r15\n"
	"	subq $8, %rsp\n"
	"	stmxcsr (%rsp)\n"
	"	fnstcw 4(%rsp)\n"
	"	movq %rsp, (%rdi)\n"
	"	movq %rsi, %rsp\n"
	"	ldmxcsr (%rsp)\n"
	"	fldcw 4(%rsp)\n"
	"	addq $8, %rsp\n"
	"	popq %r15\n"
	"	popq %r14\n"
	"	popq %r13\n"
	"	popq %r12\n"
	"	popq %rbx\n"
	"	popq %rbp\n"
	"	ret\n"
	".size explorer_switch, . - explorer_switch\n");

enum { KEPT = 6 };	/* registers */

/* What a thread begins with: the C library's own MXCSR, and above it the x87's word. */
#define CONTROL_WORDS	(UINT64_C(0x1f80) | UINT64_C(0x037f) << 32)

static void leave_stack(void **fake, const void *bottom, size_t size)
{
	if (__sanitizer_start_switch_fiber != NULL)
		__sanitizer_start_switch_fiber(fake, bottom, size);
}

static void come_to_stack(void *fake, const void **bottom, size_t *size)
{
	if (__sanitizer_finish_switch_fiber != NULL)
		__sanitizer_finish_switch_fiber(fake, bottom, size);
}

static void exchange(struct routine *from, struct routine *to)
{
	if (from != NULL) {
		from->self = kupaldiz_self;
		from->places = kupaldiz_places;
	}
	run.current = to;
	kupaldiz_self = to == NULL ? NULL : to->self;
	kupaldiz_places = to == NULL ? (struct places){0} : to->places;
}

void switch_to(struct routine *to)
{
	struct routine *from = run.current;
	if (from == to)
		return;
	exchange(from, to);
	leave_stack(from->ended ? NULL : &from->fake_stack, stack_of(to->number), STACK);
	explorer_switch(&from->stack, to->stack);
	come_to_stack(from->fake_stack, NULL, NULL);
}

/* Ends the run, and goes on where it was begun. */
void leave_run(enum end end)
{
	search->end = end;
	exchange(NULL, NULL);
	leave_stack(NULL, home_bottom, home_size);
	void *left;
	explorer_switch(&left, home);
	_exit(2);
}

/* What has a name already is the test's. */
static void begin_routine(void)
{
	struct routine *me = run.current;
	come_to_stack(NULL, me->number == 0 ? &home_bottom : NULL, me->number == 0 ? &home_size : NULL);
	if (me->name != NULL && !me->daemon)
		kupaldiz_self = named_thread(me->number == 0 ? "explorer_run" : "explorer_thread", me->name);
	me->body(me->arg);
	if (kupaldiz_self != NULL)
		end_self();
	end_routine();
}

/* A thread that runs `body(arg)`. It isn't begun. */
struct routine *make_routine(const char *name, void (*body)(void *), void *arg, bool daemon)
{
	refuse_if(run.count == THREADS - 1, "there are more than %d threads", THREADS - 1);
	struct routine *made = &run.routines[run.count];
	*made = (struct routine){.made = true, .daemon = daemon, .number = run.count, .name = name, .body = body, .arg = arg, .deadline = NEVER,
	    .made_at = run.step == 0 ? -1 : (int)run.step - 1};
	run.count++;
	/* A thread's CPU goes by its number, that of a daemon doesn't. */
	touch(ON_THREAD, NULL, 0, daemon ? 0 : WRITES);
	inherit_clock(made);
	if (__asan_unpoison_memory_region != NULL)
		__asan_unpoison_memory_region(stack_of(made->number), STACK);
	/* As if it had been left at its begin: its registers, and where it returns to. */
	uintptr_t *top = (uintptr_t *)(void *)(stack_of(made->number) + STACK) - 2;
	top[0] = (uintptr_t)begin_routine;
	top[1] = 0;
	memset(top - KEPT, 0, KEPT * sizeof(*top));
	top[-KEPT - 1] = CONTROL_WORDS;
	made->stack = top - KEPT - 1;
	return made;
}

void start_routines(void)
{
	for (struct routine *at = run.routines; at < &run.routines[run.count]; at++) {
		if (at->begun)
			continue;
		struct routine *before = starter;
		starter = run.current;
		switch_to(at);
		starter = before;
	}
}

/* Whether this thread has come to its first point: whoever began it goes on, and this one when it is chosen. */
void first_point(struct routine *me)
{
	struct routine *next = starter;
	starter = NULL;
	me->begun = true;
	switch_to(next);
}

/* This thread has ended. Another one goes on. */
void end_routine(void)
{
	struct routine *me = run.current;
	touch(ON_THREAD, me, 0, WRITES | RELEASES);
	me->ended = true;
	if (!me->begun)
		first_point(me);
	point("thread end", NULL, NULL, NULL);
	_exit(2);
}

void run_main(void (*body)(void *))
{
	struct routine *first = make_routine("setup", body, NULL, false);
	first->begun = true;
	exchange(NULL, first);
	leave_stack(&home_fake, stack_of(0), STACK);
	explorer_switch(&home, first->stack);
	come_to_stack(home_fake, NULL, NULL);
}
