/*
 * state.c - the writable memory of the program and of the library, which each run finds as the first one did
 *
 * The search itself lies in memory of its own, so that it stays. The C library's memory stays, too: a program that was linked with -static has that among
 * its own, and so each of its runs has a process of its own.
 */
#include <link.h>
#include <sys/mman.h>

#include "inside.h"

enum { MOST_PARTS = 16 };

static struct part {
	char *at, *kept;
	size_t size;
} *parts;
static unsigned count;

/* What the compiler makes no call of memcpy of: the address sanitizer would look at what it copies. It takes most of a run's time, so it is fast in any build. */
#ifdef __clang__
#define UNSEEN	__attribute__((no_sanitize("address", "undefined"), no_builtin("memcpy")))
#else
#define UNSEEN	__attribute__((no_sanitize("address", "undefined"), optimize("O2", "no-tree-loop-distribute-patterns")))
#endif

/* Copies what differs, without the sanitizer's look at what lies between two variables. So it writes nothing that the loader has made read-only. */
UNSEEN static void copy(char *to, const char *from, size_t size)
{
	uint64_t *to_words = (uint64_t *)(void *)to;
	const uint64_t *words = (const uint64_t *)(const void *)from;
	for (size_t at = 0; at < size / sizeof(*words); at++)
		if (to_words[at] != words[at])
			to_words[at] = words[at];
}

static bool has_address(const struct dl_phdr_info *object, uintptr_t address)
{
	for (unsigned at = 0; at < object->dlpi_phnum; at++) {
		const ElfW(Phdr) *part = &object->dlpi_phdr[at];
		uintptr_t from = object->dlpi_addr + part->p_vaddr;
		if (part->p_type == PT_LOAD && address >= from && address < from + part->p_memsz)
			return true;
	}
	return false;
}

static void add_object(const struct dl_phdr_info *object)
{
	for (unsigned at = 0; at < object->dlpi_phnum; at++) {
		const ElfW(Phdr) *part = &object->dlpi_phdr[at];
		uintptr_t from = object->dlpi_addr + part->p_vaddr, to = (from + part->p_memsz) & ~(uintptr_t)7;
		from = (from + 7) & ~(uintptr_t)7;
		if (part->p_type != PT_LOAD || (part->p_flags & PF_W) == 0 || from >= to)
			continue;
		refuse_if(count == MOST_PARTS, "the program has too many parts");
		parts[count++] = (struct part){.at = (char *)from, .kept = map_pages(to - from, MAP_PRIVATE), .size = to - from};
	}
}

/* The program comes first; of the others only the one that this function lies in is the explorer's. */
static int look_at(struct dl_phdr_info *object, size_t size, void *first)
{
	(void)size;
	if (*(bool *)first && has_address(object, (uintptr_t)stdout))
		search->apart = true;
	if (*(bool *)first || has_address(object, (uintptr_t)look_at))
		add_object(object);
	*(bool *)first = false;
	return 0;
}

void save_state(void)
{
	bool first = true;
	count = 0;
	parts = map_pages(MOST_PARTS * sizeof(*parts), MAP_PRIVATE);
	dl_iterate_phdr(look_at, &first);
	for (unsigned at = 0; at < count; at++)
		copy(parts[at].kept, parts[at].at, parts[at].size);
}

void restore_state(void)
{
	if (search->apart)
		return;
	for (unsigned at = 0; at < count; at++)
		copy(parts[at].at, parts[at].kept, parts[at].size);
}
