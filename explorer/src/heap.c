/*
 * heap.c - the memory of a run: each thread takes it from a part of its own, so that an address doesn't depend on the order of the threads. Nothing is used
 * again in a run. What is given back is filled, and looked at again at the end. Behind each block lies a fence.
 */
#include <sys/mman.h>

#include "inside.h"

enum { PART = 4 * 1024 * 1024, SMALLEST = 16, FENCE = 32, NEW = 0xa5, FREED = 0xdf, BEHIND = 0xfd };

static size_t used[THREADS];
static unsigned char *parts;
static uint32_t *owners;	/* of each sixteen bytes of the parts: the row of their block, counted from 1 */
struct scratch *scratch;

void map_heap(void)
{
	parts = map_pages((size_t)THREADS * PART, MAP_PRIVATE);
	owners = map_pages((size_t)THREADS * PART / SMALLEST * sizeof(*owners), MAP_PRIVATE);
	scratch = map_pages(sizeof(*scratch), MAP_PRIVATE);
}

static const char *call_of(const struct thread *self)
{
	return self == NULL || self->call == NULL ? "setup" : self->call;
}

static uint32_t *owner_of(const volatile unsigned char *at)
{
	return &owners[(size_t)(at - parts) / SMALLEST];
}

/* A block of memory. One that is judged must be given back by the end. */
void *explorer_allocate(size_t size, size_t align, bool judged)
{
	unsigned number = run.current == NULL ? 0 : run.current->number;
	const struct thread *self = kupaldiz_self;
	align = align < SMALLEST ? SMALLEST : align;
	size_t begin = (used[number] + align - 1) / align * align;
	refuse_if(size > PART || begin + size + FENCE > PART, "the code takes more than %d bytes in one run", PART);
	used[number] = begin + size + FENCE;
	unsigned char *at = parts + (size_t)number * PART + begin;
	memset(at, NEW, size);
	memset(at + size, BEHIND, FENCE);
	*(struct block *)new_row(BLOCKS) = (struct block){.at = at, .size = size, .live = true, .judged = judged, .by = number,
	    .made_at = run.routines[number].clock[number], .call = call_of(self), .place = self == NULL ? NULL : self->place};
	for (size_t from = 0; from < size + FENCE; from += SMALLEST)
		*owner_of(at + from) = (uint32_t)run.rows[BLOCKS];
	return at;
}

/* The block that has this address, in it or in its fence; NULL where none has. */
static struct block *block_at(const volatile void *address)
{
	const volatile unsigned char *at = address;
	if (at < parts || at >= parts + (size_t)THREADS * PART || (size_t)(at - parts) % PART >= used[(size_t)(at - parts) / PART])
		return NULL;
	uint32_t row = *owner_of(at);
	struct block *block = (struct block *)rows_of(BLOCKS) + row - 1;
	return row > 0 && row <= run.rows[BLOCKS] && at >= block->at && at < block->at + block->size + FENCE ? block : NULL;
}

size_t size_of_block(const void *at)
{
	const struct block *block = block_at(at);
	return block == NULL ? 0 : block->size;
}

bool is_live(const void *at)
{
	const struct block *block = block_at(at);
	return block == NULL || block->live;
}

static bool is_within(const struct block *block, const volatile void *at, size_t size)
{
	return block->live && (const volatile unsigned char *)at + size <= block->at + block->size;
}

static _Noreturn void report_use(const char *what, const char *place, const struct block *block)
{
	fail_if(block->live, "%s%s: beyond a block of %zu bytes", what, AT_PLACE(place), block->size);
	fail("%s%s: use of freed memory: thread \"%s\" gave it back by %s%s", what, AT_PLACE(place), run.routines[block->freed_by].name, block->freed_call,
	    AT_PLACE(block->freed_place));
}

/* Stops where the memory was given back, or lies beyond its block. That it is used comes before or after its end. */
void check_live(const char *call, const volatile void *at, size_t size)
{
	const struct block *block = block_at(at);
	if (block == NULL)
		return;
	touch_memory(at, size, 0);
	if (!is_within(block, at, size))
		report_use(call, run.current->pc != NULL ? place_of(run.current->place, run.current->pc) : run.current->place, block);
}

/* The same of a plain access, which must come after the call that took the memory, too. */
void check_usable(const struct routine *me, const volatile void *at, size_t size, const struct use *use)
{
	const struct block *block = block_at(at);
	if (block == NULL)
		return;
	if (!is_within(block, at, size))
		report_use(use->writes ? "plain write" : "plain read", place_of(use->place, use->pc), block);
	if (me->clock[block->by] < block->made_at)
		fail("data race: thread \"%s\" takes memory by %s at %s, and thread \"%s\" %s it at %s", run.routines[block->by].name, block->call,
		    place_of(block->place, NULL), me->name, use->verb, place_of(use->place, use->pc));
}

static bool is_filled(const unsigned char *at, size_t size, unsigned char byte)
{
	for (size_t place = 0; place < size; place++)
		if (at[place] != byte)
			return false;
	return true;
}

static void check_block(const struct block *block)
{
	if (!is_filled(block->at + block->size, FENCE, BEHIND))
		fail("something was written behind a block of %zu bytes, taken by %s%s", block->size, block->call, AT_PLACE(block->place));
	if (!block->live && !block->hidden && !is_filled(block->at, block->size, FREED))
		fail("something was written to freed memory: thread \"%s\" gave it back by %s%s", run.routines[block->freed_by].name, block->freed_call,
		    AT_PLACE(block->freed_place));
}

static void end_block(struct block *block)
{
	const struct thread *self = kupaldiz_self;
	block->live = false;
	block->freed_by = run.current->number;
	block->freed_call = call_of(self);
	block->freed_place = self == NULL ? NULL : self->place;
}

void explorer_free(void *address)
{
	struct block *block = block_at(address);
	if (address == NULL)
		return;
	fail_if(block == NULL || block->at != address, "%s: no block of memory", call_of(kupaldiz_self));
	check_block(block);
	touch_memory(block->at, block->size, WRITES);
	if (run.current != NULL && block->judged) {
		const struct use use = {.verb = "frees", .place = run.current->place, .writes = true};
		use_memory(block->at, block->size, &use);
	}
	end_block(block);
	memset(block->at, FREED, block->size);
}

/* An object of a cache that nobody uses: no call may, until it is got again. */
void explorer_hide(void *at)
{
	struct block *block = block_at(at);
	end_block(block);
	block->hidden = true;
}

void explorer_unhide(void *at)
{
	struct block *block = block_at(at);
	block->live = true;
	block->hidden = false;
}

void *explorer_realloc(void *address, size_t size)
{
	const struct block *block = address == NULL ? NULL : block_at(address);
	size_t before = block == NULL ? 0 : block->size;
	void *made = explorer_allocate(size, 16, false);
	if (address != NULL) {
		memcpy(made, address, before < size ? before : size);
		explorer_free(address);
	}
	return made;
}

void check_heap(void)
{
	unsigned left = 0;
	const struct block *first = NULL, *block = rows_of(BLOCKS);
	for (size_t count = run.rows[BLOCKS]; count > 0; count--, block++) {
		check_block(block);
		if (!block->live || !block->judged)
			continue;
		left++;
		first = block;
	}
	fail_if(left > options.left, left == 1 ? "%u block of memory is left at the end, taken by %s%s"
	    : "%u blocks of memory are left at the end, one of them taken by %s%s", left, first->call, AT_PLACE(first->place));
}
