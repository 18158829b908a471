/*
 * allocs - the three functions of heap.c: what each asks of malloc, realloc and free, and what it
 * makes of the result
 *
 * It is linked with heap.c itself, and with --wrap for malloc, realloc and free.
 */
#include "client.h"
#include "wrapped_heap.h"

struct block {
	size_t had;
	void *at;
};

struct block rattle_alloc(size_t size, size_t least);
struct block rattle_realloc(void *at, size_t old, size_t size, size_t least);
void rattle_dealloc(void *at);

enum { LEAST = 16 };

/* What the last call asked for, whether there is memory, and what was freed last. */
static size_t asked;
static bool has_memory = true;
static const void *moved, *freed;
static char memory[64], before[64];

void *__wrap_malloc(size_t size)
{
	asked = size;
	return has_memory ? memory : NULL;
}

void *__wrap_realloc(void *block, size_t size)
{
	moved = block;
	return __wrap_malloc(size);
}

void __wrap_free(void *block)
{
	freed = block;
}

/* The memory that there is, or a place that is not NULL where there is none. */
static void expect_block(struct block block, size_t size)
{
	EXPECT(asked == size && block.had == has_memory);
	EXPECT(has_memory ? block.at == memory : block.at != NULL);
}

/* No bytes are asked for as the least, and all else as it is. */
static void test_sizes(void)
{
	for (size_t size = 0; size <= 2 * LEAST; size++) {
		size_t wanted = size == 0 ? LEAST : size;
		expect_block(rattle_alloc(size, LEAST), wanted);
		moved = NULL;
		expect_block(rattle_realloc(before, 8, size, LEAST), wanted);
		EXPECT(moved == before);
	}
}

int main(void)
{
	test_sizes();
	has_memory = false;
	test_sizes();
	rattle_dealloc(before);
	EXPECT(freed == before);
	printf("allocs: sizes up to %d\n", 2 * LEAST);
	return 0;
}
