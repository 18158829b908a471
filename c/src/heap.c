/*
 * heap.c - the three functions of the heap that the proved library calls, over malloc, realloc and free
 *
 * They are the same for each processor, and take the place of the kit's, which are machine code of x86-64. They are trusted, as malloc is.
 * tools/build-archive.sh puts them into the archive, where no other object sees their names.
 */
#include <stdlib.h>

/* Whether there was memory, and where; where there was none, a place that is not NULL and is never looked at. It comes in two registers. */
struct block {
	size_t had;
	void *at;
};

struct block rattle_alloc(size_t size, size_t least);
struct block rattle_realloc(void *at, size_t old, size_t size, size_t least);
void rattle_dealloc(void *at);

static char nothing;

static struct block block_at(void *at)
{
	return (struct block){at != NULL, at != NULL ? at : &nothing};
}

/* No bytes are asked for as `least`: of malloc(0) nobody knows whether it is NULL. */
struct block rattle_alloc(size_t size, size_t least)
{
	return block_at(malloc(size != 0 ? size : least));
}

struct block rattle_realloc(void *at, size_t old, size_t size, size_t least)
{
	(void)old;
	return block_at(realloc(at, size != 0 ? size : least));
}

void rattle_dealloc(void *at)
{
	free(at);
}
