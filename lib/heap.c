/*
 * The allocator of the library, over malloc. A block of 0 bytes is as aligned as one of `align` bytes. Where there is no memory, the pointer leads
 * to a byte that nobody owns.
 */
#include <stdlib.h>

#include "heap.h"

static char nothing;

static struct tried tried(void *at)
{
	return (struct tried){at != NULL, at != NULL ? at : &nothing};
}

struct tried rattle_alloc(size_t size, size_t align)
{
	return tried(malloc(size != 0 ? size : align));
}

struct tried rattle_realloc(void *at, size_t kept, size_t size, size_t align)
{
	(void)kept;
	return tried(realloc(at, size != 0 ? size : align));
}

void rattle_dealloc(void *at)
{
	free(at);
}
