/*
 * The allocator of the library, which the proved part takes its memory from: lib/heap.c has it over malloc.
 */
#ifndef INPUTFLINGER_HEAP_H
#define INPUTFLINGER_HEAP_H

#include <stdbool.h>
#include <stddef.h>

/* A block, or that there is no memory. */
struct tried {
	bool ok;
	void *at;
};

struct tried rattle_alloc(size_t size, size_t align);
struct tried rattle_realloc(void *at, size_t kept, size_t size, size_t align);
void rattle_dealloc(void *at);

#endif
