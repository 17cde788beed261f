/*
 * malloc, realloc and free over the memory of a WebAssembly module, for one thread. Not proved.
 *
 * The heap is a row of blocks from `first` to `end`. A block begins with its size and with that of the block before it, so that its neighbours are
 * found in both directions; the lowest bit of a size says that the block is in use. Two free blocks never lie side by side. Free blocks of like
 * sizes are in one list each, four lists between two powers of two, and a block in list k is larger than every block in the lists before.
 */
#include <stdbool.h>
#include <stddef.h>
#include <stdint.h>
#include <stdlib.h>

#define PAGE 65536u
#define HEAD 16u                       /* the two sizes; what a caller gets is as aligned */
#define LEAST 32u                      /* a block that is free has the two links too */
#define MOST ((uint64_t)1 << 32)       /* the memory has 32 bits */
#define LISTS 128

struct block {
	uint64_t before;               /* the size of the block before, without its bit */
	uint64_t size;                 /* with the head, a multiple of 16, and the bit */
	struct block *next, *previous; /* only where it is free */
};

extern unsigned char __heap_base;
static unsigned char *first, *end;
static uint64_t last;                  /* the size of the block in front of `end` */
static struct block *lists[LISTS];

static uint64_t size_of(const struct block *block) { return block->size & ~(uint64_t)1; }
static bool in_use(const struct block *block) { return block->size & 1; }
static struct block *behind(struct block *block) { return (struct block *)((unsigned char *)block + size_of(block)); }
static struct block *before(struct block *block) { return (struct block *)((unsigned char *)block - block->before); }

static unsigned list_of(uint64_t size)
{
	unsigned log = 63 - (unsigned)__builtin_clzll(size);

	return (log - 5) * 4 + ((unsigned)(size >> (log - 2)) & 3);
}

static void tell_size(struct block *block, uint64_t size, bool used)
{
	block->size = size | used;
	if ((unsigned char *)behind(block) == end)
		last = size;
	else
		behind(block)->before = size;
}

static void unlink_free(struct block *block)
{
	if (block->previous)
		block->previous->next = block->next;
	else
		lists[list_of(size_of(block))] = block->next;
	if (block->next)
		block->next->previous = block->previous;
}

static void link_free(struct block *block)
{
	struct block **list = &lists[list_of(size_of(block))];

	block->previous = NULL;
	block->next = *list;
	if (*list)
		(*list)->previous = block;
	*list = block;
}

/* Takes a free block out of the row, or what lies behind a shrunk one, and joins it with its free neighbours. */
static void release(struct block *block)
{
	uint64_t size = size_of(block);

	if ((unsigned char *)behind(block) != end && !in_use(behind(block))) {
		unlink_free(behind(block));
		size += size_of(behind(block));
	}
	if ((unsigned char *)block != first && !in_use(before(block))) {
		block = before(block);
		unlink_free(block);
		size += size_of(block);
	}
	tell_size(block, size, false);
	link_free(block);
}

/* Makes a block in use no longer than it is asked to be. */
static void trim(struct block *block, uint64_t size)
{
	uint64_t rest = size_of(block) - size;

	if (rest < LEAST)
		return;
	block->size = size | 1;
	struct block *left = behind(block);
	left->before = size;
	tell_size(left, rest, true);
	release(left);
}

/*
 * Memory that grew stays, and a quarter is added ahead where there is room, since growing may move it. The low half alone of the answer is looked
 * at: -1 says that there is none, and its lowering to a memory of 32 bits leaves the high half 0.
 */
static bool grow(uint64_t bytes)
{
	uint64_t pages = (bytes + PAGE - 1) / PAGE, ahead = (uint64_t)__builtin_wasm_memory_size(0) / 4;

	if (ahead > pages && (uint32_t)__builtin_wasm_memory_grow(0, ahead) != UINT32_MAX)
		return true;
	return (uint32_t)__builtin_wasm_memory_grow(0, pages) != UINT32_MAX;
}

/* A block in use at the end of the row, which takes in the free one that lies there. */
static struct block *extend(uint64_t size)
{
	if (!first)
		first = end = (unsigned char *)(((uintptr_t)&__heap_base + 15) & ~(uintptr_t)15);
	struct block *block = (struct block *)end;
	bool joins = end != first && !in_use((struct block *)(end - last));
	uint64_t room = ((uint64_t)__builtin_wasm_memory_size(0) * PAGE) - (uint64_t)(uintptr_t)end;
	uint64_t wanted = size - (joins ? last : 0);

	if (wanted > room && !grow(wanted - room))
		return NULL;
	if (joins) {
		block = (struct block *)(end - last);
		unlink_free(block);
	} else
		block->before = last;
	end = (unsigned char *)block + size;
	tell_size(block, size, true);
	return block;
}

static struct block *found(uint64_t size)
{
	for (unsigned k = list_of(size); k < LISTS; k++)
		for (struct block *block = lists[k]; block; block = block->next)
			if (size_of(block) >= size) {
				unlink_free(block);
				tell_size(block, size_of(block), true);
				trim(block, size);
				return block;
			}
	return NULL;
}

static uint64_t block_size(size_t asked)
{
	uint64_t size = ((uint64_t)asked + HEAD + 15) & ~(uint64_t)15;

	return size < LEAST ? LEAST : size;
}

void *malloc(size_t asked)
{
	if (asked >= MOST)
		return NULL;
	struct block *block = found(block_size(asked));

	if (!block)
		block = extend(block_size(asked));
	return block ? (unsigned char *)block + HEAD : NULL;
}

void free(void *at)
{
	if (at)
		release((struct block *)((unsigned char *)at - HEAD));
}

void *realloc(void *at, size_t asked)
{
	if (!at)
		return malloc(asked);
	if (asked >= MOST)
		return NULL;
	struct block *block = (struct block *)((unsigned char *)at - HEAD);
	uint64_t had = size_of(block), size = block_size(asked);
	bool is_last = (unsigned char *)behind(block) == end;

	if (size > had && !is_last && !in_use(behind(block)) && had + size_of(behind(block)) >= size) {
		struct block *more = behind(block);
		unlink_free(more);
		tell_size(block, had + size_of(more), true);
	} else if (size > had && is_last) {
		/* What is extended is a block of its own for a moment, and nothing lies between. */
		struct block *more = extend(size - had < LEAST ? LEAST : size - had);
		if (!more)
			return NULL;
		tell_size(block, had + size_of(more), true);
	}
	if (size <= size_of(block)) {
		trim(block, size);
		return at;
	}
	void *moved = malloc(asked);

	if (moved) {
		__builtin_memcpy(moved, at, had - HEAD);
		free(at);
	}
	return moved;
}
