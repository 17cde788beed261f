/*
 * Structs that may grow. A caller hands in the size that the struct has in the header that it was compiled with, as the
 * kernel's openat2 and clone3 have it: what a shorter one lacks is 0, and what a longer one has beyond ours has to be 0.
 *
 * A new member begins at or behind the size that its struct had before. Each struct here but the state has padding at its
 * end, which an older program hands in without having written it.
 */
#ifndef INPUTFLINGER_SIZED_H
#define INPUTFLINGER_SIZED_H

#include <stdbool.h>
#include <stddef.h>
#include <string.h>

/* The sizes of the first release that took them. They never change. */
#define MESSAGE_FIRST 240
#define FAULT_FIRST 32
#define STATE_FIRST 36
#define PANEL_FIRST 24
#define WINDOW_FIRST 48
#define OPTIONS_FIRST 16
#define REPEATS_FIRST 16

/* The struct that a caller means, of our size: its own where it has that size, else a copy in room; NULL if it means none. */
static inline const void *sized_given(void *room, size_t size, size_t first, const void *given, size_t given_size)
{
	const unsigned char *bytes = (const unsigned char *)given;

	if (given_size == size)
		return given;
	if (given_size < first)
		return NULL;
	for (size_t i = size; i < given_size; i++)
		if (bytes[i] != 0)
			return NULL;
	memset(room, 0, size);
	memcpy(room, given, given_size < size ? given_size : size);
	return room;
}

/* Writes a struct of our size into one of the caller's: as much as that has, and 0 into what it has beyond. */
static inline void sized_written(void *to, size_t to_size, const void *from, size_t size)
{
	memcpy(to, from, to_size < size ? to_size : size);
	if (to_size > size)
		memset((unsigned char *)to + size, 0, to_size - size);
}

#endif
