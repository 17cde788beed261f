/*
 * A memory that refuses requests, for a program that is linked with -Wl,--wrap=malloc,--wrap=realloc: from the number on
 * that the environment's REFUSED says, four of them, one after another.
 */
#include <stddef.h>
#include <stdlib.h>

void *__real_malloc(size_t size);
void *__real_realloc(void *at, size_t size);
void *__wrap_malloc(size_t size);
void *__wrap_realloc(void *at, size_t size);

static int is_refused(void)
{
	static long requests;
	const char *from = getenv("REFUSED");
	long first = from != NULL ? atol(from) : 0;

	requests++;
	return first != 0 && requests >= first && requests < first + 4;
}

void *__wrap_malloc(size_t size)
{
	return is_refused() ? NULL : __real_malloc(size);
}

void *__wrap_realloc(void *at, size_t size)
{
	return is_refused() ? NULL : __real_realloc(at, size);
}
