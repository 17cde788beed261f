/* What a compiler may call where the machine has no instruction for it: moves of bytes, and arithmetic of 128 bits. Not proved. */
#include <stddef.h>
#include <stdint.h>

typedef unsigned __int128 wide;

void *memcpy(void *to, const void *from, size_t size) { return __builtin_memcpy(to, from, size); }
void *memmove(void *to, const void *from, size_t size) { return __builtin_memmove(to, from, size); }
void *memset(void *to, int byte, size_t size) { return __builtin_memset(to, byte, size); }

int memcmp(const void *a, const void *b, size_t size)
{
	const uint8_t *x = a, *y = b;

	for (size_t k = 0; k < size; k++)
		if (x[k] != y[k])
			return x[k] < y[k] ? -1 : 1;
	return 0;
}

int bcmp(const void *a, const void *b, size_t size) { return memcmp(a, b, size); }

static wide joined(uint64_t high, uint64_t low)
{
	union { uint64_t half[2]; wide whole; } both = {{low, high}};

	return both.whole;
}

static uint64_t high_of(wide number)
{
	union { wide whole; uint64_t half[2]; } both = {number};

	return both.half[1];
}

wide __ashlti3(wide number, int by)
{
	uint64_t low = (uint64_t)number, high = high_of(number);

	if (by == 0)
		return number;
	return by < 64 ? joined(high << by | low >> (64 - by), low << by) : joined(low << (by - 64), 0);
}

wide __lshrti3(wide number, int by)
{
	uint64_t low = (uint64_t)number, high = high_of(number);

	if (by == 0)
		return number;
	return by < 64 ? joined(high >> by, low >> by | high << (64 - by)) : joined(0, high >> (by - 64));
}

/* Long multiplication, with digits of 32 bits. */
wide __multi3(wide a, wide b)
{
	uint64_t a0 = (uint32_t)a, a1 = (uint64_t)a >> 32, b0 = (uint32_t)b, b1 = (uint64_t)b >> 32;
	uint64_t low = a0 * b0, left = a1 * b0, right = a0 * b1;
	uint64_t middle = (low >> 32) + (uint32_t)left + (uint32_t)right;
	uint64_t high = a1 * b1 + (left >> 32) + (right >> 32) + (middle >> 32);

	return joined(high + high_of(a) * (uint64_t)b + (uint64_t)a * high_of(b), middle << 32 | (uint32_t)low);
}
