/*
 * Shows 64 windows of 64 rectangles each, again and again, each time a pixel farther or back. Prints a line for each shape
 * of their regions: its name, and the microseconds of processor time of a call.
 *
 *     regions CALLS
 */
#include <stdio.h>
#include <stdlib.h>
#include <time.h>

#include "inputflinger.h"

#define WINDOWS 64
#define RECTS 64

static void demand(int status)
{
	if (status != INPUTFLINGER_OK) {
		fprintf(stderr, "regions.c: status %d\n", status);
		exit(1);
	}
}

static double clock_us(void)
{
	struct timespec t;

	clock_gettime(CLOCK_PROCESS_CPUTIME_ID, &t);
	return (double)t.tv_sec * 1e6 + (double)t.tv_nsec / 1e3;
}

static struct inputflinger_rect sized(int32_t left, int32_t top, int32_t width, int32_t height)
{
	return (struct inputflinger_rect){left, top, left + width, top + height};
}

/* 64 bands of one rectangle, as of a rounded window. */
static struct inputflinger_rect rounded(int32_t n)
{
	int32_t inset = n < 32 ? 64 - 2 * n : 2 * n - 63;

	return sized(inset, 10 * n, 1000 - 2 * inset, 10);
}

/* 8 bands of 8 rectangles, with gaps: first by their top edges, then by their left ones. */
static struct inputflinger_rect gaps(int32_t n)
{
	return sized(n % 8 * 100, n / 8 * 100, 50, 50);
}

static struct inputflinger_rect backwards(int32_t n)
{
	return gaps(RECTS - 1 - n);
}

/* The same wherever this is called: the steps are those of numbers without a common factor. */
static struct inputflinger_rect anywhere(int32_t n)
{
	return sized(n * 677 % 900, n * 1361 % 2200, 20 + n * 37 % 100, 20 + n * 53 % 150);
}

static struct inputflinger_rect stairs(int32_t n)
{
	return sized(10 * n, 20 * n, 200, 400);
}

static const struct {
	const char *name;
	struct inputflinger_rect (*rect)(int32_t n);
} shapes[] = {{"rounded", rounded}, {"gaps", gaps}, {"backwards", backwards}, {"anywhere", anywhere}, {"stairs", stairs}};

/* The windows of all clients, one below the other, with all rectangles this many pixels to the right. */
static void fill(struct inputflinger_window *windows, struct inputflinger_rect *rects,
		 struct inputflinger_rect (*rect)(int32_t), int32_t by)
{
	for (int32_t w = 0; w < WINDOWS; w++) {
		windows[w].frame = sized(by, w, 1080, 2400);
		windows[w].rects = RECTS;
		for (int32_t n = 0; n < RECTS; n++) {
			struct inputflinger_rect *r = &rects[w * RECTS + n];

			*r = rect(n);
			*r = sized(r->left + by, r->top + w, r->right - r->left, r->bottom - r->top);
		}
	}
}

int main(int count, char **words)
{
	static struct inputflinger_window windows[WINDOWS];
	static struct inputflinger_rect rects[2][WINDOWS * RECTS];
	uint64_t calls = count > 1 ? strtoull(words[1], NULL, 10) : 100, now = 0;
	struct inputflinger_live live = {0};

	demand(inputflinger_live_new(&live, 5000000, NULL));
	for (int w = 0; w < WINDOWS; w++)
		demand(inputflinger_live_open(&live, &windows[w].client));
	for (size_t s = 0; s < sizeof shapes / sizeof *shapes; s++) {
		double from;

		fill(windows, rects[0], shapes[s].rect, 0);
		fill(windows, rects[1], shapes[s].rect, 1);
		from = clock_us();
		for (uint64_t n = 0; n < calls; n++)
			demand(inputflinger_live_windows(&live, now++, windows, WINDOWS, rects[n % 2], WINDOWS * RECTS, NULL));
		printf("%s %.0f\n", shapes[s].name, (clock_us() - from) / (double)calls);
	}
	return inputflinger_live_free(&live);
}
