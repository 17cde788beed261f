/*
 * Ten million events go through a live service: a finger that goes down, moves and goes up again, and a client that is
 * done with each message. Its memory does not grow.
 */
#include <stdio.h>
#include <stdlib.h>
#include <sys/resource.h>

#include "inputflinger.h"

#define EVENTS 10000000

static const struct { uint16_t type, code; int32_t value; } packet[] = {
	{3, 57, 45}, {3, 53, 100}, {3, 54, 200}, {0, 0, 0}, {3, 53, 300}, {0, 0, 0}, {3, 53, 310}, {0, 0, 0}, {3, 57, -1}, {0, 0, 0},
};

static long peak(void)
{
	struct rusage usage;

	getrusage(RUSAGE_SELF, &usage);
	return usage.ru_maxrss;
}

static void demand(int status)
{
	if (status != INPUTFLINGER_OK) {
		fprintf(stderr, "long_live.c: status %d\n", status);
		exit(1);
	}
}

int main(void)
{
	const struct inputflinger_panel panel = {{0, 1079}, {0, 2399}, 1080, 2400, 0};
	struct inputflinger_live live = {0};
	struct inputflinger_client client;
	struct inputflinger_window window = {0};
	struct inputflinger_message message;
	uint64_t now = 0, messages = 0, mask;
	uint8_t device;
	long before = 0;

	demand(inputflinger_live_new(&live, 5000000, NULL, NULL));
	demand(inputflinger_live_add_touch(&live, 0, 10, &panel, &device));
	demand(inputflinger_live_open(&live, &client));
	window.client = client;
	window.rects = 1;
	window.frame = (struct inputflinger_rect){0, 0, 1080, 2400};
	demand(inputflinger_live_windows(&live, 0, &window, 1, &window.frame, 1, NULL));
	for (uint32_t i = 0; i < EVENTS; i++) {
		size_t k = i % (sizeof packet / sizeof *packet);

		if (i == EVENTS / 100)
			before = peak();
		now += 1000;
		demand(inputflinger_live_advance(&live, now, &mask));
		demand(inputflinger_live_event(&live, now, device, packet[k].type, packet[k].code, packet[k].value));
		while (inputflinger_live_next(&live, &client, &message) == INPUTFLINGER_OK) {
			demand(inputflinger_live_finish(&live, now, &client, message.seq));
			messages++;
		}
	}
	if (peak() > before + 256 || messages != EVENTS / 10 * 4) {
		fprintf(stderr, "long_live.c: memory grew from %ld to %ld KiB, or %llu messages\n", before, peak(), (unsigned long long)messages);
		return 1;
	}
	return inputflinger_live_free(&live);
}
