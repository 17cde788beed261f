/*
 * Rounds of one finger through the C interface: three events of the panel (x, y and a SYN_REPORT), the client's next
 * message, and that it is done with it. Prints the nanoseconds of a round.
 *
 *     lib ROUNDS
 */
#include <stdio.h>
#include <stdlib.h>
#include <time.h>

#include "inputflinger.h"

static void demand(int status)
{
	if (status != INPUTFLINGER_OK) {
		fprintf(stderr, "lib.c: status %d\n", status);
		exit(1);
	}
}

static double clock_ns(void)
{
	struct timespec t;

	clock_gettime(CLOCK_MONOTONIC, &t);
	return (double)t.tv_sec * 1e9 + (double)t.tv_nsec;
}

/* A panel with a finger, and a client whose window it is over. */
static struct inputflinger_client begin(struct inputflinger_live *live, uint8_t *panel)
{
	const struct inputflinger_panel shape = {{0, 1079}, {0, 2399}, 1080, 2400, 0};
	struct inputflinger_window window = {.rects = 1, .frame = {0, 0, 1080, 2400}};

	demand(inputflinger_live_new(live, 5000000, NULL, NULL));
	demand(inputflinger_live_add_touch(live, 0, 10, &shape, panel));
	demand(inputflinger_live_open(live, &window.client));
	demand(inputflinger_live_windows(live, 0, &window, 1, &window.frame, 1, NULL));
	demand(inputflinger_live_event(live, 0, *panel, 3, 57, 45));
	return window.client;
}

static void round_of(struct inputflinger_live *live, uint8_t panel, const struct inputflinger_client *client, uint64_t n)
{
	struct inputflinger_message message;
	uint64_t now = 1000 * (n + 1);

	demand(inputflinger_live_event(live, now, panel, 3, 53, (int32_t)(n % 1080)));
	demand(inputflinger_live_event(live, now, panel, 3, 54, (int32_t)(n % 2400)));
	demand(inputflinger_live_event(live, now, panel, 0, 0, 0));
	demand(inputflinger_live_next(live, client, &message));
	demand(inputflinger_live_finish(live, now, client, message.seq));
}

int main(int count, char **words)
{
	uint64_t rounds = count > 1 ? strtoull(words[1], NULL, 10) : 1000000;
	struct inputflinger_live live = {0};
	uint8_t panel;
	struct inputflinger_client client = begin(&live, &panel);
	double from = clock_ns();

	for (uint64_t n = 0; n < rounds; n++)
		round_of(&live, panel, &client, n);
	printf("%.0f\n", (clock_ns() - from) / (double)rounds);
	return inputflinger_live_free(&live);
}
