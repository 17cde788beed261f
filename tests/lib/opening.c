/*
 * Clients that are opened with options, and the window that a touch goes to: each call with each of its statuses but for
 * want of memory.
 */
#include <stdio.h>
#include <stdlib.h>
#include <string.h>

#include "inputflinger.h"

#include "../../lib/sized.h"

#define CHECK(holds)                                                             \
	do {                                                                     \
		if (!(holds)) {                                                  \
			fprintf(stderr, "opening.c:%d: %s\n", __LINE__, #holds); \
			exit(1);                                                 \
		}                                                                \
	} while (0)
#define OK(call) CHECK((call) == INPUTFLINGER_OK)

#define LIMIT 5000000

typedef struct inputflinger_live live_t;
typedef struct inputflinger_client client_t;
typedef struct inputflinger_message message_t;
typedef struct inputflinger_options options_t;

static const struct inputflinger_panel panel = {{0, 1079}, {0, 2399}, 1080, 2400, 0};
static const struct inputflinger_rect screen = {0, 0, 1080, 2400};

static message_t motion(uint8_t action)
{
	message_t m = {.kind = INPUTFLINGER_MOTION, .device = 1, .action = action, .count = 1, .user_data = 99};

	m.pointers[0] = (struct inputflinger_pointer){540, 1200, 0};
	return m;
}

static void free_handles(void)
{
	live_t live = {0};
	options_t options = {7, 1};
	client_t client = {1, 1};
	uint64_t number = 7;

	CHECK(inputflinger_live_open_with(&live, &options, &client) == INPUTFLINGER_FREE);
	CHECK(inputflinger_live_open_with_sized(&live, &options, OPTIONS_FIRST - 1, &client) == INPUTFLINGER_FREE);
	CHECK(inputflinger_live_user_data(&live, &client, &number) == INPUTFLINGER_FREE && number == 7);
	CHECK(inputflinger_live_window_at(&live, 0, 0, 0, &client) == INPUTFLINGER_FREE);
	CHECK(client.channel == 1 && client.generation == 1);
}

static void nulls(void)
{
	live_t live = {0};
	options_t options = {0};
	client_t client = {1, 1};
	uint64_t number;

	CHECK(inputflinger_live_open_with(NULL, &options, &client) == INPUTFLINGER_NULL);
	CHECK(inputflinger_live_open_with_sized(&live, NULL, sizeof options, &client) == INPUTFLINGER_NULL);
	CHECK(inputflinger_live_open_with(&live, &options, NULL) == INPUTFLINGER_NULL);
	CHECK(inputflinger_live_user_data(NULL, &client, &number) == INPUTFLINGER_NULL);
	CHECK(inputflinger_live_user_data(&live, NULL, &number) == INPUTFLINGER_NULL);
	CHECK(inputflinger_live_user_data(&live, &client, NULL) == INPUTFLINGER_NULL);
	CHECK(inputflinger_live_window_at(NULL, 0, 0, 0, &client) == INPUTFLINGER_NULL);
	CHECK(inputflinger_live_window_at(&live, 0, 0, 0, NULL) == INPUTFLINGER_NULL);
}

/* Options that are longer than the library's, and what is out of range: nothing is opened. */
static void ranges(void)
{
	struct {
		options_t now;
		uint64_t more;
	} later = {{7, 0}, 1};
	live_t live = {0};
	options_t options = {7, 2};
	client_t client = {77, 7};
	uint64_t number = 77;

	OK(inputflinger_live_new(&live, LIMIT, NULL, NULL));
	CHECK(inputflinger_live_open_with(&live, &options, &client) == INPUTFLINGER_OUT_OF_RANGE);
	options.finishes = 255;
	CHECK(inputflinger_live_open_with(&live, &options, &client) == INPUTFLINGER_OUT_OF_RANGE);
	CHECK(inputflinger_live_open_with_sized(&live, &options, OPTIONS_FIRST - 1, &client) == INPUTFLINGER_OUT_OF_RANGE);
	CHECK(inputflinger_live_open_with_sized(&live, &later.now, sizeof later, &client) == INPUTFLINGER_OUT_OF_RANGE);
	CHECK(client.channel == 7 && client.generation == 77);
	CHECK(inputflinger_live_user_data(&live, &client, &number) == INPUTFLINGER_NOT_OPEN && number == 77);
	later.more = 0;
	OK(inputflinger_live_open_with_sized(&live, &later.now, sizeof later, &client));
	CHECK(client.channel == 1 && client.generation == 1);
	options.finishes = 1;
	for (int i = 1; i < 64; i++)
		OK(inputflinger_live_open_with(&live, &options, &client));
	client.channel = 70;
	CHECK(inputflinger_live_open_with(&live, &options, &client) == INPUTFLINGER_FULL && client.channel == 70);
	OK(inputflinger_live_free(&live));
}

/* What a client was opened with is its own: a later one on its channel has other options. */
static void user_data(void)
{
	live_t live = {0};
	options_t options = {UINT64_MAX, 0};
	client_t first = {0}, second = {0}, other = {0};
	uint64_t number = 0;

	OK(inputflinger_live_new(&live, LIMIT, NULL, NULL));
	OK(inputflinger_live_open_with(&live, &options, &first));
	OK(inputflinger_live_open(&live, &other));
	OK(inputflinger_live_user_data(&live, &first, &number));
	CHECK(number == UINT64_MAX);
	OK(inputflinger_live_user_data(&live, &other, &number));
	CHECK(number == 0);
	OK(inputflinger_live_close(&live, 0, &first));
	CHECK(inputflinger_live_user_data(&live, &first, &number) == INPUTFLINGER_NOT_OPEN);
	options.user_data = 5;
	OK(inputflinger_live_open_with(&live, &options, &second));
	CHECK(second.channel == 1 && second.generation == 3);
	CHECK(inputflinger_live_user_data(&live, &first, &number) == INPUTFLINGER_NOT_OPEN && number == 0);
	OK(inputflinger_live_user_data(&live, &second, &number));
	CHECK(number == 5);
	OK(inputflinger_live_free(&live));
}

static void give(live_t *live, uint64_t now, uint8_t action)
{
	message_t m = motion(action);

	OK(inputflinger_live_args(live, now, &m));
}

/* One client finishes by itself, and another one by calls. Messages have the user data of their client. */
static void finishes(void)
{
	live_t live = {0};
	options_t options[2] = {{11, 1}, {12, 0}};
	client_t clients[2] = {{0}}, k;
	struct inputflinger_window windows[2];
	struct inputflinger_rect rects[2] = {screen, screen};
	message_t m;
	uint64_t number;
	uint8_t device;
	bool last;

	OK(inputflinger_live_new(&live, LIMIT, NULL, NULL));
	OK(inputflinger_live_add_touch(&live, 0, 10, &panel, &device));
	for (int i = 0; i < 2; i++) {
		OK(inputflinger_live_open_with(&live, &options[i], &clients[i]));
		windows[i] = (struct inputflinger_window){.client = clients[i], .frame = screen, .rects = 1, .flags = i == 0 ? INPUTFLINGER_SPY : 0};
	}
	OK(inputflinger_live_windows(&live, 0, windows, 2, rects, 2, NULL));
	give(&live, 1000, INPUTFLINGER_DOWN);
	memset(&m, 0x55, sizeof m);
	OK(inputflinger_live_next(&live, &clients[0], &m));
	CHECK(m.seq == 1 && m.action == INPUTFLINGER_DOWN && m.user_data == 11);
	CHECK(inputflinger_live_finish(&live, 1000, &clients[0], 1) == INPUTFLINGER_UNKNOWN_SEQ);
	OK(inputflinger_live_next(&live, &clients[1], &m));
	CHECK(m.seq == 1 && m.user_data == 12);
	OK(inputflinger_live_finish(&live, 1000, &clients[1], 1));
	CHECK(inputflinger_live_due(&live, &number) == INPUTFLINGER_NOTHING);
	give(&live, 2000, INPUTFLINGER_MOVE);
	OK(inputflinger_live_due(&live, &number));
	CHECK(number == 2000 + LIMIT);
	memset(&m, 0x55, sizeof m);
	OK(inputflinger_live_next_any(&live, &k, &m, &last));
	CHECK(k.channel == 1 && m.seq == 2 && m.user_data == 11 && !last);
	OK(inputflinger_live_next_any(&live, &k, &m, &last));
	CHECK(k.channel == 2 && m.seq == 2 && m.user_data == 12 && last);
	OK(inputflinger_live_due(&live, &number));
	CHECK(number == 2000 + LIMIT);
	OK(inputflinger_live_finish_through(&live, 2000, &clients[1], 2));
	CHECK(inputflinger_live_due(&live, &number) == INPUTFLINGER_NOTHING);
	/* It never has more than 64 messages unfinished, if it receives them. */
	for (uint64_t i = 3; i < 200; i++) {
		give(&live, i * 1000, INPUTFLINGER_MOVE);
		OK(inputflinger_live_next(&live, &clients[0], &m));
		CHECK(m.seq == i && m.moment_us == i * 1000);
	}
	OK(inputflinger_live_free(&live));
}

/* A message as the first release has it: the user data is not written. */
static void older_message(void)
{
	live_t live = {0};
	options_t options = {11, 0};
	client_t client;
	struct inputflinger_window window;
	message_t m;
	uint8_t device;

	OK(inputflinger_live_new(&live, LIMIT, NULL, NULL));
	OK(inputflinger_live_add_touch(&live, 0, 10, &panel, &device));
	OK(inputflinger_live_open_with(&live, &options, &client));
	window = (struct inputflinger_window){.client = client, .frame = screen, .rects = 1};
	OK(inputflinger_live_windows(&live, 0, &window, 1, &screen, 1, NULL));
	give(&live, 1000, INPUTFLINGER_DOWN);
	memset(&m, 0x55, sizeof m);
	OK(inputflinger_live_next_sized(&live, &client, &m, MESSAGE_FIRST));
	CHECK(m.seq == 1 && m.pointers[0].y == 1200 && m.user_data == UINT64_C(0x5555555555555555));
	OK(inputflinger_live_free(&live));
}

static void at(const live_t *live, uint8_t display, int32_t x, int32_t y, uint32_t channel)
{
	client_t client = {77, 77};
	int status = inputflinger_live_window_at(live, display, x, y, &client);

	if (channel == 0)
		CHECK(status == INPUTFLINGER_NOTHING && client.channel == 77);
	else
		CHECK(status == INPUTFLINGER_OK && client.channel == channel);
}

/* The window that a touch goes to: the first one from the front that is there and no spy. */
static void window_at(void)
{
	static const struct inputflinger_displays displays = {{0, 0, 0, 0, 0, 0, 0, 1}};
	struct inputflinger_rect rects[5] = {{0, 0, 1080, 2400}, {540, 0, 1080, 2400}, {0, 0, 540, 1200}, {0, 0, 1080, 2400}, {0, 0, 100, 100}};
	struct inputflinger_window windows[5] = {0};
	live_t live = {0};
	client_t client = {77, 77};

	OK(inputflinger_live_new(&live, LIMIT, NULL, &displays));
	at(&live, 0, 0, 0, 0);
	for (int i = 0; i < 5; i++) {
		windows[i].frame = rects[i];
		windows[i].rects = 1;
		if (i != 1)
			OK(inputflinger_live_open(&live, &windows[i].client));
	}
	windows[0].flags = INPUTFLINGER_SPY;
	windows[4].display = 1;
	OK(inputflinger_live_windows(&live, 0, windows, 5, rects, 5, NULL));
	at(&live, 0, 0, 0, 2);
	at(&live, 0, 539, 1199, 2);
	at(&live, 0, 539, 1200, 3);
	at(&live, 0, 540, 0, 0);
	at(&live, 0, -1, 0, 0);
	at(&live, 0, INT32_MAX, INT32_MIN, 0);
	at(&live, 1, 99, 99, 4);
	at(&live, 1, 100, 99, 0);
	at(&live, 2, 0, 0, 0);
	CHECK(inputflinger_live_window_at(&live, 4, 0, 0, &client) == INPUTFLINGER_OUT_OF_RANGE && client.channel == 77);
	windows[2].flags = INPUTFLINGER_NOT_TOUCHABLE;
	OK(inputflinger_live_windows(&live, 0, windows, 5, rects, 5, NULL));
	at(&live, 0, 0, 0, 3);
	OK(inputflinger_live_close(&live, 0, &windows[3].client));
	at(&live, 0, 0, 0, 0);
	OK(inputflinger_live_free(&live));
}

int main(void)
{
	free_handles();
	nulls();
	ranges();
	user_data();
	finishes();
	older_message();
	window_at();
	return 0;
}
