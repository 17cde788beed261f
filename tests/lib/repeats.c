/*
 * When held keys are repeated, and which keys are down: each call with each of its statuses but for want of memory.
 */
#include <stdio.h>
#include <stdlib.h>
#include <string.h>

#include "inputflinger.h"

#include "../../lib/sized.h"

#define CHECK(holds)                                                             \
	do {                                                                     \
		if (!(holds)) {                                                  \
			fprintf(stderr, "repeats.c:%d: %s\n", __LINE__, #holds); \
			exit(1);                                                 \
		}                                                                \
	} while (0)
#define OK(call) CHECK((call) == INPUTFLINGER_OK)

#define LIMIT 5000000
#define LONGEST UINT64_C(600000000)

typedef struct inputflinger_live live_t;
typedef struct inputflinger_client client_t;
typedef struct inputflinger_message message_t;
typedef struct inputflinger_repeats repeats_t;

static const struct inputflinger_rect screen = {0, 0, 1080, 2400};

static void free_handles(void)
{
	live_t live = {0};
	uint16_t scan = 7;

	CHECK(inputflinger_live_first_key(&live, 1, 0, &scan) == INPUTFLINGER_FREE && scan == 7);
}

static void nulls(void)
{
	live_t live = {0};
	repeats_t repeats = {1000, 1000};
	uint16_t scan;

	CHECK(inputflinger_live_new(NULL, LIMIT, &repeats, NULL) == INPUTFLINGER_NULL);
	CHECK(inputflinger_live_new_sized(NULL, LIMIT, &repeats, 0, NULL) == INPUTFLINGER_NULL);
	CHECK(inputflinger_live_first_key(NULL, 1, 0, &scan) == INPUTFLINGER_NULL);
	CHECK(inputflinger_live_first_key(&live, 1, 0, NULL) == INPUTFLINGER_NULL);
}

/* What is out of range makes no service, and a handle that is not free is reported all the same. */
static void ranges(void)
{
	static const repeats_t bad[] = {{999, 1000}, {1000, 999}, {LONGEST + 1, 1000}, {1000, LONGEST + 1}, {0, 50000}, {500000, 0},
					{UINT64_MAX, UINT64_MAX}};
	static const repeats_t good[] = {{0, 0}, {1000, 1000}, {LONGEST, LONGEST}, {LONGEST, 1000}};
	struct {
		repeats_t now;
		uint64_t more;
	} later = {{1000, 1000}, 1};
	live_t live = {0};

	for (size_t i = 0; i < sizeof bad / sizeof *bad; i++)
		CHECK(inputflinger_live_new(&live, LIMIT, &bad[i], NULL) == INPUTFLINGER_OUT_OF_RANGE && !live.is_open);
	CHECK(inputflinger_live_new_sized(&live, LIMIT, &good[1], REPEATS_FIRST - 1, NULL) == INPUTFLINGER_OUT_OF_RANGE);
	CHECK(inputflinger_live_new_sized(&live, LIMIT, &later.now, sizeof later, NULL) == INPUTFLINGER_OUT_OF_RANGE && !live.is_open);
	for (size_t i = 0; i < sizeof good / sizeof *good; i++) {
		OK(inputflinger_live_new(&live, LIMIT, &good[i], NULL));
		CHECK(inputflinger_live_new(&live, LIMIT, &bad[i], NULL) == INPUTFLINGER_TAKEN);
		CHECK(inputflinger_live_new_sized(&live, LIMIT, &good[i], REPEATS_FIRST - 1, NULL) == INPUTFLINGER_TAKEN);
		OK(inputflinger_live_free(&live));
	}
	later.more = 0;
	OK(inputflinger_live_new_sized(&live, LIMIT, &later.now, sizeof later, NULL));
	OK(inputflinger_live_free(&live));
}

/* A service with these repeats, and a client whose window has the focus and is sent a key that goes down at 1,000,000. */
static void hold(live_t *live, const repeats_t *repeats, client_t *client)
{
	struct inputflinger_window window = {.frame = screen, .rects = 1};
	message_t m;
	uint8_t keyboard;

	OK(inputflinger_live_new(live, LIMIT, repeats, NULL));
	OK(inputflinger_live_add_keys(live, 0, NULL, 0, &keyboard, NULL));
	OK(inputflinger_live_open(live, client));
	window.client = *client;
	OK(inputflinger_live_windows(live, 0, &window, 1, &screen, 1, NULL));
	OK(inputflinger_live_focus(live, 0, 0, client));
	OK(inputflinger_live_event(live, 1000000, keyboard, 1, 30, 1));
	OK(inputflinger_live_next(live, client, &m));
	OK(inputflinger_live_finish(live, 1000000, client, m.seq));
	OK(inputflinger_live_next(live, client, &m));
	CHECK(m.kind == INPUTFLINGER_KEY && m.scan == 30 && m.down == 1 && m.repeat == 0);
}

static uint64_t due(const live_t *live)
{
	uint64_t us = 0;
	int status = inputflinger_live_due(live, &us);

	CHECK(status == (us != 0 ? INPUTFLINGER_OK : INPUTFLINGER_NOTHING));
	return us;
}

/* Each repeat comes when it is due, and not a microsecond before. */
static void repeated(const repeats_t *repeats, uint64_t first_us, uint64_t next_us)
{
	live_t live = {0};
	client_t client = {0};
	message_t m;
	uint64_t mask, now = 1000000 + first_us;

	hold(&live, repeats, &client);
	for (uint32_t i = 1; i <= 3; i++, now += next_us) {
		CHECK(due(&live) == now);
		OK(inputflinger_live_advance(&live, now - 1, &mask));
		CHECK(mask == 0 && inputflinger_live_next(&live, &client, &m) == INPUTFLINGER_NOTHING);
		OK(inputflinger_live_advance(&live, now, &mask));
		OK(inputflinger_live_next(&live, &client, &m));
		CHECK(mask == 0 && m.kind == INPUTFLINGER_KEY && m.down == 1 && m.repeat == i && m.moment_us == now);
	}
	OK(inputflinger_live_event(&live, now, 1, 1, 30, 0));
	OK(inputflinger_live_finish_through(&live, now, &client, m.seq));
	OK(inputflinger_live_next(&live, &client, &m));
	CHECK(m.down == 0 && m.repeat == 0 && due(&live) == m.moment_us + LIMIT);
	OK(inputflinger_live_finish(&live, now, &client, m.seq));
	CHECK(due(&live) == 0);
	OK(inputflinger_live_free(&live));
}

/* Without repeats the limit alone is due, at which the client is reported and loses the key. */
static void never(void)
{
	static const repeats_t none = {0, 0};
	live_t live = {0};
	client_t client = {0};
	message_t m;
	uint64_t mask;

	hold(&live, &none, &client);
	CHECK(due(&live) == 1000000 + LIMIT);
	OK(inputflinger_live_advance(&live, 1000000 + LIMIT - 1, &mask));
	CHECK(mask == 0 && inputflinger_live_next(&live, &client, &m) == INPUTFLINGER_NOTHING);
	OK(inputflinger_live_advance(&live, 1000000 + LIMIT, &mask));
	OK(inputflinger_live_next(&live, &client, &m));
	CHECK(mask == 1 && m.kind == INPUTFLINGER_KEY && m.down == 0 && m.flags == INPUTFLINGER_FLAG_CANCELED);
	OK(inputflinger_live_free(&live));
}

/* Once the key is finished nothing is due, however long it is held. */
static void held_and_finished(void)
{
	static const repeats_t none = {0, 0};
	live_t live = {0};
	client_t client = {0};
	message_t m;
	uint64_t mask;

	hold(&live, &none, &client);
	OK(inputflinger_live_finish(&live, 1000000, &client, 2));
	CHECK(due(&live) == 0);
	OK(inputflinger_live_advance(&live, UINT64_C(1000000000000), &mask));
	CHECK(mask == 0 && inputflinger_live_next(&live, &client, &m) == INPUTFLINGER_NOTHING);
	OK(inputflinger_live_event(&live, UINT64_C(1000000000000), 1, 1, 30, 0));
	OK(inputflinger_live_next(&live, &client, &m));
	CHECK(m.kind == INPUTFLINGER_KEY && m.down == 0 && m.flags == 0);
	OK(inputflinger_live_free(&live));
}

/* The keys that are down on a device are these, in rising order. */
static void keys(const live_t *live, uint8_t device, const uint16_t *scans, size_t count)
{
	uint32_t from = 0;
	uint16_t scan = 77;

	for (size_t i = 0; i < count; i++, from = scan + 1u) {
		OK(inputflinger_live_first_key(live, device, from, &scan));
		CHECK(scan == scans[i]);
		OK(inputflinger_live_first_key(live, device, scan, &scan));
		CHECK(scan == scans[i]);
	}
	scan = 77;
	CHECK(inputflinger_live_first_key(live, device, from, &scan) == INPUTFLINGER_NOTHING && scan == 77);
}

static void press(live_t *live, uint8_t device, uint16_t scan, int32_t value)
{
	OK(inputflinger_live_event(live, 2000000, device, 1, scan, value));
}

/* Keys are down whether or not a client is sent them, until they go up or their device goes. */
static void keys_down(void)
{
	live_t live = {0};
	uint16_t scan = 77;
	uint8_t device;

	OK(inputflinger_live_new(&live, LIMIT, NULL, NULL));
	CHECK(inputflinger_live_first_key(&live, 0, 0, &scan) == INPUTFLINGER_OUT_OF_RANGE);
	CHECK(inputflinger_live_first_key(&live, 9, 0, &scan) == INPUTFLINGER_OUT_OF_RANGE && scan == 77);
	keys(&live, 1, NULL, 0);
	OK(inputflinger_live_add_keys(&live, 0, NULL, 0, &device, NULL));
	OK(inputflinger_live_add_keys(&live, 0, NULL, 0, &device, NULL));
	CHECK(device == 2);
	keys(&live, 1, NULL, 0);
	press(&live, 1, 65535, 1);
	press(&live, 1, 30, 1);
	press(&live, 1, 32, 1);
	press(&live, 1, 31, 1);
	press(&live, 1, 0, 1);
	press(&live, 2, 767, 1);
	keys(&live, 1, (const uint16_t[]){0, 30, 31, 32, 65535}, 5);
	keys(&live, 2, (const uint16_t[]){767}, 1);
	CHECK(inputflinger_live_first_key(&live, 1, 65536, &scan) == INPUTFLINGER_NOTHING);
	CHECK(inputflinger_live_first_key(&live, 1, UINT32_MAX, &scan) == INPUTFLINGER_NOTHING);
	press(&live, 1, 30, 2);
	press(&live, 1, 31, 0);
	press(&live, 1, 0, 0);
	keys(&live, 1, (const uint16_t[]){30, 32, 65535}, 3);
	OK(inputflinger_live_remove_device(&live, 2000000, 1));
	keys(&live, 1, NULL, 0);
	keys(&live, 2, (const uint16_t[]){767}, 1);
	OK(inputflinger_live_free(&live));
}

/* A window that gets the focus while a key is down is sent nothing for it, neither then nor when it goes up. */
static void focus_under_a_key(void)
{
	struct inputflinger_window windows[2] = {{.frame = screen, .rects = 1}, {.frame = screen, .rects = 1}};
	const struct inputflinger_rect rects[2] = {screen, screen};
	live_t live = {0};
	client_t other = {0};
	message_t m;
	uint64_t mask;

	hold(&live, NULL, &windows[0].client);
	OK(inputflinger_live_open(&live, &other));
	windows[1].client = other;
	OK(inputflinger_live_windows(&live, 1100000, windows, 2, rects, 2, NULL));
	OK(inputflinger_live_focus(&live, 1200000, 0, &other));
	OK(inputflinger_live_next(&live, &windows[0].client, &m));
	CHECK(m.kind == INPUTFLINGER_KEY && m.scan == 30 && m.down == 0 && m.flags == INPUTFLINGER_FLAG_CANCELED);
	OK(inputflinger_live_next(&live, &other, &m));
	CHECK(m.kind == INPUTFLINGER_FOCUS && m.focus == 1);
	keys(&live, 1, (const uint16_t[]){30}, 1);
	OK(inputflinger_live_advance(&live, 3000000, &mask));
	press(&live, 1, 30, 0);
	CHECK(inputflinger_live_next(&live, &other, &m) == INPUTFLINGER_NOTHING);
	keys(&live, 1, NULL, 0);
	press(&live, 1, 30, 1);
	OK(inputflinger_live_next(&live, &other, &m));
	CHECK(m.kind == INPUTFLINGER_KEY && m.scan == 30 && m.down == 1 && m.repeat == 0);
	OK(inputflinger_live_free(&live));
}

int main(void)
{
	static const repeats_t own = {300000, 40000}, shortest = {1000, 1000};

	free_handles();
	nulls();
	ranges();
	repeated(NULL, 500000, 50000);
	repeated(&own, 300000, 40000);
	repeated(&shortest, 1000, 1000);
	never();
	held_and_finished();
	keys_down();
	focus_under_a_key();
	return 0;
}
