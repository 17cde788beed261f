/*
 * The calls of a judge: each status, each reason, and what stays after a refusal.
 */
#include <inttypes.h>
#include <stdio.h>
#include <stdlib.h>
#include <string.h>

#include "inputflinger.h"

static int line;

static void check(int number, const char *text, bool holds)
{
	if (!holds) {
		fprintf(stderr, "judge.c:%d: %s\n", number, text);
		exit(1);
	}
	line = number;
}

#define CHECK(holds) check(__LINE__, #holds, (holds))

/* A motion whose pointers are the bits of a set, each at a place of its own. */
static struct inputflinger_message motion(uint8_t device, uint8_t action, uint8_t index, uint32_t ids)
{
	struct inputflinger_message m = {0};

	m.seq = 1;
	m.moment_us = 1000;
	m.kind = INPUTFLINGER_MOTION;
	m.device = device;
	m.action = action;
	m.index = index;
	for (uint32_t id = 0; id < 32; id++) {
		if ((ids >> id & 1) != 0 && m.count < INPUTFLINGER_MAX_POINTERS) {
			m.pointers[m.count] = (struct inputflinger_pointer){540 + (int32_t)id, -1200, id};
			m.count++;
		}
	}
	return m;
}

static struct inputflinger_message key(uint8_t device, uint16_t scan, uint8_t down, uint32_t repeat)
{
	struct inputflinger_message m = {0};

	m.kind = INPUTFLINGER_KEY;
	m.device = device;
	m.scan = scan;
	m.code = 24;
	m.down = down;
	m.repeat = repeat;
	return m;
}

static struct inputflinger_message focus(uint8_t has)
{
	struct inputflinger_message m = {0};

	m.kind = INPUTFLINGER_FOCUS;
	m.focus = has;
	return m;
}

/* A fault of which each byte is 0x55, so that one that is written shows. */
static struct inputflinger_fault unwritten(void)
{
	struct inputflinger_fault fault;

	memset(&fault, 0x55, sizeof fault);
	return fault;
}

static bool is_unwritten(const struct inputflinger_fault *fault)
{
	struct inputflinger_fault other = unwritten();

	return memcmp(fault, &other, sizeof other) == 0;
}

static bool same(struct inputflinger_fault fault, uint64_t place, uint64_t next_repeat, uint32_t held, uint32_t reason, uint8_t key_down,
		 uint8_t has_focus)
{
	return fault.place == place && fault.next_repeat == next_repeat && fault.held == held && fault.reason == reason &&
	       fault.key_down == key_down && fault.focus == has_focus;
}

static void accept(int number, struct inputflinger_judge *judge, struct inputflinger_message message)
{
	struct inputflinger_fault fault = unwritten();

	check(number, "accepted", inputflinger_judge_step(judge, &message, &fault) == INPUTFLINGER_OK);
	check(number, "no fault", is_unwritten(&fault));
}

#define ACCEPT(judge, message) accept(__LINE__, judge, message)

static struct inputflinger_fault refuse(int number, struct inputflinger_judge *judge, struct inputflinger_message message)
{
	struct inputflinger_fault fault = unwritten();
	struct inputflinger_state before = {0}, after = {0};

	check(number, "state", inputflinger_judge_state(judge, &before) == INPUTFLINGER_OK);
	check(number, "refused", inputflinger_judge_step(judge, &message, &fault) == INPUTFLINGER_BROKEN);
	check(number, "state", inputflinger_judge_state(judge, &after) == INPUTFLINGER_OK);
	check(number, "as it was", memcmp(before.ids, after.ids, sizeof before.ids) == 0 && before.focus == after.focus);
	return fault;
}

#define REFUSE(judge, message) refuse(__LINE__, judge, message)

static void free_handles(void)
{
	struct inputflinger_judge judge = {0};
	struct inputflinger_message message = focus(1);
	struct inputflinger_fault fault = unwritten();
	struct inputflinger_state state;
	size_t keys = 77;

	memset(&state, 0x55, sizeof state);
	CHECK(inputflinger_judge_step(&judge, &message, &fault) == INPUTFLINGER_FREE && is_unwritten(&fault));
	CHECK(inputflinger_judge_state(&judge, &state) == INPUTFLINGER_FREE && state.focus == 0x55);
	CHECK(inputflinger_judge_keys(&judge, NULL, 0, &keys) == INPUTFLINGER_FREE && keys == 77);
	CHECK(inputflinger_judge_free(&judge) == INPUTFLINGER_FREE);
	CHECK(inputflinger_judge_new(&judge) == INPUTFLINGER_OK);
	CHECK(inputflinger_judge_new(&judge) == INPUTFLINGER_TAKEN);
	CHECK(inputflinger_judge_free(&judge) == INPUTFLINGER_OK);
	CHECK(inputflinger_judge_free(&judge) == INPUTFLINGER_FREE);
	CHECK(inputflinger_judge_new(&judge) == INPUTFLINGER_OK);
	CHECK(inputflinger_judge_free(&judge) == INPUTFLINGER_OK);
}

static void nulls(void)
{
	struct inputflinger_judge judge = {0};
	struct inputflinger_message message = focus(1);
	struct inputflinger_fault fault = unwritten();
	struct inputflinger_state state;
	size_t keys = 77;

	CHECK(inputflinger_judge_new(NULL) == INPUTFLINGER_NULL);
	CHECK(inputflinger_judge_new(&judge) == INPUTFLINGER_OK);
	CHECK(inputflinger_judge_step(NULL, &message, &fault) == INPUTFLINGER_NULL);
	CHECK(inputflinger_judge_step(&judge, NULL, &fault) == INPUTFLINGER_NULL && is_unwritten(&fault));
	CHECK(inputflinger_judge_step(&judge, &message, NULL) == INPUTFLINGER_OK);
	CHECK(inputflinger_judge_step(&judge, &message, NULL) == INPUTFLINGER_BROKEN);
	CHECK(inputflinger_judge_state(NULL, &state) == INPUTFLINGER_NULL);
	CHECK(inputflinger_judge_state(&judge, NULL) == INPUTFLINGER_NULL);
	CHECK(inputflinger_judge_keys(NULL, NULL, 0, &keys) == INPUTFLINGER_NULL);
	CHECK(inputflinger_judge_keys(&judge, NULL, 1, &keys) == INPUTFLINGER_NULL && keys == 77);
	CHECK(inputflinger_judge_keys(&judge, NULL, 0, NULL) == INPUTFLINGER_NULL);
	CHECK(inputflinger_judge_keys(&judge, NULL, 0, &keys) == INPUTFLINGER_OK && keys == 0);
	CHECK(inputflinger_judge_free(NULL) == INPUTFLINGER_NULL);
	CHECK(inputflinger_judge_free(&judge) == INPUTFLINGER_OK);
}

static void out_of_range(int number, struct inputflinger_judge *judge, struct inputflinger_message message)
{
	struct inputflinger_fault fault = unwritten();

	check(number, "out of range", inputflinger_judge_step(judge, &message, &fault) == INPUTFLINGER_OUT_OF_RANGE);
	check(number, "no fault", is_unwritten(&fault));
}

#define OUT_OF_RANGE(change)                             \
	do {                                             \
		m = good;                                \
		change;                                  \
		out_of_range(__LINE__, &judge, m);       \
	} while (0)

static void ranges(void)
{
	struct inputflinger_judge judge = {0};
	struct inputflinger_message m, good = motion(1, INPUTFLINGER_DOWN, 0, 0x1);

	CHECK(inputflinger_judge_new(&judge) == INPUTFLINGER_OK);
	OUT_OF_RANGE(m.moment_us = UINT64_C(1000000000000000001));
	OUT_OF_RANGE(m.kind = 3);
	OUT_OF_RANGE(m.device = 0);
	OUT_OF_RANGE(m.device = 9);
	OUT_OF_RANGE(m.action = 7);
	OUT_OF_RANGE(m.count = 17);
	OUT_OF_RANGE(m.pointers[0].id = 32);
	good = motion(1, INPUTFLINGER_DOWN, 0, 0x3);
	OUT_OF_RANGE(m.pointers[1].id = 0);
	OUT_OF_RANGE(m.pointers[0].id = 2);
	good = key(1, 115, 1, 0);
	OUT_OF_RANGE(m.device = 0);
	OUT_OF_RANGE(m.device = 9);
	OUT_OF_RANGE(m.down = 2);
	good = focus(1);
	OUT_OF_RANGE(m.focus = 2);
	/* The greatest numbers, and numbers that are not looked at. */
	m = motion(8, INPUTFLINGER_DOWN, 0, UINT32_C(1) << 31);
	m.moment_us = UINT64_C(1000000000000000000);
	m.down = 77;
	m.focus = 77;
	m.pointers[1].id = 77;
	ACCEPT(&judge, m);
	m = focus(1);
	m.device = 77;
	m.action = 77;
	m.count = 77;
	ACCEPT(&judge, m);
	m = key(1, 115, 1, 0);
	m.action = 77;
	m.count = 77;
	m.focus = 77;
	ACCEPT(&judge, m);
	CHECK(inputflinger_judge_free(&judge) == INPUTFLINGER_OK);
}

static void gestures(void)
{
	struct inputflinger_judge judge = {0};
	struct inputflinger_state state = {0};
	struct inputflinger_message m;

	CHECK(inputflinger_judge_new(&judge) == INPUTFLINGER_OK);
	CHECK(same(REFUSE(&judge, motion(1, INPUTFLINGER_MOVE, 0, 0x1)), 0, 0, 0, INPUTFLINGER_REASON_NOTHING_DOWN, 0, 0));
	CHECK(same(REFUSE(&judge, motion(1, INPUTFLINGER_DOWN, 0, 0x3)), 0, 0, 0, INPUTFLINGER_REASON_ONE_POINTER, 0, 0));
	ACCEPT(&judge, motion(1, INPUTFLINGER_OUTSIDE, 0, 0x4));
	ACCEPT(&judge, motion(1, INPUTFLINGER_DOWN, 0, 0x1));
	CHECK(same(REFUSE(&judge, motion(1, INPUTFLINGER_DOWN, 0, 0x1)), 2, 0, 0x1, INPUTFLINGER_REASON_ALREADY_DOWN, 0, 0));
	ACCEPT(&judge, motion(2, INPUTFLINGER_DOWN, 0, 0x8));
	CHECK(same(REFUSE(&judge, motion(1, INPUTFLINGER_MOVE, 0, 0x2)), 3, 0, 0x1, INPUTFLINGER_REASON_OTHER_POINTERS, 0, 0));
	CHECK(same(REFUSE(&judge, motion(1, INPUTFLINGER_POINTER_UP, 0, 0x1)), 3, 0, 0x1, INPUTFLINGER_REASON_LAST_POINTER, 0, 0));
	ACCEPT(&judge, motion(1, INPUTFLINGER_POINTER_DOWN, 1, 0x3));
	CHECK(same(REFUSE(&judge, motion(1, INPUTFLINGER_UP, 0, 0x3)), 4, 0, 0x3, INPUTFLINGER_REASON_MORE_POINTERS, 0, 0));
	m = motion(1, INPUTFLINGER_MOVE, 0, 0x3);
	m.flags = INPUTFLINGER_FLAG_CANCELED;
	CHECK(same(REFUSE(&judge, m), 4, 0, 0x3, INPUTFLINGER_REASON_FLAGS, 0, 0));
	m.flags = 4;
	CHECK(same(REFUSE(&judge, m), 4, 0, 0x3, INPUTFLINGER_REASON_FLAGS, 0, 0));
	m.flags = INPUTFLINGER_FLAG_OBSCURED | INPUTFLINGER_FLAG_PARTLY_OBSCURED;
	ACCEPT(&judge, m);
	m = motion(1, INPUTFLINGER_OUTSIDE, 0, 0x10);
	m.flags = INPUTFLINGER_FLAG_PARTLY_OBSCURED;
	CHECK(same(REFUSE(&judge, m), 5, 0, 0x3, INPUTFLINGER_REASON_FLAGS, 0, 0));
	CHECK(inputflinger_judge_state(&judge, &state) == INPUTFLINGER_OK);
	CHECK(state.ids[0] == 0x3 && state.ids[1] == 0x8 && state.ids[2] == 0 && state.ids[7] == 0 && state.focus == 0);
	m = motion(1, INPUTFLINGER_POINTER_UP, 1, 0x3);
	m.flags = INPUTFLINGER_FLAG_CANCELED | INPUTFLINGER_FLAG_OBSCURED;
	ACCEPT(&judge, m);
	ACCEPT(&judge, motion(1, INPUTFLINGER_UP, 0, 0x1));
	ACCEPT(&judge, motion(2, INPUTFLINGER_CANCEL, 0, 0x8));
	ACCEPT(&judge, motion(8, INPUTFLINGER_DOWN, 0, UINT32_C(1) << 31));
	CHECK(inputflinger_judge_state(&judge, &state) == INPUTFLINGER_OK);
	CHECK(state.ids[0] == 0 && state.ids[1] == 0 && state.ids[7] == UINT32_C(1) << 31);
	CHECK(inputflinger_judge_free(&judge) == INPUTFLINGER_OK);
}

static void keys_and_focus(void)
{
	struct inputflinger_judge judge = {0};
	struct inputflinger_state state = {0};
	struct inputflinger_key keys[4] = {{0}};
	size_t count = 0;

	CHECK(inputflinger_judge_new(&judge) == INPUTFLINGER_OK);
	CHECK(same(REFUSE(&judge, focus(0)), 0, 0, 0, INPUTFLINGER_REASON_FOCUS_TWICE, 0, 0));
	ACCEPT(&judge, focus(1));
	CHECK(same(REFUSE(&judge, focus(1)), 1, 0, 0, INPUTFLINGER_REASON_FOCUS_TWICE, 0, 1));
	CHECK(inputflinger_judge_state(&judge, &state) == INPUTFLINGER_OK && state.focus == 1);
	CHECK(same(REFUSE(&judge, key(1, 115, 0, 0)), 1, 0, 0, INPUTFLINGER_REASON_KEY_NOT_DOWN, 0, 1));
	CHECK(same(REFUSE(&judge, key(1, 115, 1, 1)), 1, 0, 0, INPUTFLINGER_REASON_REPEAT_OF_NOTHING, 0, 1));
	ACCEPT(&judge, key(1, 115, 1, 0));
	CHECK(same(REFUSE(&judge, key(1, 115, 1, 0)), 2, 1, 0, INPUTFLINGER_REASON_REPEAT_OUT_OF_TURN, 1, 1));
	ACCEPT(&judge, key(1, 115, 1, 1));
	ACCEPT(&judge, key(1, 65535, 1, 0));
	ACCEPT(&judge, key(8, 115, 1, 0));
	CHECK(inputflinger_judge_keys(&judge, NULL, 0, &count) == INPUTFLINGER_NO_ROOM && count == 3);
	CHECK(inputflinger_judge_keys(&judge, keys, 2, &count) == INPUTFLINGER_NO_ROOM && count == 3 && keys[0].device == 0);
	CHECK(inputflinger_judge_keys(&judge, keys, 4, &count) == INPUTFLINGER_OK && count == 3);
	CHECK(keys[0].device == 1 && keys[0].scan == 115 && keys[1].device == 1 && keys[1].scan == 65535);
	CHECK(keys[2].device == 8 && keys[2].scan == 115 && keys[3].device == 0 && keys[3].scan == 0);
	CHECK(same(REFUSE(&judge, key(1, 115, 0, 1)), 5, 2, 0, INPUTFLINGER_REASON_REPEAT_ON_UP, 1, 1));
	ACCEPT(&judge, key(1, 115, 0, 0));
	CHECK(same(REFUSE(&judge, key(1, 115, 0, 0)), 6, 0, 0, INPUTFLINGER_REASON_KEY_NOT_DOWN, 0, 1));
	ACCEPT(&judge, focus(0));
	CHECK(inputflinger_judge_state(&judge, &state) == INPUTFLINGER_OK && state.focus == 0);
	/* Keys that are down own memory, which goes with the judge. */
	CHECK(inputflinger_judge_free(&judge) == INPUTFLINGER_OK);
}

/* A handle that is moved is the same judge. */
static void moved(void)
{
	struct inputflinger_judge judge = {0}, other;

	CHECK(inputflinger_judge_new(&judge) == INPUTFLINGER_OK);
	ACCEPT(&judge, focus(1));
	memcpy(&other, &judge, sizeof other);
	memset(&judge, 0, sizeof judge);
	CHECK(REFUSE(&other, focus(1)).place == 1);
	CHECK(inputflinger_judge_free(&judge) == INPUTFLINGER_FREE);
	CHECK(inputflinger_judge_free(&other) == INPUTFLINGER_OK);
}

int main(void)
{
	free_handles();
	nulls();
	ranges();
	gestures();
	keys_and_focus();
	moved();
	return 0;
}
