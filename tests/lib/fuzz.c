/*
 * A fuzz of calls: in random order, of handles that are free and such that are not, with messages whose numbers are in
 * their ranges and such whose numbers are not. Beside the judges it keeps what the answers have to be where that is
 * plain: whether a handle is free, and whether numbers are in their ranges.
 *
 *     fuzz CALLS NUMBER    so many calls, beginning at a number
 */
#include <stdio.h>
#include <stdlib.h>
#include <string.h>

#include "inputflinger.h"

#define JUDGES 8

static uint64_t state;

/* The next number, below a bound. */
static uint32_t below(uint32_t bound)
{
	state = state * UINT64_C(6364136223846793005) + UINT64_C(1442695040888963407);
	return (uint32_t)((state >> 33) % bound);
}

/* A number that is at most `most` but for one time of 64. */
static uint32_t mostly(uint32_t most)
{
	return below(64) == 0 ? below(256) : below(most + 1);
}

static struct inputflinger_message message(void)
{
	struct inputflinger_message m;
	uint8_t *bytes = (uint8_t *)&m;
	uint32_t id = 0;

	for (size_t i = 0; i < sizeof m; i++)
		bytes[i] = (uint8_t)below(256);
	m.moment_us = below(64) == 0 ? UINT64_C(1000000000000000000) + below(2) : below(1000000);
	m.kind = mostly(2);
	m.flags = below(4) == 0 ? INPUTFLINGER_FLAG_CANCELED : mostly(0);
	m.repeat = mostly(2);
	m.scan = (uint16_t)below(4);
	m.device = (uint8_t)mostly(2);
	m.action = (uint8_t)mostly(6);
	m.count = (uint8_t)mostly(3);
	m.index = (uint8_t)mostly(m.count);
	m.down = (uint8_t)mostly(1);
	m.focus = (uint8_t)mostly(1);
	for (size_t i = 0; i < INPUTFLINGER_MAX_POINTERS; i++) {
		m.pointers[i].id = below(64) == 0 ? below(64) : id + below(2);
		id = m.pointers[i].id + 1;
	}
	return m;
}

/* Whether the numbers that are looked at are in their ranges. */
static bool is_in_range(const struct inputflinger_message *m)
{
	uint32_t least = 0;

	if (m->moment_us > UINT64_C(1000000000000000000) || m->kind > INPUTFLINGER_FOCUS)
		return false;
	if (m->kind == INPUTFLINGER_FOCUS)
		return m->focus <= 1;
	if (m->device < 1 || m->device > INPUTFLINGER_MAX_DEVICES)
		return false;
	if (m->kind == INPUTFLINGER_KEY)
		return m->down <= 1;
	if (m->action > INPUTFLINGER_POINTER_UP || m->count > INPUTFLINGER_MAX_POINTERS)
		return false;
	for (uint8_t i = 0; i < m->count; i++) {
		if (m->pointers[i].id < least || m->pointers[i].id > 31)
			return false;
		least = m->pointers[i].id + 1;
	}
	return true;
}

static void demand(bool holds, const char *text, uint64_t call)
{
	if (!holds) {
		fprintf(stderr, "fuzz.c: call %llu: %s\n", (unsigned long long)call, text);
		exit(1);
	}
}

int main(int count, char **words)
{
	struct inputflinger_judge judges[JUDGES] = {{0}};
	bool open[JUDGES] = {false};
	uint64_t accepted[JUDGES] = {0};
	uint64_t calls = count > 1 ? strtoull(words[1], NULL, 10) : 1000000;
	uint64_t taken = 0;

	state = count > 2 ? strtoull(words[2], NULL, 10) : 1;
	for (uint64_t call = 0; call < calls; call++) {
		uint32_t i = below(JUDGES), what = below(64);
		struct inputflinger_message m = message();
		struct inputflinger_fault fault = {0};
		struct inputflinger_state told = {0};
		struct inputflinger_key keys[5];
		int status;

		if (what == 0) {
			status = inputflinger_judge_free(&judges[i]);
			demand(status == (open[i] ? INPUTFLINGER_OK : INPUTFLINGER_FREE), "free", call);
			open[i] = false;
		} else if (what < 4) {
			status = inputflinger_judge_new(&judges[i]);
			demand(status == (open[i] ? INPUTFLINGER_TAKEN : INPUTFLINGER_OK), "new", call);
			accepted[i] = open[i] ? accepted[i] : 0;
			open[i] = true;
		} else if (what < 8) {
			status = inputflinger_judge_state(&judges[i], &told);
			demand(status == (open[i] ? INPUTFLINGER_OK : INPUTFLINGER_FREE) && told.focus <= 1, "state", call);
		} else if (what < 10) {
			size_t room = below(5), number = 77;

			status = inputflinger_judge_keys(&judges[i], keys, room, &number);
			demand(open[i] ? status == (number <= room ? INPUTFLINGER_OK : INPUTFLINGER_NO_ROOM) && number <= 32
				       : status == INPUTFLINGER_FREE && number == 77, "keys", call);
		} else {
			status = inputflinger_judge_step(&judges[i], &m, what < 12 ? NULL : &fault);
			if (!open[i])
				demand(status == INPUTFLINGER_FREE, "a free handle", call);
			else if (!is_in_range(&m))
				demand(status == INPUTFLINGER_OUT_OF_RANGE, "out of range", call);
			else if (status == INPUTFLINGER_OK)
				accepted[i]++, taken++;
			else
				demand(status == INPUTFLINGER_BROKEN && (what < 12 || fault.place == accepted[i]), "broken", call);
		}
	}
	for (uint32_t i = 0; i < JUDGES; i++)
		inputflinger_judge_free(&judges[i]);
	demand(taken > calls / 1000, "few messages were accepted", calls);
	printf("%llu of %llu calls were messages that were accepted\n", (unsigned long long)taken, (unsigned long long)calls);
	return 0;
}
