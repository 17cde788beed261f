/*
 * Structs that grow: a program whose structs are longer than the library's, as one of a later release has them, one whose
 * structs are shorter, and sizes that no release has. And the release and the texts of statuses.
 */
#include <stdio.h>
#include <stdlib.h>
#include <string.h>

#include "inputflinger.h"

#include "../../lib/sized.h"

#define CHECK(holds)                                                             \
	do {                                                                     \
		if (!(holds)) {                                                  \
			fprintf(stderr, "grown.c:%d: %s\n", __LINE__, #holds);   \
			exit(1);                                                 \
		}                                                                \
	} while (0)
#define OK(call) CHECK((call) == INPUTFLINGER_OK)

/* The structs as a later release may have them. */
struct later_message {
	struct inputflinger_message now;
	uint64_t more;
};
struct later_fault {
	struct inputflinger_fault now;
	uint64_t more;
};
struct later_state {
	struct inputflinger_state now;
	uint32_t more;
};
struct later_panel {
	struct inputflinger_panel now;
	uint32_t more;
};
struct later_window {
	struct inputflinger_window now;
	uint64_t more;
};

static const struct inputflinger_panel panel = {{0, 999}, {0, 999}, 1000, 1000, 0};

static struct later_message down(void)
{
	struct later_message m = {.now = {.kind = INPUTFLINGER_MOTION, .device = 1, .action = INPUTFLINGER_DOWN, .count = 1}};

	m.now.pointers[0] = (struct inputflinger_pointer){10, 20, 3};
	return m;
}

/* A later program's judge: what it has beyond is 0 or refused, and is written as 0. */
static void later_judge(void)
{
	struct inputflinger_judge judge = {0};
	struct later_message m = down();
	struct later_fault fault;
	struct later_state state;

	OK(inputflinger_judge_new(&judge));
	m.more = 1;
	CHECK(inputflinger_judge_step_sized(&judge, &m.now, sizeof m, NULL, 0) == INPUTFLINGER_OUT_OF_RANGE);
	m.more = 0;
	OK(inputflinger_judge_step_sized(&judge, &m.now, sizeof m, NULL, 0));
	memset(&fault, 0x55, sizeof fault);
	CHECK(inputflinger_judge_step_sized(&judge, &m.now, sizeof m, &fault.now, sizeof fault) == INPUTFLINGER_BROKEN);
	CHECK(fault.now.place == 1 && fault.now.held == 8 && fault.now.reason == INPUTFLINGER_REASON_ALREADY_DOWN && fault.more == 0);
	memset(&state, 0x55, sizeof state);
	OK(inputflinger_judge_state_sized(&judge, &state.now, sizeof state));
	CHECK(state.now.ids[0] == 8 && state.now.focus == 0 && state.more == 0);
	OK(inputflinger_judge_free(&judge));
}

/* Sizes that no release has: nothing changes and nothing is written. A free handle is said to be free all the same. */
static void other_sizes(void)
{
	struct inputflinger_judge judge = {0};
	struct inputflinger_live live = {0};
	struct inputflinger_client client = {0, 1};
	struct inputflinger_message m = down().now;
	struct inputflinger_fault fault = {.place = 77};
	struct inputflinger_state state = {.focus = 77};
	struct inputflinger_window window = {.client = client};
	struct inputflinger_repeats repeats = {1000, 1000};
	uint8_t device = 77;
	bool last = true;

	for (int open = 0; open < 2; open++) {
		int wanted = open ? INPUTFLINGER_OUT_OF_RANGE : INPUTFLINGER_FREE;

		CHECK(inputflinger_judge_step_sized(&judge, &m, MESSAGE_FIRST - 1, &fault, sizeof fault) == wanted);
		CHECK(inputflinger_judge_step_sized(&judge, &m, sizeof m, &fault, sizeof fault - 1) == wanted);
		CHECK(inputflinger_judge_state_sized(&judge, &state, sizeof state - 1) == wanted);
		CHECK(inputflinger_live_new_sized(&live, 1000000, &repeats, REPEATS_FIRST - 1, NULL) == (open ? INPUTFLINGER_TAKEN : INPUTFLINGER_OUT_OF_RANGE));
		CHECK(inputflinger_live_add_touch_sized(&live, 0, 1, &panel, sizeof panel - 1, &device) == wanted);
		CHECK(inputflinger_live_args_sized(&live, 0, &m, MESSAGE_FIRST - 1) == wanted);
		CHECK(inputflinger_live_windows_sized(&live, 0, &window, WINDOW_FIRST - 1, 1, NULL, 0, NULL) == wanted);
		CHECK(inputflinger_live_window_sized(&live, 0, &window, WINDOW_FIRST - 1, NULL, 0) == wanted);
		CHECK(inputflinger_live_next_sized(&live, &client, &m, MESSAGE_FIRST - 1) == wanted);
		CHECK(inputflinger_live_next_any_sized(&live, &client, &m, MESSAGE_FIRST - 1, &last) == wanted && last);
		CHECK(fault.place == 77 && state.focus == 77 && device == 77 && m.count == 1);
		OK(open ? inputflinger_judge_free(&judge) : inputflinger_judge_new(&judge));
		OK(open ? inputflinger_live_free(&live) : inputflinger_live_new(&live, 1000000, NULL, NULL));
	}
}

/* A later program's compositor. */
static void later_live(void)
{
	struct inputflinger_live live = {0};
	struct inputflinger_rect rects[2] = {{0, 0, 500, 1000}, {500, 0, 1000, 1000}};
	struct later_panel long_panel = {panel, 1};
	struct later_window windows[2] = {{{.frame = rects[0], .rects = 1}, 0}, {{.frame = rects[1], .rects = 1}, 0}};
	struct later_message m = down();
	struct inputflinger_client client;
	uint64_t named = 77;
	uint8_t device = 77;
	bool last = false;

	OK(inputflinger_live_new(&live, 1000000, NULL, NULL));
	CHECK(inputflinger_live_add_touch_sized(&live, 0, 1, &long_panel.now, sizeof long_panel, &device) == INPUTFLINGER_OUT_OF_RANGE);
	long_panel.more = 0;
	OK(inputflinger_live_add_touch_sized(&live, 0, 1, &long_panel.now, sizeof long_panel, &device));
	CHECK(device == 1);
	for (int i = 0; i < 2; i++)
		OK(inputflinger_live_open(&live, &windows[i].now.client));
	windows[1].more = 1;
	CHECK(inputflinger_live_windows_sized(&live, 0, &windows[0].now, sizeof *windows, 2, rects, 2, &named) == INPUTFLINGER_OUT_OF_RANGE);
	windows[1].more = 0;
	OK(inputflinger_live_windows_sized(&live, 0, &windows[0].now, sizeof *windows, 2, rects, 2, &named));
	windows[0].more = 1;
	CHECK(inputflinger_live_window_sized(&live, 0, &windows[0].now, sizeof *windows, rects, 1) == INPUTFLINGER_OUT_OF_RANGE);
	windows[0].more = 0;
	OK(inputflinger_live_window_sized(&live, 0, &windows[0].now, sizeof *windows, rects, 1));
	m.now.pointers[0].x = 600;
	OK(inputflinger_live_args_sized(&live, 1000, &m.now, sizeof m));
	m.now.action = INPUTFLINGER_MOVE;
	OK(inputflinger_live_args_sized(&live, 1000, &m.now, sizeof m));
	memset(&m, 0x55, sizeof m);
	CHECK(inputflinger_live_next_sized(&live, &windows[0].now.client, &m.now, sizeof m) == INPUTFLINGER_NOTHING && m.now.seq != 1);
	OK(inputflinger_live_next_sized(&live, &windows[1].now.client, &m.now, sizeof m));
	CHECK(m.now.seq == 1 && m.now.pointers[0].x == 100 && m.now.pointers[0].id == 3 && m.more == 0);
	memset(&m, 0x55, sizeof m);
	OK(inputflinger_live_next_any_sized(&live, &client, &m.now, sizeof m, &last));
	CHECK(client.channel == 2 && m.now.seq == 2 && m.now.action == INPUTFLINGER_MOVE && m.more == 0 && last);
	windows[1].now.client.generation = 99;
	CHECK(inputflinger_live_windows_sized(&live, 2000, &windows[0].now, sizeof *windows, 2, rects, 2, &named) == INPUTFLINGER_NOT_OPEN && named == 1);
	OK(inputflinger_live_free(&live));
}

/* An older program over a library whose structs are longer: as lib/ reads and writes them. */
static void older(void)
{
	struct inputflinger_message m = down().now;
	struct later_message room;
	const struct later_message *read = sized_given(&room, sizeof room, MESSAGE_FIRST, &m, sizeof m);
	struct later_message told = {m, 5};
	struct {
		struct inputflinger_message m;
		unsigned char behind[8];
	} old;

	CHECK(read == &room && memcmp(&read->now, &m, sizeof m) == 0 && read->more == 0);
	memset(&old, 0x55, sizeof old);
	sized_written(&old.m, sizeof old.m, &told, sizeof told);
	CHECK(memcmp(&old.m, &m, sizeof m) == 0 && old.behind[0] == 0x55 && old.behind[7] == 0x55);
}

/* A window as the first release had it: it has no owner, so what it is over neither blocks nor marks anything. */
static void older_windows(void)
{
	struct inputflinger_live live = {0};
	struct inputflinger_rect whole[2] = {{0, 0, 1000, 1000}, {0, 0, 1000, 1000}};
	struct inputflinger_message m = down().now;
	unsigned char windows[2 * WINDOW_FIRST];
	uint8_t device;

	OK(inputflinger_live_new(&live, 1000000, NULL, NULL));
	OK(inputflinger_live_add_touch(&live, 0, 1, &panel, &device));
	for (int i = 0; i < 2; i++) {
		struct inputflinger_window window = {.frame = whole[0], .rects = 1, .flags = i == 0 ? INPUTFLINGER_NOT_TOUCHABLE : 0};

		memset(window.unused, 0x55, sizeof window.unused);
		OK(inputflinger_live_open(&live, &window.client));
		memcpy(windows + i * WINDOW_FIRST, &window, WINDOW_FIRST);
	}
	OK(inputflinger_live_windows_sized(&live, 0, (const struct inputflinger_window *)windows, WINDOW_FIRST, 2, whole, 2, NULL));
	OK(inputflinger_live_args(&live, 1000, &m));
	OK(inputflinger_live_next(&live, &(struct inputflinger_client){2, 2}, &m));
	CHECK(m.action == INPUTFLINGER_DOWN && m.flags == 0);
	OK(inputflinger_live_free(&live));
}

/* Each status has a text of its own, and no other number has one. */
static void texts(void)
{
	char version[32];

	for (int a = INPUTFLINGER_OK; a <= INPUTFLINGER_TOO_MANY_FINGERS; a++) {
		CHECK(strlen(inputflinger_status_text(a)) > 10 && strcmp(inputflinger_status_text(a), "unknown status") != 0);
		for (int b = INPUTFLINGER_OK; b < a; b++)
			CHECK(strcmp(inputflinger_status_text(a), inputflinger_status_text(b)) != 0);
	}
	CHECK(strcmp(inputflinger_status_text(INPUTFLINGER_TOO_MANY_FINGERS + 1), "unknown status") == 0);
	CHECK(strcmp(inputflinger_status_text(-1), "unknown status") == 0);
	CHECK(strcmp(inputflinger_status_text(INPUTFLINGER_NO_MEMORY), "out of memory") == 0);
	snprintf(version, sizeof version, "%d.%d.%d", INPUTFLINGER_VERSION_MAJOR, INPUTFLINGER_VERSION_MINOR, INPUTFLINGER_VERSION_MICRO);
	CHECK(strncmp(inputflinger_version(), version, strlen(version)) == 0);
}

int main(void)
{
	later_judge();
	other_sizes();
	later_live();
	older();
	older_windows();
	texts();
	return 0;
}
