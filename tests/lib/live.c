/*
 * Each call of a live service with each of its statuses but for want of memory, and the example of crates/live_example,
 * whose text is printed with the word `example`.
 */
#include <stdlib.h>
#include <string.h>

#include "../../lib/examples/say.h"

#define CHECK(holds)                                                             \
	do {                                                                     \
		if (!(holds)) {                                                  \
			fprintf(stderr, "live.c:%d: %s\n", __LINE__, #holds);    \
			exit(1);                                                 \
		}                                                                \
	} while (0)
#define OK(call) CHECK((call) == INPUTFLINGER_OK)

#define LIMIT 5000000
#define LATEST UINT64_C(1000000000000000000)

typedef struct inputflinger_live live_t;
typedef struct inputflinger_client client_t;
typedef struct inputflinger_message message_t;

static const struct inputflinger_panel panel = {{0, 1079}, {0, 2399}, 1080, 2400, 0};

static message_t motion(uint8_t device, uint8_t action, uint8_t index, uint32_t ids, int32_t x, int32_t y)
{
	message_t m = {0};

	m.kind = INPUTFLINGER_MOTION;
	m.device = device;
	m.action = action;
	m.index = index;
	for (uint32_t id = 0; id < 32; id++)
		if (ids >> id & 1)
			m.pointers[m.count++] = (struct inputflinger_pointer){x + 100 * (int32_t)id, y, id};
	return m;
}

static message_t key(uint8_t device, uint16_t scan, uint16_t code, uint8_t down)
{
	message_t m = {0};

	m.kind = INPUTFLINGER_KEY;
	m.device = device;
	m.scan = scan;
	m.code = code;
	m.down = down;
	return m;
}

static struct inputflinger_window window(client_t client, uint32_t flags)
{
	struct inputflinger_window w = {.client = client, .frame = {0, 0, 1080, 2400}, .flags = flags, .rects = 1};

	return w;
}

static int show(live_t *live, const struct inputflinger_window *windows, size_t count, uint64_t *named)
{
	struct inputflinger_rect all[65];

	for (size_t i = 0; i < 65; i++)
		all[i] = (struct inputflinger_rect){0, 0, 1080, 2400};

	return inputflinger_live_windows(live, 0, windows, count, all, count <= 65 ? count : 65, named);
}

static message_t next(live_t *live, client_t client)
{
	message_t m;

	memset(&m, 0x55, sizeof m);
	OK(inputflinger_live_next(live, &client, &m));
	return m;
}

static void same_client(client_t a, uint32_t channel, uint64_t generation)
{
	CHECK(a.channel == channel && a.generation == generation);
}

static void free_handles(void)
{
	live_t live = {0};
	client_t client = {1, 1};
	struct inputflinger_window w = window(client, 0);
	message_t m = {0};
	uint64_t number = 7;
	uint32_t ids = 7;
	uint8_t device = 7;
	bool told = true;

	CHECK(inputflinger_live_free(&live) == INPUTFLINGER_FREE);
	CHECK(inputflinger_live_add_touch(&live, 0, 1, &panel, &device) == INPUTFLINGER_FREE && device == 7);
	CHECK(inputflinger_live_add_keys(&live, 0, "", 0, &device, &number) == INPUTFLINGER_FREE && device == 7 && number == 7);
	CHECK(inputflinger_live_remove_device(&live, 0, 1) == INPUTFLINGER_FREE);
	CHECK(inputflinger_live_event(&live, 0, 1, 0, 0, 0) == INPUTFLINGER_FREE);
	CHECK(inputflinger_live_reserve(&live, 1) == INPUTFLINGER_FREE);
	CHECK(inputflinger_live_set_most(&live, 1) == INPUTFLINGER_FREE);
	CHECK(inputflinger_live_is_choked(&live, &client, &told) == INPUTFLINGER_FREE && told);
	CHECK(inputflinger_live_touch_down(&live, 0, 1, 1, 0, 0) == INPUTFLINGER_FREE);
	CHECK(inputflinger_live_touch_motion(&live, 0, 1, 1, 0, 0) == INPUTFLINGER_FREE);
	CHECK(inputflinger_live_touch_up(&live, 0, 1, 1) == INPUTFLINGER_FREE);
	CHECK(inputflinger_live_touch_cancel(&live, 0, 1, 1) == INPUTFLINGER_FREE);
	CHECK(inputflinger_live_touch_frame(&live, 0, 1) == INPUTFLINGER_FREE);
	CHECK(inputflinger_live_args(&live, 0, &m) == INPUTFLINGER_FREE);
	CHECK(inputflinger_live_open(&live, &client) == INPUTFLINGER_FREE);
	CHECK(inputflinger_live_close(&live, 0, &client) == INPUTFLINGER_FREE);
	CHECK(inputflinger_live_is_open(&live, &client, &told) == INPUTFLINGER_FREE && told);
	CHECK(inputflinger_live_client_at(&live, 1, &client) == INPUTFLINGER_FREE);
	CHECK(inputflinger_live_windows(&live, 0, NULL, 0, NULL, 0, &number) == INPUTFLINGER_FREE && number == 7);
	CHECK(inputflinger_live_window(&live, 0, &w, NULL, 0) == INPUTFLINGER_FREE);
	CHECK(inputflinger_live_focus(&live, 0, 0, NULL) == INPUTFLINGER_FREE);
	CHECK(inputflinger_live_pilfer(&live, 0, &client, 1) == INPUTFLINGER_FREE);
	CHECK(inputflinger_live_waiting(&live, &number) == INPUTFLINGER_FREE && number == 7);
	CHECK(inputflinger_live_next(&live, &client, &m) == INPUTFLINGER_FREE);
	CHECK(inputflinger_live_next_any(&live, &client, &m, &told) == INPUTFLINGER_FREE && told);
	CHECK(inputflinger_live_finish(&live, 0, &client, 1) == INPUTFLINGER_FREE);
	CHECK(inputflinger_live_finish_through(&live, 0, &client, 1) == INPUTFLINGER_FREE);
	CHECK(inputflinger_live_due(&live, &number) == INPUTFLINGER_FREE && number == 7);
	CHECK(inputflinger_live_advance(&live, 0, &number) == INPUTFLINGER_FREE && number == 7);
	CHECK(inputflinger_live_clock(&live, &number) == INPUTFLINGER_FREE && number == 7);
	CHECK(inputflinger_live_focused(&live, 0, &client) == INPUTFLINGER_FREE);
	CHECK(inputflinger_live_key_target(&live, &client) == INPUTFLINGER_FREE);
	CHECK(inputflinger_live_is_responsive(&live, &client, &told) == INPUTFLINGER_FREE && told);
	CHECK(inputflinger_live_holds(&live, &client, 1, &ids) == INPUTFLINGER_FREE && ids == 7);
	same_client(client, 1, 1);
}

static void nulls(void)
{
	live_t live = {0};
	client_t client = {1, 1};
	struct inputflinger_window w = window(client, 0);
	message_t m = {0};
	uint64_t number;
	uint32_t ids;
	uint8_t device;
	bool told;

	CHECK(inputflinger_live_new(NULL, LIMIT, NULL, NULL) == INPUTFLINGER_NULL);
	CHECK(inputflinger_live_free(NULL) == INPUTFLINGER_NULL);
	CHECK(inputflinger_live_add_touch(NULL, 0, 1, &panel, &device) == INPUTFLINGER_NULL);
	CHECK(inputflinger_live_add_touch(&live, 0, 1, NULL, &device) == INPUTFLINGER_NULL);
	CHECK(inputflinger_live_add_touch(&live, 0, 1, &panel, NULL) == INPUTFLINGER_NULL);
	CHECK(inputflinger_live_add_keys(NULL, 0, "", 0, &device, &number) == INPUTFLINGER_NULL);
	CHECK(inputflinger_live_add_keys(&live, 0, NULL, 1, &device, &number) == INPUTFLINGER_NULL);
	CHECK(inputflinger_live_add_keys(&live, 0, "", 0, NULL, &number) == INPUTFLINGER_NULL);
	CHECK(inputflinger_live_remove_device(NULL, 0, 1) == INPUTFLINGER_NULL);
	CHECK(inputflinger_live_event(NULL, 0, 1, 0, 0, 0) == INPUTFLINGER_NULL);
	CHECK(inputflinger_live_reserve(NULL, 1) == INPUTFLINGER_NULL);
	CHECK(inputflinger_live_touch_down(NULL, 0, 1, 1, 0, 0) == INPUTFLINGER_NULL);
	CHECK(inputflinger_live_touch_motion(NULL, 0, 1, 1, 0, 0) == INPUTFLINGER_NULL);
	CHECK(inputflinger_live_touch_up(NULL, 0, 1, 1) == INPUTFLINGER_NULL);
	CHECK(inputflinger_live_touch_cancel(NULL, 0, 1, 1) == INPUTFLINGER_NULL);
	CHECK(inputflinger_live_touch_frame(NULL, 0, 1) == INPUTFLINGER_NULL);
	CHECK(inputflinger_live_args(NULL, 0, &m) == INPUTFLINGER_NULL);
	CHECK(inputflinger_live_args(&live, 0, NULL) == INPUTFLINGER_NULL);
	CHECK(inputflinger_live_open(NULL, &client) == INPUTFLINGER_NULL);
	CHECK(inputflinger_live_open(&live, NULL) == INPUTFLINGER_NULL);
	CHECK(inputflinger_live_close(NULL, 0, &client) == INPUTFLINGER_NULL);
	CHECK(inputflinger_live_close(&live, 0, NULL) == INPUTFLINGER_NULL);
	CHECK(inputflinger_live_is_open(NULL, &client, &told) == INPUTFLINGER_NULL);
	CHECK(inputflinger_live_is_open(&live, NULL, &told) == INPUTFLINGER_NULL);
	CHECK(inputflinger_live_is_open(&live, &client, NULL) == INPUTFLINGER_NULL);
	CHECK(inputflinger_live_client_at(NULL, 1, &client) == INPUTFLINGER_NULL);
	CHECK(inputflinger_live_client_at(&live, 1, NULL) == INPUTFLINGER_NULL);
	CHECK(inputflinger_live_windows(NULL, 0, NULL, 0, NULL, 0, NULL) == INPUTFLINGER_NULL);
	CHECK(inputflinger_live_windows(&live, 0, NULL, 1, NULL, 0, NULL) == INPUTFLINGER_NULL);
	CHECK(inputflinger_live_windows(&live, 0, NULL, 0, NULL, 1, NULL) == INPUTFLINGER_NULL);
	CHECK(inputflinger_live_window(NULL, 0, &w, NULL, 0) == INPUTFLINGER_NULL);
	CHECK(inputflinger_live_window(&live, 0, NULL, NULL, 0) == INPUTFLINGER_NULL);
	CHECK(inputflinger_live_window(&live, 0, &w, NULL, 1) == INPUTFLINGER_NULL);
	CHECK(inputflinger_live_focus(NULL, 0, 0, &client) == INPUTFLINGER_NULL);
	CHECK(inputflinger_live_pilfer(NULL, 0, &client, 1) == INPUTFLINGER_NULL);
	CHECK(inputflinger_live_pilfer(&live, 0, NULL, 1) == INPUTFLINGER_NULL);
	CHECK(inputflinger_live_waiting(NULL, &number) == INPUTFLINGER_NULL);
	CHECK(inputflinger_live_waiting(&live, NULL) == INPUTFLINGER_NULL);
	CHECK(inputflinger_live_next(NULL, &client, &m) == INPUTFLINGER_NULL);
	CHECK(inputflinger_live_next(&live, NULL, &m) == INPUTFLINGER_NULL);
	CHECK(inputflinger_live_next(&live, &client, NULL) == INPUTFLINGER_NULL);
	CHECK(inputflinger_live_next_any(NULL, &client, &m, &told) == INPUTFLINGER_NULL);
	CHECK(inputflinger_live_next_any(&live, NULL, &m, &told) == INPUTFLINGER_NULL);
	CHECK(inputflinger_live_next_any(&live, &client, NULL, &told) == INPUTFLINGER_NULL);
	CHECK(inputflinger_live_next_any(&live, &client, &m, NULL) == INPUTFLINGER_NULL);
	CHECK(inputflinger_live_finish(NULL, 0, &client, 1) == INPUTFLINGER_NULL);
	CHECK(inputflinger_live_finish(&live, 0, NULL, 1) == INPUTFLINGER_NULL);
	CHECK(inputflinger_live_finish_through(NULL, 0, &client, 1) == INPUTFLINGER_NULL);
	CHECK(inputflinger_live_finish_through(&live, 0, NULL, 1) == INPUTFLINGER_NULL);
	CHECK(inputflinger_live_set_most(NULL, 1) == INPUTFLINGER_NULL);
	CHECK(inputflinger_live_is_choked(NULL, &client, &told) == INPUTFLINGER_NULL);
	CHECK(inputflinger_live_is_choked(&live, NULL, &told) == INPUTFLINGER_NULL);
	CHECK(inputflinger_live_is_choked(&live, &client, NULL) == INPUTFLINGER_NULL);
	CHECK(inputflinger_live_due(NULL, &number) == INPUTFLINGER_NULL);
	CHECK(inputflinger_live_due(&live, NULL) == INPUTFLINGER_NULL);
	CHECK(inputflinger_live_advance(NULL, 0, &number) == INPUTFLINGER_NULL);
	CHECK(inputflinger_live_advance(&live, 0, NULL) == INPUTFLINGER_NULL);
	CHECK(inputflinger_live_clock(NULL, &number) == INPUTFLINGER_NULL);
	CHECK(inputflinger_live_clock(&live, NULL) == INPUTFLINGER_NULL);
	CHECK(inputflinger_live_focused(NULL, 0, &client) == INPUTFLINGER_NULL);
	CHECK(inputflinger_live_focused(&live, 0, NULL) == INPUTFLINGER_NULL);
	CHECK(inputflinger_live_key_target(NULL, &client) == INPUTFLINGER_NULL);
	CHECK(inputflinger_live_key_target(&live, NULL) == INPUTFLINGER_NULL);
	CHECK(inputflinger_live_is_responsive(NULL, &client, &told) == INPUTFLINGER_NULL);
	CHECK(inputflinger_live_is_responsive(&live, NULL, &told) == INPUTFLINGER_NULL);
	CHECK(inputflinger_live_is_responsive(&live, &client, NULL) == INPUTFLINGER_NULL);
	CHECK(inputflinger_live_holds(NULL, &client, 1, &ids) == INPUTFLINGER_NULL);
	CHECK(inputflinger_live_holds(&live, NULL, 1, &ids) == INPUTFLINGER_NULL);
	CHECK(inputflinger_live_holds(&live, &client, 1, NULL) == INPUTFLINGER_NULL);
}

static void beginnings(void)
{
	live_t live = {0};
	struct inputflinger_displays displays = {{0, 1, 2, 3, 3, 3, 3, 3}}, bad = {{0, 0, 0, 0, 0, 0, 0, 4}};
	struct inputflinger_panel other = panel;
	uint8_t device = 77;

	CHECK(inputflinger_live_new(&live, 999, NULL, NULL) == INPUTFLINGER_OUT_OF_RANGE);
	CHECK(inputflinger_live_new(&live, 600000001, NULL, NULL) == INPUTFLINGER_OUT_OF_RANGE);
	CHECK(inputflinger_live_new(&live, LIMIT, NULL, &bad) == INPUTFLINGER_OUT_OF_RANGE);
	CHECK(!live.is_open);
	OK(inputflinger_live_new(&live, LIMIT, NULL, &displays));
	CHECK(inputflinger_live_new(&live, LIMIT, NULL, &displays) == INPUTFLINGER_TAKEN);
	CHECK(inputflinger_live_add_touch(&live, 4, 10, &panel, &device) == INPUTFLINGER_OUT_OF_RANGE);
	CHECK(inputflinger_live_add_touch(&live, 0, 0, &panel, &device) == INPUTFLINGER_BAD_SLOTS);
	CHECK(inputflinger_live_add_touch(&live, 0, 17, &panel, &device) == INPUTFLINGER_BAD_SLOTS);
	other.x.max = -1;
	CHECK(inputflinger_live_add_touch(&live, 0, 10, &other, &device) == INPUTFLINGER_OUT_OF_RANGE);
	other = panel;
	other.y.min = 2400;
	CHECK(inputflinger_live_add_touch(&live, 0, 10, &other, &device) == INPUTFLINGER_OUT_OF_RANGE);
	other = panel;
	other.width = 0;
	CHECK(inputflinger_live_add_touch(&live, 0, 10, &other, &device) == INPUTFLINGER_OUT_OF_RANGE);
	other = panel;
	other.height = 16385;
	CHECK(inputflinger_live_add_touch(&live, 0, 10, &other, &device) == INPUTFLINGER_OUT_OF_RANGE);
	other = panel;
	other.rotation = 4;
	CHECK(inputflinger_live_add_touch(&live, 0, 10, &other, &device) == INPUTFLINGER_OUT_OF_RANGE && device == 77);
	OK(inputflinger_live_add_touch(&live, 0, 10, &panel, &device));
	CHECK(device == 1);
	CHECK(inputflinger_live_add_touch(&live, 0, 10, &panel, &device) == INPUTFLINGER_TOO_MANY);
	other.rotation = 3;
	OK(inputflinger_live_add_touch(&live, 3, 16, &other, &device));
	CHECK(device == 4);
	OK(inputflinger_live_remove_device(&live, 0, 4));
	CHECK(inputflinger_live_remove_device(&live, 0, 4) == INPUTFLINGER_NO_DEVICE);
	CHECK(inputflinger_live_remove_device(&live, 0, 9) == INPUTFLINGER_OUT_OF_RANGE);
	CHECK(inputflinger_live_remove_device(&live, LATEST + 1, 1) == INPUTFLINGER_OUT_OF_RANGE);
	CHECK(inputflinger_live_event(&live, 0, 4, 0, 0, 0) == INPUTFLINGER_NO_DEVICE);
	CHECK(inputflinger_live_event(&live, 0, 0, 0, 0, 0) == INPUTFLINGER_OUT_OF_RANGE);
	CHECK(inputflinger_live_event(&live, LATEST + 1, 1, 0, 0, 0) == INPUTFLINGER_OUT_OF_RANGE);
	OK(inputflinger_live_event(&live, LATEST, 1, 0xffff, 0xffff, INT32_MIN));
	OK(inputflinger_live_free(&live));
	CHECK(!live.is_open && live.at == NULL);
}

/* Layouts, good and bad, and a key that goes through one. */
static void layouts(void)
{
	static const char good[] = "# a keyboard\nkey 30 A\nkey 0x30 B\n", name[] = "key 30 a\n", twice[] = "key 30 A\nkey 30 B\n";
	live_t live = {0};
	struct inputflinger_displays displays = {{0, 0, 0, 1, 1, 1, 1, 1}};
	client_t client = {0};
	struct inputflinger_window one;
	uint64_t line = 77;
	uint8_t device = 77;
	message_t m;

	OK(inputflinger_live_new(&live, LIMIT, NULL, &displays));
	CHECK(inputflinger_live_add_keys(&live, 4, good, sizeof good - 1, &device, &line) == INPUTFLINGER_OUT_OF_RANGE && line == 77);
	CHECK(inputflinger_live_add_keys(&live, 0, name, sizeof name - 1, &device, &line) == INPUTFLINGER_BAD_LAYOUT && line == 1);
	CHECK(inputflinger_live_add_keys(&live, 0, twice, sizeof twice - 1, &device, &line) == INPUTFLINGER_BAD_LAYOUT && line == 2);
	CHECK(inputflinger_live_add_keys(&live, 0, "\xff", 1, &device, &line) == INPUTFLINGER_BAD_LAYOUT && line == 0);
	CHECK(inputflinger_live_add_keys(&live, 0, name, sizeof name - 1, &device, NULL) == INPUTFLINGER_BAD_LAYOUT && device == 77);
	line = 77;
	OK(inputflinger_live_add_keys(&live, 0, good, sizeof good - 1, &device, &line));
	CHECK(device == 1 && line == 77);
	OK(inputflinger_live_add_keys(&live, 0, NULL, 0, &device, NULL));
	CHECK(device == 2);
	OK(inputflinger_live_add_keys(&live, 0, good, 0, &device, NULL));
	CHECK(device == 3);
	CHECK(inputflinger_live_add_keys(&live, 0, good, sizeof good - 1, &device, &line) == INPUTFLINGER_TOO_MANY && device == 3);
	OK(inputflinger_live_open(&live, &client));
	one = window(client, 0);
	OK(show(&live, &one, 1, NULL));
	OK(inputflinger_live_focus(&live, 0, 0, &client));
	OK(inputflinger_live_event(&live, 0, 1, 1, 48, 1));
	OK(inputflinger_live_event(&live, 0, 2, 1, 48, 1));
	CHECK(next(&live, client).kind == INPUTFLINGER_FOCUS);
	m = next(&live, client);
	CHECK(m.kind == INPUTFLINGER_KEY && m.device == 1 && m.scan == 48 && m.code == 30 && m.down == 1);
	m = next(&live, client);
	CHECK(m.kind == INPUTFLINGER_KEY && m.device == 2 && m.scan == 48 && m.code == 0 && m.down == 1);
	OK(inputflinger_live_free(&live));
}

static void clients(void)
{
	live_t live = {0};
	client_t first = {0}, other = {0}, told = {77, 77};
	bool is = false;

	OK(inputflinger_live_new(&live, LIMIT, NULL, NULL));
	OK(inputflinger_live_open(&live, &first));
	same_client(first, 1, 1);
	for (uint32_t i = 2; i <= 64; i++) {
		OK(inputflinger_live_open(&live, &other));
		same_client(other, i, i);
	}
	CHECK(inputflinger_live_open(&live, &told) == INPUTFLINGER_FULL);
	same_client(told, 77, 77);
	OK(inputflinger_live_is_open(&live, &first, &is));
	CHECK(is);
	CHECK(inputflinger_live_close(&live, LATEST + 1, &first) == INPUTFLINGER_OUT_OF_RANGE);
	OK(inputflinger_live_close(&live, 5, &first));
	OK(inputflinger_live_is_open(&live, &first, &is));
	CHECK(!is);
	CHECK(inputflinger_live_close(&live, 5, &first) == INPUTFLINGER_NOT_OPEN);
	CHECK(inputflinger_live_close(&live, 5, &told) == INPUTFLINGER_NOT_OPEN);
	CHECK(inputflinger_live_client_at(&live, 1, &told) == INPUTFLINGER_NOTHING);
	CHECK(inputflinger_live_client_at(&live, 0, &told) == INPUTFLINGER_NOTHING);
	CHECK(inputflinger_live_client_at(&live, UINT32_MAX, &told) == INPUTFLINGER_NOTHING);
	same_client(told, 77, 77);
	OK(inputflinger_live_open(&live, &other));
	same_client(other, 1, 65);
	OK(inputflinger_live_client_at(&live, 1, &told));
	same_client(told, 1, 65);
	OK(inputflinger_live_is_responsive(&live, &other, &is));
	CHECK(is);
	OK(inputflinger_live_is_responsive(&live, &first, &is));
	CHECK(!is);
	OK(inputflinger_live_free(&live));
}

static void windows(void)
{
	live_t live = {0};
	client_t a = {0}, b = {0}, gone = {9, 3};
	struct inputflinger_window shown[65], two[2];
	struct inputflinger_rect rects[66] = {{0, 0, 10, 10}, {5, 0, 4, 10}};
	uint64_t named = 77;
	uint32_t ids = 77;

	OK(inputflinger_live_new(&live, LIMIT, NULL, NULL));
	OK(inputflinger_live_open(&live, &a));
	OK(inputflinger_live_open(&live, &b));
	two[0] = window(a, 0);
	two[1] = window(gone, 0);
	CHECK(show(&live, two, 2, &named) == INPUTFLINGER_NOT_OPEN && named == 1);
	two[1] = window(a, 0);
	CHECK(show(&live, two, 2, &named) == INPUTFLINGER_TWICE && named == 1);
	CHECK(show(&live, two, 2, NULL) == INPUTFLINGER_TWICE);
	two[1] = window(b, 0);
	two[1].display = 4;
	CHECK(show(&live, two, 2, &named) == INPUTFLINGER_OUT_OF_RANGE);
	two[1].display = 3;
	CHECK(inputflinger_live_windows(&live, 0, two, 2, rects, 1, &named) == INPUTFLINGER_OUT_OF_RANGE);
	CHECK(inputflinger_live_windows(&live, 0, two, 2, rects, 2, &named) == INPUTFLINGER_OUT_OF_RANGE);
	rects[1] = rects[0];
	two[0].rects = 65;
	CHECK(inputflinger_live_windows(&live, 0, two, 2, rects, 66, &named) == INPUTFLINGER_OUT_OF_RANGE);
	two[0].rects = 64;
	OK(inputflinger_live_windows(&live, 0, two, 2, rects, 66, &named));
	CHECK(inputflinger_live_windows(&live, LATEST + 1, two, 2, rects, 66, &named) == INPUTFLINGER_OUT_OF_RANGE);
	for (size_t i = 0; i < 65; i++)
		shown[i] = window(a, 0);
	CHECK(show(&live, shown, 65, &named) == INPUTFLINGER_TOO_MANY && named == 1);
	OK(show(&live, NULL, 0, NULL));
	CHECK(inputflinger_live_pilfer(&live, 0, &a, 1) == INPUTFLINGER_NOT_SPY);
	two[0] = window(a, INPUTFLINGER_SPY);
	two[1] = window(b, 0);
	OK(show(&live, two, 2, NULL));
	CHECK(inputflinger_live_pilfer(&live, 0, &a, 1) == INPUTFLINGER_NOTHING_HELD);
	CHECK(inputflinger_live_pilfer(&live, 0, &gone, 1) == INPUTFLINGER_NOT_OPEN);
	CHECK(inputflinger_live_pilfer(&live, 0, &a, 0) == INPUTFLINGER_OUT_OF_RANGE);
	CHECK(inputflinger_live_pilfer(&live, LATEST + 1, &a, 1) == INPUTFLINGER_OUT_OF_RANGE);
	CHECK(inputflinger_live_holds(&live, &a, 9, &ids) == INPUTFLINGER_OUT_OF_RANGE && ids == 77);
	OK(inputflinger_live_holds(&live, &gone, 1, &ids));
	CHECK(ids == 0);
	OK(inputflinger_live_free(&live));
}

/* Two fingers, seen by a spy and by the window behind it, and pilfered. */
static void fingers(void)
{
	live_t live = {0};
	client_t spy = {0}, behind = {0};
	struct inputflinger_window two[2];
	message_t m, down = motion(1, INPUTFLINGER_DOWN, 0, 0x1, 10, 20), more = motion(1, INPUTFLINGER_POINTER_DOWN, 1, 0x3, 10, 20);
	uint64_t mask = 0;
	uint32_t ids = 0;
	uint8_t device = 0;

	OK(inputflinger_live_new(&live, LIMIT, NULL, NULL));
	OK(inputflinger_live_add_touch(&live, 0, 10, &panel, &device));
	OK(inputflinger_live_open(&live, &spy));
	OK(inputflinger_live_open(&live, &behind));
	two[0] = window(spy, INPUTFLINGER_SPY);
	two[1] = window(behind, 0);
	two[1].frame.left = -5;
	OK(show(&live, two, 2, NULL));
	CHECK(inputflinger_live_args(&live, 0, &more) == INPUTFLINGER_INCONSISTENT);
	OK(inputflinger_live_args(&live, 1000, &down));
	OK(inputflinger_live_args(&live, 2000, &more));
	OK(inputflinger_live_waiting(&live, &mask));
	CHECK(mask == 0x3);
	m = next(&live, spy);
	CHECK(m.seq == 1 && m.moment_us == 1000 && m.kind == INPUTFLINGER_MOTION && m.device == 1 && m.action == INPUTFLINGER_DOWN);
	CHECK(m.index == 0 && m.flags == 0 && m.count == 1 && m.pointers[0].id == 0 && m.pointers[0].x == 10 && m.pointers[0].y == 20);
	CHECK(m.meta == 0 && m.repeat == 0 && m.scan == 0 && m.code == 0 && m.down == 0 && m.focus == 0 && m.pointers[15].x == 0);
	m = next(&live, behind);
	CHECK(m.seq == 1 && m.pointers[0].x == 15);
	m = next(&live, behind);
	CHECK(m.seq == 2 && m.action == INPUTFLINGER_POINTER_DOWN && m.index == 1 && m.count == 2 && m.pointers[1].x == 115 && m.pointers[1].id == 1);
	OK(inputflinger_live_holds(&live, &behind, 1, &ids));
	CHECK(ids == 0x3);
	OK(inputflinger_live_pilfer(&live, 3000, &spy, 1));
	m = next(&live, behind);
	CHECK(m.seq == 3 && m.action == INPUTFLINGER_CANCEL && m.count == 2);
	OK(inputflinger_live_holds(&live, &behind, 1, &ids));
	CHECK(ids == 0);
	m = (message_t){0};
	m.kind = INPUTFLINGER_RESET;
	m.device = 1;
	OK(inputflinger_live_args(&live, 4000, &m));
	m = next(&live, spy);
	m = next(&live, spy);
	CHECK(m.seq == 3 && m.moment_us == 4000 && m.action == INPUTFLINGER_CANCEL);
	m.kind = INPUTFLINGER_FOCUS;
	CHECK(inputflinger_live_args(&live, 4000, &m) == INPUTFLINGER_OUT_OF_RANGE);
	m.kind = INPUTFLINGER_RESET;
	m.device = 9;
	CHECK(inputflinger_live_args(&live, 4000, &m) == INPUTFLINGER_OUT_OF_RANGE);
	m.device = 2;
	CHECK(inputflinger_live_args(&live, 4000, &m) == INPUTFLINGER_NO_DEVICE);
	CHECK(inputflinger_live_args(&live, LATEST + 1, &down) == INPUTFLINGER_OUT_OF_RANGE);
	OK(inputflinger_live_free(&live));
}

static void keys_and_time(void)
{
	live_t live = {0};
	client_t client = {0}, told = {77, 77}, gone = {9, 3};
	struct inputflinger_window one;
	message_t m = key(1, 30, 29, 1);
	uint64_t number = 77;
	uint8_t device = 0;
	bool is = true;

	OK(inputflinger_live_new(&live, LIMIT, NULL, NULL));
	OK(inputflinger_live_add_touch(&live, 0, 10, &panel, &device));
	OK(inputflinger_live_open(&live, &client));
	one = window(client, 0);
	OK(show(&live, &one, 1, NULL));
	CHECK(inputflinger_live_focused(&live, 0, &told) == INPUTFLINGER_NOTHING);
	CHECK(inputflinger_live_key_target(&live, &told) == INPUTFLINGER_NOTHING);
	CHECK(inputflinger_live_focused(&live, 4, &told) == INPUTFLINGER_OUT_OF_RANGE);
	same_client(told, 77, 77);
	CHECK(inputflinger_live_focus(&live, 0, 0, &gone) == INPUTFLINGER_NOT_OPEN);
	CHECK(inputflinger_live_focus(&live, 0, 4, &client) == INPUTFLINGER_OUT_OF_RANGE);
	CHECK(inputflinger_live_focus(&live, LATEST + 1, 0, &client) == INPUTFLINGER_OUT_OF_RANGE);
	OK(inputflinger_live_focus(&live, 0, 0, &client));
	OK(inputflinger_live_focused(&live, 0, &told));
	same_client(told, client.channel, client.generation);
	told = (client_t){77, 77};
	OK(inputflinger_live_key_target(&live, &told));
	same_client(told, client.channel, client.generation);
	m.flags = 7;
	m.repeat = 7;
	OK(inputflinger_live_args(&live, 1000000, &m));
	m = next(&live, client);
	CHECK(m.seq == 1 && m.kind == INPUTFLINGER_FOCUS && m.focus == 1 && m.count == 0);
	OK(inputflinger_live_finish(&live, 1000000, &client, 1));
	CHECK(inputflinger_live_finish(&live, 1000000, &client, 1) == INPUTFLINGER_UNKNOWN_SEQ);
	CHECK(inputflinger_live_finish(&live, 1000000, &client, 2) == INPUTFLINGER_UNKNOWN_SEQ);
	CHECK(inputflinger_live_finish(&live, 1000000, &gone, 1) == INPUTFLINGER_NOT_OPEN);
	CHECK(inputflinger_live_finish(&live, LATEST + 1, &client, 1) == INPUTFLINGER_OUT_OF_RANGE);
	m = next(&live, client);
	CHECK(m.seq == 2 && m.kind == INPUTFLINGER_KEY && m.scan == 30 && m.code == 29 && m.down == 1 && m.flags == 0 && m.repeat == 0);
	CHECK(inputflinger_live_next(&live, &client, &m) == INPUTFLINGER_NOTHING);
	CHECK(inputflinger_live_next(&live, &gone, &m) == INPUTFLINGER_NOTHING && m.seq == 2);
	OK(inputflinger_live_due(&live, &number));
	CHECK(number == 1500000);
	CHECK(inputflinger_live_advance(&live, LATEST + 1, &number) == INPUTFLINGER_OUT_OF_RANGE && number == 1500000);
	OK(inputflinger_live_advance(&live, 1500000, &number));
	CHECK(number == 0);
	m = next(&live, client);
	CHECK(m.seq == 3 && m.down == 1 && m.repeat == 1);
	OK(inputflinger_live_advance(&live, 6000000, &number));
	CHECK(number == 1);
	OK(inputflinger_live_is_responsive(&live, &client, &is));
	CHECK(!is);
	OK(inputflinger_live_clock(&live, &number));
	CHECK(number == 6000000);
	OK(inputflinger_live_focus(&live, 6000000, 0, NULL));
	CHECK(inputflinger_live_focused(&live, 0, &told) == INPUTFLINGER_NOTHING);
	OK(inputflinger_live_close(&live, 6000000, &client));
	CHECK(inputflinger_live_due(&live, &number) == INPUTFLINGER_NOTHING && number == 6000000);
	OK(inputflinger_live_advance(&live, 9000000, &number));
	OK(inputflinger_live_advance(&live, 7000000, &number));
	OK(inputflinger_live_clock(&live, &number));
	CHECK(number == 9000000);
	OK(inputflinger_live_free(&live));
}

/* Every message up to one is finished, those between that are finished already left out. */
static void finished_through(void)
{
	static const uint8_t actions[4] = {INPUTFLINGER_DOWN, INPUTFLINGER_MOVE, INPUTFLINGER_MOVE, INPUTFLINGER_UP};
	live_t live = {0};
	client_t client = {0}, gone = {9, 3};
	struct inputflinger_window one;
	uint64_t number = 77;
	uint8_t device = 0;

	OK(inputflinger_live_new(&live, LIMIT, NULL, NULL));
	OK(inputflinger_live_add_touch(&live, 0, 10, &panel, &device));
	OK(inputflinger_live_open(&live, &client));
	one = window(client, 0);
	OK(show(&live, &one, 1, NULL));
	for (uint64_t i = 0; i < 4; i++) {
		message_t m = motion(1, actions[i], 0, 0x1, 540, 1200 + (int32_t)i);

		OK(inputflinger_live_args(&live, 1000 * (i + 1), &m));
	}
	CHECK(inputflinger_live_finish_through(&live, 5000, &client, 1) == INPUTFLINGER_UNKNOWN_SEQ);
	for (uint64_t i = 1; i < 4; i++)
		CHECK(next(&live, client).seq == i);
	OK(inputflinger_live_finish(&live, 4000, &client, 2));
	CHECK(inputflinger_live_finish_through(&live, 5000, &client, 4) == INPUTFLINGER_UNKNOWN_SEQ);
	CHECK(inputflinger_live_finish_through(&live, 5000, &client, UINT64_MAX) == INPUTFLINGER_UNKNOWN_SEQ);
	CHECK(inputflinger_live_finish_through(&live, 5000, &gone, 1) == INPUTFLINGER_NOT_OPEN);
	CHECK(inputflinger_live_finish_through(&live, LATEST + 1, &client, 1) == INPUTFLINGER_OUT_OF_RANGE);
	OK(inputflinger_live_clock(&live, &number));
	CHECK(number == 4000);
	OK(inputflinger_live_finish_through(&live, 4000, &client, 0));
	OK(inputflinger_live_due(&live, &number));
	CHECK(number == 1000 + LIMIT);
	OK(inputflinger_live_finish_through(&live, 5000, &client, 3));
	OK(inputflinger_live_clock(&live, &number));
	CHECK(number == 5000);
	for (uint64_t i = 1; i < 5; i++)
		CHECK(inputflinger_live_finish(&live, 5000, &client, i) == INPUTFLINGER_UNKNOWN_SEQ);
	OK(inputflinger_live_due(&live, &number));
	CHECK(number == 4000 + LIMIT);
	OK(inputflinger_live_finish_through(&live, 5000, &client, 3));
	CHECK(next(&live, client).seq == 4);
	OK(inputflinger_live_finish_through(&live, 5000, &client, 4));
	CHECK(inputflinger_live_due(&live, &number) == INPUTFLINGER_NOTHING);
	OK(inputflinger_live_free(&live));
}

/* Sixteen fingers are down at a time, each by a touch id of its own; what is refused changes nothing. */
static void single_fingers(void)
{
	live_t live = {0};
	client_t client = {0};
	struct inputflinger_window one;
	uint64_t number = 77;
	uint8_t device = 0;

	OK(inputflinger_live_new(&live, LIMIT, NULL, NULL));
	OK(inputflinger_live_add_touch(&live, 0, 16, &panel, &device));
	OK(inputflinger_live_open(&live, &client));
	one = window(client, 0);
	OK(show(&live, &one, 1, NULL));
	CHECK(inputflinger_live_touch_down(&live, LATEST + 1, device, 1, 0, 0) == INPUTFLINGER_OUT_OF_RANGE);
	CHECK(inputflinger_live_touch_motion(&live, LATEST + 1, device, 1, 0, 0) == INPUTFLINGER_OUT_OF_RANGE);
	CHECK(inputflinger_live_touch_up(&live, LATEST + 1, device, 1) == INPUTFLINGER_OUT_OF_RANGE);
	CHECK(inputflinger_live_touch_cancel(&live, LATEST + 1, device, 1) == INPUTFLINGER_OUT_OF_RANGE);
	CHECK(inputflinger_live_touch_frame(&live, LATEST + 1, device) == INPUTFLINGER_OUT_OF_RANGE);
	CHECK(inputflinger_live_touch_frame(&live, 0, 0) == INPUTFLINGER_OUT_OF_RANGE);
	CHECK(inputflinger_live_touch_frame(&live, 0, 2) == INPUTFLINGER_NO_DEVICE);
	CHECK(inputflinger_live_touch_up(&live, 0, 2, 1) == INPUTFLINGER_NO_DEVICE);
	for (int32_t i = 0; i < 16; i++)
		OK(inputflinger_live_touch_down(&live, 1000, device, INT32_MIN + 100 * i, 10 * i, i));
	CHECK(inputflinger_live_touch_down(&live, 2000, device, 1, 0, 0) == INPUTFLINGER_TOO_MANY_FINGERS);
	CHECK(inputflinger_live_touch_down(&live, 2000, device, INT32_MIN, 0, 0) == INPUTFLINGER_FINGER_DOWN);
	CHECK(inputflinger_live_touch_motion(&live, 2000, device, INT32_MAX, 0, 0) == INPUTFLINGER_NO_FINGER);
	CHECK(inputflinger_live_touch_up(&live, 2000, device, 1) == INPUTFLINGER_NO_FINGER);
	CHECK(inputflinger_live_touch_cancel(&live, 2000, device, 1) == INPUTFLINGER_NO_FINGER);
	OK(inputflinger_live_clock(&live, &number));
	CHECK(number == 2000);
	CHECK(inputflinger_live_next(&live, &client, &(message_t){0}) == INPUTFLINGER_NOTHING);
	OK(inputflinger_live_touch_frame(&live, 1000, device));
	for (uint64_t i = 1; i <= 16; i++) {
		message_t m = next(&live, client);

		CHECK(m.seq == i && m.count == i && m.action == (i == 1 ? INPUTFLINGER_DOWN : INPUTFLINGER_POINTER_DOWN));
		CHECK(m.pointers[i - 1].x == 10 * ((int32_t)i - 1) && m.pointers[i - 1].y == (int32_t)i - 1);
	}
	OK(inputflinger_live_touch_up(&live, 2000, device, INT32_MIN + 100));
	OK(inputflinger_live_touch_down(&live, 2000, device, 1, 500, 600));
	OK(inputflinger_live_touch_frame(&live, 2000, device));
	CHECK(next(&live, client).action == INPUTFLINGER_POINTER_UP);
	CHECK(next(&live, client).action == INPUTFLINGER_POINTER_DOWN);
	OK(inputflinger_live_free(&live));
}

/* The next message of any client has this client, this seq and this kind. */
static void next_any(live_t *live, client_t wanted, uint64_t seq, uint32_t kind, bool wanted_last)
{
	client_t client = {0};
	message_t m;
	bool last = !wanted_last;

	memset(&m, 0x55, sizeof m);
	OK(inputflinger_live_next_any(live, &client, &m, &last));
	same_client(client, wanted.channel, wanted.generation);
	CHECK(m.seq == seq && m.kind == kind && last == wanted_last);
}

/* Two clients get what they were sent in the order of the steps: the focus and a key leave one before the other has it. */
static void in_order(void)
{
	live_t live = {0};
	client_t left = {0}, right = {0}, none = {7, 77};
	struct inputflinger_window two[2];
	message_t m = key(1, 115, 24, 1);
	uint8_t device = 0;
	bool last = true;

	OK(inputflinger_live_new(&live, LIMIT, NULL, NULL));
	OK(inputflinger_live_add_keys(&live, 0, "key 115 VOLUME_UP\n", 18, &device, NULL));
	OK(inputflinger_live_open(&live, &left));
	OK(inputflinger_live_open(&live, &right));
	two[0] = window(left, 0);
	two[1] = window(right, 0);
	OK(show(&live, two, 2, NULL));
	OK(inputflinger_live_focus(&live, 0, 0, &right));
	OK(inputflinger_live_args(&live, 1000, &m));
	OK(inputflinger_live_focus(&live, 1000, 0, &left));
	OK(inputflinger_live_focus(&live, 1000, 0, &right));
	next_any(&live, right, 1, INPUTFLINGER_FOCUS, true);
	next_any(&live, right, 2, INPUTFLINGER_KEY, true);
	next_any(&live, right, 3, INPUTFLINGER_KEY, false);
	CHECK(next(&live, left).focus == 1);
	next_any(&live, right, 4, INPUTFLINGER_FOCUS, true);
	next_any(&live, left, 2, INPUTFLINGER_FOCUS, false);
	next_any(&live, right, 5, INPUTFLINGER_FOCUS, true);
	m.seq = 77;
	CHECK(inputflinger_live_next_any(&live, &none, &m, &last) == INPUTFLINGER_NOTHING && m.seq == 77 && last);
	same_client(none, 77, 7);
	OK(inputflinger_live_free(&live));
}

/* A message that waits behind 64 unfinished ones comes after what was sent before it was published. */
static void after_a_finish(void)
{
	live_t live = {0};
	client_t left = {0}, right = {0};
	struct inputflinger_window two[2];
	uint8_t device = 0;

	OK(inputflinger_live_new(&live, LIMIT, NULL, NULL));
	OK(inputflinger_live_add_touch(&live, 0, 10, &panel, &device));
	OK(inputflinger_live_open(&live, &left));
	OK(inputflinger_live_open(&live, &right));
	two[0] = window(left, 0);
	two[1] = window(right, 0);
	OK(show(&live, two, 2, NULL));
	for (uint64_t i = 0; i < 66; i++) {
		message_t m = motion(1, i == 0 ? INPUTFLINGER_DOWN : INPUTFLINGER_MOVE, 0, 0x1, 540, 1200);

		OK(inputflinger_live_args(&live, i, &m));
	}
	OK(inputflinger_live_focus(&live, 66, 0, &right));
	for (uint64_t seq = 1; seq <= 64; seq++)
		next_any(&live, left, seq, INPUTFLINGER_MOTION, true);
	OK(inputflinger_live_finish(&live, 66, &left, 1));
	next_any(&live, right, 1, INPUTFLINGER_FOCUS, true);
	next_any(&live, left, 65, INPUTFLINGER_MOTION, true);
	OK(inputflinger_live_finish_through(&live, 66, &left, 65));
	next_any(&live, left, 66, INPUTFLINGER_MOTION, true);
	OK(inputflinger_live_free(&live));
}

/* The finger of the header's page, and a handle that is moved under it. */
static void closed_under_a_finger(void)
{
	live_t live = {0}, other;
	client_t first = {0}, second = {0};
	struct inputflinger_window one;
	message_t m = motion(1, INPUTFLINGER_DOWN, 0, 0x1, 540, 1200);
	uint8_t device = 0;

	OK(inputflinger_live_new(&live, LIMIT, NULL, NULL));
	OK(inputflinger_live_add_touch(&live, 0, 10, &panel, &device));
	OK(inputflinger_live_open(&live, &first));
	one = window(first, 0);
	OK(show(&live, &one, 1, NULL));
	OK(inputflinger_live_args(&live, 1000, &m));
	memcpy(&other, &live, sizeof other);
	memset(&live, 0, sizeof live);
	CHECK(next(&other, first).seq == 1);
	OK(inputflinger_live_close(&other, 2000, &first));
	OK(inputflinger_live_open(&other, &second));
	same_client(second, 1, 2);
	CHECK(inputflinger_live_next(&other, &second, &m) == INPUTFLINGER_NOTHING);
	CHECK(inputflinger_live_finish(&other, 2000, &first, 1) == INPUTFLINGER_NOT_OPEN);
	CHECK(inputflinger_live_free(&live) == INPUTFLINGER_FREE);
	OK(inputflinger_live_free(&other));
}

/* The clients that have something new get it; the right one is never done with a message. */
static void deliver(live_t *live, uint64_t now, client_t idle)
{
	uint64_t mask;
	client_t client;
	message_t m;

	OK(inputflinger_live_waiting(live, &mask));
	for (uint32_t channel = 1; channel <= 64; channel++) {
		if (!(mask >> (channel - 1) & 1))
			continue;
		OK(inputflinger_live_client_at(live, channel, &client));
		while (inputflinger_live_next(live, &client, &m) == INPUTFLINGER_OK) {
			printf("channel %u: ", channel);
			say(stdout, &m);
			if (channel != idle.channel)
				OK(inputflinger_live_finish(live, now, &client, m.seq));
		}
	}
}

static void advance(live_t *live, uint64_t now, client_t idle)
{
	uint64_t late;

	OK(inputflinger_live_advance(live, now, &late));
	for (uint32_t channel = 1; channel <= 64; channel++)
		if (late >> (channel - 1) & 1)
			printf("channel %u: does not respond\n", channel);
	deliver(live, now, idle);
}

static void example(void)
{
	static const struct { uint64_t now; uint16_t type, code; int32_t value; } events[] = {
		{1000, 3, 47, 0}, {1000, 3, 57, 45}, {1000, 3, 53, 100}, {1000, 3, 54, 200}, {1000, 0, 0, 0},
		{2000, 3, 47, 1}, {2000, 3, 57, 46}, {2000, 3, 53, 700}, {2000, 3, 54, 400}, {2000, 0, 0, 0},
		{3000, 3, 47, 0}, {3000, 3, 57, -1}, {3000, 0, 0, 0},
	};
	static const struct inputflinger_rect halves[] = {{0, 0, 540, 2400}, {540, 0, 1080, 2400}};
	live_t live = {0};
	struct inputflinger_window two[2];
	client_t left, right;
	uint64_t due;
	uint8_t device;

	OK(inputflinger_live_new(&live, LIMIT, NULL, NULL));
	OK(inputflinger_live_add_touch(&live, 0, 10, &panel, &device));
	OK(inputflinger_live_open(&live, &left));
	OK(inputflinger_live_open(&live, &right));
	two[0] = window(left, 0);
	two[1] = window(right, 0);
	two[0].frame = halves[0];
	two[1].frame = halves[1];
	OK(inputflinger_live_windows(&live, 0, two, 2, halves, 2, NULL));
	for (size_t i = 0; i < sizeof events / sizeof *events; i++) {
		advance(&live, events[i].now, right);
		OK(inputflinger_live_event(&live, events[i].now, device, events[i].type, events[i].code, events[i].value));
		deliver(&live, events[i].now, right);
	}
	if (inputflinger_live_due(&live, &due) == INPUTFLINGER_OK)
		advance(&live, due, right);
	OK(inputflinger_live_free(&live));
}

/* Sends a finger down at a point and up again, and reads what a client is sent of the down: a y coordinate, or -1. */
static int32_t touched(live_t *live, uint64_t now, const client_t *client, int32_t y)
{
	message_t down = motion(1, INPUTFLINGER_DOWN, 0, 0x1, 500, y), up = motion(1, INPUTFLINGER_UP, 0, 0x1, 500, y), told;
	int32_t at = -1;

	OK(inputflinger_live_args(live, now, &down));
	OK(inputflinger_live_args(live, now, &up));
	while (inputflinger_live_next(live, client, &told) == INPUTFLINGER_OK)
		if (told.kind == INPUTFLINGER_MOTION && told.action == INPUTFLINGER_DOWN)
			at = told.pointers[0].y;
	return at;
}

static void one_window(void)
{
	live_t live = {0};
	client_t a = {0}, b = {0}, gone = {9, 3};
	struct inputflinger_window two[2], one;
	struct inputflinger_rect rects[65];
	uint64_t clock = 77;
	uint8_t device = 0;

	OK(inputflinger_live_new(&live, LIMIT, NULL, NULL));
	OK(inputflinger_live_add_touch(&live, 0, 10, &panel, &device));
	OK(inputflinger_live_open(&live, &a));
	OK(inputflinger_live_open(&live, &b));
	one = window(a, 0);
	CHECK(inputflinger_live_window(&live, 9000, &one, &one.frame, 1) == INPUTFLINGER_NOT_SHOWN);
	two[0] = window(a, 0);
	two[1] = window(b, 0);
	OK(show(&live, two, 2, NULL));
	CHECK(touched(&live, 1000, &a, 600) == 600);
	/* The front window moves to the lower half, and is still in front. */
	one.frame.top = 1200;
	OK(inputflinger_live_window(&live, 2000, &one, &one.frame, 1));
	CHECK(touched(&live, 2000, &b, 600) == 600);
	CHECK(touched(&live, 2000, &a, 1800) == 600);
	/* Refusals leave the windows and the clock. */
	for (size_t i = 0; i < 65; i++)
		rects[i] = one.frame;
	one.frame.top = 0;
	one.display = 4;
	CHECK(inputflinger_live_window(&live, 9000, &one, rects, 1) == INPUTFLINGER_OUT_OF_RANGE);
	one.display = 0;
	one.opacity = 101;
	CHECK(inputflinger_live_window(&live, 9000, &one, rects, 1) == INPUTFLINGER_OUT_OF_RANGE);
	one.opacity = 0;
	one.occlusion = 3;
	CHECK(inputflinger_live_window(&live, 9000, &one, rects, 1) == INPUTFLINGER_OUT_OF_RANGE);
	one.occlusion = 0;
	CHECK(inputflinger_live_window(&live, 9000, &one, rects, 0) == INPUTFLINGER_OUT_OF_RANGE);
	one.rects = 65;
	CHECK(inputflinger_live_window(&live, 9000, &one, rects, 65) == INPUTFLINGER_OUT_OF_RANGE);
	one.rects = 1;
	CHECK(inputflinger_live_window(&live, LATEST + 1, &one, rects, 1) == INPUTFLINGER_OUT_OF_RANGE);
	one.client = gone;
	CHECK(inputflinger_live_window(&live, 9000, &one, rects, 1) == INPUTFLINGER_NOT_OPEN);
	OK(inputflinger_live_clock(&live, &clock));
	CHECK(clock == 2000);
	CHECK(touched(&live, 3000, &a, 1800) == 600);
	/* A surplus rectangle is ignored, and a window with 64 is taken. */
	one = window(b, 0);
	OK(inputflinger_live_window(&live, 4000, &one, rects, 2));
	one.rects = 64;
	OK(inputflinger_live_window(&live, 4000, &one, rects, 64));
	CHECK(touched(&live, 4000, &b, 600) == -1);
	OK(inputflinger_live_free(&live));
}

static bool choked(const live_t *live, client_t client)
{
	bool is = false;

	OK(inputflinger_live_is_choked(live, &client, &is));
	return is;
}

/* A client that leaves more than two messages unreceived, beside one that has the display below its window. */
static void begin_choking(live_t *live, client_t *a, client_t *b)
{
	message_t m = motion(1, INPUTFLINGER_DOWN, 0, 0x1, 500, 600);
	struct inputflinger_window two[2];
	uint8_t device = 0;

	OK(inputflinger_live_new(live, LIMIT, NULL, NULL));
	OK(inputflinger_live_add_touch(live, 0, 10, &panel, &device));
	OK(inputflinger_live_open(live, a));
	OK(inputflinger_live_open(live, b));
	two[0] = window(*a, 0);
	two[1] = window(*b, 0);
	OK(show(live, two, 2, NULL));
	OK(inputflinger_live_focus(live, 0, 0, a));
	OK(inputflinger_live_set_most(live, 2));
	OK(inputflinger_live_args(live, 1000, &m));
	m.action = INPUTFLINGER_MOVE;
	OK(inputflinger_live_args(live, 1000, &m));
}

static void choking(void)
{
	live_t live = {0};
	client_t a = {0}, b = {0}, gone = {9, 3};
	message_t m = motion(1, INPUTFLINGER_UP, 0, 0x1, 500, 600);
	struct inputflinger_window one;
	uint64_t mask = 77, now = 77;
	uint32_t ids = 77;

	begin_choking(&live, &a, &b);
	CHECK(!choked(&live, a) && !choked(&live, b) && !choked(&live, gone));
	OK(inputflinger_live_due(&live, &now));
	CHECK(now == 1000);
	OK(inputflinger_live_advance(&live, 2000, &mask));
	CHECK(mask == 0x1 && choked(&live, a) && !choked(&live, b));
	OK(inputflinger_live_holds(&live, &a, 1, &ids));
	CHECK(ids == 0 && inputflinger_live_focused(&live, 0, &gone) == INPUTFLINGER_NOTHING);
	OK(inputflinger_live_advance(&live, 2000, &mask));
	CHECK(mask == 0);
	/* It is sent nothing more, and a wall stands for its window, which is kept as the program wants it. */
	OK(inputflinger_live_args(&live, 3000, &m));
	CHECK(touched(&live, 3000, &b, 600) == -1);
	one = window(a, 0);
	one.frame.top = 1200;
	OK(inputflinger_live_window(&live, 3000, &one, &one.frame, 1));
	OK(inputflinger_live_focus(&live, 3000, 0, &a));
	CHECK(touched(&live, 3000, &b, 600) == 600 && touched(&live, 3000, &b, 1800) == -1);
	/* A CANCEL and the loss of the focus were the last that it was sent. */
	CHECK(next(&live, a).focus == 1 && next(&live, a).action == INPUTFLINGER_DOWN && next(&live, a).action == INPUTFLINGER_MOVE);
	CHECK(next(&live, a).action == INPUTFLINGER_CANCEL);
	m = next(&live, a);
	CHECK(m.seq == 5 && m.kind == INPUTFLINGER_FOCUS && m.focus == 0 && m.moment_us == 2000);
	CHECK(inputflinger_live_next(&live, &a, &m) == INPUTFLINGER_NOTHING);
	/* It is released once it has finished all of them. */
	OK(inputflinger_live_finish_through(&live, 4000, &a, 4));
	OK(inputflinger_live_advance(&live, 4000, &mask));
	CHECK(mask == 0 && choked(&live, a));
	OK(inputflinger_live_finish_through(&live, 4000, &a, 5));
	OK(inputflinger_live_due(&live, &now));
	CHECK(now == 4000 && choked(&live, a));
	OK(inputflinger_live_advance(&live, 5000, &mask));
	m = next(&live, a);
	CHECK(mask == 0 && !choked(&live, a) && m.seq == 6 && m.kind == INPUTFLINGER_FOCUS && m.focus == 1 && m.moment_us == 5000);
	CHECK(touched(&live, 6000, &a, 1800) == 600);
	OK(inputflinger_live_free(&live));
}

/* A choked client is closed: its wall goes, and the next one on its channel is not choked. Any number is a most. */
static void choked_and_closed(void)
{
	live_t live = {0};
	client_t a = {0}, b = {0}, later = {0};
	message_t m = motion(1, INPUTFLINGER_UP, 0, 0x1, 500, 600);
	uint64_t mask = 77, now = 77;

	begin_choking(&live, &a, &b);
	OK(inputflinger_live_args(&live, 2000, &m));
	CHECK(choked(&live, a));
	OK(inputflinger_live_close(&live, 3000, &a));
	OK(inputflinger_live_due(&live, &now));
	CHECK(now == 3000 && !choked(&live, a));
	CHECK(touched(&live, 4000, &b, 600) == 600);
	OK(inputflinger_live_open(&live, &later));
	same_client(later, 1, 3);
	CHECK(!choked(&live, later));
	OK(inputflinger_live_set_most(&live, UINT64_MAX));
	OK(inputflinger_live_advance(&live, 4000, &mask));
	CHECK(mask == 0 && !choked(&live, later));
	OK(inputflinger_live_set_most(&live, 0));
	OK(inputflinger_live_advance(&live, 4000, &mask));
	CHECK(mask == 0 && !choked(&live, b));
	OK(inputflinger_live_free(&live));
}

int main(int count, char **words)
{
	if (count > 1 && strcmp(words[1], "example") == 0) {
		example();
		return 0;
	}
	free_handles();
	nulls();
	beginnings();
	layouts();
	clients();
	windows();
	one_window();
	choking();
	choked_and_closed();
	fingers();
	keys_and_time();
	finished_through();
	single_fingers();
	in_order();
	after_a_finish();
	closed_under_a_finger();
	return 0;
}
