/*
 * The main loop of a compositor over one touch panel: events go from the kernel to a live service, and what each window
 * is sent is printed as it comes, as a line of a stream file after its channel.
 *
 *     evdev /dev/input/event3      a device node, by libevdev; it ends with the device, or by a signal
 *     evdev FILE 1080 2400         a file of struct input_event of a panel whose positions are these pixels
 *
 * Two clients have a window each, the left and the right half of the screen. Each is done with a message at once.
 *
 * A compositor does not end when memory runs out, nor because of a device that contradicts itself: such a status is
 * printed on standard error, and the loop goes on (passed, hand_in).
 */
#include <errno.h>
#include <fcntl.h>
#include <poll.h>
#include <stdlib.h>
#include <string.h>
#include <sys/stat.h>
#include <time.h>
#include <unistd.h>

#include <libevdev/libevdev.h>

#include "say.h"

#define LIMIT_US 5000000
#define SLOTS_MOST 16

struct loop {
	struct inputflinger_live live;
	uint8_t panel;
	uint64_t now;
	/* An event was not taken: the panel has to begin anew. */
	bool lost;
	/* The panel began anew: what the kernel's slots have is to be handed in. */
	bool begun_anew;
};

static void fail(const char *what, const char *why)
{
	fprintf(stderr, "evdev: %s: %s\n", what, why);
	exit(1);
}

static void demand(int status, const char *what)
{
	if (status != INPUTFLINGER_OK)
		fail(what, inputflinger_status_text(status));
}

/* Whether what was handed in was taken. False only if memory ran out; then nothing changed. */
static bool passed(int status, const char *what)
{
	if (status == INPUTFLINGER_OK)
		return true;
	/* What waits is dispatched by a later call; of what does not fit the rest was dispatched. */
	if (status != INPUTFLINGER_NO_MEMORY && status != INPUTFLINGER_WAITS && status != INPUTFLINGER_INCONSISTENT)
		fail(what, inputflinger_status_text(status));
	fprintf(stderr, "evdev: %s: %s\n", what, inputflinger_status_text(status));
	return status != INPUTFLINGER_NO_MEMORY;
}

static uint64_t clock_us(void)
{
	struct timespec t;

	clock_gettime(CLOCK_MONOTONIC, &t);
	return (uint64_t)t.tv_sec * 1000000 + (uint64_t)t.tv_nsec / 1000;
}

/* The service with its panel, and two clients side by side. */
static void begin(struct loop *loop, const struct input_absinfo *x, const struct input_absinfo *y, int slots)
{
	int32_t width = x->maximum - x->minimum + 1, height = y->maximum - y->minimum + 1;
	struct inputflinger_panel panel = {{x->minimum, x->maximum}, {y->minimum, y->maximum}, (uint16_t)width, (uint16_t)height, 0};
	struct inputflinger_rect rects[2] = {{0, 0, width / 2, height}, {width / 2, 0, width, height}};
	struct inputflinger_window windows[2] = {{.rects = 1, .frame = rects[0]}, {.rects = 1, .frame = rects[1]}};

	if (width < 1 || width > 16384 || height < 1 || height > 16384)
		fail("panel", "more than 16,384 positions on an axis");
	demand(inputflinger_live_new(&loop->live, LIMIT_US, NULL, NULL), "new");
	demand(inputflinger_live_add_touch(&loop->live, 0, (uint8_t)slots, &panel, &loop->panel), "add_touch");
	for (int i = 0; i < 2; i++)
		demand(inputflinger_live_open(&loop->live, &windows[i].client), "open");
	demand(inputflinger_live_windows(&loop->live, 0, windows, 2, rects, 2, NULL), "windows");
}

/* The clients that have something new get it. */
static void deliver(struct loop *loop)
{
	uint64_t waiting;
	struct inputflinger_client client;
	struct inputflinger_message message;

	demand(inputflinger_live_waiting(&loop->live, &waiting), "waiting");
	for (uint32_t channel = 1; waiting != 0; channel++, waiting >>= 1) {
		if (!(waiting & 1))
			continue;
		demand(inputflinger_live_client_at(&loop->live, channel, &client), "client_at");
		while (inputflinger_live_next(&loop->live, &client, &message) == INPUTFLINGER_OK) {
			printf("channel %" PRIu32 ": ", channel);
			say(stdout, &message);
			demand(inputflinger_live_finish(&loop->live, loop->now, &client, message.seq), "finish");
		}
	}
	fflush(stdout);
}

/* The clock is at a moment: runs everything that is due, and reports who does not respond. */
static void advance(struct loop *loop, uint64_t now)
{
	uint64_t late;

	loop->now = now;
	/* If memory runs out, only a part is done; the next call does the rest and reports who is late. */
	if (!passed(inputflinger_live_advance(&loop->live, now, &late), "advance"))
		return;
	for (uint32_t channel = 1; late != 0; channel++, late >>= 1)
		if (late & 1)
			printf("channel %" PRIu32 ": does not respond\n", channel);
}

static bool give(struct loop *loop, uint16_t type, uint16_t code, int32_t value)
{
	return passed(inputflinger_live_event(&loop->live, loop->now, loop->panel, type, code, value), "event");
}

/* Hands in an event. Behind one that was not taken the panel begins anew, as after a SYN_DROPPED of the kernel. */
static void hand_in(struct loop *loop, uint16_t type, uint16_t code, int32_t value)
{
	if (loop->lost) {
		loop->lost = !give(loop, EV_SYN, SYN_DROPPED, 0);
		loop->begun_anew = !loop->lost;
	}
	if (!loop->lost)
		loop->lost = !give(loop, type, code, value);
}

static void take(struct loop *loop, const struct input_event *event)
{
	advance(loop, (uint64_t)event->input_event_sec * 1000000 + (uint64_t)event->input_event_usec);
	hand_in(loop, event->type, event->code, event->value);
	deliver(loop);
}

/* What the kernel's slots have now is handed in, as one packet. */
static void hand_in_slots(struct loop *loop, struct libevdev *device)
{
	for (int slot = 0; slot < libevdev_get_num_slots(device); slot++) {
		int id = libevdev_get_slot_value(device, (unsigned)slot, ABS_MT_TRACKING_ID);

		if (id < 0)
			continue;
		hand_in(loop, EV_ABS, ABS_MT_SLOT, slot);
		hand_in(loop, EV_ABS, ABS_MT_TRACKING_ID, id);
		hand_in(loop, EV_ABS, ABS_MT_POSITION_X, libevdev_get_slot_value(device, (unsigned)slot, ABS_MT_POSITION_X));
		hand_in(loop, EV_ABS, ABS_MT_POSITION_Y, libevdev_get_slot_value(device, (unsigned)slot, ABS_MT_POSITION_Y));
	}
	hand_in(loop, EV_ABS, ABS_MT_SLOT, libevdev_get_current_slot(device));
	hand_in(loop, EV_SYN, SYN_REPORT, 0);
	deliver(loop);
}

/* After a SYN_DROPPED the device begins anew, with what the kernel's slots have now. */
static void take_sync(struct loop *loop, struct libevdev *device)
{
	struct input_event unread;

	loop->begun_anew = false;
	while (libevdev_next_event(device, LIBEVDEV_READ_FLAG_SYNC, &unread) == LIBEVDEV_READ_STATUS_SYNC)
		;
	hand_in(loop, EV_SYN, SYN_REPORT, 0);
	hand_in_slots(loop, device);
}

/* All that the kernel has; false where the device is gone. */
static bool read_all(struct loop *loop, struct libevdev *device)
{
	struct input_event event;
	int status;

	while ((status = libevdev_next_event(device, LIBEVDEV_READ_FLAG_NORMAL, &event)) >= 0) {
		take(loop, &event);
		if (status == LIBEVDEV_READ_STATUS_SYNC || loop->begun_anew)
			take_sync(loop, device);
	}
	return status == -EAGAIN;
}

/* How long to wait for the kernel: until something is due. */
static int wait_ms(struct loop *loop)
{
	uint64_t due, now = clock_us();

	if (inputflinger_live_due(&loop->live, &due) != INPUTFLINGER_OK)
		return -1;
	return due <= now ? 0 : (int)((due - now + 999) / 1000);
}

static void run_device(struct loop *loop, int fd)
{
	struct libevdev *device = NULL;
	const struct input_absinfo *x, *y;
	struct pollfd wait = {.fd = fd, .events = POLLIN};

	if (libevdev_new_from_fd(fd, &device) < 0)
		fail("device", "libevdev does not know it");
	x = libevdev_get_abs_info(device, ABS_MT_POSITION_X);
	y = libevdev_get_abs_info(device, ABS_MT_POSITION_Y);
	if (x == NULL || y == NULL || libevdev_get_num_slots(device) < 1)
		fail("device", "it is no touch panel with slots");
	libevdev_set_clock_id(device, CLOCK_MONOTONIC);
	begin(loop, x, y, libevdev_get_num_slots(device) < SLOTS_MOST ? libevdev_get_num_slots(device) : SLOTS_MOST);
	/* Fingers that are down already: the kernel says nothing of them until they move. */
	advance(loop, clock_us());
	hand_in_slots(loop, device);
	do {
		if (poll(&wait, 1, wait_ms(loop)) < 0 && errno != EINTR)
			break;
		advance(loop, clock_us());
		deliver(loop);
	} while (read_all(loop, device));
	libevdev_free(device);
}

static void run_file(struct loop *loop, int fd, char **extent)
{
	struct input_absinfo x = {.maximum = atoi(extent[0]) - 1}, y = {.maximum = atoi(extent[1]) - 1};
	struct input_event event;

	begin(loop, &x, &y, SLOTS_MOST);
	while (read(fd, &event, sizeof event) == (ssize_t)sizeof event)
		take(loop, &event);
}

int main(int count, char **words)
{
	struct loop loop = {0};
	struct stat is;
	int fd;

	if (count != 2 && count != 4) {
		fprintf(stderr, "usage: evdev /dev/input/eventN | evdev FILE WIDTH HEIGHT\n");
		return 2;
	}
	fd = open(words[1], O_RDONLY | O_NONBLOCK);
	if (fd < 0 || fstat(fd, &is) < 0)
		fail(words[1], strerror(errno));
	if (S_ISCHR(is.st_mode))
		run_device(&loop, fd);
	else if (count == 4)
		run_file(&loop, fd, words + 2);
	else
		fail(words[1], "of a file WIDTH and HEIGHT are to be given");
	close(fd);
	demand(inputflinger_live_free(&loop.live), "free");
	return 0;
}
