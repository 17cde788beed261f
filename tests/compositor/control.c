/*
 * The compositor of lib/examples/compositor on a headless display of 1280x720, with commands on standard input in place
 * of devices and a clock. Each is answered by a line `ok`, or by one that begins with `error`. It ends with the input.
 * Its word is the milliseconds of the limit.
 *
 *     clock US                  the time is now this
 *     plug D touch|keys         plugs in a device, which has the number D here, 1 to 8
 *     unplug D
 *     down D ID X Y             a finger goes down, in pixels of the display
 *     motion D ID X Y
 *     up D ID
 *     cancel D ID
 *     frame D                   ends a packet of fingers
 *     key D CODE 0|1            a key goes up or down
 *     place TITLE X Y           moves a toplevel
 *     raise TITLE
 *     clients                   answers `ok N`: so many clients are connected
 *     last                      answers `ok US`: the moment of what was handed in last
 */
#include <unistd.h>

#include <wlr/backend/headless.h>
#include <wlr/interfaces/wlr_input_device.h>
#include <wlr/interfaces/wlr_keyboard.h>
#include <wlr/util/log.h>

#include "compositor.h"

#define DEVICES 8

struct control {
	struct server *server;
	struct wlr_input_device *devices[DEVICES + 1];
	char line[256];
	size_t len;
};

static uint64_t now_us;

static uint64_t clock_us(void)
{
	return now_us;
}

static struct view *view_of(struct server *s, const char *title)
{
	struct view *view;

	wl_list_for_each(view, &s->views, link)
		if (view->xdg->toplevel->title && strcmp(view->xdg->toplevel->title, title) == 0)
			return view;
	return NULL;
}

static bool touch(struct server *s, struct wlr_input_device *device, const char *verb, int id, double x, double y)
{
	struct wlr_event_touch_down down = {device, 0, id, x / s->width, y / s->height};
	struct wlr_event_touch_motion motion = {device, 0, id, x / s->width, y / s->height};
	struct wlr_event_touch_up up = {device, 0, id};
	struct wlr_event_touch_cancel cancel = {device, 0, id};

	if (strcmp(verb, "down") == 0)
		wl_signal_emit(&device->touch->events.down, &down);
	else if (strcmp(verb, "motion") == 0)
		wl_signal_emit(&device->touch->events.motion, &motion);
	else if (strcmp(verb, "up") == 0)
		wl_signal_emit(&device->touch->events.up, &up);
	else if (strcmp(verb, "cancel") == 0)
		wl_signal_emit(&device->touch->events.cancel, &cancel);
	else if (strcmp(verb, "frame") == 0)
		wl_signal_emit(&device->touch->events.frame, NULL);
	else
		return false;
	return true;
}

static bool for_device(struct control *c, const char *verb, int number, const char *rest)
{
	struct server *s = c->server;
	struct wlr_input_device *device = c->devices[number];
	bool is_touch = strcmp(rest, " touch") == 0;
	int id = 0, state = 0;
	double x = 0, y = 0;

	if (strcmp(verb, "plug") == 0 && !device) {
		c->devices[number] =
			wlr_headless_add_input_device(s->backend, is_touch ? WLR_INPUT_DEVICE_TOUCH : WLR_INPUT_DEVICE_KEYBOARD);
		return c->devices[number] != NULL;
	}
	if (!device)
		return false;
	if (strcmp(verb, "unplug") == 0) {
		c->devices[number] = NULL;
		wlr_input_device_destroy(device);
		return true;
	}
	if (strcmp(verb, "key") == 0 && device->type == WLR_INPUT_DEVICE_KEYBOARD && sscanf(rest, "%d %d", &id, &state) == 2) {
		struct wlr_event_keyboard_key key = {0, (uint32_t)id, true, state ? WL_KEYBOARD_KEY_STATE_PRESSED : WL_KEYBOARD_KEY_STATE_RELEASED};

		wlr_keyboard_notify_key(device->keyboard, &key);
		return true;
	}
	sscanf(rest, "%d %lf %lf", &id, &x, &y);
	return device->type == WLR_INPUT_DEVICE_TOUCH && touch(s, device, verb, id, x, y);
}

static bool obey(struct control *c, const char *line)
{
	struct server *s = c->server;
	unsigned long long us;
	char verb[16], title[64];
	int number, x, y, end = 0;
	struct view *view;

	if (sscanf(line, "clock %llu", &us) == 1) {
		now_us = us > now_us ? us : now_us;
		service_tick(s);
	} else if (sscanf(line, "place %63s %d %d", title, &x, &y) == 3 && (view = view_of(s, title))) {
		wlr_scene_node_set_position(view->node, x, y);
	} else if (sscanf(line, "raise %63s", title) == 1 && (view = view_of(s, title))) {
		shell_raise(view);
	} else if (sscanf(line, "%15s %d%n", verb, &number, &end) == 2 && end > 0 && number >= 1 && number <= DEVICES) {
		return for_device(c, verb, number, line + end);
	} else {
		return false;
	}
	return true;
}

static void answer(struct control *c, const char *line)
{
	struct server *s = c->server;

	windows_settle(s);
	if (strcmp(line, "clients") == 0)
		printf("ok %d\n", wl_list_length(wl_display_get_client_list(s->display)));
	else if (strcmp(line, "last") == 0)
		printf("ok %llu\n", (unsigned long long)s->last_us);
	else if (obey(c, line))
		printf("ok\n");
	else
		printf("error: %s\n", line);
	windows_settle(s);
}

static int handle_input(int fd, uint32_t mask, void *data)
{
	struct control *c = data;
	char bytes[256];
	ssize_t len = read(fd, bytes, sizeof bytes);

	(void)mask;
	if (len <= 0)
		c->server->is_running = false;
	for (ssize_t i = 0; i < len; i++) {
		if (bytes[i] != '\n' && c->len + 1 < sizeof c->line) {
			c->line[c->len++] = bytes[i];
			continue;
		}
		c->line[c->len] = '\0';
		c->len = 0;
		answer(c, c->line);
	}
	return 0;
}

int main(int count, char **words)
{
	static struct server s = {.clock_us = clock_us};
	static struct control c = {.server = &s};
	struct wl_event_source *input;
	struct wlr_backend *backend;
	const char *socket;

	if (count != 2)
		return 2;
	wlr_log_init(WLR_SILENT, NULL);
	s.limit_us = strtoull(words[1], NULL, 10) * 1000;
	s.display = wl_display_create();
	backend = wlr_headless_backend_create(s.display);
	wlr_headless_add_output(backend, 1280, 720);
	socket = server_begin(&s, backend);
	if (!socket)
		return 1;
	printf("socket %s\n", socket);
	input = wl_event_loop_add_fd(wl_display_get_event_loop(s.display), STDIN_FILENO, WL_EVENT_READABLE, handle_input, &c);
	server_run(&s);
	wl_event_source_remove(input);
	server_end(&s);
	return 0;
}
