/*
 * What the files of the compositor share.
 *
 *     main.c      the program: its words, its backend and its clock
 *     server.c    what wlroots needs: outputs, devices as they come, and the loop
 *     shell.c     toplevels and popups: where they are, which is in front, and which surface should have the keys
 *     gesture.c   what the compositor itself makes of fingers: a swipe, a touch that raises, one that closes popups
 *     service.c   the service: its clock, its messages in their order, pings, and what is reported late
 *     windows.c   surfaces become windows of the service
 *     touch.c     fingers become events of a panel, and motions become wl_touch
 *     keys.c      keys become events of a device, and keys and the focus become wl_keyboard
 *
 * The last four are the glue to the service: a compositor of your own needs these. docs/COMPOSITOR.md explains them.
 */
#ifndef COMPOSITOR_H
#define COMPOSITOR_H

#include <inttypes.h>
#include <math.h>
#include <stdbool.h>
#include <stdio.h>
#include <stdlib.h>
#include <string.h>

#include <wayland-server-core.h>
#include <wlr/backend.h>
#include <wlr/render/allocator.h>
#include <wlr/types/wlr_keyboard_group.h>
#include <wlr/types/wlr_output.h>
#include <wlr/types/wlr_scene.h>
#include <wlr/types/wlr_seat.h>
#include <wlr/types/wlr_touch.h>
#include <wlr/types/wlr_xdg_shell.h>

#include "inputflinger.h"

/* What the service takes: clients, windows, rectangles of a window, units on an axis of a display, ids of a device. */
#define CHANNELS 64
#define WINDOWS 64
#define RECTS 64
#define UNITS 16384
#define POINTER_IDS 32

struct server;

/* A client of the service: a surface, or the compositor's spy. */
struct window {
	struct server *server;
	struct inputflinger_client client;
	char name[64];
	/* NULL for the spy. */
	struct wlr_surface *surface;
	/* The last message that it was sent, the last one before the last ping, and the last one that it finished. */
	uint64_t sent, pinged, finished;
	struct wl_listener destroy;
};

/* Windows as the service takes them, front to back. */
struct snapshot {
	struct inputflinger_window windows[WINDOWS];
	struct inputflinger_rect rects[WINDOWS * RECTS];
	size_t windows_len, rects_len;
};

/* A toplevel in server.views, or a popup, which is in server.grabs while it is mapped and has a grab. */
struct view {
	struct wl_list link;
	struct server *server;
	struct wlr_xdg_surface *xdg;
	struct wlr_scene_node *node;
	struct wl_listener map, unmap, destroy;
};

struct server {
	struct wl_display *display;
	struct wlr_backend *backend;
	struct wlr_renderer *renderer;
	struct wlr_allocator *allocator;
	struct wlr_scene *scene;
	struct wlr_xdg_shell *shell;
	struct wlr_seat *seat;
	struct wlr_output *output;
	struct wl_listener new_output, new_input, new_surface, frame;
	bool is_running;

	/* The time, in microseconds. */
	uint64_t (*clock_us)(void);

	/* The display, in pixels, and how many units of the service a pixel has. */
	int width, height, unit;

	/* Toplevels, front to back; popups with a grab, the first one first; what lies behind their toplevel then. */
	struct wl_list views, grabs;
	struct wlr_scene_rect *wall;
	int placed;

	/* All keyboards, and their number in the service. */
	struct wlr_keyboard_group *keyboards;
	uint8_t keys;
	struct wl_listener key, modifiers, leave;

	/* The service, and the moment of the last call that was handed in. */
	struct inputflinger_live live;
	uint64_t limit_us, last_us;
	/* By channel; one without a client is all zero. */
	struct window windows[CHANNELS];
	struct window *spy, *focus;
	/* The one whose surface is being destroyed. */
	struct window *gone;
	struct snapshot shown, now;

	/* What messages asked for, and how many fingers went down that no surface was sent. */
	uint8_t wants_pilfer;
	struct view *wants_raise;
	int unclaimed;
	int32_t swipe_y[POINTER_IDS];
};

#define for_each_window(w, s) for (struct window *w = (s)->windows; w < (s)->windows + CHANNELS; w++)

/* Whether a message says that a finger goes down. */
static inline bool is_down(const struct inputflinger_message *m)
{
	return m->kind == INPUTFLINGER_MOTION &&
	       (m->action == INPUTFLINGER_DOWN || m->action == INPUTFLINGER_POINTER_DOWN);
}

static inline void listen_to(struct wl_signal *signal, struct wl_listener *listener, wl_notify_func_t notify)
{
	listener->notify = notify;
	wl_signal_add(signal, listener);
}

/* server.c: a display, its clock and its limit are set before; `begin` answers the name of the socket, or NULL. */
const char *server_begin(struct server *s, struct wlr_backend *backend);
void server_run(struct server *s);
void server_end(struct server *s);
bool server_key(struct server *s, const struct wlr_event_keyboard_key *event);

/* shell.c */
void shell_begin(struct server *s);
void shell_raise(struct view *view);
void shell_dismiss(struct server *s);
struct view *shell_hindmost(struct server *s);
struct view *shell_view(struct wlr_surface *surface);
struct wlr_surface *shell_focus(struct server *s);
void shell_name(struct wlr_surface *surface, char *name, size_t size);

/* gesture.c */
void gesture_see(struct window *w, const struct inputflinger_message *m);
void gesture_act(struct server *s);

/* service.c */
bool service_new(struct server *s);
bool service_took(int status, const char *what);
void service_event(struct server *s, uint8_t device, uint16_t type, uint16_t code, int32_t value);
void service_packet(struct server *s, uint8_t device, uint16_t type, uint16_t code, int32_t value);
void service_begin(struct server *s);
void service_end(struct server *s);
void service_tick(struct server *s);
int service_wait_ms(struct server *s);

/* windows.c */
struct window *window_new(struct server *s, struct wlr_surface *surface);
void windows_settle(struct server *s);

/* touch.c */
void touch_new(struct server *s, struct wlr_input_device *device);
void touch_send(struct window *w, const struct inputflinger_message *m);

/* keys.c */
bool keys_new(struct server *s);
void keys_send(struct window *w, const struct inputflinger_message *m);

#endif
