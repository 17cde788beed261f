/* Fingers become events of a panel, and motions become wl_touch. */
#include <linux/input.h>

#include "compositor.h"

#define SLOTS 16
#define NO_FINGER INT64_MIN

/* A touch screen: its number in the service, and the touch id in each slot. */
struct panel {
	struct server *server;
	uint8_t number;
	int32_t tracking;
	int64_t slots[SLOTS];
	struct wl_listener down, up, motion, cancel, frame, destroy;
};

static void give(struct panel *p, uint16_t code, int32_t value)
{
	service_event(p->server, p->number, EV_ABS, code, value);
}

/* A place is 0 to 1 on each axis. One beside the display counts as the nearest one in it. */
static void give_place(struct panel *p, double x, double y)
{
	int width = p->server->width * p->server->unit, height = p->server->height * p->server->unit;

	give(p, ABS_MT_POSITION_X, (int32_t)fmax(fmin(round(x * width), width - 1), 0));
	give(p, ABS_MT_POSITION_Y, (int32_t)fmax(fmin(round(y * height), height - 1), 0));
}

/* Selects the slot that has a touch id, or NO_FINGER, and puts another one in it. Whether there is such a slot. */
static bool select_slot(struct panel *p, int64_t id, int64_t next)
{
	for (int slot = 0; slot < SLOTS; slot++) {
		if (p->slots[slot] != id)
			continue;
		p->slots[slot] = next;
		give(p, ABS_MT_SLOT, slot);
		return true;
	}
	return false;
}

static void handle_down(struct wl_listener *listener, void *data)
{
	struct panel *p = wl_container_of(listener, p, down);
	struct wlr_event_touch_down *event = data;

	if (!select_slot(p, NO_FINGER, event->touch_id)) {
		printf("finger %d: more than %d are down\n", event->touch_id, SLOTS);
		return;
	}
	give(p, ABS_MT_TRACKING_ID, p->tracking++ & 0xffff);
	give(p, ABS_MT_TOOL_TYPE, MT_TOOL_FINGER);
	give_place(p, event->x, event->y);
}

static void handle_motion(struct wl_listener *listener, void *data)
{
	struct panel *p = wl_container_of(listener, p, motion);
	struct wlr_event_touch_motion *event = data;

	if (select_slot(p, event->touch_id, event->touch_id))
		give_place(p, event->x, event->y);
}

static void handle_up(struct wl_listener *listener, void *data)
{
	struct panel *p = wl_container_of(listener, p, up);
	struct wlr_event_touch_up *event = data;

	if (select_slot(p, event->touch_id, NO_FINGER))
		give(p, ABS_MT_TRACKING_ID, -1);
}

static void handle_frame(struct wl_listener *listener, void *data)
{
	struct panel *p = wl_container_of(listener, p, frame);

	service_packet(p->server, p->number, EV_SYN, SYN_REPORT, 0);
}

/* A cancelled finger is a palm for a packet, and gone in the next one. */
static void handle_cancel(struct wl_listener *listener, void *data)
{
	struct panel *p = wl_container_of(listener, p, cancel);
	struct wlr_event_touch_cancel *event = data;

	if (!select_slot(p, event->touch_id, NO_FINGER))
		return;
	give(p, ABS_MT_TOOL_TYPE, MT_TOOL_PALM);
	handle_frame(&p->frame, NULL);
	give(p, ABS_MT_TRACKING_ID, -1);
}

static void handle_destroy(struct wl_listener *listener, void *data)
{
	struct panel *p = wl_container_of(listener, p, destroy);
	struct wl_listener *all[] = {&p->down, &p->up, &p->motion, &p->cancel, &p->frame, &p->destroy};
	struct server *s = p->server;

	for (size_t i = 0; i < sizeof all / sizeof all[0]; i++)
		wl_list_remove(&all[i]->link);
	service_begin(s);
	service_took(inputflinger_live_remove_device(&s->live, s->last_us, p->number), "remove_device");
	service_end(s);
	free(p);
}

/* A panel is as large as any display may be, so that it needs none yet: its positions are units. */
void touch_new(struct server *s, struct wlr_input_device *device)
{
	static const struct inputflinger_panel panel = {{0, UNITS - 1}, {0, UNITS - 1}, UNITS, UNITS, 0};
	struct panel *p = calloc(1, sizeof *p);

	if (!p || !service_took(inputflinger_live_add_touch(&s->live, 0, SLOTS, &panel, &p->number), "add_touch")) {
		free(p);
		return;
	}
	p->server = s;
	for (int slot = 0; slot < SLOTS; slot++)
		p->slots[slot] = NO_FINGER;
	listen_to(&device->touch->events.down, &p->down, handle_down);
	listen_to(&device->touch->events.up, &p->up, handle_up);
	listen_to(&device->touch->events.motion, &p->motion, handle_motion);
	listen_to(&device->touch->events.cancel, &p->cancel, handle_cancel);
	listen_to(&device->touch->events.frame, &p->frame, handle_frame);
	listen_to(&device->events.destroy, &p->destroy, handle_destroy);
}

/*
 * The seat keeps the fingers that a client of Wayland knows. wl_touch.cancel ends all of them, so what the service
 * sends of the others later finds none. A finger whose surface is destroyed goes up. No grab of the seat takes part:
 * the service has decided.
 */
void touch_send(struct window *w, const struct inputflinger_message *m)
{
	struct server *s = w->server;
	uint32_t ms = (uint32_t)(m->moment_us / 1000);
	bool is_canceled = m->action == INPUTFLINGER_CANCEL || (m->flags & INPUTFLINGER_FLAG_CANCELED);
	bool is_of_all = m->action == INPUTFLINGER_MOVE || m->action == INPUTFLINGER_CANCEL;

	wlr_seat_touch_end_grab(s->seat);
	for (int i = is_of_all ? 0 : m->index; i < (is_of_all ? m->count : m->index + 1); i++) {
		int32_t id = m->device * POINTER_IDS + (int32_t)m->pointers[i].id;
		double x = (double)m->pointers[i].x / s->unit, y = (double)m->pointers[i].y / s->unit;
		struct wlr_touch_point *point = wlr_seat_touch_get_point(s->seat, id);

		if (is_down(m) && wlr_surface_accepts_touch(s->seat, w->surface))
			wlr_seat_touch_notify_down(s->seat, w->surface, ms, id, x, y);
		else if (!point || point->surface != w->surface)
			continue;
		else if (is_canceled && w != s->gone)
			wlr_seat_touch_notify_cancel(s->seat, w->surface);
		else if (m->action != INPUTFLINGER_MOVE)
			wlr_seat_touch_notify_up(s->seat, ms, id);
		else if (point->sx != x || point->sy != y)
			wlr_seat_touch_notify_motion(s->seat, ms, id, x, y);
	}
}
