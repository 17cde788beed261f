/* Keys become events of a device, and keys and the focus become wl_keyboard. */
#include <linux/input-event-codes.h>

#include "compositor.h"

static void handle_key(struct wl_listener *listener, void *data)
{
	struct server *s = wl_container_of(listener, s, key);
	struct wlr_event_keyboard_key *event = data;

	if (!server_key(s, event))
		service_packet(s, s->keys, EV_KEY, (uint16_t)event->keycode, event->state);
}

/* Modifiers pass the service by: its keys have none that xkb knows. */
static void handle_modifiers(struct wl_listener *listener, void *data)
{
	struct server *s = wl_container_of(listener, s, modifiers);

	wlr_seat_keyboard_send_modifiers(s->seat, &s->keyboards->keyboard.modifiers);
}

/* A keyboard is gone: the keys that it alone held go up. */
static void handle_leave(struct wl_listener *listener, void *data)
{
	struct server *s = wl_container_of(listener, s, leave);
	uint32_t *code;

	wl_array_for_each(code, (struct wl_array *)data)
		service_packet(s, s->keys, EV_KEY, (uint16_t)*code, 0);
}

/* All keyboards are one device of the service. */
bool keys_new(struct server *s)
{
	listen_to(&s->keyboards->keyboard.events.key, &s->key, handle_key);
	listen_to(&s->keyboards->keyboard.events.modifiers, &s->modifiers, handle_modifiers);
	listen_to(&s->keyboards->events.leave, &s->leave, handle_leave);
	return service_took(inputflinger_live_add_keys(&s->live, 0, NULL, 0, &s->keys, NULL), "add_keys");
}

/* A key that is held while the focus moves is nobody's: it goes up for nobody, so `enter` lists none. */
void keys_send(struct window *w, const struct inputflinger_message *m)
{
	struct wlr_seat *seat = w->server->seat;
	bool has_focus = seat->keyboard_state.focused_surface == w->surface;

	if (m->kind == INPUTFLINGER_KEY && has_focus)
		wlr_seat_keyboard_send_key(seat, (uint32_t)(m->moment_us / 1000), m->scan, m->down);
	else if (m->kind == INPUTFLINGER_FOCUS && m->focus)
		wlr_seat_keyboard_enter(seat, w->surface, NULL, 0, &w->server->keyboards->keyboard.modifiers);
	else if (m->kind == INPUTFLINGER_FOCUS && has_focus)
		wlr_seat_keyboard_clear_focus(seat);
}
