/* The service: its clock, its messages in their order, pings, and what is reported late. */
#include "compositor.h"

/* Whether a call was made. If not, or not yet, it prints why. */
bool service_took(int status, const char *what)
{
	if (status != INPUTFLINGER_OK)
		fprintf(stderr, "compositor: %s: %s\n", what, inputflinger_status_text(status));
	return status == INPUTFLINGER_OK;
}

/* A window is done with what it was sent, up to a message. */
static void finish(struct window *w, uint64_t seq)
{
	struct server *s = w->server;

	if (w->finished < seq &&
	    service_took(inputflinger_live_finish_through(&s->live, s->clock_us(), &w->client, seq), "finish"))
		w->finished = seq;
}

/* After something was handed in: sends all messages in the order of the service, and frames behind those of fingers. */
void service_end(struct server *s)
{
	struct inputflinger_client client;
	struct inputflinger_message m;
	bool is_last;

	while (inputflinger_live_next_any(&s->live, &client, &m, &is_last) == INPUTFLINGER_OK) {
		struct window *w = &s->windows[client.channel - 1];

		w->sent = m.seq;
		gesture_see(w, &m);
		if (w == s->spy)
			finish(w, m.seq);
		else if (m.kind == INPUTFLINGER_MOTION)
			touch_send(w, &m);
		else
			keys_send(w, &m);
	}
	wlr_seat_touch_send_frame(s->seat);
}

/* Runs what is due up to a time, each at its own moment, and prints which windows do not respond. */
static void run_due(struct server *s, uint64_t now_us)
{
	uint64_t due, late;

	while (inputflinger_live_due(&s->live, &due) == INPUTFLINGER_OK && due <= now_us &&
	       service_took(inputflinger_live_advance(&s->live, due, &late), "advance")) {
		for_each_window(w, s)
			if (late >> (w - s->windows) & 1)
				printf("late %" PRIu64 " %s: message %" PRIu64 " is not finished\n", due, w->name,
				       w->finished + 1);
		service_end(s);
	}
}

/* Before something is handed in: it has a moment of its own, later than that of what was handed in before. */
void service_begin(struct server *s)
{
	uint64_t now = s->clock_us();

	s->last_us = now > s->last_us ? now : s->last_us + 1;
	run_due(s, s->last_us);
}

/* Hands in an event of a device. */
void service_event(struct server *s, uint8_t device, uint16_t type, uint16_t code, int32_t value)
{
	service_took(inputflinger_live_event(&s->live, s->last_us, device, type, code, value), "event");
}

/* Hands in one that ends a packet, or is one by itself, at a moment of its own. */
void service_packet(struct server *s, uint8_t device, uint16_t type, uint16_t code, int32_t value)
{
	service_begin(s);
	service_event(s, device, type, code, value);
	service_end(s);
}

/* Pings a peer for all that it was sent. */
static void ping(struct server *s, struct wlr_xdg_surface *xdg)
{
	for_each_window(w, s)
		if (shell_view(w->surface) && shell_view(w->surface)->xdg->client == xdg->client)
			w->pinged = w->sent;
	wlr_xdg_surface_ping(xdg);
}

/*
 * What comes by itself: time passes, and peers answer pings. One that has answered is done with what it was sent before
 * the ping. A window that has no toplevel is done with all, since nobody can be pinged for it.
 */
void service_tick(struct server *s)
{
	struct view *view;

	run_due(s, s->clock_us());
	for_each_window(w, s)
		if (!(view = shell_view(w->surface)) || view->xdg->client->ping_serial == 0)
			finish(w, view ? w->pinged : w->sent);
	service_end(s);
	for_each_window(w, s)
		if (w->pinged < w->sent && (view = shell_view(w->surface)) && view->xdg->client->ping_serial == 0)
			ping(s, view->xdg);
}

/* How long the loop may wait for something to come. */
int service_wait_ms(struct server *s)
{
	uint64_t due, now = s->clock_us();

	if (inputflinger_live_due(&s->live, &due) != INPUTFLINGER_OK)
		return -1;
	return due <= now ? 0 : (int)((due - now + 999) / 1000);
}

/* Clients of Wayland repeat keys by themselves. */
bool service_new(struct server *s)
{
	static const struct inputflinger_repeats none;

	return service_took(inputflinger_live_new(&s->live, s->limit_us, &none, NULL), "new") &&
	       (s->spy = window_new(s, NULL)) != NULL;
}
