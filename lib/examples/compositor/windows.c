/* Surfaces become windows of the service: each surface of a toplevel, its subsurfaces and its popups is a client. */
#include "compositor.h"

/* A client may place a subsurface anywhere: what is farther away than this, in units, counts as so far. */
#define FAR (1 << 22)

static void surface_destroyed(struct wl_listener *listener, void *data)
{
	struct window *w = wl_container_of(listener, w, destroy);

	wl_list_remove(&w->destroy.link);
	w->server->gone = w;
	windows_settle(w->server);
	w->surface = NULL;
}

/* A client of the service for a surface, or for the spy; NULL if there is none left. */
struct window *window_new(struct server *s, struct wlr_surface *surface)
{
	struct inputflinger_client client = {0};
	struct window *w;

	if (inputflinger_live_open(&s->live, &client) != INPUTFLINGER_OK)
		return NULL;
	w = &s->windows[client.channel - 1];
	*w = (struct window){.server = s, .client = client, .surface = surface, .name = "spy"};
	if (surface) {
		surface->data = w;
		listen_to(&surface->events.destroy, &w->destroy, surface_destroyed);
		shell_name(surface, w->name, sizeof w->name);
	}
	return w;
}

static int32_t units(const struct server *s, int64_t pixels)
{
	return (int32_t)fmax(-FAR, fmin((double)pixels * s->unit, FAR));
}

/* A box that begins at a place, in pixels of the display. */
static struct inputflinger_rect rect(const struct server *s, int64_t x, int64_t y, const pixman_box32_t *b)
{
	return (struct inputflinger_rect){units(s, x + b->x1), units(s, y + b->y1), units(s, x + b->x2),
					  units(s, y + b->y2)};
}

/*
 * Adds a window of this size at a place, behind those that were added before. Without a client it is a wall, so that no
 * finger falls through it. It can be touched in a region; one of more than 64 rectangles becomes its bounds.
 */
static void add(struct server *s, struct window *w, int x, int y, int width, int height, pixman_region32_t *region)
{
	struct inputflinger_window *window = &s->now.windows[s->now.windows_len];
	pixman_box32_t size = {0, 0, width, height}, *boxes;
	int len = 1;

	if (s->now.windows_len == WINDOWS)
		return;
	boxes = region ? pixman_region32_rectangles(region, &len) : &size;
	if (len > RECTS) {
		boxes = pixman_region32_extents(region);
		len = 1;
	}
	if (w)
		window->client = w->client;
	window->frame = rect(s, x, y, &size);
	window->rects = (uint32_t)len;
	for (int i = 0; i < len; i++)
		s->now.rects[s->now.rects_len++] = rect(s, x, y, &boxes[i]);
	s->now.windows_len++;
}

/*
 * Adds what a node of the scene shows, front to back. A rectangle of the compositor's own is a wall over the display.
 * The last window that the service takes is one too: what is behind it gets no fingers.
 */
static void add_node(struct server *s, struct wlr_scene_node *node)
{
	struct wlr_scene_node *child;
	int x, y;

	wl_list_for_each_reverse(child, &node->state.children, state.link)
		add_node(s, child);
	if (!wlr_scene_node_coords(node, &x, &y))
		return;
	if (node->type == WLR_SCENE_NODE_RECT || s->now.windows_len == WINDOWS - 1) {
		add(s, NULL, 0, 0, s->width, s->height, NULL);
	} else if (node->type == WLR_SCENE_NODE_SURFACE) {
		struct wlr_surface *surface = wlr_scene_surface_from_node(node)->surface;

		add(s, surface->data ? surface->data : window_new(s, surface), x, y, surface->current.width,
		    surface->current.height, &surface->input_region);
	}
}

/*
 * Shows the windows as the scene has them, and asks for the focus, if they changed; closes the client whose surface is
 * gone, if there is one. All is at one moment.
 */
void windows_settle(struct server *s)
{
	struct wlr_surface *surface = shell_focus(s);
	struct window *focus;

	memset(&s->now, 0, sizeof s->now);
	add(s, s->spy, 0, 0, s->width, s->height, NULL);
	s->now.windows[0].flags = INPUTFLINGER_SPY;
	add_node(s, &s->scene->node);
	focus = surface ? surface->data : NULL;
	if (memcmp(&s->now, &s->shown, sizeof s->now) == 0 && focus == s->focus && !s->gone)
		return;
	service_begin(s);
	if (service_took(inputflinger_live_windows(&s->live, s->last_us, s->now.windows, s->now.windows_len,
						   s->now.rects, s->now.rects_len, NULL), "windows"))
		s->shown = s->now;
	if (focus != s->focus &&
	    service_took(inputflinger_live_focus(&s->live, s->last_us, 0, focus ? &focus->client : NULL), "focus"))
		s->focus = focus;
	service_end(s);
	if (s->gone && service_took(inputflinger_live_close(&s->live, s->last_us, &s->gone->client), "close"))
		*s->gone = (struct window){0};
	s->gone = NULL;
}
