/* Toplevels and popups: where they are, which is in front, and which surface should have the keys. */
#include "compositor.h"

static bool is_popup(const struct view *view)
{
	return view->xdg->role == WLR_XDG_SURFACE_ROLE_POPUP;
}

/* The toplevel of a surface, through subsurfaces and popups; NULL if there is none any more. */
struct view *shell_view(struct wlr_surface *surface)
{
	while (surface && (surface = wlr_surface_get_root_surface(surface)) && wlr_surface_is_xdg_surface(surface)) {
		struct wlr_xdg_surface *xdg = wlr_xdg_surface_from_wlr_surface(surface);

		if (!xdg || xdg->role != WLR_XDG_SURFACE_ROLE_POPUP)
			return xdg ? xdg->data : NULL;
		surface = xdg->popup->parent;
	}
	return NULL;
}

/* The application and the title of a surface's toplevel, and the number of a popup's or a subsurface's wl_surface. */
void shell_name(struct wlr_surface *surface, char *name, size_t size)
{
	struct view *view = shell_view(surface);
	const char *app_id = view ? view->xdg->toplevel->app_id : NULL;
	const char *title = view ? view->xdg->toplevel->title : NULL;
	int len = snprintf(name, size, "%.18s/%.18s", app_id ? app_id : "", title ? title : "");

	if (!view || view->xdg->surface != surface)
		snprintf(name + len, size - (size_t)len, "/%u", wl_resource_get_id(surface->resource));
	for (; *name; name++)
		if (*name < '!' || *name > '~' || *name == '"' || *name == '\\')
			*name = '_';
}

struct view *shell_hindmost(struct server *s)
{
	struct view *view;

	wl_list_for_each_reverse(view, &s->views, link)
		if (view->xdg->mapped)
			return view;
	return NULL;
}

/* The last popup with a grab, or NULL. */
static struct view *last_grab(struct server *s)
{
	struct view *popup = wl_container_of(s->grabs.prev, popup, link);

	return wl_list_empty(&s->grabs) ? NULL : popup;
}

/* While a popup has a grab, fingers beside its toplevel are nobody's: a wall lies behind it. */
static void place_wall(struct server *s)
{
	struct view *popup = last_grab(s), *view = popup ? shell_view(popup->xdg->surface) : NULL;

	wlr_scene_node_set_enabled(&s->wall->node, view != NULL);
	if (view)
		wlr_scene_node_place_below(&s->wall->node, view->node);
}

void shell_raise(struct view *view)
{
	wl_list_remove(&view->link);
	wl_list_insert(&view->server->views, &view->link);
	wlr_scene_node_raise_to_top(view->node);
	place_wall(view->server);
}

/* Closes all popups with a grab, the last one first. */
void shell_dismiss(struct server *s)
{
	for (struct view *popup; (popup = last_grab(s)) != NULL;)
		wlr_xdg_popup_destroy(popup->xdg);
}

/* The last popup with a grab has the keys, otherwise the front toplevel. */
struct wlr_surface *shell_focus(struct server *s)
{
	struct view *view = last_grab(s);

	if (view)
		return view->xdg->surface;
	wl_list_for_each(view, &s->views, link)
		if (view->xdg->mapped)
			return view->xdg->surface;
	return NULL;
}

static void view_map(struct wl_listener *listener, void *data)
{
	struct view *view = wl_container_of(listener, view, map);

	if (is_popup(view) && view->xdg->popup->seat)
		wl_list_insert(view->server->grabs.prev, &view->link);
	if ((!is_popup(view) || view->xdg->popup->seat) && shell_view(view->xdg->surface))
		shell_raise(shell_view(view->xdg->surface));
}

static void view_unmap(struct wl_listener *listener, void *data)
{
	struct view *view = wl_container_of(listener, view, unmap);

	if (!is_popup(view))
		return;
	wl_list_remove(&view->link);
	wl_list_init(&view->link);
	place_wall(view->server);
}

static void view_destroy(struct wl_listener *listener, void *data)
{
	struct view *view = wl_container_of(listener, view, destroy);

	if (view->server->wants_raise == view)
		view->server->wants_raise = NULL;
	view->xdg->data = NULL;
	wl_list_remove(&view->link);
	wl_list_remove(&view->map.link);
	wl_list_remove(&view->unmap.link);
	wl_list_remove(&view->destroy.link);
	free(view);
}

/* A popup is a part of its parent in the scene. */
static void handle_surface(struct wl_listener *listener, void *data)
{
	struct server *s = wl_container_of(listener, s, new_surface);
	struct wlr_xdg_surface *xdg = data, *parent = NULL;
	struct view *view = calloc(1, sizeof *view);

	if (xdg->role == WLR_XDG_SURFACE_ROLE_POPUP)
		parent = wlr_xdg_surface_from_wlr_surface(xdg->popup->parent);
	if (!view || (xdg->role == WLR_XDG_SURFACE_ROLE_POPUP && (!parent || !parent->data))) {
		free(view);
		return;
	}
	view->server = s;
	view->xdg = xdg;
	view->node = wlr_scene_xdg_surface_create(parent ? ((struct view *)parent->data)->node : &s->scene->node, xdg);
	xdg->data = view;
	wl_list_init(&view->link);
	if (!parent) {
		wl_list_insert(&s->views, &view->link);
		wlr_scene_node_set_position(view->node, 40 * s->placed, 40 * s->placed);
		s->placed = (s->placed + 1) % 8;
	}
	listen_to(&xdg->events.map, &view->map, view_map);
	listen_to(&xdg->events.unmap, &view->unmap, view_unmap);
	listen_to(&xdg->events.destroy, &view->destroy, view_destroy);
}

void shell_begin(struct server *s)
{
	wl_list_init(&s->views);
	wl_list_init(&s->grabs);
	s->wall = wlr_scene_rect_create(&s->scene->node, 0, 0, (float[4]){0});
	wlr_scene_node_set_enabled(&s->wall->node, false);
	s->shell = wlr_xdg_shell_create(s->display);
	/* wlroots may not give up a ping: the service reports who is late. */
	s->shell->ping_timeout = INT32_MAX;
	listen_to(&s->shell->events.new_surface, &s->new_surface, handle_surface);
}
