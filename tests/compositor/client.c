/*
 * A Wayland client of a test: it does what standard input says and prints what it is sent. A line is answered by a line `ok`, which comes behind all that
 * the compositor sent before. Surfaces have names, which are the titles of toplevels; the first word of the program is the application's.
 *
 *     toplevel NAME W H                       a toplevel of this size
 *     popup NAME PARENT X Y W H [grab]        a popup at a place of its parent, perhaps with a grab
 *     sub NAME PARENT X Y W H                 a subsurface
 *     region NAME X Y W H ..                  the input region, in rectangles; none of them leaves it empty
 *     hide NAME, show NAME, destroy NAME      of a toplevel or a subsurface
 *     deaf, hear                              pings are not answered any more, or again, with those that were not
 *     sync                                    nothing
 *
 * It prints `surface NAME NUMBER` for each new one, with the number of its wl_surface, and what wl_touch, wl_keyboard and the popups say.
 */
#include <poll.h>
#include <stdbool.h>
#include <stdio.h>
#include <stdlib.h>
#include <string.h>
#include <sys/mman.h>
#include <unistd.h>

#include <wayland-client.h>

#include "xdg-shell-client-protocol.h"

#define SURFACES 64

struct surface {
	char name[32];
	int width, height;
	struct wl_surface *surface;
	struct wl_subsurface *sub;
	struct xdg_surface *xdg;
	struct xdg_toplevel *toplevel;
	struct xdg_popup *popup;
	struct surface *parent;
	bool is_configured;
};

static struct {
	const char *app;
	struct wl_display *display;
	struct wl_compositor *compositor;
	struct wl_subcompositor *subcompositor;
	struct wl_shm *shm;
	struct wl_seat *seat;
	struct wl_touch *touch;
	struct wl_keyboard *keyboard;
	struct xdg_wm_base *base;
	uint32_t serial, unanswered;
	bool is_deaf;
	struct surface surfaces[SURFACES];
} my;

static struct surface *named(const char *name)
{
	for (int i = 0; i < SURFACES; i++)
		if (my.surfaces[i].surface && strcmp(my.surfaces[i].name, name) == 0)
			return &my.surfaces[i];
	return NULL;
}

static const char *name_of(struct wl_surface *surface)
{
	for (int i = 0; i < SURFACES; i++)
		if (surface && my.surfaces[i].surface == surface)
			return my.surfaces[i].name;
	return "-";
}

static void touch_down(void *data, struct wl_touch *touch, uint32_t serial, uint32_t ms, struct wl_surface *surface, int32_t id, wl_fixed_t x, wl_fixed_t y)
{
	(void)data, (void)touch;
	my.serial = serial;
	printf("down %u %d %s %.8g,%.8g\n", ms, id, name_of(surface), wl_fixed_to_double(x), wl_fixed_to_double(y));
}

static void touch_up(void *data, struct wl_touch *touch, uint32_t serial, uint32_t ms, int32_t id)
{
	(void)data, (void)touch;
	my.serial = serial;
	printf("up %u %d\n", ms, id);
}

static void touch_motion(void *data, struct wl_touch *touch, uint32_t ms, int32_t id, wl_fixed_t x, wl_fixed_t y)
{
	(void)data, (void)touch;
	printf("motion %u %d %.8g,%.8g\n", ms, id, wl_fixed_to_double(x), wl_fixed_to_double(y));
}

static void touch_frame(void *data, struct wl_touch *touch)
{
	(void)data, (void)touch;
	printf("frame\n");
}

static void touch_cancel(void *data, struct wl_touch *touch)
{
	(void)data, (void)touch;
	printf("cancel\n");
}

static void touch_shape(void *data, struct wl_touch *touch, int32_t id, wl_fixed_t major, wl_fixed_t minor)
{
	(void)data, (void)touch, (void)id, (void)major, (void)minor;
}

static void touch_orientation(void *data, struct wl_touch *touch, int32_t id, wl_fixed_t orientation)
{
	(void)data, (void)touch, (void)id, (void)orientation;
}

static const struct wl_touch_listener touches = {touch_down, touch_up, touch_motion, touch_frame, touch_cancel, touch_shape, touch_orientation};

static void keyboard_keymap(void *data, struct wl_keyboard *keyboard, uint32_t format, int32_t fd, uint32_t size)
{
	(void)data, (void)keyboard, (void)format, (void)size;
	close(fd);
}

static void keyboard_enter(void *data, struct wl_keyboard *keyboard, uint32_t serial, struct wl_surface *surface, struct wl_array *keys)
{
	(void)data, (void)keyboard;
	my.serial = serial;
	printf("enter %s %zu\n", name_of(surface), keys->size / sizeof(uint32_t));
}

static void keyboard_leave(void *data, struct wl_keyboard *keyboard, uint32_t serial, struct wl_surface *surface)
{
	(void)data, (void)keyboard, (void)serial;
	printf("leave %s\n", name_of(surface));
}

static void keyboard_key(void *data, struct wl_keyboard *keyboard, uint32_t serial, uint32_t ms, uint32_t key, uint32_t state)
{
	(void)data, (void)keyboard;
	my.serial = serial;
	printf("key %u %u %u\n", ms, key, state);
}

static void keyboard_modifiers(void *data, struct wl_keyboard *keyboard, uint32_t serial, uint32_t depressed, uint32_t latched, uint32_t locked, uint32_t group)
{
	(void)data, (void)keyboard, (void)serial;
	printf("modifiers %u %u %u %u\n", depressed, latched, locked, group);
}

static void keyboard_repeat(void *data, struct wl_keyboard *keyboard, int32_t rate, int32_t delay)
{
	(void)data, (void)keyboard, (void)rate, (void)delay;
}

static const struct wl_keyboard_listener keyboards = {keyboard_keymap, keyboard_enter, keyboard_leave, keyboard_key, keyboard_modifiers, keyboard_repeat};

static void base_ping(void *data, struct xdg_wm_base *base, uint32_t serial)
{
	(void)data;
	if (my.is_deaf)
		my.unanswered = serial;
	else
		xdg_wm_base_pong(base, serial);
}

static const struct xdg_wm_base_listener bases = {base_ping};

/* A surface is shown with a buffer of one colour, once it is configured. */
static void attach(struct surface *s)
{
	int size = s->width * s->height * 4, fd = memfd_create("buffer", 0);
	struct wl_shm_pool *pool;
	struct wl_buffer *buffer;

	if (fd < 0 || ftruncate(fd, size) < 0)
		exit(1);
	pool = wl_shm_create_pool(my.shm, fd, size);
	buffer = wl_shm_pool_create_buffer(pool, 0, s->width, s->height, s->width * 4, WL_SHM_FORMAT_XRGB8888);
	wl_shm_pool_destroy(pool);
	close(fd);
	wl_surface_attach(s->surface, buffer, 0, 0);
	wl_surface_damage(s->surface, 0, 0, s->width, s->height);
	wl_surface_commit(s->surface);
	wl_buffer_destroy(buffer);
}

static void xdg_configure(void *data, struct xdg_surface *xdg, uint32_t serial)
{
	struct surface *s = data;

	xdg_surface_ack_configure(xdg, serial);
	s->is_configured = true;
}

static const struct xdg_surface_listener xdgs = {xdg_configure};

static void toplevel_configure(void *data, struct xdg_toplevel *toplevel, int32_t width, int32_t height, struct wl_array *states)
{
	(void)data, (void)toplevel, (void)width, (void)height, (void)states;
}

static void toplevel_close(void *data, struct xdg_toplevel *toplevel)
{
	struct surface *s = data;

	(void)toplevel;
	printf("close %s\n", s->name);
}

static const struct xdg_toplevel_listener toplevels = {.configure = toplevel_configure, .close = toplevel_close};

static void popup_configure(void *data, struct xdg_popup *popup, int32_t x, int32_t y, int32_t width, int32_t height)
{
	(void)data, (void)popup, (void)x, (void)y, (void)width, (void)height;
}

static void popup_done(void *data, struct xdg_popup *popup)
{
	struct surface *s = data;

	(void)popup;
	printf("done %s\n", s->name);
}

static const struct xdg_popup_listener popups = {.configure = popup_configure, .popup_done = popup_done};

static void roundtrip(void)
{
	if (wl_display_roundtrip(my.display) < 0)
		exit(0);
}

/* Asks for the first configure, and shows the surface behind it. */
static void map(struct surface *s)
{
	if (s->xdg) {
		s->is_configured = false;
		wl_surface_commit(s->surface);
		while (!s->is_configured)
			roundtrip();
	}
	attach(s);
	/* The place of a subsurface comes with its parent. */
	if (s->sub)
		wl_surface_commit(s->parent->surface);
}

static struct surface *new_surface(const char *name, int width, int height)
{
	struct surface *s = my.surfaces;

	while (s->surface)
		if (++s == my.surfaces + SURFACES)
			exit(1);
	memset(s, 0, sizeof *s);
	snprintf(s->name, sizeof s->name, "%s", name);
	s->width = width;
	s->height = height;
	s->surface = wl_compositor_create_surface(my.compositor);
	printf("surface %s %u\n", name, wl_proxy_get_id((struct wl_proxy *)s->surface));
	return s;
}

/* Gives a surface its role, and shows it. */
static void show(struct surface *s)
{
	s->xdg = xdg_wm_base_get_xdg_surface(my.base, s->surface);
	xdg_surface_add_listener(s->xdg, &xdgs, s);
	s->toplevel = xdg_surface_get_toplevel(s->xdg);
	xdg_toplevel_add_listener(s->toplevel, &toplevels, s);
	xdg_toplevel_set_title(s->toplevel, s->name);
	xdg_toplevel_set_app_id(s->toplevel, my.app);
	map(s);
}

static void popup(const char *name, struct surface *parent, const int *box, bool has_grab)
{
	struct surface *s = new_surface(name, box[2], box[3]);
	struct xdg_positioner *at = xdg_wm_base_create_positioner(my.base);

	xdg_positioner_set_size(at, box[2], box[3]);
	xdg_positioner_set_anchor_rect(at, box[0], box[1], 1, 1);
	xdg_positioner_set_anchor(at, XDG_POSITIONER_ANCHOR_TOP_LEFT);
	xdg_positioner_set_gravity(at, XDG_POSITIONER_GRAVITY_BOTTOM_RIGHT);
	s->parent = parent;
	s->xdg = xdg_wm_base_get_xdg_surface(my.base, s->surface);
	xdg_surface_add_listener(s->xdg, &xdgs, s);
	s->popup = xdg_surface_get_popup(s->xdg, parent->xdg, at);
	xdg_popup_add_listener(s->popup, &popups, s);
	xdg_positioner_destroy(at);
	if (has_grab)
		xdg_popup_grab(s->popup, my.seat, my.serial);
	map(s);
}

static void sub(const char *name, struct surface *parent, const int *box)
{
	struct surface *s = new_surface(name, box[2], box[3]);

	s->parent = parent;
	s->sub = wl_subcompositor_get_subsurface(my.subcompositor, s->surface, parent->surface);
	wl_subsurface_set_position(s->sub, box[0], box[1]);
	wl_subsurface_set_desync(s->sub);
	map(s);
}

/* Takes its role from a surface, as toolkits do to hide one. */
static void hide(struct surface *s)
{
	if (s->popup)
		xdg_popup_destroy(s->popup);
	if (s->toplevel)
		xdg_toplevel_destroy(s->toplevel);
	if (s->xdg)
		xdg_surface_destroy(s->xdg);
	s->popup = NULL;
	s->toplevel = NULL;
	s->xdg = NULL;
	wl_surface_attach(s->surface, NULL, 0, 0);
	wl_surface_commit(s->surface);
}

static void destroy(struct surface *s)
{
	hide(s);
	if (s->sub)
		wl_subsurface_destroy(s->sub);
	wl_surface_destroy(s->surface);
	s->surface = NULL;
}

static void region(struct surface *s, const char *text)
{
	struct wl_region *region = wl_compositor_create_region(my.compositor);
	int box[4], len;

	for (; sscanf(text, "%d %d %d %d%n", &box[0], &box[1], &box[2], &box[3], &len) == 4; text += len)
		wl_region_add(region, box[0], box[1], box[2], box[3]);
	wl_surface_set_input_region(s->surface, region);
	wl_region_destroy(region);
	wl_surface_commit(s->surface);
}

static bool obey(const char *line)
{
	char verb[16] = "", name[32] = "", parent[32] = "", grab[8] = "";
	int box[4], len = 0;
	struct surface *s;

	sscanf(line, "%15s %31s%n", verb, name, &len);
	s = named(name);
	if (strcmp(verb, "toplevel") == 0 && sscanf(line + len, "%d %d", &box[2], &box[3]) == 2)
		show(new_surface(name, box[2], box[3]));
	else if (sscanf(line + len, "%31s %d %d %d %d %7s", parent, &box[0], &box[1], &box[2], &box[3], grab) >= 5 && strcmp(verb, "popup") == 0 && named(parent))
		popup(name, named(parent), box, strcmp(grab, "grab") == 0);
	else if (strcmp(verb, "sub") == 0 && named(parent))
		sub(name, named(parent), box);
	else if (strcmp(verb, "deaf") == 0)
		my.is_deaf = true;
	else if (strcmp(verb, "hear") == 0) {
		my.is_deaf = false;
		xdg_wm_base_pong(my.base, my.unanswered);
	} else if (strcmp(verb, "sync") == 0)
		return true;
	else if (!s)
		return false;
	else if (strcmp(verb, "region") == 0)
		region(s, line + len);
	else if (strcmp(verb, "show") == 0)
		s->sub ? map(s) : show(s);
	else if (strcmp(verb, "hide") == 0)
		hide(s);
	else if (strcmp(verb, "destroy") == 0)
		destroy(s);
	else
		return false;
	return true;
}

/* A ping that came before a round trip is answered with the next one, and another ping may come behind that. */
static void answer(const char *line)
{
	bool is_known = obey(line);

	for (int i = 0; i < 4; i++)
		roundtrip();
	printf(is_known ? "ok\n" : "error\n");
	fflush(stdout);
}

static void global(void *data, struct wl_registry *registry, uint32_t name, const char *interface, uint32_t version)
{
	(void)data, (void)version;
	if (strcmp(interface, wl_compositor_interface.name) == 0)
		my.compositor = wl_registry_bind(registry, name, &wl_compositor_interface, 4);
	else if (strcmp(interface, wl_subcompositor_interface.name) == 0)
		my.subcompositor = wl_registry_bind(registry, name, &wl_subcompositor_interface, 1);
	else if (strcmp(interface, wl_shm_interface.name) == 0)
		my.shm = wl_registry_bind(registry, name, &wl_shm_interface, 1);
	else if (strcmp(interface, wl_seat_interface.name) == 0)
		my.seat = wl_registry_bind(registry, name, &wl_seat_interface, 5);
	else if (strcmp(interface, xdg_wm_base_interface.name) == 0)
		my.base = wl_registry_bind(registry, name, &xdg_wm_base_interface, 2);
}

static void global_gone(void *data, struct wl_registry *registry, uint32_t name)
{
	(void)data, (void)registry, (void)name;
}

static const struct wl_registry_listener globals = {global, global_gone};

int main(int count, char **words)
{
	char line[4096];
	struct wl_registry *registry;

	my.app = count > 1 ? words[1] : "client";
	my.display = wl_display_connect(NULL);
	if (!my.display)
		return 1;
	registry = wl_display_get_registry(my.display);
	wl_registry_add_listener(registry, &globals, NULL);
	roundtrip();
	if (!my.compositor || !my.subcompositor || !my.shm || !my.seat || !my.base)
		return 1;
	my.touch = wl_seat_get_touch(my.seat);
	wl_touch_add_listener(my.touch, &touches, NULL);
	my.keyboard = wl_seat_get_keyboard(my.seat);
	wl_keyboard_add_listener(my.keyboard, &keyboards, NULL);
	xdg_wm_base_add_listener(my.base, &bases, NULL);
	while (fgets(line, sizeof line, stdin)) {
		line[strcspn(line, "\n")] = '\0';
		answer(line);
	}
	wl_registry_destroy(registry);
	wl_display_disconnect(my.display);
	return 0;
}
