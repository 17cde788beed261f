/* What wlroots needs: outputs, devices as they come, and the loop. */
#include <linux/input-event-codes.h>
#include <time.h>

#include <wlr/types/wlr_compositor.h>
#include <xkbcommon/xkbcommon.h>

#include "compositor.h"

static void handle_frame(struct wl_listener *listener, void *data)
{
	struct server *s = wl_container_of(listener, s, frame);
	struct wlr_scene_output *scene = wlr_scene_get_scene_output(s->scene, s->output);
	struct timespec now;

	wlr_scene_output_commit(scene);
	clock_gettime(CLOCK_MONOTONIC, &now);
	wlr_scene_output_send_frame_done(scene, &now);
}

/* The first output is the display; others stay dark. Its units are as fine as the service and wl_fixed take them. */
static void handle_output(struct wl_listener *listener, void *data)
{
	static const float color[4] = {0.2f, 0.3f, 0.4f, 1.0f};
	struct server *s = wl_container_of(listener, s, new_output);
	struct wlr_output *output = data;

	if (s->output || !wlr_output_init_render(output, s->allocator, s->renderer))
		return;
	if (wlr_output_preferred_mode(output))
		wlr_output_set_mode(output, wlr_output_preferred_mode(output));
	wlr_output_enable(output, true);
	wlr_output_commit(output);
	wlr_output_create_global(output);
	wlr_scene_output_create(s->scene, output);
	listen_to(&output->events.frame, &s->frame, handle_frame);
	s->output = output;
	s->width = output->width;
	s->height = output->height;
	for (s->unit = 256; s->unit > 1 && (s->width * s->unit > UNITS || s->height * s->unit > UNITS); s->unit /= 2)
		;
	wlr_scene_node_lower_to_bottom(&wlr_scene_rect_create(&s->scene->node, s->width, s->height, color)->node);
}

/* All keyboards have the keymap that XKB_DEFAULT_LAYOUT and its like name. Clients repeat keys by themselves. */
static void set_keymap(struct wlr_keyboard *keyboard)
{
	struct xkb_context *context = xkb_context_new(XKB_CONTEXT_NO_FLAGS);
	struct xkb_keymap *keymap = xkb_keymap_new_from_names(context, NULL, XKB_KEYMAP_COMPILE_NO_FLAGS);

	if (keymap)
		wlr_keyboard_set_keymap(keyboard, keymap);
	xkb_keymap_unref(keymap);
	xkb_context_unref(context);
	wlr_keyboard_set_repeat_info(keyboard, 20, 500);
}

/* Whether a key is for the compositor itself: Alt and Escape end it. */
bool server_key(struct server *s, const struct wlr_event_keyboard_key *event)
{
	if (event->keycode != KEY_ESC || !event->state ||
	    !(wlr_keyboard_get_modifiers(&s->keyboards->keyboard) & WLR_MODIFIER_ALT))
		return false;
	s->is_running = false;
	return true;
}

static void handle_input(struct wl_listener *listener, void *data)
{
	struct server *s = wl_container_of(listener, s, new_input);
	struct wlr_input_device *device = data;

	if (device->type == WLR_INPUT_DEVICE_TOUCH) {
		touch_new(s, device);
	} else if (device->type == WLR_INPUT_DEVICE_KEYBOARD) {
		wlr_keyboard_set_keymap(device->keyboard, s->keyboards->keyboard.keymap);
		wlr_keyboard_group_add_keyboard(s->keyboards, device->keyboard);
	}
}

const char *server_begin(struct server *s, struct wlr_backend *backend)
{
	s->backend = backend;
	s->renderer = backend ? wlr_renderer_autocreate(backend) : NULL;
	s->allocator = s->renderer ? wlr_allocator_autocreate(backend, s->renderer) : NULL;
	if (!s->allocator)
		return NULL;
	wlr_renderer_init_wl_display(s->renderer, s->display);
	wlr_compositor_create(s->display, s->renderer);
	s->scene = wlr_scene_create();
	shell_begin(s);
	s->seat = wlr_seat_create(s->display, "seat0");
	wlr_seat_set_capabilities(s->seat, WL_SEAT_CAPABILITY_KEYBOARD | WL_SEAT_CAPABILITY_TOUCH);
	s->keyboards = wlr_keyboard_group_create();
	set_keymap(&s->keyboards->keyboard);
	wlr_seat_set_keyboard(s->seat, s->keyboards->input_device);
	listen_to(&backend->events.new_output, &s->new_output, handle_output);
	listen_to(&backend->events.new_input, &s->new_input, handle_input);
	if (!service_new(s) || !keys_new(s) || !wlr_backend_start(backend))
		return NULL;
	return wl_display_add_socket_auto(s->display);
}

void server_run(struct server *s)
{
	struct wl_event_loop *loop = wl_display_get_event_loop(s->display);

	for (s->is_running = true; s->is_running;) {
		gesture_act(s);
		windows_settle(s);
		service_tick(s);
		fflush(stdout);
		wl_display_flush_clients(s->display);
		if (wl_event_loop_dispatch(loop, service_wait_ms(s)) < 0)
			break;
	}
}

void server_end(struct server *s)
{
	wl_display_destroy_clients(s->display);
	/* Devices go with the backend, while there is a service; the seat goes before the shell, whose grabs it has. */
	wlr_backend_destroy(s->backend);
	wlr_keyboard_group_destroy(s->keyboards);
	wlr_seat_destroy(s->seat);
	wlr_scene_node_destroy(&s->scene->node);
	wlr_allocator_destroy(s->allocator);
	wlr_renderer_destroy(s->renderer);
	wl_display_destroy(s->display);
	inputflinger_live_free(&s->live);
}
