/*
 * The calls of a live service, as a program has them: a pointer that is NULL and the size of a struct are answered here,
 * and all else by the proved calls.
 */
#include "heap.h"
#include "proved.h"
#include "sized.h"

/* What a call answers whose struct has a size that no release has, or more in it than this one knows. */
static int other_size(const struct inputflinger_live *live)
{
	return live->is_open ? INPUTFLINGER_OUT_OF_RANGE : INPUTFLINGER_FREE;
}

int inputflinger_live_new_sized(struct inputflinger_live *live, uint64_t limit_us,
		const struct inputflinger_repeats *repeats, size_t repeats_size, const struct inputflinger_displays *displays)
{
	static const struct inputflinger_repeats android = {500000, 50000};
	static const struct inputflinger_displays first = {{0}};
	struct inputflinger_repeats room;

	if (live == NULL)
		return INPUTFLINGER_NULL;
	repeats = repeats != NULL ? sized_given(&room, sizeof room, REPEATS_FIRST, repeats, repeats_size) : &android;
	if (repeats == NULL)
		return live->is_open ? INPUTFLINGER_TAKEN : INPUTFLINGER_OUT_OF_RANGE;
	return (int)inputflinger_proved_live_new(live, limit_us, repeats, displays != NULL ? displays : &first);
}

int inputflinger_live_free(struct inputflinger_live *live)
{
	if (live == NULL)
		return INPUTFLINGER_NULL;
	return (int)inputflinger_proved_live_free(live);
}

int inputflinger_live_add_touch_sized(struct inputflinger_live *live, uint8_t display, uint8_t slots,
		const struct inputflinger_panel *panel, size_t panel_size, uint8_t *device)
{
	struct inputflinger_panel room;

	if (live == NULL || panel == NULL || device == NULL)
		return INPUTFLINGER_NULL;
	panel = sized_given(&room, sizeof room, PANEL_FIRST, panel, panel_size);
	if (panel == NULL)
		return other_size(live);
	return (int)inputflinger_proved_live_add_touch(live, display, slots, panel, device);
}

int inputflinger_live_add_keys(struct inputflinger_live *live, uint8_t display, const char *text, size_t len,
		uint8_t *device, uint64_t *line)
{
	uint64_t unread = 0;

	if (live == NULL || (text == NULL && len != 0) || device == NULL)
		return INPUTFLINGER_NULL;
	return (int)inputflinger_proved_live_add_keys(live, display, text != NULL ? text : "", len, device,
			line != NULL ? line : &unread);
}

int inputflinger_live_remove_device(struct inputflinger_live *live, uint64_t now_us, uint8_t device)
{
	if (live == NULL)
		return INPUTFLINGER_NULL;
	return (int)inputflinger_proved_live_remove_device(live, now_us, device);
}

int inputflinger_live_event(struct inputflinger_live *live, uint64_t now_us, uint8_t device, uint16_t type,
		uint16_t code, int32_t value)
{
	if (live == NULL)
		return INPUTFLINGER_NULL;
	return (int)inputflinger_proved_live_event(live, now_us, device, type, code, value);
}

int inputflinger_live_touch_down(struct inputflinger_live *live, uint64_t now_us, uint8_t device, int32_t id, int32_t x,
		int32_t y)
{
	if (live == NULL)
		return INPUTFLINGER_NULL;
	return (int)inputflinger_proved_live_touch_down(live, now_us, device, id, x, y);
}

int inputflinger_live_touch_motion(struct inputflinger_live *live, uint64_t now_us, uint8_t device, int32_t id, int32_t x,
		int32_t y)
{
	if (live == NULL)
		return INPUTFLINGER_NULL;
	return (int)inputflinger_proved_live_touch_motion(live, now_us, device, id, x, y);
}

int inputflinger_live_touch_up(struct inputflinger_live *live, uint64_t now_us, uint8_t device, int32_t id)
{
	if (live == NULL)
		return INPUTFLINGER_NULL;
	return (int)inputflinger_proved_live_touch_up(live, now_us, device, id);
}

int inputflinger_live_touch_cancel(struct inputflinger_live *live, uint64_t now_us, uint8_t device, int32_t id)
{
	if (live == NULL)
		return INPUTFLINGER_NULL;
	return (int)inputflinger_proved_live_touch_cancel(live, now_us, device, id);
}

int inputflinger_live_touch_frame(struct inputflinger_live *live, uint64_t now_us, uint8_t device)
{
	if (live == NULL)
		return INPUTFLINGER_NULL;
	return (int)inputflinger_proved_live_touch_frame(live, now_us, device);
}

int inputflinger_live_args_sized(struct inputflinger_live *live, uint64_t now_us,
		const struct inputflinger_message *message, size_t message_size)
{
	struct inputflinger_message room;

	if (live == NULL || message == NULL)
		return INPUTFLINGER_NULL;
	message = sized_given(&room, sizeof room, MESSAGE_FIRST, message, message_size);
	if (message == NULL)
		return other_size(live);
	return (int)inputflinger_proved_live_args(live, now_us, message);
}

int inputflinger_live_open(struct inputflinger_live *live, struct inputflinger_client *client)
{
	static const struct inputflinger_options none;

	if (live == NULL || client == NULL)
		return INPUTFLINGER_NULL;
	return (int)inputflinger_proved_live_open(live, &none, client);
}

int inputflinger_live_open_with_sized(struct inputflinger_live *live, const struct inputflinger_options *options,
		size_t options_size, struct inputflinger_client *client)
{
	struct inputflinger_options room;

	if (live == NULL || options == NULL || client == NULL)
		return INPUTFLINGER_NULL;
	options = sized_given(&room, sizeof room, OPTIONS_FIRST, options, options_size);
	if (options == NULL)
		return other_size(live);
	return (int)inputflinger_proved_live_open(live, options, client);
}

int inputflinger_live_user_data(const struct inputflinger_live *live, const struct inputflinger_client *client,
		uint64_t *user_data)
{
	struct inputflinger_live own;

	if (live == NULL || client == NULL || user_data == NULL)
		return INPUTFLINGER_NULL;
	own = *live;
	return (int)inputflinger_proved_live_user_data(&own, client, user_data);
}

int inputflinger_live_close(struct inputflinger_live *live, uint64_t now_us, const struct inputflinger_client *client)
{
	if (live == NULL || client == NULL)
		return INPUTFLINGER_NULL;
	return (int)inputflinger_proved_live_close(live, now_us, client);
}

int inputflinger_live_is_open(const struct inputflinger_live *live, const struct inputflinger_client *client, bool *is_open)
{
	struct inputflinger_live own;
	uint8_t told = 0;
	uint32_t status;

	if (live == NULL || client == NULL || is_open == NULL)
		return INPUTFLINGER_NULL;
	own = *live;
	status = inputflinger_proved_live_is_open(&own, client, &told);
	if (status == INPUTFLINGER_OK)
		*is_open = told != 0;
	return (int)status;
}

int inputflinger_live_client_at(const struct inputflinger_live *live, uint32_t channel, struct inputflinger_client *client)
{
	struct inputflinger_live own;

	if (live == NULL || client == NULL)
		return INPUTFLINGER_NULL;
	own = *live;
	return (int)inputflinger_proved_live_client_at(&own, channel, client);
}

/* Shows windows of our own size. */
static int show(struct inputflinger_live *live, uint64_t now_us, const struct inputflinger_window *windows,
		size_t windows_len, const struct inputflinger_rect *rects, size_t rects_len, uint64_t *named)
{
	static const struct inputflinger_window no_window;
	static const struct inputflinger_rect no_rect;
	uint64_t unread = 0;

	return (int)inputflinger_proved_live_windows(live, now_us, windows != NULL ? windows : &no_window,
			windows_len, rects != NULL ? rects : &no_rect, rects_len, named != NULL ? named : &unread);
}

/* Shows windows of another size, as copies of our own size. */
static int show_sized(struct inputflinger_live *live, uint64_t now_us, const void *windows, size_t window_size,
		size_t windows_len, const struct inputflinger_rect *rects, size_t rects_len, uint64_t *named)
{
	struct inputflinger_window *own, room;
	struct tried block = {0};
	int status = INPUTFLINGER_OK;

	if (live->is_open && windows_len <= SIZE_MAX / sizeof *own)
		block = rattle_alloc(windows_len * sizeof *own, _Alignof(struct inputflinger_window));
	if (!block.ok)
		return live->is_open ? INPUTFLINGER_NO_MEMORY : INPUTFLINGER_FREE;
	own = block.at;
	for (size_t i = 0; i < windows_len && status == INPUTFLINGER_OK; i++) {
		const void *given = (const unsigned char *)windows + i * window_size;

		given = sized_given(&room, sizeof room, WINDOW_FIRST, given, window_size);
		if (given == NULL)
			status = other_size(live);
		else
			memcpy(&own[i], given, sizeof own[i]);
	}
	if (status == INPUTFLINGER_OK)
		status = show(live, now_us, own, windows_len, rects, rects_len, named);
	rattle_dealloc(own);
	return status;
}

int inputflinger_live_windows_sized(struct inputflinger_live *live, uint64_t now_us,
		const struct inputflinger_window *windows, size_t window_size, size_t windows_len,
		const struct inputflinger_rect *rects, size_t rects_len, uint64_t *named)
{
	if (live == NULL || (windows == NULL && windows_len != 0) || (rects == NULL && rects_len != 0))
		return INPUTFLINGER_NULL;
	if (window_size == sizeof *windows || windows_len == 0)
		return show(live, now_us, windows, windows_len, rects, rects_len, named);
	return show_sized(live, now_us, windows, window_size, windows_len, rects, rects_len, named);
}

int inputflinger_live_window_sized(struct inputflinger_live *live, uint64_t now_us,
		const struct inputflinger_window *window, size_t window_size,
		const struct inputflinger_rect *rects, size_t rects_len)
{
	static const struct inputflinger_rect no_rect;
	struct inputflinger_window room;

	if (live == NULL || window == NULL || (rects == NULL && rects_len != 0))
		return INPUTFLINGER_NULL;
	window = sized_given(&room, sizeof room, WINDOW_FIRST, window, window_size);
	if (window == NULL)
		return other_size(live);
	return (int)inputflinger_proved_live_window(live, now_us, window, rects != NULL ? rects : &no_rect, rects_len);
}

int inputflinger_live_focus(struct inputflinger_live *live, uint64_t now_us, uint8_t display,
		const struct inputflinger_client *client)
{
	static const struct inputflinger_client nobody = {0, 0};

	if (live == NULL)
		return INPUTFLINGER_NULL;
	return (int)inputflinger_proved_live_focus(live, now_us, display, client != NULL ? client : &nobody);
}

int inputflinger_live_pilfer(struct inputflinger_live *live, uint64_t now_us,
		const struct inputflinger_client *client, uint8_t device)
{
	if (live == NULL || client == NULL)
		return INPUTFLINGER_NULL;
	return (int)inputflinger_proved_live_pilfer(live, now_us, client, device);
}

int inputflinger_live_waiting(const struct inputflinger_live *live, uint64_t *mask)
{
	struct inputflinger_live own;

	if (live == NULL || mask == NULL)
		return INPUTFLINGER_NULL;
	own = *live;
	return (int)inputflinger_proved_live_waiting(&own, mask);
}

int inputflinger_live_next_sized(struct inputflinger_live *live, const struct inputflinger_client *client,
		struct inputflinger_message *message, size_t message_size)
{
	struct inputflinger_message found;
	uint32_t status;

	if (live == NULL || client == NULL || message == NULL)
		return INPUTFLINGER_NULL;
	if (message_size == sizeof found)
		return (int)inputflinger_proved_live_next(live, client, message);
	if (message_size < MESSAGE_FIRST)
		return other_size(live);
	status = inputflinger_proved_live_next(live, client, &found);
	if (status == INPUTFLINGER_OK)
		sized_written(message, message_size, &found, sizeof found);
	return (int)status;
}

int inputflinger_live_next_any_sized(struct inputflinger_live *live, struct inputflinger_client *client,
		struct inputflinger_message *message, size_t message_size, bool *last)
{
	struct inputflinger_message found;
	uint8_t told = 0;
	uint32_t status;

	if (live == NULL || client == NULL || message == NULL || last == NULL)
		return INPUTFLINGER_NULL;
	if (message_size < MESSAGE_FIRST)
		return other_size(live);
	status = inputflinger_proved_live_next_any(live, client, message_size == sizeof found ? message : &found, &told);
	if (status == INPUTFLINGER_OK && message_size != sizeof found)
		sized_written(message, message_size, &found, sizeof found);
	if (status == INPUTFLINGER_OK)
		*last = told != 0;
	return (int)status;
}

int inputflinger_live_finish(struct inputflinger_live *live, uint64_t now_us,
		const struct inputflinger_client *client, uint64_t seq)
{
	if (live == NULL || client == NULL)
		return INPUTFLINGER_NULL;
	return (int)inputflinger_proved_live_finish(live, now_us, client, seq);
}

int inputflinger_live_finish_through(struct inputflinger_live *live, uint64_t now_us,
		const struct inputflinger_client *client, uint64_t seq)
{
	if (live == NULL || client == NULL)
		return INPUTFLINGER_NULL;
	return (int)inputflinger_proved_live_finish_through(live, now_us, client, seq);
}

int inputflinger_live_due(const struct inputflinger_live *live, uint64_t *moment_us)
{
	struct inputflinger_live own;

	if (live == NULL || moment_us == NULL)
		return INPUTFLINGER_NULL;
	own = *live;
	return (int)inputflinger_proved_live_due(&own, moment_us);
}

int inputflinger_live_set_most(struct inputflinger_live *live, uint64_t most)
{
	if (live == NULL)
		return INPUTFLINGER_NULL;
	return (int)inputflinger_proved_live_set_most(live, most);
}

int inputflinger_live_is_choked(const struct inputflinger_live *live, const struct inputflinger_client *client,
		bool *is_choked)
{
	struct inputflinger_live own;
	uint8_t told = 0;
	uint32_t status;

	if (live == NULL || client == NULL || is_choked == NULL)
		return INPUTFLINGER_NULL;
	own = *live;
	status = inputflinger_proved_live_is_choked(&own, client, &told);
	if (status == INPUTFLINGER_OK)
		*is_choked = told != 0;
	return (int)status;
}

int inputflinger_live_reserve(struct inputflinger_live *live, uint16_t events)
{
	if (live == NULL)
		return INPUTFLINGER_NULL;
	return (int)inputflinger_proved_live_reserve(live, events);
}

int inputflinger_live_advance(struct inputflinger_live *live, uint64_t now_us, uint64_t *mask)
{
	if (live == NULL || mask == NULL)
		return INPUTFLINGER_NULL;
	return (int)inputflinger_proved_live_advance(live, now_us, mask);
}

int inputflinger_live_clock(const struct inputflinger_live *live, uint64_t *moment_us)
{
	struct inputflinger_live own;

	if (live == NULL || moment_us == NULL)
		return INPUTFLINGER_NULL;
	own = *live;
	return (int)inputflinger_proved_live_clock(&own, moment_us);
}

int inputflinger_live_focused(const struct inputflinger_live *live, uint8_t display, struct inputflinger_client *client)
{
	struct inputflinger_live own;

	if (live == NULL || client == NULL)
		return INPUTFLINGER_NULL;
	own = *live;
	return (int)inputflinger_proved_live_focused(&own, display, client);
}

int inputflinger_live_key_target(const struct inputflinger_live *live, struct inputflinger_client *client)
{
	struct inputflinger_live own;

	if (live == NULL || client == NULL)
		return INPUTFLINGER_NULL;
	own = *live;
	return (int)inputflinger_proved_live_key_target(&own, client);
}

int inputflinger_live_window_at(const struct inputflinger_live *live, uint8_t display, int32_t x, int32_t y,
		struct inputflinger_client *client)
{
	struct inputflinger_live own;

	if (live == NULL || client == NULL)
		return INPUTFLINGER_NULL;
	own = *live;
	return (int)inputflinger_proved_live_window_at(&own, display, x, y, client);
}

int inputflinger_live_is_responsive(const struct inputflinger_live *live, const struct inputflinger_client *client,
		bool *is_responsive)
{
	struct inputflinger_live own;
	uint8_t told = 0;
	uint32_t status;

	if (live == NULL || client == NULL || is_responsive == NULL)
		return INPUTFLINGER_NULL;
	own = *live;
	status = inputflinger_proved_live_is_responsive(&own, client, &told);
	if (status == INPUTFLINGER_OK)
		*is_responsive = told != 0;
	return (int)status;
}

int inputflinger_live_holds(const struct inputflinger_live *live, const struct inputflinger_client *client,
		uint8_t device, uint32_t *ids)
{
	struct inputflinger_live own;

	if (live == NULL || client == NULL || ids == NULL)
		return INPUTFLINGER_NULL;
	own = *live;
	return (int)inputflinger_proved_live_holds(&own, client, device, ids);
}

int inputflinger_live_first_key(const struct inputflinger_live *live, uint8_t device, uint32_t from, uint16_t *scan)
{
	struct inputflinger_live own;

	if (live == NULL || scan == NULL)
		return INPUTFLINGER_NULL;
	own = *live;
	return (int)inputflinger_proved_live_first_key(&own, device, from, scan);
}
