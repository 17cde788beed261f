/*
 * The exports of crates/inputflinger_c, declared to fit it. Their pointers are never NULL.
 *
 * They take a handle that they may write. The calls that only look take its service out and put the same one back, so a
 * const handle is handed to them as a copy, whose service is the handle's own before and after.
 */
#ifndef INPUTFLINGER_PROVED_H
#define INPUTFLINGER_PROVED_H

#include "export.h"

uint32_t inputflinger_proved_judge_new(struct inputflinger_judge *judge);
uint32_t inputflinger_proved_judge_step(struct inputflinger_judge *judge, const struct inputflinger_message *message,
					struct inputflinger_fault *fault);
uint32_t inputflinger_proved_judge_state(struct inputflinger_judge *judge, struct inputflinger_state *state);
uint32_t inputflinger_proved_judge_keys(struct inputflinger_judge *judge, struct inputflinger_key *keys, size_t room, size_t *count);
uint32_t inputflinger_proved_judge_free(struct inputflinger_judge *judge);
uint32_t inputflinger_proved_live_new(struct inputflinger_live *live, uint64_t limit_us,
		const struct inputflinger_repeats *repeats, const struct inputflinger_displays *displays);
uint32_t inputflinger_proved_live_free(struct inputflinger_live *live);
uint32_t inputflinger_proved_live_add_touch(struct inputflinger_live *live, uint8_t display, uint8_t slots,
		const struct inputflinger_panel *panel, uint8_t *device);
uint32_t inputflinger_proved_live_add_keys(struct inputflinger_live *live, uint8_t display, const char *text,
		size_t len, uint8_t *device, uint64_t *line);
uint32_t inputflinger_proved_live_remove_device(struct inputflinger_live *live, uint64_t now_us, uint8_t device);
uint32_t inputflinger_proved_live_event(struct inputflinger_live *live, uint64_t now_us, uint8_t device,
		uint16_t type, uint16_t code, int32_t value);
uint32_t inputflinger_proved_live_touch_down(struct inputflinger_live *live, uint64_t now_us, uint8_t device, int32_t id,
		int32_t x, int32_t y);
uint32_t inputflinger_proved_live_touch_motion(struct inputflinger_live *live, uint64_t now_us, uint8_t device, int32_t id,
		int32_t x, int32_t y);
uint32_t inputflinger_proved_live_touch_up(struct inputflinger_live *live, uint64_t now_us, uint8_t device, int32_t id);
uint32_t inputflinger_proved_live_touch_cancel(struct inputflinger_live *live, uint64_t now_us, uint8_t device, int32_t id);
uint32_t inputflinger_proved_live_touch_frame(struct inputflinger_live *live, uint64_t now_us, uint8_t device);
uint32_t inputflinger_proved_live_args(struct inputflinger_live *live, uint64_t now_us,
		const struct inputflinger_message *message);
uint32_t inputflinger_proved_live_open(struct inputflinger_live *live, const struct inputflinger_options *options,
		struct inputflinger_client *client);
uint32_t inputflinger_proved_live_user_data(struct inputflinger_live *live, const struct inputflinger_client *client,
		uint64_t *user_data);
uint32_t inputflinger_proved_live_close(struct inputflinger_live *live, uint64_t now_us,
		const struct inputflinger_client *client);
uint32_t inputflinger_proved_live_is_open(struct inputflinger_live *live, const struct inputflinger_client *client,
		uint8_t *told);
uint32_t inputflinger_proved_live_client_at(struct inputflinger_live *live, uint32_t channel,
		struct inputflinger_client *client);
uint32_t inputflinger_proved_live_windows(struct inputflinger_live *live, uint64_t now_us,
		const struct inputflinger_window *windows, size_t windows_len, const struct inputflinger_rect *rects,
		size_t rects_len, uint64_t *named);
uint32_t inputflinger_proved_live_window(struct inputflinger_live *live, uint64_t now_us,
		const struct inputflinger_window *window, const struct inputflinger_rect *rects, size_t rects_len);
uint32_t inputflinger_proved_live_focus(struct inputflinger_live *live, uint64_t now_us, uint8_t display,
		const struct inputflinger_client *client);
uint32_t inputflinger_proved_live_pilfer(struct inputflinger_live *live, uint64_t now_us,
		const struct inputflinger_client *client, uint8_t device);
uint32_t inputflinger_proved_live_waiting(struct inputflinger_live *live, uint64_t *mask);
uint32_t inputflinger_proved_live_next(struct inputflinger_live *live, const struct inputflinger_client *client,
		struct inputflinger_message *message);
uint32_t inputflinger_proved_live_next_any(struct inputflinger_live *live, struct inputflinger_client *client,
		struct inputflinger_message *message, uint8_t *last);
uint32_t inputflinger_proved_live_finish(struct inputflinger_live *live, uint64_t now_us,
		const struct inputflinger_client *client, uint64_t seq);
uint32_t inputflinger_proved_live_finish_through(struct inputflinger_live *live, uint64_t now_us,
		const struct inputflinger_client *client, uint64_t seq);
uint32_t inputflinger_proved_live_due(struct inputflinger_live *live, uint64_t *moment_us);
uint32_t inputflinger_proved_live_set_most(struct inputflinger_live *live, uint64_t most);
uint32_t inputflinger_proved_live_is_choked(struct inputflinger_live *live, const struct inputflinger_client *client,
		uint8_t *answer);
uint32_t inputflinger_proved_live_reserve(struct inputflinger_live *live, uint16_t events);
uint32_t inputflinger_proved_live_advance(struct inputflinger_live *live, uint64_t now_us, uint64_t *mask);
uint32_t inputflinger_proved_live_clock(struct inputflinger_live *live, uint64_t *moment_us);
uint32_t inputflinger_proved_live_focused(struct inputflinger_live *live, uint8_t display,
		struct inputflinger_client *client);
uint32_t inputflinger_proved_live_key_target(struct inputflinger_live *live, struct inputflinger_client *client);
uint32_t inputflinger_proved_live_window_at(struct inputflinger_live *live, uint8_t display, int32_t x, int32_t y,
		struct inputflinger_client *client);
uint32_t inputflinger_proved_live_is_responsive(struct inputflinger_live *live,
		const struct inputflinger_client *client, uint8_t *told);
uint32_t inputflinger_proved_live_holds(struct inputflinger_live *live, const struct inputflinger_client *client,
		uint8_t device, uint32_t *ids);
uint32_t inputflinger_proved_live_first_key(struct inputflinger_live *live, uint8_t device, uint32_t from,
		uint16_t *scan);
uint32_t inputflinger_proved_run(const char *words, size_t words_len, uint32_t count, const uint8_t *first,
		size_t first_len, const uint8_t *second, size_t second_len, const uint8_t *third, size_t third_len,
		char *out, size_t out_room, char *err, size_t err_room, struct inputflinger_ran *ran);
size_t inputflinger_proved_size(uint32_t number);

#endif
