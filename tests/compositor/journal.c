/*
 * A journal of the calls of a service: a session and a recording, so that `inputflinger replay`, `why` and `judge` can
 * say what windows were sent. The linker puts it between the compositor and the library (`--wrap`), so the compositor
 * knows nothing of it. All in here goes once the service keeps a journal by itself.
 *
 *     make -C lib/examples/compositor JOURNAL=../../../tests/compositor/journal.c
 *     INPUTFLINGER_JOURNAL=/tmp lib/examples/compositor/out/compositor
 *
 * The files are session.toml and recording.txt in the folder that INPUTFLINGER_JOURNAL names, and are whole once the
 * service is freed. Each client that was ever shown is a channel of the session; `live` is its channel in the service.
 * A device that is unplugged is one that lost its events. Which messages were finished when is not said: a client that
 * finished none of them is a channel that never finishes, and any other one finishes at once.
 */
#include <linux/input-event-codes.h>

#include "compositor.h"

#define WRAPPED(name, ...) \
	int __real_inputflinger_live_##name(__VA_ARGS__); \
	int __wrap_inputflinger_live_##name(__VA_ARGS__); \
	int __wrap_inputflinger_live_##name(__VA_ARGS__)

struct channel {
	char name[80];
	uint32_t live;
	bool was_sent, has_finished;
};

static struct {
	const char *folder;
	FILE *recording, *steps;
	char *steps_text;
	size_t steps_len;
	struct channel channels[CHANNELS];
	int count;
	/* By channel of the service; NULL if its client was not shown. */
	struct channel *at[CHANNELS + 1];
	/* By number: "touch", "keys", or NULL if there was no such device. */
	const char *kinds[INPUTFLINGER_MAX_DEVICES + 1];
	uint64_t limit_us, last_us;
	struct inputflinger_repeats repeats;
	/* Whether something came that a session cannot say. */
	bool is_over;
} journal;

static FILE *open_file(const char *name)
{
	char path[4096];

	snprintf(path, sizeof path, "%s/%s", journal.folder, name);
	return fopen(path, "w");
}

static bool is_kept(void)
{
	return journal.steps && !journal.is_over;
}

/* The session ends here. */
static void give_up(const char *why)
{
	journal.is_over = true;
	printf("journal ends at %" PRIu64 ": %s\n", journal.last_us, why);
}

static bool is_taken(const char *name)
{
	for (int i = 0; i < journal.count; i++)
		if (strcmp(journal.channels[i].name, name) == 0)
			return true;
	return false;
}

/* The channel of a client: a new one when it is shown first. A name that another one has gets a number behind it. */
static struct channel *channel_of(struct inputflinger_live *live, const struct inputflinger_client *client)
{
	struct server *s = wl_container_of(live, s, live);
	const char *name = s->windows[client->channel - 1].name;
	struct channel *channel = journal.at[client->channel];

	if (channel)
		return channel;
	if (journal.count == CHANNELS) {
		give_up("more than 64 clients");
		return NULL;
	}
	channel = &journal.channels[journal.count];
	snprintf(channel->name, sizeof channel->name, "%s", name);
	for (int number = 2; is_taken(channel->name); number++)
		snprintf(channel->name, sizeof channel->name, "%s~%d", name, number);
	journal.count++;
	channel->live = client->channel;
	journal.at[client->channel] = channel;
	return channel;
}

static void pass(uint64_t now_us)
{
	if (!journal.is_over && now_us > journal.last_us)
		journal.last_us = now_us;
}

/* Begins a step, with the channel of a client if there is one. */
static void step(uint64_t now_us, const char *what, const struct channel *channel)
{
	pass(now_us);
	fprintf(journal.steps, "\n[[step]]\nat_us = %" PRIu64 "\ndo = \"%s\"\n", journal.last_us, what);
	if (channel)
		fprintf(journal.steps, "channel = \"%s\"\n", channel->name);
}

static void write_event(uint64_t now_us, uint8_t device, uint16_t type, uint16_t code, int32_t value)
{
	pass(now_us);
	fprintf(journal.recording, "[%8" PRIu64 ".%06" PRIu64 "] ", journal.last_us / 1000000, journal.last_us % 1000000);
	fprintf(journal.recording, "/dev/input/event%u: %04x %04x %08x\n", device, type, code, (uint32_t)value);
}

static void plugged(uint8_t device, const char *kind)
{
	if (journal.kinds[device] && strcmp(journal.kinds[device], kind) != 0)
		give_up("a device number is that of a device of another kind");
	journal.kinds[device] = kind;
}

static void write_rect(const char *before, const struct inputflinger_rect *rect)
{
	fprintf(journal.steps, "%s[%d, %d, %d, %d]", before, rect->left, rect->top, rect->right, rect->bottom);
}

static void write_window(const struct inputflinger_window *window, const struct inputflinger_rect *rects)
{
	if (window->client.channel == 0)
		fputs("    { wall = true, ", journal.steps);
	else
		fprintf(journal.steps, "    { channel = \"%s\", ", journal.at[window->client.channel]->name);
	write_rect("frame = ", &window->frame);
	fputs(", region = [", journal.steps);
	for (uint32_t i = 0; i < window->rects; i++)
		write_rect(i ? ", " : "", &rects[i]);
	fprintf(journal.steps, "]%s },\n", window->flags & INPUTFLINGER_SPY ? ", flags = [\"SPY\"]" : "");
}

WRAPPED(new_sized, struct inputflinger_live *live, uint64_t limit_us, const struct inputflinger_repeats *repeats,
	size_t repeats_size, const struct inputflinger_displays *displays)
{
	journal.folder = getenv("INPUTFLINGER_JOURNAL");
	journal.limit_us = limit_us;
	journal.repeats = repeats ? *repeats : (struct inputflinger_repeats){500000, 50000};
	if (journal.folder && (journal.recording = open_file("recording.txt")))
		journal.steps = open_memstream(&journal.steps_text, &journal.steps_len);
	return __real_inputflinger_live_new_sized(live, limit_us, repeats, repeats_size, displays);
}

WRAPPED(add_touch_sized, struct inputflinger_live *live, uint8_t display, uint8_t slots,
	const struct inputflinger_panel *panel, size_t panel_size, uint8_t *device)
{
	int status = __real_inputflinger_live_add_touch_sized(live, display, slots, panel, panel_size, device);

	if (status == INPUTFLINGER_OK)
		plugged(*device, "touch");
	return status;
}

WRAPPED(add_keys, struct inputflinger_live *live, uint8_t display, const char *text, size_t len, uint8_t *device,
	uint64_t *line)
{
	int status = __real_inputflinger_live_add_keys(live, display, text, len, device, line);

	if (status == INPUTFLINGER_OK)
		plugged(*device, "keys");
	return status;
}

WRAPPED(event, struct inputflinger_live *live, uint64_t now_us, uint8_t device, uint16_t type, uint16_t code,
	int32_t value)
{
	int status = __real_inputflinger_live_event(live, now_us, device, type, code, value);

	if (is_kept() && status == INPUTFLINGER_OK)
		write_event(now_us, device, type, code, value);
	return status;
}

WRAPPED(remove_device, struct inputflinger_live *live, uint64_t now_us, uint8_t device)
{
	int status = __real_inputflinger_live_remove_device(live, now_us, device);

	if (is_kept() && status == INPUTFLINGER_OK) {
		write_event(now_us, device, EV_SYN, SYN_DROPPED, 0);
		write_event(now_us, device, EV_SYN, SYN_REPORT, 0);
	}
	return status;
}

WRAPPED(windows_sized, struct inputflinger_live *live, uint64_t now_us, const struct inputflinger_window *windows,
	size_t window_size, size_t windows_len, const struct inputflinger_rect *rects, size_t rects_len, uint64_t *named)
{
	int status = __real_inputflinger_live_windows_sized(live, now_us, windows, window_size, windows_len, rects, rects_len,
							    named);

	for (size_t i = 0; i < windows_len && is_kept() && status == INPUTFLINGER_OK; i++)
		if (windows[i].client.channel != 0)
			channel_of(live, &windows[i].client);
	if (!is_kept() || status != INPUTFLINGER_OK)
		return status;
	step(now_us, "windows", NULL);
	fputs("windows = [\n", journal.steps);
	for (size_t i = 0; i < windows_len; rects += windows[i++].rects)
		write_window(&windows[i], rects);
	fputs("]\n", journal.steps);
	return status;
}

WRAPPED(focus, struct inputflinger_live *live, uint64_t now_us, uint8_t display,
	const struct inputflinger_client *client)
{
	int status = __real_inputflinger_live_focus(live, now_us, display, client);

	if (is_kept() && status == INPUTFLINGER_OK)
		step(now_us, "focus", client ? journal.at[client->channel] : NULL);
	return status;
}

WRAPPED(pilfer, struct inputflinger_live *live, uint64_t now_us, const struct inputflinger_client *client,
	uint8_t device)
{
	int status = __real_inputflinger_live_pilfer(live, now_us, client, device);

	if (is_kept() && status == INPUTFLINGER_OK) {
		step(now_us, "pilfer", journal.at[client->channel]);
		fprintf(journal.steps, "device = %u\n", device);
	}
	return status;
}

WRAPPED(close, struct inputflinger_live *live, uint64_t now_us, const struct inputflinger_client *client)
{
	int status = __real_inputflinger_live_close(live, now_us, client);

	if (status == INPUTFLINGER_OK) {
		if (is_kept() && journal.at[client->channel])
			step(now_us, "remove", journal.at[client->channel]);
		journal.at[client->channel] = NULL;
	}
	return status;
}

WRAPPED(advance, struct inputflinger_live *live, uint64_t now_us, uint64_t *mask)
{
	pass(now_us);
	return __real_inputflinger_live_advance(live, now_us, mask);
}

WRAPPED(next_any_sized, struct inputflinger_live *live, struct inputflinger_client *client,
	struct inputflinger_message *message, size_t message_size, bool *last)
{
	int status = __real_inputflinger_live_next_any_sized(live, client, message, message_size, last);

	if (is_kept() && status == INPUTFLINGER_OK && journal.at[client->channel])
		journal.at[client->channel]->was_sent = true;
	return status;
}

WRAPPED(finish_through, struct inputflinger_live *live, uint64_t now_us, const struct inputflinger_client *client,
	uint64_t seq)
{
	int status = __real_inputflinger_live_finish_through(live, now_us, client, seq);

	if (is_kept() && status == INPUTFLINGER_OK && journal.at[client->channel])
		journal.at[client->channel]->has_finished = true;
	return status;
}

static void write_session(const struct server *s, FILE *file)
{
	int devices = INPUTFLINGER_MAX_DEVICES;

	fprintf(file, "# Each pixel is %d units.\nend_us = %" PRIu64 "\n\n", s->unit, journal.last_us);
	if (journal.repeats.first_us == 0)
		fputs("repeat = false\n", file);
	else
		fprintf(file, "repeat_us = [%" PRIu64 ", %" PRIu64 "]\n", journal.repeats.first_us, journal.repeats.next_us);
	fprintf(file, "[display]\nwidth = %d\nheight = %d\n", UNITS, UNITS);
	while (devices > 0 && !journal.kinds[devices])
		devices--;
	for (int device = 1; device <= devices; device++) {
		const char *kind = journal.kinds[device] ? journal.kinds[device] : "keys";

		fprintf(file, "\n[[device]]\nkind = \"%s\"\npath = \"/dev/input/event%d\"\n", kind, device);
		if (strcmp(kind, "touch") == 0)
			fprintf(file, "slots = 16\nx = [0, %d]\ny = [0, %d]\n", UNITS - 1, UNITS - 1);
	}
	for (const struct channel *channel = journal.channels; channel < journal.channels + journal.count; channel++) {
		fprintf(file, "\n[[channel]]\nname = \"%s\"\nlive = %u\nlimit_ms = %" PRIu64 "\nfinishes = %s\n",
			channel->name, channel->live, journal.limit_us / 1000,
			channel->was_sent && !channel->has_finished ? "false" : "true");
	}
	fputs(journal.steps_text, file);
}

WRAPPED(free, struct inputflinger_live *live)
{
	struct server *s = wl_container_of(live, s, live);
	FILE *file = journal.steps && fclose(journal.steps) == 0 ? open_file("session.toml") : NULL;

	if (file)
		write_session(s, file);
	if (journal.folder && (!file || fclose(file) != 0 || fclose(journal.recording) != 0))
		fprintf(stderr, "journal: %s: it could not be written\n", journal.folder);
	free(journal.steps_text);
	return __real_inputflinger_live_free(live);
}
