/*
 * Calls of a live service as a text, and what each client is sent.
 *
 * Standard input has one call a line. Each line is printed, followed by its answer, and what an answer lists stands on
 * lines of its own. A line that begins with # begins anew, without a call:
 *
 *     touch 0 10                            touch 0 10 = device 1
 *     open                                  open = client 1 on channel 1
 *     windows 0 1 0 0 0 1080 2400 0         windows 0 1 0 0 0 1080 2400 0 = done
 *     down 1000 1 0 45 540 1200             down 1000 1 0 45 540 1200 = done
 *     report 1000 1                         report 1000 1 = done
 *     next 1                                next 1 =
 *                                           > 1 1000 motion 1 DOWN 0@540,1200
 *
 * A client is identified by how many were opened up to it, whether or not it is still open. The time of a call comes
 * first. A window is its client, its display, the four edges of its frame, which is also where it can be touched, and its
 * flags as a number; one of `owned` has its owner, its opacity and its occlusion too. `window` replaces one of them.
 *
 * The devices 1 to 6 are of display 0, and 7 and 8 are of display 1. A panel is plugged in by its display and its slots;
 * its positions are the pixels of its display. What a finger does is given in events: `down` has the device, the slot, the
 * tracking id and the position, `move` the device, the slot and the position, `up` and `palm` the device and the slot;
 * `report` is a SYN_REPORT, `dropped` a SYN_DROPPED, and `key` has the scan code and the value. A device with keys has the
 * scan codes 30 and 115. `touch_down` and `touch_motion` have the device, the touch id and the position, `touch_up` and
 * `touch_cancel` the device and the touch id, and `touch_frame` has the device. A client may leave a message unfinished
 * for five seconds. `next` has a client, and lists all that it has; `next_any` lists all that any client has, in the order
 * in which the service sent it, and `last` after each step. `most` sets how many messages a client may leave
 * unreceived. `repeats` begins anew with delays of repeats of its own, both 0 for none; `keys_down` has a device, and lists
 * its keys that are down.
 */
#include <stdlib.h>
#include <string.h>

#include "../../lib/examples/say.h"

#define CLIENTS 1000
#define NUMBERS 50
#define WINDOWS 7

static const char layout[] = "key 115 VOLUME_UP\nkey 30 A\n";
static const struct inputflinger_panel panel = {{0, 1079}, {0, 2399}, 1080, 2400, 0};
static const struct inputflinger_displays displays = {{0, 0, 0, 0, 0, 0, 1, 1}};

static struct inputflinger_live live;
static struct inputflinger_client clients[CLIENTS];
static size_t opened;

/* A line: its first word, and the numbers behind it. */
struct line {
	char word[20];
	uint64_t n[NUMBERS];
	size_t count;
};

static void fail(const char *what, const char *line)
{
	fprintf(stderr, "calls.c: %s: %s\n", what, line);
	exit(1);
}

static void begin(const struct inputflinger_repeats *repeats)
{
	opened = 0;
	if (inputflinger_live_new(&live, 5000000, repeats, &displays) != INPUTFLINGER_OK)
		fail("no service", "");
}

static void end(void)
{
	if (inputflinger_live_free(&live) != INPUTFLINGER_OK)
		fail("no service", "");
}

static struct line read_line(const char *text)
{
	struct line line = {0};
	int at;

	if (sscanf(text, "%19s%n", line.word, &at) != 1)
		fail("no word", text);
	for (const char *from = text + at; *from != '\0' && line.count < NUMBERS;) {
		char *end;

		line.n[line.count++] = strtoull(from, &end, 10);
		if (end == from)
			fail("no number", text);
		from = end;
	}
	return line;
}

static const struct inputflinger_client *client(uint64_t number)
{
	if (number < 1 || number > opened)
		fail("no client", "");
	return &clients[number - 1];
}

static bool is(const struct line *line, const char *word, size_t count)
{
	return strcmp(line->word, word) == 0 && line->count == count;
}

static const char *name_of(int status)
{
	switch (status) {
	case INPUTFLINGER_OK: return "done";
	case INPUTFLINGER_FULL: return "full";
	case INPUTFLINGER_TOO_MANY: return "too many";
	case INPUTFLINGER_BAD_SLOTS: return "bad slots";
	case INPUTFLINGER_NOT_OPEN: return "not open";
	case INPUTFLINGER_TWICE: return "twice";
	case INPUTFLINGER_UNKNOWN_SEQ: return "unknown number";
	case INPUTFLINGER_NOT_SPY: return "not a spy";
	case INPUTFLINGER_NOTHING_HELD: return "nothing held";
	case INPUTFLINGER_NO_DEVICE: return "no device";
	case INPUTFLINGER_NOT_SHOWN: return "not shown";
	case INPUTFLINGER_INCONSISTENT: return "inconsistent";
	default: return inputflinger_status_text(status);
	}
}

static void say_client(int status, const struct inputflinger_client *of)
{
	if (status == INPUTFLINGER_NOTHING) {
		puts(" none");
		return;
	}
	for (size_t i = 0; i < opened; i++)
		if (clients[i].channel == of->channel && clients[i].generation == of->generation)
			printf(" client %zu\n", i + 1);
}

static void list(uint64_t mask)
{
	struct inputflinger_client of;

	puts(mask == 0 ? " none" : "");
	for (uint32_t channel = 1; channel <= 64; channel++)
		if (mask >> (channel - 1) & 1) {
			int status = inputflinger_live_client_at(&live, channel, &of);

			putchar('>');
			say_client(status, &of);
		}
}

static void say_number(int status, const uint64_t *number)
{
	if (status == INPUTFLINGER_OK)
		printf(" %" PRIu64 "\n", *number);
	else
		puts(" none");
}

/* Who comes: a client, or a device. */
static bool coming(const struct line *line)
{
	uint64_t fault;
	uint8_t device;
	int status;

	if (is(line, "open", 0)) {
		if (opened == CLIENTS)
			fail("too many clients", "");
		status = inputflinger_live_open(&live, &clients[opened]);
		if (status != INPUTFLINGER_OK) {
			printf(" %s\n", name_of(status));
			return true;
		}
		printf(" client %zu on channel %" PRIu32 "\n", opened + 1, clients[opened].channel);
		opened++;
		return true;
	}
	if (is(line, "touch", 2))
		status = inputflinger_live_add_touch(&live, (uint8_t)line->n[0], (uint8_t)line->n[1], &panel, &device);
	else if (is(line, "keys", 1))
		status = inputflinger_live_add_keys(&live, (uint8_t)line->n[0], layout, sizeof layout - 1, &device, &fault);
	else
		return false;
	if (status == INPUTFLINGER_OK)
		printf(" device %u\n", device);
	else
		printf(" %s\n", status == INPUTFLINGER_TOO_MANY ? "no free number" : name_of(status));
	return true;
}

/* What is read of the service: its clock, what is due, who waits and where keys go. */
static bool reading(const struct line *line)
{
	struct inputflinger_client of;
	uint64_t number;
	uint32_t ids;
	bool it;

	if (is(line, "clock", 0))
		say_number(inputflinger_live_clock(&live, &number), &number);
	else if (is(line, "due", 0))
		say_number(inputflinger_live_due(&live, &number), &number);
	else if (is(line, "target", 0))
		say_client(inputflinger_live_key_target(&live, &of), &of);
	else if (is(line, "focused", 1))
		say_client(inputflinger_live_focused(&live, (uint8_t)line->n[0], &of), &of);
	else if (is(line, "open?", 1) && inputflinger_live_is_open(&live, client(line->n[0]), &it) == INPUTFLINGER_OK)
		puts(it ? " yes" : " no");
	else if (is(line, "responsive?", 1) && inputflinger_live_is_responsive(&live, client(line->n[0]), &it) == INPUTFLINGER_OK)
		puts(it ? " yes" : " no");
	else if (is(line, "choked?", 1) && inputflinger_live_is_choked(&live, client(line->n[0]), &it) == INPUTFLINGER_OK)
		puts(it ? " yes" : " no");
	else if (is(line, "holds", 2) && inputflinger_live_holds(&live, client(line->n[0]), (uint8_t)line->n[1], &ids) == INPUTFLINGER_OK)
		printf(" %" PRIu32 "\n", ids);
	else if (is(line, "waiting", 0) && inputflinger_live_waiting(&live, &number) == INPUTFLINGER_OK)
		list(number);
	else if (is(line, "advance", 1) && inputflinger_live_advance(&live, line->n[0], &number) == INPUTFLINGER_OK)
		list(number);
	else
		return false;
	return true;
}

/* All messages that clients have, each with its client, and a line after the last one of each step. */
static void receive_any(void)
{
	struct inputflinger_client of;
	struct inputflinger_message message;
	bool last;

	while (inputflinger_live_next_any(&live, &of, &message, &last) == INPUTFLINGER_OK) {
		for (size_t i = 0; i < opened; i++)
			if (clients[i].channel == of.channel && clients[i].generation == of.generation)
				printf("> client %zu: ", i + 1);
		say(stdout, &message);
		if (last)
			puts("> last");
	}
}

/* All messages that a client has, or that all clients have. */
static bool receiving(const struct line *line)
{
	struct inputflinger_message message;

	if (is(line, "next_any", 0)) {
		putchar('\n');
		receive_any();
		return true;
	}
	if (!is(line, "next", 1))
		return false;
	putchar('\n');
	while (inputflinger_live_next(&live, client(line->n[0]), &message) == INPUTFLINGER_OK) {
		fputs("> ", stdout);
		say(stdout, &message);
	}
	return true;
}

/* A window of so many numbers. */
static struct inputflinger_window window_of(const uint64_t *n, size_t numbers)
{
	struct inputflinger_window window = {.client = *client(n[0]), .display = (uint8_t)n[1], .flags = (uint32_t)n[6], .rects = 1};

	window.frame = (struct inputflinger_rect){(int32_t)n[2], (int32_t)n[3], (int32_t)n[4], (int32_t)n[5]};
	if (numbers == 10) {
		window.owner = (uint32_t)n[7];
		window.opacity = (uint8_t)n[8];
		window.occlusion = (uint8_t)n[9];
	}
	return window;
}

/* Replaces one window. */
static int window(const struct line *line)
{
	struct inputflinger_window shown = window_of(&line->n[1], 7);

	return inputflinger_live_window(&live, line->n[0], &shown, &shown.frame, 1);
}

/* Shows windows of so many numbers each. */
static int windows(const struct line *line, size_t numbers)
{
	struct inputflinger_window shown[WINDOWS] = {0};
	struct inputflinger_rect frames[WINDOWS];
	size_t count = (line->count - 1) / numbers;

	if (line->count % numbers != 1 || count > WINDOWS)
		fail("no windows", line->word);
	for (size_t i = 0; i < count; i++) {
		shown[i] = window_of(&line->n[1 + numbers * i], numbers);
		frames[i] = shown[i].frame;
	}
	return inputflinger_live_windows(&live, line->n[0], shown, count, frames, count, NULL);
}

/* Events of a device, until one is refused. */
static int events(const struct line *line, size_t count, const int32_t (*given)[3])
{
	int status = INPUTFLINGER_OK;

	for (size_t i = 0; i < count && status == INPUTFLINGER_OK; i++)
		status = inputflinger_live_event(&live, line->n[0], (uint8_t)line->n[1], (uint16_t)given[i][0], (uint16_t)given[i][1], given[i][2]);
	return status;
}

/* The kernel's numbers of what a device does. */
enum { SYN = 0, KEY = 1, ABS = 3, REPORT = 0, DROPPED = 3, SLOT = 47, X = 53, Y = 54, TOOL = 55, ID = 57, PALM = 2 };

/* What a device does. The numbers of its words are the time, the device, and what is handed in. */
static int doing(const struct line *line)
{
	const int32_t a = (int32_t)line->n[2], b = (int32_t)line->n[3], c = (int32_t)line->n[4], d = (int32_t)line->n[5];

	if (is(line, "report", 2))
		return events(line, 1, (const int32_t[][3]){{SYN, REPORT, 0}});
	if (is(line, "dropped", 2))
		return events(line, 1, (const int32_t[][3]){{SYN, DROPPED, 0}});
	if (is(line, "up", 3))
		return events(line, 2, (const int32_t[][3]){{ABS, SLOT, a}, {ABS, ID, -1}});
	if (is(line, "palm", 3))
		return events(line, 2, (const int32_t[][3]){{ABS, SLOT, a}, {ABS, TOOL, PALM}});
	if (is(line, "key", 4))
		return events(line, 1, (const int32_t[][3]){{KEY, a, b}});
	if (is(line, "move", 5))
		return events(line, 3, (const int32_t[][3]){{ABS, SLOT, a}, {ABS, X, b}, {ABS, Y, c}});
	if (is(line, "down", 6))
		return events(line, 4, (const int32_t[][3]){{ABS, SLOT, a}, {ABS, ID, b}, {ABS, X, c}, {ABS, Y, d}});
	if (is(line, "touch_down", 5))
		return inputflinger_live_touch_down(&live, line->n[0], (uint8_t)line->n[1], a, b, c);
	if (is(line, "touch_motion", 5))
		return inputflinger_live_touch_motion(&live, line->n[0], (uint8_t)line->n[1], a, b, c);
	if (is(line, "touch_up", 3))
		return inputflinger_live_touch_up(&live, line->n[0], (uint8_t)line->n[1], a);
	if (is(line, "touch_cancel", 3))
		return inputflinger_live_touch_cancel(&live, line->n[0], (uint8_t)line->n[1], a);
	if (is(line, "touch_frame", 2))
		return inputflinger_live_touch_frame(&live, line->n[0], (uint8_t)line->n[1]);
	if (is(line, "unplug", 2))
		return inputflinger_live_remove_device(&live, line->n[0], (uint8_t)line->n[1]);
	fail("no call", line->word);
	return 0;
}

/* The keys that are down on a device, or a service with other repeats. */
static bool repeating(const struct line *line)
{
	uint16_t scan;

	if (is(line, "repeats", 2)) {
		end();
		begin(&(struct inputflinger_repeats){line->n[0], line->n[1]});
		puts(" done");
		return true;
	}
	if (!is(line, "keys_down", 1))
		return false;
	for (uint32_t from = 0; inputflinger_live_first_key(&live, (uint8_t)line->n[0], from, &scan) == INPUTFLINGER_OK; from = scan + 1u)
		printf(" %u", scan);
	putchar('\n');
	return true;
}

/* A call whose answer is a word. */
static int calling(const struct line *line)
{
	if (strcmp(line->word, "windows") == 0 && line->count > 0)
		return windows(line, 7);
	if (strcmp(line->word, "owned") == 0 && line->count > 0)
		return windows(line, 10);
	if (is(line, "window", 8))
		return window(line);
	if (is(line, "most", 1))
		return inputflinger_live_set_most(&live, line->n[0]);
	if (is(line, "focus", 2))
		return inputflinger_live_focus(&live, line->n[0], (uint8_t)line->n[1], NULL);
	if (is(line, "focus", 3))
		return inputflinger_live_focus(&live, line->n[0], (uint8_t)line->n[1], client(line->n[2]));
	if (is(line, "close", 2))
		return inputflinger_live_close(&live, line->n[0], client(line->n[1]));
	if (is(line, "pilfer", 3))
		return inputflinger_live_pilfer(&live, line->n[0], client(line->n[1]), (uint8_t)line->n[2]);
	if (is(line, "finish", 3))
		return inputflinger_live_finish(&live, line->n[0], client(line->n[1]), line->n[2]);
	if (is(line, "finish_through", 3))
		return inputflinger_live_finish_through(&live, line->n[0], client(line->n[1]), line->n[2]);
	return doing(line);
}

int main(void)
{
	static char text[65536];

	begin(NULL);
	while (fgets(text, sizeof text, stdin) != NULL) {
		text[strcspn(text, "\n")] = '\0';
		fputs(text, stdout);
		if (text[0] == '#') {
			putchar('\n');
			end();
			begin(NULL);
		} else {
			struct line line = read_line(text);

			fputs(" =", stdout);
			if (!coming(&line) && !reading(&line) && !receiving(&line) && !repeating(&line))
				printf(" %s\n", name_of(calling(&line)));
		}
	}
	end();
	return 0;
}
