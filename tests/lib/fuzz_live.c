/*
 * A fuzz of the calls of live services: in random order, of handles that are free and such that are not, with clients
 * that are open, stale or made up, and numbers in their ranges and out of them. Beside the services it keeps which
 * clients are open, and each message that a client gets goes through a judge: what a client is told is well-formed.
 *
 *     fuzz_live CALLS NUMBER    so many calls, beginning at a number
 */
#include <stdio.h>
#include <stdlib.h>
#include <string.h>

#include "inputflinger.h"

#define LIVES 4
#define CLIENTS 6

struct seat {
	struct inputflinger_client client;
	struct inputflinger_judge judge;
	struct inputflinger_options options;
	uint64_t got, taken;
	bool is_open;
};

struct side {
	struct inputflinger_live live;
	struct seat seats[CLIENTS];
	/* Which fingers are down on device 2, by touch ids from -10 on. */
	bool fingers[20];
	uint64_t now;
	bool is_open;
};

static uint64_t state;

/* The next number, below a bound. */
static uint32_t below(uint32_t bound)
{
	state = state * UINT64_C(6364136223846793005) + UINT64_C(1442695040888963407);
	return (uint32_t)((state >> 33) % bound);
}

static bool rarely(void)
{
	return below(64) == 0;
}

static void demand(bool holds, const char *text, uint64_t call)
{
	if (!holds) {
		fprintf(stderr, "fuzz_live.c: call %llu: %s\n", (unsigned long long)call, text);
		exit(1);
	}
}

/* The moment now, which goes on slowly, and at times is out of range. */
static uint64_t moment(struct side *side)
{
	side->now += below(8) == 0 ? below(2000000) : below(2000);
	return rarely() ? UINT64_C(1000000000000000001) + below(9) : side->now;
}

static bool is_moment(uint64_t us)
{
	return us <= UINT64_C(1000000000000000000);
}

/* A client that was opened some time, or, rarely, any numbers. */
static struct inputflinger_client client(const struct side *side, uint32_t i)
{
	struct inputflinger_client k = side->seats[i].client;

	if (rarely())
		k.channel = below(70);
	if (rarely())
		k.generation = below(70);
	return k;
}

static struct seat *seat_of(struct side *side, const struct inputflinger_client *k)
{
	for (uint32_t i = 0; i < CLIENTS; i++) {
		struct seat *s = &side->seats[i];

		if (s->is_open && s->client.channel == k->channel && s->client.generation == k->generation)
			return s;
	}
	return NULL;
}

static void close_seat(struct seat *s)
{
	inputflinger_judge_free(&s->judge);
	s->is_open = false;
}

static void begin(struct side *side, uint64_t call)
{
	static const struct inputflinger_repeats all[] = {{0, 0}, {500000, 50000}, {1000, 1000}, {300000, 600000000}, {0, 50000}};
	const struct inputflinger_repeats *repeats = below(2) ? NULL : &all[below(4 + rarely())];
	int status = inputflinger_live_new(&side->live, rarely() ? below(1000) : 1000000, repeats, NULL);
	uint8_t device;

	if (side->is_open) {
		demand(status == INPUTFLINGER_TAKEN || status == INPUTFLINGER_OUT_OF_RANGE, "new of a handle that is not free", call);
		return;
	}
	if (status != INPUTFLINGER_OK)
		return;
	side->is_open = true;
	side->now = 0;
	demand(inputflinger_live_add_touch(&side->live, 0, 10, &(struct inputflinger_panel){{0, 999}, {0, 999}, 1000, 1000, 0}, &device)
		       == INPUTFLINGER_OK && device == 1, "add_touch", call);
	demand(inputflinger_live_add_touch(&side->live, 0, 16, &(struct inputflinger_panel){{0, 999}, {0, 999}, 1000, 1000, 0}, &device)
		       == INPUTFLINGER_OK && device == 2, "add_touch", call);
}

static void end(struct side *side, uint64_t call)
{
	demand(inputflinger_live_free(&side->live) == (side->is_open ? INPUTFLINGER_OK : INPUTFLINGER_FREE), "free", call);
	for (uint32_t i = 0; i < CLIENTS; i++) {
		if (side->seats[i].is_open)
			close_seat(&side->seats[i]);
		/* A client is of one service: in another one its numbers may be those of a client that is open. */
		memset(&side->seats[i].client, 0, sizeof side->seats[i].client);
	}
	memset(side->fingers, 0, sizeof side->fingers);
	side->is_open = false;
}

static void come(struct side *side, uint32_t i, uint64_t call)
{
	struct seat *s = &side->seats[i];
	uint64_t now = moment(side);
	int status;

	if (s->is_open) {
		status = inputflinger_live_close(&side->live, now, &s->client);
		demand(status == (is_moment(now) ? INPUTFLINGER_OK : INPUTFLINGER_OUT_OF_RANGE), "close", call);
		if (status == INPUTFLINGER_OK)
			close_seat(s);
		return;
	}
	status = inputflinger_live_close(&side->live, 0, &s->client);
	demand(status == (side->is_open ? INPUTFLINGER_NOT_OPEN : INPUTFLINGER_FREE), "close of a stale client", call);
	s->options = (struct inputflinger_options){below(1u << 31), rarely() ? 2 : below(3) == 0};
	status = inputflinger_live_open_with(&side->live, &s->options, &s->client);
	demand(status == (!side->is_open ? INPUTFLINGER_FREE : s->options.finishes == 2 ? INPUTFLINGER_OUT_OF_RANGE : INPUTFLINGER_OK), "open_with", call);
	if (status == INPUTFLINGER_OK) {
		s->is_open = inputflinger_judge_new(&s->judge) == INPUTFLINGER_OK;
		s->got = s->taken = 0;
	}
}

/* A window of a client, whose region is yet to be made. */
static struct inputflinger_window window_of(struct side *side, uint32_t place)
{
	struct inputflinger_window window = {.client = client(side, place), .flags = below(4) == 0 ? below(64) : 0, .rects = below(3)};
	int32_t left = (int32_t)below(900), top = (int32_t)below(900);

	window.frame = (struct inputflinger_rect){left, top, left + 400, top + 400};
	window.display = rarely() ? (uint8_t)below(6) : 0;
	return window;
}

/* One window moves, or takes another form. */
static void move(struct side *side)
{
	struct inputflinger_window window = window_of(side, below(CLIENTS));
	struct inputflinger_rect rects[2] = {window.frame, window.frame};

	rects[0].right -= rarely() ? 900 : 100;
	inputflinger_live_window(&side->live, moment(side), &window, rects, rarely() ? below(3) : window.rects);
}

static void show(struct side *side)
{
	struct inputflinger_window windows[CLIENTS];
	struct inputflinger_rect rects[2 * CLIENTS];
	size_t count = below(CLIENTS + 1), place = 0;
	uint64_t named;

	for (size_t i = 0; i < count; i++) {
		windows[i] = window_of(side, rarely() ? below(CLIENTS) : (uint32_t)i);
		for (uint32_t r = 0; r < windows[i].rects; r++, place++) {
			rects[place] = windows[i].frame;
			rects[place].right -= (int32_t)(r * 100);
			if (rarely())
				rects[place].right = -1;
		}
	}
	inputflinger_live_windows(&side->live, moment(side), windows, count, rects, rarely() ? place / 2 : place, &named);
}

static void finger(struct side *side)
{
	static const uint16_t codes[] = {47, 57, 53, 54};
	uint64_t now = moment(side);
	uint8_t device = (uint8_t)(rarely() ? below(12) : 1);

	if (rarely()) {
		inputflinger_live_event(&side->live, now, device, (uint16_t)below(65536), (uint16_t)below(65536), (int32_t)below(1u << 31));
		return;
	}
	inputflinger_live_event(&side->live, now, device, 3, 47, (int32_t)below(11));
	inputflinger_live_event(&side->live, now, device, 3, codes[1], below(2) ? -1 : (int32_t)below(1000));
	inputflinger_live_event(&side->live, now, device, 3, codes[2], (int32_t)below(1000));
	inputflinger_live_event(&side->live, now, device, 3, codes[3], (int32_t)below(1000));
	inputflinger_live_event(&side->live, now, device, 0, rarely() ? 3 : 0, 0);
}

/* Fingers of device 2, which is handed in no args, by touch ids: which are down is known, so each status is. */
static void single(struct side *side, uint64_t call)
{
	uint64_t now = moment(side);
	int32_t id = (int32_t)below(20) - 10;
	bool *down = &side->fingers[id + 10];
	uint32_t what = below(5);
	int status;

	status = what == 0   ? inputflinger_live_touch_down(&side->live, now, 2, id, (int32_t)below(1000), (int32_t)below(1000))
		 : what == 1 ? inputflinger_live_touch_motion(&side->live, now, 2, id, (int32_t)below(1000), (int32_t)below(1000))
		 : what == 2 ? inputflinger_live_touch_up(&side->live, now, 2, id)
		 : what == 3 ? inputflinger_live_touch_cancel(&side->live, now, 2, id)
			     : inputflinger_live_touch_frame(&side->live, now, 2);
	demand(status != INPUTFLINGER_INCONSISTENT, "what fingers do fits", call);
	if (status == INPUTFLINGER_OK && what < 4) {
		demand(what == 0 ? !*down : *down, "a finger that was down went down, or one that was not did more", call);
		*down = what < 2;
	} else if (status == INPUTFLINGER_FINGER_DOWN || status == INPUTFLINGER_NO_FINGER) {
		demand(*down == (status == INPUTFLINGER_FINGER_DOWN), "a refused finger", call);
	}
}

static void ready(struct side *side)
{
	struct inputflinger_message m;
	uint8_t *bytes = (uint8_t *)&m;

	for (size_t i = 0; i < sizeof m; i++)
		bytes[i] = (uint8_t)below(256);
	m.kind = below(4);
	m.device = (uint8_t)(below(2) ? 1 : 3 * below(2));
	m.action = (uint8_t)below(8);
	m.count = (uint8_t)below(4);
	m.down = (uint8_t)below(2);
	m.scan = (uint16_t)below(4);
	m.flags = 0;
	for (uint32_t i = 0; i < 4; i++)
		m.pointers[i] = (struct inputflinger_pointer){(int32_t)below(1000), (int32_t)below(1000), i + below(2)};
	inputflinger_live_args(&side->live, moment(side), &m);
}

/* A client was handed a message: its next one, with what the client was opened with. One that finishes by itself has finished it. */
static void handed(struct seat *s, const struct inputflinger_message *m, uint64_t call)
{
	struct inputflinger_fault fault;

	demand(m->seq == ++s->got, "the messages of a client are numbered from 1 on", call);
	demand(m->user_data == s->options.user_data, "the messages of a client have its user data", call);
	demand(inputflinger_judge_step(&s->judge, m, &fault) == INPUTFLINGER_OK, "what a client is told is well-formed", call);
	if (s->options.finishes == 1)
		s->taken = s->got;
}

/* What a client gets is numbered from 1 on, and well-formed. */
static void get(struct side *side, uint32_t i, uint64_t call)
{
	struct inputflinger_client k = client(side, i);
	struct seat *s = seat_of(side, &k);
	struct inputflinger_message m;
	int status = inputflinger_live_next(&side->live, &k, &m);

	if (!side->is_open) {
		demand(status == INPUTFLINGER_FREE, "next of a free handle", call);
	} else if (s == NULL) {
		demand(status == INPUTFLINGER_NOTHING, "a client that is not open gets nothing", call);
	} else if (status == INPUTFLINGER_OK) {
		handed(s, &m, call);
	} else {
		demand(status == INPUTFLINGER_NOTHING, "next", call);
	}
}

/* The same, of any client: it is open, and what it gets is its next message. */
static void get_any(struct side *side, uint64_t call)
{
	struct inputflinger_client k;
	struct inputflinger_message m;
	uint64_t mask = 0;
	bool last;
	int status;

	inputflinger_live_waiting(&side->live, &mask);
	status = inputflinger_live_next_any(&side->live, &k, &m, &last);
	if (!side->is_open) {
		demand(status == INPUTFLINGER_FREE, "next_any of a free handle", call);
	} else if (mask == 0) {
		demand(status == INPUTFLINGER_NOTHING, "next_any has nothing", call);
	} else {
		struct seat *s = status == INPUTFLINGER_OK ? seat_of(side, &k) : NULL;

		demand(s != NULL, "next_any of an open client", call);
		demand(mask >> (k.channel - 1) & 1, "next_any of a client that waits", call);
		handed(s, &m, call);
	}
}

static void finish(struct side *side, uint32_t i, uint64_t call)
{
	struct inputflinger_client k = client(side, i);
	struct seat *s = seat_of(side, &k);
	uint64_t now = moment(side), seq = s == NULL ? below(100) : !rarely() ? s->taken + 1 : below(2) == 0 ? 0 : s->got + 1 + below(5);
	int status = inputflinger_live_finish(&side->live, now, &k, seq);

	if (!side->is_open)
		demand(status == INPUTFLINGER_FREE, "finish of a free handle", call);
	else if (!is_moment(now))
		demand(status == INPUTFLINGER_OUT_OF_RANGE, "finish out of range", call);
	else if (s == NULL)
		demand(status == INPUTFLINGER_NOT_OPEN, "finish of a client that is not open", call);
	else
		demand(status == (seq != 0 && seq <= s->got ? INPUTFLINGER_OK : INPUTFLINGER_UNKNOWN_SEQ), "finish", call);
	if (s != NULL && status == INPUTFLINGER_OK)
		s->taken++;
}

static void finish_through(struct side *side, uint32_t i, uint64_t call)
{
	struct inputflinger_client k = client(side, i);
	struct seat *s = seat_of(side, &k);
	uint64_t now = moment(side), seq = s == NULL ? below(100) : s->taken + below(4);
	int status = inputflinger_live_finish_through(&side->live, now, &k, seq);

	if (!side->is_open)
		demand(status == INPUTFLINGER_FREE, "finish_through of a free handle", call);
	else if (!is_moment(now))
		demand(status == INPUTFLINGER_OUT_OF_RANGE, "finish_through out of range", call);
	else if (s == NULL)
		demand(status == INPUTFLINGER_NOT_OPEN, "finish_through of a client that is not open", call);
	else
		demand(status == (seq <= s->got ? INPUTFLINGER_OK : INPUTFLINGER_UNKNOWN_SEQ), "finish_through", call);
	if (s != NULL && status == INPUTFLINGER_OK)
		s->taken = seq;
}

/* A device with keys, whose layout is of words that layouts have and of others. */
static void add_keys(struct side *side)
{
	static const char *const words[] = {"key ", "30", "0x1e", " A", " b", "\n", "# ", "led 0x00", " ", "\xc3\xa4", "VIRTUAL"};
	char text[64];
	size_t len = 0;
	uint64_t line;
	uint8_t device;

	for (uint32_t i = below(8); i > 0; i--) {
		const char *word = words[below(sizeof words / sizeof *words)];

		memcpy(text + len, word, strlen(word));
		len += strlen(word);
	}
	inputflinger_live_add_keys(&side->live, (uint8_t)below(5), text, len, &device, &line);
}

/* A panel that is plugged in anew has no finger. */
static void unplug(struct side *side, uint8_t device)
{
	int status = inputflinger_live_remove_device(&side->live, moment(side), device);

	if (device == 2 && (status == INPUTFLINGER_OK || status == INPUTFLINGER_INCONSISTENT || status == INPUTFLINGER_WAITS))
		memset(side->fingers, 0, sizeof side->fingers);
}

/* Whatever can be asked, and the calls that are made rarely. */
static void ask(struct side *side, uint32_t i)
{
	struct inputflinger_client k = client(side, i), told;
	uint64_t number;
	uint32_t ids;
	uint16_t scan;
	uint8_t device;
	bool is;

	inputflinger_live_waiting(&side->live, &number);
	inputflinger_live_first_key(&side->live, (uint8_t)below(10), below(70000), &scan);
	inputflinger_live_due(&side->live, &number);
	inputflinger_live_clock(&side->live, &number);
	inputflinger_live_is_open(&side->live, &k, &is);
	inputflinger_live_is_responsive(&side->live, &k, &is);
	inputflinger_live_is_choked(&side->live, &k, &is);
	if (below(16) == 0)
		inputflinger_live_set_most(&side->live, below(2) == 0 ? 10000 : below(12));
	inputflinger_live_user_data(&side->live, &k, &number);
	inputflinger_live_window_at(&side->live, (uint8_t)below(6), (int32_t)below(1500) - 100, (int32_t)below(1500) - 100, &told);
	inputflinger_live_client_at(&side->live, below(70), &told);
	inputflinger_live_focused(&side->live, (uint8_t)below(6), &told);
	inputflinger_live_key_target(&side->live, &told);
	inputflinger_live_holds(&side->live, &k, (uint8_t)below(10), &ids);
	inputflinger_live_focus(&side->live, moment(side), (uint8_t)below(5), below(4) == 0 ? NULL : &k);
	inputflinger_live_pilfer(&side->live, moment(side), &k, (uint8_t)below(10));
	if (rarely())
		unplug(side, (uint8_t)below(10));
	if (rarely())
		inputflinger_live_add_touch(&side->live, (uint8_t)below(5), (uint8_t)below(18),
					    &(struct inputflinger_panel){{0, 999}, {(int32_t)below(2000), 999}, 1000, 1000, (uint8_t)below(5)}, &device);
	if (rarely())
		add_keys(side);
}

int main(int count, char **words)
{
	static struct side sides[LIVES];
	uint64_t calls = count > 1 ? strtoull(words[1], NULL, 10) : 1000000, mask, got = 0;

	state = count > 2 ? strtoull(words[2], NULL, 10) : 1;
	for (uint64_t call = 0; call < calls; call++) {
		struct side *side = &sides[below(LIVES)];
		uint32_t what = below(64), i = below(CLIENTS);

		if (what == 0 && rarely())
			end(side, call);
		else if (what < 2)
			begin(side, call);
		else if (what < 4)
			come(side, i, call);
		else if (what < 6)
			show(side);
		else if (what < 9)
			move(side);
		else if (what < 15)
			finger(side);
		else if (what < 20)
			single(side, call);
		else if (what < 24)
			ready(side);
		else if (what < 40)
			get(side, i, call), got += side->seats[i].got > 0;
		else if (what < 44)
			get_any(side, call);
		else if (what < 54)
			finish(side, i, call);
		else if (what < 58)
			finish_through(side, i, call);
		else if (what < 60)
			inputflinger_live_advance(&side->live, moment(side), &mask);
		else
			ask(side, i);
	}
	for (uint32_t i = 0; i < LIVES; i++)
		end(&sides[i], calls);
	demand(got > calls / 100, "few messages were got", calls);
	printf("%llu calls\n", (unsigned long long)calls);
	return 0;
}
