/*
 * Want of memory. One request of the library for memory fails, the first of a life of a service and a judge, then the
 * second of the same life, and so on to the last one: the call says so and is made once more, or what it took waits, and
 * in the end all clients were told the same. Then all of that again with room reserved before each event: no event waits.
 * The three calls of the allocator stand here in place of lib/heap.c.
 */
#include <stdio.h>
#include <stdlib.h>
#include <string.h>

#include "inputflinger.h"

#define CHECK(holds)                                                             \
	do {                                                                     \
		if (!(holds)) {                                                  \
			fprintf(stderr, "memory.c:%d: %s\n", __LINE__, #holds);  \
			exit(1);                                                 \
		}                                                                \
	} while (0)

struct tried {
	bool ok;
	void *at;
};

struct tried rattle_alloc(size_t size, size_t align);
struct tried rattle_realloc(void *at, size_t kept, size_t size, size_t align);
void rattle_dealloc(void *at);

static char nothing;
/* How many requests are granted before the one that fails, and how many blocks there are. */
static long granted;
static long blocks;
static bool failed;

static bool fails(void)
{
	if (failed || granted-- > 0)
		return false;
	failed = true;
	return true;
}

struct tried rattle_alloc(size_t size, size_t align)
{
	void *at = fails() ? NULL : malloc(size != 0 ? size : align);

	blocks += at != NULL;
	return (struct tried){at != NULL, at != NULL ? at : &nothing};
}

struct tried rattle_realloc(void *at, size_t kept, size_t size, size_t align)
{
	void *new = fails() ? NULL : realloc(at, size != 0 ? size : align);

	(void)kept;
	return (struct tried){new != NULL, new != NULL ? new : &nothing};
}

void rattle_dealloc(void *at)
{
	blocks--;
	free(at);
}

/* What clients were told in a life, and how often a call was refused and something waited. */
struct life {
	struct inputflinger_live live;
	struct inputflinger_judge judge;
	struct inputflinger_message told[64];
	size_t count;
	uint64_t now;
};

static unsigned refused, waited;

/* Room is made for each event before it: then none waits. */
static bool reserves;

/* What a call comes to: OK, or, where memory was wanting, what the same call says once more. */
#define AGAIN(call)                                                              \
	do {                                                                     \
		int status = (call);                                             \
		if (status == INPUTFLINGER_NO_MEMORY) {                          \
			refused++;                                               \
			status = (call);                                         \
		}                                                                \
		CHECK(status == INPUTFLINGER_OK);                                \
	} while (0)

/* Something of a device: where it waits, it comes with the next call at the same moment. */
static void given(struct life *life, int status)
{
	uint64_t mask;

	CHECK(status == INPUTFLINGER_OK || status == INPUTFLINGER_WAITS);
	if (status == INPUTFLINGER_WAITS) {
		waited++;
		CHECK(inputflinger_live_advance(&life->live, life->now, &mask) == INPUTFLINGER_OK && mask == 0);
	}
}

static void event(struct life *life, uint8_t device, uint16_t type, uint16_t code, int32_t value)
{
	int status;

	if (reserves)
		AGAIN(inputflinger_live_reserve(&life->live, 1));
	status = inputflinger_live_event(&life->live, life->now, device, type, code, value);
	if (status == INPUTFLINGER_NO_MEMORY) {
		refused++;
		status = inputflinger_live_event(&life->live, life->now, device, type, code, value);
	}
	CHECK(!reserves || status == INPUTFLINGER_OK);
	given(life, status);
}

static void args(struct life *life, const struct inputflinger_message *m)
{
	int status = inputflinger_live_args(&life->live, life->now, m);

	if (status == INPUTFLINGER_NO_MEMORY) {
		refused++;
		status = inputflinger_live_args(&life->live, life->now, m);
	}
	given(life, status);
}

/* What a finger of device 3 does, by its touch id, or its frame. */
static int touch(struct life *life, char what, int32_t id)
{
	switch (what) {
	case 'd':
		return inputflinger_live_touch_down(&life->live, life->now, 3, id, 100, 200);
	case 'm':
		return inputflinger_live_touch_motion(&life->live, life->now, 3, id, 300, 400);
	case 'u':
		return inputflinger_live_touch_up(&life->live, life->now, 3, id);
	case 'c':
		return inputflinger_live_touch_cancel(&life->live, life->now, 3, id);
	}
	return inputflinger_live_touch_frame(&life->live, life->now, 3);
}

static void finger(struct life *life, char what, int32_t id)
{
	int status;

	if (reserves)
		AGAIN(inputflinger_live_reserve(&life->live, 1));
	status = touch(life, what, id);
	if (status == INPUTFLINGER_NO_MEMORY) {
		refused++;
		status = touch(life, what, id);
	}
	CHECK(!reserves || status == INPUTFLINGER_OK);
	given(life, status);
}

/* Two fingers go down in one frame and one moves; then one goes up, and the other is cancelled. */
static void fingers(struct life *life)
{
	finger(life, 'd', 7);
	finger(life, 'd', -3);
	finger(life, 'f', 0);
	finger(life, 'm', -3);
	finger(life, 'f', 0);
	finger(life, 'u', 7);
	finger(life, 'f', 0);
	finger(life, 'c', -3);
	CHECK(touch(life, 'c', -3) == INPUTFLINGER_NO_FINGER && touch(life, 'u', 7) == INPUTFLINGER_NO_FINGER);
}

static void remove_device(struct life *life, uint8_t device)
{
	int status = inputflinger_live_remove_device(&life->live, life->now, device);

	if (status == INPUTFLINGER_NO_MEMORY) {
		refused++;
		status = inputflinger_live_remove_device(&life->live, life->now, device);
	}
	given(life, status);
}

/* All that a client has is got, judged and finished. */
static void get(struct life *life, const struct inputflinger_client *client)
{
	struct inputflinger_message m;
	int status;

	memset(&m, 0, sizeof m);
	while ((status = inputflinger_live_next(&life->live, client, &m)) == INPUTFLINGER_OK) {
		CHECK(life->count < 64);
		life->told[life->count++] = m;
		AGAIN(inputflinger_judge_step(&life->judge, &m, NULL));
		if (m.seq % 2 == 0)
			AGAIN(inputflinger_live_finish(&life->live, life->now, client, m.seq));
	}
	AGAIN(inputflinger_live_finish_through(&life->live, life->now, client, m.seq));
	CHECK(status == INPUTFLINGER_NOTHING);
}

static struct inputflinger_message down(uint8_t device)
{
	struct inputflinger_message m = {0};

	m.kind = INPUTFLINGER_MOTION;
	m.device = device;
	m.count = 1;
	m.pointers[0] = (struct inputflinger_pointer){10, 20, 0};
	return m;
}

static void begin(struct life *life, struct inputflinger_client *spy, struct inputflinger_client *behind)
{
	static const struct inputflinger_panel panel = {{0, 999}, {0, 999}, 1000, 1000, 0};
	static const struct inputflinger_rect whole = {0, 0, 1000, 1000}, both[2] = {{0, 0, 1000, 1000}, {0, 0, 1000, 1000}};
	static const char layout[] = "key 30 A\nkey 48 B\n";
	struct inputflinger_window windows[2] = {{.frame = whole, .flags = INPUTFLINGER_SPY, .rects = 1}, {.frame = whole, .rects = 1}};
	struct {
		struct inputflinger_window now;
		uint64_t more;
	} longer[2] = {{.more = 0}, {.more = 0}};
	static const struct inputflinger_options options = {3, 0};
	static const struct inputflinger_repeats repeats = {500000, 50000};
	uint64_t line = 77;
	uint8_t device = 77;

	AGAIN(inputflinger_live_new(&life->live, 1000000, &repeats, NULL));
	AGAIN(inputflinger_judge_new(&life->judge));
	AGAIN(inputflinger_live_add_touch(&life->live, 0, 10, &panel, &device));
	CHECK(device == 1);
	AGAIN(inputflinger_live_add_keys(&life->live, 0, layout, sizeof layout - 1, &device, &line));
	CHECK(device == 2 && line == 77);
	AGAIN(inputflinger_live_add_touch(&life->live, 0, 16, &panel, &device));
	CHECK(device == 3);
	AGAIN(inputflinger_live_open(&life->live, spy));
	AGAIN(inputflinger_live_open_with(&life->live, &options, behind));
	windows[0].client = *spy;
	windows[1].client = *behind;
	AGAIN(inputflinger_live_windows(&life->live, 0, windows, 2, both, 2, NULL));
	/* The same as a later release may have it, which takes memory for the copies. */
	longer[0].now = windows[0];
	longer[1].now = windows[1];
	AGAIN(inputflinger_live_windows_sized(&life->live, 0, &longer[0].now, sizeof *longer, 2, both, 2, NULL));
	AGAIN(inputflinger_live_window(&life->live, 0, &windows[1], both, 1));
	AGAIN(inputflinger_live_focus(&life->live, 0, 0, behind));
}

/* The spy receives nothing, and has three messages: a wall takes the place of its window. */
static void choke(struct life *life, const struct inputflinger_client *spy)
{
	uint64_t mask;
	bool is;

	AGAIN(inputflinger_live_set_most(&life->live, 2));
	CHECK(inputflinger_live_is_choked(&life->live, spy, &is) == INPUTFLINGER_OK && !is);
	AGAIN(inputflinger_live_advance(&life->live, life->now, &mask));
	CHECK(inputflinger_live_is_choked(&life->live, spy, &is) == INPUTFLINGER_OK && is && mask == 1);
	AGAIN(inputflinger_live_set_most(&life->live, 10000));
}

static void live_on(struct life *life)
{
	struct inputflinger_client spy = {0}, behind = {0}, late = {0};
	struct inputflinger_message m = down(1);
	struct inputflinger_key keys[4];
	uint64_t mask;
	uint16_t scan;
	size_t count;

	begin(life, &spy, &behind);
	life->now = 1000;
	event(life, 1, 3, 57, 45);
	event(life, 1, 3, 53, 100);
	event(life, 1, 3, 54, 200);
	event(life, 1, 0, 0, 0);
	event(life, 2, 1, 30, 1);
	get(life, &behind);
	CHECK(inputflinger_live_first_key(&life->live, 2, 0, &scan) == INPUTFLINGER_OK && scan == 30);
	AGAIN(inputflinger_judge_keys(&life->judge, keys, 4, &count));
	CHECK(count == 1 && keys[0].device == 2 && keys[0].scan == 30);
	life->now = 2000;
	AGAIN(inputflinger_live_pilfer(&life->live, life->now, &spy, 1));
	event(life, 1, 3, 57, -1);
	event(life, 1, 0, 0, 0);
	args(life, &m);
	choke(life, &spy);
	life->now = 700000;
	AGAIN(inputflinger_live_advance(&life->live, life->now, &mask));
	get(life, &behind);
	life->now = 1200000;
	AGAIN(inputflinger_live_advance(&life->live, life->now, &mask));
	CHECK(mask == 1);
	fingers(life);
	get(life, &behind);
	AGAIN(inputflinger_live_close(&life->live, life->now, &spy));
	AGAIN(inputflinger_live_open(&life->live, &late));
	remove_device(life, 2);
	remove_device(life, 1);
	get(life, &behind);
	CHECK(inputflinger_live_free(&life->live) == INPUTFLINGER_OK);
	CHECK(inputflinger_judge_free(&life->judge) == INPUTFLINGER_OK);
	CHECK(blocks == 0);
}

static void same(const struct life *a, const struct life *b)
{
	CHECK(a->count == b->count);
	for (size_t i = 0; i < a->count; i++)
		CHECK(memcmp(&a->told[i], &b->told[i], offsetof(struct inputflinger_message, pointers)) == 0
		      && memcmp(a->told[i].pointers, b->told[i].pointers, sizeof a->told[i].pointers) == 0);
}

#define STREAM "channel 1 main\n1 1000 motion 1 DOWN 0@540,1200\n2 2000 motion 1 UP 0@540,1200\nend 1 sent 2 received 2 finished 2\n"

/* A run without the memory for its words does not begin, and one without other memory tells it by its status. */
static void runs(void)
{
	static const char words[] = "verify\n--stream\n1\n", told[] = "well formed 1 2\n";
	static const struct inputflinger_file file = {STREAM, sizeof STREAM - 1};
	struct inputflinger_ran ran;
	unsigned not_begun = 0, ended = 0;
	long requests = 0;
	char out[64], err[64];

	do {
		int status;

		failed = false;
		granted = requests++;
		status = inputflinger_run(words, sizeof words - 1, &file, 1, out, sizeof out, err, sizeof err, &ran);
		CHECK(blocks == 0);
		if (!failed)
			CHECK(status == INPUTFLINGER_OK && ran.status == 0 && ran.out_len == sizeof told - 1 && memcmp(out, told, ran.out_len) == 0);
		else if (status == INPUTFLINGER_NO_MEMORY)
			not_begun++;
		else {
			CHECK(status == INPUTFLINGER_OK && (ran.status == 5 || ran.status == 6 || ran.status == 0));
			ended++;
		}
	} while (failed);
	CHECK(not_begun > 0 && ended > 0);
}

/* Lives in each of which one request for memory fails: the first, then the second, and so on to the last. */
static void lives(const struct life *wanted)
{
	static struct life life;
	long count = 0;

	do {
		memset(&life, 0, sizeof life);
		failed = false;
		granted = count++;
		live_on(&life);
		same(&life, wanted);
	} while (failed);
}

int main(void)
{
	static struct life wanted;

	failed = true;
	live_on(&wanted);
	CHECK(refused == 0 && waited == 0 && wanted.count > 10);
	lives(&wanted);
	CHECK(refused > 10 && waited > 0);
	reserves = true;
	lives(&wanted);
	runs();
	return 0;
}
