/*
 * Each status of inputflinger_run, and what stays of the buffers.
 */
#include <stdio.h>
#include <stdlib.h>
#include <string.h>

#include "inputflinger.h"

#define CHECK(holds)                                                             \
	do {                                                                     \
		if (!(holds)) {                                                  \
			fprintf(stderr, "program.c:%d: %s\n", __LINE__, #holds); \
			exit(1);                                                 \
		}                                                                \
	} while (0)

#define STREAM "channel 1 main\n1 1000 motion 1 DOWN 0@540,1200\n2 2000 motion 1 UP 0@540,1200\nend 1 sent 2 received 2 finished 2\n"
#define TOLD "well formed 1 2\n"
#define UNREAD "stream: ReadFailed\n"
#define UNKNOWN "words: UnknownOption --streams\n"
#define HELP "usage: inputflinger verify --stream FILE\n"
#define ROOM 100

struct run {
	char out[ROOM], err[ROOM];
	struct inputflinger_ran ran;
};

static const struct inputflinger_file files[4] = {{STREAM, sizeof STREAM - 1}, {"x", 1}, {NULL, 0}, {NULL, 0}};

/* Runs words over so many files with so much room. */
static struct run run(int wanted, const char *words, size_t count, size_t out_room, size_t err_room)
{
	struct run r;

	memset(&r, 0x55, sizeof r);
	CHECK(inputflinger_run(words, words != NULL ? strlen(words) : 0, files, count, r.out, out_room, r.err, err_room, &r.ran) == wanted);
	return r;
}

/* The front of a buffer is this text, and the rest is as it was. */
static bool has(const char *buffer, const char *text, size_t len)
{
	for (size_t i = len; i < ROOM; i++)
		if (buffer[i] != 0x55)
			return false;
	return memcmp(buffer, text, len) == 0;
}

static void ends(void)
{
	struct run r = run(INPUTFLINGER_OK, "verify\n--stream\n1\n", 1, ROOM, ROOM);

	CHECK(r.ran.status == 0 && r.ran.out_len == strlen(TOLD) && has(r.out, TOLD, strlen(TOLD)));
	CHECK(r.ran.err_len == 0 && has(r.err, "", 0));
	/* The last word needs no newline, and options may be in one word. */
	r = run(INPUTFLINGER_OK, "verify\n--stream=1", 3, strlen(TOLD), 0);
	CHECK(r.ran.status == 0 && has(r.out, TOLD, strlen(TOLD)));
	r = run(INPUTFLINGER_OK, "verify\n--stream\n2\n", 1, ROOM, ROOM);
	CHECK(r.ran.status == 4 && r.ran.out_len == 0 && has(r.out, "", 0) && has(r.err, UNREAD, strlen(UNREAD)));
	r = run(INPUTFLINGER_OK, "verify\n--stream\n2\n", 2, ROOM, ROOM);
	CHECK(r.ran.status == 1 && has(r.err, "stream: BadLine 1\n", 18) && r.ran.err_len == 18);
	r = run(INPUTFLINGER_OK, "verify\n--stream\n3\n", 3, ROOM, ROOM);
	CHECK(r.ran.status == 0 && has(r.out, "well formed 0 0\n", 16));
	/* A word more, which is empty, makes words of no command. */
	r = run(INPUTFLINGER_NO_ROOM, "verify\n--stream\n1\n\n", 1, ROOM, 7);
	CHECK(r.ran.status == 2 && has(r.err, "words: ", 7));
	r = run(INPUTFLINGER_OK, "verify\n--streams\n1\n", 1, ROOM, ROOM);
	CHECK(r.ran.status == 2 && r.ran.err_len == strlen(UNKNOWN) && has(r.err, UNKNOWN, strlen(UNKNOWN)) && r.ran.out_len == 0);
	/* A page of help is a text as any. */
	r = run(INPUTFLINGER_NO_ROOM, "verify\n-h\n", 0, strlen(HELP), 0);
	CHECK(r.ran.status == 0 && has(r.out, HELP, strlen(HELP)) && r.ran.err_len == 0 && r.ran.out_len > strlen(HELP));
}

static void no_room(void)
{
	struct run r = run(INPUTFLINGER_NO_ROOM, "verify\n--stream\n1\n", 1, 10, ROOM);

	CHECK(r.ran.status == 0 && r.ran.out_len == strlen(TOLD) && has(r.out, TOLD, 10) && has(r.err, "", 0));
	r = run(INPUTFLINGER_NO_ROOM, "verify\n--stream\n1\n", 1, 0, 0);
	CHECK(r.ran.status == 0 && r.ran.out_len == strlen(TOLD) && has(r.out, "", 0));
	r = run(INPUTFLINGER_NO_ROOM, "verify\n--stream\n2\n", 1, 0, 4);
	CHECK(r.ran.status == 4 && r.ran.err_len == strlen(UNREAD) && has(r.err, UNREAD, 4));
	r = run(INPUTFLINGER_NO_ROOM, "\xff\n", 1, ROOM, 7);
	CHECK(r.ran.status == 2 && has(r.err, "words: ", 7));
	r = run(INPUTFLINGER_NO_ROOM, NULL, 0, 0, 0);
	CHECK(r.ran.status == 2 && has(r.err, "", 0));
	CHECK(inputflinger_run("verify\n--stream\n1", 17, files, 1, NULL, 0, NULL, 0, &r.ran) == INPUTFLINGER_NO_ROOM);
	CHECK(r.ran.status == 0 && r.ran.out_len == strlen(TOLD) && r.ran.err_len == 0);
}

static void refused(void)
{
	static const struct inputflinger_file absent[1] = {{NULL, 1}};
	struct run r = run(INPUTFLINGER_NO_THREADS, "race\n--session\n1\n--events\n2\n", 2, ROOM, ROOM);

	CHECK(has(r.out, "", 0) && has(r.err, "", 0) && r.ran.status == 0x55555555);
	r = run(INPUTFLINGER_OUT_OF_RANGE, "verify\n--stream\n1\n", 4, ROOM, ROOM);
	CHECK(has(r.out, "", 0) && has(r.err, "", 0) && r.ran.status == 0x55555555);
	CHECK(inputflinger_run(NULL, 1, files, 1, r.out, ROOM, r.err, ROOM, &r.ran) == INPUTFLINGER_NULL);
	CHECK(inputflinger_run("", 0, NULL, 1, r.out, ROOM, r.err, ROOM, &r.ran) == INPUTFLINGER_NULL);
	CHECK(inputflinger_run("", 0, absent, 1, r.out, ROOM, r.err, ROOM, &r.ran) == INPUTFLINGER_NULL);
	CHECK(inputflinger_run("", 0, files, 1, NULL, 1, r.err, ROOM, &r.ran) == INPUTFLINGER_NULL);
	CHECK(inputflinger_run("", 0, files, 1, r.out, ROOM, NULL, 1, &r.ran) == INPUTFLINGER_NULL);
	CHECK(inputflinger_run("", 0, files, 1, r.out, ROOM, r.err, ROOM, NULL) == INPUTFLINGER_NULL);
	CHECK(has(r.out, "", 0) && has(r.err, "", 0) && r.ran.status == 0x55555555);
}

static uint32_t below(uint32_t bound)
{
	static uint64_t state = 1;

	state = state * UINT64_C(6364136223846793005) + UINT64_C(1442695040888963407);
	return (uint32_t)(state >> 33) % bound;
}

/* Words and files that are put together at random: the status tells whether there was room, and the rest of a buffer stays. */
static void any(void)
{
	static const char *const parts[] = {"verify", "judge", "batch", "emit", "replay", "work", "race", "\n", "\n", "\n", "--stream", "--session",
		"--events", "--frame", "--channel", "--device", "--seed", "--packets", "=", "1", "2", "3", "4", "\xff", " "};

	for (int i = 0; i < 20000; i++) {
		char words[256] = "", bytes[sizeof STREAM];
		struct inputflinger_file some[3] = {{bytes, below(sizeof bytes)}, files[0], {bytes, below(4)}};
		size_t out_room = below(ROOM + 1), err_room = below(ROOM + 1);
		struct run r;
		int status;

		for (uint32_t k = below(10); k > 0; k--)
			strcat(words, parts[below(sizeof parts / sizeof *parts)]);
		if (below(2) == 0)
			strcpy(words, below(2) == 0 ? "verify\n--stream\n1" : "emit\n--stream\n1\n--channel\n1\n--device\n1");
		memcpy(bytes, STREAM, sizeof bytes);
		for (uint32_t k = below(3); k > 0; k--)
			bytes[below(sizeof bytes)] = (char)below(256);
		memset(&r, 0x55, sizeof r);
		status = inputflinger_run(words, strlen(words), some, below(4), r.out, out_room, r.err, err_room, &r.ran);
		if (status == INPUTFLINGER_NO_THREADS) {
			CHECK(has(r.out, "", 0) && has(r.err, "", 0) && r.ran.status == 0x55555555);
			continue;
		}
		CHECK(r.ran.status <= 7 && (r.ran.status == 0) == (r.ran.err_len == 0) && (r.ran.status == 0 || r.ran.out_len == 0));
		CHECK(status == (r.ran.out_len <= out_room && r.ran.err_len <= err_room ? INPUTFLINGER_OK : INPUTFLINGER_NO_ROOM));
		CHECK(has(r.out, r.out, r.ran.out_len < out_room ? r.ran.out_len : out_room));
		CHECK(has(r.err, r.err, r.ran.err_len < err_room ? r.ran.err_len : err_room));
	}
}

int main(void)
{
	ends();
	no_room();
	refused();
	any();
	return 0;
}
