/*
 * `inputflinger replay` as a program in C: a session and a recording are read into memory, run, and what the program
 * prints is printed, with its status. With another command of the same two files, `why` or `inspect`, it is that.
 *
 *     replay SESSION RECORDING [COMMAND]
 */
#include <errno.h>
#include <stdio.h>
#include <stdlib.h>
#include <string.h>

#include "inputflinger.h"

#define ROOM_FIRST 65536

static void fail(const char *what, const char *why)
{
	fprintf(stderr, "replay: %s: %s\n", what, why);
	exit(4);
}

/* All bytes of a file, which the caller frees. */
static struct inputflinger_file read_file(const char *path)
{
	FILE *from = fopen(path, "rb");
	size_t room = ROOM_FIRST, len = 0, count;
	char *bytes = malloc(room);

	if (from == NULL)
		fail(path, strerror(errno));
	while (bytes != NULL && (count = fread(bytes + len, 1, room - len, from)) != 0) {
		len += count;
		if (len == room)
			bytes = realloc(bytes, room *= 2);
	}
	if (bytes == NULL || ferror(from))
		fail(path, bytes == NULL ? "no memory" : strerror(errno));
	fclose(from);
	return (struct inputflinger_file){bytes, len};
}

/* Runs the words over two files; the answer is the text, which the caller frees. */
static char *run(const char *words, const struct inputflinger_file *files, char *err, size_t err_room,
		 struct inputflinger_ran *ran)
{
	size_t room = ROOM_FIRST;

	for (;;) {
		char *out = malloc(room);
		int status;

		if (out == NULL)
			fail("the text", "no memory");
		status = inputflinger_run(words, strlen(words), files, 2, out, room, err, err_room, ran);
		if (status != INPUTFLINGER_OK && status != INPUTFLINGER_NO_ROOM)
			fail("the run", status == INPUTFLINGER_NO_MEMORY ? "no memory" : "it did not begin");
		if (ran->out_len <= room)
			return out;
		free(out);
		room = ran->out_len;
	}
}

int main(int count, char **words)
{
	struct inputflinger_file files[2];
	struct inputflinger_ran ran = {0};
	char said[100], err[512], *out;

	if (count != 3 && count != 4) {
		fprintf(stderr, "usage: replay SESSION RECORDING [COMMAND]\n");
		return 2;
	}
	files[0] = read_file(words[1]);
	files[1] = read_file(words[2]);
	snprintf(said, sizeof said, "%.60s\n--session\n1\n--events\n2\n", count == 4 ? words[3] : "replay");
	out = run(said, files, err, sizeof err, &ran);
	fwrite(out, 1, ran.out_len, stdout);
	fwrite(err, 1, ran.err_len < sizeof err ? ran.err_len : sizeof err, stderr);
	free(out);
	free((void *)files[0].bytes);
	free((void *)files[1].bytes);
	return (int)ran.status;
}
