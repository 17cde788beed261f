/*
 * Runs commands of the program over sessions and recordings, one after another, and prints the status, the text and the
 * line of each.
 *
 *     cases LIST    each line of LIST has a command, a session's file and a recording's
 */
#include <stdio.h>
#include <stdlib.h>
#include <string.h>

#include "inputflinger.h"

#define ROOM 4194304

static void fail(const char *what, const char *name)
{
	fprintf(stderr, "cases.c: %s: %s\n", what, name);
	exit(1);
}

static struct inputflinger_file read_file(const char *name)
{
	FILE *from = fopen(name, "rb");
	char *bytes = malloc(ROOM);
	size_t len;

	if (from == NULL || bytes == NULL)
		fail("no file", name);
	len = fread(bytes, 1, ROOM, from);
	if (len == ROOM)
		fail("too long", name);
	fclose(from);
	return (struct inputflinger_file){bytes, len};
}

static void run(const char *command, const struct inputflinger_file *files, char *out)
{
	static char err[ROOM];
	char words[200];
	struct inputflinger_ran ran;
	int status;

	snprintf(words, sizeof words, "%s\n--session\n1\n--events\n2\n", command);
	status = inputflinger_run(words, strlen(words), files, 2, out, ROOM, err, ROOM, &ran);
	if (status != INPUTFLINGER_OK)
		fail(command, inputflinger_status_text(status));
	printf("status %u\n", (unsigned)ran.status);
	fwrite(out, 1, ran.out_len, stdout);
	fwrite(err, 1, ran.err_len, stdout);
}

int main(int count, char **words)
{
	FILE *list = count == 2 ? fopen(words[1], "r") : NULL;
	char command[20], session[500], recording[500], *out = malloc(ROOM);

	if (list == NULL || out == NULL)
		fail("no list", count == 2 ? words[1] : "");
	while (fscanf(list, "%19s %499s %499s", command, session, recording) == 3) {
		struct inputflinger_file files[2] = {read_file(session), read_file(recording)};

		run(command, files, out);
		free((void *)files[0].bytes);
		free((void *)files[1].bytes);
	}
	fclose(list);
	free(out);
	return 0;
}
