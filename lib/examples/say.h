/*
 * A message as a line of a stream file has it (docs/STREAMS.md), for the examples and the tests.
 */
#ifndef INPUTFLINGER_SAY_H
#define INPUTFLINGER_SAY_H

#include <inttypes.h>
#include <stdio.h>

#include "inputflinger.h"

static void say_motion(FILE *out, const struct inputflinger_message *m)
{
	static const char *const names[] = {"DOWN", "UP", "MOVE", "CANCEL", "OUTSIDE", "POINTER_DOWN", "POINTER_UP"};

	fprintf(out, "motion %u %s", m->device, names[m->action]);
	if (m->action >= INPUTFLINGER_POINTER_DOWN)
		fprintf(out, ":%u", m->index);
	if (m->flags & INPUTFLINGER_FLAG_CANCELED)
		fputs(" canceled", out);
	if (m->flags & INPUTFLINGER_FLAG_OBSCURED)
		fputs(" obscured", out);
	if (m->flags & INPUTFLINGER_FLAG_PARTLY_OBSCURED)
		fputs(" partly", out);
	for (uint32_t i = 0; i < m->count; i++)
		fprintf(out, " %" PRIu32 "@%" PRId32 ",%" PRId32, m->pointers[i].id, m->pointers[i].x, m->pointers[i].y);
}

static void say_key(FILE *out, const struct inputflinger_message *m)
{
	fprintf(out, "key %u %u %u %" PRIu32, m->device, m->scan, m->code, m->meta);
	if (m->down)
		fputs(" DOWN", out);
	else
		fputs(m->flags == INPUTFLINGER_FLAG_CANCELED ? " UP canceled" : " UP", out);
	fprintf(out, " %" PRIu32, m->repeat);
}

/* The line, with its newline. */
static void say(FILE *out, const struct inputflinger_message *m)
{
	fprintf(out, "%" PRIu64 " %" PRIu64 " ", m->seq, m->moment_us);
	if (m->kind == INPUTFLINGER_MOTION)
		say_motion(out, m);
	else if (m->kind == INPUTFLINGER_KEY)
		say_key(out, m);
	else
		fprintf(out, "focus %u", m->focus);
	fputc('\n', out);
}

#endif
