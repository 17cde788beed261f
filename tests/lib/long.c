/*
 * Ten million messages go through a judge, and its memory does not grow.
 */
#include <stdio.h>
#include <stdlib.h>
#include <sys/resource.h>

#include "inputflinger.h"

#define ROUNDS 2000000

static long peak(void)
{
	struct rusage usage;

	getrusage(RUSAGE_SELF, &usage);
	return usage.ru_maxrss;
}

static void accept(struct inputflinger_judge *judge, const struct inputflinger_message *message)
{
	struct inputflinger_fault fault;

	if (inputflinger_judge_step(judge, message, &fault) != INPUTFLINGER_OK) {
		fprintf(stderr, "long.c: a message was not accepted\n");
		exit(1);
	}
}

int main(void)
{
	struct inputflinger_judge judge = {0};
	struct inputflinger_message motion = {0}, key = {0};
	long before = 0;

	motion.kind = INPUTFLINGER_MOTION;
	motion.device = 1;
	motion.count = 1;
	key.kind = INPUTFLINGER_KEY;
	key.device = 2;
	if (inputflinger_judge_new(&judge) != INPUTFLINGER_OK)
		return 1;
	for (uint32_t round = 0; round < ROUNDS; round++) {
		if (round == ROUNDS / 100)
			before = peak();
		motion.action = INPUTFLINGER_DOWN;
		motion.pointers[0] = (struct inputflinger_pointer){(int32_t)round, 7, round % 32};
		accept(&judge, &motion);
		motion.action = INPUTFLINGER_MOVE;
		accept(&judge, &motion);
		motion.action = INPUTFLINGER_UP;
		accept(&judge, &motion);
		key.scan = (uint16_t)(round % 300);
		key.down = 1;
		accept(&judge, &key);
		key.down = 0;
		accept(&judge, &key);
	}
	if (peak() > before + 256) {
		fprintf(stderr, "long.c: memory grew from %ld to %ld KiB\n", before, peak());
		return 1;
	}
	return inputflinger_judge_free(&judge);
}
