/*
 * The calls of a judge, as a program has them: a pointer that is NULL and the size of a struct are answered here, and all
 * else by the proved calls.
 */
#include "proved.h"
#include "sized.h"

int inputflinger_judge_new(struct inputflinger_judge *judge)
{
	if (judge == NULL)
		return INPUTFLINGER_NULL;
	return (int)inputflinger_proved_judge_new(judge);
}

int inputflinger_judge_step_sized(struct inputflinger_judge *judge, const struct inputflinger_message *message,
				  size_t message_size, struct inputflinger_fault *fault, size_t fault_size)
{
	struct inputflinger_message room;
	struct inputflinger_fault found = {0};
	uint32_t status;

	if (judge == NULL || message == NULL)
		return INPUTFLINGER_NULL;
	message = sized_given(&room, sizeof room, MESSAGE_FIRST, message, message_size);
	if (message == NULL || (fault != NULL && fault_size < FAULT_FIRST))
		return judge->is_open ? INPUTFLINGER_OUT_OF_RANGE : INPUTFLINGER_FREE;
	status = inputflinger_proved_judge_step(judge, message, &found);
	if (status == INPUTFLINGER_BROKEN && fault != NULL)
		sized_written(fault, fault_size, &found, sizeof found);
	return (int)status;
}

int inputflinger_judge_state_sized(const struct inputflinger_judge *judge, struct inputflinger_state *state,
				   size_t state_size)
{
	struct inputflinger_judge own;
	struct inputflinger_state found = {0};
	uint32_t status;

	if (judge == NULL || state == NULL)
		return INPUTFLINGER_NULL;
	if (state_size < STATE_FIRST)
		return judge->is_open ? INPUTFLINGER_OUT_OF_RANGE : INPUTFLINGER_FREE;
	own = *judge;
	status = inputflinger_proved_judge_state(&own, &found);
	if (status == INPUTFLINGER_OK)
		sized_written(state, state_size, &found, sizeof found);
	return (int)status;
}

int inputflinger_judge_keys(const struct inputflinger_judge *judge, struct inputflinger_key *keys, size_t room,
			    size_t *count)
{
	struct inputflinger_judge own;
	struct inputflinger_key nowhere;

	if (judge == NULL || count == NULL || (keys == NULL && room != 0))
		return INPUTFLINGER_NULL;
	own = *judge;
	return (int)inputflinger_proved_judge_keys(&own, keys != NULL ? keys : &nowhere, room, count);
}

int inputflinger_judge_free(struct inputflinger_judge *judge)
{
	if (judge == NULL)
		return INPUTFLINGER_NULL;
	return (int)inputflinger_proved_judge_free(judge);
}
