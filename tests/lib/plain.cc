// The header from C++.
#include "inputflinger.h"

int main()
{
	inputflinger_judge judge = {};
	inputflinger_message message = {};

	message.kind = INPUTFLINGER_FOCUS;
	message.focus = 1;
	if (inputflinger_judge_new(&judge) != INPUTFLINGER_OK)
		return 1;
	if (inputflinger_judge_step(&judge, &message, nullptr) != INPUTFLINGER_OK)
		return 1;
	if (inputflinger_judge_free(&judge) != INPUTFLINGER_OK)
		return 1;

	inputflinger_live live = {};
	inputflinger_client client = {};
	if (inputflinger_live_new(&live, 5000000, nullptr, nullptr) != INPUTFLINGER_OK)
		return 1;
	if (inputflinger_live_open(&live, &client) != INPUTFLINGER_OK || client.channel != 1)
		return 1;
	return inputflinger_live_free(&live);
}
