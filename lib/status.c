/*
 * What statuses mean.
 */
#include "export.h"

const char *inputflinger_status_text(int status)
{
	switch ((enum inputflinger_status)status) {
	case INPUTFLINGER_OK:
		return "the call was made";
	case INPUTFLINGER_FREE:
		return "the handle is free";
	case INPUTFLINGER_TAKEN:
		return "the handle is not free";
	case INPUTFLINGER_NO_MEMORY:
		return "out of memory";
	case INPUTFLINGER_OUT_OF_RANGE:
		return "a number is out of its range";
	case INPUTFLINGER_BROKEN:
		return "the message is not allowed where it came";
	case INPUTFLINGER_NO_ROOM:
		return "there is too little room for the answer";
	case INPUTFLINGER_NULL:
		return "a pointer is NULL and must not be";
	case INPUTFLINGER_NOT_OPEN:
		return "the client is not open";
	case INPUTFLINGER_FULL:
		return "64 clients are open";
	case INPUTFLINGER_NOTHING:
		return "there is none";
	case INPUTFLINGER_UNKNOWN_SEQ:
		return "the client did not receive the message, or finished it already";
	case INPUTFLINGER_NOT_SPY:
		return "the client has no spy among the shown windows";
	case INPUTFLINGER_NOTHING_HELD:
		return "the spy holds no pointer of the device";
	case INPUTFLINGER_NO_DEVICE:
		return "the device is not plugged in";
	case INPUTFLINGER_INCONSISTENT:
		return "the input does not fit what its device did before, and was not taken";
	case INPUTFLINGER_WAITS:
		return "out of memory after the input was taken: it waits, and a later call dispatches it";
	case INPUTFLINGER_TOO_MANY:
		return "there are more than 64 windows, or no device number of the display is free";
	case INPUTFLINGER_TWICE:
		return "a client has two windows";
	case INPUTFLINGER_BAD_SLOTS:
		return "the number of slots is not 1 to 16";
	case INPUTFLINGER_BAD_LAYOUT:
		return "the text is not a key layout";
	case INPUTFLINGER_NO_THREADS:
		return "the words are those of race, which starts threads";
	case INPUTFLINGER_NOT_SHOWN:
		return "the client has no window";
	case INPUTFLINGER_FINGER_DOWN:
		return "a finger with this touch id is down on the panel";
	case INPUTFLINGER_NO_FINGER:
		return "no finger with this touch id is down on the panel";
	case INPUTFLINGER_TOO_MANY_FINGERS:
		return "as many fingers as the panel has slots are down on it";
	}
	return "unknown status";
}
