/*
 * Writes a file of struct input_event: two fingers, a buffer of the kernel that ran over, and what is there after it.
 */
#include <linux/input.h>
#include <stdio.h>

static const struct { long us; __u16 type, code; __s32 value; } events[] = {
	{1000, EV_ABS, ABS_MT_SLOT, 0}, {1000, EV_ABS, ABS_MT_TRACKING_ID, 45}, {1000, EV_ABS, ABS_MT_POSITION_X, 100},
	{1000, EV_ABS, ABS_MT_POSITION_Y, 200}, {1000, EV_SYN, SYN_REPORT, 0},
	{2000, EV_ABS, ABS_MT_SLOT, 1}, {2000, EV_ABS, ABS_MT_TRACKING_ID, 46}, {2000, EV_ABS, ABS_MT_POSITION_X, 700},
	{2000, EV_ABS, ABS_MT_POSITION_Y, 400}, {2000, EV_SYN, SYN_REPORT, 0},
	{3000, EV_SYN, SYN_DROPPED, 0}, {3000, EV_ABS, ABS_MT_POSITION_X, 705}, {3000, EV_SYN, SYN_REPORT, 0},
	{3000, EV_ABS, ABS_MT_SLOT, 1}, {3000, EV_ABS, ABS_MT_TRACKING_ID, 46}, {3000, EV_ABS, ABS_MT_POSITION_X, 710},
	{3000, EV_ABS, ABS_MT_POSITION_Y, 410}, {3000, EV_SYN, SYN_REPORT, 0},
	{4000, EV_ABS, ABS_MT_TRACKING_ID, -1}, {4000, EV_SYN, SYN_REPORT, 0},
};

int main(void)
{
	for (size_t i = 0; i < sizeof events / sizeof *events; i++) {
		struct input_event event = {0};

		event.input_event_sec = events[i].us / 1000000;
		event.input_event_usec = events[i].us % 1000000;
		event.type = events[i].type;
		event.code = events[i].code;
		event.value = events[i].value;
		if (fwrite(&event, sizeof event, 1, stdout) != 1)
			return 1;
	}
	return 0;
}
