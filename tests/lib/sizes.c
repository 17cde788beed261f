/*
 * The structs of the header are those of the archive: their sizes as the archive tells them, and their layout as it is
 * written here.
 */
#include <stddef.h>
#include <stdio.h>

#include "inputflinger.h"

#include "../../lib/proved.h"

#define AT(type, member, place) _Static_assert(offsetof(struct type, member) == (place), #type "." #member)

_Static_assert(sizeof(void *) == 8, "pointers have 8 bytes");
AT(inputflinger_judge, at, 0);
AT(inputflinger_judge, is_open, 8);
AT(inputflinger_pointer, x, 0);
AT(inputflinger_pointer, y, 4);
AT(inputflinger_pointer, id, 8);
AT(inputflinger_message, seq, 0);
AT(inputflinger_message, moment_us, 8);
AT(inputflinger_message, kind, 16);
AT(inputflinger_message, flags, 20);
AT(inputflinger_message, meta, 24);
AT(inputflinger_message, repeat, 28);
AT(inputflinger_message, scan, 32);
AT(inputflinger_message, code, 34);
AT(inputflinger_message, device, 36);
AT(inputflinger_message, action, 37);
AT(inputflinger_message, index, 38);
AT(inputflinger_message, count, 39);
AT(inputflinger_message, down, 40);
AT(inputflinger_message, focus, 41);
AT(inputflinger_message, pointers, 44);
AT(inputflinger_message, user_data, 240);
AT(inputflinger_fault, place, 0);
AT(inputflinger_fault, next_repeat, 8);
AT(inputflinger_fault, held, 16);
AT(inputflinger_fault, reason, 20);
AT(inputflinger_fault, key_down, 24);
AT(inputflinger_fault, focus, 25);
AT(inputflinger_state, ids, 0);
AT(inputflinger_state, focus, 32);
AT(inputflinger_key, device, 0);
AT(inputflinger_key, scan, 2);
AT(inputflinger_live, at, 0);
AT(inputflinger_live, is_open, 8);
AT(inputflinger_client, generation, 0);
AT(inputflinger_client, channel, 8);
AT(inputflinger_rect, left, 0);
AT(inputflinger_rect, top, 4);
AT(inputflinger_rect, right, 8);
AT(inputflinger_rect, bottom, 12);
AT(inputflinger_window, client, 0);
AT(inputflinger_window, frame, 16);
AT(inputflinger_window, flags, 32);
AT(inputflinger_window, rects, 36);
AT(inputflinger_window, display, 40);
AT(inputflinger_window, unused, 41);
AT(inputflinger_window, owner, 48);
AT(inputflinger_window, opacity, 52);
AT(inputflinger_window, occlusion, 53);
AT(inputflinger_axis, min, 0);
AT(inputflinger_axis, max, 4);
AT(inputflinger_panel, x, 0);
AT(inputflinger_panel, y, 8);
AT(inputflinger_panel, width, 16);
AT(inputflinger_panel, height, 18);
AT(inputflinger_panel, rotation, 20);
AT(inputflinger_displays, of_device, 0);
AT(inputflinger_options, user_data, 0);
AT(inputflinger_options, finishes, 8);
AT(inputflinger_repeats, first_us, 0);
AT(inputflinger_repeats, next_us, 8);
AT(inputflinger_ran, out_len, 0);
AT(inputflinger_ran, err_len, 8);
AT(inputflinger_ran, status, 16);
AT(inputflinger_file, bytes, 0);
AT(inputflinger_file, len, 8);
_Static_assert(sizeof(struct inputflinger_judge) == 16, "a judge");
_Static_assert(sizeof(struct inputflinger_pointer) == 12, "a pointer");
_Static_assert(sizeof(struct inputflinger_message) == 248, "a message");
_Static_assert(sizeof(struct inputflinger_fault) == 32, "a fault");
_Static_assert(sizeof(struct inputflinger_state) == 36, "a state");
_Static_assert(sizeof(struct inputflinger_key) == 4, "a key");
_Static_assert(sizeof(struct inputflinger_live) == 16, "a live service");
_Static_assert(sizeof(struct inputflinger_client) == 16, "a client");
_Static_assert(sizeof(struct inputflinger_rect) == 16, "a rectangle");
_Static_assert(sizeof(struct inputflinger_window) == 56, "a window");
_Static_assert(sizeof(struct inputflinger_axis) == 8, "an axis");
_Static_assert(sizeof(struct inputflinger_panel) == 24, "a panel");
_Static_assert(sizeof(struct inputflinger_displays) == 8, "displays");
_Static_assert(sizeof(struct inputflinger_ran) == 24, "what a run came to");
_Static_assert(sizeof(struct inputflinger_options) == 16, "options");
_Static_assert(sizeof(struct inputflinger_repeats) == 16, "repeats");

int main(void)
{
	static const size_t sizes[] = {
		sizeof(struct inputflinger_judge), sizeof(struct inputflinger_pointer), sizeof(struct inputflinger_message),
		sizeof(struct inputflinger_fault), sizeof(struct inputflinger_state), sizeof(struct inputflinger_key), sizeof(struct inputflinger_live),
		sizeof(struct inputflinger_client), sizeof(struct inputflinger_rect), sizeof(struct inputflinger_window),
		sizeof(struct inputflinger_axis), sizeof(struct inputflinger_panel), sizeof(struct inputflinger_displays),
		sizeof(struct inputflinger_ran), sizeof(struct inputflinger_options), sizeof(struct inputflinger_repeats), 0,
	};

	for (uint32_t i = 0; i < sizeof sizes / sizeof *sizes; i++) {
		if (inputflinger_proved_size(i) != sizes[i]) {
			fprintf(stderr, "sizes.c: struct %u: the archive has another size\n", i);
			return 1;
		}
	}
	return 0;
}
