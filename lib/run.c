/*
 * A run of the program, as a caller has it: pointers that are NULL and more files than there may be are answered here, and
 * all else by the proved call.
 */
#include "proved.h"

#define FILES_MOST 3

int inputflinger_run(const char *words, size_t words_len, const struct inputflinger_file *files, size_t files_len, char *out,
		     size_t out_room, char *err, size_t err_room, struct inputflinger_ran *ran)
{
	static const uint8_t none[1];
	const uint8_t *bytes[FILES_MOST] = {none, none, none};
	size_t lens[FILES_MOST] = {0};
	char nowhere[1];

	if ((words == NULL && words_len != 0) || (files == NULL && files_len != 0) || (out == NULL && out_room != 0)
	    || (err == NULL && err_room != 0) || ran == NULL)
		return INPUTFLINGER_NULL;
	if (files_len > FILES_MOST)
		return INPUTFLINGER_OUT_OF_RANGE;
	for (size_t i = 0; i < files_len; i++) {
		if (files[i].bytes == NULL && files[i].len != 0)
			return INPUTFLINGER_NULL;
		if (files[i].bytes != NULL)
			bytes[i] = files[i].bytes;
		lens[i] = files[i].len;
	}
	return (int)inputflinger_proved_run(words != NULL ? words : "", words_len, (uint32_t)files_len, bytes[0], lens[0],
			bytes[1], lens[1], bytes[2], lens[2], out != NULL ? out : nowhere, out_room,
			err != NULL ? err : nowhere, err_room, ran);
}
