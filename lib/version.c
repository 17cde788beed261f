/*
 * The release, which lib/Makefile takes from packaging/version. The numbers of the header have to be those of it.
 */
#include "export.h"

_Static_assert(INPUTFLINGER_VERSION_MAJOR == VERSION_MAJOR && INPUTFLINGER_VERSION_MINOR == VERSION_MINOR
	       && INPUTFLINGER_VERSION_MICRO == VERSION_MICRO, "include/inputflinger.h and CHANGELOG.md have other versions");

const char *inputflinger_version(void)
{
	return VERSION;
}
