/* What the C of the library asks of a C library's headers, for a build that has none. */
#pragma once
typedef __SIZE_TYPE__ size_t;
#define NULL ((void *)0)
