/*
 * The header, as the library's own files read it: what it declares is what the shared object exports, and all else that
 * they define is hidden (-fvisibility=hidden).
 */
#ifndef INPUTFLINGER_EXPORT_H
#define INPUTFLINGER_EXPORT_H

#pragma GCC visibility push(default)
#include "inputflinger.h"
#pragma GCC visibility pop

#endif
