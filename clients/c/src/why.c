#define _POSIX_C_SOURCE 200809L

#include "why.h"

#include <stdarg.h>
#include <stdio.h>
#include <string.h>

#include "xarm.h"

static _Thread_local char why[400];

void why_set(const char *form, ...)
{
    va_list words;
    va_start(words, form);
    vsnprintf(why, sizeof why, form, words);
    va_end(words);
}

const char *words_of(int error)
{
    static _Thread_local char text[128];
    if (strerror_r(error, text, sizeof text) != 0)
        return "an unknown error";
    return text;
}

XARM_PUBLIC const char *xarm_why(void)
{
    return why;
}
