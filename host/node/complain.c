#include "complain.h"

#include <stdarg.h>
#include <stdio.h>
#include <stdlib.h>

/* one write for the whole line, so that lines of several stations on one terminal don't mix */
static void say(const char *format, va_list rest)
{
    char line[1024];
    int start = snprintf(line, sizeof line, "totem-node: ");

    vsnprintf(line + start, sizeof line - (size_t)start, format, rest);
    fprintf(stderr, "%s\n", line);
}

void complain(const char *format, ...)
{
    va_list rest;

    va_start(rest, format);
    say(format, rest);
    va_end(rest);
}

void fail(int status, const char *format, ...)
{
    va_list rest;

    va_start(rest, format);
    say(format, rest);
    va_end(rest);
    exit(status);
}
