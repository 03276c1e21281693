/* A text in the making, for listings and printed files, and the handing over of it. */
#include "plain.h"

#include <stdarg.h>
#include <stdio.h>
#include <string.h>

enum { MOST_SAID = 600000 };

static char said[MOST_SAID];
static size_t said_len;

void plain_say_nothing(void)
{
    said_len = 0;
}

void plain_say(const char *format, ...)
{
    va_list arguments;

    va_start(arguments, format);
    said_len += (size_t)vsnprintf(said + said_len, sizeof said - said_len, format, arguments);
    va_end(arguments);
}

uint16_t plain_give_said(uint8_t *out, size_t out_len, size_t *written, size_t *place)
{
    if (out_len < said_len)
        return plain_end(place, 22, 0);
    memcpy(out, said, said_len);
    *written = said_len;
    return plain_end(place, 0, 0);
}
