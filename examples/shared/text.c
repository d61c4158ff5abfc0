#include "text.h"

#include <stdarg.h>
#include <stdio.h>

const char *plural(size_t count, const char *one, const char *many) { return count == 1 ? one : many; }

struct text text_begin(char *to, size_t room)
{
    to[0] = '\0';
    return (struct text){to, room, 0, false};
}

void text_add(struct text *text, const char *format, ...)
{
    size_t room = text->room - text->length;
    va_list list;
    va_start(list, format);
    int length = vsnprintf(text->to + text->length, room, format, list);
    va_end(list);
    bool fits = length >= 0 && (size_t)length < room;
    text->full = text->full || !fits;
    text->length = fits ? text->length + (size_t)length : text->room - 1;
}
