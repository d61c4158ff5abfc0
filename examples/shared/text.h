/*
 * A line of text that is put together bit by bit. What there is no room for is left out, from the end, and told.
 */
#ifndef TEXT_H
#define TEXT_H

#include <stdbool.h>
#include <stddef.h>

struct text {
    char *to;
    size_t room, length; /* the length is less than the room, and a zero byte follows */
    bool full;           /* something was left out */
};

/* Begins an empty text in somebody's memory of one byte or more. */
struct text text_begin(char *to, size_t room);

/* The word that goes with a count: plural(1, "byte follows", "bytes follow") is the first. */
const char *plural(size_t count, const char *one, const char *many);

/* Adds to the end of a text. */
void text_add(struct text *text, const char *format, ...) __attribute__((format(printf, 2, 3)));

#endif
