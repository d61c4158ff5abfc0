/*
 * A patch, a type or a slice that a program is given as one word: the name of its file, or its bytes in decimal.
 */
#ifndef GIVEN_BYTES_H
#define GIVEN_BYTES_H

#include "show.h"

/* A file is at most three sections of 65,535 bytes, and a byte more shows that there is one too many. */
enum { GIVEN_BYTES_MAX = 3 * (2 + 65535) + 1 };

struct given_bytes {
    size_t length;
    uint8_t at[GIVEN_BYTES_MAX];
};

/* Reads the bytes that a word gives, or the file that it names. If they cannot be had, the program stops. */
void given_bytes_read(const char *word, struct given_bytes *bytes);

struct file given_file(const struct given_bytes *bytes);

#endif
