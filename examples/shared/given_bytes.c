#include "given_bytes.h"

#include "program.h"

#include <errno.h>
#include <stdio.h>
#include <stdlib.h>
#include <string.h>

/* Reads bytes in decimal; false if the word is not made of digits and spaces, and then it is the name of a file. */
static bool read_decimal(const char *word, struct given_bytes *bytes)
{
    if (word[strspn(word, "0123456789 ")] != '\0') {
        return false;
    }
    bytes->length = 0;
    for (const char *next = word + strspn(word, " "); *next != '\0'; next += strspn(next, " ")) {
        char *behind;
        unsigned long value = strtoul(next, &behind, 10);
        if (value > 255 || bytes->length == GIVEN_BYTES_MAX) {
            stop("\"%.40s\" has a number above 255, or more bytes than a file can have", next);
        }
        bytes->at[bytes->length++] = (uint8_t)value;
        next = behind;
    }
    return true;
}

static void read_file(const char *path, struct given_bytes *bytes)
{
    FILE *stream = fopen(path, "rb");
    if (stream == NULL) {
        stop("%s cannot be opened: %s", path, strerror(errno));
    }
    bytes->length = fread(bytes->at, 1, GIVEN_BYTES_MAX, stream);
    if (ferror(stream)) {
        stop("%s cannot be read: %s", path, strerror(errno));
    }
    fclose(stream);
    if (bytes->length == GIVEN_BYTES_MAX) {
        stop("%s is longer than a patch, a type or a slice can be", path);
    }
}

void given_bytes_read(const char *word, struct given_bytes *bytes)
{
    if (!read_decimal(word, bytes)) {
        read_file(word, bytes);
    }
}

struct file given_file(const struct given_bytes *bytes) { return (struct file){bytes->at, bytes->length}; }
