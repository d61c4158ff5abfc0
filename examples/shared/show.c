#include "show.h"
#include "program.h"
#include "text.h"

#include <errno.h>
#include <stdio.h>
#include <stdlib.h>
#include <string.h>

/* More than two hours of the largest slices; a file beyond it is not a show that anybody recorded. */
enum { SHOW_BYTES_MAX = 1 << 28, FIRST_BYTES = 1 << 16 };

/* The bytes of a stream up to its end, in memory that the caller frees; NULL if they cannot be had. */
static uint8_t *read_all(FILE *stream, size_t *length)
{
    size_t room = FIRST_BYTES, have = 0;
    uint8_t *bytes = malloc(room);
    while (bytes != NULL) {
        have += fread(bytes + have, 1, room - have, stream);
        if (have < room) {
            break;
        }
        room *= 2;
        errno = EFBIG; /* unless there is no memory */
        uint8_t *larger = room <= SHOW_BYTES_MAX ? realloc(bytes, room) : NULL;
        if (larger == NULL) {
            free(bytes);
        }
        bytes = larger;
    }
    if (bytes != NULL && ferror(stream)) {
        free(bytes);
        bytes = NULL;
    }
    *length = have;
    return bytes;
}

/* How many bytes the next file of a stream of files has, with its two-byte length; 0 if the stream ends inside that. */
static size_t next_due(struct file stream, size_t place)
{
    return stream.length - place < 2 ? 0 : 2 + stream.bytes[place] * 256u + stream.bytes[place + 1];
}

/* The next file of a stream of files, each after a two-byte length; false if the stream ends before the file does. */
static bool next_file(struct file stream, size_t *place, struct file *file)
{
    size_t due = next_due(stream, *place);
    if (due == 0 || stream.length - *place < due) {
        return false;
    }
    *file = (struct file){stream.bytes + *place + 2, due - 2};
    *place += due;
    return true;
}

/* Counts the slices from a place on, and notes the one in which the stream ends, if it ends in one. */
static void count_slices(struct show *show, struct file stream, size_t place)
{
    struct file slice;
    while (next_file(stream, &place, &slice)) {
        show->count++;
    }
    if (place < stream.length) {
        show->unfinished = (struct unfinished){show->count + 1, place, stream.length - place, next_due(stream, place)};
    }
}

/* Adds where the length of a file is that ends too early, what it says, and how many bytes follow it. */
static void add_length(struct text *text, const char *what, size_t begin, size_t length, size_t follow)
{
    text_add(text, "the %s's length, at bytes %zu to %zu of the show, says %zu, and %zu %s", what, begin, begin + 1,
             length, follow, plural(follow, "byte follows", "bytes follow"));
}

static const char *say_patch_is_cut(struct show *show, struct file stream)
{
    struct text text = text_begin(show->fault, sizeof show->fault);
    size_t due = next_due(stream, 0);
    text_add(&text, "the file ends before its patch does: ");
    if (due == 0) {
        text_add(&text, "it has %zu of the two bytes of the patch's length", stream.length);
    } else {
        add_length(&text, "patch", 0, due - 2, stream.length - 2);
    }
    return show->fault;
}

/* Finds the files in the bytes of the show: how many slices there are is known only behind the last one. */
static const char *find_files(struct show *show)
{
    struct file stream = {show->bytes, show->length};
    size_t place = 0;
    if (!next_file(stream, &place, &show->patch)) {
        return say_patch_is_cut(show, stream);
    }
    count_slices(show, stream, place);
    show->slices = memory(show->count + 1, sizeof *show->slices);
    for (size_t index = 0; index < show->count; index++) {
        next_file(stream, &place, &show->slices[index]);
    }
    return NULL;
}

/* Why the last call on a file failed. */
static const char *say_reason(struct show *show, const char *what)
{
    snprintf(show->fault, sizeof show->fault, "the file cannot be %s: %s", what, strerror(errno));
    return show->fault;
}

const char *show_read(const char *path, struct show *show)
{
    *show = (struct show){0};
    FILE *stream = fopen(path, "rb");
    if (stream == NULL) {
        return say_reason(show, "opened");
    }
    show->bytes = read_all(stream, &show->length);
    const char *fault = show->bytes == NULL ? say_reason(show, "read") : find_files(show);
    fclose(stream);
    if (fault != NULL) {
        free(show->bytes);
        show->bytes = NULL;
    }
    return fault;
}

size_t show_place(const struct show *show, struct file file) { return (size_t)(file.bytes - show->bytes); }

void show_release(struct show *show)
{
    free(show->slices);
    free(show->bytes);
    *show = (struct show){0};
}

void show_unfinished_text(char *to, size_t room, const struct unfinished *unfinished)
{
    struct text text = text_begin(to, room);
    text_add(&text, "the file ends inside the slice of frame %zu: ", unfinished->frame);
    if (unfinished->due == 0) {
        text_add(&text, "byte %zu of the show is half of the slice's length, and is left out", unfinished->begin);
    } else {
        add_length(&text, "slice", unfinished->begin, unfinished->due - 2, unfinished->have - 2);
        text_add(&text, "; the last %zu bytes are left out", unfinished->have);
    }
}

void show_tell_unfinished(const char *path, const struct show *show)
{
    char text[MESSAGE_BYTES];
    if (show->unfinished.frame != 0) {
        show_unfinished_text(text, sizeof text, &show->unfinished);
        tell("%s: %s", path, text);
    }
}
