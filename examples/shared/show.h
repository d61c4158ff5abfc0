/*
 * A show file: a recorded stream, as a program reads it. A two-byte length and a patch file, then slice files, each
 * after such a length, the high byte first. The slice file at place i is what came in frame i + 1.
 */
#ifndef SHOW_H
#define SHOW_H

#include <stddef.h>
#include <stdint.h>

/* How fast a show is recorded, and played unless somebody asks for another pace. */
enum { FRAMES_A_SECOND = 60 };

/* The bytes of a file that lies in somebody else's memory. */
struct file {
    const uint8_t *bytes;
    size_t length;
};

/* The slice in which a show file ends: a recording that was broken off. */
struct unfinished {
    size_t frame; /* the frame of that slice; 0 if the show file ends with a whole file */
    size_t begin; /* the byte of the show at which the slice's length begins */
    size_t have;  /* the bytes behind the last whole file, the two of the slice's length among them */
    size_t due;   /* how many bytes these were to be; 0 if even the length is cut */
};

struct show {
    uint8_t *bytes; /* the whole file; the patch and the slices point into it */
    size_t length;  /* of the whole file */
    struct file patch;
    struct file *slices;
    size_t count; /* of whole slices */
    struct unfinished unfinished;
    char fault[160]; /* why there is no show */
};

/*
 * Reads a show file. The answer is NULL, or a sentence, held in the show, that says why there is none. A file that ends
 * inside a slice is a show up to the slice before, and the unfinished slice is noted; what the patch and the slices
 * hold is not looked at here.
 */
const char *show_read(const char *path, struct show *show);

void show_release(struct show *show);

/* The byte of a show at which one of its files begins, behind its length. */
size_t show_place(const struct show *show, struct file file);

/* Says in words where a show file with an unfinished slice ends, and what is left out for it. */
void show_unfinished_text(char *to, size_t room, const struct unfinished *unfinished);

/* Tells the same on the error stream; a show that ends with a whole file has nothing to tell. */
void show_tell_unfinished(const char *path, const struct show *show);

#endif
