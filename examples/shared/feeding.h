/*
 * What a program keeps between the calls of the library: slices that wait as one, and the patch in force.
 */
#ifndef FEEDING_H
#define FEEDING_H

#include "show.h"

#include <wosthile.h>

/* Slices joined into one, in the order in which they were added. */
struct joined {
    size_t count; /* how many they are; 0 while there is none, and then there are no bytes */
    size_t length;
    uint8_t bytes[WOSTHILE_SLICE_FILE_MAX];
};

struct file joined_file(const struct joined *joined);

/*
 * Adds a slice of what the others leave of the type. The answer is 0, or the number for which the slice is refused;
 * then nothing changes. So the bytes are always those of an admitted slice of the type, and it is never them that the
 * join refuses.
 */
uint32_t joined_add(struct joined *joined, struct file type, struct file slice);

/* A type file in memory of its own. */
struct type {
    size_t length;
    uint8_t bytes[WOSTHILE_TYPE_FILE_MAX];
};

struct file type_file(const struct type *type);

/* The patch in force. A feed reads it in one buffer and writes the patch left to the other: never in place. */
struct patch {
    unsigned in_force; /* which of the two buffers holds it */
    size_t length;
    uint8_t buffers[2][WOSTHILE_PATCH_FILE_MAX];
};

struct file patch_file(const struct patch *patch);

/* The first section of a patch file is the file of its input type; its last bytes are the totals, see totals.h. */
struct file patch_input_type(const struct patch *patch);

/* Puts a patch in force if it is accepted, and writes the type that it gives; the answer is the number of the check. */
uint32_t patch_start(struct patch *patch, struct file file, struct type *output);

/* The number that a feed would answer; nothing is written, and the patch stays. */
uint32_t patch_feed_number(const struct patch *patch, struct file slice);

/* Feeds the patch in force. The buffers swap after an accepted feed; after a refused one the patch stays. */
wosthile_fed patch_feed(struct patch *patch, struct file slice, uint8_t output[WOSTHILE_SLICE_FILE_MAX]);

#endif
