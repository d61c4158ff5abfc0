/*
 * The types and slices that small_types.h finds, kept: so that what a slice leaves is looked up, and not found again.
 */
#ifndef FOUND_TYPES_H
#define FOUND_TYPES_H

#include "small_types.h"

enum { TYPES_ROOM = 1 << 14, SLICES_ROOM = 1 << 17 };

/* Each slice that was found, with Admit's answer; and each type, whose slices follow one another. */
struct found_slice {
    struct growing file;
    wosthile_admitted seen;
};

struct found_type {
    struct growing file;
    size_t begin, end; /* its first slice, and the one behind its last */
};

static struct found_slice slices[SLICES_ROOM];
static struct found_type types[TYPES_ROOM];
static size_t slices_found, types_found;

static inline void keep_slice(void *context, const struct growing *slice, wosthile_admitted seen)
{
    (void)context;
    if (slices_found == SLICES_ROOM) {
        abort();
    }
    slices[slices_found++] = (struct found_slice){*slice, seen};
}

/* The level with which slices are found has a value of bytes 2 and 2. */
static inline void keep_type(struct bytes type)
{
    struct found_type kept = {.file = {.count = type.count}, .begin = slices_found};
    if (types_found == TYPES_ROOM) {
        abort();
    }
    append(kept.file.bytes, type);
    every_slice(&(struct slices){type, 2, keep_slice, NULL});
    kept.end = slices_found;
    types[types_found++] = kept;
}

/* A type among those found. They are in the order of their contents, and none begins with another. */
static inline const struct found_type *found(struct bytes type)
{
    size_t low = 0, high = types_found;
    while (low < high) {
        const struct found_type *middle = &types[low + (high - low) / 2];
        size_t least = type.count < middle->file.count ? type.count : middle->file.count;
        int order = memcmp(type.at + 2, middle->file.bytes + 2, least - 2);
        if (order == 0) {
            return middle;
        }
        low = order > 0 ? (size_t)(middle - types) + 1 : low;
        high = order < 0 ? (size_t)(middle - types) : high;
    }
    abort();
}

static inline size_t nodes_of(const struct found_type *type) { return type->file.count - 2; }

#endif
