/*
 * Feeds of small patches, and the other operations on small files, each with its answer in memory of its own.
 */
#ifndef SMALL_FEEDS_H
#define SMALL_FEEDS_H

#include "bytes.h"

enum { ROOM = 64 };

/* A file in memory of its own. */
struct small_file {
    uint8_t bytes[ROOM];
    size_t count;
};

static inline struct bytes file_at(const struct small_file *file) { return (struct bytes){file->bytes, file->count}; }

static inline bool same(struct bytes one, struct bytes other)
{
    return one.count == other.count && memcmp(one.at, other.at, one.count) == 0;
}

/*
 * A patch that was never fed, of a type file and nodes, of which some bytes come first: those of a chain and its first
 * node, or none.
 */
static inline struct small_file patch_with(struct bytes type, struct bytes front, struct bytes nodes)
{
    const struct bytes totals = RAW(TOTALS(0, 0));
    struct small_file patch;
    uint8_t *next = append(patch.bytes, type);
    *next++ = 0;
    *next++ = (uint8_t)(front.count + nodes.count);
    next = append(append(append(next, front), nodes), totals);
    patch.count = (size_t)(next - patch.bytes);
    return patch;
}

/* The patch with other totals. */
static inline struct small_file counted(struct small_file patch, struct counts totals)
{
    set_totals(patch.bytes, patch.count, totals);
    return patch;
}

/* The number of a feed, and what it sends, leaves and counts; both files are of no bytes if it is refused. */
struct answer {
    uint32_t number;
    struct small_file output, left;
    struct counts counts;
};

static inline struct answer feed(struct bytes patch, struct bytes slice)
{
    struct answer answer = {0, {{0}, 0}, {{0}, 0}, COUNTS(0, 0)};
    wosthile_fed fed =
        wosthile_feed(patch.at, patch.count, slice.at, slice.count, answer.output.bytes, ROOM, answer.left.bytes, ROOM);
    answer.number = fed.number;
    answer.output.count = fed.output;
    answer.left.count = fed.patch;
    answer.counts = counts_of(fed);
    return answer;
}

static inline struct small_file joined(struct bytes type, struct bytes first, struct bytes second)
{
    struct small_file slice;
    slice.count =
        wosthile_join(type.at, type.count, first.at, first.count, second.at, second.count, slice.bytes, ROOM).written;
    return slice;
}

static inline struct small_file left_of(struct bytes type, struct bytes slice)
{
    struct small_file left;
    left.count = wosthile_left(type.at, type.count, slice.at, slice.count, left.bytes, ROOM).written;
    return left;
}

/* The empty slice of a type: what second sends of a cue and then that type, before the crossing. */
static inline struct small_file empty_slice_of(struct bytes type)
{
    const struct bytes second = RAW(8), none = NONE, not_crossed = FILE_OF(5, 1);
    const struct small_file sequence = {{0, (uint8_t)type.count, 3, 1}, 4};
    struct small_file input = sequence;
    append(input.bytes + input.count, (struct bytes){type.at + 2, type.count - 2});
    input.count += type.count - 2;
    struct small_file patch = patch_with(file_at(&input), none, second);
    return feed(file_at(&patch), not_crossed).output;
}

/* The input type of a patch, its first section; and its nodes, the contents of its second. */
static inline struct bytes type_in(const struct small_file *patch)
{
    return (struct bytes){patch->bytes, 2 + (size_t)patch->bytes[1]};
}

static inline struct bytes nodes_in(const struct small_file *patch)
{
    size_t begin = type_in(patch).count + 2, behind = begin + WOSTHILE_TOTALS_SECTION;
    return (struct bytes){patch->bytes + begin, patch->count < behind ? 0 : patch->count - behind};
}

#endif
