/*
 * Longest, held to Admit alone, for every type of a few nodes and every slice of it, which are found by asking the
 * library.
 *
 * For each type: no accepted slice has a longer file than the one that Longest writes. Of the complete slices of that
 * length, with every level at its largest, it is the first in the order of their bytes: where an either's sides are
 * equally long, 9 comes before 10. And what any accepted slice leaves has no longer slice than the whole type has.
 */
#include "small_types.h"

enum { TYPES_LEAST = 10000 };

/* What is found among the slices of a type. */
struct found {
    struct bytes type;
    size_t slices;
    size_t greatest;      /* the length of the longest file of an accepted slice */
    struct growing first; /* of the complete ones with the greatest length that a complete one has, the first */
    size_t left;          /* the length of the longest slice of what an accepted one leaves, at most */
};

static size_t longest_length(struct bytes type)
{
    uint8_t slice[WOSTHILE_SLICE_FILE_MAX];
    return wosthile_longest(type.at, type.count, slice, sizeof slice).written;
}

static void note_slice(void *context, const struct growing *slice, wosthile_admitted seen)
{
    struct found *found = context;
    uint8_t left[WOSTHILE_TYPE_FILE_MAX];
    struct bytes type = found->type;
    size_t length = wosthile_left(type.at, type.count, slice->bytes, slice->count, left, sizeof left).written;
    size_t longest = longest_length((struct bytes){left, length});
    found->slices++;
    found->left = longest > found->left ? longest : found->left;
    found->greatest = slice->count > found->greatest ? slice->count : found->greatest;
    if (seen.complete && slice->count > found->first.count) {
        found->first = *slice;
    }
}

static void check_type(struct bytes type)
{
    uint8_t slice[WOSTHILE_SLICE_FILE_MAX];
    struct found found = {.type = type};
    every_slice(&(struct slices){type, 255, note_slice, &found});
    wosthile_written longest = wosthile_longest(type.at, type.count, slice, sizeof slice);
    bool first = longest.written == found.first.count && memcmp(slice, found.first.bytes, longest.written) == 0;
    const char *name = type_name(type);
    count(longest.number == 0 && found.slices > 0 && found.greatest == longest.written, "no slice is longer", name,
          longest.written);
    count(first, "the first of the complete ones", name, longest.written);
    count(found.left <= longest.written, "no later slice is longer", name, longest.written);
}

int main(void)
{
    every_type(NODES_MAX, check_type);
    count(passed + failed >= 3 * TYPES_LEAST, "types", "enough were found", (size_t)(passed + failed) / 3);
    printf("%d passed, %d failed\n", passed, failed);
    return failed != 0;
}
