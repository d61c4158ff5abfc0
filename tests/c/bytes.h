/*
 * What the C tests share: files as bytes, lent buffers between margins, and a count of what held.
 */
#ifndef BYTES_H
#define BYTES_H

#include "wosthile.h"

#include <stdbool.h>
#include <stdio.h>
#include <stdlib.h>
#include <string.h>

struct bytes {
    const uint8_t *at;
    size_t count;
};

/*
 * RAW is a file byte by byte; FILE_OF is the file of one section, given by its contents. PATCH_OF is a patch file that
 * was never fed, by the contents of its type and of its nodes, each in parentheses; COUNTED_PATCH_OF has totals too.
 * TOTALS is their section, the third. COUNTS are those of a feed, or of a patch: what arrived, and what was sent.
 */
/* clang-format off */
#define LENGTH(...) sizeof((const uint8_t[]){__VA_ARGS__})
#define RAW(...) {(const uint8_t[]){__VA_ARGS__}, LENGTH(__VA_ARGS__)}
#define FILE_OF(...) {(const uint8_t[]){0, LENGTH(__VA_ARGS__), __VA_ARGS__}, 2 + LENGTH(__VA_ARGS__)}
#define PATCH_OF(type, nodes) COUNTED_PATCH_OF(type, nodes, 0, 0)
#define COUNTED_PATCH_OF(type, nodes, arrived, sent) RAW(TWO_SECTIONS(type, nodes), TOTALS(arrived, sent))
#define TWO_SECTIONS(type, nodes) 0, LENGTH type, CONTENTS type, 0, LENGTH nodes, CONTENTS nodes
#define CONTENTS(...) __VA_ARGS__
#define TOTALS(arrived, sent) 0, 8, FOUR_BYTES(arrived), FOUR_BYTES(sent)
#define FOUR_BYTES(number) \
    (uint8_t)((number) >> 24), (uint8_t)((number) >> 16), (uint8_t)((number) >> 8), (uint8_t)(number)
#define NONE {NULL, 0}
#define COUNTS(arrived, sent) {arrived, sent}
/* clang-format on */

static int passed, failed;

enum { FAILURES_TOLD = 100 };

/*
 * Counts what holds or does not; which of several it was is the length of a buffer in most tests. What does not hold is
 * told, but not more often than can be read: a wrong library may fail a million times.
 */
static inline void count(bool holds, const char *what, const char *name, size_t which)
{
    if (holds) {
        passed++;
    } else if (++failed <= FAILURES_TOLD) {
        printf("%s, %s, %zu: FAILED\n", what, name, which);
    }
}

/* A copy in memory of its exact size; NULL for no bytes. */
static inline uint8_t *copy_of(struct bytes bytes)
{
    uint8_t *copy = NULL;
    if (bytes.count > 0) {
        copy = malloc(bytes.count);
        if (copy == NULL) {
            abort();
        }
        memcpy(copy, bytes.at, bytes.count);
    }
    return copy;
}

static inline bool unaltered(const uint8_t *copy, struct bytes bytes)
{
    return bytes.count == 0 || memcmp(copy, bytes.at, bytes.count) == 0;
}

enum { MARGIN = 16 };

/* What is at a place of the memory around and in a lent buffer before a call: no two neighbours alike, never 0. */
static inline uint8_t before(size_t place) { return (uint8_t)(place % 251 + 5); }

/* Memory for a lent buffer of this length, with its margins. */
static inline uint8_t *lent_memory(size_t room)
{
    uint8_t *memory = malloc(room + 2 * MARGIN);
    if (memory == NULL) {
        abort();
    }
    for (size_t place = 0; place < room + 2 * MARGIN; place++) {
        memory[place] = before(place);
    }
    return memory;
}

/* The buffer holds the answer in front; it and its margins are otherwise as they were. */
static inline bool holds(const uint8_t *memory, size_t room, struct bytes answer)
{
    for (size_t place = 0; place < room + 2 * MARGIN; place++) {
        bool answered = place >= MARGIN && place - MARGIN < answer.count;
        uint8_t expected = answered ? answer.at[place - MARGIN] : before(place);
        if (memory[place] != expected) {
            return false;
        }
    }
    return true;
}

/*
 * The arrivals of a feed: how many cues and levels came in the slice, and how many are in the slice sent. Or the totals
 * of a patch: the sums of these.
 */
struct counts {
    uint32_t arrived, sent;
};

static const struct counts nothing_counted = COUNTS(0, 0);

static inline bool same_counts(struct counts one, struct counts other)
{
    return one.arrived == other.arrived && one.sent == other.sent;
}

static inline struct counts counts_of(wosthile_fed fed) { return (struct counts){fed.arrived, fed.sent}; }

/* A refusal: its number, and 0 for everything else. */
static inline bool is_refusal(wosthile_fed fed, uint32_t number)
{
    return fed.number == number && fed.output == 0 && fed.patch == 0 && fed.arrived == 0 && fed.sent == 0;
}

static inline struct counts sum_of(struct counts one, struct counts other)
{
    return (struct counts){one.arrived + other.arrived, one.sent + other.sent};
}

/* The totals of a patch file; nothing if it has no room for them, as the patch left by a refused feed. */
static inline struct counts totals_in(struct bytes patch)
{
    if (patch.count < WOSTHILE_TOTALS_SECTION) {
        return nothing_counted;
    }
    wosthile_totals totals = wosthile_totals_of(patch.at, patch.count);
    return (struct counts){totals.arrived, totals.sent};
}

/* They are the last eight bytes of the file. */
static inline void set_totals(uint8_t *patch, size_t length, struct counts totals)
{
    const uint8_t bytes[] = {FOUR_BYTES(totals.arrived), FOUR_BYTES(totals.sent)};
    memcpy(patch + length - sizeof bytes, bytes, sizeof bytes);
}

/* A copy of a patch file, with other totals. */
static inline struct bytes with_totals(struct bytes patch, struct counts totals)
{
    uint8_t *copy = copy_of(patch);
    set_totals(copy, patch.count, totals);
    return (struct bytes){copy, patch.count};
}

/* The arrivals in the file of an accepted slice: its kinds 2 and 4. Behind a 4 is the value, which has no kinds. */
static inline uint32_t arrivals_in(struct bytes slice)
{
    uint32_t arrivals = 0;
    for (size_t place = 2; place < slice.count; place++) {
        bool level = slice.at[place] == WOSTHILE_SLICE_LEVEL_COME;
        arrivals += level || slice.at[place] == WOSTHILE_SLICE_CUE_COME;
        place += level ? 2 : 0;
    }
    return arrivals;
}

/* A section that begins with a few bytes, then repeats others so many times, and ends in a few more. */
struct section {
    struct bytes front, part;
    size_t times;
    struct bytes end;
};

static inline uint8_t *append(uint8_t *to, struct bytes bytes)
{
    if (bytes.count > 0) {
        memcpy(to, bytes.at, bytes.count);
    }
    return to + bytes.count;
}

/* The file of one section. */
static inline struct bytes file_of(struct section section)
{
    size_t contents = section.front.count + section.part.count * section.times + section.end.count;
    uint8_t *file = malloc(contents + 2);
    if (file == NULL) {
        abort();
    }
    file[0] = (uint8_t)(contents / 256);
    file[1] = (uint8_t)(contents % 256);
    uint8_t *next = append(file + 2, section.front);
    for (size_t time = 0; time < section.times; time++) {
        next = append(next, section.part);
    }
    append(next, section.end);
    return (struct bytes){file, contents + 2};
}

static inline struct bytes repeated(struct bytes part, size_t times, struct bytes end)
{
    return file_of((struct section){NONE, part, times, end});
}

/* The file with bytes behind it up to a length, whatever its count says. */
static inline struct bytes lengthened(struct bytes file, size_t length)
{
    uint8_t *longer = calloc(length, 1);
    if (longer == NULL) {
        abort();
    }
    memcpy(longer, file.at, file.count < length ? file.count : length);
    return (struct bytes){longer, length};
}

static inline void release(struct bytes *files, size_t number)
{
    for (size_t file = 0; file < number; file++) {
        free((void *)(uintptr_t)files[file].at);
    }
}

/* The file of a patch that was never fed, by its first two sections, which are released. */
static inline struct bytes patch_of(struct bytes type, struct bytes nodes)
{
    const struct bytes totals = RAW(TOTALS(0, 0));
    size_t length = type.count + nodes.count + totals.count;
    uint8_t *patch = malloc(length);
    if (patch == NULL) {
        abort();
    }
    append(append(append(patch, type), nodes), totals);
    struct bytes files[] = {type, nodes};
    release(files, sizeof files / sizeof files[0]);
    return (struct bytes){patch, length};
}

/* SECTION is given by its contents; LANES is a type of one node more than twice its number. */
/* clang-format off */
#define SECTION(...) {RAW(__VA_ARGS__), NONE, 0, NONE}
#define LANES(times) {NONE, RAW(4, 1), times, RAW(1)}
#define NO_SECTION {NONE, NONE, 0, NONE}
/* clang-format on */

#endif
