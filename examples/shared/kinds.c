#include "kinds.h"

#include "text.h"

#define ROWS(table) (sizeof(table) / sizeof(table)[0])
#define SHAPE(...)                                                                                                     \
    {                                                                                                                  \
        (const uint8_t[]){__VA_ARGS__}, sizeof((const uint8_t[]){__VA_ARGS__})                                         \
    }

/* The kinds of types in the shape of an input. */
enum {
    ANY = WOSTHILE_TYPE_EMPTY,
    SEQUENCE = WOSTHILE_TYPE_SEQUENCE,
    BESIDE = WOSTHILE_TYPE_BESIDE,
    EITHER = WOSTHILE_TYPE_EITHER
};

/* clang-format off */
static const struct type_kind type_kinds[] = {
    [WOSTHILE_TYPE_EMPTY]    = {.name = "empty"},
    [WOSTHILE_TYPE_CUE]      = {.name = "cue"},
    [WOSTHILE_TYPE_LEVEL]    = {.name = "level"},
    [WOSTHILE_TYPE_SEQUENCE] = {.name = "sequence", .parts = 2, .between = "then"},
    [WOSTHILE_TYPE_BESIDE]   = {.name = "side by side", .parts = 2, .between = "beside"},
    [WOSTHILE_TYPE_EITHER]   = {.name = "either", .parts = 2, .between = "or"},
};

static const struct slice_kind slice_kinds[] = {
    [WOSTHILE_SLICE_NOTHING]       = {"nothing", WOSTHILE_TYPE_EMPTY, .parts = 0},
    [WOSTHILE_SLICE_CUE_AWAITED]   = {"cue awaited", WOSTHILE_TYPE_CUE, .parts = 0},
    [WOSTHILE_SLICE_CUE_COME]      = {"cue come", WOSTHILE_TYPE_CUE, .parts = 0},
    [WOSTHILE_SLICE_LEVEL_AWAITED] = {"level awaited", WOSTHILE_TYPE_LEVEL, .parts = 0},
    [WOSTHILE_SLICE_LEVEL_COME]    = {"level come", WOSTHILE_TYPE_LEVEL, .value_bytes = 2},
    [WOSTHILE_SLICE_IN_FIRST]      = {"in first part", WOSTHILE_TYPE_SEQUENCE, .parts = 1, .part = {0}},
    [WOSTHILE_SLICE_CROSSED]       = {"crossed", WOSTHILE_TYPE_SEQUENCE, .parts = 2, .part = {0, 1}},
    [WOSTHILE_SLICE_BESIDE]        = {"side by side", WOSTHILE_TYPE_BESIDE, .parts = 2, .part = {0, 1}},
    [WOSTHILE_SLICE_NONE_CHOSEN]   = {"none chosen", WOSTHILE_TYPE_EITHER, .parts = 0},
    [WOSTHILE_SLICE_FIRST_CHOSEN]  = {"first chosen", WOSTHILE_TYPE_EITHER, .parts = 1, .part = {0}},
    [WOSTHILE_SLICE_SECOND_CHOSEN] = {"second chosen", WOSTHILE_TYPE_EITHER, .parts = 1, .part = {1}},
};

static const struct node_kind node_kinds[] = {
    [WOSTHILE_NODE_PASS]   = {.name = "pass", .takes = SHAPE(ANY)},
    [WOSTHILE_NODE_SILENT] = {.name = "silent", .carries_type = true, .takes = SHAPE(ANY)},
    [WOSTHILE_NODE_CUE]    = {.name = "cue", .waits = true, .takes = SHAPE(ANY)},
    [WOSTHILE_NODE_LEVEL]  = {.name = "level", .value_bytes = 2, .waits = true, .takes = SHAPE(ANY)},
    [WOSTHILE_NODE_BOTH]   = {.name = "both", .parts = 2, .input = {INPUT_WHOLE, INPUT_WHOLE}, .takes = SHAPE(ANY)},
    [WOSTHILE_NODE_LEFT]   = {.name = "left", .takes = SHAPE(BESIDE, ANY, ANY)},
    [WOSTHILE_NODE_RIGHT]  = {.name = "right", .takes = SHAPE(BESIDE, ANY, ANY)},
    [WOSTHILE_NODE_FIRST]  = {.name = "first", .takes = SHAPE(SEQUENCE, ANY, ANY)},
    [WOSTHILE_NODE_SECOND] = {.name = "second", .takes = SHAPE(SEQUENCE, ANY, ANY)},
    [WOSTHILE_NODE_THEN]   = {.name = "then", .parts = 2, .input = {INPUT_FIRST, INPUT_SECOND},
                              .takes = SHAPE(SEQUENCE, ANY, ANY)},
    [WOSTHILE_NODE_CHAIN]  = {.name = "chain", .parts = 2, .input = {INPUT_WHOLE, INPUT_FROM_EARLIER},
                              .takes = SHAPE(ANY)},
    [WOSTHILE_NODE_REGROUP_RIGHT] = {.name = "regroup right", .takes = SHAPE(SEQUENCE, SEQUENCE, ANY, ANY, ANY)},
    [WOSTHILE_NODE_REGROUP_LEFT]  = {.name = "regroup left", .takes = SHAPE(SEQUENCE, ANY, SEQUENCE, ANY, ANY)},
    [WOSTHILE_NODE_SPREAD]        = {.name = "spread", .takes = SHAPE(SEQUENCE, ANY, BESIDE, ANY, ANY)},
    [WOSTHILE_NODE_FRONT]         = {.name = "front", .takes = SHAPE(ANY)},
    [WOSTHILE_NODE_CHOOSE] = {.name = "choose", .parts = 2, .input = {INPUT_FIRST, INPUT_SECOND},
                              .takes = SHAPE(EITHER, ANY, ANY)},
    [WOSTHILE_NODE_MARK_FIRST]  = {.name = "mark first", .carries_type = true, .takes = SHAPE(ANY)},
    [WOSTHILE_NODE_MARK_SECOND] = {.name = "mark second", .carries_type = true, .takes = SHAPE(ANY)},
};
/* clang-format on */

const struct type_kind *type_kind(uint8_t kind)
{
    static const struct type_kind unlisted = {.name = UNLISTED_KIND};
    return kind < ROWS(type_kinds) ? &type_kinds[kind] : &unlisted;
}

const struct slice_kind *slice_kind(uint8_t kind)
{
    static const struct slice_kind unlisted = {.name = UNLISTED_KIND};
    return kind < ROWS(slice_kinds) ? &slice_kinds[kind] : &unlisted;
}

const struct node_kind *node_kind(uint8_t kind)
{
    static const struct node_kind unlisted = {.name = UNLISTED_KIND};
    return kind < ROWS(node_kinds) ? &node_kinds[kind] : &unlisted;
}

static size_t within(struct file section, size_t place) { return place < section.length ? place : section.length; }

size_t type_end(struct file section, size_t place)
{
    for (size_t due = 1; due > 0 && place < section.length; due--) {
        due += type_kind(section.bytes[place++])->parts;
    }
    return within(section, place);
}

size_t type_part(struct file section, size_t place, unsigned part)
{
    place++;
    for (; part > 0; part--) {
        place = type_end(section, place);
    }
    return within(section, place);
}

size_t type_arrivals_max(struct file section, size_t place)
{
    size_t first = 0, second = 0;
    if (type_kind(section.bytes[place])->parts == 2) {
        first = type_arrivals_max(section, type_part(section, place, 0));
        second = type_arrivals_max(section, type_part(section, place, 1));
    }
    switch (section.bytes[place]) {
    case WOSTHILE_TYPE_CUE:
    case WOSTHILE_TYPE_LEVEL:
        return 1;
    case WOSTHILE_TYPE_EITHER:
        return first > second ? first : second;
    default:
        return first + second;
    }
}

unsigned value_at(struct file section, size_t place, unsigned value_bytes)
{
    unsigned value = 0;
    for (size_t byte = place; byte < place + value_bytes; byte++) {
        value = value * 256 + section.bytes[byte];
    }
    return value;
}

size_t count_of(struct file file) { return value_at(file, 0, 2); }

struct file section_of(struct file file)
{
    if (file.length < 2) {
        return (struct file){file.bytes, 0};
    }
    size_t count = count_of(file), follow = file.length - 2;
    return (struct file){file.bytes + 2, count < follow ? count : follow};
}

/* Writes the part of a type at a place, and the names of its leaves as a shape's if there are letters for them. */
static size_t add_type(struct text *text, struct file section, size_t place, const char **letters)
{
    if (place >= section.length || text->full) {
        return section.length;
    }
    const struct type_kind *kind = type_kind(section.bytes[place]);
    if (kind->parts == 0 && letters != NULL) {
        text_add(text, "%c", *(*letters)++);
    } else if (kind->parts == 0) {
        text_add(text, "%s", kind->name);
    }
    size_t next = place + 1;
    for (unsigned part = 0; part < kind->parts; part++) {
        bool fork = next < section.length && type_kind(section.bytes[next])->parts > 0;
        text_add(text, part == 0 ? "%s%s" : " %s %s", part == 0 ? "" : kind->between, fork ? "(" : "");
        next = add_type(text, section, next, letters);
        text_add(text, "%s", fork ? ")" : "");
    }
    return next;
}

/* Takes back what follows the last space, so that no word is cut. */
static void end_at_word(struct text *text)
{
    while (text->length > 0 && text->to[text->length - 1] != ' ') {
        text->length--;
    }
}

void type_text(char to[TYPE_TEXT_BYTES], struct file section)
{
    struct text text = text_begin(to, TYPE_TEXT_BYTES / 2);
    add_type(&text, section, 0, NULL);
    if (text.full) {
        end_at_word(&text);
        text.room = TYPE_TEXT_BYTES;
        text_add(&text, ".. (%zu nodes)", section.length);
    }
}

void shape_text(char to[TYPE_TEXT_BYTES], struct file shape)
{
    const char *letters = "strqpo";
    struct text text = text_begin(to, TYPE_TEXT_BYTES);
    add_type(&text, shape, 0, &letters);
}
