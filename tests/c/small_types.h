/*
 * Every type of a few nodes, and every slice of a type, found byte by byte: what the library calls cut short is made
 * longer, and what it accepts counts. So no rule of a type or of a slice is written down here but one, that the
 * arrivals of a slice are its kinds 2 and 4: every answer of Admit on the way is held to it.
 */
#ifndef SMALL_TYPES_H
#define SMALL_TYPES_H

#include "bytes.h"

enum { NODES_MAX = 7, CONTENTS_MAX = 3 * NODES_MAX };

/* A file of one section that grows at its end. */
struct growing {
    uint8_t bytes[2 + CONTENTS_MAX + 3];
    size_t count;
};

static inline struct bytes growing_file(const struct growing *growing)
{
    return (struct bytes){growing->bytes, growing->count};
}

/* The file with some more bytes in its section. */
static inline struct growing grown(const struct growing *growing, struct bytes by)
{
    struct growing longer = *growing;
    append(longer.bytes + longer.count, by);
    longer.count += by.count;
    longer.bytes[1] = (uint8_t)(longer.count - 2);
    return longer;
}

/* The slices of a type, and what is done with each that Admit accepts, and with its answer. */
struct slices {
    struct bytes type;
    uint8_t level; /* both bytes of the value with which a level comes */
    void (*visit)(void *context, const struct growing *slice, wosthile_admitted seen);
    void *context;
};

/* Admit says how much came in a slice; of a refused one it says nothing but its number. */
static inline void check_admitted(wosthile_admitted seen, struct bytes slice)
{
    bool accepted = seen.number == WOSTHILE_ACCEPTED;
    if (seen.arrived != (accepted ? arrivals_in(slice) : 0) || (!accepted && seen.complete != 0)) {
        count(false, "Admit", accepted ? "the arrivals of a slice" : "a refused slice", slice.count);
    }
}

/* Visits every accepted slice that begins with these bytes, in the order of their bytes. */
static inline void visit_slices(const struct slices *slices, const struct growing *slice)
{
    struct bytes type = slices->type;
    wosthile_admitted seen = wosthile_admit(type.at, type.count, slice->bytes, slice->count);
    check_admitted(seen, growing_file(slice));
    if (seen.number == WOSTHILE_ACCEPTED) {
        slices->visit(slices->context, slice, seen);
    }
    if (seen.number != WOSTHILE_FAULT_SLICE_CUT_SHORT || slice->count >= 2 + CONTENTS_MAX) {
        return;
    }
    for (unsigned kind = 0; kind < 256; kind++) {
        const uint8_t root[] = {(uint8_t)kind, slices->level, slices->level};
        struct growing longer = grown(slice, (struct bytes){root, kind == WOSTHILE_SLICE_LEVEL_COME ? 3 : 1});
        visit_slices(slices, &longer);
    }
}

static inline void every_slice(const struct slices *slices)
{
    static const struct growing none = {{0, 0}, 2};
    visit_slices(slices, &none);
}

/* Visits every type that begins with these bytes; a slice file without bytes is 11 of a type, and of nothing else. */
static inline void visit_types(size_t nodes, const struct growing *type, void (*visit)(struct bytes type))
{
    const struct bytes no_slice = NONE;
    wosthile_admitted seen = wosthile_admit(type->bytes, type->count, no_slice.at, no_slice.count);
    check_admitted(seen, no_slice);
    if (seen.number == WOSTHILE_FAULT_SLICE_CUT_SHORT) {
        visit(growing_file(type));
    }
    if (seen.number != WOSTHILE_FAULT_CUT_SHORT || type->count >= 2 + nodes) {
        return;
    }
    for (unsigned kind = 0; kind < 256; kind++) {
        const uint8_t root[] = {(uint8_t)kind};
        struct growing longer = grown(type, (struct bytes){root, 1});
        visit_types(nodes, &longer, visit);
    }
}

/* Visits every type of at most so many nodes, NODES_MAX or fewer. */
static inline void every_type(size_t nodes, void (*visit)(struct bytes type))
{
    static const struct growing none = {{0, 0}, 2};
    visit_types(nodes, &none, visit);
}

/* The type's bytes in decimal, for a message. */
static inline const char *type_name(struct bytes type)
{
    static char name[8 + 4 * NODES_MAX];
    size_t written = (size_t)sprintf(name, "type");
    for (size_t place = 2; place < type.count; place++) {
        written += (size_t)sprintf(name + written, " %u", type.at[place]);
    }
    return name;
}

#endif
