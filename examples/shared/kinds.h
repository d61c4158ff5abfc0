/*
 * The kinds of types, slices and nodes: a table of each, with a row for every kind, and what can be said of a tree of
 * bytes by these tables alone, as where it ends. What is wrong with a tree is for the library to say. How many parts a
 * kind has it cannot be asked, since the header has no call for that: tests/c/kinds.c holds the rows to what it
 * accepts.
 *
 * Trees are in preorder. A place is a byte of a tree's section, counted from 0 behind the count of the section.
 */
#ifndef KINDS_H
#define KINDS_H

#include "show.h"

#include <stdbool.h>
#include <wosthile.h>

/* No node and no type has more parts. */
enum { PARTS_MAX = 2 };

/* The name of a kind that no table lists. */
#define UNLISTED_KIND "not listed"

struct type_kind {
    const char *name;
    unsigned parts;
    const char *between; /* the word between two parts on a line */
};

/* A slice of a type's node: how many bytes of a value follow its kind, and of which parts of the type slices follow. */
struct slice_kind {
    const char *name;
    uint8_t of; /* the kind of type that it is a slice of */
    unsigned value_bytes;
    unsigned parts;
    unsigned part[PARTS_MAX]; /* 0 for the first part of the type, 1 for the second */
};

/* What a part of a node is fed. */
enum part_input {
    INPUT_WHOLE,       /* what the node is fed */
    INPUT_FIRST,       /* the first part of that */
    INPUT_SECOND,      /* the second part of that */
    INPUT_FROM_EARLIER /* what the part before it gives */
};

/* A node: its kind, a value or a type behind it, then its parts. */
struct node_kind {
    const char *name;
    unsigned value_bytes;
    bool carries_type;
    bool waits; /* until something comes in its input, be it a crossing or a choice, if anything is owed there */
    unsigned parts;
    enum part_input input[PARTS_MAX];
    struct file takes; /* the shape of its input, a type without its count in which an empty part is any type */
};

/* The row of a kind. One that is not listed has no parts, no value and the name UNLISTED_KIND. */
const struct type_kind *type_kind(uint8_t kind);
const struct slice_kind *slice_kind(uint8_t kind);
const struct node_kind *node_kind(uint8_t kind);

/* Where the type that begins at a place ends, or the length of the bytes if they end before it does. */
size_t type_end(struct file section, size_t place);

/* The place of a part of the type's node at a place; part 0 is the first one. */
size_t type_part(struct file section, size_t place, unsigned part);

/*
 * The most arrivals, which are cues and levels, that a stream can bring of the type's node at a place, from its first
 * slice to its last: of an either those of the part that has more. The type is whole.
 */
size_t type_arrivals_max(struct file section, size_t place);

/* The value of so many bytes from a place on, the high byte first. */
unsigned value_at(struct file section, size_t place, unsigned value_bytes);

/* The contents of the section at the front of a file, as far as the file goes. */
struct file section_of(struct file file);

/* How many bytes the count at the front of a file promises; the file has two bytes or more. */
size_t count_of(struct file file);

/*
 * Writes a type on one line, as `cue then (level beside cue)`, given the section's contents. A longer one than fits in
 * about sixty characters ends in `..` and the number of its nodes.
 */
enum { TYPE_TEXT_BYTES = 128 };
void type_text(char to[TYPE_TEXT_BYTES], struct file section);

/* Writes the shape that a node takes in the same way, with the letters s, t and r for parts of any type. */
void shape_text(char to[TYPE_TEXT_BYTES], struct file shape);

#endif
