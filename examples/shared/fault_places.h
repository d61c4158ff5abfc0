/*
 * Where a file that the library refuses is wrong. The library tells the number of the first fault and not its place, so
 * the place is found by asking it about shorter files and about parts of trees: it cannot disagree with the library.
 */
#ifndef FAULT_PLACES_H
#define FAULT_PLACES_H

#include "patch_tree.h"

/* What is at the place of a fault. */
enum fault_at {
    AT_CUT_COUNT,   /* the end of the file, where a count of two bytes is due */
    AT_LARGE_COUNT, /* a count that promises more bytes than follow it */
    AT_SECTION_END, /* the end of a section whose tree, or whose totals, need another byte */
    AT_BYTE,        /* the last byte of the shortest cut of its section that gives the number */
    AT_BEHIND,      /* the end of the last section, which bytes follow */
    AT_NODE         /* a node that was read whole and is refused for its types */
};

/* The sections of a patch; a type and a slice have the first alone. */
enum section { FIRST_SECTION, NODES_SECTION, TOTALS_SECTION, SECTIONS };

/* The byte is counted from 0 at the front of the file, so a file's first count is at 0 and 1. */
struct fault {
    uint32_t number; /* 0 if the file is accepted; then the rest says nothing */
    enum fault_at at;
    size_t byte;
    size_t begins; /* the byte at which the section of the fault begins with its count */
    enum section section;
};

/* What the library says of a type file: 0, or its number. */
uint32_t type_number(struct file type);

/* Does a number say that bytes are missing? */
bool is_cut_short(uint32_t number);

/* Does a number say that a byte is no kind, or not one that belongs there? */
bool is_refused_kind(uint32_t number);

struct fault type_fault(struct file type);
struct fault slice_fault(struct file type, struct file slice);

/* The tree is that of the patch if it can be read whole; it says more of a fault at a node. */
struct fault patch_fault(struct file patch, struct patch_tree *tree);

/*
 * Where the front of a section ends that the library reads without a fault, whatever the section's count promises: so
 * far a refused file can be listed. The byte is one of the file.
 */
size_t type_front(struct file type);
size_t slice_front(struct file type, struct file slice);

/* Of the nodes of a patch whose type is accepted, and of the totals of one whose nodes are whole. */
size_t nodes_front(struct file patch);
size_t totals_front(struct file patch);

/* Bytes, by value. */
struct byte_set {
    bool has[256];
};

/*
 * Which bytes could be in place of the one at a fault's place, or at the end of its section, as far as the library
 * reads up to there: those with which the file, cut behind them, is not refused for that byte. All of them if it is a
 * byte of a value. For faults at AT_BYTE and AT_SECTION_END.
 */
struct byte_set type_due(struct file type, struct fault fault);
struct byte_set slice_due(struct file type, struct file slice, struct fault fault);
struct byte_set patch_due(struct file patch, struct fault fault);

#endif
