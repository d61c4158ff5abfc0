/*
 * Which lanes belong to which part of a sequence or of a choice, and a drawing of it: a band along the lanes of each
 * part, with the part's number, in one colour for sequences and in another for choices. A sequence inside a sequence is
 * no new one here: its parts are counted on, since they too come one after the other.
 */
#ifndef PARTS_H
#define PARTS_H

#include "lanes.h"

struct numbered_part {
    struct lane_range lanes;
    unsigned number; /* in its sequence or choice, from 1 */
    unsigned column; /* how many other parts it is in */
    bool of_choice;
};

/* Each node of a type is a part of one sequence and of one choice at most. */
struct numbered_parts {
    size_t count;
    unsigned columns; /* that are drawn; parts that lie deeper are left out */
    struct numbered_part list[2 * WOSTHILE_TYPE_NODES_MAX];
};

/* The parts of the sequences and choices of a type as it was at the start. */
void parts_find(struct numbered_parts *parts, const struct lanes *lanes);

/* How wide the bands are together. */
double parts_width(const struct numbered_parts *parts);

/* Draws the bands, the innermost one last, from x to the right; the first lane begins at top. */
void parts_draw(const struct numbered_parts *parts, double x, double top, double lane_height);

/* The bands of a sequence and of a choice as signs of a legend, around a middle line. */
void sequence_sign(double x, double y);
void choice_sign(double x, double y);

#endif
