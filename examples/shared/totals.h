/*
 * The totals, which are the third section of a patch file: how many cues and levels have arrived and were sent in all.
 * The library adds to them with every feed, and they go wherever the patch file goes.
 */
#ifndef TOTALS_H
#define TOTALS_H

#include "counts.h"
#include "show.h"

/* The section of a patch that was never fed: the count of its bytes, and two totals of zero. */
extern const uint8_t totals_of_zero[WOSTHILE_TOTALS_SECTION];

/* The totals of a patch that was accepted. */
struct counts totals_of(struct file patch);

/* Prints the totals of a patch that was accepted on a line of their own. */
void totals_print(struct file patch);

/*
 * Is a patch refused since its totals are missing, and for nothing else? So is every patch of before release 1.5.0:
 * with totals of zero behind it, it is accepted.
 */
bool lacks_totals_alone(struct file patch);

#endif
