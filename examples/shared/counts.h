/*
 * Arrivals over many feeds: the cues and levels that have come, and those that were sent, as the library counts them in
 * every feed. Here its counts are added; joining two slices adds theirs, so the sums do not depend on the cut.
 */
#ifndef COUNTS_H
#define COUNTS_H

#include <stdbool.h>
#include <stddef.h>
#include <wosthile.h>

struct counts {
    size_t arrived, sent;
};

/* Adds what a feed has counted; a refused one has counted nothing. */
void counts_add(struct counts *counts, const wosthile_fed *fed);

bool counts_same(const struct counts *one, const struct counts *other);

/* Prints both counts, as `12 arrived, 16 sent`, with what is to stand before and behind them. */
void counts_print(const char *before, const struct counts *counts, const char *behind);

#endif
