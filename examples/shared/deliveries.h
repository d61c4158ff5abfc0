/*
 * The cut by seed: when the recorded slices of a show are delivered, late by chance, but the same for the same seed.
 */
#ifndef DELIVERIES_H
#define DELIVERIES_H

#include <stddef.h>
#include <stdint.h>

/* The next number of a generator that depends on nothing but its state; the seed is the first state. */
uint64_t next_random(uint64_t *state);

/*
 * The frame in which each of the recorded slices is delivered, counted from 1. With seed 0 every slice is delivered in
 * the frame in which it was recorded. With another seed it is delivered in that frame or one or two later, and never
 * before an earlier slice; so at most three are delivered in the same frame.
 */
void show_deliveries(uint64_t seed, size_t count, size_t *deliveries);

#endif
