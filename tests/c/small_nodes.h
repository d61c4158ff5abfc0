/*
 * The kinds of nodes, and a few nodes of each to try on small types, with what each does to the arrivals of its input.
 */
#ifndef SMALL_NODES_H
#define SMALL_NODES_H

#include "bytes.h"

enum { NODE_KINDS = 18 };

/* Does the library know no kind of node but those that are counted? */
static inline bool no_other_kind(void)
{
    const struct bytes patch = PATCH_OF((1), (NODE_KINDS));
    return wosthile_check(patch.at, patch.count, NULL, 0).number == WOSTHILE_FAULT_UNLISTED;
}

/*
 * Nodes whose first byte is the kind that is tried; those with parts have some each. Each arrival of the input is sent
 * so many times, at least and at most; and all feeds together send so many beside these, at most, of the nodes' own.
 */
struct small_node {
    struct bytes nodes;
    uint32_t least, most, own;
};

static const struct small_node small_nodes[] = {
    {RAW(0), 1, 1, 0},
    {RAW(1, 0), 0, 0, 0},
    {RAW(1, 4, 0, 0), 0, 0, 0},
    {RAW(2), 0, 0, 1},
    {RAW(3, 1, 44), 0, 0, 1},
    {RAW(3, 2, 4), 0, 0, 1},
    {RAW(4, 0, 0), 2, 2, 0},
    {RAW(4, 5, 6), 1, 1, 0},
    {RAW(4, 2, 0), 1, 1, 1},
    {RAW(5), 0, 1, 0},
    {RAW(6), 0, 1, 0},
    {RAW(7), 0, 1, 0},
    {RAW(8), 0, 1, 0},
    {RAW(9, 0, 0), 1, 1, 0},
    {RAW(9, 2, 0), 0, 1, 1},
    {RAW(9, 1, 0, 1, 0), 0, 0, 0},
    {RAW(10, 0, 0), 1, 1, 0},
    {RAW(10, 5, 2), 0, 0, 1},
    {RAW(10, 14, 8), 1, 1, 0},
    {RAW(10, 4, 0, 0, 5), 1, 1, 0},
    {RAW(11), 1, 1, 0},
    {RAW(12), 1, 1, 0},
    {RAW(13), 1, 2, 0},
    {RAW(14), 1, 1, 0},
    {RAW(15, 0, 0), 1, 1, 0},
    {RAW(15, 2, 2), 0, 0, 1},
    {RAW(15, 1, 0, 1, 0), 0, 0, 0},
    {RAW(16, 2), 1, 1, 0},
    {RAW(17, 2), 1, 1, 0},
};
enum { SMALL_NODES = sizeof small_nodes / sizeof small_nodes[0] };

#endif
