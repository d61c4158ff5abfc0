/*
 * What the tests of nodes that wait know of the kinds of nodes.
 */
#ifndef WAITING_H
#define WAITING_H

#include "small_nodes.h"

/* Behind these kinds nothing waits: what silent sends is complete, the others cross or choose at their first feed. */
static inline bool never_waited_for(unsigned kind)
{
    return kind == WOSTHILE_NODE_SILENT || kind == WOSTHILE_NODE_FRONT || kind == WOSTHILE_NODE_MARK_FIRST ||
           kind == WOSTHILE_NODE_MARK_SECOND;
}

#endif
