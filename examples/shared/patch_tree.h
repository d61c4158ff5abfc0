/*
 * A patch as a tree of nodes, each with the type that it takes and the type that it gives. The types are those that
 * wosthile_check writes for the node on its input, so they are the library's own. The totals of a patch are no part of
 * its tree; see totals.h.
 */
#ifndef PATCH_TREE_H
#define PATCH_TREE_H

#include "feeding.h"
#include "kinds.h"

/* A type of length 0 is none. */
struct patch_node {
    uint8_t kind;
    size_t byte;            /* of the patch file, at which the node begins */
    size_t own_end;         /* the byte behind its kind and what it carries, where its first part begins */
    size_t end;             /* the byte behind it and its parts */
    unsigned depth;         /* 0 for the root */
    size_t part[PARTS_MAX]; /* the nodes that are its parts, node_kind(kind)->parts of them */
    unsigned value;         /* of a level node */
    struct type carried;    /* the type behind silent, mark first or mark second */
    struct type input;      /* length 0 where an earlier fault leaves it open */
    struct type output;     /* length 0 where the node is refused */
    uint32_t number;        /* what wosthile_check answers for the node on its input; 0 if its input is open */
    bool takes_input;       /* its input has the shape, and what it carries is allowed; its parts apart */
    bool waits;             /* a cue or level, until something comes in its input; others send at their first feed */
};

struct patch_tree {
    uint32_t number; /* what wosthile_check answers for the patch; 0 if it is accepted */
    size_t count;
    struct patch_node nodes[WOSTHILE_PATCH_NODES_MAX]; /* in preorder; the root first */
    size_t refused; /* the node at which a patch that was read whole is refused; its own number is then that of the
                       patch */
};

/*
 * Reads a patch: true if it is one whose bytes can be read whole. Then either it is accepted, and each node has both
 * types; or one of its nodes is refused, since its input lacks the shape, or for a type that it carries or gives.
 */
bool patch_tree_read(struct patch_tree *tree, struct file patch);

#endif
