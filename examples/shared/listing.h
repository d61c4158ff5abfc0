/*
 * Listings: the bytes of a type, of a slice or of a patch's nodes on standard output, a line for each node of the tree,
 * with its byte, its kind in words, and its lanes; and a patch's totals. What is refused is listed up to the byte of
 * its fault.
 */
#ifndef LISTING_H
#define LISTING_H

#include "faults.h"

/* A file that is listed, alone or as part of a show. */
struct listed {
    struct file file;
    const struct show *show;        /* NULL if it is part of none */
    const struct side_names *names; /* NULL if there are none */
};

/* Lists the type whose section is at the front of the file. */
void list_type(const struct listed *listed, size_t end);

/* Lists a slice of the type in force. */
void list_slice(const struct listed *listed, const struct lanes *in_force, size_t end);

/*
 * Lists the nodes of a patch, whose section begins at a byte of the file. If the tree has been read whole, each has the
 * type that it takes and the type that it gives below it, and a cue or level whether it waits.
 */
void list_nodes(const struct listed *listed, const struct patch_tree *tree, size_t section, size_t end);

/* Lists the totals of a patch, whose section begins at a byte of the file; those of which all four bytes are there. */
void list_totals(const struct listed *listed, size_t section, size_t end);

#endif
