#include "listing.h"

#include <stdio.h>

enum { LINE_BYTES = 256 };

static void print_bytes(const struct listed *listed, size_t byte)
{
    printf("  %6zu", byte);
    if (listed->show != NULL) {
        printf(" %8zu", show_place(listed->show, listed->file) + byte);
    }
}

static void print_heading(const struct listed *listed)
{
    printf("  %6s%s\n", "byte", listed->show != NULL ? "  in show" : "");
}

/* A line without bytes at its front, under the words of a node. */
static void print_below(const struct listed *listed, unsigned depth, const char *what, const char *words)
{
    printf("%*s%s %s\n", (listed->show != NULL ? 17 : 8) + 6 + 2 * (int)depth, "", what, words);
}

/* A line of a tree: the byte, its kind in words as deep as the node is, and its lanes. */
static void print_line(const struct listed *listed, size_t byte, unsigned depth, const char *words, const char *lanes)
{
    enum { WIDTH = 34 };
    int indent = 2 * (int)depth;
    print_bytes(listed, byte);
    if (lanes[0] == '\0') {
        printf("  %*s%s\n", indent, "", words);
    } else {
        printf("  %*s%-*s  %s\n", indent, "", indent < WIDTH ? WIDTH - indent : 0, words, lanes);
    }
}

/* A tree that is being listed, from left to right. */
struct walk {
    const struct listed *listed;
    size_t byte, end;          /* of the file: the next, and where to stop */
    unsigned lane;             /* of a type: the last lane passed */
    const struct lanes *lanes; /* of a slice: the lanes of the type in force */
    const struct patch_tree *tree;
    size_t node; /* of a patch: the next node of the tree */
};

static void list_type_part(struct walk *walk, unsigned depth)
{
    if (walk->byte >= walk->end) {
        return;
    }
    char words[LINE_BYTES], lanes[LINE_BYTES];
    uint8_t byte = walk->listed->file.bytes[walk->byte];
    const struct type_kind *kind = type_kind(byte);
    struct text text = text_begin(words, sizeof words), lane = text_begin(lanes, sizeof lanes);
    text_add(&text, "%u %s", byte, kind->name);
    if (kind->parts == 0) {
        walk->lane++;
        lane_range_text(&lane, (struct lane_range){walk->lane, walk->lane}, walk->listed->names);
    }
    print_line(walk->listed, walk->byte++, depth, words, lanes);
    for (unsigned part = 0; part < kind->parts; part++) {
        list_type_part(walk, depth + 1);
    }
}

void list_type(const struct listed *listed, size_t end)
{
    struct walk walk = {.listed = listed, .byte = 2, .end = end};
    print_heading(listed);
    list_type_part(&walk, 0);
}

/* Adds the value behind a kind, if there is one and all its bytes are there. */
static void add_value(struct text *text, const struct walk *walk, unsigned value_bytes)
{
    if (value_bytes > 0 && walk->byte + value_bytes < walk->end) {
        text_add(text, " %u", value_at(walk->listed->file, walk->byte + 1, value_bytes));
    }
}

/* The slice of the part of the type in force at a node. */
static void list_slice_part(struct walk *walk, size_t node, unsigned depth)
{
    if (walk->byte >= walk->end) {
        return;
    }
    char words[LINE_BYTES], lanes[LINE_BYTES];
    uint8_t byte = walk->listed->file.bytes[walk->byte];
    const struct slice_kind *kind = slice_kind(byte);
    struct text text = text_begin(words, sizeof words), lane = text_begin(lanes, sizeof lanes);
    text_add(&text, "%u %s", byte, kind->name);
    add_value(&text, walk, kind->value_bytes);
    lane_range_text(&lane, walk->lanes->start[walk->lanes->origin[node]].lanes, walk->listed->names);
    print_line(walk->listed, walk->byte, depth, words, lanes);
    walk->byte += 1 + kind->value_bytes;
    struct file type = section_of((struct file){walk->lanes->type, 2 + walk->lanes->nodes});
    for (unsigned part = 0; part < kind->parts; part++) {
        list_slice_part(walk, type_part(type, node, kind->part[part]), depth + 1);
    }
}

void list_slice(const struct listed *listed, const struct lanes *in_force, size_t end)
{
    struct walk walk = {.listed = listed, .byte = 2, .end = end, .lanes = in_force};
    print_heading(listed);
    list_slice_part(&walk, 0, 0);
}

static void print_type(const struct listed *listed, unsigned depth, const char *what, const struct type *type)
{
    char words[TYPE_TEXT_BYTES];
    if (type->length > 0) {
        type_text(words, section_of(type_file(type)));
        print_below(listed, depth, what, words);
    }
}

/* When a cue or level is sent: an author of a show has to know which of them an empty slice does not open. */
static void print_moment(const struct listed *listed, const struct patch_node *node)
{
    if (node_kind(node->kind)->waits && node->output.length > 0) {
        print_below(listed, node->depth, node->waits ? "waits" : "sends",
                    node->waits ? "for the first cue, level, crossing or choice in what it takes"
                                : "at its first feed: in what it takes nothing is owed");
    }
}

/* What is known of a node of a patch that was read whole. */
static void print_known(const struct listed *listed, const struct patch_node *node)
{
    print_type(listed, node->depth, "carries", &node->carried);
    print_type(listed, node->depth, "takes", &node->input);
    print_type(listed, node->depth, "gives", &node->output);
    print_moment(listed, node);
}

static void list_node(struct walk *walk, unsigned depth)
{
    if (walk->byte >= walk->end) {
        return;
    }
    char words[LINE_BYTES];
    uint8_t byte = walk->listed->file.bytes[walk->byte];
    const struct node_kind *kind = node_kind(byte);
    struct text text = text_begin(words, sizeof words);
    text_add(&text, "%u %s", byte, kind->name);
    add_value(&text, walk, kind->value_bytes);
    print_line(walk->listed, walk->byte, depth, words, "");
    walk->byte += 1 + kind->value_bytes;
    if (kind->carries_type) {
        walk->byte = type_end((struct file){walk->listed->file.bytes, walk->end}, walk->byte);
    }
    if (walk->tree->count > 0) {
        print_known(walk->listed, &walk->tree->nodes[walk->node++]);
    }
    for (unsigned part = 0; part < kind->parts; part++) {
        list_node(walk, depth + 1);
    }
}

void list_nodes(const struct listed *listed, const struct patch_tree *tree, size_t section, size_t end)
{
    struct walk walk = {.listed = listed, .byte = section + 2, .end = end, .tree = tree};
    print_heading(listed);
    list_node(&walk, 0);
}

void list_totals(const struct listed *listed, size_t section, size_t end)
{
    enum { TOTAL_BYTES = 4 };
    static const char *const names[] = {"arrived", "sent"};
    print_heading(listed);
    for (size_t total = 0, byte = section + 2; total < 2 && byte + TOTAL_BYTES <= end; total++, byte += TOTAL_BYTES) {
        char words[LINE_BYTES];
        snprintf(words, sizeof words, "%u %s", value_at(listed->file, byte, TOTAL_BYTES), names[total]);
        print_line(listed, byte, 0, words, "");
    }
}
