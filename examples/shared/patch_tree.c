#include "patch_tree.h"

#include "totals.h"

#include <string.h>

/* Appends a section to a file in memory that has room for it; the answer is where it ends. */
static size_t put_section(uint8_t *file, size_t end, struct file contents)
{
    file[end] = (uint8_t)(contents.length / 256);
    file[end + 1] = (uint8_t)(contents.length % 256);
    memcpy(file + end + 2, contents.bytes, contents.length);
    return end + 2 + contents.length;
}

/* The part of a section from one place to another. */
static struct file cut_out(struct file section, size_t from, size_t to)
{
    return (struct file){section.bytes + from, to - from};
}

static struct type type_of(struct file section)
{
    struct type type;
    type.length = put_section(type.bytes, 0, section);
    return type;
}

/* What the library says of nodes on an input type, and the type that they give; whatever the totals are. */
static uint32_t check_nodes(struct file input, struct file nodes, struct type *output)
{
    uint8_t patch[WOSTHILE_PATCH_FILE_MAX];
    memcpy(patch, input.bytes, input.length);
    size_t length = put_section(patch, input.length, nodes);
    memcpy(patch + length, totals_of_zero, sizeof totals_of_zero);
    wosthile_written checked =
        wosthile_check(patch, length + sizeof totals_of_zero, output->bytes, sizeof output->bytes);
    output->length = checked.written;
    return checked.number;
}

/*
 * The nodes of a patch, if its bytes can be read whole: that is so if nothing is missing or left over, and a byte more
 * in the section of its nodes would be. That byte is the first of the totals, which are then read no more. Of length 0
 * otherwise.
 */
static struct file whole_nodes(struct file patch, uint32_t number)
{
    static const struct file none = {NULL, 0};
    struct file input = {patch.bytes, 2 + section_of(patch).length};
    if (number == WOSTHILE_FAULT_CUT_SHORT || number == WOSTHILE_FAULT_LEFT_OVER || patch.length < input.length + 2 ||
        patch.length > WOSTHILE_PATCH_FILE_MAX) {
        return none;
    }
    struct file rest = {patch.bytes + input.length, patch.length - input.length};
    size_t longer_count = count_of(rest) + 1;
    uint8_t longer[WOSTHILE_PATCH_FILE_MAX];
    memcpy(longer, patch.bytes, patch.length);
    longer[input.length] = (uint8_t)(longer_count / 256);
    longer[input.length + 1] = (uint8_t)(longer_count % 256);
    bool left_over = wosthile_check(longer, patch.length, NULL, 0).number == WOSTHILE_FAULT_LEFT_OVER;
    return left_over ? section_of(rest) : none;
}

/* Notes the node at a place of the nodes and, behind it, its parts; the answer is its index. */
static size_t read_node(struct patch_tree *tree, struct file nodes, size_t place, unsigned depth)
{
    size_t index = tree->count++;
    struct patch_node *node = &tree->nodes[index];
    const struct node_kind *kind = node_kind(nodes.bytes[place]);
    size_t next = place + 1 + kind->value_bytes;
    node->kind = nodes.bytes[place];
    node->depth = depth;
    node->byte = place;
    node->value = value_at(nodes, place + 1, kind->value_bytes);
    if (kind->carries_type) {
        node->carried = type_of(cut_out(nodes, next, type_end(nodes, next)));
        next = type_end(nodes, next);
    }
    node->own_end = next;
    for (unsigned part = 0; part < kind->parts; part++) {
        node->part[part] = read_node(tree, nodes, next, depth + 1);
        next = tree->nodes[node->part[part]].end;
    }
    node->end = next;
    return index;
}

/* Does the node take its input, whatever its parts do? It is tried with parts that take every input and send nothing.
 */
static bool takes_input(const struct patch_node *node, struct file nodes)
{
    static const uint8_t silent[2] = {WOSTHILE_NODE_SILENT, WOSTHILE_TYPE_EMPTY};
    uint8_t alone[1 + WOSTHILE_TYPE_FILE_MAX + PARTS_MAX * sizeof silent];
    size_t length = node->own_end - node->byte;
    memcpy(alone, nodes.bytes + node->byte, length);
    for (unsigned part = 0; part < node_kind(node->kind)->parts; part++) {
        memcpy(alone + length, silent, sizeof silent);
        length += sizeof silent;
    }
    struct type given;
    return check_nodes(type_file(&node->input), (struct file){alone, length}, &given) == WOSTHILE_ACCEPTED;
}

/* The input of a part of a node that takes its own; of length 0 if the part before it is refused. */
static struct type part_input(const struct patch_tree *tree, const struct patch_node *node, unsigned part)
{
    struct file type = section_of(type_file(&node->input));
    enum part_input which = node_kind(node->kind)->input[part];
    if (which == INPUT_WHOLE) {
        return node->input;
    }
    if (which == INPUT_FROM_EARLIER) {
        return tree->nodes[node->part[part - 1]].output;
    }
    size_t from = type_part(type, 0, which == INPUT_FIRST ? 0 : 1);
    return type_of(cut_out(type, from, type_end(type, from)));
}

/* Is a type owed anything? If not, it is one that silent may carry, and its empty slice is complete. */
static bool owes(const struct type *type)
{
    uint8_t silent[1 + WOSTHILE_TYPE_FILE_MAX] = {WOSTHILE_NODE_SILENT};
    struct file carried = section_of(type_file(type));
    memcpy(silent + 1, carried.bytes, carried.length);
    struct type given;
    return check_nodes(type_file(type), (struct file){silent, 1 + carried.length}, &given) ==
           WOSTHILE_FAULT_NOT_NULLABLE;
}

/* Gives a node its input, and finds what it gives for it. */
static void feed_type(struct patch_node *node, struct file nodes, struct type input)
{
    node->input = input;
    if (input.length > 0) {
        node->number = check_nodes(type_file(&input), cut_out(nodes, node->byte, node->end), &node->output);
        node->takes_input = takes_input(node, nodes);
        node->waits = node_kind(node->kind)->waits && owes(&input);
    }
}

/* Gives the parts of a node their inputs, if it takes its own. */
static void feed_parts(struct patch_tree *tree, struct file nodes, const struct patch_node *node)
{
    for (unsigned part = 0; node->takes_input && part < node_kind(node->kind)->parts; part++) {
        feed_type(&tree->nodes[node->part[part]], nodes, part_input(tree, node, part));
    }
}

/* Finds the types at all nodes: in preorder a node comes before its parts. */
static void find_types(struct patch_tree *tree, struct file nodes, struct type input)
{
    feed_type(&tree->nodes[0], nodes, input);
    for (size_t index = 0; index < tree->count; index++) {
        feed_parts(tree, nodes, &tree->nodes[index]);
    }
}

/* The first part of a node that is refused; the node itself if there is none. */
static size_t refused_part(const struct patch_tree *tree, size_t index)
{
    const struct patch_node *node = &tree->nodes[index];
    for (unsigned part = 0; node->takes_input && part < node_kind(node->kind)->parts; part++) {
        if (tree->nodes[node->part[part]].number != WOSTHILE_ACCEPTED) {
            return node->part[part];
        }
    }
    return index;
}

/* Goes down to the node that is refused while its parts are accepted, or that does not take its input. */
static size_t refused_node(const struct patch_tree *tree)
{
    size_t index = 0;
    for (size_t below = refused_part(tree, 0); below != index; below = refused_part(tree, index)) {
        index = below;
    }
    return index;
}

/* Places in the nodes become bytes of the file. */
static void count_from_file(struct patch_tree *tree, size_t nodes_begin)
{
    for (size_t index = 0; index < tree->count; index++) {
        struct patch_node *node = &tree->nodes[index];
        node->byte += nodes_begin;
        node->own_end += nodes_begin;
        node->end += nodes_begin;
    }
}

bool patch_tree_read(struct patch_tree *tree, struct file patch)
{
    memset(tree, 0, sizeof *tree);
    struct type output;
    tree->number = wosthile_check(patch.bytes, patch.length, output.bytes, sizeof output.bytes).number;
    struct file nodes = whole_nodes(patch, tree->number);
    if (nodes.length == 0) {
        return false;
    }
    read_node(tree, nodes, 0, 0);
    find_types(tree, nodes, type_of(section_of(patch)));
    tree->refused = refused_node(tree);
    count_from_file(tree, (size_t)(nodes.bytes - patch.bytes));
    return true;
}
