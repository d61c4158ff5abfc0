/*
 * The tables of kinds are held to the library: it accepts a tree with exactly the parts, the values, the carried types
 * and the shapes that a row lists, and has no kind that lacks a row. The nodes that wait are those whose row says so.
 * The most arrivals of a type are what the library counts in the longest slices of what is left of it by some choices.
 */
#include "made.h"

/* A type of a kind is whole with as many parts as its row has, and with no other number of them. */
static void try_type_kind(uint8_t kind)
{
    uint8_t bytes[1 + PARTS_MAX + 1] = {kind};
    unsigned parts = type_kind(kind)->parts;
    struct made shorter = section(bytes, parts), whole = section(bytes, 1 + parts), longer = section(bytes, 2 + parts);
    if (!is_listed(type_kind(kind)->name)) {
        expect(type_number(file_of(&whole)) == WOSTHILE_FAULT_UNLISTED, "a listed type has no row", file_of(&whole));
        return;
    }
    expect(type_number(file_of(&shorter)) == WOSTHILE_FAULT_CUT_SHORT, "a type with a part less", file_of(&shorter));
    expect(type_number(file_of(&whole)) == WOSTHILE_ACCEPTED, "a type with its parts", file_of(&whole));
    expect(type_number(file_of(&longer)) == WOSTHILE_FAULT_LEFT_OVER, "a type with a part more", file_of(&longer));
}

/* The slice of a kind of a type whose parts are a cue and a level, all come; the answer is its length. */
static size_t slice_of_kind(uint8_t kind, uint8_t *bytes)
{
    static const uint8_t come[PARTS_MAX][3] = {{WOSTHILE_SLICE_CUE_COME}, {WOSTHILE_SLICE_LEVEL_COME, 1, 1}};
    static const size_t lengths[PARTS_MAX] = {1, 3};
    const struct slice_kind *row = slice_kind(kind);
    size_t length = 1 + row->value_bytes;
    bytes[0] = kind;
    for (unsigned part = 0; part < row->parts; part++) {
        memcpy(bytes + length, come[row->part[part]], lengths[row->part[part]]);
        length += lengths[row->part[part]];
    }
    return length;
}

/* A slice of a kind belongs to the kind of type in its row and to no other, and is whole with what its row lists. */
static void try_slice_kind(uint8_t kind, uint8_t type_of)
{
    static const uint8_t parts[PARTS_MAX] = {WOSTHILE_TYPE_CUE, WOSTHILE_TYPE_LEVEL};
    uint8_t type_bytes[1 + PARTS_MAX] = {type_of}, bytes[16] = {0};
    memcpy(type_bytes + 1, parts, sizeof parts);
    struct made type = section(type_bytes, 1 + type_kind(type_of)->parts);
    size_t length = slice_of_kind(kind, bytes);
    struct made shorter = section(bytes, length - 1), whole = section(bytes, length),
                longer = section(bytes, length + 1);
    struct file of = file_of(&type);
    if (!is_listed(slice_kind(kind)->name)) {
        expect(slice_number(of, file_of(&whole)) == WOSTHILE_FAULT_SLICE_UNLISTED, "a listed slice has no row",
               file_of(&whole));
        return;
    }
    if (slice_kind(kind)->of != type_of) {
        expect(slice_number(of, file_of(&whole)) == WOSTHILE_FAULT_SLICE_MISPLACED, "a slice of another type",
               file_of(&whole));
        return;
    }
    expect(slice_number(of, file_of(&shorter)) == WOSTHILE_FAULT_SLICE_CUT_SHORT, "a slice cut", file_of(&shorter));
    expect(slice_number(of, file_of(&whole)) == WOSTHILE_ACCEPTED, "a slice by its row", file_of(&whole));
    expect(slice_number(of, file_of(&longer)) == WOSTHILE_FAULT_SLICE_LEFT_OVER, "a slice and more", file_of(&longer));
}

/* A node of a kind with silent parts, as its row has it; the answer is its length. */
static size_t node_of_kind(uint8_t kind, uint8_t *bytes)
{
    const struct node_kind *row = node_kind(kind);
    size_t length = 1 + row->value_bytes + row->carries_type;
    memset(bytes, 0, length);
    bytes[0] = kind;
    for (unsigned part = 0; part < row->parts; part++) {
        bytes[length++] = WOSTHILE_NODE_SILENT;
        bytes[length++] = WOSTHILE_TYPE_EMPTY;
    }
    return length;
}

/* What the library says of nodes on an input, given as contents of sections. */
static uint32_t nodes_number(struct file input, const uint8_t *nodes, size_t count)
{
    struct made patch = section(input.bytes, input.length);
    put(&patch, nodes, count);
    put_zero_totals(&patch);
    return patch_number(file_of(&patch));
}

/* The shape of a row with the part at a place replaced by a cue, which is no fork. */
static struct made without_fork(struct file shape, size_t place)
{
    struct made made = {.length = place + 1};
    size_t end = type_end(shape, place);
    memcpy(made.bytes, shape.bytes, place);
    made.bytes[place] = WOSTHILE_TYPE_CUE;
    memcpy(made.bytes + made.length, shape.bytes + end, shape.length - end);
    made.length += shape.length - end;
    return made;
}

/* The node takes the shape of its row; without any one of the shape's forks it does not; any part may be anything. */
static void try_shape(uint8_t kind)
{
    uint8_t nodes[16];
    size_t length = node_of_kind(kind, nodes);
    struct file shape = node_kind(kind)->takes;
    for (size_t place = 0; place < shape.length; place++) {
        bool fork = type_kind(shape.bytes[place])->parts > 0;
        struct made other = without_fork(shape, place);
        uint32_t number = nodes_number(file_of(&other), nodes, length);
        expect(number == (fork ? WOSTHILE_FAULT_WRONG_SHAPE : WOSTHILE_ACCEPTED), "a shape", file_of(&other));
    }
}

/* Does a node on a cue stay as it is when it is fed a slice of this kind? The totals may change. */
static bool stays(const uint8_t *nodes, size_t count, uint8_t slice_kind)
{
    static const uint8_t cue = WOSTHILE_TYPE_CUE;
    enum { BEHIND_TYPE = 3 };
    struct made patch = section(&cue, 1), slice = section(&slice_kind, 1), left = {.length = 0};
    uint8_t output[WOSTHILE_SLICE_FILE_MAX];
    put(&patch, nodes, count);
    put_zero_totals(&patch);
    left.length = wosthile_feed(patch.bytes, patch.length, slice.bytes, slice.length, output, sizeof output, left.bytes,
                                sizeof left.bytes)
                      .patch;
    return left.length == patch.length && memcmp(left.bytes + BEHIND_TYPE, patch.bytes + BEHIND_TYPE, 2 + count) == 0;
}

/* A node that takes every input waits if an empty slice leaves it as it is, and one in which a cue comes does not. */
static void try_waiting(uint8_t kind)
{
    uint8_t nodes[16];
    size_t length = node_of_kind(kind, nodes);
    bool takes_all = node_kind(kind)->takes.length == 1;
    bool waits =
        takes_all && stays(nodes, length, WOSTHILE_SLICE_CUE_AWAITED) && !stays(nodes, length, WOSTHILE_SLICE_CUE_COME);
    expect(node_kind(kind)->waits == waits, "a node that waits, or does not", (struct file){nodes, length});
}

static void try_node_kind(uint8_t kind)
{
    uint8_t nodes[16] = {0};
    if (!is_listed(node_kind(kind)->name)) {
        nodes[0] = kind;
        expect(nodes_number((struct file){nodes + 1, 1}, nodes, 1) == WOSTHILE_FAULT_UNLISTED,
               "a listed node has no row", (struct file){nodes, 1});
        return;
    }
    size_t length = node_of_kind(kind, nodes);
    struct file shape = node_kind(kind)->takes, whole = {nodes, length};
    expect(nodes_number(shape, nodes, length - 1) == WOSTHILE_FAULT_CUT_SHORT, "a node cut", whole);
    expect(nodes_number(shape, nodes, length) == WOSTHILE_ACCEPTED, "a node by its row", whole);
    expect(nodes_number(shape, nodes, length + 1) == WOSTHILE_FAULT_LEFT_OVER, "a node and more", whole);
    try_shape(kind);
    try_waiting(kind);
}

/* A slice of a kind, on a type of each kind. */
static void try_slice_on_types(uint8_t kind)
{
    for (uint8_t type = 0; is_listed(type_kind(type)->name); type++) {
        try_slice_kind(kind, type);
    }
}

/* Draws a type of a number of leaves to the end of a section's contents. */
static void draw_type(struct made *made, unsigned leaves)
{
    if (leaves == 1) {
        made->bytes[made->length++] = (uint8_t)draw(WOSTHILE_TYPE_SEQUENCE);
        return;
    }
    unsigned first = 1 + draw(leaves - 1);
    made->bytes[made->length++] = (uint8_t)(WOSTHILE_TYPE_SEQUENCE + draw(3));
    draw_type(made, first);
    draw_type(made, leaves - first);
}

/* The type with one of the two parts in the place of the either that begins at a place. */
static struct made chosen(const struct made *type, size_t place, unsigned part)
{
    struct file section = file_of(type);
    size_t begin = type_part(section, place, part), end = type_end(section, begin), behind = type_end(section, place);
    struct made made = {.length = place};
    memcpy(made.bytes, type->bytes, place);
    memcpy(made.bytes + place, type->bytes + begin, end - begin);
    made.length += end - begin;
    memcpy(made.bytes + made.length, type->bytes + behind, type->length - behind);
    made.length += type->length - behind;
    return made;
}

/* The most that the library counts in a slice of a type, given as contents, by trying both parts of each either. */
static size_t most_counted(const struct made *type)
{
    size_t place = 0;
    while (place < type->length && type->bytes[place] != WOSTHILE_TYPE_EITHER) {
        place++;
    }
    if (place < type->length) {
        struct made one = chosen(type, place, 0), other = chosen(type, place, 1);
        size_t first = most_counted(&one), second = most_counted(&other);
        return first > second ? first : second;
    }
    struct made file = section(type->bytes, type->length);
    uint8_t slice[WOSTHILE_SLICE_FILE_MAX];
    size_t length = wosthile_longest(file.bytes, file.length, slice, sizeof slice).written;
    return wosthile_admit(file.bytes, file.length, slice, length).arrived;
}

static void try_arrivals_max(void)
{
    for (unsigned time = 0; time < 2000; time++) {
        struct made type = {.length = 0};
        draw_type(&type, 1 + draw(16));
        expect(type_arrivals_max(file_of(&type), 0) == most_counted(&type), "the most arrivals of a type",
               file_of(&type));
    }
}

static void try_tables(void)
{
    for (unsigned kind = 0; kind < 256; kind++) {
        try_type_kind((uint8_t)kind);
        try_slice_on_types((uint8_t)kind);
        try_node_kind((uint8_t)kind);
    }
}

int main(int count, char **words)
{
    program_begin("kinds\n\nTries the tables of kinds.\n", count, words);
    try_tables();
    try_arrivals_max();
    return end_test("the tables of kinds");
}
