#include "faults.h"

#include "totals.h"

#include <stdio.h>
#include <string.h>

const char first_refusal_first[] =
    "Look at the first refusal first: a slice that is left out can make later ones wrong.";

/* A name that only says the side and the number, as lanes have that nobody named, is not worth saying twice. */
static bool is_named(const struct side_names *names, unsigned lane)
{
    char in[LANE_NAME_BYTES], out[LANE_NAME_BYTES];
    if (names == NULL) {
        return false;
    }
    snprintf(in, sizeof in, "in %u", lane);
    snprintf(out, sizeof out, "out %u", lane);
    return strcmp(names->of[lane], in) != 0 && strcmp(names->of[lane], out) != 0;
}

static void add_lane(struct text *text, unsigned lane, const struct side_names *names)
{
    text_add(text, "%u", lane);
    if (is_named(names, lane)) {
        text_add(text, " \"%s\"", names->of[lane]);
    }
}

void lane_range_text(struct text *text, struct lane_range lanes, const struct side_names *names)
{
    text_add(text, lanes.first == lanes.last ? "lane " : "lanes ");
    add_lane(text, lanes.first, names);
    if (lanes.first != lanes.last) {
        text_add(text, " to ");
        add_lane(text, lanes.last, names);
    }
}

/* A walk down a type and a slice of it together, to the byte that is looked for. */
struct byte_walk {
    struct file type, slice; /* sections */
    size_t next;             /* the next byte of the slice */
    size_t wanted;
    size_t node; /* of the type */
};

/* True if the walk comes to the byte in the part of the type at a node. */
static bool walk_to_byte(struct byte_walk *walk, size_t node)
{
    walk->node = node;
    if (walk->next >= walk->slice.length) {
        return walk->wanted == walk->next;
    }
    const struct slice_kind *kind = slice_kind(walk->slice.bytes[walk->next]);
    walk->next += 1 + kind->value_bytes;
    bool found = walk->wanted < walk->next;
    for (unsigned part = 0; !found && part < kind->parts; part++) {
        found = walk_to_byte(walk, type_part(walk->type, node, kind->part[part]));
    }
    return found;
}

bool slice_byte_node(struct file type, struct file slice, size_t byte, size_t *node)
{
    struct byte_walk walk = {section_of(type), section_of(slice), .wanted = byte - 2};
    bool found = byte >= 2 && walk_to_byte(&walk, 0) && walk.node < walk.type.length;
    *node = walk.node;
    return found;
}

/* How many bytes from one on are in the set, or are not. */
static unsigned run_length(const struct byte_set *set, unsigned from)
{
    unsigned length = 0;
    while (from + length < 256 && set->has[from + length] == set->has[from]) {
        length++;
    }
    return length;
}

/* Adds the bytes of a set: `3 or 4`, `0 to 7`. */
static void add_set(struct text *text, const struct byte_set *set)
{
    const char *before = "";
    unsigned length;
    for (unsigned from = 0; from < 256; from += length) {
        length = run_length(set, from);
        if (set->has[from]) {
            text_add(text, "%s%u", before, from);
            before = " or ";
        }
        if (set->has[from] && length > 1) {
            text_add(text, length == 2 ? " or %u" : " to %u", from + length - 1);
        }
    }
}

/* The kind of type that all the slice kinds of a set are of; false if they are of several, or there are none. */
static bool common_type(const struct byte_set *set, uint8_t *type)
{
    bool any = false, common = true;
    for (unsigned kind = 0; kind < 256; kind++) {
        if (set->has[kind]) {
            common = common && (!any || slice_kind((uint8_t)kind)->of == *type);
            *type = slice_kind((uint8_t)kind)->of;
            any = true;
        }
    }
    return any && common;
}

static unsigned set_count(const struct byte_set *set)
{
    unsigned count = 0;
    for (unsigned byte = 0; byte < 256; byte++) {
        count += set->has[byte];
    }
    return count;
}

/* Adds what is due in a slice: `4 (level come)`, `3 or 4 (level)`, `a byte of a value`. */
static void add_slice_due(struct text *text, const struct byte_set *due)
{
    uint8_t type = 0;
    unsigned count = set_count(due), first = due->has[0] ? 0 : run_length(due, 0);
    if (count == 256) {
        text_add(text, "a byte of a value");
        return;
    }
    add_set(text, due);
    if (count == 1) {
        text_add(text, " (%s)", slice_kind((uint8_t)first)->name);
    } else if (common_type(due, &type)) {
        text_add(text, " (%s)", type_kind(type)->name);
    }
}

/* What a file is, and the show that it lies in; NULL if it lies in none. */
struct within {
    const char *what;
    struct file file;
    const struct show *show;
};

/* Adds the place of a fault, which every text begins with. */
static void add_place(struct text *text, size_t byte, struct within within)
{
    text_add(text, "byte %zu", byte);
    if (within.show != NULL) {
        text_add(text, " of the %s, byte %zu of the show", within.what, show_place(within.show, within.file) + byte);
    }
}

/* Adds what a show says of the length of a file in it, since a wrong length looks like a wrong count. */
static void add_length(struct text *text, struct within within)
{
    if (within.show != NULL) {
        size_t begins = show_place(within.show, within.file);
        text_add(text, "; the length of the %s, at bytes %zu to %zu of the show, says %zu", within.what, begins - 2,
                 begins - 1, within.file.length);
    }
}

/* Adds what a count or a length has wrong; the rest of the file begins with the count of the fault's section. */
static bool add_count_fault(struct text *text, struct fault fault, struct within within, struct file rest)
{
    if (fault.at == AT_CUT_COUNT) {
        const char *due = fault.section == TOTALS_SECTION ? "where its totals are due" : "where a section is due";
        text_add(text, ": the %s ends %s", within.what, rest.length == 0 ? due : "inside a count of two bytes");
    } else if (fault.at == AT_LARGE_COUNT) {
        size_t count = count_of(rest), follow = rest.length - 2;
        text_add(text, ": the count promises %zu %s, and %zu %s", count, plural(count, "byte", "bytes"), follow,
                 plural(follow, "follows", "follow"));
    } else if (fault.at == AT_BEHIND) {
        size_t follow = rest.length - 2 - section_of(rest).length;
        text_add(text, ": the last section ends, and %zu %s it", follow,
                 plural(follow, "byte follows", "bytes follow"));
    } else {
        return false;
    }
    add_length(text, within);
    return true;
}

/* Adds how many bytes of its section are behind a whole tree, or behind the totals. */
static void add_left_over(struct text *text, struct fault fault, struct file rest)
{
    size_t follow = fault.begins + 2 + section_of(rest).length - fault.byte;
    if (fault.section == TOTALS_SECTION) {
        text_add(text, ": the totals are whole, and %zu %s them", follow,
                 plural(follow, "byte of their section follows", "bytes of their section follow"));
    } else {
        text_add(text, ": the tree is whole, and %zu %s it", follow,
                 plural(follow, "byte of its section follows", "bytes of its section follow"));
    }
}

/* Adds what the fault is where its number and its place say all: counts, totals, and bytes behind a whole tree. */
static bool add_plain_fault(struct text *text, struct fault fault, struct within within)
{
    struct file file = within.file;
    struct file rest = {file.bytes + fault.begins, file.length - fault.begins};
    if (add_count_fault(text, fault, within, rest)) {
        return true;
    }
    if (fault.number == WOSTHILE_FAULT_LEFT_OVER || fault.number == WOSTHILE_FAULT_SLICE_LEFT_OVER) {
        add_left_over(text, fault, rest);
        return true;
    }
    if (fault.section == TOTALS_SECTION) {
        text_add(text, ": the section ends, and has %zu of the %d bytes of the totals", section_of(rest).length,
                 WOSTHILE_TOTALS_SECTION - 2);
        return true;
    }
    return false;
}

/* Is a node of the starting type still in the type in force? */
static bool is_in_force(const struct lanes *in_force, size_t start)
{
    for (size_t node = 0; node < in_force->nodes; node++) {
        if (in_force->origin[node] == start) {
            return true;
        }
    }
    return false;
}

/* Is a node of the type in force in a part that was chosen? The either above it is then gone. */
static bool is_chosen(const struct lanes *in_force, size_t node)
{
    const struct start_node *start = in_force->start, *here = &start[in_force->origin[node]];
    for (size_t above = 0; above < in_force->origin[node]; above++) {
        bool is_above = start[above].lanes.last >= here->lanes.last;
        if (is_above && start[above].kind == WOSTHILE_TYPE_EITHER && !is_in_force(in_force, above)) {
            return true;
        }
    }
    return false;
}

/* Adds why a slice's kind is not the one that is due, where there is more to say of it. */
static void add_reason(struct text *text, const struct lanes *in_force, size_t node, uint8_t kind,
                       const struct byte_set *due)
{
    uint8_t type = in_force->type[2 + node], start = in_force->start[in_force->origin[node]].kind;
    uint8_t due_type = 0;
    if (slice_kind(kind)->of == WOSTHILE_TYPE_EITHER && type != WOSTHILE_TYPE_EITHER && is_chosen(in_force, node)) {
        text_add(text, "; its choice has come already");
    } else if (type == WOSTHILE_TYPE_EMPTY && start != WOSTHILE_TYPE_EMPTY) {
        text_add(text, "; its %s has come already", type_kind(start)->name);
    } else if (kind == WOSTHILE_SLICE_NOTHING && (type == WOSTHILE_TYPE_CUE || type == WOSTHILE_TYPE_LEVEL)) {
        text_add(text, "; the slice takes it for come, and it has not come");
    } else if (common_type(due, &due_type) && slice_kind(kind)->of == due_type) {
        text_add(text, "; the first part of a crossing has to be complete");
    }
}

/* Adds what is wrong at a byte of a slice that is no kind, or not the one that is due, or is missing. */
static void add_slice_byte(struct text *text, const struct lanes *in_force, struct file slice, struct fault fault,
                           const struct side_names *names)
{
    struct file type = {in_force->type, 2 + in_force->nodes};
    struct byte_set due = slice_due(type, slice, fault);
    size_t node;
    bool found = slice_byte_node(type, slice, fault.byte, &node);
    if (found) {
        text_add(text, ", ");
        lane_range_text(text, in_force->start[in_force->origin[node]].lanes, names);
    }
    if (fault.at == AT_SECTION_END) {
        text_add(text, ": the section ends where ");
    } else {
        uint8_t kind = slice.bytes[fault.byte];
        text_add(text, ": kind %u (%s) where ", kind, slice_kind(kind)->name);
    }
    add_slice_due(text, &due);
    text_add(text, " is due");
    if (found && fault.at == AT_BYTE) {
        add_reason(text, in_force, node, slice.bytes[fault.byte], &due);
    }
}

void slice_fault_text(char *to, size_t room, const struct lanes *in_force, struct file slice,
                      const struct side_names *names, const struct show *show)
{
    struct text text = text_begin(to, room);
    struct fault fault = slice_fault((struct file){in_force->type, 2 + in_force->nodes}, slice);
    if (fault.number == WOSTHILE_ACCEPTED) {
        return;
    }
    struct within within = {"slice", slice, show};
    add_place(&text, fault.byte, within);
    if (!add_plain_fault(&text, fault, within)) {
        add_slice_byte(&text, in_force, slice, fault, names);
    }
}

/* Adds the lane behind which the byte of a type lies, if there is one. */
static void add_lane_before(struct text *text, struct file section, size_t place, const struct side_names *names)
{
    unsigned lanes = 0;
    for (size_t before = 0; before < place; before++) {
        lanes += type_kind(section.bytes[before])->parts == 0;
    }
    if (lanes > 0 && lanes <= LANES_MAX) {
        text_add(text, ", behind ");
        lane_range_text(text, (struct lane_range){lanes, lanes}, names);
    }
}

/* Adds what is wrong at a byte of a type or of nodes: it is no kind, or it is missing, or makes a tree too large. */
static void add_tree_byte(struct text *text, struct file file, struct fault fault, const struct byte_set *due)
{
    const char *tree = fault.section == FIRST_SECTION ? "type" : "tree of nodes";
    if (fault.number == WOSTHILE_FAULT_TYPE_TOO_LARGE) {
        text_add(text, ": the type has %d nodes up to here and needs another", WOSTHILE_TYPE_NODES_MAX);
    } else if (fault.number == WOSTHILE_FAULT_TOO_MANY_NODES) {
        text_add(text, ": the patch has %d nodes up to here and needs another", WOSTHILE_PATCH_NODES_MAX);
    } else if (fault.at == AT_SECTION_END) {
        text_add(text, ": the section ends, and its %s needs another byte", tree);
    } else {
        text_add(text, ": kind %u is not listed here; ", file.bytes[fault.byte]);
        add_set(text, due);
        text_add(text, " are");
    }
}

/* Adds a fault that was found while reading a type file or a patch file; the type's section comes first in both. */
static void add_reading_fault(struct text *text, struct within within, struct fault fault, const struct byte_set *due,
                              const struct side_names *names)
{
    struct file file = within.file;
    add_place(text, fault.byte, within);
    if (fault.section == FIRST_SECTION && (fault.at == AT_BYTE || fault.at == AT_SECTION_END)) {
        add_lane_before(text, section_of(file), fault.byte - 2, names);
    }
    if (!add_plain_fault(text, fault, within)) {
        add_tree_byte(text, file, fault, due);
    }
}

void type_fault_text(char *to, size_t room, struct file type)
{
    struct text text = text_begin(to, room);
    struct fault fault = type_fault(type);
    if (fault.number == WOSTHILE_ACCEPTED) {
        return;
    }
    struct byte_set due = {{false}};
    if (fault.at == AT_BYTE || fault.at == AT_SECTION_END) {
        due = type_due(type, fault);
    }
    add_reading_fault(&text, (struct within){"type", type, NULL}, fault, &due, NULL);
}

/* Adds a type, or no more than its size where that is what is wrong. */
static void add_given_type(struct text *text, const struct type *type, uint32_t number)
{
    char line[TYPE_TEXT_BYTES];
    struct file section = section_of(type_file(type));
    type_text(line, section);
    if (number == WOSTHILE_FAULT_TYPE_TOO_LARGE) {
        snprintf(line, sizeof line, "a type of %zu %s", section.length, plural(section.length, "node", "nodes"));
    }
    text_add(text, "%s", line);
}

/* Adds the type of a section that begins at a place of it. */
static void add_type_at(struct text *text, struct file section, size_t place)
{
    char line[TYPE_TEXT_BYTES];
    type_text(line, (struct file){section.bytes + place, type_end(section, place) - place});
    text_add(text, "%s", line);
}

/* Adds where two types that are not the same first differ, unless they do from their first nodes on. */
static void add_difference(struct text *text, struct file one, struct file other)
{
    size_t place = 0, shorter = one.length < other.length ? one.length : other.length;
    unsigned lane = 1;
    while (place + 1 < shorter && one.bytes[place] == other.bytes[place]) {
        lane += type_kind(one.bytes[place++])->parts == 0;
    }
    if (place > 0) {
        text_add(text, "; these first differ at their lane %u: ", lane);
        add_type_at(text, one, place);
        text_add(text, " in the first, ");
        add_type_at(text, other, place);
        text_add(text, " in the second");
    }
}

/* Adds what the parts of a node give, which is too large, or not the same. */
static void add_given_by_parts(struct text *text, const struct patch_tree *tree, const struct patch_node *node)
{
    struct file given[PARTS_MAX];
    for (unsigned part = 0; part < node_kind(node->kind)->parts; part++) {
        const struct type *output = &tree->nodes[node->part[part]].output;
        text_add(text, part == 0 ? "its parts give " : " and ");
        add_given_type(text, output, node->number);
        given[part] = section_of(type_file(output));
    }
    if (node->number == WOSTHILE_FAULT_OUTPUTS_DIFFER) {
        add_difference(text, given[0], given[1]);
    }
}

/* Adds what is wrong at a node: it does not take its input, or what it carries, or what its parts give. */
static void add_node_fault(struct text *text, const struct patch_tree *tree, struct within within)
{
    const struct patch_node *node = &tree->nodes[tree->refused];
    const struct node_kind *kind = node_kind(node->kind);
    char line[TYPE_TEXT_BYTES];
    add_place(text, node->byte, within);
    text_add(text, ", node %s: ", kind->name);
    if (node->number == WOSTHILE_FAULT_WRONG_SHAPE) {
        shape_text(line, kind->takes);
        text_add(text, "it takes %s, and its input is ", line);
        add_given_type(text, &node->input, node->number);
    } else if (node->number == WOSTHILE_FAULT_NOT_NULLABLE) {
        text_add(text, "it carries ");
        add_given_type(text, &node->carried, node->number);
    } else if (kind->parts == 0) {
        text_add(text, "its input is ");
        add_given_type(text, &node->input, node->number);
        if (kind->carries_type) {
            text_add(text, ", and it carries ");
            add_given_type(text, &node->carried, node->number);
        }
    } else {
        add_given_by_parts(text, tree, node);
    }
}

void patch_fault_text(char *to, size_t room, struct file patch, const struct side_names *names, const struct show *show)
{
    struct text text = text_begin(to, room);
    struct within within = {"patch", patch, show};
    struct patch_tree tree;
    struct fault fault = patch_fault(patch, &tree);
    if (fault.number == WOSTHILE_ACCEPTED) {
        return;
    }
    if (fault.at == AT_NODE) {
        add_node_fault(&text, &tree, within);
        return;
    }
    struct byte_set due = {{false}};
    if (fault.at == AT_BYTE || fault.at == AT_SECTION_END) {
        due = patch_due(patch, fault);
    }
    add_reading_fault(&text, within, fault, &due, names);
    if (lacks_totals_alone(patch)) {
        text_add(&text,
                 "\n    Nothing else is wrong: it is a patch of before release 1.5.0. The program add_totals gives "
                 "it totals of zero.");
    }
}

/* What a slice brings and what is sent for it, as the library counts it where no total can be too large. */
static wosthile_fed feed_without_totals(struct file patch, struct file slice)
{
    uint8_t start[WOSTHILE_PATCH_FILE_MAX], output[WOSTHILE_SLICE_FILE_MAX], left[WOSTHILE_PATCH_FILE_MAX];
    memcpy(start, patch.bytes, patch.length);
    memcpy(start + patch.length - sizeof totals_of_zero, totals_of_zero, sizeof totals_of_zero);
    return wosthile_feed(start, patch.length, slice.bytes, slice.length, output, sizeof output, left, sizeof left);
}

void totals_fault_text(char *to, size_t room, struct file patch, struct file slice)
{
    struct text text = text_begin(to, room);
    struct counts totals = totals_of(patch);
    wosthile_fed fed = feed_without_totals(patch, slice);
    text_add(&text,
             "the patch has counted %zu arrived and %zu sent in all; with this slice %u more would arrive and %u more "
             "be sent",
             totals.arrived, totals.sent, fed.arrived, fed.sent);
}
