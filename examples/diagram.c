/* Draws a patch as a picture: lanes come in from the left, run through the nodes, and are sent on at the right. */
#include "opening.h"
#include "parts.h"
#include "patch_tree.h"
#include "svg.h"

#include <stdio.h>
#include <string.h>

static const char help[] =
    "diagram SHOW | --patch PATCH\n"
    "\n"
    "Draws the patch of a show file, or a patch, as an SVG picture on standard output. PATCH is a file, or its bytes "
    "in\n"
    "decimal as one word: diagram --patch \"0 1 1 0 1 0 0 8 0 0 0 0 0 0 0 0\".\n"
    "\n"
    "A node is a box; one with two parts is a frame around them, and a chain is a row. Every cue and level of the "
    "input\n"
    "is a line that runs from its name at the left, through the nodes, to its name at the right; where a stream has\n"
    "more than 40 lanes, streams are ribbons. In the frame of choose each part stands below the choice that feeds it,\n"
    "and what they send goes the same way on. A pointer that rests on a box shows the types that it takes and gives.\n"
    "\n"
    "Exit status: 0 drawn; 1 the patch is refused; 2 words or files that cannot be used.\n";

/* All lengths are in pixels. */
enum {
    MARGIN = SVG_MARGIN,
    HEADER_HEIGHT = 104,
    LEGEND_ROW_HEIGHT = 22,
    NAME_HEIGHT = 17,
    NAMES_WIDTH_MAX = 420,
    PAGE_WIDTH_MIN = 720
};
enum {
    BOX_WIDTH_MIN = 64,
    BOX_HEAD = 20,
    FRAME_HEAD = 22,
    CHOICE_HEAD = 14,
    FRAME_FOOT = 10,
    PARTS_GAP = 22,
    FORK_WIDTH_MIN = 40,
    FORK_WIDTH_MAX = 90
};
enum { CHAIN_GAP_MIN = 34, NAMES_GAP = 90, STUB_WIDTH = 12 };

/* In a patch with a wider stream than this a stream is one ribbon, and its lanes are counted, not named. */
enum { LINES_MAX = 40 };

#define STREAM_COLOUR "#5b8db8"

/* The lanes of a stream between two nodes: the kinds of the leaves of its type. */
struct stream {
    unsigned count;
    uint8_t kinds[LANES_MAX];
};

/* A node as it is drawn, with its parts. Streams come in and go out at half its height. */
struct block {
    double width, height;
    struct stream in, out;
};

struct diagram {
    const struct patch_tree *tree;
    struct block blocks[WOSTHILE_PATCH_NODES_MAX];
    bool ribbons;
    bool choices; /* does a node choose, mark a choice, or hand one on? */
    double pitch; /* between two lanes of a stream */
};

/* Where the lanes of a stream begin or end, one below the other. */
struct ports {
    double x, middle, pitch;
    const struct stream *stream;
};

/* Lanes next to one another that run from one stream to another. No node has more than spread, with three. */
enum { RUNS_MAX = 3 };

struct run {
    unsigned from, to, count;
};

static struct stream stream_of(const struct type *type)
{
    struct file section = section_of(type_file(type));
    struct stream stream = {0};
    for (size_t place = 0; place < section.length && stream.count < LANES_MAX; place++) {
        if (type_kind(section.bytes[place])->parts == 0) {
            stream.kinds[stream.count++] = section.bytes[place];
        }
    }
    return stream;
}

/* How many lanes the part of a type has that begins at a place. */
static unsigned lanes_at(struct file section, size_t place)
{
    unsigned lanes = 0;
    for (size_t end = type_end(section, place); place < end; place++) {
        lanes += type_kind(section.bytes[place])->parts == 0;
    }
    return lanes;
}

static double larger(double one, double other) { return one > other ? one : other; }

/* What is written in the box of a node. */
enum { NODE_WORDS_BYTES = 64 };

static void node_words(char words[NODE_WORDS_BYTES], const struct patch_node *node)
{
    bool value = node_kind(node->kind)->value_bytes > 0;
    snprintf(words, NODE_WORDS_BYTES, value ? "%s %u" : "%s", node_kind(node->kind)->name, node->value);
}

/* Does a node choose, between the parts of an either, or mark what is chosen? */
static bool chooses(uint8_t kind) { return node_kind(kind)->takes.bytes[0] == WOSTHILE_TYPE_EITHER; }

static bool marks_choice(uint8_t kind) { return kind == WOSTHILE_NODE_MARK_FIRST || kind == WOSTHILE_NODE_MARK_SECOND; }

/* A type in a few words: what it is if that is short, else how many lanes it has. */
static void stream_words(char words[TYPE_TEXT_BYTES], const struct type *type)
{
    enum { SHORT = 18 };
    type_text(words, section_of(type_file(type)));
    if (strlen(words) > SHORT) {
        snprintf(words, TYPE_TEXT_BYTES, "%u lanes", stream_of(type).count);
    }
}

/* The type that a mark carries, in words below its name; for other nodes there are none. */
enum { CARRIED_WORDS_BYTES = TYPE_TEXT_BYTES + 8 };

static void carried_words(char words[CARRIED_WORDS_BYTES], const struct patch_node *node)
{
    char carried[TYPE_TEXT_BYTES];
    bool second = node->kind == WOSTHILE_NODE_MARK_SECOND;
    words[0] = '\0';
    if (marks_choice(node->kind)) {
        stream_words(carried, &node->carried);
        snprintf(words, CARRIED_WORDS_BYTES, second ? "%s or" : "or %s", carried);
    }
}

/* Are the parts of a node drawn in a row, since the second is fed what the first gives? */
static bool in_a_row(const struct patch_node *node) { return node_kind(node->kind)->input[1] == INPUT_FROM_EARLIER; }

/* The room between two nodes of a chain, for the words on the stream that runs there. */
static double chain_gap(const struct diagram *diagram, const struct patch_node *chain)
{
    char words[TYPE_TEXT_BYTES];
    stream_words(words, &diagram->tree->nodes[chain->part[0]].output);
    return larger(CHAIN_GAP_MIN, svg_text_width(TEXT_SMALL, words) + 10);
}

/* The room at either side of a frame in which streams fork and meet; in a higher frame they have further to go. */
static double fork_width(const struct block *block)
{
    double width = larger(FORK_WIDTH_MIN, block->height * 0.14);
    return width < FORK_WIDTH_MAX ? width : FORK_WIDTH_MAX;
}

static double box_width(const struct patch_node *node)
{
    char words[NODE_WORDS_BYTES], carried[CARRIED_WORDS_BYTES];
    node_words(words, node);
    carried_words(carried, node);
    double width = larger(svg_text_width(TEXT_HEADING, words) * 1.1, svg_text_width(TEXT_SMALL, carried));
    return larger(BOX_WIDTH_MIN, width + 16);
}

/* The choice for which a part of choose is fed. */
static const char *choice_words(unsigned part)
{
    return slice_kind(part == 0 ? WOSTHILE_SLICE_FIRST_CHOSEN : WOSTHILE_SLICE_SECOND_CHOSEN)->name;
}

/* The room above the first part of a frame; in that of choose the choice stands there too. */
static double head_height(const struct patch_node *node)
{
    return FRAME_HEAD + (chooses(node->kind) ? CHOICE_HEAD : 0);
}

/* The room that the words between the parts of a frame need. */
static double words_width(const struct patch_node *node)
{
    return chooses(node->kind) ? svg_text_width(TEXT_CHOICE, choice_words(1)) * 1.1 : 0;
}

/* Finds how large a node is; its parts have been measured. */
static void measure(struct diagram *diagram, size_t index)
{
    const struct patch_node *node = &diagram->tree->nodes[index];
    struct block *block = &diagram->blocks[index];
    const struct block *first = &diagram->blocks[node->part[0]], *second = &diagram->blocks[node->part[1]];
    block->in = stream_of(&node->input);
    block->out = stream_of(&node->output);
    double lanes = block->in.count > block->out.count ? block->in.count : block->out.count;
    if (node_kind(node->kind)->parts == 0) {
        block->width = box_width(node);
        block->height = lanes * diagram->pitch + 2 * BOX_HEAD;
    } else if (in_a_row(node)) {
        block->width = first->width + chain_gap(diagram, node) + second->width;
        block->height = larger(first->height, second->height);
    } else {
        block->height = head_height(node) + first->height + PARTS_GAP + second->height + FRAME_FOOT;
        block->width = larger(larger(first->width, second->width), words_width(node)) + 2 * fork_width(block);
    }
}

/* The most lanes that any stream of the patch has. */
static unsigned widest_stream(const struct patch_tree *tree)
{
    double widest = 0;
    for (size_t index = 0; index < tree->count; index++) {
        const struct patch_node *node = &tree->nodes[index];
        widest = larger(widest, larger(stream_of(&node->input).count, stream_of(&node->output).count));
    }
    return (unsigned)widest;
}

/* Is there a choice in the input of a node, or in its output? */
static bool has_choices(const struct patch_tree *tree)
{
    for (size_t index = 0; index < tree->count; index++) {
        const struct patch_node *node = &tree->nodes[index];
        struct file in = section_of(type_file(&node->input)), out = section_of(type_file(&node->output));
        if (memchr(in.bytes, WOSTHILE_TYPE_EITHER, in.length) != NULL ||
            memchr(out.bytes, WOSTHILE_TYPE_EITHER, out.length) != NULL) {
            return true;
        }
    }
    return false;
}

static void lay_out(struct diagram *diagram, const struct patch_tree *tree)
{
    unsigned widest = widest_stream(tree);
    diagram->tree = tree;
    diagram->ribbons = widest > LINES_MAX;
    diagram->choices = has_choices(tree);
    diagram->pitch = diagram->ribbons ? 1.2 : widest > 16 ? 6 : 8;
    for (size_t index = tree->count; index > 0; index--) { /* parts come behind their node */
        measure(diagram, index - 1);
    }
}

static const char *lane_colour(uint8_t kind)
{
    return kind == WOSTHILE_TYPE_CUE ? CUE_COLOUR : kind == WOSTHILE_TYPE_LEVEL ? "#d18a00" : "#b4bcc6";
}

/* The height of a lane on the page; lane 0 is the first of the stream, and its line runs half a pitch below its top. */
static double lane_top(const struct ports *ports, unsigned lane)
{
    return ports->middle + (lane - ports->stream->count / 2.0) * ports->pitch;
}

static double lane_middle(const struct ports *ports, unsigned lane) { return lane_top(ports, lane) + ports->pitch / 2; }

static struct ribbon_end ribbon_end(const struct ports *ports, unsigned lane, unsigned count)
{
    return (struct ribbon_end){ports->x, lane_top(ports, lane), count * ports->pitch};
}

static void draw_run(const struct diagram *diagram, const struct ports *from, const struct ports *to, struct run run)
{
    if (to->x - from->x < 0.1) { /* a part as wide as its frame has no way to go */
        return;
    }
    if (diagram->ribbons) {
        svg_ribbon(ribbon_end(from, run.from, run.count), ribbon_end(to, run.to, run.count), STREAM_COLOUR, 0.45);
        return;
    }
    for (unsigned lane = 0; lane < run.count; lane++) {
        svg_curve(from->x, lane_middle(from, run.from + lane), to->x, lane_middle(to, run.to + lane),
                  lane_colour(from->stream->kinds[run.from + lane]), 2);
    }
}

/*
 * How the lanes of a node without parts run from its input to its output; what it sends of its own has no run. The
 * counts are those of the library's types: left and first keep the lanes at the front, right and second those at the
 * back.
 */
static size_t runs_of(const struct patch_node *node, const struct block *block, struct run runs[RUNS_MAX])
{
    struct file type = section_of(type_file(&node->input));
    unsigned in = block->in.count, out = block->out.count;
    switch (node->kind) {
    case WOSTHILE_NODE_PASS:
    case WOSTHILE_NODE_REGROUP_RIGHT:
    case WOSTHILE_NODE_REGROUP_LEFT:
    case WOSTHILE_NODE_LEFT:
    case WOSTHILE_NODE_FIRST:
        runs[0] = (struct run){0, 0, out};
        return 1;
    case WOSTHILE_NODE_RIGHT:
    case WOSTHILE_NODE_SECOND:
        runs[0] = (struct run){in - out, 0, out};
        return 1;
    case WOSTHILE_NODE_FRONT:
    case WOSTHILE_NODE_MARK_SECOND:
        runs[0] = (struct run){0, out - in, in};
        return 1;
    case WOSTHILE_NODE_MARK_FIRST:
        runs[0] = (struct run){0, 0, in};
        return 1;
    case WOSTHILE_NODE_SPREAD: {
        unsigned shared = lanes_at(type, type_part(type, 0, 0));
        unsigned left = lanes_at(type, type_part(type, type_part(type, 0, 1), 0));
        runs[0] = (struct run){0, 0, shared + left};
        runs[1] = (struct run){0, shared + left, shared};
        runs[2] = (struct run){shared + left, 2 * shared + left, in - shared - left};
        return 3;
    }
    default:
        return 0;
    }
}

/* A lane that ends in a box. */
static void draw_end(const struct diagram *diagram, const struct ports *in, unsigned lane)
{
    const char *colour = lane_colour(in->stream->kinds[lane]);
    double y = lane_middle(in, lane), end = in->x + STUB_WIDTH;
    if (diagram->ribbons) {
        svg_line(in->x, y, end, y, STREAM_COLOUR, in->pitch);
        return;
    }
    svg_line(in->x, y, end, y, colour, 2);
    svg_dot(end, y, 2.2, "#fff", colour);
}

/* A lane that begins in a box: with the mark of a cue or a level, or, of an empty part, with nothing. */
static void draw_begin(const struct ports *out, unsigned lane)
{
    uint8_t kind = out->stream->kinds[lane];
    double x = out->x - 2 * STUB_WIDTH, y = lane_middle(out, lane);
    svg_line(x, y, out->x, y, lane_colour(kind), 2);
    if (kind == WOSTHILE_TYPE_CUE) {
        svg_diamond(x, y);
    } else if (kind == WOSTHILE_TYPE_LEVEL) {
        svg_line(x, y - 6, x, y + 6, LEVEL_EDGE_COLOUR, 2.5);
    }
}

/* A lane of the part that a mark rules out: nothing ever comes in it. */
static void draw_ruled_out(const struct ports *out, unsigned lane)
{
    double x = out->x - 2 * STUB_WIDTH, y = lane_middle(out, lane);
    svg_dashes(x, y, out->x, lane_colour(out->stream->kinds[lane]));
    svg_dot(x, y, 2.2, "#fff", lane_colour(out->stream->kinds[lane]));
}

/* Which lanes of the input and of the output have a run. */
struct lanes_run {
    bool in[LANES_MAX], out[LANES_MAX];
};

static struct lanes_run lanes_run(const struct run *runs, size_t count)
{
    struct lanes_run lanes = {{false}, {false}};
    for (size_t index = 0; index < count; index++) {
        memset(lanes.in + runs[index].from, true, runs[index].count);
        memset(lanes.out + runs[index].to, true, runs[index].count);
    }
    return lanes;
}

static void draw_ends(const struct diagram *diagram, const struct ports *in, const bool *has_run)
{
    for (unsigned lane = 0; lane < in->stream->count; lane++) {
        if (!has_run[lane]) {
            draw_end(diagram, in, lane);
        }
    }
}

static void draw_begins(const struct ports *out, const bool *has_run, bool ruled_out)
{
    for (unsigned lane = 0; lane < out->stream->count; lane++) {
        if (!has_run[lane] && ruled_out) {
            draw_ruled_out(out, lane);
        } else if (!has_run[lane]) {
            draw_begin(out, lane);
        }
    }
}

static struct ports ports_in(const struct diagram *diagram, size_t node, double x, double y)
{
    const struct block *block = &diagram->blocks[node];
    return (struct ports){x, y + block->height / 2, diagram->pitch, &block->in};
}

static struct ports ports_out(const struct diagram *diagram, size_t node, double x, double y)
{
    const struct block *block = &diagram->blocks[node];
    return (struct ports){x + block->width, y + block->height / 2, diagram->pitch, &block->out};
}

/* Begins the group of a node: its types are shown at a pointer that rests on it. */
static void begin_node(const struct patch_node *node)
{
    char words[NODE_WORDS_BYTES], takes[TYPE_TEXT_BYTES], gives[TYPE_TEXT_BYTES];
    char all[NODE_WORDS_BYTES + 2 * TYPE_TEXT_BYTES + 64];
    node_words(words, node);
    type_text(takes, section_of(type_file(&node->input)));
    type_text(gives, section_of(type_file(&node->output)));
    snprintf(all, sizeof all, "%s, byte %zu: takes %s; gives %s", words, node->byte, takes, gives);
    svg_group_begin("node", all);
}

static void draw_box(const struct diagram *diagram, size_t index, double x, double y)
{
    const struct patch_node *node = &diagram->tree->nodes[index];
    const struct block *block = &diagram->blocks[index];
    struct ports in = ports_in(diagram, index, x, y), out = ports_out(diagram, index, x, y);
    struct run runs[RUNS_MAX];
    size_t count = runs_of(node, block, runs);
    struct lanes_run lanes = lanes_run(runs, count);
    char words[NODE_WORDS_BYTES], carried[CARRIED_WORDS_BYTES];
    node_words(words, node);
    carried_words(carried, node);
    svg_box(x, y, block->width, block->height, "#f7f9fb", marks_choice(node->kind) ? CHOICE_COLOUR : GREY_COLOUR);
    svg_text(x + block->width / 2, y + 14, TEXT_CENTRED, TEXT_HEADING, "%s", words);
    if (carried[0] != '\0') {
        svg_text(x + block->width / 2, y + block->height - 6, TEXT_CENTRED, TEXT_SMALL, "%s", carried);
    }
    for (size_t run = 0; run < count; run++) {
        draw_run(diagram, &in, &out, runs[run]);
    }
    draw_ends(diagram, &in, lanes.in);
    draw_begins(&out, lanes.out, marks_choice(node->kind));
}

static void draw_node(const struct diagram *diagram, size_t index, double x, double y);

/* A chain: two nodes in a row, with the stream between them and its type in words. */
static void draw_row(const struct diagram *diagram, size_t index, double x, double y)
{
    const struct patch_node *node = &diagram->tree->nodes[index];
    const struct block *block = &diagram->blocks[index];
    const struct block *first = &diagram->blocks[node->part[0]], *second = &diagram->blocks[node->part[1]];
    double first_y = y + (block->height - first->height) / 2, second_y = y + (block->height - second->height) / 2;
    double second_x = x + block->width - second->width;
    struct ports from = ports_out(diagram, node->part[0], x, first_y);
    struct ports to = ports_in(diagram, node->part[1], second_x, second_y);
    char words[TYPE_TEXT_BYTES];
    stream_words(words, &diagram->tree->nodes[node->part[0]].output);
    draw_node(diagram, node->part[0], x, first_y);
    draw_run(diagram, &from, &to, (struct run){0, 0, first->out.count});
    svg_text((from.x + to.x) / 2, lane_top(&from, 0) - 4, TEXT_CENTRED, TEXT_SMALL, "%s", words);
    draw_node(diagram, node->part[1], second_x, second_y);
}

static struct ports moved(struct ports ports, double x)
{
    ports.x = x;
    return ports;
}

/* The line between the parts of a sequence, in the gap between their nodes. */
static void draw_crossing(double x, double y, double width)
{
    svg_line(x, y, x + width, y, CROSSING_COLOUR, 1);
    svg_text(x + width / 2, y + 3.5, TEXT_CENTRED, TEXT_FAULT, "crossing");
}

/* Above each part of choose, the choice for which it is fed. */
static void draw_chosen(double x, double y, double width, unsigned part)
{
    svg_line(x, y, x + width, y, CHOICE_COLOUR, 1);
    svg_text(x + width / 2, y + 3.5, TEXT_CENTRED, TEXT_CHOICE, "%s", choice_words(part));
}

/*
 * A node with parts that are fed beside one another: a frame with one part below the other. Streams bend at the edges
 * of the frame and are straight between, so that none meets the other part.
 */
static void draw_stack(const struct diagram *diagram, size_t index, double x, double y)
{
    const struct patch_node *node = &diagram->tree->nodes[index];
    const struct block *block = &diagram->blocks[index];
    const enum part_input *input = node_kind(node->kind)->input;
    struct ports in = ports_in(diagram, index, x, y), out = ports_out(diagram, index, x, y);
    double part_y = y + head_height(node), inner_x = x + fork_width(block),
           inner_end = x + block->width - fork_width(block);
    unsigned sent = 0; /* lanes before those of the part; the parts of choose send to the same lanes */
    bool choice = chooses(node->kind);
    svg_box(x, y, block->width, block->height, node->depth % 2 == 0 ? "#fdfdf6" : "#fff", "#c5ccd4");
    svg_text(x + 8, y + 14, TEXT_STARTS, TEXT_HEADING, "%s", node_kind(node->kind)->name);
    for (unsigned part = 0; part < node_kind(node->kind)->parts; part++) {
        const struct block *below = &diagram->blocks[node->part[part]];
        double part_x = x + (block->width - below->width) / 2;
        struct ports part_in = ports_in(diagram, node->part[part], part_x, part_y), fork = moved(part_in, inner_x);
        struct ports part_out = ports_out(diagram, node->part[part], part_x, part_y), meet = moved(part_out, inner_end);
        unsigned share = input[part] == INPUT_SECOND ? block->in.count - below->in.count : 0;
        if (choice) {
            draw_chosen(inner_x, part_y - PARTS_GAP / 2.0, inner_end - inner_x, part);
        } else if (input[part] == INPUT_SECOND) {
            draw_crossing(inner_x, part_y - PARTS_GAP / 2.0, inner_end - inner_x);
        }
        draw_run(diagram, &in, &fork, (struct run){share, 0, below->in.count});
        draw_run(diagram, &fork, &part_in, (struct run){0, 0, below->in.count});
        draw_node(diagram, node->part[part], part_x, part_y);
        draw_run(diagram, &part_out, &meet, (struct run){0, 0, below->out.count});
        draw_run(diagram, &meet, &out, (struct run){0, sent, below->out.count});
        sent += choice ? 0 : below->out.count;
        part_y += below->height + PARTS_GAP;
    }
}

static void draw_node(const struct diagram *diagram, size_t index, double x, double y)
{
    const struct patch_node *node = &diagram->tree->nodes[index];
    begin_node(node);
    if (node_kind(node->kind)->parts == 0) {
        draw_box(diagram, index, x, y);
    } else if (in_a_row(node)) {
        draw_row(diagram, index, x, y);
    } else {
        draw_stack(diagram, index, x, y);
    }
    svg_group_end();
}

/* The names of the lanes at an edge of the page, or how many they are. */
struct column {
    const char *heading;
    const struct side_names *names;
    struct stream stream;
    struct numbered_parts parts;
    bool listed;
    double names_width, width, height; /* the width has the bands of the parts too */
};

static struct column column_of(const char *heading, const struct side_names *names, const struct lanes *lanes,
                               const struct stream *stream)
{
    struct column column = {.heading = heading, .names = names, .stream = *stream};
    column.listed = stream->count <= LINES_MAX;
    column.names_width = svg_text_width(TEXT_HEADING, heading) * 1.1;
    column.height = NAME_HEIGHT;
    if (column.listed) {
        parts_find(&column.parts, lanes);
        column.height = stream->count * NAME_HEIGHT;
    }
    for (unsigned lane = 1; column.listed && lane <= stream->count; lane++) {
        column.names_width = larger(column.names_width, svg_text_width(TEXT_PLAIN, names->of[lane]));
    }
    column.names_width = column.names_width < NAMES_WIDTH_MAX ? column.names_width : NAMES_WIDTH_MAX;
    column.width = column.names_width + 6 + parts_width(&column.parts);
    return column;
}

/* Draws the names, which begin or end at x, as the anchor says. */
static void draw_names(const struct column *column, double x, double middle, enum text_anchor anchor)
{
    double top = middle - column->height / 2;
    svg_text(x, top - 8, anchor, TEXT_HEADING, "%s", column->heading);
    if (!column->listed) {
        svg_text(x, middle + 4, anchor, TEXT_PLAIN, "%u lanes", column->stream.count);
        return;
    }
    for (unsigned lane = 1; lane <= column->stream.count; lane++) {
        char name[LANE_NAME_BYTES + 2];
        svg_fit(name, sizeof name, TEXT_PLAIN, column->names_width, column->names->of[lane]);
        svg_text(x, top + (lane - 0.3) * NAME_HEIGHT, anchor, TEXT_PLAIN, "%s", name);
    }
}

static struct ports column_ports(const struct diagram *diagram, const struct column *column, double x, double middle)
{
    return (struct ports){x, middle, column->listed ? NAME_HEIGHT : diagram->pitch, &column->stream};
}

/* The patch between its two columns, on a middle line. */
static void draw_page(const struct diagram *diagram, const struct column *in, const struct column *out, double middle)
{
    const struct block *root = &diagram->blocks[0];
    double in_end = MARGIN + in->width, root_x = in_end + NAMES_GAP, root_y = middle - root->height / 2;
    double out_begin = root_x + root->width + NAMES_GAP, top_in = middle - in->height / 2;
    struct ports from = column_ports(diagram, in, in_end, middle), to = column_ports(diagram, out, out_begin, middle);
    struct ports root_in = ports_in(diagram, 0, root_x, root_y), root_out = ports_out(diagram, 0, root_x, root_y);
    draw_names(in, MARGIN + in->names_width, middle, TEXT_ENDS);
    parts_draw(&in->parts, in_end - parts_width(&in->parts), top_in, NAME_HEIGHT);
    draw_run(diagram, &from, &root_in, (struct run){0, 0, root->in.count});
    draw_node(diagram, 0, root_x, root_y);
    draw_run(diagram, &root_out, &to, (struct run){0, 0, root->out.count});
    parts_draw(&out->parts, out_begin + 2, middle - out->height / 2, NAME_HEIGHT);
    draw_names(out, out_begin + 6 + parts_width(&out->parts), middle, TEXT_STARTS);
}

/* The signs of the legend, each drawn from x to the right on a middle line. */
static void sign_cue(double x, double y) { svg_line(x, y, x + 22, y, lane_colour(WOSTHILE_TYPE_CUE), 2); }

static void sign_level(double x, double y) { svg_line(x, y, x + 22, y, lane_colour(WOSTHILE_TYPE_LEVEL), 2); }

static void sign_empty(double x, double y) { svg_line(x, y, x + 22, y, lane_colour(WOSTHILE_TYPE_EMPTY), 2); }

static void sign_end(double x, double y)
{
    sign_cue(x - 2, y);
    svg_dot(x + 20, y, 2.2, "#fff", CUE_COLOUR);
}

static void sign_ribbon(double x, double y) { svg_rectangle(x, y - 5, 22, 10, STREAM_COLOUR, 0.45); }

static void sign_ruled_out(double x, double y)
{
    svg_dashes(x + 2, y, x + 22, CUE_COLOUR);
    svg_dot(x + 2, y, 2.2, "#fff", CUE_COLOUR);
}

static void draw_legend(const struct diagram *diagram, double y)
{
    static const struct svg_sign lines[] = {{sign_cue, 22, "a cue"},
                                            {sign_level, 22, "a level"},
                                            {sign_empty, 22, "an empty part"},
                                            {sign_end, 22, "goes no further"},
                                            {sequence_sign, 14, "parts of a sequence, one after the other"}};
    static const struct svg_sign ribbons[] = {{sign_ribbon, 22, "a stream, as high as it has lanes"},
                                              {sequence_sign, 14, "parts of a sequence, one after the other"}};
    static const struct svg_sign choices[] = {{choice_sign, 14, "parts of a choice, one or the other"},
                                              {sign_ruled_out, 22, "never comes: the other part is marked"}};
    if (diagram->ribbons) {
        svg_legend(MARGIN, y, ribbons, sizeof ribbons / sizeof ribbons[0]);
    } else {
        svg_legend(MARGIN, y, lines, sizeof lines / sizeof lines[0]);
    }
    if (diagram->choices) {
        svg_legend(MARGIN, y + LEGEND_ROW_HEIGHT, choices, sizeof choices / sizeof choices[0]);
    }
}

static void draw(const struct diagram *diagram, const char *path, const struct column *in, const struct column *out)
{
    const struct block *root = &diagram->blocks[0];
    double body = larger(root->height, larger(in->height, out->height) + 2 * NAME_HEIGHT);
    double width = 2 * MARGIN + in->width + out->width + 2 * NAMES_GAP + root->width;
    double header = HEADER_HEIGHT + (diagram->choices ? LEGEND_ROW_HEIGHT : 0);
    svg_begin(larger(width, PAGE_WIDTH_MIN), header + body + MARGIN, path, ": the patch");
    svg_text(MARGIN, 50, TEXT_STARTS, TEXT_PLAIN,
             "%zu node%s. Lanes come in from the left and are sent on at the right.", diagram->tree->count,
             diagram->tree->count == 1 ? "" : "s");
    draw_legend(diagram, 74);
    draw_page(diagram, in, out, header + body / 2);
    svg_end();
}

static void draw_opened(const struct opened_show *opened, const char *path)
{
    static struct patch_tree tree;
    static struct diagram diagram;
    if (!patch_tree_read(&tree, patch_file(&opened->patch)) || tree.number != WOSTHILE_ACCEPTED) {
        stop("%s: the patch is accepted, but cannot be read as a tree", path);
    }
    lay_out(&diagram, &tree);
    struct column in = column_of("What comes in", &opened->names.in, &opened->in, &diagram.blocks[0].in);
    struct column out = column_of("What is sent on", &opened->names.out, &opened->out, &diagram.blocks[0].out);
    draw(&diagram, path, &in, &out);
}

/* Draws what the words ask for; the program stops at a word that cannot be used. */
static enum status draw_words(int count, char **words)
{
    static struct opened_show opened;
    bool patch_alone = count > 1 && strcmp(words[1], "--patch") == 0;
    int due = patch_alone ? 3 : 2;
    if (count < due || (!patch_alone && words[1][0] == '-')) {
        stop_for_words(words[1]);
    }
    if (count > due) {
        stop_for_words(words[due]);
    }
    const char *word = words[due - 1];
    enum status status = patch_alone ? open_patch(word, &opened) : open_show(word, &opened);
    if (status == STATUS_DONE) {
        draw_opened(&opened, word);
    }
    close_show(&opened);
    return status;
}

int main(int count, char **words)
{
    program_begin(help, count, words);
    return program_end(draw_words(count, words));
}
