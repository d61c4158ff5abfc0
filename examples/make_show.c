/*
 * Makes a show of a score, a text that says what can come, what is sent on for it, and what comes in which frame. The
 * help below has a score.
 *
 * The score is read once, from its front to its end. When a line of a frame is read, all that comes before it is in
 * force: the line becomes a slice of what is left of the type, and the library says whether it is one. Nothing is
 * written before the whole score is read.
 */
#define _POSIX_C_SOURCE 200809L /* for open_memstream */
#include "faults.h"
#include "feeding.h"
#include "kinds.h"
#include "lanes.h"
#include "program.h"
#include "score_words.h"
#include "text.h"
#include "totals.h"
#include "writing.h"

#include <stdio.h>
#include <stdlib.h>
#include <string.h>

static const char help[] =
    "make_show SCORE [FOLDER]\n"
    "\n"
    "Makes a show of a score, a text file X.score: writes X.show, and the names of its lanes in X.lanes, beside it or\n"
    "to a folder. This is a score:\n"
    "\n"
    "    # A comet, then Saturn and a lamp.\n"
    "    type\n"
    "      cue \"comet\" then (cue \"Saturn\" beside level \"dome lamp\")\n"
    "    patch\n"
    "      then pass (both right left)\n"
    "    out 1 \"comet\"\n"
    "    out 2 \"dome lamp\"\n"
    "    out 3 \"Saturn\"\n"
    "    frames 180\n"
    "      60 cue \"comet\"\n"
    "      119 cross to \"Saturn\"\n"
    "      120 cue \"Saturn\"\n"
    "      120 level \"dome lamp\" 30000\n"
    "\n"
    "type    what can come: cue, level and empty, each with a name if you like; then, beside and or between two "
    "parts,\n"
    "        and parentheses. 'a then b then c' is 'a then (b then c)'; so are beside and or.\n"
    "patch   what is sent on: a node, then its parts, as listed below. Parentheses go around one node with its "
    "parts.\n"
    "out     the name of a lane of the output, which the patch makes.\n"
    "frames  how many, 60 a second; then what comes, frame by frame, a line each. A lane is said by its name or by "
    "its\n"
    "        number, from left to right; 'cross to' says the first lane of a second part, and '90 choose \"comet\"' "
    "the\n"
    "        first lane of a part that 'or' offers. Lines of one frame come one after the other in one slice.\n"
    "        '10 bytes 0 2 5 2' records these bytes in place of a slice, good or not.\n"
    "cut 1   at the end: so many bytes are missing of the last slice, as if the recording was broken off.\n"
    "#       the rest of the line is a comment.\n"
    "\n"
    "The nodes, where A and B are nodes, and s, t and r are types:\n"
    "\n"
    "  pass           the input as it is\n"
    "  cue            a cue, sent with the first thing that comes in its input\n"
    "  level 300      a level with this value, sent as a cue is\n"
    "  silent empty   nothing. Behind it is a type: empty, or several beside each other in parentheses\n"
    "  both A B       each on the whole input; what they give is side by side\n"
    "  left, right    of two side by side, the left one or the right one\n"
    "  first, second  of a sequence, the first part or the second part\n"
    "  then A B       one on each part of a sequence; what they give is a sequence\n"
    "  chain A B      the second on what the first gives\n"
    "  regroup right  of (s then t) then r gives s then (t then r)\n"
    "  regroup left   of s then (t then r) gives (s then t) then r\n"
    "  spread         of s then (t beside r) gives (s then t) beside (s then r)\n"
    "  front          of s gives empty then s\n"
    "  choose A B     of s or t: the first on s or the second on t, as it is chosen; both have to give the same type\n"
    "  mark first t   of s gives s or t, and says with the first slice that the first is chosen\n"
    "  mark second t  of s gives t or s, and says with the first slice that the second is chosen\n"
    "\n"
    "A cue or a level of a patch waits, so empty slices do not open a show. In two ways it is sent with the first\n"
    "slice, whatever comes: in front of the show, as 'chain front (then cue pass)'; and where nothing is owed in what\n"
    "it takes, as 'chain (silent empty) cue'.\n"
    "\n"
    "Status: 0 the show is written; 1 the patch is refused, or a line says what cannot come at that time; 2 the words\n"
    "or a file cannot be used, or a line cannot be read.\n";

enum {
    FRAMES_MAX = 2 * 60 * 60 * 60,        /* two hours */
    NESTING_MAX = 255,                    /* of parts in parts; no accepted tree is deeper */
    TREE_BYTES = WOSTHILE_PATCH_FILE_MAX, /* no accepted tree is longer */
    SLICE_BYTES_MAX = 65535               /* of the bytes of a line, since their length is told in two bytes */
};

/* The words of kinds, from their tables. */
static const char *listed(const char *name) { return strcmp(name, UNLISTED_KIND) == 0 ? NULL : name; }

static const char *node_words(uint8_t kind) { return listed(node_kind(kind)->name); }

static const char *between_words(uint8_t kind) { return type_kind(kind)->between; }

/* Of a type that begins with its own name. */
static const char *type_words(uint8_t kind)
{
    return type_kind(kind)->between == NULL ? listed(type_kind(kind)->name) : NULL;
}

/* The kind of the slice in which nothing comes of a type: the first one that is listed for it. */
static uint8_t awaited_kind(uint8_t type)
{
    uint8_t kind = 0;
    while (slice_kind(kind)->of != type && listed(slice_kind(kind)->name) != NULL) {
        kind++;
    }
    return kind;
}

/* The kind of the slice in which a cue or a level comes: the last one that is listed for it. */
static uint8_t come_kind(uint8_t type)
{
    uint8_t found = awaited_kind(type);
    for (uint8_t kind = found; listed(slice_kind(kind)->name) != NULL; kind++) {
        found = slice_kind(kind)->of == type ? kind : found;
    }
    return found;
}

/* Is there anything that comes at a node of this type, apart from its parts? */
static bool has_event(uint8_t kind) { return awaited_kind(kind) != come_kind(kind); }

/* Of a type that can come in a lane. */
static const char *coming_words(uint8_t kind)
{
    return type_kind(kind)->parts == 0 && has_event(kind) ? type_words(kind) : NULL;
}

/* The bytes of a tree, and the line of the score that each is from. */
struct tree {
    size_t length;
    uint8_t bytes[TREE_BYTES];
    size_t lines[TREE_BYTES];
};

/* A file that is made in memory. */
struct memory_file {
    FILE *stream;
    char *bytes;
    size_t length;
};

struct score {
    struct reader reader;
    struct tree type, nodes;
    struct patch patch;
    struct lanes in, out; /* the first one moves on with the show; of the second only the start is used */
    unsigned lanes;       /* of the type, as far as it is read */
    bool name_may_follow; /* behind the part of a type that was read last */
    struct lane_names names;
    bool gone[LANES_MAX + 1]; /* the lanes of the input that are in a part that was not chosen */
    size_t frames, frame;     /* how many there are, and the one that is being made */
    struct joined coming;     /* what comes in it so far */
    size_t last_length;       /* the bytes of the frame before it, with their length */
    size_t cut;
    struct memory_file show_file, lanes_file;
};

/* Writes a value in so many bytes, the high byte first. */
static void put_value(uint8_t *to, size_t value, unsigned value_bytes)
{
    for (unsigned byte = 0; byte < value_bytes; byte++) {
        to[byte] = (uint8_t)(value >> 8 * (value_bytes - 1 - byte));
    }
}

/* Puts a byte into a tree; what was at the place and behind it moves on. */
static void insert_byte(const struct reader *reader, struct tree *tree, size_t place, uint8_t byte, size_t line)
{
    if (tree->length == TREE_BYTES) {
        stop_at(reader, line, "no type and no patch is so long");
    }
    size_t behind = tree->length - place;
    memmove(tree->bytes + place + 1, tree->bytes + place, behind);
    memmove(tree->lines + place + 1, tree->lines + place, behind * sizeof tree->lines[0]);
    tree->bytes[place] = byte;
    tree->lines[place] = line;
    tree->length++;
}

/* Adds a kind to the end of a tree, or a value. */
static void add_value(const struct reader *reader, struct tree *tree, size_t value, unsigned value_bytes, size_t line)
{
    uint8_t bytes[sizeof value];
    put_value(bytes, value, value_bytes);
    for (unsigned byte = 0; byte < value_bytes; byte++) {
        insert_byte(reader, tree, tree->length, bytes[byte], line);
    }
}

/* Trees are read by functions that call themselves, so there is a bound. */
static void need_depth(const struct reader *reader, unsigned depth)
{
    if (depth > NESTING_MAX) {
        stop_at(reader, reader->next.line, "parts in parts lie deeper than %d", NESTING_MAX);
    }
}

/* Counts a lane of the input, and takes its name if it has one. A type of more lanes is refused by the library. */
static void read_lane(struct score *score)
{
    char name[LANE_NAME_BYTES];
    unsigned lane = ++score->lanes;
    bool named = score->reader.next.kind == TOKEN_NAME;
    score->name_may_follow = !named;
    snprintf(name, sizeof name, "in %u", lane);
    if (named) {
        take_name(&score->reader, name);
        fprintf(score->lanes_file.stream, "in %u %s\n", lane, name);
    }
    if (lane <= LANES_MAX) {
        memcpy(score->names.in.of[lane], name, sizeof name);
    }
}

/* Tells what is due behind a part of a type: a word between two parts, the word that ends the type, or a name. */
static noreturn void stop_behind_part(const struct score *score, const char *end)
{
    char others[64];
    snprintf(others, sizeof others, score->name_may_follow ? ", %s or a name in quotation marks" : " or %s", end);
    stop_for_kind(&score->reader, between_words, others);
}

static void read_type(struct score *score, struct tree *tree, unsigned depth);

/* Reads a part of a type: a leaf, or parts in parentheses. The leaves of the input's type are its lanes. */
static void read_type_part(struct score *score, struct tree *tree, unsigned depth)
{
    size_t line = score->reader.next.line;
    uint8_t kind;
    need_depth(&score->reader, depth);
    if (take_token(&score->reader, TOKEN_OPEN)) {
        read_type(score, tree, depth + 1);
        if (!take_token(&score->reader, TOKEN_CLOSE)) {
            stop_behind_part(score, "\")\"");
        }
        score->name_may_follow = false;
        return;
    }
    if (!take_kind(&score->reader, type_words, &kind)) {
        stop_for_kind(&score->reader, type_words, " or \"(\"");
    }
    score->name_may_follow = false;
    add_value(&score->reader, tree, kind, 1, line);
    for (unsigned part = 0; part < type_kind(kind)->parts; part++) {
        read_type_part(score, tree, depth + 1);
    }
    if (tree == &score->type && type_kind(kind)->parts == 0) {
        read_lane(score);
    }
}

/* Reads parts with a word between them, the same one. A fork is written before its parts, so it is put in later. */
static void read_type(struct score *score, struct tree *tree, unsigned depth)
{
    struct reader *reader = &score->reader;
    size_t begin = tree->length, last = begin;
    uint8_t kind;
    read_type_part(score, tree, depth);
    size_t line = reader->next.line;
    while (take_kind(reader, between_words, &kind)) {
        if (last != begin && kind != tree->bytes[begin]) {
            stop_at(reader, line, "\"%s\" behind \"%s\": parentheses have to say which parts belong together",
                    between_words(kind), between_words(tree->bytes[begin]));
        }
        insert_byte(reader, tree, last, kind, line);
        last = tree->length;
        read_type_part(score, tree, depth);
        line = reader->next.line;
    }
}

/* Reads a node: its words, what it carries, and its parts. */
static void read_node(struct score *score, unsigned depth)
{
    struct reader *reader = &score->reader;
    size_t line = reader->next.line;
    uint8_t kind;
    need_depth(reader, depth);
    if (take_token(reader, TOKEN_OPEN)) {
        read_node(score, depth + 1);
        if (!take_token(reader, TOKEN_CLOSE)) {
            stop_for_due(reader, "\")\"");
        }
        return;
    }
    if (!take_kind(reader, node_words, &kind)) {
        stop_for_kind(reader, node_words, " or \"(\"");
    }
    const struct node_kind *row = node_kind(kind);
    add_value(reader, &score->nodes, kind, 1, line);
    if (row->value_bytes > 0) {
        add_value(reader, &score->nodes, take_value(reader, row->value_bytes), row->value_bytes, line);
    }
    if (row->carries_type) {
        read_type_part(score, &score->nodes, depth + 1);
    }
    for (unsigned part = 0; part < row->parts; part++) {
        read_node(score, depth + 1);
    }
}

/* The line of the score that a byte of the patch file is from. */
static size_t line_of_byte(const struct score *score, size_t byte)
{
    size_t nodes_begin = 2 + score->type.length + 2;
    const struct tree *tree = byte < nodes_begin ? &score->type : &score->nodes;
    size_t begin = byte < nodes_begin ? 2 : nodes_begin;
    size_t place = byte < begin ? 0 : byte - begin;
    return tree->lines[place < tree->length ? place : tree->length - 1];
}

/* A file after its length, as a show has them, or a section, which is the same on a smaller scale. */
static void write_counted(FILE *stream, struct file file)
{
    uint8_t count[2];
    put_value(count, file.length, sizeof count);
    fwrite(count, 1, sizeof count, stream);
    fwrite(file.bytes, 1, file.length, stream);
}

static void begin_file(struct memory_file *file)
{
    file->stream = open_memstream(&file->bytes, &file->length);
    if (file->stream == NULL) {
        stop("there is not enough memory");
    }
}

/* The bytes can be read from here on; the caller frees them. */
static struct file end_file(struct memory_file *file)
{
    bool failed = ferror(file->stream) != 0;
    if (fclose(file->stream) != 0 || failed) {
        stop("there is not enough memory");
    }
    return (struct file){(const uint8_t *)file->bytes, file->length};
}

/* The score is one of a show that the library refuses: ends the program. */
static noreturn void refuse_at(const struct score *score, size_t line, const char *why)
{
    tell("%s, line %zu: %s", score->reader.path, line, why);
    exit(program_end(STATUS_REFUSED));
}

static noreturn void refuse_patch(const struct score *score, struct file patch)
{
    char place[MESSAGE_BYTES], why[2 * MESSAGE_BYTES];
    struct patch_tree tree;
    struct fault fault = patch_fault(patch, &tree);
    patch_fault_text(place, sizeof place, patch, &score->names.in, NULL);
    snprintf(why, sizeof why, "the patch is refused with %u: %s\n    %s", fault.number, wosthile_sentence(fault.number),
             place);
    refuse_at(score, line_of_byte(score, fault.byte), why);
}

/* Puts the patch in force that the type and the nodes are, with totals of zero, and records it. */
static void record_patch(struct score *score)
{
    struct memory_file made;
    struct type output;
    begin_file(&made);
    write_counted(made.stream, (struct file){score->type.bytes, score->type.length});
    write_counted(made.stream, (struct file){score->nodes.bytes, score->nodes.length});
    fwrite(totals_of_zero, 1, sizeof totals_of_zero, made.stream);
    struct file patch = end_file(&made);
    if (patch_start(&score->patch, patch, &output) != WOSTHILE_ACCEPTED) {
        refuse_patch(score, patch);
    }
    if (!lanes_start(&score->in, patch_input_type(&score->patch)) || !lanes_start(&score->out, type_file(&output))) {
        stop("a type of the patch cannot be read");
    }
    write_counted(score->show_file.stream, patch);
    free(made.bytes);
}

/* Reads a line that names a lane of the output. */
static void read_out(struct score *score)
{
    struct reader *reader = &score->reader;
    size_t line = reader->next.line;
    begin_line(reader);
    take_words(reader, "out");
    size_t lane = take_number(reader, "lane", 1, score->out.count);
    char *name = score->names.out.of[lane];
    if (name[0] != '\0') {
        stop_at(reader, line, "lane %zu of the output has a name already, \"%s\"", lane, name);
    }
    take_name(reader, name);
    end_line(reader);
    fprintf(score->lanes_file.stream, "out %zu %s\n", lane, name);
}

/* What comes at a node of the type at the start: the slice's kind there, and a value if it has one. */
struct event {
    size_t node;
    uint8_t kind;
    size_t value;
    size_t line;
};

/* A slice file as it is made, and whether what comes has a place in it. */
struct slice {
    uint8_t bytes[WOSTHILE_SLICE_FILE_MAX];
    size_t length;
    bool placed;
};

/* Is a node of the type in force the given one of the start, and has it not come? What has come is empty. */
static bool is_awaited(const struct lanes *lanes, size_t node, size_t start)
{
    return lanes->origin[node] == start && lanes->type[2 + node] == lanes->start[start].kind;
}

/* Writes the slice of a part of the type in force: nothing comes in it but the event, if there is one. */
static void put_part(struct slice *slice, const struct lanes *lanes, size_t node, const struct event *event)
{
    struct file type = {lanes->type + 2, lanes->nodes};
    bool comes = event != NULL && is_awaited(lanes, node, event->node);
    uint8_t kind = comes ? event->kind : awaited_kind(type.bytes[node]);
    const struct slice_kind *row = slice_kind(kind);
    slice->placed = slice->placed || comes;
    slice->bytes[slice->length++] = kind;
    put_value(slice->bytes + slice->length, comes ? event->value : 0, row->value_bytes);
    slice->length += row->value_bytes;
    for (unsigned part = 0; part < row->parts; part++) {
        put_part(slice, lanes, type_part(type, node, row->part[part]), event);
    }
}

static void make_slice(struct slice *slice, const struct lanes *lanes, const struct event *event)
{
    slice->length = 2;
    slice->placed = false;
    put_part(slice, lanes, 0, event);
    put_value(slice->bytes, slice->length - 2, 2);
}

/* Adds a lane, a crossing by the lane that it leads to, or a choice; the node is one of the type at the start. */
static void add_thing(struct text *text, const struct score *score, size_t node)
{
    const struct start_node *start = score->in.start;
    const struct side_names *names = &score->names.in;
    bool fork = type_kind(start[node].kind)->parts > 0;
    unsigned lane = start[fork ? start[node].second : node].lanes.first, first = start[node].lanes.first;
    if (start[node].kind == WOSTHILE_TYPE_EITHER) {
        text_add(text, "the choice between ");
        lane_range_text(text, (struct lane_range){first, first}, names);
        text_add(text, " and ");
    } else if (fork) {
        text_add(text, "the crossing to ");
    }
    lane_range_text(text, (struct lane_range){lane, lane}, names);
}

static bool is_within(struct lane_range inner, struct lane_range outer)
{
    return inner.first >= outer.first && inner.last <= outer.last;
}

/*
 * The first crossing or choice that has to come before anything at a node of the start: a crossing leads to a part with
 * that node, a choice is between parts of which one has it. The node itself if there is none.
 */
static size_t step_before(const struct lanes *lanes, size_t node)
{
    const struct start_node *start = lanes->start;
    for (size_t place = 0; place < lanes->nodes; place++) {
        size_t origin = lanes->origin[place];
        bool either = start[origin].kind == WOSTHILE_TYPE_EITHER;
        bool step = is_awaited(lanes, place, origin) && (either || start[origin].kind == WOSTHILE_TYPE_SEQUENCE);
        size_t opened = either ? origin : start[origin].second;
        if (step && is_within(start[node].lanes, start[opened].lanes)) {
            return origin;
        }
    }
    return node;
}

/*
 * What is still owed in a range of lanes, as a node of the start: the first lane or, if none is, the first crossing or
 * choice. Before the choice the parts of an either owe nothing themselves.
 */
static size_t owed_within(const struct lanes *lanes, struct lane_range range)
{
    struct file type = {lanes->type + 2, lanes->nodes};
    size_t lane = SIZE_MAX, step = SIZE_MAX, next;
    for (size_t place = 0; place < type.length; place = next) {
        uint8_t kind = type.bytes[place];
        size_t origin = lanes->origin[place], *found = type_kind(kind)->parts == 0 ? &lane : &step;
        next = kind == WOSTHILE_TYPE_EITHER ? type_end(type, place) : place + 1;
        if (*found == SIZE_MAX && has_event(kind) && is_within(lanes->start[origin].lanes, range)) {
            *found = origin;
        }
    }
    return lane != SIZE_MAX ? lane : step;
}

/* Is a node of the start in a part that was not chosen? */
static bool is_gone(const struct score *score, size_t node)
{
    struct lane_range lanes = score->in.start[node].lanes;
    unsigned lane = lanes.first;
    while (lane <= lanes.last && score->gone[lane]) {
        lane++;
    }
    return lane > lanes.last;
}

/* Tells why an event cannot come now. If it has a place, it is a crossing from a part that is not complete. */
static noreturn void refuse_event(const struct score *score, const struct event *event, bool placed)
{
    char why[MESSAGE_BYTES];
    struct text text = text_begin(why, sizeof why);
    const struct lanes *lanes = &score->in;
    size_t before = step_before(lanes, event->node);
    add_thing(&text, score, event->node);
    if (placed) {
        text_add(&text, " has to wait for ");
        add_thing(&text, score, owed_within(lanes, lanes->start[event->node + 1].lanes));
        text_add(&text, ", which has not come");
    } else if (before != event->node) {
        text_add(&text, " is behind ");
        add_thing(&text, score, before);
        text_add(&text, ", which has not come");
    } else {
        text_add(&text, is_gone(score, event->node) ? " is gone: the other part was chosen" : " has come already");
    }
    refuse_at(score, event->line, why);
}

/* Moves on behind a slice, and notes which lanes are gone with it. */
static uint32_t follow(struct score *score, struct file slice)
{
    struct lane_events events;
    uint32_t number = lanes_follow(&score->in, slice, &events);
    for (size_t index = 0; index < events.count; index++) {
        const struct lane_event *event = &events.list[index];
        struct lane_range gone = lanes_gone(event);
        for (unsigned lane = gone.first; is_choice(event) && lane <= gone.last; lane++) {
            score->gone[lane] = true;
        }
    }
    return number;
}

/* Adds a slice, with an event or with nothing, to what comes in the frame that is being made. */
static void add_slice(struct score *score, const struct event *event)
{
    struct slice slice;
    make_slice(&slice, &score->in, event);
    struct file file = {slice.bytes, slice.length};
    bool placed = event == NULL || slice.placed;
    if (!placed || follow(score, file) != WOSTHILE_ACCEPTED) {
        refuse_event(score, event, placed);
    }
    if (joined_add(&score->coming, patch_input_type(&score->patch), file) != WOSTHILE_ACCEPTED) {
        stop("frame %zu: the slices of its lines cannot be joined", score->frame);
    }
}

/* Records a slice file, good or not, as that of the frame; the answer is the number of its feed. */
static uint32_t record_frame(struct score *score, struct file slice)
{
    uint8_t output[WOSTHILE_SLICE_FILE_MAX];
    write_counted(score->show_file.stream, slice);
    score->last_length = 2 + slice.length;
    score->coming = (struct joined){.count = 0};
    score->frame++;
    return patch_feed(&score->patch, slice, output).number;
}

/* Records what has come in the frame. */
static void end_frame(struct score *score)
{
    if (score->coming.count == 0) {
        add_slice(score, NULL);
    }
    struct joined coming = score->coming;
    if (record_frame(score, joined_file(&coming)) != WOSTHILE_ACCEPTED) {
        stop("frame %zu: the slice of its lines is refused", score->frame - 1);
    }
}

static void end_frames_before(struct score *score, size_t frame)
{
    while (score->frame < frame) {
        end_frame(score);
    }
}

/* Finds the lane that has a name, which no other lane has. */
static unsigned lane_of_name(const struct score *score, const char *name, size_t line)
{
    unsigned found = 0;
    for (unsigned lane = 1; lane <= score->in.count; lane++) {
        bool same = strcmp(score->names.in.of[lane], name) == 0;
        if (same && found != 0) {
            stop_at(&score->reader, line, "lanes %u and %u have the name \"%s\": say the number", found, lane, name);
        }
        found = same ? lane : found;
    }
    if (found == 0) {
        stop_at(&score->reader, line, "no lane of the type has the name \"%s\"", name);
    }
    return found;
}

static unsigned take_lane(struct score *score)
{
    char name[LANE_NAME_BYTES];
    size_t line = score->reader.next.line;
    if (is_number(&score->reader.next)) {
        return (unsigned)take_number(&score->reader, "lane", 1, score->in.count);
    }
    if (score->reader.next.kind != TOKEN_NAME) {
        stop_for_due(&score->reader, "the name of a lane in quotation marks or its number");
    }
    take_name(&score->reader, name);
    return lane_of_name(score, name, line);
}

static noreturn void stop_for_lane(const struct score *score, unsigned lane, size_t line, const char *why)
{
    char message[MESSAGE_BYTES];
    struct text text = text_begin(message, sizeof message);
    lane_range_text(&text, (struct lane_range){lane, lane}, &score->names.in);
    stop_at(&score->reader, line, "%s %s", message, why);
}

/* The node of the start that is a lane. */
static size_t lane_node(const struct lanes *lanes, unsigned lane)
{
    size_t node = 0;
    while (type_kind(lanes->start[node].kind)->parts > 0 || lanes->start[node].lanes.first != lane) {
        node++;
    }
    return node;
}

/* Does the part at a node of the start begin with a lane? An either begins as each of its parts does. */
static bool begins_with(const struct start_node *start, size_t node, unsigned lane)
{
    if (type_kind(start[node].kind)->parts == 0) {
        return start[node].lanes.first == lane;
    }
    bool either = start[node].kind == WOSTHILE_TYPE_EITHER;
    return begins_with(start, node + 1, lane) || (either && begins_with(start, start[node].second, lane));
}

/* The sequence of the start whose second part begins with a lane; the number of nodes if there is none. */
static size_t crossing_node(const struct lanes *lanes, unsigned lane)
{
    const struct start_node *start = lanes->start;
    size_t node = 0;
    while (node < lanes->start_nodes &&
           (start[node].kind != WOSTHILE_TYPE_SEQUENCE || !begins_with(start, start[node].second, lane))) {
        node++;
    }
    return node;
}

/*
 * The either of the start with a part that begins with a lane; the number of nodes if there is none. Several that lie
 * in one another may begin with it: the outermost of which no part is chosen yet, else the outermost.
 */
static size_t choice_node(const struct lanes *lanes, unsigned lane)
{
    const struct start_node *start = lanes->start;
    for (size_t place = 0; place < lanes->nodes; place++) {
        if (lanes->type[2 + place] == WOSTHILE_TYPE_EITHER && begins_with(start, lanes->origin[place], lane)) {
            return lanes->origin[place];
        }
    }
    size_t node = 0;
    while (node < lanes->start_nodes && (start[node].kind != WOSTHILE_TYPE_EITHER || !begins_with(start, node, lane))) {
        node++;
    }
    return node;
}

/* Reads `cross to LANE`, behind its first word. */
static void read_crossing(struct score *score, struct event *event)
{
    if (!take_words(&score->reader, "to")) {
        stop_for_due(&score->reader, "\"to\"");
    }
    unsigned lane = take_lane(score);
    event->node = crossing_node(&score->in, lane);
    event->kind = WOSTHILE_SLICE_CROSSED;
    if (event->node == score->in.start_nodes) {
        stop_for_lane(score, lane, event->line, "is not the first lane of a second part, so no crossing leads to it");
    }
}

/* Reads `choose LANE`, behind its first word. */
static void read_choice(struct score *score, struct event *event)
{
    unsigned lane = take_lane(score);
    event->node = choice_node(&score->in, lane);
    if (event->node == score->in.start_nodes) {
        stop_for_lane(score, lane, event->line, "is not the first lane of a part that can be chosen");
    }
    bool first = begins_with(score->in.start, event->node + 1, lane);
    event->kind = first ? WOSTHILE_SLICE_FIRST_CHOSEN : WOSTHILE_SLICE_SECOND_CHOSEN;
}

/* Reads `cue LANE` or `level LANE VALUE`, behind its first word, which is a kind of type. */
static void read_coming(struct score *score, struct event *event, uint8_t type)
{
    char why[MESSAGE_BYTES / 2];
    unsigned lane = take_lane(score);
    event->node = lane_node(&score->in, lane);
    event->kind = come_kind(type);
    uint8_t due = score->in.start[event->node].kind;
    if (due != type) {
        snprintf(why, sizeof why, "is of kind %s, not %s", type_kind(due)->name, type_kind(type)->name);
        stop_for_lane(score, lane, event->line, why);
    }
    if (slice_kind(event->kind)->value_bytes > 0) {
        event->value = take_value(&score->reader, slice_kind(event->kind)->value_bytes);
    }
}

/* Reads the bytes of a line, which are the whole slice file of the frame. The show moves on if it is a good one. */
static void read_bytes(struct score *score, size_t line)
{
    struct memory_file made;
    if (score->coming.count > 0) {
        stop_at(&score->reader, line, "frame %zu has other lines, and bytes are all of a frame", score->frame);
    }
    begin_file(&made);
    do {
        fputc((int)take_number(&score->reader, "byte", 0, UINT8_MAX), made.stream);
    } while (score->reader.next.kind == TOKEN_WORD);
    struct file slice = end_file(&made);
    if (slice.length > SLICE_BYTES_MAX) {
        stop_at(&score->reader, line, "a slice has at most %d bytes", SLICE_BYTES_MAX);
    }
    end_line(&score->reader);
    follow(score, slice);
    record_frame(score, slice);
    free(made.bytes);
}

/* Reads a line of a frame, and adds what it says to the show. */
static void read_frame_line(struct score *score)
{
    struct reader *reader = &score->reader;
    struct event event = {.line = reader->next.line};
    uint8_t type;
    if (score->frame > score->frames) {
        stop_at(reader, event.line, "frame %zu, the last one, has its bytes, which are all of a frame", score->frames);
    }
    begin_line(reader);
    end_frames_before(score, take_number(reader, "frame", score->frame, score->frames));
    if (take_words(reader, "bytes")) {
        read_bytes(score, event.line);
        return;
    }
    if (take_words(reader, "cross")) {
        read_crossing(score, &event);
    } else if (take_words(reader, "choose")) {
        read_choice(score, &event);
    } else if (take_kind(reader, coming_words, &type)) {
        read_coming(score, &event, type);
    } else {
        stop_for_kind(reader, coming_words, ", \"cross\", \"choose\" or \"bytes\"");
    }
    end_line(reader);
    add_slice(score, &event);
}

/* Reads the frames, and records all of them, also those in which nothing comes. */
static void read_frames(struct score *score)
{
    struct reader *reader = &score->reader;
    begin_line(reader);
    if (!take_words(reader, "frames")) {
        stop_for_due(reader, "\"out\" or \"frames\"");
    }
    score->frames = take_number(reader, "number of frames", 1, FRAMES_MAX);
    score->frame = 1;
    end_line(reader);
    while (is_number(&reader->next)) {
        read_frame_line(score);
    }
    end_frames_before(score, score->frames + 1);
}

static void read_cut(struct score *score)
{
    struct reader *reader = &score->reader;
    begin_line(reader);
    take_words(reader, "cut");
    score->cut = take_number(reader, "number of bytes of the last slice", 1, score->last_length - 1);
    end_line(reader);
}

/* Reads the score and makes both files in memory. */
static void read_score(struct score *score)
{
    struct reader *reader = &score->reader;
    if (!take_words(reader, "type")) {
        stop_for_due(reader, "\"type\"");
    }
    read_type(score, &score->type, 0);
    if (!take_words(reader, "patch")) {
        stop_behind_part(score, "\"patch\"");
    }
    read_node(score, 0);
    record_patch(score);
    while (is_word(&reader->next, "out", strlen("out"))) {
        read_out(score);
    }
    read_frames(score);
    if (is_word(&reader->next, "cut", strlen("cut"))) {
        read_cut(score);
    }
    if (reader->next.kind != TOKEN_END) {
        stop_for_due(reader,
                     score->cut == 0 ? "a line of a frame, \"cut\" or the end of the score" : "the end of the score");
    }
}

/* The path of a file beside the score, or in a folder unless that is NULL, with the score's name and another ending. */
static char *path_of(const char *score_path, const char *folder, const char *ending)
{
    const char *slash = strrchr(score_path, '/');
    const char *name = folder == NULL || slash == NULL ? score_path : slash + 1;
    size_t length = strlen(name) - strlen(".score");
    size_t room = (folder == NULL ? 0 : strlen(folder)) + length + strlen(ending) + 2;
    char *path = memory(room, 1);
    snprintf(path, room, "%s%s%.*s%s", folder == NULL ? "" : folder, folder == NULL ? "" : "/", (int)length, name,
             ending);
    return path;
}

/* Writes one of the two files. */
static bool write_beside(const char *score_path, const char *folder, const char *ending, struct file file)
{
    char *path = path_of(score_path, folder, ending);
    bool written = write_file(path, file);
    free(path);
    return written;
}

/* The two files have the score's name with another ending, so there has to be more of it than its ending. */
static bool is_score_path(const char *path)
{
    const char *slash = strrchr(path, '/'), *name = slash == NULL ? path : slash + 1;
    return ends_with(name, ".score") && strcmp(name, ".score") != 0;
}

int main(int count, char **words)
{
    static struct score score;
    program_begin(help, count, words);
    if (count < 2 || count > 3 || words[1][0] == '-') {
        stop_for_words(count > 3 ? words[3] : words[1]); /* NULL if there is none */
    }
    const char *path = words[1], *folder = count == 3 ? words[2] : NULL;
    if (!is_score_path(path)) {
        stop("%s: the name of a score ends in .score, as that of evening.score", path);
    }
    reader_begin(&score.reader, path);
    begin_file(&score.show_file);
    begin_file(&score.lanes_file);
    read_score(&score);
    struct file show = end_file(&score.show_file), lanes = end_file(&score.lanes_file);
    show.length -= score.cut;
    bool written = write_beside(path, folder, ".show", show) && write_beside(path, folder, ".lanes", lanes);
    free(score.show_file.bytes);
    free(score.lanes_file.bytes);
    reader_end(&score.reader);
    return program_end(written ? STATUS_DONE : STATUS_UNUSABLE);
}
