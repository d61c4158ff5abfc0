#include "lanes.h"

#include "kinds.h"
#include "text.h"

#include <assert.h>
#include <stdio.h>
#include <stdlib.h>
#include <string.h>

static bool is_type_kind(uint8_t kind) { return strcmp(type_kind(kind)->name, UNLISTED_KIND) != 0; }

/* Reads the part that begins at a node, and notes the lanes below it. False if the bytes end before the part does. */
static bool read_part(struct lanes *lanes, struct file type, size_t *node)
{
    size_t here = *node;
    if (here >= WOSTHILE_TYPE_NODES_MAX || 2 + here >= type.length || !is_type_kind(type.bytes[2 + here])) {
        return false;
    }
    struct start_node *start = &lanes->start[here];
    uint8_t kind = type.bytes[2 + here];
    start->kind = lanes->type[2 + here] = kind;
    lanes->origin[here] = (uint8_t)here;
    ++*node;
    if (type_kind(kind)->parts == 0) {
        lanes->count++;
        start->lanes = (struct lane_range){lanes->count, lanes->count};
        return true;
    }
    start->lanes.first = lanes->count + 1;
    if (!read_part(lanes, type, node)) {
        return false;
    }
    start->second = *node;
    bool whole = read_part(lanes, type, node);
    start->lanes.last = lanes->count;
    return whole;
}

static void put_count(struct lanes *lanes, size_t nodes)
{
    lanes->nodes = nodes;
    lanes->type[0] = (uint8_t)(nodes / 256);
    lanes->type[1] = (uint8_t)(nodes % 256);
}

bool lanes_start(struct lanes *lanes, struct file type)
{
    size_t nodes = 0;
    *lanes = (struct lanes){0};
    if (!read_part(lanes, type, &nodes) || type.length != 2 + nodes || type.bytes[0] * 256u + type.bytes[1] != nodes) {
        return false;
    }
    lanes->start_nodes = nodes;
    put_count(lanes, nodes);
    return true;
}

bool lanes_have_kind(const struct lanes *lanes, uint8_t kind)
{
    size_t node = 0;
    while (node < lanes->start_nodes && lanes->start[node].kind != kind) {
        node++;
    }
    return node < lanes->start_nodes;
}

/* A walk down a slice and the type in force together, writing what is left of the type. */
struct walk {
    const struct lanes *before;
    struct file slice;
    size_t node, byte; /* the next ones */
    bool astray;       /* a byte or a node was not there, or not of its place; never so for an admitted slice */
    struct lanes *after;
    size_t left; /* how many nodes are left so far */
    struct lane_events *events;
};

static uint8_t next_byte(struct walk *walk)
{
    if (walk->byte >= walk->slice.length) {
        walk->astray = true;
        return 0;
    }
    return walk->slice.bytes[walk->byte++];
}

/* The node that the walk has come to, as its place in the type in force. */
static size_t next_node(struct walk *walk)
{
    if (walk->node >= walk->before->nodes) {
        walk->astray = true;
        return 0;
    }
    return walk->node++;
}

/* Leaves a node; there are never more left than the walk has passed, since what is dropped is taken back. */
static void leave(struct walk *walk, uint8_t kind, uint8_t origin)
{
    if (walk->left >= WOSTHILE_TYPE_NODES_MAX) {
        walk->astray = true;
        return;
    }
    walk->after->type[2 + walk->left] = kind;
    walk->after->origin[walk->left] = origin;
    walk->left++;
}

static void report(struct walk *walk, struct lane_event event)
{
    if (walk->events->count < WOSTHILE_TYPE_NODES_MAX) {
        walk->events->list[walk->events->count++] = event;
    }
}

/* Reports a crossing or a choice, given its node of the starting type. */
static void report_of_fork(struct walk *walk, enum lane_event_kind kind, uint8_t origin)
{
    const struct start_node *start = walk->before->start;
    struct lane_range first = start[origin + 1].lanes, second = start[start[origin].second].lanes;
    report(walk, (struct lane_event){.kind = kind, .first = first, .second = second});
}

/* Leaves a whole part as it is. */
static void leave_part(struct walk *walk)
{
    for (size_t parts = 1; parts > 0 && !walk->astray; parts--) {
        size_t node = next_node(walk);
        uint8_t kind = walk->before->type[2 + node];
        leave(walk, kind, walk->before->origin[node]);
        parts += type_kind(kind)->parts;
    }
}

/* Passes a whole part, of which nothing is left. */
static void drop_part(struct walk *walk)
{
    size_t left = walk->left;
    leave_part(walk);
    walk->left = left;
}

static void walk_leaf(struct walk *walk, uint8_t kind, uint8_t origin)
{
    unsigned lane = walk->before->start[origin].lanes.first;
    uint8_t come = next_byte(walk);
    if (come == WOSTHILE_SLICE_CUE_COME) {
        report(walk, (struct lane_event){.kind = EVENT_CUE, .lane = lane});
    } else if (come == WOSTHILE_SLICE_LEVEL_COME) {
        unsigned high = next_byte(walk);
        report(walk, (struct lane_event){.kind = EVENT_LEVEL, .lane = lane, .value = high * 256 + next_byte(walk)});
    }
    leave(walk, come == WOSTHILE_SLICE_CUE_COME || come == WOSTHILE_SLICE_LEVEL_COME ? WOSTHILE_TYPE_EMPTY : kind,
          origin);
}

static void walk_part(struct walk *walk);

static void walk_sequence(struct walk *walk, uint8_t origin)
{
    if (next_byte(walk) != WOSTHILE_SLICE_CROSSED) {
        leave(walk, WOSTHILE_TYPE_SEQUENCE, origin);
        walk_part(walk);
        leave_part(walk);
        return;
    }
    size_t left = walk->left;
    walk_part(walk);
    walk->left = left;
    report_of_fork(walk, EVENT_CROSSING, origin);
    walk_part(walk);
}

/* The part that is chosen takes the place of the whole. */
static void walk_either(struct walk *walk, uint8_t origin)
{
    uint8_t chosen = next_byte(walk);
    if (chosen == WOSTHILE_SLICE_FIRST_CHOSEN) {
        report_of_fork(walk, EVENT_FIRST_CHOSEN, origin);
        walk_part(walk);
        drop_part(walk);
    } else if (chosen == WOSTHILE_SLICE_SECOND_CHOSEN) {
        report_of_fork(walk, EVENT_SECOND_CHOSEN, origin);
        drop_part(walk);
        walk_part(walk);
    } else {
        leave(walk, WOSTHILE_TYPE_EITHER, origin);
        leave_part(walk);
        leave_part(walk);
    }
}

static void walk_part(struct walk *walk)
{
    size_t node = next_node(walk);
    if (walk->astray) {
        return;
    }
    uint8_t kind = walk->before->type[2 + node], origin = walk->before->origin[node];
    if (type_kind(kind)->parts == 0) {
        walk_leaf(walk, kind, origin);
    } else if (kind == WOSTHILE_TYPE_SEQUENCE) {
        walk_sequence(walk, origin);
    } else if (kind == WOSTHILE_TYPE_EITHER) {
        walk_either(walk, origin);
    } else {
        next_byte(walk);
        leave(walk, kind, origin);
        walk_part(walk);
        walk_part(walk);
    }
}

uint32_t lanes_follow(struct lanes *lanes, struct file slice, struct lane_events *events)
{
    events->count = 0;
    wosthile_admitted admitted = wosthile_admit(lanes->type, 2 + lanes->nodes, slice.bytes, slice.length);
    if (admitted.number != WOSTHILE_ACCEPTED) {
        return admitted.number;
    }
    struct lanes before = *lanes;
    struct walk walk = {.before = &before, .slice = slice, .byte = 2, .after = lanes, .events = events};
    walk_part(&walk);
    assert(!walk.astray);
    put_count(lanes, walk.left);
    return WOSTHILE_ACCEPTED;
}

/* The first lane and the last, in quotation marks, since a name may hold commas. */
static void add_range(struct text *text, struct lane_range lanes, const struct side_names *names)
{
    text_add(text, "\"%s\"", names->of[lanes.first]);
    if (lanes.last > lanes.first) {
        text_add(text, " .. \"%s\"", names->of[lanes.last]);
    }
}

bool is_choice(const struct lane_event *event)
{
    return event->kind == EVENT_FIRST_CHOSEN || event->kind == EVENT_SECOND_CHOSEN;
}

/* As the slice's kind is called. */
static const char *choice_name(const struct lane_event *event)
{
    bool first = event->kind == EVENT_FIRST_CHOSEN;
    return slice_kind(first ? WOSTHILE_SLICE_FIRST_CHOSEN : WOSTHILE_SLICE_SECOND_CHOSEN)->name;
}

struct lane_range lanes_chosen(const struct lane_event *event)
{
    return event->kind == EVENT_FIRST_CHOSEN ? event->first : event->second;
}

struct lane_range lanes_gone(const struct lane_event *event)
{
    return event->kind == EVENT_FIRST_CHOSEN ? event->second : event->first;
}

void lane_event_text(char to[EVENT_TEXT_BYTES], const struct lane_event *event, const struct side_names *names)
{
    struct text text = text_begin(to, EVENT_TEXT_BYTES);
    if (event->kind == EVENT_CUE) {
        text_add(&text, "%s: cue", names->of[event->lane]);
    } else if (event->kind == EVENT_LEVEL) {
        text_add(&text, "%s: level %u", names->of[event->lane], event->value);
    } else if (event->kind == EVENT_CROSSING) {
        text_add(&text, "crossing: ");
        add_range(&text, event->first, names);
        text_add(&text, " -> ");
        add_range(&text, event->second, names);
    } else {
        text_add(&text, "%s: ", choice_name(event));
        add_range(&text, lanes_chosen(event), names);
        text_add(&text, ", not ");
        add_range(&text, lanes_gone(event), names);
    }
}

void lane_event_print(const struct lane_event *event, const struct side_names *names)
{
    char words[EVENT_TEXT_BYTES];
    lane_event_text(words, event, names);
    printf("    %s\n", words);
}

/* Says how many crossings or choices are owed, if any. Behind lanes that are owed the word is said already. */
static void print_steps_owed(const char *what, size_t count, bool said)
{
    if (count > 0) {
        printf("; %s%s: %zu", what, said ? "" : " still owed", count);
    }
}

void lanes_print_owed(const struct lanes *lanes, const struct side_names *names)
{
    struct file type = {lanes->type + 2, lanes->nodes};
    size_t crossings = 0, choices = 0, owed = 0, next;
    for (size_t node = 0; node < type.length; node = next) {
        uint8_t kind = type.bytes[node];
        crossings += kind == WOSTHILE_TYPE_SEQUENCE;
        choices += kind == WOSTHILE_TYPE_EITHER;
        next = kind == WOSTHILE_TYPE_EITHER ? type_end(type, node) : node + 1;
        if (kind != WOSTHILE_TYPE_EMPTY && type_kind(kind)->parts == 0) {
            printf(owed++ == 0 ? "The input is not complete; still owed: \"%s\"" : ", \"%s\"",
                   names->of[lanes->start[lanes->origin[node]].lanes.first]);
        }
    }
    if (owed == 0) {
        printf(crossings + choices == 0 ? "The input is complete: nothing is owed" : "The input is not complete");
    }
    print_steps_owed("crossings", crossings, owed > 0);
    print_steps_owed("choices", choices, owed > 0);
    printf(".\n");
}
