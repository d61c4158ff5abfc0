/*
 * Lanes: the leaves of a type as it was at the start, numbered from 1, left to right. Slices take parts of the type
 * away as they come; this module keeps which part of the starting type each part still there is, so that what a slice
 * brings can be told by its lane through the whole show.
 */
#ifndef LANES_H
#define LANES_H

#include "lane_names.h"
#include "show.h"

#include <stdbool.h>
#include <wosthile.h>

/* Lanes that lie next to one another. */
struct lane_range {
    unsigned first, last;
};

/*
 * What a slice brings: a cue or a level in a lane, the crossing of a sequence from its first part to its second, or the
 * choice of one part of an either, with which the other part and its lanes are gone.
 */
enum lane_event_kind { EVENT_CUE, EVENT_LEVEL, EVENT_CROSSING, EVENT_FIRST_CHOSEN, EVENT_SECOND_CHOSEN };

struct lane_event {
    enum lane_event_kind kind;
    unsigned lane;                   /* of a cue or a level */
    unsigned value;                  /* of a level */
    struct lane_range first, second; /* of a crossing or a choice: the lanes of the first part, and of the second */
};

/*
 * In the order in which a stream brings them: a crossing comes behind its first part and before its second, a choice
 * before the part that is chosen. Each node of the type brings one at most in the whole show.
 */
struct lane_events {
    size_t count;
    struct lane_event list[WOSTHILE_TYPE_NODES_MAX];
};

/* A node of the starting type: the lanes below it and, if it is a fork, where its second part begins. */
struct start_node {
    uint8_t kind;
    struct lane_range lanes;
    size_t second;
};

struct lanes {
    unsigned count;
    size_t start_nodes;
    struct start_node start[WOSTHILE_TYPE_NODES_MAX];
    size_t nodes;                            /* of the type in force */
    uint8_t type[WOSTHILE_TYPE_FILE_MAX];    /* its file */
    uint8_t origin[WOSTHILE_TYPE_NODES_MAX]; /* for each of its nodes, the node of the starting type that it is */
};

/* Begins with a type file; false if it is not one, or is cut or too large. */
bool lanes_start(struct lanes *lanes, struct file type);

/* Has the type at the start a node of a kind? */
bool lanes_have_kind(const struct lanes *lanes, uint8_t kind);

/*
 * Tells what a slice brings, and moves on to what it leaves. The answer is 0, or the number for which wosthile_admit
 * refuses the slice; then there are no events, and nothing moves.
 */
uint32_t lanes_follow(struct lanes *lanes, struct file slice, struct lane_events *events);

/* Is it a choice? Then these are the lanes of the part that is chosen, and those that are gone. */
bool is_choice(const struct lane_event *event);
struct lane_range lanes_chosen(const struct lane_event *event);
struct lane_range lanes_gone(const struct lane_event *event);

/* An event in words, with the names of its side; there is room for the longest names. */
enum { EVENT_TEXT_BYTES = 512 };
void lane_event_text(char to[EVENT_TEXT_BYTES], const struct lane_event *event, const struct side_names *names);

/* Prints these words on a line of their own. */
void lane_event_print(const struct lane_event *event, const struct side_names *names);

/*
 * Says on a line what is left of the type: the lanes in which something has still to come, and how many crossings and
 * choices. What an either owes is its choice, as long as that has not come.
 */
void lanes_print_owed(const struct lanes *lanes, const struct side_names *names);

#endif
