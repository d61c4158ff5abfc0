/*
 * A recorded show, played by seed as fast as the library feeds it; what comes in and what is sent is kept by frame, so
 * that it can be drawn.
 */
#ifndef PLAYING_H
#define PLAYING_H

#include "opening.h"

/* What came in, or was sent, in a frame. */
struct mark {
    size_t frame;
    struct lane_event event;
};

/* Every node of a type brings one event at most, so there is a bound. */
struct side {
    struct lanes lanes;
    struct mark marks[WOSTHILE_TYPE_NODES_MAX];
    size_t count;
    uint8_t *counted; /* the cues and levels in each frame, counted from 1, as the library tells their number */
    size_t total;     /* of all frames */
};

/* A slice that was refused, and left out. To find the place of a fault takes long, so only the first ones have words.
 */
enum { REFUSALS_WITH_WORDS = 100 };

struct refusal {
    size_t frame;    /* in which it came */
    size_t recorded; /* in which it was recorded */
    uint32_t number;
    char *words; /* what is wrong with it, and where; NULL of later ones, and of one refused for the patch's totals */
};

/* The show played with one seed. */
struct panel {
    uint64_t seed;
    struct side in, out;
    size_t frames;   /* the last frame in which anything comes */
    uint8_t *slices; /* how many were fed as one in each frame, counted from 1 */
    struct refusal *refusals;
    size_t refused, refusals_room;
    size_t broken_off; /* the frame of a slice in which the show file ends; 0 if there is none */
};

/* Plays the show from its start, cut by the seed. panel_release frees the panel. */
struct panel *panel_play(const struct opened_show *opened, uint64_t seed);

void panel_release(struct panel *panel);

/* The mark of the same event on a side of another panel; NULL if it has not come there. */
const struct mark *mark_of_event(const struct side *side, const struct lane_event *event);

#endif
