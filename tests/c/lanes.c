/*
 * Lanes, tried with random types and slices. The test keeps the whole starting type and marks in it what has come; it
 * never takes a part away, as the lanes do. Both have to tell the same events, and what the lanes take to be left of
 * the type has to be what the library leaves. The library has to count as many cues and levels as the lanes tell.
 */
#include "deliveries.h"
#include "kinds.h"
#include "lanes.h"

#include <stdio.h>
#include <stdlib.h>
#include <string.h>

enum { SHOWS = 400, SLICES = 60 };

struct part {
    uint8_t kind;
    bool done; /* a leaf has come, a sequence is crossed, a part of an either is chosen */
    struct lane_range lanes;
    size_t second;
    size_t chosen; /* of an either, if it is done */
};

struct trial {
    uint64_t random;
    unsigned chance; /* of eight, that something comes where it can */
    struct part parts[WOSTHILE_TYPE_NODES_MAX];
    size_t count;
    unsigned lanes;
    uint8_t slice[WOSTHILE_SLICE_FILE_MAX];
    size_t length;
    struct lane_events expected;
    size_t choices, arrivals; /* in all slices so far */
};

static unsigned draw(struct trial *trial, unsigned below) { return (unsigned)(next_random(&trial->random) % below); }

/* Draws a part with a number of leaves. Each either takes a part of the show away, so there are fewer of them. */
static void draw_part(struct trial *trial, unsigned leaves)
{
    static const uint8_t leaf_kinds[3] = {WOSTHILE_TYPE_EMPTY, WOSTHILE_TYPE_CUE, WOSTHILE_TYPE_LEVEL};
    static const uint8_t fork_kinds[5] = {WOSTHILE_TYPE_SEQUENCE, WOSTHILE_TYPE_BESIDE, WOSTHILE_TYPE_SEQUENCE,
                                          WOSTHILE_TYPE_BESIDE, WOSTHILE_TYPE_EITHER};
    struct part *part = &trial->parts[trial->count++];
    *part = (struct part){.kind = leaf_kinds[draw(trial, 3)], .lanes = {trial->lanes + 1, trial->lanes + leaves}};
    if (leaves == 1) {
        trial->lanes++;
        return;
    }
    unsigned first = 1 + draw(trial, leaves - 1);
    part->kind = fork_kinds[draw(trial, 5)];
    draw_part(trial, first);
    part->second = trial->count;
    draw_part(trial, leaves - first);
}

static bool comes(struct trial *trial) { return draw(trial, 8) < trial->chance; }

static void put(struct trial *trial, unsigned byte) { trial->slice[trial->length++] = (uint8_t)byte; }

static void expect(struct trial *trial, struct lane_event event)
{
    trial->expected.list[trial->expected.count++] = event;
}

static void draw_leaf(struct trial *trial, struct part *part)
{
    if (part->kind == WOSTHILE_TYPE_EMPTY || part->done) {
        put(trial, WOSTHILE_SLICE_NOTHING);
    } else if (!comes(trial)) {
        put(trial, part->kind == WOSTHILE_TYPE_CUE ? WOSTHILE_SLICE_CUE_AWAITED : WOSTHILE_SLICE_LEVEL_AWAITED);
    } else if (part->kind == WOSTHILE_TYPE_CUE) {
        part->done = true;
        put(trial, WOSTHILE_SLICE_CUE_COME);
        expect(trial, (struct lane_event){.kind = EVENT_CUE, .lane = part->lanes.first});
    } else {
        unsigned value = draw(trial, 65536);
        part->done = true;
        put(trial, WOSTHILE_SLICE_LEVEL_COME);
        put(trial, value / 256);
        put(trial, value % 256);
        expect(trial, (struct lane_event){.kind = EVENT_LEVEL, .lane = part->lanes.first, .value = value});
    }
}

/* Has all of a part come, so that the slice of it just drawn is complete? */
static bool is_complete(const struct trial *trial, size_t at)
{
    const struct part *part = &trial->parts[at];
    if (type_kind(part->kind)->parts == 0) {
        return part->kind == WOSTHILE_TYPE_EMPTY || part->done;
    }
    if (part->kind == WOSTHILE_TYPE_EITHER) {
        return part->done && is_complete(trial, part->chosen);
    }
    bool first = part->kind == WOSTHILE_TYPE_SEQUENCE ? part->done : is_complete(trial, at + 1);
    return first && is_complete(trial, part->second);
}

static void draw_slice(struct trial *trial, size_t at);

/* Expects a crossing or a choice. */
static void expect_of_fork(struct trial *trial, enum lane_event_kind kind, size_t at)
{
    struct lane_range first = trial->parts[at + 1].lanes, second = trial->parts[trial->parts[at].second].lanes;
    expect(trial, (struct lane_event){.kind = kind, .first = first, .second = second});
}

static void draw_either(struct trial *trial, size_t at)
{
    struct part *part = &trial->parts[at];
    if (!part->done && !comes(trial)) {
        put(trial, WOSTHILE_SLICE_NONE_CHOSEN);
        return;
    }
    if (!part->done) {
        bool first = draw(trial, 2) == 0;
        part->done = true;
        part->chosen = first ? at + 1 : part->second;
        put(trial, first ? WOSTHILE_SLICE_FIRST_CHOSEN : WOSTHILE_SLICE_SECOND_CHOSEN);
        expect_of_fork(trial, first ? EVENT_FIRST_CHOSEN : EVENT_SECOND_CHOSEN, at);
        trial->choices++;
    }
    draw_slice(trial, part->chosen);
}

static void draw_sequence(struct trial *trial, size_t at)
{
    struct part *part = &trial->parts[at];
    size_t kind_at = trial->length;
    bool crossed = part->done;
    if (!crossed) {
        put(trial, WOSTHILE_SLICE_IN_FIRST);
        draw_slice(trial, at + 1);
    }
    if (!crossed && is_complete(trial, at + 1) && comes(trial)) {
        part->done = true;
        trial->slice[kind_at] = WOSTHILE_SLICE_CROSSED;
        expect_of_fork(trial, EVENT_CROSSING, at);
    }
    if (part->done) {
        draw_slice(trial, part->second);
    }
}

/* Draws a slice of what is still to come of a part. */
static void draw_slice(struct trial *trial, size_t at)
{
    struct part *part = &trial->parts[at];
    if (type_kind(part->kind)->parts == 0) {
        draw_leaf(trial, part);
    } else if (part->kind == WOSTHILE_TYPE_SEQUENCE) {
        draw_sequence(trial, at);
    } else if (part->kind == WOSTHILE_TYPE_EITHER) {
        draw_either(trial, at);
    } else {
        put(trial, WOSTHILE_SLICE_BESIDE);
        draw_slice(trial, at + 1);
        draw_slice(trial, part->second);
    }
}

static bool same_range(struct lane_range one, struct lane_range other)
{
    return one.first == other.first && one.last == other.last;
}

static bool same_events(const struct lane_events *one, const struct lane_events *other)
{
    bool same = one->count == other->count;
    for (size_t index = 0; same && index < one->count; index++) {
        const struct lane_event *a = &one->list[index], *b = &other->list[index];
        same = a->kind == b->kind && a->lane == b->lane && a->value == b->value && same_range(a->first, b->first) &&
               same_range(a->second, b->second);
    }
    return same;
}

/* How many of the events are cues and levels: what the library counts. */
static size_t count_arrivals(const struct lane_events *events)
{
    size_t arrivals = 0;
    for (size_t index = 0; index < events->count; index++) {
        arrivals += events->list[index].kind == EVENT_CUE || events->list[index].kind == EVENT_LEVEL;
    }
    return arrivals;
}

/* Random bytes in place of a slice: whatever the answer, the lanes agree with the library about it. */
static bool agrees_on_any_bytes(struct trial *trial, const struct lanes *lanes)
{
    uint8_t bytes[24] = {0, 22};
    struct lanes tried = *lanes;
    struct lane_events events;
    for (size_t place = 2; place < sizeof bytes; place++) {
        bytes[place] = (uint8_t)draw(trial, WOSTHILE_SLICE_SECOND_CHOSEN + 1);
    }
    size_t length = draw(trial, sizeof bytes + 1);
    wosthile_admitted admitted = wosthile_admit(lanes->type, 2 + lanes->nodes, bytes, length);
    uint32_t number = lanes_follow(&tried, (struct file){bytes, length}, &events);
    bool stays = tried.nodes == lanes->nodes && memcmp(tried.type, lanes->type, 2 + lanes->nodes) == 0;
    return number == admitted.number && count_arrivals(&events) == admitted.arrived &&
           (number == WOSTHILE_ACCEPTED || (stays && events.count == 0));
}

/* Draws the next slice and lets the lanes follow it. */
static bool follows(struct trial *trial, struct lanes *lanes)
{
    uint8_t left[WOSTHILE_TYPE_FILE_MAX];
    struct lane_events events;
    trial->length = 2;
    trial->expected.count = 0;
    draw_slice(trial, 0);
    trial->slice[0] = (uint8_t)((trial->length - 2) / 256);
    trial->slice[1] = (uint8_t)((trial->length - 2) % 256);
    wosthile_written written =
        wosthile_left(lanes->type, 2 + lanes->nodes, trial->slice, trial->length, left, sizeof left);
    wosthile_admitted admitted = wosthile_admit(lanes->type, 2 + lanes->nodes, trial->slice, trial->length);
    uint32_t number = lanes_follow(lanes, (struct file){trial->slice, trial->length}, &events);
    return written.number == WOSTHILE_ACCEPTED && number == WOSTHILE_ACCEPTED &&
           same_events(&events, &trial->expected) && count_arrivals(&events) == admitted.arrived &&
           written.written == 2 + lanes->nodes && memcmp(left, lanes->type, written.written) == 0;
}

struct tally {
    size_t events, arrivals, choices;
};

/* A type, and slices of it until most has come. */
static bool try_show(uint64_t seed, struct tally *tally)
{
    struct trial trial = {.random = seed};
    draw_part(&trial, seed % 5 == 0 ? LANES_MAX : 1 + draw(&trial, 24));
    uint8_t type[WOSTHILE_TYPE_FILE_MAX + 1] = {0, (uint8_t)trial.count};
    for (size_t node = 0; node < trial.count; node++) {
        type[2 + node] = trial.parts[node].kind;
    }
    struct lanes lanes;
    if (!lanes_start(&lanes, (struct file){type, 2 + trial.count}) || lanes.count != trial.lanes ||
        lanes_start(&lanes, (struct file){type, 1 + trial.count}) ||
        lanes_start(&lanes, (struct file){type, 3 + trial.count}) ||
        !lanes_start(&lanes, (struct file){type, 2 + trial.count})) {
        return false;
    }
    for (size_t slice = 0; slice < SLICES; slice++) {
        trial.chance = draw(&trial, 8);
        if (!agrees_on_any_bytes(&trial, &lanes) || !follows(&trial, &lanes)) {
            return false;
        }
        tally->events += trial.expected.count;
        trial.arrivals += count_arrivals(&trial.expected);
    }
    tally->arrivals += trial.arrivals;
    tally->choices += trial.choices;
    return trial.arrivals <= type_arrivals_max((struct file){type + 2, trial.count}, 0);
}

int main(void)
{
    struct tally tally = {0};
    for (uint64_t seed = 1; seed <= SHOWS; seed++) {
        if (!try_show(seed, &tally)) {
            printf("seed %llu: FAILED\n", (unsigned long long)seed);
            return 1;
        }
    }
    printf("%d shows of %d slices, %zu events in their lanes, %zu of them cues and levels, %zu choices\n", SHOWS,
           SLICES, tally.events, tally.arrivals, tally.choices);
    return tally.choices > SHOWS && tally.arrivals > SHOWS ? 0 : 1;
}
