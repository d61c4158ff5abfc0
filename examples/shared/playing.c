#include "playing.h"

#include "deliveries.h"
#include "faults.h"

#include <stdlib.h>
#include <string.h>

/* Keeps what a slice brings in a frame. */
static void keep(struct side *side, size_t frame, struct file slice)
{
    struct lane_events events;
    if (lanes_follow(&side->lanes, slice, &events) != WOSTHILE_ACCEPTED) {
        stop("a slice that was admitted or sent is not one of what the slices before it leave");
    }
    for (size_t index = 0; index < events.count && side->count < WOSTHILE_TYPE_NODES_MAX; index++) {
        side->marks[side->count++] = (struct mark){frame, events.list[index]};
    }
}

/* Keeps how many cues and levels came, or were sent, in a frame; they are WOSTHILE_ARRIVALS_MAX at most. */
static void keep_count(struct side *side, size_t frame, uint32_t count)
{
    side->counted[frame] = (uint8_t)count;
    side->total += count;
}

/* Feeds what came in a frame. */
static void play_frame(struct panel *panel, struct patch *patch, size_t frame, const struct joined *waiting)
{
    uint8_t output[WOSTHILE_SLICE_FILE_MAX];
    wosthile_fed fed = patch_feed(patch, joined_file(waiting), output);
    if (fed.number != WOSTHILE_ACCEPTED) {
        stop("frame %zu: slices that were admitted are refused with %u when they are fed", frame, fed.number);
    }
    panel->slices[frame] = (uint8_t)waiting->count;
    keep_count(&panel->in, frame, fed.arrived);
    keep_count(&panel->out, frame, fed.sent);
    keep(&panel->out, frame, (struct file){output, fed.output});
}

/* Makes room for one more refusal; most shows have none, so the room grows with their number. */
static void grow_refusals(struct panel *panel)
{
    if (panel->refused < panel->refusals_room) {
        return;
    }
    size_t room = panel->refusals_room * 2 + 8;
    struct refusal *larger = memory(room, sizeof *larger);
    if (panel->refused > 0) {
        memcpy(larger, panel->refusals, panel->refused * sizeof *larger);
    }
    free(panel->refusals);
    panel->refusals = larger;
    panel->refusals_room = room;
}

/* Keeps that a slice is refused. One that is refused for the totals of the patch has no place of its own. */
static void keep_refusal(struct panel *panel, struct refusal refusal, const struct opened_show *opened)
{
    grow_refusals(panel);
    if (panel->refused < REFUSALS_WITH_WORDS && refusal.number != WOSTHILE_FAULT_TOTAL_TOO_LARGE) {
        refusal.words = memory(MESSAGE_BYTES, 1);
        slice_fault_text(refusal.words, MESSAGE_BYTES, &panel->in.lanes, opened->show.slices[refusal.recorded - 1],
                         &opened->names.in, &opened->show);
    }
    panel->refusals[panel->refused++] = refusal;
}

/* Adds a slice to those that wait, unless it is refused, or the patch in force would refuse them all for its totals. */
static uint32_t add_slice(struct joined *waiting, const struct patch *patch, struct file slice)
{
    struct joined more = *waiting;
    uint32_t number = joined_add(&more, patch_input_type(patch), slice);
    if (number == WOSTHILE_ACCEPTED) {
        number = patch_feed_number(patch, joined_file(&more));
    }
    if (number == WOSTHILE_ACCEPTED) {
        *waiting = more;
    }
    return number;
}

/* Plays the slices as they are delivered: those of one frame are joined, without the refused ones. */
static void play_slices(struct panel *panel, const struct opened_show *opened, const size_t *deliveries)
{
    const struct show *show = &opened->show;
    struct patch patch = opened->patch;
    struct joined waiting = {.count = 0};
    for (size_t index = 0; index < show->count; index++) {
        struct file slice = show->slices[index];
        uint32_t number = add_slice(&waiting, &patch, slice);
        if (number == WOSTHILE_ACCEPTED) {
            keep(&panel->in, deliveries[index], slice);
        } else {
            struct refusal refusal = {.frame = deliveries[index], .recorded = index + 1, .number = number};
            keep_refusal(panel, refusal, opened);
        }
        bool last = index + 1 == show->count || deliveries[index + 1] != deliveries[index];
        if (last && waiting.count > 0) {
            play_frame(panel, &patch, deliveries[index], &waiting);
            waiting.count = 0;
        }
    }
}

struct panel *panel_play(const struct opened_show *opened, uint64_t seed)
{
    const struct show *show = &opened->show;
    size_t slices = show->count + (show->unfinished.frame > 0);
    struct panel *panel = memory(1, sizeof *panel);
    size_t *deliveries = memory(slices + 1, sizeof *deliveries);
    show_deliveries(seed, slices, deliveries);
    panel->seed = seed;
    panel->in.lanes = opened->in;
    panel->out.lanes = opened->out;
    panel->frames = slices == 0 ? 0 : deliveries[slices - 1];
    panel->broken_off = slices > show->count ? panel->frames : 0;
    panel->slices = memory(panel->frames + 1, 1);
    panel->in.counted = memory(panel->frames + 1, 1);
    panel->out.counted = memory(panel->frames + 1, 1);
    play_slices(panel, opened, deliveries);
    free(deliveries);
    return panel;
}

void panel_release(struct panel *panel)
{
    for (size_t index = 0; index < panel->refused; index++) {
        free(panel->refusals[index].words);
    }
    free(panel->slices);
    free(panel->in.counted);
    free(panel->out.counted);
    free(panel->refusals);
    free(panel);
}

const struct mark *mark_of_event(const struct side *side, const struct lane_event *event)
{
    for (size_t index = 0; index < side->count; index++) {
        const struct lane_event *other = &side->marks[index].event;
        if (other->kind == event->kind && other->lane == event->lane && other->second.first == event->second.first) {
            return &side->marks[index];
        }
    }
    return NULL;
}
