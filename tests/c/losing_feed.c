/*
 * Feeds that are wrong, most of them when slices come as one, to try that the rehearsal finds them. Linked with
 * -Wl,--wrap=wosthile_feed, they take the place of the feed of the library. The environment variable LOSING says which:
 *
 *   crossing   the interpreter of old: a slice that crosses, and brings something before that, is not crossed
 *   behind     what is behind a crossing, in a slice that brings something before it, has not come
 *   choice     what comes in one slice with the choice of its part has not come
 *   patch      sends all, but after such a slice leaves a patch with two nodes more
 *   arrived    does all, but of several cues and levels that came in a slice counts one
 *   sent       does all, but of several cues and levels that it sends counts one
 *   steps      does all, but counts crossings and choices with the cues and levels that came, however they come
 *   totals     does all, but leaves the totals of the patch as they were, however slices come
 *   feeds      does all, but adds one to the total of what arrived, whatever came
 *
 * Without it the feed is that of the library.
 */
#include <stdbool.h>
#include <stdlib.h>
#include <string.h>
#include <wosthile.h>

wosthile_fed __real_wosthile_feed(const uint8_t *patch, size_t patch_len, const uint8_t *slice, size_t slice_len,
                                  uint8_t *output, size_t output_len, uint8_t *left, size_t left_len);
wosthile_fed __wrap_wosthile_feed(const uint8_t *patch, size_t patch_len, const uint8_t *slice, size_t slice_len,
                                  uint8_t *output, size_t output_len, uint8_t *left, size_t left_len);

enum loss { NOTHING, CROSSING, BEHIND, CHOICE, PATCH, ARRIVED, SENT, STEPS, TOTALS, FEEDS };

/* An accepted slice as it is read, and as it is written anew. */
struct copy {
    enum loss loss;
    const uint8_t *from;
    size_t read;
    uint8_t to[WOSTHILE_SLICE_FILE_MAX];
    size_t written;
    bool lost; /* there was a crossing with something before it, or a choice with something of its part */
};

static void put(struct copy *copy, uint8_t byte) { copy->to[copy->written++] = byte; }

/* Copies a slice as it is, or as one of which nothing has come. True if something of it has come. */
static bool copy_slice(struct copy *copy, bool emptied);

/* The first part of a crossed slice decides what becomes of the crossing; it is read before the second. */
static bool copy_crossed(struct copy *copy, bool emptied)
{
    size_t at = copy->written;
    put(copy, emptied ? WOSTHILE_SLICE_IN_FIRST : WOSTHILE_SLICE_CROSSED);
    bool brings = copy_slice(copy, emptied);
    bool loses = brings && !emptied;
    copy->lost = copy->lost || loses;
    size_t second = copy->written;
    copy_slice(copy, emptied || (loses && copy->loss == BEHIND));
    if (loses && copy->loss == CROSSING) {
        copy->to[at] = WOSTHILE_SLICE_IN_FIRST;
    }
    if (emptied || (loses && copy->loss == CROSSING)) {
        copy->written = second;
    }
    return true;
}

/* In a slice of which nothing has come nothing is chosen, and the part is not written. */
static bool copy_choice(struct copy *copy, uint8_t kind, bool emptied)
{
    bool loses = !emptied && copy->loss == CHOICE;
    put(copy, emptied ? WOSTHILE_SLICE_NONE_CHOSEN : kind);
    size_t part = copy->written;
    bool brings = copy_slice(copy, emptied || loses);
    copy->lost = copy->lost || (loses && brings);
    copy->written = emptied ? part : copy->written;
    return true;
}

static bool copy_slice(struct copy *copy, bool emptied)
{
    uint8_t kind = copy->from[copy->read++];
    switch (kind) {
    case WOSTHILE_SLICE_CUE_COME:
        put(copy, emptied ? WOSTHILE_SLICE_CUE_AWAITED : WOSTHILE_SLICE_CUE_COME);
        return true;
    case WOSTHILE_SLICE_LEVEL_COME:
        put(copy, emptied ? WOSTHILE_SLICE_LEVEL_AWAITED : WOSTHILE_SLICE_LEVEL_COME);
        for (int byte = 0; byte < 2; byte++, copy->read++) {
            if (!emptied) {
                put(copy, copy->from[copy->read]);
            }
        }
        return true;
    case WOSTHILE_SLICE_IN_FIRST:
        put(copy, kind);
        return copy_slice(copy, emptied);
    case WOSTHILE_SLICE_CROSSED:
        return copy_crossed(copy, emptied);
    case WOSTHILE_SLICE_FIRST_CHOSEN:
    case WOSTHILE_SLICE_SECOND_CHOSEN:
        return copy_choice(copy, kind, emptied);
    case WOSTHILE_SLICE_BESIDE: {
        put(copy, kind);
        bool left = copy_slice(copy, emptied);
        return copy_slice(copy, emptied) || left;
    }
    default:
        put(copy, kind);
        return false;
    }
}

static enum loss chosen_loss(void)
{
    static const char *const words[] = {
        [CROSSING] = "crossing", [BEHIND] = "behind", [CHOICE] = "choice", [PATCH] = "patch", [ARRIVED] = "arrived",
        [SENT] = "sent",         [STEPS] = "steps",   [TOTALS] = "totals", [FEEDS] = "feeds"};
    const char *word = getenv("LOSING");
    enum loss loss = word == NULL ? NOTHING : CROSSING;
    while (loss != NOTHING && loss < FEEDS && strcmp(word, words[loss]) != 0) {
        loss++;
    }
    return loss;
}

/* How many crossings and choices are in an accepted slice. */
static uint32_t count_steps(const uint8_t *slice, size_t length)
{
    uint32_t steps = 0;
    for (size_t place = 2; place < length; place++) {
        uint8_t kind = slice[place];
        steps += kind == WOSTHILE_SLICE_CROSSED || kind == WOSTHILE_SLICE_FIRST_CHOSEN ||
                 kind == WOSTHILE_SLICE_SECOND_CHOSEN;
        place += kind == WOSTHILE_SLICE_LEVEL_COME ? 2 : 0;
    }
    return steps;
}

/* The answer of a feed that counts in a wrong way. */
static wosthile_fed miscounted(wosthile_fed fed, enum loss loss, const uint8_t *slice, size_t slice_len)
{
    if (loss == ARRIVED && fed.arrived > 1) {
        fed.arrived = 1;
    }
    if (loss == SENT && fed.sent > 1) {
        fed.sent = 1;
    }
    if (loss == STEPS) {
        fed.arrived += count_steps(slice, slice_len);
    }
    return fed;
}

/* Writes wrong totals at the end of the patch left: those of the patch fed, or with one arrival for the feed. */
static void miscount_totals(enum loss loss, const uint8_t *fed_patch, size_t fed_length, uint8_t *left, size_t length)
{
    enum { BOTH = 8, ONE = 4 };
    if (loss == TOTALS) {
        memcpy(left + length - BOTH, fed_patch + fed_length - BOTH, BOTH);
        return;
    }
    uint32_t arrived = wosthile_totals_of(fed_patch, fed_length).arrived + 1;
    for (unsigned byte = 0; byte < ONE; byte++) {
        left[length - BOTH + byte] = (uint8_t)(arrived >> 8 * (ONE - 1 - byte));
    }
}

/* Puts `chain pass` before the nodes of a patch: it sends the same, and is another patch. */
static size_t with_chain(uint8_t *patch, size_t length)
{
    size_t nodes = 2 + patch[0] * 256u + patch[1];
    size_t count = 2 + patch[nodes] * 256u + patch[nodes + 1];
    memmove(patch + nodes + 4, patch + nodes + 2, length - nodes - 2);
    patch[nodes] = (uint8_t)(count / 256);
    patch[nodes + 1] = (uint8_t)(count % 256);
    patch[nodes + 2] = WOSTHILE_NODE_CHAIN;
    patch[nodes + 3] = WOSTHILE_NODE_PASS;
    return length + 2;
}

wosthile_fed __wrap_wosthile_feed(const uint8_t *patch, size_t patch_len, const uint8_t *slice, size_t slice_len,
                                  uint8_t *output, size_t output_len, uint8_t *left, size_t left_len)
{
    struct copy copy = {.loss = chosen_loss(), .from = slice, .read = 2, .written = 2};
    wosthile_fed fed = __real_wosthile_feed(patch, patch_len, slice, slice_len, output, output_len, left, left_len);
    if (copy.loss == NOTHING || fed.number != WOSTHILE_ACCEPTED) {
        return fed;
    }
    if (copy.loss == ARRIVED || copy.loss == SENT || copy.loss == STEPS) {
        return miscounted(fed, copy.loss, slice, slice_len);
    }
    if (copy.loss == TOTALS || copy.loss == FEEDS) {
        miscount_totals(copy.loss, patch, patch_len, left, fed.patch);
        return fed;
    }
    copy_slice(&copy, false);
    if (!copy.lost) {
        return fed;
    }
    if (copy.loss == PATCH) {
        fed.patch = with_chain(left, fed.patch);
        return fed;
    }
    copy.to[0] = (uint8_t)((copy.written - 2) / 256);
    copy.to[1] = (uint8_t)((copy.written - 2) % 256);
    return __real_wosthile_feed(patch, patch_len, copy.to, copy.written, output, output_len, left, left_len);
}
