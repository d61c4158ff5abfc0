/*
 * A rehearsal that tells something about the next show: it feeds a recorded stream as it was recorded, then cuts it
 * anew, many times at random, and compares what is sent and which patch is left, byte for byte, and how many cues and
 * levels the library counts.
 *
 * A cut is a list of groups: each group of neighbouring slices is joined and fed as one. The first cut takes all slices
 * as one group; for each other one it is drawn anew how readily neighbours are joined.
 */
#define _POSIX_C_SOURCE 200809L /* for clock_gettime and isatty */
#include "counts.h"
#include "deliveries.h"
#include "faults.h"
#include "opening.h"
#include "totals.h"

#include <stdio.h>
#include <stdlib.h>
#include <string.h>
#include <time.h>
#include <unistd.h>

static const char help[] =
    "rehearsal SHOW [CUTS [SEED]]\n"
    "\n"
    "Feeds a show file as it was recorded, then cuts the recording anew and feeds each cut: neighbouring slices are\n"
    "joined and fed as one. All that is sent, joined, and the patch left at the end have to be the same, byte for "
    "byte.\n"
    "So have the numbers of cues and levels that arrived and that were sent, and they have to be what Admit counts in\n"
    "all slices joined, and in all that is sent. The totals of the last patch, which are among its bytes, have to be\n"
    "those at the start and these numbers.\n"
    "\n"
    "  CUTS  how many cuts are tried, at least 1; 1000 without this word. The first takes all slices as one\n"
    "  SEED  the number that the other cuts are drawn by, 0 to 18446744073709551615; 1 without this word\n"
    "\n"
    "A slice that is refused as recorded, and a last slice in which the file ends, are told on the error stream and\n"
    "left out of all cuts; the answer ends with how many were refused.\n"
    "\n"
    "Status: 0 no cut made a difference; 1 one did, or Feed and Admit do not count the same, or the totals do not go\n"
    "on as Feed counts, or the patch is refused; 2 the words or the file cannot be used, nothing could be compared,\n"
    "or the answer cannot be written.\n";

/* A patch that is being fed, from its start, all that it has sent so far, and what its feeds have counted. */
struct run {
    struct patch patch;
    struct type output_type; /* at the start */
    struct joined sent;
    struct counts counts;
};

/* Where a call was refused, if one was. */
struct refusal {
    enum call { JOINING_SLICES, FEEDING, JOINING_OUTPUTS } call;
    uint32_t number;
};

static const char *const call_names[] = {"joining the slices", "the feed", "joining the outputs"};

/* The slices of the show that were accepted as recorded. */
struct slices {
    struct file *list;
    size_t count;
    size_t left_out; /* how many others the show has */
};

/* For each of the slices whether it is in one group with the next. */
struct cut {
    bool *joins;
    size_t count;
};

struct tally {
    size_t feeds, largest;
};

static const struct refusal none = {FEEDING, WOSTHILE_ACCEPTED};

/* Feeds a group of slices as one. A refusal by any of the calls is told, and the group is not fed. */
static struct refusal feed_group(struct run *run, const struct file *slices, size_t size)
{
    struct joined group = {.count = 0};
    for (size_t index = 0; index < size; index++) {
        uint32_t number = joined_add(&group, patch_input_type(&run->patch), slices[index]);
        if (number != WOSTHILE_ACCEPTED) {
            return (struct refusal){JOINING_SLICES, number};
        }
    }
    uint8_t output[WOSTHILE_SLICE_FILE_MAX];
    wosthile_fed fed = patch_feed(&run->patch, joined_file(&group), output);
    if (fed.number != WOSTHILE_ACCEPTED) {
        return (struct refusal){FEEDING, fed.number};
    }
    counts_add(&run->counts, &fed);
    uint32_t number = joined_add(&run->sent, type_file(&run->output_type), (struct file){output, fed.output});
    return number == WOSTHILE_ACCEPTED ? none : (struct refusal){JOINING_OUTPUTS, number};
}

static bool same_file(struct file one, struct file other)
{
    return one.length == other.length && memcmp(one.bytes, other.bytes, one.length) == 0;
}

static bool same_state(const struct run *one, const struct run *other)
{
    return same_file(joined_file(&one->sent), joined_file(&other->sent)) &&
           same_file(patch_file(&one->patch), patch_file(&other->patch)) && counts_same(&one->counts, &other->counts);
}

/* Tells that a recorded slice is left out by the patch in force, and why. */
static void tell_refusal(const struct opened_show *opened, const struct patch *patch, size_t index,
                         struct refusal refusal)
{
    const char *sentence = wosthile_sentence(refusal.number);
    char place[MESSAGE_BYTES] = "";
    if (refusal.call == JOINING_SLICES) {
        slice_fault_text(place, sizeof place, &opened->in, opened->show.slices[index], &opened->names.in,
                         &opened->show);
        tell("recorded slice %zu is refused with %u, and left out: %s\n    %s", index + 1, refusal.number, sentence,
             place);
        return;
    }
    if (refusal.number == WOSTHILE_FAULT_TOTAL_TOO_LARGE) {
        totals_fault_text(place, sizeof place, patch_file(patch), opened->show.slices[index]);
    }
    tell("recorded slice %zu is left out: %s is refused with %u: %s%s%s", index + 1, call_names[refusal.call],
         refusal.number, sentence, place[0] == '\0' ? "" : "\n    ", place);
}

/* Feeds the show as recorded, and its input's lanes follow. A refused slice is told and left out of all cuts. */
static struct slices feed_as_recorded(struct run *run, struct opened_show *opened)
{
    const struct show *show = &opened->show;
    struct slices accepted = {memory(show->count + 1, sizeof(struct file)), 0, 0};
    struct lane_events events;
    for (size_t index = 0; index < show->count; index++) {
        struct refusal refusal = feed_group(run, &show->slices[index], 1);
        if (refusal.number == WOSTHILE_ACCEPTED) {
            lanes_follow(&opened->in, show->slices[index], &events);
            accepted.list[accepted.count++] = show->slices[index];
        } else {
            tell_refusal(opened, &run->patch, index, refusal);
            accepted.left_out++;
        }
    }
    return accepted;
}

/* How many cues and levels Admit counts in slices that are joined to one of a type. */
static size_t arrivals_of(struct file type, const struct joined *joined)
{
    return wosthile_admit(type.bytes, type.length, joined->bytes, joined->length).arrived;
}

/* What Admit counts in all accepted slices joined, and in all that was sent for them, joined. */
static struct counts counts_of_joined(const struct run *start, const struct run *recorded, const struct slices *slices)
{
    struct joined come = {.count = 0};
    struct file type = patch_input_type(&start->patch);
    for (size_t index = 0; index < slices->count; index++) {
        if (joined_add(&come, type, slices->list[index]) != WOSTHILE_ACCEPTED) {
            break; /* the first cut finds this, and tells it */
        }
    }
    return (struct counts){arrivals_of(type, &come), arrivals_of(type_file(&start->output_type), &recorded->sent)};
}

/* Joining slices adds their counts, so the sums of the feeds are the counts of all that was joined. */
static bool counts_hold(const struct run *start, const struct run *recorded, const struct slices *slices)
{
    struct counts joined = counts_of_joined(start, recorded, slices);
    if (counts_same(&recorded->counts, &joined)) {
        return true;
    }
    printf("Feed and Admit do not count the same.\n");
    counts_print("  cues and levels by Feed, slice by slice: ", &recorded->counts, "\n");
    counts_print("  cues and levels by Admit, in all slices joined: ", &joined, "\n");
    return false;
}

/* The totals go on from those at the start: by what the feeds have counted, and by nothing else. */
static bool totals_hold(const struct run *start, const struct run *recorded)
{
    struct counts due = totals_of(patch_file(&start->patch)), last = totals_of(patch_file(&recorded->patch));
    due.arrived += recorded->counts.arrived;
    due.sent += recorded->counts.sent;
    if (counts_same(&due, &last)) {
        return true;
    }
    printf("The totals do not go on as Feed counts.\n");
    counts_print("  totals at the start and what Feed counts: ", &due, "\n");
    counts_print("  totals of the last patch: ", &last, "\n");
    return false;
}

/* Draws a cut: neighbours are joined with a chance that is drawn first. */
static void draw_cut(struct cut *cut, uint64_t *random)
{
    uint64_t chance = next_random(random) % 257;
    for (size_t index = 0; index < cut->count; index++) {
        cut->joins[index] = next_random(random) % 256 < chance;
    }
}

/* Begins a cut with every slice in a group of its own, but for the slices from `first` on, `size` of them as one. */
static void cut_out(struct cut *cut, size_t first, size_t size)
{
    for (size_t index = 0; index < cut->count; index++) {
        cut->joins[index] = index >= first && index + 1 < first + size;
    }
}

/* How many slices are in the group that begins with this one. */
static size_t group_size(const struct cut *cut, size_t first)
{
    size_t size = 1;
    while (first + size < cut->count && cut->joins[first + size - 1]) {
        size++;
    }
    return size;
}

/* Feeds a cut from the start. True if no call is refused and it ends as the recording did. */
static bool ends_the_same(const struct run *start, const struct run *recorded, const struct slices *slices,
                          const struct cut *cut, struct tally *tally)
{
    struct run run = *start;
    size_t size;
    for (size_t first = 0; first < slices->count; first += size) {
        size = group_size(cut, first);
        if (feed_group(&run, slices->list + first, size).number != WOSTHILE_ACCEPTED) {
            return false;
        }
        tally->feeds++;
        tally->largest = size > tally->largest ? size : tally->largest;
    }
    return same_state(recorded, &run);
}

/*
 * Looks for the smallest group that makes a difference when all other slices are fed one by one, and leaves that cut in
 * `cut`. False if none is found within a bounded number of feeds.
 */
static bool find_smallest(const struct run *start, const struct run *recorded, const struct slices *slices,
                          struct cut *cut)
{
    enum { FEEDS_MAX = 2000000 };
    struct tally tally = {0};
    for (size_t size = 2; size <= cut->count; size++) {
        for (size_t first = 0; first + size <= cut->count; first++) {
            cut_out(cut, first, size);
            if (!ends_the_same(start, recorded, slices, cut, &tally)) {
                return true;
            }
            if (tally.feeds > FEEDS_MAX) {
                return false;
            }
        }
    }
    return false;
}

static void print_file(const char *what, struct file file)
{
    printf("  %s:", what);
    for (size_t place = 0; place < file.length; place++) {
        printf(" %d", file.bytes[place]);
    }
    printf("\n");
}

/* The sizes of the groups up to one of them, which is in brackets, and some behind it; dots are more of them. */
static void print_sizes(const struct cut *cut, size_t marked)
{
    enum { PRINTED = 20, BEHIND = 10 };
    size_t before = 0, behind = 0, size;
    for (size_t first = 0; first < marked; first += group_size(cut, first)) {
        before++;
    }
    size_t skipped = before > PRINTED ? before - PRINTED : 0;
    printf("  the cut:%s", skipped > 0 ? " .." : "");
    for (size_t first = 0; first < cut->count && behind <= BEHIND; first += size) {
        size = group_size(cut, first);
        behind += first > marked;
        if (skipped > 0) {
            skipped--;
        } else {
            printf(first == marked ? " [%zu]" : " %zu", size);
        }
    }
    printf("%s\n", behind > BEHIND ? " .." : "");
}

static void print_state(const char *whose, const struct run *run)
{
    printf("%s\n", whose);
    print_file("sent so far, joined", joined_file(&run->sent));
    print_file("patch left", patch_file(&run->patch));
    counts_print("  cues and levels so far: ", &run->counts, "\n");
}

/* Feeds the slices of a group one by one; they were all accepted so before. */
static void feed_one_by_one(struct run *run, const struct file *slices, size_t size)
{
    for (size_t index = 0; index < size; index++) {
        feed_group(run, slices + index, 1);
    }
}

/* Says where a cut and the recording part, having fed both once more, side by side. */
static void explain(const struct run *start, const struct slices *slices, const struct cut *cut)
{
    struct run recorded = *start, anew = *start;
    struct refusal refusal = none;
    size_t first = 0, size = 0;
    for (; first < slices->count; first += size) {
        size = group_size(cut, first);
        refusal = feed_group(&anew, slices->list + first, size);
        feed_one_by_one(&recorded, slices->list + first, size);
        if (refusal.number != WOSTHILE_ACCEPTED || !same_state(&recorded, &anew)) {
            break;
        }
    }
    if (first >= slices->count) {
        printf("Fed once more they do not part: the same calls gave two answers.\n");
        return;
    }
    print_sizes(cut, first);
    printf("The two part at the group in brackets, slices %zu to %zu of the accepted ones.\n", first + 1, first + size);
    if (refusal.number != WOSTHILE_ACCEPTED) {
        printf("The cut cannot be made: %s is refused with %u: %s\n", call_names[refusal.call], refusal.number,
               wosthile_sentence(refusal.number));
    }
    print_state("The recording, behind these slices:", &recorded);
    print_state("The cut, behind the same slices:", &anew);
}

/* A line that is written over on a terminal; elsewhere a line for each quarter. */
static void show_progress(size_t done, size_t cuts)
{
    size_t step = cuts / 4 + 1;
    if (isatty(STDERR_FILENO)) {
        fprintf(stderr, "\r%zu of %zu cuts%s", done, cuts, done == cuts ? "\n" : "");
    } else if (done % step == 0 || done == cuts) {
        fprintf(stderr, "%zu of %zu cuts\n", done, cuts);
    }
}

/* What follows begins on a line of its own. */
static void end_progress(void)
{
    if (isatty(STDERR_FILENO)) {
        fprintf(stderr, "\n");
    }
}

/* Compares cuts, all as one and then drawn; the answer is how many ended as the recording did before one did not, which
 * is in `cut`. */
static size_t compare_cuts(const struct run *start, const struct run *recorded, const struct slices *slices,
                           struct cut *cut, size_t cuts, uint64_t random, struct tally *tally)
{
    cut_out(cut, 0, cut->count);
    for (size_t done = 0; done < cuts; done++) {
        if (!ends_the_same(start, recorded, slices, cut, tally)) {
            return done;
        }
        show_progress(done + 1, cuts);
        draw_cut(cut, &random);
    }
    return cuts;
}

static double seconds_now(void)
{
    struct timespec now;
    clock_gettime(CLOCK_MONOTONIC, &now);
    return (double)now.tv_sec + (double)now.tv_nsec / 1e9;
}

/* Shows a cut that makes a difference, and then, since it may have large groups, the smallest group that makes one. */
static void report_difference(const struct run *start, const struct run *recorded, const struct slices *slices,
                              struct cut *cut)
{
    printf("The sizes of the groups; the recording has each slice in a group of its own:\n");
    explain(start, slices, cut);
    if (find_smallest(start, recorded, slices, cut)) {
        printf("The smallest group that makes a difference by itself:\n");
        explain(start, slices, cut);
    }
}

/* The answer is about the accepted slices alone, so it says how many there were besides. */
static void print_left_out(const struct slices *slices)
{
    if (slices->left_out > 0) {
        printf("%zu of %zu recorded slices %s refused and left out.\n", slices->left_out,
               slices->left_out + slices->count, plural(slices->left_out, "was", "were"));
    }
}

/* The answer if no cut made a difference. */
static void report_same(const struct run *recorded, const struct slices *slices, size_t cuts, struct tally tally,
                        double seconds)
{
    printf("All joined outputs and all final patches are the same, byte for byte: %zu %s of %zu %s, %zu %s in all, "
           "the largest of %zu joined, in %.2f seconds.\n",
           cuts, plural(cuts, "cut", "cuts"), slices->count, plural(slices->count, "slice", "slices"), tally.feeds,
           plural(tally.feeds, "feed", "feeds"), tally.largest, seconds);
    counts_print("Cues and levels, in every cut: ", &recorded->counts, ".\n");
    totals_print(patch_file(&recorded->patch));
}

/* Compares cuts with the recording and reports. */
static enum status compare(const struct run *start, const struct run *recorded, const struct slices *slices,
                           size_t cuts, uint64_t seed)
{
    struct tally tally = {0};
    struct cut cut = {memory(slices->count, sizeof *cut.joins), slices->count};
    double began = seconds_now();
    size_t same = compare_cuts(start, recorded, slices, &cut, cuts, seed, &tally);
    if (same < cuts) {
        end_progress();
        printf("Cut %zu of %zu makes a difference.\n", same + 1, cuts);
        report_difference(start, recorded, slices, &cut);
    } else {
        report_same(recorded, slices, cuts, tally, seconds_now() - began);
    }
    bool counts = counts_hold(start, recorded, slices), totals = totals_hold(start, recorded);
    print_left_out(slices);
    free(cut.joins);
    return same < cuts || !counts || !totals ? STATUS_REFUSED : STATUS_DONE;
}

static enum status rehearse(struct opened_show *opened, size_t cuts, uint64_t seed)
{
    struct run start = {.patch = opened->patch, .output_type = opened->output_type};
    struct run recorded = start;
    struct slices slices = feed_as_recorded(&recorded, opened);
    if (slices.left_out > 1) {
        tell("%s", first_refusal_first);
    }
    enum status status = STATUS_UNUSABLE;
    if (slices.count == 0) {
        tell("no slice was accepted, so there is nothing to compare");
    } else {
        status = compare(&start, &recorded, &slices, cuts, seed);
    }
    free(slices.list);
    return status;
}

int main(int count, char **words)
{
    struct opened_show opened;
    program_begin(help, count, words);
    if (count < 2 || words[1][0] == '-') {
        stop_for_words(words[1]); /* NULL if there is none */
    }
    if (count > 4) {
        stop_for_words(words[4]);
    }
    uint64_t cuts = count > 2 ? number_between(words[2], 1, UINT64_MAX) : 1000;
    uint64_t seed = count > 3 ? number_between(words[3], 0, UINT64_MAX) : 1;
    enum status status = open_show(words[1], &opened);
    if (status == STATUS_DONE) {
        status = rehearse(&opened, cuts, seed);
    }
    close_show(&opened);
    return program_end(status);
}
