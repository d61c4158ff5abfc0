/*
 * The spare box: a show is stopped in the middle, its patch file is carried to another box, and the show goes on there.
 *
 * Each box is a process of its own here. What goes from one to the other is the patch file alone: what is still to
 * come, what is still to be sent, and the totals, which go on. The slices come from a recorded show, which plays the
 * part of the outside. Those that come while the boxes are exchanged wait, and are fed as one.
 */
#include "faults.h"
#include "given_bytes.h"
#include "opening.h"
#include "totals.h"
#include "writing.h"

#include <stdio.h>
#include <string.h>

static const char help[] =
    "spare_box SHOW --until N PATCH SENT | SHOW --from N PATCH SENT LAST | SHOW --compare SENT SENT LAST\n"
    "\n"
    "Moves a show from one box to another, each a run of this program.\n"
    "\n"
    "  --until N   the box that is stopped: feeds the first N slices of the show. It writes the patch in force to the\n"
    "              file PATCH, and all that it has sent, joined to one slice, to the file SENT\n"
    "  --from N    the spare box: reads the file PATCH, and takes no patch from the show. It feeds the slices behind\n"
    "              the first N: those of a second and a half, which came while the boxes were exchanged, as one, and\n"
    "              then one by one. It writes all that it has sent to SENT, and the last patch to LAST\n"
    "  --compare   feeds the whole show in one box, and compares: the SENT of the first box joined with that of the\n"
    "              second, and LAST, have to be the same byte for byte; so have the totals, which are in LAST\n"
    "\n"
    "N is from 0 to the number of slices of the show. A box that has sent no slice writes a SENT of no bytes. A slice\n"
    "that is refused is told on the error stream and left out, as in the frame loop.\n"
    "\n"
    "Status: 0 fed, or nothing differs; 1 something differs, or the patch is refused; 2 the words or the files cannot\n"
    "be used.\n";

/* How many slices come while the boxes are exchanged. */
enum { EXCHANGE_SLICES = 3 * FRAMES_A_SECOND / 2 };

/* A box with its patch in force, and all that it has sent, as one slice of the type that its first patch gives. */
struct box {
    struct opened_show opened;
    struct joined sent;
};

/* Feeds slices that wait as one. A refused feed is as if they had not come. */
static void feed(struct box *box, const struct joined *waiting)
{
    uint8_t output[WOSTHILE_SLICE_FILE_MAX];
    wosthile_fed fed = patch_feed(&box->opened.patch, joined_file(waiting), output);
    if (fed.number != WOSTHILE_ACCEPTED) {
        tell("a feed is refused with %u, and the patch stays: %s", fed.number, wosthile_sentence(fed.number));
        return;
    }
    if (joined_add(&box->sent, type_file(&box->opened.output_type), (struct file){output, fed.output}) !=
        WOSTHILE_ACCEPTED) {
        stop("what is sent is no slice of what is left of the output type");
    }
}

/* Adds a slice of the show to those that wait; one that is refused is told and left out. */
static void take(struct opened_show *opened, struct joined *waiting, size_t index)
{
    struct file slice = opened->show.slices[index];
    struct lane_events events;
    uint32_t number = joined_add(waiting, patch_input_type(&opened->patch), slice);
    if (number == WOSTHILE_ACCEPTED) {
        lanes_follow(&opened->in, slice, &events); /* so that a refused slice is told by its lanes */
        return;
    }
    char place[MESSAGE_BYTES];
    slice_fault_text(place, sizeof place, &opened->in, slice, &opened->names.in, &opened->show);
    tell("recorded slice %zu is refused with %u, and left out: %s\n    %s", index + 1, number,
         wosthile_sentence(number), place);
}

/* Feeds the slices of the show from one place up to another: so many of the first ones as one, then one by one. */
static void feed_slices(struct box *box, size_t from, size_t to, size_t as_one)
{
    struct joined waiting = {.count = 0};
    for (size_t index = from; index < to; index++) {
        take(&box->opened, &waiting, index);
        bool more_wait = index + 1 < to && index + 1 < from + as_one;
        if (waiting.count > 0 && !more_wait) {
            feed(box, &waiting);
            waiting.count = 0;
        }
    }
}

/* Where the show stands, and the totals that its patch has brought along so far. */
static void print_place(const struct box *box, const char *what, size_t slices)
{
    printf("%s behind slice %zu of %zu.\n", what, slices, box->opened.show.count);
    totals_print(patch_file(&box->opened.patch));
}

/* The box that is stopped. */
static enum status play_until(struct box *box, const char *path, char **words)
{
    need_other_file(words[1], path);
    need_other_file(words[2], path);
    if (open_show(path, &box->opened) != STATUS_DONE) {
        return STATUS_REFUSED;
    }
    size_t until = number_between(words[0], 0, box->opened.show.count);
    feed_slices(box, 0, until, 1);
    print_place(box, "Stopped", until);
    bool written =
        write_file(words[1], patch_file(&box->opened.patch)) && write_file(words[2], joined_file(&box->sent));
    return written ? STATUS_DONE : STATUS_UNUSABLE;
}

/* The spare box: of the show it has the slices that are still to come, and the patch that was carried to it. */
static enum status play_from(struct box *box, const char *path, char **words)
{
    for (int written = 2; written <= 3; written++) {
        need_other_file(words[written], path);
        need_other_file(words[written], words[1]);
    }
    need_show(path, &box->opened.show);
    size_t from = number_between(words[0], 0, box->opened.show.count), count = box->opened.show.count;
    size_t waited = count - from < EXCHANGE_SLICES ? count - from : EXCHANGE_SLICES;
    if (open_patch(words[1], &box->opened) != STATUS_DONE) {
        return STATUS_REFUSED;
    }
    print_place(box, "Taken over", from);
    printf("%zu %s while the boxes were exchanged%s.\n", waited, plural(waited, "slice came", "slices came"),
           waited > 1 ? ", and are fed as one" : "");
    feed_slices(box, from, count, waited);
    show_tell_unfinished(path, &box->opened.show);
    print_place(box, "At the end,", count);
    bool written =
        write_file(words[2], joined_file(&box->sent)) && write_file(words[3], patch_file(&box->opened.patch));
    return written ? STATUS_DONE : STATUS_UNUSABLE;
}

/* Joins what a box has sent to what the one before it has sent; false if it is no slice of what that leaves. */
static bool join_sent(struct joined *sent, const struct type *output_type, const char *word)
{
    static struct given_bytes bytes;
    given_bytes_read(word, &bytes);
    uint32_t number =
        bytes.length == 0 ? WOSTHILE_ACCEPTED : joined_add(sent, type_file(output_type), given_file(&bytes));
    if (number != WOSTHILE_ACCEPTED) {
        printf("%s cannot be joined: it is refused with %u: %s\n", word, number, wosthile_sentence(number));
    }
    return number == WOSTHILE_ACCEPTED;
}

/* Says whether a file of the show that was moved is that of the show that was not. */
static bool is_same(const char *what, struct file moved, struct file unmoved)
{
    size_t place = 0, shorter = moved.length < unmoved.length ? moved.length : unmoved.length;
    while (place < shorter && moved.bytes[place] == unmoved.bytes[place]) {
        place++;
    }
    bool same = moved.length == unmoved.length && place == shorter;
    if (same) {
        printf("%s: %zu bytes, the same as of one box.\n", what, moved.length);
    } else {
        printf("%s: %zu bytes, others than the %zu of one box from byte %zu on.\n", what, moved.length, unmoved.length,
               place);
    }
    return same;
}

/* The show in one box, and what the two boxes have sent and left, beside it. */
static enum status compare(struct box *box, const char *path, char **words)
{
    static struct given_bytes last;
    struct joined sent = {.count = 0};
    if (open_show(path, &box->opened) != STATUS_DONE) {
        return STATUS_REFUSED;
    }
    given_bytes_read(words[2], &last);
    feed_slices(box, 0, box->opened.show.count, 1);
    print_place(box, "In one box,", box->opened.show.count);
    const struct type *output_type = &box->opened.output_type;
    bool joined = join_sent(&sent, output_type, words[0]) && join_sent(&sent, output_type, words[1]);
    bool same = is_same("Sent by two boxes, joined", joined_file(&sent), joined_file(&box->sent)) && joined;
    same = is_same("The last patch of two boxes", given_file(&last), patch_file(&box->opened.patch)) && same;
    return same ? STATUS_DONE : STATUS_REFUSED;
}

/* What the program can be asked for, and how many words follow. */
struct task {
    const char *word;
    int words;
    enum status (*run)(struct box *box, const char *path, char **words);
};

static const struct task tasks[] = {{"--until", 3, play_until}, {"--from", 4, play_from}, {"--compare", 3, compare}};

static const struct task *find_task(const char *word)
{
    for (size_t index = 0; index < sizeof tasks / sizeof tasks[0]; index++) {
        if (strcmp(tasks[index].word, word) == 0) {
            return &tasks[index];
        }
    }
    return NULL;
}

int main(int count, char **words)
{
    static struct box box;
    program_begin(help, count, words);
    if (count < 3 || words[1][0] == '-') {
        stop_for_words(count > 1 && words[1][0] == '-' ? words[1] : NULL);
    }
    const struct task *task = find_task(words[2]);
    if (task == NULL || count < 3 + task->words) {
        stop_for_words(words[2]);
    }
    if (count > 3 + task->words) {
        stop_for_words(words[3 + task->words]);
    }
    enum status status = task->run(&box, words[1], words + 3);
    close_show(&box.opened);
    return program_end(status);
}
