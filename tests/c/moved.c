/*
 * A show that is moved to a spare box while it runs (M-105). All that goes there is the patch file: the other box is
 * this program again, in a process of its own, which reads the patch from its standard input.
 *
 *   moved                  plays each show here, and again with every place at which it can be moved, once and twice
 *   moved SHOW FROM TO     is the other box: feeds these slices of the show, and writes what the feeds answered
 *
 * The show that was moved ends with the same patch and the same totals, and has sent the same, as the one that was not.
 * If the totals are lost on the way, it ends with another patch.
 */
#define _POSIX_C_SOURCE 200809L /* for fork, pipe and signal */
#include "bytes.h"

#include <signal.h>
#include <sys/wait.h>
#include <unistd.h>

enum { SLICES_MAX = 8, NOT_STARTED = 127 };

struct show {
    const char *name;
    struct bytes start;
    size_t number;
    struct bytes slices[SLICES_MAX];
};

static const struct show shows[] = {
    {"comet, Saturn and a lamp, one slice refused",
     PATCH_OF((3, 1, 4, 1, 2), (9, 0, 4, 6, 5)),
     7,
     {FILE_OF(5, 1), FILE_OF(5, 2), FILE_OF(5, 2), FILE_OF(6, 0, 7, 2, 3), FILE_OF(7, 0, 3), FILE_OF(7, 0, 4, 1, 44),
      FILE_OF(7, 0, 0)}},
    {"everything is sent twice",
     PATCH_OF((4, 1, 4, 1, 1), (4, 0, 0)),
     4,
     {FILE_OF(7, 1, 7, 1, 1), FILE_OF(7, 2, 7, 1, 1), FILE_OF(7, 0, 7, 2, 1), FILE_OF(7, 0, 7, 0, 2)}},
    {"a cue in front, moved before, from other totals",
     COUNTED_PATCH_OF((1), (10, 14, 9, 2, 0), 1000, 70000),
     4,
     {FILE_OF(1), FILE_OF(1), FILE_OF(2), FILE_OF(0)}},
    {"the house fills",
     PATCH_OF((4, 1, 2), (4, 4, 2, 3, 78, 32, 0)),
     4,
     {FILE_OF(7, 1, 3), FILE_OF(7, 1, 3), FILE_OF(7, 2, 3), FILE_OF(7, 0, 4, 1, 44)}},
    {"a choice, made once and tried again",
     PATCH_OF((3, 1, 5, 1, 2), (9, 0, 15, 0, 2)),
     6,
     {FILE_OF(5, 1), FILE_OF(6, 2, 8), FILE_OF(8), FILE_OF(10, 3), FILE_OF(9, 1), FILE_OF(4, 2, 4)}},
    {"spread, from large totals",
     COUNTED_PATCH_OF((3, 1, 4, 1, 1), (13), 0x00ffffff, 0x7fffffff),
     4,
     {FILE_OF(5, 1), FILE_OF(5, 2), FILE_OF(6, 0, 7, 2, 1), FILE_OF(7, 0, 2)}},
    {"nothing is sent", PATCH_OF((4, 1, 1), (1, 0)), 3, {FILE_OF(7, 2, 1), FILE_OF(7, 0, 1), FILE_OF(7, 0, 2)}},
    {"the total is full before the last cue, which is refused",
     COUNTED_PATCH_OF((4, 1, 4, 1, 1), (0), WOSTHILE_TOTAL_MAX - 2, 5),
     5,
     {FILE_OF(7, 2, 7, 1, 1), FILE_OF(7, 0, 7, 1, 1), FILE_OF(7, 0, 7, 2, 1), FILE_OF(7, 0, 7, 0, 2),
      FILE_OF(7, 0, 7, 0, 1)}},
};
enum { SHOWS = sizeof shows / sizeof shows[0] };

/* A show so far: the patch in force, all that was sent as one slice, and the number of each feed. */
struct played {
    const struct show *show;
    uint8_t patch[WOSTHILE_PATCH_FILE_MAX], sent[WOSTHILE_SLICE_FILE_MAX];
    size_t patch_length, sent_length;
    uint8_t numbers[SLICES_MAX];
};

static struct bytes patch_in_force(const struct played *played)
{
    return (struct bytes){played->patch, played->patch_length};
}

/* Feeds a slice to the patch, which the patch left replaces; answers the number, and how much was sent. */
static wosthile_fed feed_to(struct played *played, struct bytes slice, uint8_t output[WOSTHILE_SLICE_FILE_MAX])
{
    static uint8_t left[WOSTHILE_PATCH_FILE_MAX];
    wosthile_fed fed = wosthile_feed(played->patch, played->patch_length, slice.at, slice.count, output,
                                     WOSTHILE_SLICE_FILE_MAX, left, sizeof left);
    if (fed.number == WOSTHILE_ACCEPTED) {
        memcpy(played->patch, left, fed.patch);
        played->patch_length = fed.patch;
    }
    return fed;
}

/* Notes the number of a feed, and joins what it sent to what was sent before. */
static void note_feed(struct played *played, size_t which, uint32_t number, struct bytes output)
{
    uint8_t type[WOSTHILE_TYPE_FILE_MAX], joined[WOSTHILE_SLICE_FILE_MAX];
    struct bytes start = played->show->start;
    played->numbers[which] = (uint8_t)number;
    if (number != WOSTHILE_ACCEPTED) {
        return;
    }
    size_t length = wosthile_check(start.at, start.count, type, sizeof type).written;
    struct bytes all = output;
    if (played->sent_length > 0) {
        wosthile_written written = wosthile_join(type, length, played->sent, played->sent_length, output.at,
                                                 output.count, joined, sizeof joined);
        count(written.number == WOSTHILE_ACCEPTED, "an output that follows the others", played->show->name, which);
        all = (struct bytes){joined, written.written};
    }
    append(played->sent, all);
    played->sent_length = all.count;
}

static struct played begin(const struct show *show)
{
    struct played played = {.show = show, .patch_length = show->start.count};
    append(played.patch, show->start);
    return played;
}

static void play_here(struct played *played, size_t from, size_t to)
{
    for (size_t which = from; which < to; which++) {
        uint8_t output[WOSTHILE_SLICE_FILE_MAX];
        wosthile_fed fed = feed_to(played, played->show->slices[which], output);
        note_feed(played, which, fed.number, (struct bytes){output, fed.output});
    }
}

/* The other box writes for each slice its number and, if that is 0, the output; and then the patch. */
static int be_the_other_box(const struct show *show, size_t from, size_t to)
{
    static struct played played;
    played.show = show;
    played.patch_length = fread(played.patch, 1, sizeof played.patch, stdin);
    for (size_t which = from; which < to; which++) {
        uint8_t output[WOSTHILE_SLICE_FILE_MAX];
        wosthile_fed fed = feed_to(&played, show->slices[which], output);
        putchar((int)fed.number);
        fwrite(output, 1, fed.output, stdout);
    }
    fwrite(played.patch, 1, played.patch_length, stdout);
    return fflush(stdout) == 0 && !ferror(stdout) && !ferror(stdin) ? EXIT_SUCCESS : EXIT_FAILURE;
}

/* What the other box may write at most. */
enum { ANSWER_MAX = SLICES_MAX * (1 + WOSTHILE_SLICE_FILE_MAX) + WOSTHILE_PATCH_FILE_MAX };

/* In the new process: the pipes are its standard input and output, and this program takes its place. */
static void become_the_other_box(char *program, char *const words[3], const int in[2], const int out[2])
{
    char *const all[] = {program, words[0], words[1], words[2], NULL};
    if (dup2(in[0], STDIN_FILENO) >= 0 && dup2(out[1], STDOUT_FILENO) >= 0 && close(in[0]) == 0 && close(in[1]) == 0 &&
        close(out[0]) == 0 && close(out[1]) == 0) {
        execv(program, all);
    }
    _exit(NOT_STARTED);
}

/* Hands the patch over and reads the answer to its end; both are shorter than what a pipe holds. */
static size_t exchange(struct bytes patch, int to, int from, uint8_t answer[ANSWER_MAX])
{
    size_t length = 0;
    bool handed_over = write(to, patch.at, patch.count) == (ssize_t)patch.count;
    close(to);
    for (ssize_t got = 1; handed_over && got > 0 && length<ANSWER_MAX; length += got> 0 ? (size_t)got : 0) {
        got = read(from, answer + length, ANSWER_MAX - length);
    }
    close(from);
    return length;
}

/* Runs the other box; answers how much it wrote, or 0 if it did not end as it should. */
static size_t run_the_other_box(char *program, char *const words[3], struct bytes patch, uint8_t answer[ANSWER_MAX])
{
    int in[2], out[2], status = 0;
    if (pipe(in) != 0 || pipe(out) != 0) {
        return 0;
    }
    pid_t box = fork();
    if (box == 0) {
        become_the_other_box(program, words, in, out);
    }
    close(in[0]);
    close(out[1]);
    size_t length = exchange(patch, in[1], out[0], answer);
    bool ended = box > 0 && waitpid(box, &status, 0) == box && WIFEXITED(status) && WEXITSTATUS(status) == 0;
    return ended ? length : 0;
}

/* The next file of one section in an answer: all that is left of it if its count says more. */
static struct bytes section_at(const uint8_t *at, size_t rest)
{
    size_t length = rest < 2 ? rest : 2 + (size_t)at[0] * 256 + at[1];
    return (struct bytes){at, length < rest ? length : rest};
}

/* The same slices in another process, which is handed the patch and nothing else of what came before. */
static void play_elsewhere(struct played *played, char *program, size_t from, size_t to)
{
    static uint8_t answer[ANSWER_MAX];
    char which_show[24], first[24], behind[24];
    snprintf(which_show, sizeof which_show, "%zu", (size_t)(played->show - shows));
    snprintf(first, sizeof first, "%zu", from);
    snprintf(behind, sizeof behind, "%zu", to);
    size_t length =
        run_the_other_box(program, (char *const[]){which_show, first, behind}, patch_in_force(played), answer);
    size_t place = 0;
    count(length > 0, "the other box", played->show->name, from);
    for (size_t which = from; which < to && place < length; which++) {
        uint8_t number = answer[place++];
        struct bytes output = section_at(answer + place, number == WOSTHILE_ACCEPTED ? length - place : 0);
        note_feed(played, which, number, output);
        place += output.count;
    }
    played->patch_length = length - place <= sizeof played->patch ? length - place : 0;
    memcpy(played->patch, answer + place, played->patch_length);
}

static bool same_end(const struct played *one, const struct played *other)
{
    return one->patch_length == other->patch_length && memcmp(one->patch, other->patch, one->patch_length) == 0 &&
           same_counts(totals_in(patch_in_force(one)), totals_in(patch_in_force(other)));
}

/* Both ended with the same patch, answered each slice with the same number, and sent the same. */
static bool same_show(const struct played *one, const struct played *other)
{
    return same_end(one, other) && one->sent_length == other->sent_length &&
           memcmp(one->sent, other->sent, one->sent_length) == 0 &&
           memcmp(one->numbers, other->numbers, sizeof one->numbers) == 0;
}

static size_t moved_once, moved_twice, without_totals;

/* From one box to a second and from there to a third. */
static void check_moved_twice(const struct played *whole, char *program, size_t first, size_t second)
{
    struct played moved = begin(whole->show);
    play_here(&moved, 0, first);
    play_elsewhere(&moved, program, first, second);
    play_elsewhere(&moved, program, second, whole->show->number);
    count(same_show(&moved, whole), "moved twice", whole->show->name, 100 * first + second);
    moved_twice++;
}

/* The totals do not go with the patch: another end, exactly if there were any. */
static void check_lost_totals(const struct played *whole, char *program, size_t place)
{
    struct played moved = begin(whole->show);
    play_here(&moved, 0, place);
    bool any = !same_counts(totals_in(patch_in_force(&moved)), nothing_counted);
    set_totals(moved.patch, moved.patch_length, nothing_counted);
    play_elsewhere(&moved, program, place, whole->show->number);
    count(same_end(&moved, whole) != any, "moved without its totals", whole->show->name, place);
    without_totals += any;
}

static void check_show(const struct show *show, char *program)
{
    struct played whole = begin(show);
    play_here(&whole, 0, show->number);
    for (size_t place = 0; place <= show->number; place++) {
        struct played moved = begin(show);
        play_here(&moved, 0, place);
        play_elsewhere(&moved, program, place, show->number);
        count(same_show(&moved, &whole), "moved", show->name, place);
        moved_once++;
        check_lost_totals(&whole, program, place);
        for (size_t second = place; second <= show->number; second++) {
            check_moved_twice(&whole, program, place, second);
        }
    }
}

/* The shows are what their names say: feeds are refused with 14 and with 31, and all others are accepted. */
static void check_numbers_met(void)
{
    size_t met[256] = {0}, slices = 0;
    for (size_t which = 0; which < SHOWS; which++) {
        struct played played = begin(&shows[which]);
        play_here(&played, 0, shows[which].number);
        for (size_t slice = 0; slice < shows[which].number; slice++) {
            met[played.numbers[slice]]++;
        }
        slices += shows[which].number;
    }
    count(met[14] == 2 && met[31] == 1 && met[0] == slices - 3, "shows", "the numbers of their feeds", met[0]);
}

int main(int words_count, char **words)
{
    if (words_count == 4) {
        size_t show = strtoul(words[1], NULL, 10) % SHOWS;
        return be_the_other_box(&shows[show], strtoul(words[2], NULL, 10), strtoul(words[3], NULL, 10));
    }
    signal(SIGPIPE, SIG_IGN); /* a box that ends too early is counted as a failure */
    check_numbers_met();
    for (size_t show = 0; show < SHOWS; show++) {
        check_show(&shows[show], words[0]);
    }
    count(without_totals > 0, "never met", "totals that were lost", without_totals);
    printf("%d shows, moved once: %zu, twice: %zu; without their totals: %zu, each with another end\n", SHOWS,
           moved_once, moved_twice, without_totals);
    printf("%d passed, %d failed\n", passed, failed);
    return failed != 0;
}
