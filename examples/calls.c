/* A small show: its patch is checked, fed slice by slice, and fed two of the slices as one; what came is counted. */
#include <stdio.h>
#include <string.h>
#include <wosthile.h>

static const uint8_t show[] = {0, 5, 3, 1, 4, 1, 2};   /* a comet's cue, then Saturn's and a lamp */
static const uint8_t comet[] = {0, 2, 5, 2};           /* the comet has come */
static const uint8_t saturn[] = {0, 5, 6, 0, 7, 2, 3}; /* crossed; Saturn has come, no lamp yet */
static const uint8_t lamp[] = {0, 5, 7, 0, 4, 1, 44};  /* the lamp is at 300 */

/* The patch: on that show pass, then swap the sides; behind it the totals, both 0, as it was never fed. */
static const uint8_t start[] = {0, 5, 3, 1, 4, 1, 2, 0, 5, 9, 0, 4, 6, 5, 0, 8, 0, 0, 0, 0, 0, 0, 0, 0};

static uint8_t output[WOSTHILE_SLICE_FILE_MAX], buffers[2][WOSTHILE_PATCH_FILE_MAX];

static void print_file(const char *what, const uint8_t *file, size_t length)
{
    printf("%s:", what);
    for (size_t place = 0; place < length; place++) {
        printf(" %d", file[place]);
    }
    printf("\n");
}

/* What a feed sends, and how many cues and levels came and were sent. */
static void print_fed(const char *what, wosthile_fed fed)
{
    print_file(what, output, fed.output);
    printf("  arrived %u, sent %u\n", fed.arrived, fed.sent);
}

/* How many cues and levels came and were sent in all feeds that led to a patch: its totals. */
static void print_totals(const uint8_t *patch, size_t length)
{
    wosthile_totals totals = wosthile_totals_of(patch, length);
    printf("  in all arrived %u, sent %u\n", totals.arrived, totals.sent);
}

struct frame {
    const char *what;
    const uint8_t *slice;
    size_t length;
};

static const struct frame frames[] = {
    {"the comet", comet, sizeof comet},
    {"the comet again", comet, sizeof comet},
    {"Saturn", saturn, sizeof saturn},
    {"the lamp", lamp, sizeof lamp},
};

/* Never in place: one buffer holds the patch that is fed, the other takes the patch left, and then they swap. */
static void feed_in_turn(void)
{
    uint8_t *patch = buffers[0], *left = buffers[1];
    size_t length = sizeof start;
    memcpy(patch, start, length);
    for (size_t index = 0; index < sizeof frames / sizeof frames[0]; index++) {
        struct frame frame = frames[index];
        wosthile_fed fed = wosthile_feed(patch, length, frame.slice, frame.length, output, sizeof output, left,
                                         WOSTHILE_PATCH_FILE_MAX);
        if (fed.number != WOSTHILE_ACCEPTED) {
            printf("%s: refused with %u, and the patch stays\n", frame.what, fed.number);
            continue;
        }
        print_fed(frame.what, fed);
        uint8_t *swapped = patch;
        patch = left;
        left = swapped;
        length = fed.patch;
    }
    print_file("the patch left", patch, length);
    print_totals(patch, length);
}

int main(void)
{
    uint8_t type[WOSTHILE_TYPE_FILE_MAX], both[WOSTHILE_SLICE_FILE_MAX];
    wosthile_written checked = wosthile_check(start, sizeof start, type, sizeof type);
    print_file("the patch gives", type, checked.written);

    feed_in_turn();

    wosthile_written joined =
        wosthile_join(show, sizeof show, comet, sizeof comet, saturn, sizeof saturn, both, sizeof both);
    print_file("comet and Saturn as one", both, joined.written);
    wosthile_fed fed =
        wosthile_feed(start, sizeof start, both, joined.written, output, sizeof output, buffers[0], sizeof buffers[0]);
    print_fed("fed as one", fed);
    print_totals(buffers[0], fed.patch);

    wosthile_written rest = wosthile_left(show, sizeof show, both, joined.written, type, sizeof type);
    wosthile_admitted seen = wosthile_admit(type, rest.written, lamp, sizeof lamp);
    printf("the lamp, of what they leave: number %u, complete %u, arrived %u\n", seen.number, seen.complete,
           seen.arrived);
    if (ferror(stdout) || fclose(stdout) != 0) {
        fprintf(stderr, "calls: standard output cannot be written\n");
        return 2;
    }
    return 0;
}
