/*
 * Shows that are cut at every byte, and damaged at random: every refusal has a place in its file and counts no cue or
 * level, and a show that ends inside a slice is told so. The third section of the patch, its totals, is damaged byte by
 * byte, and filled: totals go on from where they begin, up to the greatest.
 *
 *   damaged_shows FILE SHOW..
 */
#include "made.h"

enum { DAMAGES = 300 };

/* How many feeds were refused for their totals, in all shows. */
static size_t full;

/* A feed that is refused for its totals has a slice with nothing wrong, which brings too much or makes too much sent.
 */
static void try_full(const struct patch *patch, struct file slice, const char *slice_text)
{
    char text[MESSAGE_BYTES];
    size_t arrived = 0, sent = 0, more_arrived = 0, more_sent = 0;
    totals_fault_text(text, sizeof text, patch_file(patch), slice);
    int read = sscanf(text,
                      "the patch has counted %zu arrived and %zu sent in all; with this slice %zu more would arrive"
                      " and %zu more be sent",
                      &arrived, &sent, &more_arrived, &more_sent);
    bool too_large = arrived + more_arrived > WOSTHILE_TOTAL_MAX || sent + more_sent > WOSTHILE_TOTAL_MAX;
    expect(slice_text[0] == '\0' && read == 4 && too_large, text, slice);
    full++;
}

/* The refusals of a show as explain tells them: each has a place in its file, unless it is for the totals. */
static size_t try_slices(const struct show *show, struct patch *patch, struct lanes *lanes)
{
    size_t refused = 0;
    struct counts totals = totals_of(patch_file(patch));
    for (size_t index = 0; index < show->count; index++) {
        char text[MESSAGE_BYTES];
        struct lane_events events;
        uint8_t output[WOSTHILE_SLICE_FILE_MAX];
        wosthile_fed fed = patch_feed(patch, show->slices[index], output);
        struct counts now = totals_of(patch_file(patch));
        counts_add(&totals, &fed);
        expect(counts_same(&totals, &now), "the totals do not go on", patch_file(patch));
        slice_fault_text(text, sizeof text, lanes, show->slices[index], NULL, show);
        expect(fed.number == WOSTHILE_ACCEPTED || (fed.arrived == 0 && fed.sent == 0), "a refused feed counts",
               show->slices[index]);
        if (fed.number == WOSTHILE_ACCEPTED) {
            expect(text[0] == '\0', "an accepted slice has a fault", show->slices[index]);
            lanes_follow(lanes, show->slices[index], &events);
        } else if (fed.number == WOSTHILE_FAULT_TOTAL_TOO_LARGE) {
            try_full(patch, show->slices[index], text);
        } else {
            try_text(text, show->slices[index]);
        }
        refused += fed.number != WOSTHILE_ACCEPTED;
    }
    return refused;
}

/* A show that ends inside a slice is told so, with its frame; the answer is 1 if it does. */
static size_t try_end(const struct show *show)
{
    char text[MESSAGE_BYTES], due[MESSAGE_BYTES];
    show_unfinished_text(text, sizeof text, &show->unfinished);
    snprintf(due, sizeof due, "the slice of frame %zu: ", show->count + 1);
    expect(show->unfinished.frame == 0 || strstr(text, due) != NULL, text, show->patch);
    return show->unfinished.frame != 0;
}

static size_t try_show(const char *path)
{
    static struct patch patch;
    struct show show;
    struct type output;
    struct lanes lanes;
    char text[MESSAGE_BYTES];
    size_t refused = 1;
    if (show_read(path, &show) != NULL) {
        expect(strstr(show.fault, "before its patch does") != NULL, show.fault, (struct file){NULL, 0});
        return refused;
    }
    patch_fault_text(text, sizeof text, show.patch, NULL, &show);
    if (patch_start(&patch, show.patch, &output) != WOSTHILE_ACCEPTED) {
        try_text(text, show.patch);
    } else if (lanes_start(&lanes, patch_input_type(&patch))) {
        expect(text[0] == '\0', "an accepted patch has a fault", show.patch);
        refused = try_slices(&show, &patch, &lanes) + try_end(&show);
    }
    show_release(&show);
    return refused;
}

static size_t try_written(const char *path, const uint8_t *bytes, size_t length)
{
    FILE *stream = fopen(path, "wb");
    if (stream == NULL || fwrite(bytes, 1, length, stream) != length || fclose(stream) != 0) {
        stop("%s cannot be written", path);
    }
    return try_show(path);
}

static void try_cuts(const char *path, const struct made *show)
{
    for (size_t length = 0; length < show->length; length++) {
        try_written(path, show->bytes, length);
    }
}

/* Random damages; most of them have to be found. */
static void try_damages(const char *path, const struct made *show)
{
    size_t found = 0;
    for (unsigned time = 0; time < DAMAGES; time++) {
        struct made hurt = *show;
        damage(&hurt);
        found += try_written(path, hurt.bytes, hurt.length) > 0;
    }
    expect(found > DAMAGES / 2, "few damages of the show are found", (struct file){NULL, 0});
}

/* Each byte of the third section changed: its count is wrong, or the totals are others. Then both totals are full. */
static void try_damaged_totals(const char *path, const struct made *show)
{
    static const uint8_t bytes[] = {0, 1, 7, 8, 9, 255};
    size_t end = 2 + section_of(file_of(show)).length, begin = end - WOSTHILE_TOTALS_SECTION;
    for (size_t place = begin; place < end; place++) {
        for (size_t index = 0; index < sizeof bytes; index++) {
            struct made hurt = *show;
            hurt.bytes[place] = bytes[index];
            bool wrong_count = place < begin + 2 && bytes[index] != show->bytes[place];
            size_t refused = try_written(path, hurt.bytes, hurt.length);
            expect(!wrong_count || refused > 0, "a wrong count of totals is not found", file_of(&hurt));
        }
    }
    for (uint8_t below = 0; below < 3; below++) {
        struct made filled = *show;
        size_t before = full;
        memset(filled.bytes + begin + 2, 255, WOSTHILE_TOTALS_SECTION - 2);
        filled.bytes[begin + 5] = (uint8_t)(255 - below);
        filled.bytes[begin + 9] = (uint8_t)(255 - below);
        try_written(path, filled.bytes, filled.length);
        expect(full > before || below > 0, "full totals are not met", (struct file){NULL, 0});
    }
}

static void try_damaged_show(const char *path, const char *written)
{
    static struct made show;
    FILE *stream = fopen(path, "rb");
    if (stream == NULL) {
        stop("%s cannot be opened", path);
    }
    show.length = fread(show.bytes, 1, FILE_BYTES, stream);
    fclose(stream);
    if (show.length == FILE_BYTES) {
        stop("%s is too long for this test", path);
    }
    try_cuts(written, &show);
    try_damages(written, &show);
    try_damaged_totals(written, &show);
}

int main(int count, char **words)
{
    program_begin("damaged_shows FILE SHOW..\n\nTries damaged shows; FILE is written anew for each.\n", count, words);
    if (count < 3) {
        stop_for_words(NULL);
    }
    for (int show = 2; show < count; show++) {
        try_damaged_show(words[show], words[1]);
    }
    return end_test("damaged shows");
}
