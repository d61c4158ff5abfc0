/*
 * Explains a show, a patch, or a type with a slice: what its bytes say and, if it is refused, where and why.
 */
#include "counts.h"
#include "given_bytes.h"
#include "listing.h"
#include "opening.h"
#include "totals.h"

#include <stdio.h>
#include <stdlib.h>
#include <string.h>

static const char help[] =
    "explain SHOW [--all] | --patch PATCH | --type TYPE | --slice TYPE SLICE\n"
    "\n"
    "Prints what is in a file as a person reads it. PATCH, TYPE and SLICE are each a file, or its bytes in decimal as\n"
    "one word: explain --slice \"0 3 3 1 2\" \"0 2 5 2\".\n"
    "\n"
    "  SHOW      a show file: its patch; then frame by frame what comes and what is sent for it, with how many cues\n"
    "            and levels these are; how it ends, how many cues and levels arrived and were sent in it, and the\n"
    "            totals of its last patch. Lanes have the names in X.lanes beside X.show. With --all also every slice\n"
    "            byte by byte.\n"
    "  --patch   a patch: the type of its input, its nodes with the types that each takes and gives, its totals, its\n"
    "            output type, and for its input and its output the longest slice and the most cues and levels. Of a\n"
    "            cue or level node it says what it waits for, or that it sends at its first feed\n"
    "  --type    a type, the most cues and levels of it, and its longest slice byte by byte\n"
    "  --slice   a slice of a type, how many cues and levels come in it, whether it is complete, and what it leaves\n"
    "            of the type\n"
    "\n"
    "Cues and levels are counted by the library, in every slice that comes and every slice that is sent; crossings\n"
    "and choices are not counted. The most cues and levels of a type are those that a stream of it can have from its\n"
    "first slice to its last: of two parts of which one is chosen, those of the part that has more. The totals of a\n"
    "patch are what arrived and was sent in all feeds that led to it, those in another box too. A patch of before\n"
    "release 1.5.0 has none and is refused; the program add_totals adds them.\n"
    "\n"
    "The longest slice of a type is for whoever sizes the packets of a link: it is told in bytes of a slice file, and\n"
    "no slice of a stream of that type, be it the first or a later one, makes a longer file.\n"
    "\n"
    "Bytes are counted from 0 at the front of the file; a count or a length has two bytes, the high byte first. What\n"
    "is refused is told with its number, the number's sentence, and the place of the fault.\n"
    "\n"
    "Exit status: 0 if nothing is wrong; 1 if something is refused, or a show file ends inside a slice; 2 if the "
    "words\n"
    "or the files cannot be used.\n";

static void print_refusal(const char *what, uint32_t number, const char *place)
{
    printf("%s refused with %u: %s\n    %s\n", what, number, wosthile_sentence(number), place);
}

/* Lists the type at the front of a file, with its notation on one line if it is whole. */
static void explain_type_section(const struct listed *listed, const char *what, size_t end, bool whole)
{
    char line[TYPE_TEXT_BYTES];
    type_text(line, (struct file){listed->file.bytes + 2, end - 2});
    printf("%s%s%s\n", what, whole ? ": " : "", whole ? line : "");
    list_type(listed, end);
}

/* How long the slices of an accepted type can get; if they are wanted, with the bytes, as --slice takes them. */
static void print_longest(const char *which, struct file type, bool with_bytes)
{
    uint8_t slice[WOSTHILE_SLICE_FILE_MAX];
    size_t length = wosthile_longest(type.bytes, type.length, slice, sizeof slice).written;
    printf("Longest slice of %s: %zu bytes as a file\n", which, length);
    for (size_t place = 0; with_bytes && place < length; place++) {
        printf("%s%u%s", place == 0 ? "    " : " ", slice[place], place + 1 == length ? "\n" : "");
    }
}

/* How many cues and levels can come of an accepted type in all: what the counts of a whole show reach at most. */
static void print_most(const char *which, struct file type)
{
    printf("Most cues and levels of %s: %zu\n", which, type_arrivals_max(section_of(type), 0));
}

static enum status explain_type(struct file type)
{
    struct listed listed = {.file = type};
    struct fault fault = type_fault(type);
    if (type.length >= 2) {
        explain_type_section(&listed, "Type", type_front(type), fault.number == WOSTHILE_ACCEPTED);
    }
    if (fault.number == WOSTHILE_ACCEPTED) {
        return STATUS_DONE;
    }
    char place[MESSAGE_BYTES];
    type_fault_text(place, sizeof place, type);
    print_refusal("The type is", fault.number, place);
    return STATUS_REFUSED;
}

/* What has come in an admitted slice, and what it leaves of its type. */
static void print_admitted(struct file type, struct file slice)
{
    struct type left;
    char line[TYPE_TEXT_BYTES];
    wosthile_admitted admitted = wosthile_admit(type.bytes, type.length, slice.bytes, slice.length);
    left.length =
        wosthile_left(type.bytes, type.length, slice.bytes, slice.length, left.bytes, sizeof left.bytes).written;
    type_text(line, section_of(type_file(&left)));
    printf("Cues and levels that come in it: %u\n", admitted.arrived);
    printf("The slice is %scomplete. It leaves: %s\n", admitted.complete != 0 ? "" : "not ", line);
}

static enum status explain_slice(struct file type, struct file slice)
{
    struct lanes lanes;
    if (explain_type(type) != STATUS_DONE || !lanes_start(&lanes, type)) {
        return STATUS_REFUSED;
    }
    struct listed listed = {.file = slice};
    struct fault fault = slice_fault(type, slice);
    printf("Slice\n");
    if (slice.length >= 2) {
        list_slice(&listed, &lanes, slice_front(type, slice));
    }
    if (fault.number == WOSTHILE_ACCEPTED) {
        print_admitted(type, slice);
        return STATUS_DONE;
    }
    char place[MESSAGE_BYTES];
    slice_fault_text(place, sizeof place, &lanes, slice, NULL, NULL);
    print_refusal("The slice is", fault.number, place);
    return STATUS_REFUSED;
}

/* Lists the totals of a patch, with both on one line if they are whole. */
static void explain_totals_section(const struct listed *listed, size_t section, bool whole)
{
    if (whole) {
        struct counts totals = totals_of(listed->file);
        counts_print("Totals: ", &totals, " in all\n");
    } else {
        printf("Totals\n");
    }
    list_totals(listed, section, totals_front(listed->file));
}

/* Lists the three sections of a patch as far as they are there. */
static void list_patch(const struct listed *listed, const struct patch_tree *tree, struct fault fault)
{
    struct file patch = listed->file;
    size_t nodes = 2 + section_of(patch).length;
    if (patch.length < 2) {
        return;
    }
    bool is_read = fault.number == WOSTHILE_ACCEPTED || fault.at == AT_NODE;
    enum section first_wrong = is_read ? SECTIONS : fault.section;
    explain_type_section(listed, "Input type", type_front(patch), first_wrong > FIRST_SECTION);
    if (first_wrong == FIRST_SECTION || patch.length < nodes + 2) {
        return;
    }
    printf("Nodes\n");
    list_nodes(listed, tree, nodes, nodes_front(patch));
    size_t totals = nodes + 2 + section_of((struct file){patch.bytes + nodes, patch.length - nodes}).length;
    if (first_wrong > NODES_SECTION && patch.length >= totals + 2) {
        explain_totals_section(listed, totals, is_read);
    }
}

/* Explains a patch; the names of the output's lanes are apart from those of the file, which are the input's. */
static enum status explain_patch(const struct listed *listed, const struct side_names *out)
{
    struct patch_tree *tree = memory(1, sizeof *tree);
    struct fault fault = patch_fault(listed->file, tree);
    list_patch(listed, tree, fault);
    if (fault.number == WOSTHILE_ACCEPTED) {
        struct file input = {listed->file.bytes, 2 + section_of(listed->file).length};
        struct listed output = {.file = type_file(&tree->nodes[0].output), .names = out};
        explain_type_section(&output, "Output type, a file that Check writes", output.file.length, true);
        print_most("the input type", input);
        print_most("the output type", output.file);
        print_longest("the input type", input, false);
        print_longest("the output type", output.file, false);
    } else {
        char place[MESSAGE_BYTES];
        patch_fault_text(place, sizeof place, listed->file, listed->names, listed->show);
        print_refusal("The patch is", fault.number, place);
    }
    free(tree);
    return fault.number == WOSTHILE_ACCEPTED ? STATUS_DONE : STATUS_REFUSED;
}

/* A show that is fed slice by slice, as it was recorded. */
struct playing {
    const struct show *show;
    const struct lane_names *names;
    bool all; /* every slice is listed byte by byte */
    struct patch patch;
    struct lanes in, out;
    size_t bringing, refused;
    struct counts counts;
};

/* What came, or was sent, with the library's count of it: crossings and choices are among the events alone. */
static void print_events(const char *what, uint32_t counted, const struct lane_events *events,
                         const struct side_names *names)
{
    if (events->count > 0) {
        printf("  %s (cues and levels: %u)\n", what, counted);
    }
    for (size_t index = 0; index < events->count; index++) {
        lane_event_print(&events->list[index], names);
    }
}

static void print_frame(const struct playing *playing, size_t index)
{
    struct file slice = playing->show->slices[index];
    printf("frame %zu, the slice at byte %zu of the show\n", index + 1, show_place(playing->show, slice));
}

static void list_frame(const struct playing *playing, size_t index)
{
    struct file slice = playing->show->slices[index], type = {playing->in.type, 2 + playing->in.nodes};
    struct listed listed = {slice, playing->show, &playing->names->in};
    print_frame(playing, index);
    list_slice(&listed, &playing->in, slice_front(type, slice));
}

static void explain_refused(struct playing *playing, size_t index, uint32_t number)
{
    struct file slice = playing->show->slices[index];
    char what[MESSAGE_BYTES], place[MESSAGE_BYTES];
    if (number == WOSTHILE_FAULT_TOTAL_TOO_LARGE) {
        totals_fault_text(place, sizeof place, patch_file(&playing->patch), slice);
    } else {
        slice_fault_text(place, sizeof place, &playing->in, slice, &playing->names->in, playing->show);
    }
    snprintf(what, sizeof what, "frame %zu: the slice is", index + 1);
    print_refusal(what, number, place);
    playing->refused++;
}

static void explain_frame(struct playing *playing, size_t index)
{
    struct file slice = playing->show->slices[index];
    struct lane_events come, sent;
    uint8_t output[WOSTHILE_SLICE_FILE_MAX];
    if (playing->all) {
        list_frame(playing, index);
    }
    wosthile_fed fed = patch_feed(&playing->patch, slice, output);
    if (fed.number != WOSTHILE_ACCEPTED) {
        explain_refused(playing, index, fed.number);
        return;
    }
    lanes_follow(&playing->in, slice, &come);
    lanes_follow(&playing->out, (struct file){output, fed.output}, &sent);
    counts_add(&playing->counts, &fed);
    playing->bringing += come.count > 0;
    if (!playing->all && (come.count > 0 || sent.count > 0)) {
        print_frame(playing, index);
    }
    print_events("comes", fed.arrived, &come, &playing->names->in);
    print_events("is sent", fed.sent, &sent, &playing->names->out);
}

/* Tells the slice in which the show file ends, if it ends in one. */
static void print_unfinished(const struct show *show)
{
    char text[MESSAGE_BYTES];
    if (show->unfinished.frame != 0) {
        show_unfinished_text(text, sizeof text, &show->unfinished);
        printf("At the end %s.\n", text);
    }
}

static enum status explain_end(const struct playing *playing)
{
    const struct show *show = playing->show;
    size_t empty = show->count - playing->bringing - playing->refused;
    printf("%zu %s: %zu %s something, %zu %s nothing, %zu %s refused.\n", show->count,
           plural(show->count, "slice", "slices"), playing->bringing, plural(playing->bringing, "brings", "bring"),
           empty, plural(empty, "brings", "bring"), playing->refused, plural(playing->refused, "is", "are"));
    counts_print("Cues and levels: ", &playing->counts, ".\n");
    totals_print(patch_file(&playing->patch));
    lanes_print_owed(&playing->in, &playing->names->in);
    if (playing->refused > 1) {
        printf("%s\n", first_refusal_first);
    }
    return playing->refused > 0 || show->unfinished.frame != 0 ? STATUS_REFUSED : STATUS_DONE;
}

static enum status explain_slices(struct playing *playing)
{
    printf("Frames\n");
    for (size_t index = 0; index < playing->show->count; index++) {
        explain_frame(playing, index);
    }
    return explain_end(playing);
}

/* Explains the patch and, if it is accepted, the slices. */
static enum status explain_show(const char *path, const struct show *show, bool all)
{
    struct playing *playing = memory(1, sizeof *playing);
    struct lane_names *names = memory(1, sizeof *names);
    struct type output;
    *playing = (struct playing){.show = show, .names = names, .all = all};
    bool accepted = patch_start(&playing->patch, show->patch, &output) == WOSTHILE_ACCEPTED &&
                    lanes_start(&playing->in, patch_input_type(&playing->patch)) &&
                    lanes_start(&playing->out, type_file(&output));
    lane_names_read(names, path, accepted ? playing->in.count : LANES_MAX, accepted ? playing->out.count : LANES_MAX);
    printf("Patch: %zu %s, from byte %zu of the show; slices behind it: %zu\n", show->patch.length,
           plural(show->patch.length, "byte", "bytes"), show_place(show, show->patch), show->count);
    struct listed listed = {show->patch, show, &names->in};
    enum status status = explain_patch(&listed, &names->out);
    if (accepted) {
        status = explain_slices(playing);
    } else {
        printf("Without a patch no slice can be fed.%s\n", other_file_hint(path, show));
    }
    print_unfinished(show);
    free(names);
    free(playing);
    return status;
}

static enum status explain_show_file(const char *path, bool all)
{
    struct show show;
    need_show(path, &show);
    enum status status = explain_show(path, &show, all);
    show_release(&show);
    return status;
}

static enum status explain_words(int count, char **words)
{
    static struct given_bytes first, second;
    given_bytes_read(words[2], &first);
    if (count > 3) {
        given_bytes_read(words[3], &second);
        return explain_slice(given_file(&first), given_file(&second));
    }
    struct listed listed = {.file = given_file(&first)};
    if (strcmp(words[1], "--patch") == 0) {
        return explain_patch(&listed, NULL);
    }
    enum status status = explain_type(listed.file);
    if (status == STATUS_DONE) {
        print_most("this type", listed.file);
        print_longest("this type", listed.file, true);
    }
    return status;
}

/* How many files, or their bytes, follow a word; 0 if it is the name of a show. */
static int files_behind(const char *word)
{
    bool one = strcmp(word, "--patch") == 0 || strcmp(word, "--type") == 0;
    return one ? 1 : strcmp(word, "--slice") == 0 ? 2 : 0;
}

int main(int count, char **words)
{
    program_begin(help, count, words);
    int files = count > 1 ? files_behind(words[1]) : 0;
    bool all = files == 0 && count > 2 && strcmp(words[2], "--all") == 0;
    int due = 2 + files + all;
    if (count < due || (files == 0 && words[1][0] == '-')) {
        stop_for_words(words[1]); /* NULL if there is none */
    }
    if (count > due) {
        stop_for_words(words[due]);
    }
    return program_end(files > 0 ? explain_words(count, words) : explain_show_file(words[1], all));
}
