/*
 * The header and the archive agree: on the interface, on where each part of an answer is, and on every kind and every
 * number that the header names. Each is tried by a feed. The header cannot name a kind that the library lacks, or lack
 * one that the library has.
 */
#include "bytes.h"

/* A feed of a slice to a patch. */
struct example {
    struct bytes patch, slice;
};

#define FOUR_TIMES(...) __VA_ARGS__, __VA_ARGS__, __VA_ARGS__, __VA_ARGS__

/* A feed with each kind, all of which are accepted. */
static const struct example type_examples[] = {
    [WOSTHILE_TYPE_EMPTY] = {PATCH_OF((WOSTHILE_TYPE_EMPTY), (0)), FILE_OF(0)},
    [WOSTHILE_TYPE_CUE] = {PATCH_OF((WOSTHILE_TYPE_CUE), (0)), FILE_OF(1)},
    [WOSTHILE_TYPE_LEVEL] = {PATCH_OF((WOSTHILE_TYPE_LEVEL), (0)), FILE_OF(3)},
    [WOSTHILE_TYPE_SEQUENCE] = {PATCH_OF((WOSTHILE_TYPE_SEQUENCE, 1, 2), (0)), FILE_OF(5, 1)},
    [WOSTHILE_TYPE_BESIDE] = {PATCH_OF((WOSTHILE_TYPE_BESIDE, 1, 2), (0)), FILE_OF(7, 1, 3)},
    [WOSTHILE_TYPE_EITHER] = {PATCH_OF((WOSTHILE_TYPE_EITHER, 1, 2), (0)), FILE_OF(8)},
};

static const struct example slice_examples[] = {
    [WOSTHILE_SLICE_NOTHING] = {PATCH_OF((0), (0)), FILE_OF(WOSTHILE_SLICE_NOTHING)},
    [WOSTHILE_SLICE_CUE_AWAITED] = {PATCH_OF((1), (0)), FILE_OF(WOSTHILE_SLICE_CUE_AWAITED)},
    [WOSTHILE_SLICE_CUE_COME] = {PATCH_OF((1), (0)), FILE_OF(WOSTHILE_SLICE_CUE_COME)},
    [WOSTHILE_SLICE_LEVEL_AWAITED] = {PATCH_OF((2), (0)), FILE_OF(WOSTHILE_SLICE_LEVEL_AWAITED)},
    [WOSTHILE_SLICE_LEVEL_COME] = {PATCH_OF((2), (0)), FILE_OF(WOSTHILE_SLICE_LEVEL_COME, 1, 44)},
    [WOSTHILE_SLICE_IN_FIRST] = {PATCH_OF((3, 1, 2), (0)), FILE_OF(WOSTHILE_SLICE_IN_FIRST, 1)},
    [WOSTHILE_SLICE_CROSSED] = {PATCH_OF((3, 1, 2), (0)), FILE_OF(WOSTHILE_SLICE_CROSSED, 2, 3)},
    [WOSTHILE_SLICE_BESIDE] = {PATCH_OF((4, 1, 2), (0)), FILE_OF(WOSTHILE_SLICE_BESIDE, 2, 3)},
    [WOSTHILE_SLICE_NONE_CHOSEN] = {PATCH_OF((5, 1, 2), (0)), FILE_OF(WOSTHILE_SLICE_NONE_CHOSEN)},
    [WOSTHILE_SLICE_FIRST_CHOSEN] = {PATCH_OF((5, 1, 2), (0)), FILE_OF(WOSTHILE_SLICE_FIRST_CHOSEN, 1)},
    [WOSTHILE_SLICE_SECOND_CHOSEN] = {PATCH_OF((5, 1, 2), (0)), FILE_OF(WOSTHILE_SLICE_SECOND_CHOSEN, 3)},
};

static const struct example node_examples[] = {
    [WOSTHILE_NODE_PASS] = {PATCH_OF((1), (WOSTHILE_NODE_PASS)), FILE_OF(1)},
    [WOSTHILE_NODE_SILENT] = {PATCH_OF((1), (WOSTHILE_NODE_SILENT, 0)), FILE_OF(1)},
    [WOSTHILE_NODE_CUE] = {PATCH_OF((1), (WOSTHILE_NODE_CUE)), FILE_OF(1)},
    [WOSTHILE_NODE_LEVEL] = {PATCH_OF((1), (WOSTHILE_NODE_LEVEL, 1, 44)), FILE_OF(1)},
    [WOSTHILE_NODE_BOTH] = {PATCH_OF((1), (WOSTHILE_NODE_BOTH, 0, 0)), FILE_OF(1)},
    [WOSTHILE_NODE_LEFT] = {PATCH_OF((4, 1, 1), (WOSTHILE_NODE_LEFT)), FILE_OF(7, 1, 1)},
    [WOSTHILE_NODE_RIGHT] = {PATCH_OF((4, 1, 1), (WOSTHILE_NODE_RIGHT)), FILE_OF(7, 1, 1)},
    [WOSTHILE_NODE_FIRST] = {PATCH_OF((3, 1, 1), (WOSTHILE_NODE_FIRST)), FILE_OF(5, 1)},
    [WOSTHILE_NODE_SECOND] = {PATCH_OF((3, 1, 1), (WOSTHILE_NODE_SECOND)), FILE_OF(5, 1)},
    [WOSTHILE_NODE_THEN] = {PATCH_OF((3, 1, 1), (WOSTHILE_NODE_THEN, 0, 0)), FILE_OF(5, 1)},
    [WOSTHILE_NODE_CHAIN] = {PATCH_OF((1), (WOSTHILE_NODE_CHAIN, 0, 0)), FILE_OF(1)},
    [WOSTHILE_NODE_REGROUP_RIGHT] = {PATCH_OF((3, 3, 1, 1, 1), (WOSTHILE_NODE_REGROUP_RIGHT)), FILE_OF(5, 5, 1)},
    [WOSTHILE_NODE_REGROUP_LEFT] = {PATCH_OF((3, 1, 3, 1, 1), (WOSTHILE_NODE_REGROUP_LEFT)), FILE_OF(5, 1)},
    [WOSTHILE_NODE_SPREAD] = {PATCH_OF((3, 1, 4, 1, 1), (WOSTHILE_NODE_SPREAD)), FILE_OF(5, 1)},
    [WOSTHILE_NODE_FRONT] = {PATCH_OF((1), (WOSTHILE_NODE_FRONT)), FILE_OF(1)},
    [WOSTHILE_NODE_CHOOSE] = {PATCH_OF((5, 1, 1), (WOSTHILE_NODE_CHOOSE, 0, 0)), FILE_OF(8)},
    [WOSTHILE_NODE_MARK_FIRST] = {PATCH_OF((1), (WOSTHILE_NODE_MARK_FIRST, 2)), FILE_OF(1)},
    [WOSTHILE_NODE_MARK_SECOND] = {PATCH_OF((1), (WOSTHILE_NODE_MARK_SECOND, 2)), FILE_OF(1)},
};

/* A feed with each number as its answer; where there is to be no room the buffers are too short. */
static const struct example number_examples[] = {
    [WOSTHILE_ACCEPTED] = {PATCH_OF((1), (0)), FILE_OF(1)},
    [WOSTHILE_FAULT_CUT_SHORT] = {PATCH_OF((1), (4, 0)), FILE_OF(1)},
    [WOSTHILE_FAULT_UNLISTED] = {PATCH_OF((200), (0)), FILE_OF(1)},
    [WOSTHILE_FAULT_LEFT_OVER] = {PATCH_OF((1), (0, 0)), FILE_OF(1)},
    [WOSTHILE_FAULT_TYPE_TOO_LARGE] = {RAW(1, 0, FOUR_TIMES(FOUR_TIMES(FOUR_TIMES(FOUR_TIMES(3)))), 0, 1, 0,
                                           TOTALS(0, 0)),
                                       FILE_OF(1)},
    [WOSTHILE_FAULT_TOO_MANY_NODES] = {PATCH_OF((1), (FOUR_TIMES(FOUR_TIMES(FOUR_TIMES(10))))), FILE_OF(1)},
    [WOSTHILE_FAULT_NOT_NULLABLE] = {PATCH_OF((1), (1, 1)), FILE_OF(1)},
    [WOSTHILE_FAULT_WRONG_SHAPE] = {PATCH_OF((1), (5)), FILE_OF(1)},
    [WOSTHILE_FAULT_SLICE_CUT_SHORT] = {PATCH_OF((2), (0)), FILE_OF(4, 1)},
    [WOSTHILE_FAULT_SLICE_UNLISTED] = {PATCH_OF((1), (0)), FILE_OF(200)},
    [WOSTHILE_FAULT_SLICE_LEFT_OVER] = {PATCH_OF((1), (0)), FILE_OF(1, 1)},
    [WOSTHILE_FAULT_SLICE_MISPLACED] = {PATCH_OF((1), (0)), FILE_OF(3)},
    [WOSTHILE_FAULT_NO_ROOM] = {PATCH_OF((1), (0)), FILE_OF(1)},
    [WOSTHILE_FAULT_OUTPUTS_DIFFER] = {PATCH_OF((5, 1, 2), (15, 0, 0)), FILE_OF(8)},
    [WOSTHILE_FAULT_TOTAL_TOO_LARGE] = {COUNTED_PATCH_OF((1), (0), WOSTHILE_TOTAL_MAX, 0), FILE_OF(2)},
};

/*
 * What the header names. The switches have no default: all warnings are errors, so a kind or a number that the header
 * has and the switch has not does not compile.
 */
static bool names_type_kind(unsigned byte)
{
    switch ((enum wosthile_type_kind)byte) {
    case WOSTHILE_TYPE_EMPTY:
    case WOSTHILE_TYPE_CUE:
    case WOSTHILE_TYPE_LEVEL:
    case WOSTHILE_TYPE_SEQUENCE:
    case WOSTHILE_TYPE_BESIDE:
    case WOSTHILE_TYPE_EITHER:
        return true;
    }
    return false;
}

static bool names_slice_kind(unsigned byte)
{
    switch ((enum wosthile_slice_kind)byte) {
    case WOSTHILE_SLICE_NOTHING:
    case WOSTHILE_SLICE_CUE_AWAITED:
    case WOSTHILE_SLICE_CUE_COME:
    case WOSTHILE_SLICE_LEVEL_AWAITED:
    case WOSTHILE_SLICE_LEVEL_COME:
    case WOSTHILE_SLICE_IN_FIRST:
    case WOSTHILE_SLICE_CROSSED:
    case WOSTHILE_SLICE_BESIDE:
    case WOSTHILE_SLICE_NONE_CHOSEN:
    case WOSTHILE_SLICE_FIRST_CHOSEN:
    case WOSTHILE_SLICE_SECOND_CHOSEN:
        return true;
    }
    return false;
}

static bool names_node_kind(unsigned byte)
{
    switch ((enum wosthile_node_kind)byte) {
    case WOSTHILE_NODE_PASS:
    case WOSTHILE_NODE_SILENT:
    case WOSTHILE_NODE_CUE:
    case WOSTHILE_NODE_LEVEL:
    case WOSTHILE_NODE_BOTH:
    case WOSTHILE_NODE_LEFT:
    case WOSTHILE_NODE_RIGHT:
    case WOSTHILE_NODE_FIRST:
    case WOSTHILE_NODE_SECOND:
    case WOSTHILE_NODE_THEN:
    case WOSTHILE_NODE_CHAIN:
    case WOSTHILE_NODE_REGROUP_RIGHT:
    case WOSTHILE_NODE_REGROUP_LEFT:
    case WOSTHILE_NODE_SPREAD:
    case WOSTHILE_NODE_FRONT:
    case WOSTHILE_NODE_CHOOSE:
    case WOSTHILE_NODE_MARK_FIRST:
    case WOSTHILE_NODE_MARK_SECOND:
        return true;
    }
    return false;
}

static bool names_number(unsigned number)
{
    switch ((enum wosthile_number)number) {
    case WOSTHILE_ACCEPTED:
    case WOSTHILE_FAULT_CUT_SHORT:
    case WOSTHILE_FAULT_UNLISTED:
    case WOSTHILE_FAULT_LEFT_OVER:
    case WOSTHILE_FAULT_TYPE_TOO_LARGE:
    case WOSTHILE_FAULT_TOO_MANY_NODES:
    case WOSTHILE_FAULT_NOT_NULLABLE:
    case WOSTHILE_FAULT_WRONG_SHAPE:
    case WOSTHILE_FAULT_SLICE_CUT_SHORT:
    case WOSTHILE_FAULT_SLICE_UNLISTED:
    case WOSTHILE_FAULT_SLICE_LEFT_OVER:
    case WOSTHILE_FAULT_SLICE_MISPLACED:
    case WOSTHILE_FAULT_NO_ROOM:
    case WOSTHILE_FAULT_OUTPUTS_DIFFER:
    case WOSTHILE_FAULT_TOTAL_TOO_LARGE:
        return true;
    }
    return false;
}

/* The number of a feed whose buffers have room for any answer, or for none; a refusal says nothing else. */
static uint32_t number_of_feed(struct bytes patch, struct bytes slice, bool room)
{
    static uint8_t output[WOSTHILE_SLICE_FILE_MAX], left[WOSTHILE_PATCH_FILE_MAX];
    size_t output_room = room ? sizeof output : 0, left_room = room ? sizeof left : 0;
    wosthile_fed fed =
        wosthile_feed(patch.at, patch.count, slice.at, slice.count, output, output_room, left, left_room);
    if (fed.number != WOSTHILE_ACCEPTED) {
        count(is_refusal(fed, fed.number), "Feed", "a refusal is its number alone", fed.number);
    }
    return fed.number;
}

/* The numbers of feeds in which a byte is alone where a type, a slice or the nodes are due. */
static uint32_t number_as_type(uint8_t byte)
{
    const struct bytes patch = PATCH_OF((byte), (0)), slice = FILE_OF(0);
    return number_of_feed(patch, slice, true);
}

static uint32_t number_as_slice(uint8_t byte)
{
    const struct bytes patch = PATCH_OF((1), (0)), slice = FILE_OF(byte);
    return number_of_feed(patch, slice, true);
}

static uint32_t number_as_nodes(uint8_t byte)
{
    const struct bytes patch = PATCH_OF((1), (byte)), slice = FILE_OF(1);
    return number_of_feed(patch, slice, true);
}

struct family {
    const char *name;
    bool (*names)(unsigned byte);
    uint32_t (*number_as)(uint8_t byte);
    uint32_t unlisted; /* the number for a byte that is no kind */
    const struct example *examples;
    size_t count;
};

#define EXAMPLES(list) list, sizeof list / sizeof list[0]

static const struct family families[] = {
    {"kinds of types", names_type_kind, number_as_type, WOSTHILE_FAULT_UNLISTED, EXAMPLES(type_examples)},
    {"kinds of slices", names_slice_kind, number_as_slice, WOSTHILE_FAULT_SLICE_UNLISTED, EXAMPLES(slice_examples)},
    {"kinds of nodes", names_node_kind, number_as_nodes, WOSTHILE_FAULT_UNLISTED, EXAMPLES(node_examples)},
};

/* Every byte is a kind for the library exactly if the header names it; and then its example is accepted. */
static void check_kinds(const struct family *family)
{
    for (unsigned byte = 0; byte < 256; byte++) {
        bool named = family->names(byte);
        bool listed = family->number_as((uint8_t)byte) != family->unlisted;
        count(named == listed, family->name, "named exactly if the library lists it, byte", byte);
        if (named) {
            const struct example *example = &family->examples[byte];
            bool accepted = byte < family->count && number_of_feed(example->patch, example->slice, true) == 0;
            count(accepted, family->name, "an example is accepted, byte", byte);
        }
    }
}

/* Every number that the header names is met, and has a sentence of its own; no other number has one. */
static void check_numbers(void)
{
    const char *unlisted = wosthile_sentence(UINT32_MAX);
    for (uint32_t number = 0; number < 100; number++) {
        bool named = names_number(number), has_sentence = strcmp(wosthile_sentence(number), unlisted) != 0;
        count(named == has_sentence, "numbers", "a sentence exactly if it is named", number);
        for (uint32_t other = 0; named && other < number; other++) {
            count(strcmp(wosthile_sentence(number), wosthile_sentence(other)) != 0, "numbers", "a sentence of its own",
                  number);
        }
        if (named) {
            const struct example *example = &number_examples[number];
            bool room = number != WOSTHILE_FAULT_NO_ROOM, tried = number < sizeof number_examples / sizeof *example;
            count(tried && number_of_feed(example->patch, example->slice, room) == number, "numbers",
                  "an example is answered with", number);
        }
    }
}

/*
 * The answers of this interface, and where the parts of each are. Whoever changes one of these changes WOSTHILE_ABI,
 * without which a program that was compiled before would read them wrongly.
 */
enum { INTERFACE = 3 };

enum { WRITTEN_BYTES = 16, WRITTEN_LENGTH = 8 };
enum { ADMITTED_BYTES = 12, ADMITTED_COMPLETE = 4, ADMITTED_ARRIVED = 8 };
enum { FED_BYTES = 32, FED_OUTPUT = 8, FED_PATCH = 16, FED_ARRIVED = 24, FED_SENT = 28 };

/* The number of so many bytes that an answer has at a place. */
static uint64_t part_of(const void *answer, size_t place, size_t bytes)
{
    uint64_t part = 0;
    memcpy(&part, (const uint8_t *)answer + place, bytes); /* low byte first, as on every x86-64 */
    return part;
}

static void check_sizes(void)
{
    count(WOSTHILE_ABI == INTERFACE, "interface", "the number of these answers", WOSTHILE_ABI);
    count(sizeof(wosthile_written) == WRITTEN_BYTES, "size", "wosthile_written", sizeof(wosthile_written));
    count(sizeof(wosthile_admitted) == ADMITTED_BYTES, "size", "wosthile_admitted", sizeof(wosthile_admitted));
    count(sizeof(wosthile_fed) == FED_BYTES, "size", "wosthile_fed", sizeof(wosthile_fed));
    count(offsetof(wosthile_written, number) == 0, "place", "written: number", 0);
    count(offsetof(wosthile_written, written) == WRITTEN_LENGTH, "place", "written: written", 0);
    count(offsetof(wosthile_admitted, number) == 0, "place", "admitted: number", 0);
    count(offsetof(wosthile_admitted, complete) == ADMITTED_COMPLETE, "place", "admitted: complete", 0);
    count(offsetof(wosthile_admitted, arrived) == ADMITTED_ARRIVED, "place", "admitted: arrived", 0);
    count(offsetof(wosthile_fed, number) == 0, "place", "fed: number", 0);
    count(offsetof(wosthile_fed, output) == FED_OUTPUT, "place", "fed: output", 0);
    count(offsetof(wosthile_fed, patch) == FED_PATCH, "place", "fed: patch", 0);
    count(offsetof(wosthile_fed, arrived) == FED_ARRIVED, "place", "fed: arrived", 0);
    count(offsetof(wosthile_fed, sent) == FED_SENT, "place", "fed: sent", 0);
}

/* Answers whose parts are all different: the archive writes each at its place, accepted and refused. */
static void check_places(void)
{
    static uint8_t output[WOSTHILE_SLICE_FILE_MAX], left[WOSTHILE_PATCH_FILE_MAX];
    const struct bytes patch = PATCH_OF((4, 1, 4, 1, 1), (4, 0, 0)), type = FILE_OF(4, 1, 4, 1, 1);
    const struct bytes slice = FILE_OF(7, 2, 7, 2, 2), cut = FILE_OF(7, 2);
    wosthile_admitted seen = wosthile_admit(type.at, type.count, slice.at, slice.count);
    bool right = part_of(&seen, 0, 4) == 0 && part_of(&seen, ADMITTED_COMPLETE, 4) == 1;
    count(right && part_of(&seen, ADMITTED_ARRIVED, 4) == 3, "Admit", "each part at its place", seen.arrived);
    seen = wosthile_admit(type.at, type.count, cut.at, cut.count);
    right = part_of(&seen, 0, 4) == 11 && part_of(&seen, ADMITTED_COMPLETE, 8) == 0;
    count(right, "Admit", "a refusal at its place", seen.number);

    wosthile_fed fed =
        wosthile_feed(patch.at, patch.count, slice.at, slice.count, output, sizeof output, left, sizeof left);
    right = part_of(&fed, 0, 4) == 0 && part_of(&fed, FED_OUTPUT, 8) == 13 && part_of(&fed, FED_PATCH, 8) == 22;
    right = right && part_of(&fed, FED_ARRIVED, 4) == 3 && part_of(&fed, FED_SENT, 4) == 6;
    count(right, "Feed", "each part at its place", fed.sent);
    fed = wosthile_feed(patch.at, patch.count, cut.at, cut.count, output, sizeof output, left, sizeof left);
    right = part_of(&fed, 0, 4) == 11 && part_of(&fed, FED_OUTPUT, 8) == 0 && part_of(&fed, FED_PATCH, 8) == 0;
    count(right && part_of(&fed, FED_ARRIVED, 8) == 0, "Feed", "a refusal at its place", fed.number);

    wosthile_written written = wosthile_check(patch.at, patch.count, output, sizeof output);
    right = part_of(&written, 0, 4) == 0 && part_of(&written, WRITTEN_LENGTH, 8) == 13;
    count(right, "Check", "each part at its place", written.written);
}

/* The most arrivals that the header names are those of the largest type, and they are reached. */
static void check_most_arrivals(void)
{
    const struct bytes lane = RAW(4, 1), cue = RAW(1), come = RAW(7, 2), last = RAW(2), pass = FILE_OF(0);
    struct bytes type = repeated(lane, WOSTHILE_TYPE_NODES_MAX / 2, cue);
    struct bytes slice = repeated(come, WOSTHILE_TYPE_NODES_MAX / 2, last);
    struct bytes patch = patch_of(type, lengthened(pass, pass.count));
    static uint8_t output[WOSTHILE_SLICE_FILE_MAX], left[WOSTHILE_PATCH_FILE_MAX];
    wosthile_fed fed =
        wosthile_feed(patch.at, patch.count, slice.at, slice.count, output, sizeof output, left, sizeof left);
    count(WOSTHILE_ARRIVALS_MAX == (WOSTHILE_TYPE_NODES_MAX + 1) / 2, "the most arrivals", "of the largest type", 0);
    count(fed.arrived == WOSTHILE_ARRIVALS_MAX && fed.sent == WOSTHILE_ARRIVALS_MAX, "the most arrivals", "are reached",
          fed.arrived);
    struct bytes files[] = {patch, slice};
    release(files, sizeof files / sizeof files[0]);
}

/* The greatest total that the header names is reached and not passed, and its section is as long as it says. */
static void check_greatest_total(void)
{
    static uint8_t output[WOSTHILE_SLICE_FILE_MAX], left[WOSTHILE_PATCH_FILE_MAX];
    const struct bytes below = COUNTED_PATCH_OF((1), (0), WOSTHILE_TOTAL_MAX - 1, 7), slice = FILE_OF(2);
    const struct bytes at = COUNTED_PATCH_OF((1), (0), WOSTHILE_TOTAL_MAX, 7), totals = RAW(TOTALS(0, 0));
    count(WOSTHILE_TOTAL_MAX == UINT32_MAX, "the greatest total", "of four bytes", 0);
    count(totals.count == WOSTHILE_TOTALS_SECTION, "the section of the totals", "its bytes", totals.count);
    count(number_of_feed(at, slice, true) == WOSTHILE_FAULT_TOTAL_TOO_LARGE, "the greatest total", "is not passed", 0);
    wosthile_fed fed =
        wosthile_feed(below.at, below.count, slice.at, slice.count, output, sizeof output, left, sizeof left);
    struct counts reached = totals_in((struct bytes){left, fed.patch});
    count(fed.number == 0 && reached.arrived == WOSTHILE_TOTAL_MAX && reached.sent == 8, "the greatest total",
          "is reached", reached.arrived);
}

int main(void)
{
    check_sizes();
    check_places();
    check_most_arrivals();
    check_greatest_total();
    count(wosthile_abi() == WOSTHILE_ABI, "interface", "the archive's and the header's", wosthile_abi());
    count(WOSTHILE_ABI_FUNCTION() == WOSTHILE_ABI, "interface", "the function named for it", WOSTHILE_ABI_FUNCTION());
    for (size_t family = 0; family < sizeof families / sizeof families[0]; family++) {
        check_kinds(&families[family]);
    }
    check_numbers();
    printf("%d passed, %d failed\n", passed, failed);
    return failed != 0;
}
