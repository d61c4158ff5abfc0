/*
 * The totals of a patch (M-105), through the header alone: which third sections are accepted, what Feed adds to them,
 * and when it refuses with 31. What is due was worked out from the documents, byte by byte; what another reading of the
 * request would answer is told in parentheses. Every slice of every small type is in totals_small_types.c.
 */
#include "bytes.h"

enum { MOST_THERE = 20, MOST = WOSTHILE_PATCH_FILE_MAX };

#define FULL WOSTHILE_TOTAL_MAX

/* A call of Feed with buffers between margins. */
struct fed {
    wosthile_fed answer;
    uint8_t *output, *left; /* their memory */
};

static struct fed feed_with(struct bytes patch, struct bytes slice, size_t output_room, size_t left_room)
{
    struct fed fed = {.output = lent_memory(output_room), .left = lent_memory(left_room)};
    uint8_t *patch_copy = copy_of(patch), *slice_copy = copy_of(slice);
    fed.answer = wosthile_feed(patch_copy, patch.count, slice_copy, slice.count, fed.output + MARGIN, output_room,
                               fed.left + MARGIN, left_room);
    free(patch_copy);
    free(slice_copy);
    return fed;
}

static void release_fed(struct fed *fed)
{
    free(fed->output);
    free(fed->left);
}

/* A refusal with this number, which altered no byte of either buffer. */
static bool feed_refused(struct bytes patch, struct bytes slice, size_t output_room, size_t left_room, uint32_t number)
{
    const struct bytes none = NONE;
    struct fed fed = feed_with(patch, slice, output_room, left_room);
    bool right = is_refusal(fed.answer, number) && holds(fed.output, output_room, none);
    right = right && holds(fed.left, left_room, none);
    release_fed(&fed);
    return right;
}

/* The first two sections of a patch, a slice for it, and its number if the third section is right. */
struct front {
    const char *name;
    struct bytes sections, slice;
    uint32_t number;
    bool before_the_third; /* its fault is found before the third section is reached, whatever that is */
};

#define TWO_OF(type, nodes) RAW(TWO_SECTIONS(type, nodes))

static const struct front fronts[] = {
    {"pass", TWO_OF((1), (0)), FILE_OF(2), 0, false},
    {"7 (7: found before the totals)", TWO_OF((1), (5)), FILE_OF(2), 7, false},
    {"6 (6: found before the totals)", TWO_OF((1), (1, 1)), FILE_OF(2), 6, false},
    {"30 (30: found before the totals)", TWO_OF((5, 1, 2), (15, 0, 0)), FILE_OF(9, 2), 30, false},
    {"1 of the type", TWO_OF((3, 1), (0)), FILE_OF(2), 1, true},
    {"1 of the nodes", TWO_OF((1), (4, 0)), FILE_OF(2), 1, true},
    {"2 of the type", TWO_OF((99), (0)), FILE_OF(2), 2, true},
    {"2 of the nodes", TWO_OF((1), (99)), FILE_OF(2), 2, true},
    {"3 of the type", TWO_OF((1, 1), (0)), FILE_OF(2), 3, true},
    {"3 of the nodes", TWO_OF((1), (0, 0)), FILE_OF(2), 3, true},
};

/* The sections of a front, then so many bytes: the first two of them as the count, and more that are no two alike. */
static struct bytes file_behind(const struct front *front, size_t counted, size_t bytes)
{
    struct bytes file = lengthened(front->sections, front->sections.count + bytes);
    uint8_t *behind = (uint8_t *)(uintptr_t)file.at + front->sections.count;
    for (size_t place = 0; place < bytes; place++) {
        behind[place] = (uint8_t)(place == 0 ? counted / 256 : place == 1 ? counted % 256 : place + 1);
    }
    return file;
}

/* "A whole section of another length is 1 if shorter, 3 if longer", and what is not whole is 1. */
static uint32_t number_due(const struct front *front, size_t counted, size_t there)
{
    if (front->before_the_third) {
        return front->number;
    }
    if (there < counted || counted < 8) {
        return WOSTHILE_FAULT_CUT_SHORT;
    }
    return counted > 8 || there > 8 ? WOSTHILE_FAULT_LEFT_OVER : front->number;
}

/* Check and Feed on the file: a fault of the patch comes before those of the slice and of the buffers. */
static void check_file(const struct front *front, struct bytes file, uint32_t number, size_t which)
{
    const struct bytes none = NONE, unlisted = FILE_OF(99);
    uint8_t *copy = copy_of(file), *type = lent_memory(WOSTHILE_TYPE_FILE_MAX);
    bool accepted = number == WOSTHILE_ACCEPTED;
    wosthile_written checked = wosthile_check(copy, file.count, type + MARGIN, WOSTHILE_TYPE_FILE_MAX);
    bool right = checked.number == number && (checked.written > 0) == accepted;
    count(right && (accepted || holds(type, WOSTHILE_TYPE_FILE_MAX, none)), "Check", front->name, which);
    struct fed fed = feed_with(file, front->slice, WOSTHILE_SLICE_FILE_MAX, MOST);
    count(fed.answer.number == number && (fed.answer.patch > 0) == accepted, "Feed", front->name, which);
    right = feed_refused(file, unlisted, WOSTHILE_SLICE_FILE_MAX, MOST, accepted ? 12 : number);
    right = right && feed_refused(file, front->slice, 0, 0, accepted ? WOSTHILE_FAULT_NO_ROOM : number);
    count(right, "Feed of a bad slice, and without room", front->name, which);
    release_fed(&fed);
    free(copy);
    free(type);
}

static void check_section(const struct front *front, size_t counted, size_t there)
{
    struct bytes file = file_behind(front, counted, 2 + there);
    check_file(front, file, number_due(front, counted, there), 100 * counted + there);
    release(&file, 1);
}

/* Every count and every number of bytes behind it up to twenty, and counts that are far off. */
static void check_sections(const struct front *front)
{
    static const size_t far_off[] = {256, 256 + 8, 8 * 256, 8 * 256 + 8, 65535};
    for (size_t counted = 0; counted <= MOST_THERE; counted++) {
        for (size_t there = 0; there <= MOST_THERE; there++) {
            check_section(front, counted, there);
        }
    }
    for (size_t which = 0; which < sizeof far_off / sizeof far_off[0]; which++) {
        const size_t there[] = {0, 8, far_off[which] - 1, far_off[which], far_off[which] + 1};
        for (size_t index = 0; index < sizeof there / sizeof there[0]; index++) {
            check_section(front, far_off[which], there[index]);
        }
    }
}

/* No third section, and one stray byte in its place, of every value (3: left over behind two sections). */
static void check_no_section(const struct front *front)
{
    uint32_t number = front->before_the_third ? front->number : WOSTHILE_FAULT_CUT_SHORT;
    struct bytes without = file_behind(front, 0, 0);
    check_file(front, without, number, 0);
    release(&without, 1);
    for (size_t byte = 0; byte < 256; byte++) {
        struct bytes stray = file_behind(front, byte * 256, 1);
        check_file(front, stray, number, byte);
        release(&stray, 1);
    }
}

/* The limits of nodes: 4 and 5 of what is read are found before the third section is reached, 4 of a type given not. */
static void check_sections_of_limits(void)
{
    const struct bytes lane = RAW(4, 1), cue = RAW(1), chain = RAW(10), front_node = RAW(14), pass = RAW(0),
                       none = NONE;
    const struct {
        const char *name;
        struct bytes sections[2];
        uint32_t number;
        bool before_the_third;
    } limits[] = {
        {"5", {repeated(none, 0, cue), repeated(chain, 63, none)}, 5, true},
        {"4 of the type", {repeated(lane, 128, cue), repeated(none, 0, pass)}, 4, true},
        {"4 of a type given (4: found before the totals)",
         {repeated(lane, 127, cue), repeated(none, 0, front_node)},
         4,
         false},
    };
    for (size_t which = 0; which < sizeof limits / sizeof limits[0]; which++) {
        struct bytes whole = patch_of(limits[which].sections[0], limits[which].sections[1]);
        const struct bytes sections = {whole.at, whole.count - WOSTHILE_TOTALS_SECTION}, slice = FILE_OF(2);
        const struct front front = {limits[which].name, sections, slice, limits[which].number,
                                    limits[which].before_the_third};
        check_sections(&front);
        check_no_section(&front);
        release(&whole, 1);
    }
}

/* A feed from these totals, and the totals left if it is accepted. */
struct total_row {
    const char *name;
    struct bytes patch, slice;
    struct counts start;
    uint32_t number;
    struct counts left;
};

enum { LIMIT_31 = WOSTHILE_FAULT_TOTAL_TOO_LARGE };

static const struct total_row total_rows[] = {
    {"nothing from nothing", PATCH_OF((1), (0)), FILE_OF(1), COUNTS(0, 0), 0, COUNTS(0, 0)},
    {"one from nothing", PATCH_OF((1), (0)), FILE_OF(2), COUNTS(0, 0), 0, COUNTS(1, 1)},
    {"one more", PATCH_OF((1), (0)), FILE_OF(2), COUNTS(7, 40), 0, COUNTS(8, 41)},
    {"two come, one is sent (3 3: sent is taken for arrived)", PATCH_OF((4, 1, 1), (5)), FILE_OF(7, 2, 2), COUNTS(1, 1),
     0, COUNTS(3, 2)},
    {"one comes, two are sent (2 2: counted from the input)", PATCH_OF((1), (4, 0, 0)), FILE_OF(2), COUNTS(1, 1), 0,
     COUNTS(2, 3)},
    {"none comes, one is sent", PATCH_OF((0), (2)), FILE_OF(0), COUNTS(5, 5), 0, COUNTS(5, 6)},
    {"a value of bytes 2 and 4", PATCH_OF((2), (0)), FILE_OF(4, 2, 4), COUNTS(0, 0), 0, COUNTS(1, 1)},
    {"a crossing and a choice are not counted", PATCH_OF((3, 0, 5, 1, 1), (0)), FILE_OF(6, 0, 9, 1), COUNTS(3, 3), 0,
     COUNTS(3, 3)},

    {"full, nothing comes (31: full is too large)", PATCH_OF((1), (0)), FILE_OF(1), COUNTS(FULL, FULL), 0,
     COUNTS(FULL, FULL)},
    {"full, a crossing alone", PATCH_OF((3, 0, 1), (0)), FILE_OF(6, 0, 1), COUNTS(FULL, FULL), 0, COUNTS(FULL, FULL)},
    {"full, one comes (0: it wraps)", PATCH_OF((1), (0)), FILE_OF(2), COUNTS(FULL, FULL), LIMIT_31, COUNTS(0, 0)},
    {"the limit itself (31: at least in place of more than)", PATCH_OF((1), (0)), FILE_OF(2),
     COUNTS(FULL - 1, FULL - 1), 0, COUNTS(FULL, FULL)},
    {"arrived alone is full, and one is sent", PATCH_OF((1), (0)), FILE_OF(2), COUNTS(FULL, 0), LIMIT_31, COUNTS(0, 0)},
    {"arrived alone is full, and none is sent", PATCH_OF((1), (1, 0)), FILE_OF(2), COUNTS(FULL, 0), LIMIT_31,
     COUNTS(0, 0)},
    {"arrived is full, none comes, one is sent", PATCH_OF((0), (2)), FILE_OF(0), COUNTS(FULL, 0), 0, COUNTS(FULL, 1)},
    {"arrived at the limit, none is sent", PATCH_OF((1), (1, 0)), FILE_OF(2), COUNTS(FULL - 1, FULL), 0,
     COUNTS(FULL, FULL)},
    {"sent alone is full, and one comes", PATCH_OF((1), (0)), FILE_OF(2), COUNTS(0, FULL), LIMIT_31, COUNTS(0, 0)},
    {"sent alone is full, and none comes", PATCH_OF((0), (2)), FILE_OF(0), COUNTS(0, FULL), LIMIT_31, COUNTS(0, 0)},
    {"sent is full, one comes, none is sent", PATCH_OF((1), (1, 0)), FILE_OF(2), COUNTS(0, FULL), 0, COUNTS(1, FULL)},
    {"sent at the limit, none comes", PATCH_OF((0), (2)), FILE_OF(0), COUNTS(FULL, FULL - 1), 0, COUNTS(FULL, FULL)},
    {"both sends twice, one too many (0: counted once)", PATCH_OF((1), (4, 0, 0)), FILE_OF(2), COUNTS(0, FULL - 1),
     LIMIT_31, COUNTS(0, 0)},
    {"both sends twice, to the limit", PATCH_OF((1), (4, 0, 0)), FILE_OF(2), COUNTS(0, FULL - 2), 0, COUNTS(1, FULL)},
    {"both sends twice, both to the limit", PATCH_OF((1), (4, 0, 0)), FILE_OF(2), COUNTS(FULL - 1, FULL - 2), 0,
     COUNTS(FULL, FULL)},
    {"spread sends twice, one too many", PATCH_OF((3, 1, 4, 1, 1), (13)), FILE_OF(5, 2), COUNTS(0, FULL - 1), LIMIT_31,
     COUNTS(0, 0)},
    {"two come, room for one (0: it wraps)", PATCH_OF((4, 1, 1), (5)), FILE_OF(7, 2, 2), COUNTS(FULL - 1, 0), LIMIT_31,
     COUNTS(0, 0)},
    {"two come, room for two", PATCH_OF((4, 1, 1), (5)), FILE_OF(7, 2, 2), COUNTS(FULL - 2, 0), 0, COUNTS(FULL, 1)},
    {"a cue that waits does not count", PATCH_OF((1), (2)), FILE_OF(1), COUNTS(FULL, FULL), 0, COUNTS(FULL, FULL)},
    {"what goes from node to node does not count", PATCH_OF((1), (10, 4, 0, 0, 5)), FILE_OF(2), COUNTS(0, FULL - 1), 0,
     COUNTS(1, FULL)},

    {"a full total, then no slice", PATCH_OF((1), (0)), NONE, COUNTS(FULL, FULL), 11, COUNTS(0, 0)},
    {"a full total, then a slice cut short", PATCH_OF((4, 1, 1), (0)), FILE_OF(7, 2), COUNTS(FULL, FULL), 11,
     COUNTS(0, 0)},
    {"a full total, then an unlisted kind", PATCH_OF((4, 1, 1), (0)), FILE_OF(7, 2, 99), COUNTS(FULL, FULL), 12,
     COUNTS(0, 0)},
    {"a full total, then bytes left over", PATCH_OF((1), (0)), FILE_OF(2, 2), COUNTS(FULL, FULL), 13, COUNTS(0, 0)},
    {"a full total, then bytes behind the slice", PATCH_OF((1), (0)), RAW(0, 1, 2, 2), COUNTS(FULL, FULL), 13,
     COUNTS(0, 0)},
    {"a full total, then a misplaced kind", PATCH_OF((4, 1, 1), (0)), FILE_OF(7, 2, 3), COUNTS(FULL, FULL), 14,
     COUNTS(0, 0)},
    {"a full total in a patch of a wrong shape", PATCH_OF((1), (5)), FILE_OF(2), COUNTS(FULL, FULL), 7, COUNTS(0, 0)},
    {"a full total in a patch whose outputs differ", PATCH_OF((5, 1, 2), (15, 0, 0)), FILE_OF(9, 2), COUNTS(FULL, FULL),
     30, COUNTS(0, 0)},
};

/* From no totals: what is sent and left but for the totals, to which the row is held. */
static struct fed fed_from_nothing(const struct total_row *row)
{
    struct bytes patch = with_totals(row->patch, nothing_counted);
    struct fed fed = feed_with(patch, row->slice, WOSTHILE_SLICE_FILE_MAX, MOST);
    release(&patch, 1);
    return fed;
}

/* Accepted with buffers of the exact lengths, and 20 with either a byte shorter; only the totals left are others. */
static bool accepts(const struct total_row *row, struct bytes patch)
{
    struct fed plain = fed_from_nothing(row);
    size_t output = plain.answer.output, left = plain.answer.patch;
    if (plain.answer.number != WOSTHILE_ACCEPTED || left < WOSTHILE_TOTALS_SECTION) {
        release_fed(&plain);
        return false;
    }
    struct bytes sent = {plain.output + MARGIN, output};
    struct bytes due = with_totals((struct bytes){plain.left + MARGIN, left}, row->left);
    struct fed fed = feed_with(patch, row->slice, output, left);
    bool right = fed.answer.number == WOSTHILE_ACCEPTED && fed.answer.output == output && fed.answer.patch == left;
    right = right && same_counts(sum_of(row->start, counts_of(fed.answer)), row->left);
    right = right && holds(fed.output, output, sent) && holds(fed.left, left, due);
    right = right && feed_refused(patch, row->slice, output - 1, left, WOSTHILE_FAULT_NO_ROOM);
    right = right && feed_refused(patch, row->slice, output, left - 1, WOSTHILE_FAULT_NO_ROOM);
    release_fed(&plain);
    release_fed(&fed);
    release(&due, 1);
    return right;
}

/* Refused: with the same number for long buffers, short ones, either of them short, and none. */
static bool refuses(const struct total_row *row, struct bytes patch)
{
    return feed_refused(patch, row->slice, WOSTHILE_SLICE_FILE_MAX, MOST, row->number) &&
           feed_refused(patch, row->slice, WOSTHILE_SLICE_FILE_MAX, 0, row->number) &&
           feed_refused(patch, row->slice, 0, MOST, row->number) &&
           feed_refused(patch, row->slice, 2, 10, row->number) && feed_refused(patch, row->slice, 0, 0, row->number);
}

/* Check has no fault for totals, whatever they are. */
static bool check_is_the_same(const struct total_row *row, struct bytes patch)
{
    struct bytes plain = with_totals(row->patch, nothing_counted);
    uint8_t types[2][WOSTHILE_TYPE_FILE_MAX] = {{0}, {0}};
    wosthile_written with = wosthile_check(patch.at, patch.count, types[0], sizeof types[0]);
    wosthile_written without = wosthile_check(plain.at, plain.count, types[1], sizeof types[1]);
    release(&plain, 1);
    return with.number == without.number && with.written == without.written &&
           memcmp(types[0], types[1], sizeof types[0]) == 0;
}

static void check_total_row(const struct total_row *row)
{
    struct bytes patch = with_totals(row->patch, row->start);
    bool right = row->number == WOSTHILE_ACCEPTED ? accepts(row, patch) : refuses(row, patch);
    count(right, "Feed", row->name, row->number);
    count(check_is_the_same(row, patch), "Check", row->name, row->number);
    release(&patch, 1);
}

/* The bytes of the totals, before and after a cue that is sent twice: the high byte first, and every carry. */
static const uint8_t carries[][2][8] = {
    {{0, 0, 0, 0, 0, 0, 0, 0}, {0, 0, 0, 1, 0, 0, 0, 2}},
    {{1, 2, 3, 4, 5, 6, 7, 8}, {1, 2, 3, 5, 5, 6, 7, 10}},
    {{0, 0, 0, 255, 0, 0, 0, 254}, {0, 0, 1, 0, 0, 0, 1, 0}},
    {{0, 0, 255, 255, 0, 0, 255, 255}, {0, 1, 0, 0, 0, 1, 0, 1}},
    {{0, 255, 255, 255, 0, 255, 255, 254}, {1, 0, 0, 0, 1, 0, 0, 0}},
    {{127, 255, 255, 255, 127, 255, 255, 255}, {128, 0, 0, 0, 128, 0, 0, 1}},
    {{255, 0, 0, 0, 255, 0, 0, 0}, {255, 0, 0, 1, 255, 0, 0, 2}},
    {{255, 255, 255, 254, 255, 255, 255, 253}, {255, 255, 255, 255, 255, 255, 255, 255}},
};

static void check_carries(void)
{
    const struct bytes slice = FILE_OF(2);
    for (size_t which = 0; which < sizeof carries / sizeof carries[0]; which++) {
        const uint8_t *from = carries[which][0], *to = carries[which][1];
        uint8_t patch[] = {TWO_SECTIONS((1), (4, 0, 0)), 0, 8, 0, 0, 0, 0, 0, 0, 0, 0};
        uint8_t due[] = {TWO_SECTIONS((0), (4, 0, 0)), 0, 8, 0, 0, 0, 0, 0, 0, 0, 0};
        memcpy(patch + sizeof patch - 8, from, 8);
        memcpy(due + sizeof due - 8, to, 8);
        struct fed fed = feed_with((struct bytes){patch, sizeof patch}, slice, WOSTHILE_SLICE_FILE_MAX, MOST);
        bool right = fed.answer.number == 0 && fed.answer.patch == sizeof due;
        count(right && holds(fed.left, MOST, (struct bytes){due, sizeof due}), "Feed", "the bytes of the totals",
              which);
        release_fed(&fed);
    }
}

/* Each bit of both totals alone: it is read where it is, and a feed of nothing leaves the patch byte for byte. */
static void check_bits(void)
{
    const struct bytes slice = FILE_OF(1);
    for (unsigned bit = 0; bit < 64; bit++) {
        uint8_t patch[] = {TWO_SECTIONS((1), (0)), 0, 8, 0, 0, 0, 0, 0, 0, 0, 0};
        const struct bytes file = {patch, sizeof patch};
        patch[sizeof patch - 1 - bit / 8] = (uint8_t)(1u << bit % 8);
        wosthile_totals totals = wosthile_totals_of(patch, sizeof patch);
        uint64_t both = (uint64_t)totals.arrived << 32 | totals.sent;
        count(both == (uint64_t)1 << bit, "wosthile_totals_of", "a bit of the totals", bit);
        struct fed fed = feed_with(file, slice, WOSTHILE_SLICE_FILE_MAX, MOST);
        count(fed.answer.patch == sizeof patch && holds(fed.left, MOST, file), "Feed", "a bit of the totals", bit);
        release_fed(&fed);
    }
}

/* The slice may lie in the totals: the bytes 0 1 2 of what has arrived are the slice in which a cue comes. */
static void check_slice_in_totals(void)
{
    const uint8_t patch[] = {TWO_SECTIONS((1), (0)), 0, 8, 0, 1, 2, 0, 0, 0, 0, 9};
    const uint8_t due[] = {TWO_SECTIONS((0), (0)), 0, 8, 0, 1, 2, 1, 0, 0, 0, 10};
    uint8_t output[3], left[sizeof due];
    wosthile_fed fed =
        wosthile_feed(patch, sizeof patch, patch + 8, sizeof output, output, sizeof output, left, sizeof left);
    bool right = fed.number == WOSTHILE_ACCEPTED && fed.patch == sizeof due && memcmp(left, due, sizeof due) == 0;
    count(right && memcmp(output, patch + 8, sizeof output) == 0, "Feed", "the slice in the totals", fed.number);
}

/* Lanes that come in two slices, so many in the first and the others in the second; and all of them as one. */
struct lanes_cut {
    struct bytes patch, slices[2], whole;
};

static struct lanes_cut cut_lanes(size_t lanes, size_t in_first, struct bytes nodes)
{
    const struct bytes lane = RAW(4, 1), cue = RAW(1), come = RAW(7, 2), spent = RAW(7, 0), awaited = RAW(7, 1);
    const struct bytes none = NONE, last = RAW(2);
    struct bytes later = repeated(awaited, lanes - 1 - in_first, cue), now = repeated(come, lanes - 1 - in_first, last);
    struct lanes_cut cut = {
        .patch = patch_of(repeated(lane, lanes - 1, cue), repeated(none, 0, nodes)),
        .slices = {repeated(come, in_first, (struct bytes){later.at + 2, later.count - 2}),
                   repeated(spent, in_first, (struct bytes){now.at + 2, now.count - 2})},
        .whole = repeated(come, lanes - 1, last),
    };
    struct bytes files[] = {later, now};
    release(files, sizeof files / sizeof files[0]);
    return cut;
}

/* Feeds a slice to a patch, which the patch left replaces if it is accepted. */
static uint32_t feed_on(struct bytes *patch, struct bytes slice)
{
    struct fed fed = feed_with(*patch, slice, WOSTHILE_SLICE_FILE_MAX, MOST);
    if (fed.answer.number == WOSTHILE_ACCEPTED) {
        release(patch, 1);
        *patch = lengthened((struct bytes){fed.left + MARGIN, fed.answer.patch}, fed.answer.patch);
    }
    release_fed(&fed);
    return fed.answer.number;
}

/* In two slices and as one, from these totals: accepted as one exactly if both are, and then the same is left. */
static void check_cut_from(const struct lanes_cut *cut, const char *name, struct counts start, bool fits)
{
    struct bytes as_one = with_totals(cut->patch, start), in_two = with_totals(cut->patch, start);
    uint32_t number = feed_on(&as_one, cut->whole), first = feed_on(&in_two, cut->slices[0]);
    uint32_t second = first == WOSTHILE_ACCEPTED ? feed_on(&in_two, cut->slices[1]) : first;
    uint32_t due = fits ? WOSTHILE_ACCEPTED : WOSTHILE_FAULT_TOTAL_TOO_LARGE;
    bool right = number == due && second == due;
    right = right && (!fits || (as_one.count == in_two.count && unaltered(as_one.at, in_two)));
    count(right, name, fits ? "the totals fit" : "a total does not fit", start.arrived);
    struct bytes files[] = {as_one, in_two};
    release(files, sizeof files / sizeof files[0]);
}

/* The most that one slice can bring or send, cut at every place, far from the limit and at it. */
static void check_large_cuts(const char *name, size_t lanes, struct bytes nodes, uint32_t sent)
{
    const uint32_t come = (uint32_t)lanes;
    for (size_t in_first = 0; in_first < lanes; in_first++) {
        struct lanes_cut cut = cut_lanes(lanes, in_first, nodes);
        check_cut_from(&cut, name, nothing_counted, true);
        check_cut_from(&cut, name, (struct counts){FULL - come, FULL - sent}, true);
        check_cut_from(&cut, name, (struct counts){FULL - come + 1, FULL - sent}, false);
        check_cut_from(&cut, name, (struct counts){FULL - come, FULL - sent + 1}, false);
        struct bytes files[] = {cut.patch, cut.slices[0], cut.slices[1], cut.whole};
        release(files, sizeof files / sizeof files[0]);
    }
}

int main(void)
{
    const struct bytes pass = RAW(0), both = RAW(4, 0, 0);
    for (size_t which = 0; which < sizeof fronts / sizeof fronts[0]; which++) {
        check_sections(&fronts[which]);
        check_no_section(&fronts[which]);
    }
    check_sections_of_limits();
    for (size_t which = 0; which < sizeof total_rows / sizeof total_rows[0]; which++) {
        check_total_row(&total_rows[which]);
    }
    check_carries();
    check_bits();
    check_slice_in_totals();
    check_large_cuts("128 lanes", WOSTHILE_ARRIVALS_MAX, pass, WOSTHILE_ARRIVALS_MAX);
    check_large_cuts("64 lanes, sent twice", WOSTHILE_ARRIVALS_MAX / 2, both, WOSTHILE_ARRIVALS_MAX);
    printf("third sections of %d counts and %d lengths, and others, behind %zu patches; %zu feeds from totals\n",
           MOST_THERE + 1, MOST_THERE + 1, sizeof fronts / sizeof fronts[0] + 3,
           sizeof total_rows / sizeof total_rows[0]);
    printf("%d passed, %d failed\n", passed, failed);
    return failed != 0;
}
