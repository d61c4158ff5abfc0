/*
 * Arrivals (M-104), through the header alone: how many cues and levels came in a slice, as Admit and Feed say, and how
 * many are in the slice sent, as Feed says. What is due was worked out from the documents, byte by byte; what another
 * reading of the request would count is told in parentheses. Every slice of every small type is in
 * arrivals_small_types.c.
 */
#include "bytes.h"

/* A slice of a type, and its arrivals. */
struct slice_row {
    const char *name;
    struct bytes type, slice;
    uint32_t arrived;
};

static const struct slice_row slice_rows[] = {
    {"nothing is due", FILE_OF(0), FILE_OF(0), 0},
    {"a cue has not come", FILE_OF(1), FILE_OF(1), 0},
    {"a cue has come", FILE_OF(1), FILE_OF(2), 1},
    {"a level has not come", FILE_OF(2), FILE_OF(3), 0},
    {"a level has come", FILE_OF(2), FILE_OF(4, 1, 44), 1},
    {"level 0 has come (0: taken for not yet)", FILE_OF(2), FILE_OF(4, 0, 0), 1},
    {"a value of bytes 2 and 4 (3: every byte counts)", FILE_OF(2), FILE_OF(4, 2, 4), 1},
    {"a value of bytes 4 and 2 (3: every byte counts)", FILE_OF(2), FILE_OF(4, 4, 2), 1},
    {"a cue behind a value (1: too much is skipped)", FILE_OF(4, 2, 1), FILE_OF(7, 4, 4, 4, 2), 2},
    {"a level behind a value of bytes 4 and 4 (6: every byte counts)", FILE_OF(4, 2, 2), FILE_OF(7, 4, 4, 4, 4, 2, 2),
     2},
    {"a cue that has not come behind a value", FILE_OF(4, 2, 1), FILE_OF(7, 4, 2, 2, 1), 1},

    {"none of two sides", FILE_OF(4, 1, 2), FILE_OF(7, 1, 3), 0},
    {"the left of two sides", FILE_OF(4, 1, 2), FILE_OF(7, 2, 3), 1},
    {"the right of two sides", FILE_OF(4, 1, 2), FILE_OF(7, 1, 4, 0, 0), 1},
    {"both sides", FILE_OF(4, 1, 2), FILE_OF(7, 2, 4, 0, 0), 2},
    {"sides of which one is spent (2: earlier slices count)", FILE_OF(4, 0, 2), FILE_OF(7, 0, 4, 0, 0), 1},
    {"sides that are spent", FILE_OF(4, 0, 0), FILE_OF(7, 0, 0), 0},

    {"in a first part, nothing", FILE_OF(3, 1, 1), FILE_OF(5, 1), 0},
    {"in a first part, its cue", FILE_OF(3, 1, 1), FILE_OF(5, 2), 1},
    {"crossed (2: a crossing counts)", FILE_OF(3, 1, 1), FILE_OF(6, 2, 1), 1},
    {"crossed, both cues (3: a crossing counts)", FILE_OF(3, 1, 1), FILE_OF(6, 2, 2), 2},
    {"a crossing alone (1: a crossing counts)", FILE_OF(3, 0, 1), FILE_OF(6, 0, 1), 0},
    {"a crossing behind a spent part (2: a crossing counts)", FILE_OF(3, 0, 1), FILE_OF(6, 0, 2), 1},
    {"two crossings alone (2: a crossing counts)", FILE_OF(3, 3, 0, 0, 0), FILE_OF(6, 6, 0, 0, 0), 0},
    {"the slice of the header", FILE_OF(3, 1, 3, 2, 1), FILE_OF(6, 2, 5, 4, 2, 4), 2},

    {"none chosen", FILE_OF(5, 1, 2), FILE_OF(8), 0},
    {"a choice alone (1: a choice counts)", FILE_OF(5, 1, 2), FILE_OF(9, 1), 0},
    {"the other choice alone (1: a choice counts)", FILE_OF(5, 1, 2), FILE_OF(10, 3), 0},
    {"a choice and its cue (2: a choice counts)", FILE_OF(5, 1, 2), FILE_OF(9, 2), 1},
    {"the other choice and its level (2: a choice counts)", FILE_OF(5, 1, 2), FILE_OF(10, 4, 4, 2), 1},
    {"a choice of nothing", FILE_OF(5, 0, 0), FILE_OF(10, 0), 0},
    {"a choice in a choice", FILE_OF(5, 5, 1, 2, 1), FILE_OF(9, 10, 4, 9, 10), 1},
    {"the part that is not chosen (3: it counts)", FILE_OF(5, 4, 1, 1, 1), FILE_OF(10, 2), 1},
    {"everything there is", FILE_OF(3, 5, 1, 2, 4, 1, 3, 2, 1), FILE_OF(6, 10, 4, 2, 2, 7, 2, 6, 4, 4, 4, 2), 4},
};

/* A feed that is accepted: what it sends, and what it counts. */
struct feed_row {
    const char *name;
    struct bytes patch, slice, output;
    struct counts counts;
};

/* The starred cases of document 01 that are feeds, as M-103 has them; case 7 is among the joins and the refusals. */
static const struct feed_row case_rows[] = {
    {"case 1, swap", PATCH_OF((4, 1, 2), (4, 6, 5)), FILE_OF(7, 2, 3), FILE_OF(7, 3, 2), COUNTS(1, 1)},
    {"case 2, prepend", PATCH_OF((1), (10, 14, 9, 2, 0)), FILE_OF(1), FILE_OF(6, 2, 1), COUNTS(0, 1)},
    {"case 2, then", PATCH_OF((1), (10, 0, 0)), FILE_OF(2), FILE_OF(2), COUNTS(1, 1)},
    {"case 3, prepend", PATCH_OF((1), (10, 14, 9, 2, 0)), FILE_OF(2), FILE_OF(6, 2, 2), COUNTS(1, 2)},
    {"case 4, first, not crossed", PATCH_OF((3, 1, 1), (7)), FILE_OF(5, 2), FILE_OF(2), COUNTS(1, 1)},
    {"case 4, first, crossed", PATCH_OF((3, 1, 1), (7)), FILE_OF(6, 2, 1), FILE_OF(2), COUNTS(1, 1)},
    {"case 5, spread, not crossed", PATCH_OF((3, 1, 4, 1, 1), (13)), FILE_OF(5, 2), FILE_OF(7, 5, 2, 5, 2),
     COUNTS(1, 2)},
    {"case 5, spread, crossed", PATCH_OF((3, 1, 4, 1, 1), (13)), FILE_OF(6, 2, 7, 2, 1), FILE_OF(7, 6, 2, 2, 6, 2, 1),
     COUNTS(2, 3)},
    {"case 6, regroup right", PATCH_OF((3, 3, 1, 1, 1), (11)), FILE_OF(5, 6, 2, 1), FILE_OF(6, 2, 5, 1), COUNTS(1, 1)},
    {"case 8, pass on empty", PATCH_OF((0), (0)), FILE_OF(0), FILE_OF(0), COUNTS(0, 0)},
    {"case 8, cue", PATCH_OF((1), (2)), FILE_OF(1), FILE_OF(1), COUNTS(0, 0)},
    {"case 9, a nullable silent", PATCH_OF((1), (1, 4, 0, 0)), FILE_OF(2), FILE_OF(7, 0, 0), COUNTS(1, 0)},
};

/* What each kind of node does to the arrivals of its input. */
static const struct feed_row node_rows[] = {
    {"pass", PATCH_OF((4, 1, 2), (0)), FILE_OF(7, 2, 4, 2, 4), FILE_OF(7, 2, 4, 2, 4), COUNTS(2, 2)},
    {"silent sends none (2: sent is taken for arrived)", PATCH_OF((4, 1, 2), (1, 0)), FILE_OF(7, 2, 4, 2, 4),
     FILE_OF(0), COUNTS(2, 0)},
    {"both sends twice (1: counted once)", PATCH_OF((1), (4, 0, 0)), FILE_OF(2), FILE_OF(7, 2, 2), COUNTS(1, 2)},
    {"both of both", PATCH_OF((2), (4, 0, 4, 0, 0)), FILE_OF(4, 2, 2), FILE_OF(7, 4, 2, 2, 7, 4, 2, 2, 4, 2, 2),
     COUNTS(1, 3)},
    {"both of nothing", PATCH_OF((1), (4, 0, 0)), FILE_OF(1), FILE_OF(7, 1, 1), COUNTS(0, 0)},
    {"left drops the right", PATCH_OF((4, 1, 1), (5)), FILE_OF(7, 2, 2), FILE_OF(2), COUNTS(2, 1)},
    {"left, of which nothing has come", PATCH_OF((4, 1, 1), (5)), FILE_OF(7, 1, 2), FILE_OF(1), COUNTS(1, 0)},
    {"right drops the left", PATCH_OF((4, 1, 2), (6)), FILE_OF(7, 2, 4, 4, 4), FILE_OF(4, 4, 4), COUNTS(2, 1)},
    {"right, of which nothing has come", PATCH_OF((4, 1, 2), (6)), FILE_OF(7, 2, 3), FILE_OF(3), COUNTS(1, 0)},
    {"first, not crossed", PATCH_OF((3, 2, 1), (7)), FILE_OF(5, 4, 2, 2), FILE_OF(4, 2, 2), COUNTS(1, 1)},
    {"first drops the second", PATCH_OF((3, 1, 1), (7)), FILE_OF(6, 2, 2), FILE_OF(2), COUNTS(2, 1)},
    {"second waits for the crossing", PATCH_OF((3, 1, 1), (8)), FILE_OF(5, 2), FILE_OF(1), COUNTS(1, 0)},
    {"second drops the first", PATCH_OF((3, 1, 2), (8)), FILE_OF(6, 2, 4, 2, 4), FILE_OF(4, 2, 4), COUNTS(2, 1)},
    {"then", PATCH_OF((3, 1, 1), (9, 0, 4, 0, 0)), FILE_OF(6, 2, 2), FILE_OF(6, 2, 7, 2, 2), COUNTS(2, 3)},
    {"then, the second is not reached", PATCH_OF((3, 1, 1), (9, 0, 4, 0, 0)), FILE_OF(5, 2), FILE_OF(5, 2),
     COUNTS(1, 1)},
    {"regroup right", PATCH_OF((3, 3, 1, 1, 2), (11)), FILE_OF(6, 6, 2, 2, 4, 2, 4), FILE_OF(6, 2, 6, 2, 4, 2, 4),
     COUNTS(3, 3)},
    {"regroup left", PATCH_OF((3, 1, 3, 1, 2), (12)), FILE_OF(6, 2, 6, 2, 4, 2, 4), FILE_OF(6, 6, 2, 2, 4, 2, 4),
     COUNTS(3, 3)},
    {"spread, the first part twice", PATCH_OF((3, 2, 4, 1, 1), (13)), FILE_OF(5, 4, 2, 4),
     FILE_OF(7, 5, 4, 2, 4, 5, 4, 2, 4), COUNTS(1, 2)},
    {"spread, the second part once (6: all of it twice)", PATCH_OF((3, 1, 4, 1, 1), (13)), FILE_OF(6, 2, 7, 2, 2),
     FILE_OF(7, 6, 2, 2, 6, 2, 2), COUNTS(3, 4)},
    {"spread, nothing but the crossing", PATCH_OF((3, 0, 4, 1, 1), (13)), FILE_OF(6, 0, 7, 1, 1),
     FILE_OF(7, 6, 0, 1, 6, 0, 1), COUNTS(0, 0)},
    {"front (1: its crossing counts)", PATCH_OF((1), (14)), FILE_OF(1), FILE_OF(6, 0, 1), COUNTS(0, 0)},
    {"choose, none chosen", PATCH_OF((5, 1, 1), (15, 0, 0)), FILE_OF(8), FILE_OF(1), COUNTS(0, 0)},
    {"choose, chosen (1: the choice counts)", PATCH_OF((5, 1, 1), (15, 0, 0)), FILE_OF(9, 1), FILE_OF(1), COUNTS(0, 0)},
    {"choose, chosen and come", PATCH_OF((5, 1, 1), (15, 0, 0)), FILE_OF(10, 2), FILE_OF(2), COUNTS(1, 1)},
    {"mark first (1: the mark counts)", PATCH_OF((1), (16, 2)), FILE_OF(1), FILE_OF(9, 1), COUNTS(0, 0)},
    {"mark second", PATCH_OF((2), (17, 1)), FILE_OF(4, 4, 2), FILE_OF(10, 4, 4, 2), COUNTS(1, 1)},

    {"chain, less inside than sent (0: an inner stream)", PATCH_OF((1), (10, 1, 0, 2)), FILE_OF(2), FILE_OF(2),
     COUNTS(1, 1)},
    {"chain, more inside than sent (2: an inner stream)", PATCH_OF((1), (10, 4, 0, 0, 5)), FILE_OF(2), FILE_OF(2),
     COUNTS(1, 1)},
    {"chain, all inside is dropped (2: an inner stream)", PATCH_OF((1), (10, 4, 0, 0, 1, 0)), FILE_OF(2), FILE_OF(0),
     COUNTS(1, 0)},
    {"chain of chains (8: inner streams add)", PATCH_OF((1), (10, 4, 0, 0, 10, 4, 0, 0, 5)), FILE_OF(2),
     FILE_OF(7, 2, 2), COUNTS(1, 2)},
    {"chain, a cue inside (1: an inner stream)", PATCH_OF((0), (10, 2, 1, 0)), FILE_OF(0), FILE_OF(0), COUNTS(0, 0)},
};

/* Cue and level nodes send of their own, and only once they need not wait (M-103). */
static const struct feed_row own_rows[] = {
    {"cue waits", PATCH_OF((1), (2)), FILE_OF(1), FILE_OF(1), COUNTS(0, 0)},
    {"cue sends", PATCH_OF((1), (2)), FILE_OF(2), FILE_OF(2), COUNTS(1, 1)},
    {"cue sends one for two", PATCH_OF((4, 1, 1), (2)), FILE_OF(7, 2, 2), FILE_OF(2), COUNTS(2, 1)},
    {"cue has sent", PATCH_OF((4, 0, 1), (1, 0)), FILE_OF(7, 0, 2), FILE_OF(0), COUNTS(1, 0)},
    {"cue on what is complete (0: nothing came)", PATCH_OF((0), (2)), FILE_OF(0), FILE_OF(2), COUNTS(0, 1)},
    {"cue on a crossing alone (1 arrived: it counts)", PATCH_OF((3, 0, 1), (2)), FILE_OF(6, 0, 1), FILE_OF(2),
     COUNTS(0, 1)},
    {"cue on a choice alone (1 arrived: it counts)", PATCH_OF((5, 1, 1), (2)), FILE_OF(9, 1), FILE_OF(2), COUNTS(0, 1)},
    {"cue that waits beside an arrival", PATCH_OF((4, 1, 1), (10, 5, 2)), FILE_OF(7, 1, 2), FILE_OF(1), COUNTS(1, 0)},
    {"cue whose own slice is complete", PATCH_OF((3, 1, 0), (10, 8, 2)), FILE_OF(5, 1), FILE_OF(2), COUNTS(0, 1)},
    {"cue behind a crossing waits", PATCH_OF((3, 1, 1), (9, 0, 2)), FILE_OF(6, 2, 1), FILE_OF(6, 2, 1), COUNTS(1, 1)},
    {"cue behind a choice waits", PATCH_OF((5, 1, 1), (15, 2, 0)), FILE_OF(9, 1), FILE_OF(1), COUNTS(0, 0)},
    {"level waits, its value of bytes 2 and 4", PATCH_OF((1), (3, 2, 4)), FILE_OF(1), FILE_OF(3), COUNTS(0, 0)},
    {"level sends a value of bytes 2 and 4 (3: every byte counts)", PATCH_OF((1), (3, 2, 4)), FILE_OF(2),
     FILE_OF(4, 2, 4), COUNTS(1, 1)},
    {"level sends a value of bytes 4 and 2 (3: every byte counts)", PATCH_OF((0), (3, 4, 2)), FILE_OF(0),
     FILE_OF(4, 4, 2), COUNTS(0, 1)},
    {"the house fills", PATCH_OF((4, 1, 2), (4, 4, 2, 3, 78, 32, 0)), FILE_OF(7, 1, 3), FILE_OF(7, 7, 1, 3, 7, 1, 3),
     COUNTS(0, 0)},
    {"the first arrival", PATCH_OF((4, 1, 2), (4, 4, 2, 3, 78, 32, 0)), FILE_OF(7, 2, 3),
     FILE_OF(7, 7, 2, 4, 78, 32, 7, 2, 3), COUNTS(1, 3)},
    {"cues in front of nothing", PATCH_OF((1), (10, 14, 9, 2, 10, 14, 9, 3, 4, 4, 0)), FILE_OF(1),
     FILE_OF(6, 2, 6, 4, 4, 4, 1), COUNTS(0, 2)},
};

/* Two slices, the second of what the first leaves, and the arrivals of each; as one they have the sum. */
struct join_row {
    const char *name;
    struct bytes type, first, second;
    uint32_t in_first, in_second;
};

static const struct join_row join_rows[] = {
    {"nothing and nothing", FILE_OF(0), FILE_OF(0), FILE_OF(0), 0, 0},
    {"empty and empty", FILE_OF(4, 1, 2), FILE_OF(7, 1, 3), FILE_OF(7, 1, 3), 0, 0},
    {"empty and a cue", FILE_OF(1), FILE_OF(1), FILE_OF(2), 0, 1},
    {"a cue and what it leaves", FILE_OF(1), FILE_OF(2), FILE_OF(0), 1, 0},
    {"values of bytes 2 and 4", FILE_OF(4, 2, 2), FILE_OF(7, 4, 2, 4, 3), FILE_OF(7, 0, 4, 4, 2), 1, 1},
    {"case 7, the crossing comes second", FILE_OF(3, 1, 1), FILE_OF(5, 2), FILE_OF(6, 0, 1), 1, 0},
    {"the crossing and its cue come second", FILE_OF(3, 1, 1), FILE_OF(5, 2), FILE_OF(6, 0, 2), 1, 1},
    {"both parts come second", FILE_OF(3, 1, 1), FILE_OF(5, 1), FILE_OF(6, 2, 2), 0, 2},
    {"the crossing comes first", FILE_OF(3, 1, 1), FILE_OF(6, 2, 1), FILE_OF(2), 1, 1},
    {"one side and then the other", FILE_OF(4, 1, 1), FILE_OF(7, 2, 1), FILE_OF(7, 0, 2), 1, 1},
    {"the choice comes second", FILE_OF(5, 1, 2), FILE_OF(8), FILE_OF(10, 4, 2, 2), 0, 1},
    {"the choice comes first", FILE_OF(5, 1, 2), FILE_OF(9, 1), FILE_OF(2), 0, 1},
    {"a chosen part in two", FILE_OF(5, 4, 1, 1, 2), FILE_OF(9, 7, 2, 1), FILE_OF(7, 0, 2), 1, 1},
};

/* Calls that are refused, though some of the slice is good and has arrivals: Admit with a type, Feed with a patch. */
struct refused_row {
    const char *name;
    struct bytes file, slice;
    uint32_t number;
};

static const struct refused_row refused_admits[] = {
    {"a type that is cut short", FILE_OF(4, 1), FILE_OF(7, 2, 2), 1},
    {"a type of an unlisted kind", FILE_OF(4, 1, 99), FILE_OF(7, 2, 2), 2},
    {"a type with bytes left over", FILE_OF(4, 1, 1, 1), FILE_OF(7, 2, 2), 3},
    {"a slice that is cut short behind a cue", FILE_OF(4, 1, 1), FILE_OF(7, 2), 11},
    {"a slice that is cut short in a value", FILE_OF(4, 1, 2), FILE_OF(7, 2, 4, 2), 11},
    {"a slice of an unlisted kind behind a cue", FILE_OF(4, 1, 1), FILE_OF(7, 2, 99), 12},
    {"a slice with a cue left over", FILE_OF(4, 1, 1), FILE_OF(7, 2, 2, 2), 13},
    {"a cue behind the slice's section", FILE_OF(1), RAW(0, 1, 2, 2), 13},
    {"a cue that has come already", FILE_OF(4, 1, 0), FILE_OF(7, 2, 2), 14},
    {"case 7, a crossing too early", FILE_OF(3, 1, 1), FILE_OF(6, 1, 1), 14},
    {"a crossing too early behind a cue", FILE_OF(3, 4, 1, 1, 1), FILE_OF(6, 7, 2, 1, 2), 14},
};

static const struct refused_row refused_feeds[] = {
    {"a patch that is cut short", PATCH_OF((4, 1, 1), (4, 0)), FILE_OF(7, 2, 2), 1},
    {"a patch of an unlisted kind", PATCH_OF((4, 1, 1), (99)), FILE_OF(7, 2, 2), 2},
    {"a patch with bytes left over", PATCH_OF((4, 1, 1), (0, 0)), FILE_OF(7, 2, 2), 3},
    {"a silent that is not nullable", PATCH_OF((4, 1, 1), (1, 1)), FILE_OF(7, 2, 2), 6},
    {"case 9, left on a sequence", PATCH_OF((3, 1, 1), (5)), FILE_OF(6, 2, 2), 7},
    {"case 9, silent of a sequence", PATCH_OF((3, 1, 1), (1, 3, 0, 0)), FILE_OF(6, 2, 2), 6},
    {"a slice that is cut short behind a cue", PATCH_OF((4, 1, 1), (0)), FILE_OF(7, 2), 11},
    {"a slice of an unlisted kind behind a cue", PATCH_OF((4, 1, 1), (4, 0, 0)), FILE_OF(7, 2, 99), 12},
    {"a slice with a cue left over", PATCH_OF((4, 1, 1), (0)), FILE_OF(7, 2, 2, 2), 13},
    {"a cue that has come already", PATCH_OF((4, 1, 0), (2)), FILE_OF(7, 2, 2), 14},
    {"case 7, a crossing too early", PATCH_OF((3, 1, 1), (0)), FILE_OF(6, 1, 1), 14},
    {"outputs of choose that differ", PATCH_OF((5, 1, 2), (15, 0, 0)), FILE_OF(9, 2), 30},
};

/* Feeds with files of many bytes, given by their sections. */
struct large_row {
    const char *name;
    struct section type, nodes, slice;
    struct counts counts;
};

/* clang-format off */
#define REPEATED(part, times, end) {NONE, RAW part, times, RAW end}
#define OF_CUES(kind, times) REPEATED((kind, 1), times, (1))
#define CUES_COME(kind, times) REPEATED((kind, 2), times, (2))
#define DOUBLED(times) REPEATED((10, 4, 0, 0), times - 1, (4, 0, 0))
#define BEHIND(front, part, times, end) {RAW front, RAW part, times, RAW end}
/* clang-format on */

static const struct large_row large_rows[] = {
    {"128 cues, side by side", OF_CUES(4, 127), SECTION(0), CUES_COME(7, 127), COUNTS(128, 128)},
    {"128 cues, one after the other", OF_CUES(3, 127), SECTION(0), CUES_COME(6, 127), COUNTS(128, 128)},
    {"128 levels of bytes 2 and 4", REPEATED((4, 2), 127, (2)), SECTION(0), REPEATED((7, 4, 2, 4), 127, (4, 4, 2)),
     COUNTS(128, 128)},
    {"127 of 128 cues", OF_CUES(3, 127), SECTION(0), REPEATED((6, 2), 127, (1)), COUNTS(127, 127)},
    {"the last of 128 cues", OF_CUES(4, 127), SECTION(0), REPEATED((7, 1), 127, (2)), COUNTS(1, 1)},
    {"none of 128 cues", OF_CUES(4, 127), SECTION(0), REPEATED((7, 1), 127, (1)), COUNTS(0, 0)},
    {"127 choices and a cue", OF_CUES(5, 127), SECTION(0), REPEATED((10), 127, (2)), COUNTS(1, 1)},
    {"127 crossings and no cue", REPEATED((3, 0), 127, (0)), SECTION(0), REPEATED((6, 0), 127, (0)), COUNTS(0, 0)},

    {"128 come, none is sent", OF_CUES(4, 127), SECTION(1, 0), CUES_COME(7, 127), COUNTS(128, 0)},
    {"128 come, a cue is sent", OF_CUES(4, 127), SECTION(2), CUES_COME(7, 127), COUNTS(128, 1)},
    {"128 come, the first is sent", OF_CUES(4, 127), SECTION(5), CUES_COME(7, 127), COUNTS(128, 1)},
    {"128 come, all but the first are sent", OF_CUES(4, 127), SECTION(6), CUES_COME(7, 127), COUNTS(128, 127)},
    {"64 come, 128 are sent", OF_CUES(4, 63), SECTION(4, 0, 0), CUES_COME(7, 63), COUNTS(64, 128)},
    {"65 come, 128 are sent", BEHIND((3), (4, 1), 62, (1, 4, 1, 1)), SECTION(13), BEHIND((6), (7, 2), 62, (2, 7, 2, 2)),
     COUNTS(65, 128)},
    {"one comes, 128 are sent", SECTION(1), DOUBLED(7), SECTION(2), COUNTS(1, 128)},
    {"none comes, 128 are sent", SECTION(0), BEHIND((10, 2), (10, 4, 0, 0), 6, (4, 0, 0)), SECTION(0), COUNTS(0, 128)},
    {"128 inside, one is sent (128: an inner stream)", SECTION(1), REPEATED((10, 4, 0, 0), 7, (2)), SECTION(2),
     COUNTS(1, 1)},
    {"32 cues of the patch's own wait", SECTION(1), REPEATED((4, 2), 31, (2)), SECTION(1), COUNTS(0, 0)},
    {"32 cues of the patch's own are sent", SECTION(1), REPEATED((4, 2), 31, (2)), SECTION(2), COUNTS(1, 32)},
};

/* No type is larger, so no feed counts more than 128; nor is there a longer patch. */
struct too_large_row {
    const char *name;
    struct section type, nodes, slice;
    uint32_t number;
};

static const struct too_large_row too_large_rows[] = {
    {"129 would come", OF_CUES(4, 128), SECTION(0), CUES_COME(7, 128), 4},
    {"one comes, 256 would be sent", SECTION(1), DOUBLED(8), SECTION(2), 4},
    {"65 come, 130 would be sent", OF_CUES(4, 64), SECTION(4, 0, 0), CUES_COME(7, 64), 4},
    {"one comes, 65 nodes", SECTION(1), REPEATED((10, 0), 32, (0)), SECTION(2), 5},
};

static struct bytes first_section(struct bytes patch)
{
    return (struct bytes){patch.at, 2 + (size_t)patch.at[0] * 256 + patch.at[1]};
}

static bool admits(struct bytes type, struct bytes slice, uint32_t arrived)
{
    wosthile_admitted seen = wosthile_admit(type.at, type.count, slice.at, slice.count);
    return seen.number == WOSTHILE_ACCEPTED && seen.arrived == arrived;
}

/*
 * A feed with these counts, which Admit confirms: of the slice, and of the output, a slice of what Check gives. They
 * are added to the totals of the patch (M-105).
 */
static void check_counts(const char *name, struct bytes patch, struct bytes slice, struct counts counts)
{
    static uint8_t output[WOSTHILE_SLICE_FILE_MAX], left[WOSTHILE_PATCH_FILE_MAX], type[WOSTHILE_TYPE_FILE_MAX];
    uint8_t *patch_copy = copy_of(patch), *slice_copy = copy_of(slice);
    wosthile_fed fed =
        wosthile_feed(patch_copy, patch.count, slice_copy, slice.count, output, sizeof output, left, sizeof left);
    bool accepted = fed.number == WOSTHILE_ACCEPTED;
    count(accepted && same_counts(counts_of(fed), counts), "Feed", name, fed.arrived);
    struct counts due = sum_of(totals_in(patch), counts);
    count(accepted && same_counts(totals_in((struct bytes){left, fed.patch}), due), "totals left", name, due.arrived);
    count(admits(first_section(patch), slice, counts.arrived), "Admit of the slice", name, counts.arrived);
    size_t type_length = wosthile_check(patch.at, patch.count, type, sizeof type).written;
    struct bytes given = {type, type_length}, sent = {output, fed.output};
    count(admits(given, sent, counts.sent), "Admit of what was sent", name, counts.sent);
    free(patch_copy);
    free(slice_copy);
}

static void check_feeds(const struct feed_row *rows, size_t number)
{
    for (size_t which = 0; which < number; which++) {
        const struct feed_row *row = &rows[which];
        uint8_t output[WOSTHILE_SLICE_FILE_MAX], left[WOSTHILE_PATCH_FILE_MAX];
        size_t sent = wosthile_feed(row->patch.at, row->patch.count, row->slice.at, row->slice.count, output,
                                    sizeof output, left, sizeof left)
                          .output;
        count(sent == row->output.count && unaltered(output, row->output), "what is sent", row->name, sent);
        check_counts(row->name, row->patch, row->slice, row->counts);
    }
}

/* The slices, through nodes that send each arrival once, never and twice. */
static void check_slices(void)
{
    for (size_t which = 0; which < sizeof slice_rows / sizeof slice_rows[0]; which++) {
        const struct slice_row *row = &slice_rows[which];
        const struct bytes pass = FILE_OF(0), silent = FILE_OF(1, 0), both = FILE_OF(4, 0, 0);
        const struct bytes nodes[] = {silent, pass, both};
        for (uint32_t times = 0; times < 3; times++) {
            struct bytes patch =
                patch_of(lengthened(row->type, row->type.count), lengthened(nodes[times], nodes[times].count));
            check_counts(row->name, patch, row->slice, (struct counts){row->arrived, times * row->arrived});
            release(&patch, 1);
        }
    }
}

static void check_join(const struct join_row *row)
{
    uint8_t left[WOSTHILE_TYPE_FILE_MAX], whole[WOSTHILE_SLICE_FILE_MAX];
    struct bytes type = row->type, first = row->first, second = row->second;
    size_t left_length = wosthile_left(type.at, type.count, first.at, first.count, left, sizeof left).written;
    size_t length =
        wosthile_join(type.at, type.count, first.at, first.count, second.at, second.count, whole, sizeof whole).written;
    struct bytes type_left = {left, left_length}, joined = {whole, length};
    count(admits(type, first, row->in_first), "the first of two", row->name, row->in_first);
    count(admits(type_left, second, row->in_second), "the second of two", row->name, row->in_second);
    count(admits(type, joined, row->in_first + row->in_second), "two as one", row->name, length);
}

/*
 * Leaves bytes that are nobody's answer where the function that is called next has its frame, and so its answer: a
 * count that a refusal does not write would be one of these. Neither may be built into its caller.
 */
__attribute__((noinline)) static void leave_other_bytes(void)
{
    volatile uint8_t other[4096];
    for (size_t place = 0; place < sizeof other; place++) {
        other[place] = 0xa5;
    }
}

__attribute__((noinline)) static void check_refused_admit(const struct refused_row *row)
{
    uint8_t *type = copy_of(row->file), *slice = copy_of(row->slice);
    wosthile_admitted seen = wosthile_admit(type, row->file.count, slice, row->slice.count);
    count(seen.number == row->number && seen.complete == 0 && seen.arrived == 0, "Admit", row->name, seen.arrived);
    free(type);
    free(slice);
}

__attribute__((noinline)) static void check_refused_feed(const struct refused_row *row, size_t output_room,
                                                         size_t left_room)
{
    static uint8_t output[WOSTHILE_SLICE_FILE_MAX], left[WOSTHILE_PATCH_FILE_MAX];
    uint8_t *patch = copy_of(row->file), *slice = copy_of(row->slice);
    wosthile_fed fed =
        wosthile_feed(patch, row->file.count, slice, row->slice.count, output, output_room, left, left_room);
    count(is_refusal(fed, row->number), "Feed", row->name, fed.arrived);
    free(patch);
    free(slice);
}

static void check_refusals(void)
{
    for (size_t which = 0; which < sizeof refused_admits / sizeof refused_admits[0]; which++) {
        leave_other_bytes();
        check_refused_admit(&refused_admits[which]);
    }
    for (size_t which = 0; which < sizeof refused_feeds / sizeof refused_feeds[0]; which++) {
        leave_other_bytes();
        check_refused_feed(&refused_feeds[which], WOSTHILE_SLICE_FILE_MAX, WOSTHILE_PATCH_FILE_MAX);
    }
}

/* Two cues come and four would be sent, but the output's 9 bytes have no room, or the 20 of the patch left. */
static void check_no_room(void)
{
    const struct refused_row row = {"no room", PATCH_OF((4, 1, 1), (4, 0, 0)), FILE_OF(7, 2, 2), 20};
    const size_t rooms[][2] = {{0, 0}, {8, 20}, {9, 19}, {8, 19}, {0, WOSTHILE_PATCH_FILE_MAX}, {513, 0}};
    for (size_t which = 0; which < sizeof rooms / sizeof rooms[0]; which++) {
        leave_other_bytes();
        check_refused_feed(&row, rooms[which][0], rooms[which][1]);
    }
    check_counts("room for both", row.file, row.slice, (struct counts){2, 4});
}

static void check_large(void)
{
    for (size_t which = 0; which < sizeof large_rows / sizeof large_rows[0]; which++) {
        const struct large_row *row = &large_rows[which];
        struct bytes files[] = {patch_of(file_of(row->type), file_of(row->nodes)), file_of(row->slice)};
        check_counts(row->name, files[0], files[1], row->counts);
        release(files, sizeof files / sizeof files[0]);
    }
    for (size_t which = 0; which < sizeof too_large_rows / sizeof too_large_rows[0]; which++) {
        const struct too_large_row *large = &too_large_rows[which];
        struct bytes files[] = {patch_of(file_of(large->type), file_of(large->nodes)), file_of(large->slice)};
        const struct refused_row row = {large->name, files[0], files[1], large->number};
        leave_other_bytes();
        check_refused_feed(&row, WOSTHILE_SLICE_FILE_MAX, WOSTHILE_PATCH_FILE_MAX);
        release(files, sizeof files / sizeof files[0]);
    }
}

/* A level counts once, whatever its value: when it comes, and when a node has it as its own. */
static void check_values(void)
{
    uint8_t output[5], left[7 + WOSTHILE_TOTALS_SECTION];
    bool once = true;
    for (uint32_t value = 0; value <= UINT16_MAX; value++) {
        const uint8_t high = (uint8_t)(value / 256), low = (uint8_t)value;
        const struct bytes pass = PATCH_OF((2), (0)), slice = FILE_OF(4, high, low), type = FILE_OF(2);
        const struct bytes own = PATCH_OF((1), (3, high, low)), cue = FILE_OF(2);
        const struct counts one = COUNTS(1, 1);
        wosthile_fed come =
            wosthile_feed(pass.at, pass.count, slice.at, slice.count, output, sizeof output, left, sizeof left);
        wosthile_fed sent =
            wosthile_feed(own.at, own.count, cue.at, cue.count, output, sizeof output, left, sizeof left);
        once = once && come.number == 0 && sent.number == 0 && same_counts(counts_of(come), one);
        once = once && same_counts(counts_of(sent), one) && admits(type, slice, 1);
    }
    count(once, "arrivals", "a level of every value", UINT16_MAX);
}

/* Four levels side by side, each come or not, with the bytes 2 and 4 in every place of their values. */
static void check_value_bytes(void)
{
    const struct bytes patch = PATCH_OF((4, 4, 2, 2, 4, 2, 2), (4, 0, 0));
    for (unsigned bits = 0; bits < 1u << 12; bits++) {
        uint8_t slice[] = {0, 0, 7, 7, 3, 3, 3, 3, 3, 3, 3, 3, 3, 3, 3, 3, 3};
        uint8_t *next = slice + 4;
        uint32_t levels = 0;
        for (unsigned level = 0; level < 4; level++) {
            bool come = bits >> (8 + level) & 1;
            if (level == 2) {
                *next++ = 7;
            }
            *next++ = come ? 4 : 3;
            for (unsigned byte = 0; come && byte < 2; byte++) {
                *next++ = bits >> (2 * level + byte) & 1 ? 2 : 4;
            }
            levels += come;
        }
        slice[1] = (uint8_t)(next - slice - 2);
        struct bytes file = {slice, (size_t)(next - slice)};
        check_counts("the bytes 2 and 4 in every place", patch, file, (struct counts){levels, 2 * levels});
    }
}

#define ROWS(rows) rows, sizeof rows / sizeof rows[0]

int main(void)
{
    check_slices();
    check_feeds(ROWS(case_rows));
    check_feeds(ROWS(node_rows));
    check_feeds(ROWS(own_rows));
    for (size_t which = 0; which < sizeof join_rows / sizeof join_rows[0]; which++) {
        check_join(&join_rows[which]);
    }
    check_refusals();
    check_no_room();
    check_large();
    check_values();
    check_value_bytes();
    size_t feeds = sizeof case_rows / sizeof case_rows[0] + sizeof node_rows / sizeof node_rows[0] +
                   sizeof own_rows / sizeof own_rows[0] + sizeof large_rows / sizeof large_rows[0];
    printf("%zu slices, %zu feeds and %zu joins with their arrivals; every value of a level\n",
           sizeof slice_rows / sizeof slice_rows[0], feeds, sizeof join_rows / sizeof join_rows[0]);
    printf("%d passed, %d failed\n", passed, failed);
    return failed != 0;
}
