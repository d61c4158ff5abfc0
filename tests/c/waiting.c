/*
 * Cue and level nodes that wait (M-103), through the header alone: behind a node of every kind, inside every kind with
 * parts, and in runs that begin with many empty slices. Each row is tried four times, with a cue and with a level of 0,
 * of 300 and of 65,535 in the place of NODE. What is due was worked out from the documents, byte by byte.
 */
#include "small_feeds.h"
#include "waiting.h"

/* Bytes of a row that stand for others: the node, the type that it gives, that type's empty slice, and what it sends.
 */
enum { NODE = 250, LANE = 251, AWAITED = 252, COME = 253 };

enum { EMPTY_FEEDS = 1000, STEPS_MAX = 4 };

struct form {
    const char *name;
    struct bytes stands_for[4]; /* NODE, LANE, AWAITED and COME */
};

static const struct form forms[] = {
    {"cue", {RAW(2), RAW(1), RAW(1), RAW(2)}},
    {"level 0", {RAW(3, 0, 0), RAW(2), RAW(3), RAW(4, 0, 0)}},
    {"level 300", {RAW(3, 1, 44), RAW(2), RAW(3), RAW(4, 1, 44)}},
    {"level 65535", {RAW(3, 255, 255), RAW(2), RAW(3), RAW(4, 255, 255)}},
};
enum { FORMS = sizeof forms / sizeof forms[0] };

/* Where the node is: second in a chain behind a node of some kind, or a part of a node of some kind. */
enum place { BEHIND, FIRST_PART, SECOND_PART, PLACES };

/*
 * A feed by the contents of the sections, and what it counts; these counts are the totals left, since the patch was
 * never fed before. The node waits if the nodes left have it still.
 */
struct row {
    const char *name;
    unsigned kind;
    enum place place;
    struct bytes type, nodes, slice, output, type_left, nodes_left;
    struct counts counts;
};

/* clang-format off */
#define ROW(name, kind, place, type, nodes, slice, output, type_left, nodes_left, arrived, sent) \
    {name, kind, place, RAW type, RAW nodes, RAW slice, RAW output, RAW type_left, RAW nodes_left, {arrived, sent}}

static const struct row rows[] = {
    ROW("pass, empty", 0, BEHIND, (1), (10, 0, NODE), (1), (AWAITED), (1), (10, 0, NODE), 0, 0),
    ROW("pass, come", 0, BEHIND, (1), (10, 0, NODE), (2), (COME), (0), (10, 0, 1, 0), 1, 1),
    ROW("pass, a choice alone", 0, BEHIND, (5, 1, 1), (10, 0, NODE), (9, 1), (COME), (1), (10, 0, 1, 0), 0, 1),
    ROW("pass, a crossing alone", 0, BEHIND, (3, 0, 1), (10, 0, NODE), (6, 0, 1), (COME), (1), (10, 0, 1, 0), 0, 1),
    ROW("silent is complete", 1, BEHIND, (1), (10, 1, 0, NODE), (1), (COME), (1), (10, 1, 0, 1, 0), 0, 1),
    ROW("silent of two sides", 1, BEHIND, (1), (10, 1, 4, 0, 0, NODE), (2), (COME), (0), (10, 1, 4, 0, 0, 1, 0), 1, 1),
    ROW("cue waits too", 2, BEHIND, (1), (10, 2, NODE), (1), (AWAITED), (1), (10, 2, NODE), 0, 0),
    ROW("cue opens too", 2, BEHIND, (1), (10, 2, NODE), (2), (COME), (0), (10, 1, 0, 1, 0), 1, 1),
    ROW("cue on empty", 2, BEHIND, (0), (10, 2, NODE), (0), (COME), (0), (10, 1, 0, 1, 0), 0, 1),
    ROW("level waits too", 3, BEHIND, (1), (10, 3, 0, 0, NODE), (1), (AWAITED), (1), (10, 3, 0, 0, NODE), 0, 0),
    ROW("level opens too", 3, BEHIND, (1), (10, 3, 0, 0, NODE), (2), (COME), (0), (10, 1, 0, 1, 0), 1, 1),
    ROW("both, empty", 4, BEHIND, (1), (10, 4, 0, 0, NODE), (1), (AWAITED), (1), (10, 4, 0, 0, NODE), 0, 0),
    ROW("both, come", 4, BEHIND, (1), (10, 4, 0, 0, NODE), (2), (COME), (0), (10, 4, 0, 0, 1, 0), 1, 1),
    ROW("both, one side silent", 4, BEHIND, (1), (10, 4, 1, 0, 0, NODE), (1), (AWAITED),
        (1), (10, 4, 1, 0, 0, NODE), 0, 0),
    ROW("both, two silent", 4, BEHIND, (1), (10, 4, 1, 0, 1, 0, NODE), (1), (COME),
        (1), (10, 4, 1, 0, 1, 0, 1, 0), 0, 1),
    ROW("left, the other has come", 5, BEHIND, (4, 1, 1), (10, 5, NODE), (7, 1, 2), (AWAITED),
        (4, 1, 0), (10, 5, NODE), 1, 0),
    ROW("left has come", 5, BEHIND, (4, 1, 1), (10, 5, NODE), (7, 2, 1), (COME), (4, 0, 1), (10, 5, 1, 0), 1, 1),
    ROW("left, empty part", 5, BEHIND, (4, 0, 1), (10, 5, NODE), (7, 0, 1), (COME), (4, 0, 1), (10, 5, 1, 0), 0, 1),
    ROW("right, the other has come", 6, BEHIND, (4, 1, 1), (10, 6, NODE), (7, 2, 1), (AWAITED),
        (4, 0, 1), (10, 6, NODE), 1, 0),
    ROW("right has come", 6, BEHIND, (4, 1, 1), (10, 6, NODE), (7, 1, 2), (COME), (4, 1, 0), (10, 6, 1, 0), 1, 1),
    ROW("right, empty part", 6, BEHIND, (4, 1, 0), (10, 6, NODE), (7, 1, 0), (COME), (4, 1, 0), (10, 6, 1, 0), 0, 1),
    ROW("first, empty", 7, BEHIND, (3, 1, 1), (10, 7, NODE), (5, 1), (AWAITED), (3, 1, 1), (10, 7, NODE), 0, 0),
    ROW("first has come", 7, BEHIND, (3, 1, 1), (10, 7, NODE), (5, 2), (COME), (3, 0, 1), (10, 7, 1, 0), 1, 1),
    ROW("first is crossed", 7, BEHIND, (3, 1, 1), (10, 7, NODE), (6, 2, 1), (COME), (1), (10, 1, 0, 1, 0), 1, 1),
    ROW("first, empty part", 7, BEHIND, (3, 0, 1), (10, 7, NODE), (5, 0), (COME), (3, 0, 1), (10, 7, 1, 0), 0, 1),
    ROW("second, the first has come", 8, BEHIND, (3, 1, 1), (10, 8, NODE), (5, 2), (AWAITED),
        (3, 0, 1), (10, 8, NODE), 1, 0),
    ROW("second, crossed", 8, BEHIND, (3, 1, 1), (10, 8, NODE), (6, 2, 1), (AWAITED), (1), (10, 0, NODE), 1, 0),
    ROW("second has come", 8, BEHIND, (3, 1, 1), (10, 8, NODE), (6, 2, 2), (COME), (0), (10, 0, 1, 0), 2, 1),
    ROW("second, empty part", 8, BEHIND, (3, 1, 0), (10, 8, NODE), (5, 1), (COME), (3, 1, 0), (10, 8, 1, 0), 0, 1),
    ROW("then, empty", 9, BEHIND, (3, 1, 1), (10, 9, 0, 0, NODE), (5, 1), (AWAITED),
        (3, 1, 1), (10, 9, 0, 0, NODE), 0, 0),
    ROW("then, come", 9, BEHIND, (3, 1, 1), (10, 9, 0, 0, NODE), (5, 2), (COME), (3, 0, 1), (10, 9, 0, 0, 1, 0), 1, 1),
    ROW("then, crossed", 9, BEHIND, (3, 1, 1), (10, 9, 0, 0, NODE), (6, 2, 1), (COME), (1), (10, 0, 1, 0), 1, 1),
    ROW("then of silents owes its crossing", 9, BEHIND, (3, 1, 1), (10, 9, 1, 0, 1, 0, NODE), (5, 2), (AWAITED),
        (3, 0, 1), (10, 9, 1, 0, 1, 0, NODE), 1, 0),
    ROW("then of silents, crossed", 9, BEHIND, (3, 1, 1), (10, 9, 1, 0, 1, 0, NODE), (6, 2, 1), (COME),
        (1), (10, 1, 0, 1, 0), 1, 1),
    ROW("chain, empty", 10, BEHIND, (1), (10, 10, 0, 0, NODE), (1), (AWAITED), (1), (10, 10, 0, 0, NODE), 0, 0),
    ROW("chain, come", 10, BEHIND, (1), (10, 10, 0, 0, NODE), (2), (COME), (0), (10, 10, 0, 0, 1, 0), 1, 1),
    ROW("regroup right, empty", 11, BEHIND, (3, 3, 1, 1, 1), (10, 11, NODE), (5, 5, 1), (AWAITED),
        (3, 3, 1, 1, 1), (10, 11, NODE), 0, 0),
    ROW("regroup right, come", 11, BEHIND, (3, 3, 1, 1, 1), (10, 11, NODE), (5, 5, 2), (COME),
        (3, 3, 0, 1, 1), (10, 11, 1, 0), 1, 1),
    ROW("regroup right, a crossing alone", 11, BEHIND, (3, 3, 0, 1, 1), (10, 11, NODE), (5, 6, 0, 1), (COME),
        (3, 1, 1), (10, 0, 1, 0), 0, 1),
    ROW("regroup left, empty", 12, BEHIND, (3, 1, 3, 1, 1), (10, 12, NODE), (5, 1), (AWAITED),
        (3, 1, 3, 1, 1), (10, 12, NODE), 0, 0),
    ROW("regroup left, come", 12, BEHIND, (3, 1, 3, 1, 1), (10, 12, NODE), (5, 2), (COME),
        (3, 0, 3, 1, 1), (10, 12, 1, 0), 1, 1),
    ROW("regroup left, a crossing alone", 12, BEHIND, (3, 0, 3, 1, 1), (10, 12, NODE), (6, 0, 5, 1), (COME),
        (3, 1, 1), (10, 0, 1, 0), 0, 1),
    ROW("spread, empty", 13, BEHIND, (3, 1, 4, 1, 1), (10, 13, NODE), (5, 1), (AWAITED),
        (3, 1, 4, 1, 1), (10, 13, NODE), 0, 0),
    ROW("spread, come", 13, BEHIND, (3, 1, 4, 1, 1), (10, 13, NODE), (5, 2), (COME),
        (3, 0, 4, 1, 1), (10, 13, 1, 0), 1, 1),
    ROW("spread, a crossing alone", 13, BEHIND, (3, 0, 4, 1, 1), (10, 13, NODE), (6, 0, 7, 1, 1), (COME),
        (4, 1, 1), (10, 0, 1, 0), 0, 1),
    ROW("front crosses at its first feed", 14, BEHIND, (1), (10, 14, NODE), (1), (COME), (1), (10, 0, 1, 0), 0, 1),
    ROW("choose, none chosen", 15, BEHIND, (5, 1, 1), (10, 15, 0, 0, NODE), (8), (AWAITED),
        (5, 1, 1), (10, 15, 0, 0, NODE), 0, 0),
    ROW("choose, chosen", 15, BEHIND, (5, 1, 1), (10, 15, 0, 0, NODE), (9, 1), (AWAITED), (1), (10, 0, NODE), 0, 0),
    ROW("choose, chosen and come", 15, BEHIND, (5, 1, 1), (10, 15, 0, 0, NODE), (10, 2), (COME),
        (0), (10, 0, 1, 0), 1, 1),
    ROW("choose of silents", 15, BEHIND, (5, 1, 2), (10, 15, 1, 0, 1, 0, NODE), (8), (COME),
        (5, 1, 2), (10, 15, 1, 0, 1, 0, 1, 0), 0, 1),
    ROW("mark first marks at its first feed", 16, BEHIND, (1), (10, 16, 2, NODE), (1), (COME),
        (1), (10, 0, 1, 0), 0, 1),
    ROW("mark second marks at its first feed", 17, BEHIND, (1), (10, 17, 2, NODE), (1), (COME),
        (1), (10, 0, 1, 0), 0, 1),

    ROW("in both, empty", 4, FIRST_PART, (1), (4, NODE, 0), (1), (7, AWAITED, 1), (1), (4, NODE, 0), 0, 0),
    ROW("in both, come", 4, FIRST_PART, (1), (4, NODE, 0), (2), (7, COME, 2), (0), (4, 1, 0, 0), 1, 2),
    ROW("on the right of both, empty", 4, SECOND_PART, (1), (4, 0, NODE), (1), (7, 1, AWAITED),
        (1), (4, 0, NODE), 0, 0),
    ROW("on the right of both, come", 4, SECOND_PART, (1), (4, 0, NODE), (2), (7, 2, COME), (0), (4, 0, 1, 0), 1, 2),
    ROW("on both sides", 4, SECOND_PART, (1), (4, NODE, NODE), (2), (7, COME, COME), (0), (4, 1, 0, 1, 0), 1, 2),
    ROW("one waits, one does not", 4, FIRST_PART, (1), (4, NODE, 10, 1, 0, NODE), (1), (7, AWAITED, COME),
        (1), (4, NODE, 10, 1, 0, 1, 0), 0, 1),
    ROW("first of then, empty", 9, FIRST_PART, (3, 1, 1), (9, NODE, 0), (5, 1), (5, AWAITED),
        (3, 1, 1), (9, NODE, 0), 0, 0),
    ROW("first of then, come", 9, FIRST_PART, (3, 1, 1), (9, NODE, 0), (5, 2), (5, COME),
        (3, 0, 1), (9, 1, 0, 0), 1, 1),
    ROW("first of then, crossed", 9, FIRST_PART, (3, 1, 1), (9, NODE, 0), (6, 2, 1), (6, COME, 1), (1), (0), 1, 1),
    ROW("first of then, empty part", 9, FIRST_PART, (3, 0, 1), (9, NODE, 0), (5, 0), (5, COME),
        (3, 0, 1), (9, 1, 0, 0), 0, 1),
    ROW("prepend", 9, FIRST_PART, (1), (10, 14, 9, NODE, 0), (1), (6, COME, 1), (1), (10, 0, 0), 0, 1),
    ROW("prepend in two steps", 9, FIRST_PART, (1), (10, 14, 9, NODE, 10, 14, 9, NODE, 0), (1), (6, COME, 6, COME, 1),
        (1), (10, 0, 10, 0, 0), 0, 2),
    ROW("second of then is not fed", 9, SECOND_PART, (3, 1, 1), (9, 0, NODE), (5, 2), (5, 2),
        (3, 0, 1), (9, 0, NODE), 1, 1),
    ROW("second of then, crossed", 9, SECOND_PART, (3, 1, 1), (9, 0, NODE), (6, 2, 1), (6, 2, AWAITED),
        (1), (NODE), 1, 1),
    ROW("second of then, come", 9, SECOND_PART, (3, 1, 1), (9, 0, NODE), (6, 2, 2), (6, 2, COME), (0), (1, 0), 2, 2),
    ROW("second of then, empty part", 9, SECOND_PART, (3, 1, 0), (9, 0, NODE), (6, 2, 0), (6, 2, COME),
        (0), (1, 0), 1, 2),
    ROW("first of chain, empty", 10, FIRST_PART, (1), (10, NODE, 0), (1), (AWAITED), (1), (10, NODE, 0), 0, 0),
    ROW("first of chain, come", 10, FIRST_PART, (1), (10, NODE, 0), (2), (COME), (0), (10, 1, 0, 0), 1, 1),
    ROW("front behind it crosses", 10, FIRST_PART, (1), (10, NODE, 14), (1), (6, 0, AWAITED), (1), (10, NODE, 0), 0, 0),
    ROW("second of chain, empty", 10, SECOND_PART, (2), (10, 0, NODE), (3), (AWAITED), (2), (10, 0, NODE), 0, 0),
    ROW("second of chain, level 0 come", 10, SECOND_PART, (4, 1, 2), (10, 0, NODE), (7, 1, 4, 0, 0), (COME),
        (4, 1, 0), (10, 0, 1, 0), 1, 1),
    ROW("first of choose, none", 15, FIRST_PART, (5, 1, LANE), (15, NODE, 0), (8), (AWAITED),
        (5, 1, LANE), (15, NODE, 0), 0, 0),
    ROW("first of choose, chosen", 15, FIRST_PART, (5, 1, LANE), (15, NODE, 0), (9, 1), (AWAITED), (1), (NODE), 0, 0),
    ROW("first of choose, come", 15, FIRST_PART, (5, 1, LANE), (15, NODE, 0), (9, 2), (COME), (0), (1, 0), 1, 1),
    ROW("first of choose, empty part", 15, FIRST_PART, (5, 0, LANE), (15, NODE, 0), (9, 0), (COME), (0), (1, 0), 0, 1),
    ROW("the other of choose", 15, FIRST_PART, (5, 1, LANE), (15, NODE, 0), (10, AWAITED), (AWAITED),
        (LANE), (0), 0, 0),
    ROW("second of choose, none", 15, SECOND_PART, (5, LANE, 1), (15, 0, NODE), (8), (AWAITED),
        (5, LANE, 1), (15, 0, NODE), 0, 0),
    ROW("second of choose, chosen", 15, SECOND_PART, (5, LANE, 1), (15, 0, NODE), (10, 1), (AWAITED),
        (1), (NODE), 0, 0),
    ROW("second of choose, come", 15, SECOND_PART, (5, LANE, 1), (15, 0, NODE), (10, 2), (COME), (0), (1, 0), 1, 1),
};

/* A feed of a run: what comes, what is sent, what is left, and the counts. */
struct step {
    struct bytes slice, output, type_left, nodes_left;
    struct counts counts;
};

/* A run that begins with empty slices, in which the patch stays as it is and nothing is counted; then the steps. */
struct run {
    const char *name;
    struct bytes type, nodes, empty, output;
    size_t number;
    struct step steps[STEPS_MAX];
};

#define STEP(slice, output, type_left, nodes_left, arrived, sent) \
    {RAW slice, RAW output, RAW type_left, RAW nodes_left, {arrived, sent}}

static const struct run runs[] = {
    {"a cue, sent once", RAW(1), RAW(NODE), RAW(1), RAW(AWAITED), 2,
     {STEP((2), (COME), (0), (1, 0), 1, 1), STEP((0), (0), (0), (1, 0), 0, 0)}},
    {"the house fills", RAW(4, 1, 2), RAW(4, NODE, 0), RAW(7, 1, 3), RAW(7, AWAITED, 7, 1, 3), 3,
     {STEP((7, 2, 3), (7, COME, 7, 2, 3), (4, 0, 2), (4, 1, 0, 0), 1, 2),
      STEP((7, 0, 3), (7, 0, 7, 0, 3), (4, 0, 2), (4, 1, 0, 0), 0, 0),
      STEP((7, 0, 4, 1, 44), (7, 0, 7, 0, 4, 1, 44), (4, 0, 0), (4, 1, 0, 0), 1, 1)}},
    {"level 0 opens it", RAW(4, 1, 2), RAW(NODE), RAW(7, 1, 3), RAW(AWAITED), 2,
     {STEP((7, 1, 4, 0, 0), (COME), (4, 1, 0), (1, 0), 1, 1), STEP((7, 2, 0), (0), (4, 0, 0), (1, 0), 1, 0)}},
    {"a crossing opens it", RAW(3, 0, 1), RAW(NODE), RAW(5, 0), RAW(AWAITED), 3,
     {STEP((6, 0, 1), (COME), (1), (1, 0), 0, 1), STEP((1), (0), (1), (1, 0), 0, 0),
      STEP((2), (0), (0), (1, 0), 1, 0)}},
    {"a choice opens it", RAW(5, 1, 2), RAW(NODE), RAW(8), RAW(AWAITED), 2,
     {STEP((10, 3), (COME), (2), (1, 0), 0, 1), STEP((4, 0, 5), (0), (0), (1, 0), 1, 0)}},
    {"the first part comes, then the crossing", RAW(3, 1, 1), RAW(NODE), RAW(5, 1), RAW(AWAITED), 2,
     {STEP((5, 2), (COME), (3, 0, 1), (1, 0), 1, 1), STEP((6, 0, 1), (0), (1), (1, 0), 0, 0)}},
    {"one side comes, then the other", RAW(4, 1, 1), RAW(NODE), RAW(7, 1, 1), RAW(AWAITED), 2,
     {STEP((7, 2, 1), (COME), (4, 0, 1), (1, 0), 1, 1), STEP((7, 0, 2), (0), (4, 0, 0), (1, 0), 1, 0)}},
    {"the crossing comes, then what it waits for", RAW(3, 1, 1), RAW(9, 0, NODE), RAW(5, 1), RAW(5, 1), 3,
     {STEP((6, 2, 1), (6, 2, AWAITED), (1), (NODE), 1, 1), STEP((1), (AWAITED), (1), (NODE), 0, 0),
      STEP((2), (COME), (0), (1, 0), 1, 1)}},
    {"the choice comes, then what it waits for", RAW(5, 1, LANE), RAW(15, NODE, 0), RAW(8), RAW(AWAITED), 3,
     {STEP((9, 1), (AWAITED), (1), (NODE), 0, 0), STEP((1), (AWAITED), (1), (NODE), 0, 0),
      STEP((2), (COME), (0), (1, 0), 1, 1)}},
    {"the other side comes first", RAW(4, 1, 1), RAW(10, 5, NODE), RAW(7, 1, 1), RAW(AWAITED), 3,
     {STEP((7, 1, 2), (AWAITED), (4, 1, 0), (10, 5, NODE), 1, 0),
      STEP((7, 1, 0), (AWAITED), (4, 1, 0), (10, 5, NODE), 0, 0),
      STEP((7, 2, 0), (COME), (4, 0, 0), (10, 5, 1, 0), 1, 1)}},
};
/* clang-format on */

/* A section's contents, with what the bytes of the row stand for in this form. */
static uint8_t *put_contents(uint8_t *to, struct bytes contents, const struct form *form)
{
    for (size_t place = 0; place < contents.count; place++) {
        uint8_t byte = contents.at[place];
        struct bytes itself = {&byte, 1};
        to = append(to, byte < NODE || byte > COME ? itself : form->stands_for[byte - NODE]);
    }
    return to;
}

/* A file of one section. */
static struct small_file slice_in(struct bytes contents, const struct form *form)
{
    struct small_file file = {.bytes = {0}};
    file.count = (size_t)(put_contents(file.bytes + 2, contents, form) - file.bytes);
    file.bytes[1] = (uint8_t)(file.count - 2);
    return file;
}

static struct small_file patch_in(struct bytes type, struct bytes nodes, const struct form *form)
{
    const struct bytes none = NONE;
    struct small_file type_file = slice_in(type, form), contents = {.count = 0};
    contents.count = (size_t)(put_contents(contents.bytes, nodes, form) - contents.bytes);
    return patch_with(file_at(&type_file), none, file_at(&contents));
}

static size_t waits_met[NODE_KINDS][PLACES], opens_met[NODE_KINDS][PLACES];

static void check_row(const struct row *row, const struct form *form)
{
    char name[100];
    struct small_file patch = patch_in(row->type, row->nodes, form), slice = slice_in(row->slice, form);
    struct small_file output = slice_in(row->output, form);
    struct small_file left = counted(patch_in(row->type_left, row->nodes_left, form), row->counts);
    struct answer answer = feed(file_at(&patch), file_at(&slice));
    bool right = same(file_at(&answer.output), file_at(&output)) && same(file_at(&answer.left), file_at(&left));
    right = right && same_counts(answer.counts, row->counts);
    snprintf(name, sizeof name, "%s, %s", row->name, form->name);
    count(right, "Feed", name, row->kind);
}

static void check_rows(void)
{
    for (size_t which = 0; which < sizeof rows / sizeof rows[0]; which++) {
        const struct row *row = &rows[which];
        struct bytes left = row->nodes_left;
        bool waits = left.count > 0 && memchr(left.at, NODE, left.count) != NULL;
        (waits ? waits_met : opens_met)[row->kind][row->place]++;
        for (size_t form = 0; form < FORMS; form++) {
            check_row(row, &forms[form]);
        }
    }
}

/* A run so far: the patch, all that has come and was sent as one slice each, and the counts of all feeds together. */
struct so_far {
    struct small_file start, input_type, output_type, patch, come, sent;
    struct counts counts;
};

static struct so_far begin_run(const struct run *run, const struct form *form)
{
    struct so_far so_far = {.start = patch_in(run->type, run->nodes, form), .input_type = slice_in(run->type, form)};
    struct bytes start = file_at(&so_far.start);
    so_far.patch = so_far.start;
    so_far.output_type.count = wosthile_check(start.at, start.count, so_far.output_type.bytes, ROOM).written;
    so_far.come = slice_in(run->empty, form);
    so_far.sent = slice_in(run->output, form);
    return so_far;
}

/* Feeds a slice to the patch so far: it sends this, leaves that with the counts of all feeds, and counts so much. */
static bool goes_on(struct so_far *so_far, struct bytes slice, struct bytes output, struct small_file without_totals,
                    struct counts counts)
{
    struct answer answer = feed(file_at(&so_far->patch), slice);
    so_far->counts = sum_of(so_far->counts, answer.counts);
    struct small_file left = counted(without_totals, so_far->counts);
    so_far->patch = answer.left;
    so_far->come = joined(file_at(&so_far->input_type), file_at(&so_far->come), slice);
    so_far->sent = joined(file_at(&so_far->output_type), file_at(&so_far->sent), file_at(&answer.output));
    return same(file_at(&answer.output), output) && same(file_at(&answer.left), file_at(&left)) &&
           same_counts(answer.counts, counts);
}

/* Empty slices, then the steps; then all of it as one slice, fed to the patch at the start, with the same counts. */
static void check_run(const struct run *run, const struct form *form)
{
    struct so_far so_far = begin_run(run, form);
    struct small_file empty = so_far.come, waiting = so_far.sent;
    bool stays = so_far.output_type.count > 0;
    for (size_t feeds = 0; feeds < EMPTY_FEEDS; feeds++) {
        stays = goes_on(&so_far, file_at(&empty), file_at(&waiting), so_far.start, nothing_counted) && stays;
    }
    count(stays, "empty slices leave the patch as it is", run->name, EMPTY_FEEDS);
    for (size_t index = 0; index < run->number; index++) {
        const struct step *step = &run->steps[index];
        struct small_file slice = slice_in(step->slice, form), output = slice_in(step->output, form);
        struct small_file left = patch_in(step->type_left, step->nodes_left, form);
        bool right = goes_on(&so_far, file_at(&slice), file_at(&output), left, step->counts);
        count(right, form->name, run->name, index);
    }
    struct answer whole = feed(file_at(&so_far.start), file_at(&so_far.come));
    bool right = same(file_at(&whole.output), file_at(&so_far.sent)) && whole.output.count > 0;
    right = right && same_counts(whole.counts, so_far.counts);
    count(right && same(file_at(&whole.left), file_at(&so_far.patch)), "fed as one", run->name, run->number);
}

/* Does the library take nodes of this kind with two parts, and with no part fewer? */
static bool has_parts(unsigned kind)
{
    const struct bytes alone = PATCH_OF((1), ((uint8_t)kind)), with_parts = PATCH_OF((1), ((uint8_t)kind, 0, 0));
    bool cut_short = wosthile_check(alone.at, alone.count, NULL, 0).number == WOSTHILE_FAULT_CUT_SHORT;
    uint32_t number = wosthile_check(with_parts.at, with_parts.count, NULL, 0).number;
    return cut_short && number != WOSTHILE_FAULT_CUT_SHORT && number != WOSTHILE_FAULT_LEFT_OVER &&
           kind != WOSTHILE_NODE_LEVEL;
}

/* Every kind of the library was tried: behind it, and in each of its parts, a node that waits and one that opens. */
static void check_met(void)
{
    size_t with_parts = 0;
    count(no_other_kind(), "kinds of nodes", "all are counted", NODE_KINDS);
    for (unsigned kind = 0; kind < NODE_KINDS; kind++) {
        count(opens_met[kind][BEHIND] > 0, "never met", "opens behind a node of kind", kind);
        count((waits_met[kind][BEHIND] > 0) != never_waited_for(kind), "met or not", "waits behind kind", kind);
        with_parts += has_parts(kind);
        for (enum place place = FIRST_PART; has_parts(kind) && place < PLACES; place++) {
            count(opens_met[kind][place] > 0 && waits_met[kind][place] > 0, "never met", "in a part of kind", kind);
        }
    }
    printf(
        "behind %d kinds of nodes and in the parts of %zu, %zu rows; %zu runs of %d empty slices and more; %d forms\n",
        NODE_KINDS, with_parts, sizeof rows / sizeof rows[0], sizeof runs / sizeof runs[0], EMPTY_FEEDS, FORMS);
    count(with_parts > 0, "never met", "a kind with parts", with_parts);
}

int main(void)
{
    check_rows();
    for (size_t run = 0; run < sizeof runs / sizeof runs[0]; run++) {
        for (size_t form = 0; form < FORMS; form++) {
            check_run(&runs[run], &forms[form]);
        }
    }
    check_met();
    printf("%d passed, %d failed\n", passed, failed);
    return failed != 0;
}
