/*
 * Calls of Feed through the header alone, each with the answer that documents 01 and 02 give for it: single feeds with
 * every length of either buffer, and runs of feeds with two patch buffers. Files and buffers are as in cases.c: in
 * memory of their exact size, and between margins.
 */
#include "bytes.h"

/*
 * Output and patch left count if the number is 0; on a refusal both counts are 0. Neither patch of a row has totals:
 * what they are at the start is told where the row is tried, and what is left then has those and the counts.
 */
struct feed_row {
    const char *name;
    struct bytes patch, slice;
    uint32_t number;
    struct bytes output, left;
    struct counts counts;
};

/* What every node sends and leaves. */
static const struct feed_row node_rows[] = {
    {"case 1, swap", PATCH_OF((4, 1, 2), (4, 6, 5)), FILE_OF(7, 2, 3), 0, FILE_OF(7, 3, 2),
     PATCH_OF((4, 0, 2), (4, 6, 5)), COUNTS(1, 1)},
    {"case 2, prepend", PATCH_OF((1), (10, 14, 9, 2, 0)), FILE_OF(1), 0, FILE_OF(6, 2, 1), PATCH_OF((1), (10, 0, 0)),
     COUNTS(0, 1)},
    {"case 2, then", PATCH_OF((1), (10, 0, 0)), FILE_OF(2), 0, FILE_OF(2), PATCH_OF((0), (10, 0, 0)), COUNTS(1, 1)},
    {"case 3, prepend", PATCH_OF((1), (10, 14, 9, 2, 0)), FILE_OF(2), 0, FILE_OF(6, 2, 2), PATCH_OF((0), (10, 0, 0)),
     COUNTS(1, 2)},
    {"case 4, first, not crossed", PATCH_OF((3, 1, 1), (7)), FILE_OF(5, 2), 0, FILE_OF(2), PATCH_OF((3, 0, 1), (7)),
     COUNTS(1, 1)},
    {"case 4, first, crossed", PATCH_OF((3, 1, 1), (7)), FILE_OF(6, 2, 1), 0, FILE_OF(2), PATCH_OF((1), (1, 0)),
     COUNTS(1, 1)},
    {"case 5, spread, not crossed", PATCH_OF((3, 1, 4, 1, 1), (13)), FILE_OF(5, 2), 0, FILE_OF(7, 5, 2, 5, 2),
     PATCH_OF((3, 0, 4, 1, 1), (13)), COUNTS(1, 2)},
    {"case 5, spread, crossed", PATCH_OF((3, 1, 4, 1, 1), (13)), FILE_OF(6, 2, 7, 2, 1), 0,
     FILE_OF(7, 6, 2, 2, 6, 2, 1), PATCH_OF((4, 0, 1), (0)), COUNTS(2, 3)},
    {"case 6, regroup right", PATCH_OF((3, 3, 1, 1, 1), (11)), FILE_OF(5, 6, 2, 1), 0, FILE_OF(6, 2, 5, 1),
     PATCH_OF((3, 1, 1), (0)), COUNTS(1, 1)},
    {"case 8, pass on empty", PATCH_OF((0), (0)), FILE_OF(0), 0, FILE_OF(0), PATCH_OF((0), (0)), COUNTS(0, 0)},
    {"case 8, cue, as M-103 has it", PATCH_OF((1), (2)), FILE_OF(1), 0, FILE_OF(1), PATCH_OF((1), (2)), COUNTS(0, 0)},

    {"pass, level 0 come is not level not yet", PATCH_OF((2), (0)), FILE_OF(4, 0, 0), 0, FILE_OF(4, 0, 0),
     PATCH_OF((0), (0)), COUNTS(1, 1)},
    {"pass, level not yet", PATCH_OF((2), (0)), FILE_OF(3), 0, FILE_OF(3), PATCH_OF((2), (0)), COUNTS(0, 0)},
    {"silent", PATCH_OF((1), (1, 4, 0, 0)), FILE_OF(2), 0, FILE_OF(7, 0, 0), PATCH_OF((0), (1, 4, 0, 0)), COUNTS(1, 0)},
    {"level", PATCH_OF((1), (3, 1, 44)), FILE_OF(2), 0, FILE_OF(4, 1, 44), PATCH_OF((0), (1, 0)), COUNTS(1, 1)},
    {"level, nothing has come", PATCH_OF((3, 1, 1), (3, 10, 4)), FILE_OF(5, 1), 0, FILE_OF(3),
     PATCH_OF((3, 1, 1), (3, 10, 4)), COUNTS(0, 0)},
    {"both, each on the whole", PATCH_OF((2), (4, 0, 2)), FILE_OF(4, 7, 8), 0, FILE_OF(7, 4, 7, 8, 2),
     PATCH_OF((0), (4, 0, 1, 0)), COUNTS(1, 2)},
    {"left", PATCH_OF((4, 3, 1, 2, 2), (5)), FILE_OF(7, 6, 2, 3, 4, 1, 1), 0, FILE_OF(6, 2, 3),
     PATCH_OF((4, 2, 0), (5)), COUNTS(2, 1)},
    {"right", PATCH_OF((4, 3, 1, 2, 2), (6)), FILE_OF(7, 6, 2, 3, 4, 1, 1), 0, FILE_OF(4, 1, 1),
     PATCH_OF((4, 2, 0), (6)), COUNTS(2, 1)},
    {"first leaves lanes silent", PATCH_OF((3, 4, 1, 2, 1), (7)), FILE_OF(6, 7, 2, 4, 0, 9, 1), 0,
     FILE_OF(7, 2, 4, 0, 9), PATCH_OF((1), (1, 4, 0, 0)), COUNTS(2, 2)},
    {"first leaves a sequence silent", PATCH_OF((3, 3, 1, 4, 1, 1, 1), (7)), FILE_OF(6, 6, 2, 7, 2, 2, 2), 0,
     FILE_OF(6, 2, 7, 2, 2), PATCH_OF((0), (1, 4, 0, 0)), COUNTS(4, 3)},
    {"second waits", PATCH_OF((3, 1, 4, 2, 3, 1, 1), (8)), FILE_OF(5, 2), 0, FILE_OF(7, 3, 5, 1),
     PATCH_OF((3, 0, 4, 2, 3, 1, 1), (8)), COUNTS(1, 0)},
    {"second, crossed", PATCH_OF((3, 1, 4, 2, 1), (8)), FILE_OF(6, 2, 7, 4, 9, 9, 1), 0, FILE_OF(7, 4, 9, 9, 1),
     PATCH_OF((4, 0, 1), (0)), COUNTS(2, 1)},
    {"then, not crossed", PATCH_OF((3, 1, 1), (9, 2, 14)), FILE_OF(5, 2), 0, FILE_OF(5, 2),
     PATCH_OF((3, 0, 1), (9, 1, 0, 14)), COUNTS(1, 1)},
    {"then, not crossed, nothing has come", PATCH_OF((3, 1, 1), (9, 2, 14)), FILE_OF(5, 1), 0, FILE_OF(5, 1),
     PATCH_OF((3, 1, 1), (9, 2, 14)), COUNTS(0, 0)},
    {"then is gone after a crossing", PATCH_OF((3, 1, 1), (9, 0, 0)), FILE_OF(6, 2, 1), 0, FILE_OF(6, 2, 1),
     PATCH_OF((1), (0)), COUNTS(1, 1)},
    {"then, crossed, the second node is fed", PATCH_OF((3, 1, 1), (9, 2, 14)), FILE_OF(6, 2, 1), 0,
     FILE_OF(6, 2, 6, 0, 1), PATCH_OF((1), (0)), COUNTS(1, 1)},
    {"a first part that has come is not crossed", PATCH_OF((3, 1, 1), (9, 0, 2)), FILE_OF(5, 2), 0, FILE_OF(5, 2),
     PATCH_OF((3, 0, 1), (9, 0, 2)), COUNTS(1, 1)},
    {"the crossing of empty is owed", PATCH_OF((3, 0, 0), (9, 0, 0)), FILE_OF(5, 0), 0, FILE_OF(5, 0),
     PATCH_OF((3, 0, 0), (9, 0, 0)), COUNTS(0, 0)},
    {"chain, the second on what the first sends", PATCH_OF((4, 3, 1, 2, 2), (10, 5, 8)), FILE_OF(7, 6, 2, 4, 3, 4, 3),
     0, FILE_OF(4, 3, 4), PATCH_OF((4, 0, 2), (10, 5, 0)), COUNTS(2, 1)},
    {"regroup right, not crossed", PATCH_OF((3, 3, 1, 1, 1), (11)), FILE_OF(5, 5, 2), 0, FILE_OF(5, 2),
     PATCH_OF((3, 3, 0, 1, 1), (11)), COUNTS(1, 1)},
    {"regroup right, both crossed", PATCH_OF((3, 3, 1, 1, 2), (11)), FILE_OF(6, 6, 2, 2, 3), 0, FILE_OF(6, 2, 6, 2, 3),
     PATCH_OF((2), (0)), COUNTS(2, 2)},
    {"regroup left, not crossed", PATCH_OF((3, 1, 3, 1, 1), (12)), FILE_OF(5, 2), 0, FILE_OF(5, 5, 2),
     PATCH_OF((3, 0, 3, 1, 1), (12)), COUNTS(1, 1)},
    {"regroup left, one crossed", PATCH_OF((3, 1, 3, 1, 1), (12)), FILE_OF(6, 2, 5, 1), 0, FILE_OF(5, 6, 2, 1),
     PATCH_OF((3, 1, 1), (0)), COUNTS(1, 1)},
    {"regroup left, both crossed", PATCH_OF((3, 1, 3, 1, 2), (12)), FILE_OF(6, 2, 6, 2, 4, 0, 0), 0,
     FILE_OF(6, 6, 2, 2, 4, 0, 0), PATCH_OF((0), (0)), COUNTS(3, 3)},
    {"front", PATCH_OF((4, 1, 2), (14)), FILE_OF(7, 2, 3), 0, FILE_OF(6, 0, 7, 2, 3), PATCH_OF((4, 0, 2), (0)),
     COUNTS(1, 1)},
};

/* The same where there is a choice, in the type or in what is sent. */
static const struct feed_row choice_rows[] = {
    {"choose, none chosen", PATCH_OF((5, 1, 2), (15, 0, 2)), FILE_OF(8), 0, FILE_OF(1), PATCH_OF((5, 1, 2), (15, 0, 2)),
     COUNTS(0, 0)},
    {"choose, first chosen", PATCH_OF((5, 1, 2), (15, 0, 2)), FILE_OF(9, 1), 0, FILE_OF(1), PATCH_OF((1), (0)),
     COUNTS(0, 0)},
    {"choose, first chosen and come", PATCH_OF((5, 1, 2), (15, 0, 2)), FILE_OF(9, 2), 0, FILE_OF(2), PATCH_OF((0), (0)),
     COUNTS(1, 1)},
    {"choose, second chosen", PATCH_OF((5, 1, 2), (15, 0, 2)), FILE_OF(10, 3), 0, FILE_OF(1), PATCH_OF((2), (2)),
     COUNTS(0, 0)},
    {"choose, second chosen and come", PATCH_OF((5, 1, 2), (15, 0, 2)), FILE_OF(10, 4, 0, 0), 0, FILE_OF(2),
     PATCH_OF((0), (1, 0)), COUNTS(1, 1)},
    {"choose, none of larger parts chosen", PATCH_OF((5, 4, 1, 2, 4, 2, 1), (15, 0, 4, 6, 5)), FILE_OF(8), 0,
     FILE_OF(7, 1, 3), PATCH_OF((5, 4, 1, 2, 4, 2, 1), (15, 0, 4, 6, 5)), COUNTS(0, 0)},
    {"choose, first of larger parts", PATCH_OF((5, 4, 1, 2, 4, 2, 1), (15, 0, 4, 6, 5)), FILE_OF(9, 7, 2, 3), 0,
     FILE_OF(7, 2, 3), PATCH_OF((4, 0, 2), (0)), COUNTS(1, 1)},
    {"choose, second of larger parts", PATCH_OF((5, 4, 1, 2, 4, 2, 1), (15, 0, 4, 6, 5)), FILE_OF(10, 7, 4, 1, 2, 1), 0,
     FILE_OF(7, 1, 4, 1, 2), PATCH_OF((4, 0, 1), (4, 6, 5)), COUNTS(1, 1)},
    {"choose, none chosen, a sequence is due", PATCH_OF((5, 1, 1), (15, 14, 14)), FILE_OF(8), 0, FILE_OF(5, 0),
     PATCH_OF((5, 1, 1), (15, 14, 14)), COUNTS(0, 0)},
    {"choose, none chosen, nothing is due", PATCH_OF((5, 1, 2), (15, 1, 4, 0, 0, 1, 4, 0, 0)), FILE_OF(8), 0,
     FILE_OF(7, 0, 0), PATCH_OF((5, 1, 2), (15, 1, 4, 0, 0, 1, 4, 0, 0)), COUNTS(0, 0)},
    {"choose, a node that has not been fed", PATCH_OF((5, 1, 1), (15, 2, 0)), FILE_OF(8), 0, FILE_OF(1),
     PATCH_OF((5, 1, 1), (15, 2, 0)), COUNTS(0, 0)},
    {"choose in choose, none chosen", PATCH_OF((5, 5, 1, 2, 1), (15, 15, 0, 2, 0)), FILE_OF(9, 8), 0, FILE_OF(1),
     PATCH_OF((5, 1, 2), (15, 0, 2)), COUNTS(0, 0)},
    {"choose in choose, chosen", PATCH_OF((5, 1, 5, 1, 2), (15, 0, 15, 0, 2)), FILE_OF(10, 10, 3), 0, FILE_OF(1),
     PATCH_OF((2), (2)), COUNTS(0, 0)},
    {"mark first, nothing has come", PATCH_OF((1), (16, 2)), FILE_OF(1), 0, FILE_OF(9, 1), PATCH_OF((1), (0)),
     COUNTS(0, 0)},
    {"mark first", PATCH_OF((1), (16, 2)), FILE_OF(2), 0, FILE_OF(9, 2), PATCH_OF((0), (0)), COUNTS(1, 1)},
    {"mark second, nothing has come", PATCH_OF((1), (17, 2)), FILE_OF(1), 0, FILE_OF(10, 1), PATCH_OF((1), (0)),
     COUNTS(0, 0)},
    {"mark second of larger parts", PATCH_OF((4, 1, 2), (17, 3, 1, 1)), FILE_OF(7, 2, 3), 0, FILE_OF(10, 7, 2, 3),
     PATCH_OF((4, 0, 2), (0)), COUNTS(1, 1)},
    {"mark of a choice", PATCH_OF((5, 1, 2), (16, 0)), FILE_OF(8), 0, FILE_OF(9, 8), PATCH_OF((5, 1, 2), (0)),
     COUNTS(0, 0)},
    {"a choice handed on, none chosen", PATCH_OF((5, 1, 2), (15, 16, 2, 17, 1)), FILE_OF(8), 0, FILE_OF(8),
     PATCH_OF((5, 1, 2), (15, 16, 2, 17, 1)), COUNTS(0, 0)},
    {"a choice handed on, first chosen", PATCH_OF((5, 1, 2), (15, 16, 2, 17, 1)), FILE_OF(9, 2), 0, FILE_OF(9, 2),
     PATCH_OF((0), (0)), COUNTS(1, 1)},
    {"a choice handed on, second chosen", PATCH_OF((5, 1, 2), (15, 16, 2, 17, 1)), FILE_OF(10, 3), 0, FILE_OF(10, 3),
     PATCH_OF((2), (0)), COUNTS(0, 0)},

    {"pass, none chosen", PATCH_OF((5, 1, 2), (0)), FILE_OF(8), 0, FILE_OF(8), PATCH_OF((5, 1, 2), (0)), COUNTS(0, 0)},
    {"pass, second chosen", PATCH_OF((5, 1, 2), (0)), FILE_OF(10, 3), 0, FILE_OF(10, 3), PATCH_OF((2), (0)),
     COUNTS(0, 0)},
    {"cue, none chosen", PATCH_OF((5, 1, 2), (2)), FILE_OF(8), 0, FILE_OF(1), PATCH_OF((5, 1, 2), (2)), COUNTS(0, 0)},
    {"cue, second chosen", PATCH_OF((5, 1, 2), (2)), FILE_OF(10, 3), 0, FILE_OF(2), PATCH_OF((2), (1, 0)),
     COUNTS(0, 1)},
    {"both, each on the choice", PATCH_OF((5, 1, 2), (4, 15, 0, 2, 0)), FILE_OF(9, 2), 0, FILE_OF(7, 2, 9, 2),
     PATCH_OF((0), (4, 0, 0)), COUNTS(1, 2)},
    {"left of a choice", PATCH_OF((4, 5, 1, 2, 1), (5)), FILE_OF(7, 9, 1, 2), 0, FILE_OF(9, 1),
     PATCH_OF((4, 1, 0), (5)), COUNTS(1, 0)},
    {"right beside a choice", PATCH_OF((4, 5, 1, 2, 1), (6)), FILE_OF(7, 10, 4, 1, 2, 2), 0, FILE_OF(2),
     PATCH_OF((4, 0, 0), (6)), COUNTS(2, 1)},
    {"first, a choice that is crossed", PATCH_OF((3, 5, 4, 1, 1, 2, 1), (7)), FILE_OF(6, 9, 7, 2, 2, 1), 0,
     FILE_OF(9, 7, 2, 2), PATCH_OF((1), (1, 4, 0, 0)), COUNTS(2, 2)},
    {"second waits for a choice", PATCH_OF((3, 1, 5, 1, 2), (8)), FILE_OF(5, 2), 0, FILE_OF(8),
     PATCH_OF((3, 0, 5, 1, 2), (8)), COUNTS(1, 0)},
    {"second, a choice that is crossed", PATCH_OF((3, 5, 1, 2, 1), (8)), FILE_OF(6, 10, 4, 0, 7, 2), 0, FILE_OF(2),
     PATCH_OF((0), (0)), COUNTS(2, 1)},
    {"then, crossed, none chosen", PATCH_OF((3, 1, 5, 1, 2), (9, 0, 15, 0, 2)), FILE_OF(6, 2, 8), 0, FILE_OF(6, 2, 1),
     PATCH_OF((5, 1, 2), (15, 0, 2)), COUNTS(1, 1)},
    {"then, crossed and chosen", PATCH_OF((3, 1, 5, 1, 2), (9, 0, 15, 0, 2)), FILE_OF(6, 2, 10, 3), 0, FILE_OF(6, 2, 1),
     PATCH_OF((2), (2)), COUNTS(1, 1)},
    {"then, chosen in its first part", PATCH_OF((3, 5, 1, 2, 1), (9, 15, 0, 2, 0)), FILE_OF(5, 10, 3), 0, FILE_OF(5, 1),
     PATCH_OF((3, 2, 1), (9, 2, 0)), COUNTS(0, 0)},
    {"chain, a mark is chosen", PATCH_OF((1), (10, 16, 2, 15, 0, 2)), FILE_OF(1), 0, FILE_OF(1),
     PATCH_OF((1), (10, 0, 0)), COUNTS(0, 0)},
    {"chain, the other mark is chosen", PATCH_OF((1), (10, 17, 2, 15, 2, 0)), FILE_OF(2), 0, FILE_OF(2),
     PATCH_OF((0), (10, 0, 0)), COUNTS(1, 1)},
    {"chain behind choose, none chosen", PATCH_OF((5, 1, 1), (10, 15, 14, 14, 8)), FILE_OF(8), 0, FILE_OF(1),
     PATCH_OF((5, 1, 1), (10, 15, 14, 14, 8)), COUNTS(0, 0)},
    {"regroup right, choices", PATCH_OF((3, 3, 5, 1, 2, 1, 5, 1, 2), (11)), FILE_OF(6, 6, 9, 2, 2, 8), 0,
     FILE_OF(6, 9, 2, 6, 2, 8), PATCH_OF((5, 1, 2), (0)), COUNTS(2, 2)},
    {"regroup left, choices", PATCH_OF((3, 5, 1, 2, 3, 1, 1), (12)), FILE_OF(6, 10, 4, 1, 2, 5, 1), 0,
     FILE_OF(5, 6, 10, 4, 1, 2, 1), PATCH_OF((3, 1, 1), (0)), COUNTS(1, 1)},
    {"spread, choices", PATCH_OF((3, 5, 1, 2, 4, 5, 1, 2, 1), (13)), FILE_OF(6, 9, 2, 7, 10, 3, 1), 0,
     FILE_OF(7, 6, 9, 2, 10, 3, 6, 9, 2, 1), PATCH_OF((4, 2, 1), (0)), COUNTS(1, 2)},
    {"front of a choice", PATCH_OF((5, 1, 2), (14)), FILE_OF(9, 1), 0, FILE_OF(6, 0, 9, 1), PATCH_OF((1), (0)),
     COUNTS(0, 0)},
};

/*
 * Cue and level wait (M-103): they send when the slice that they are fed is not the empty one of their input, or is
 * complete. What another reading of the request would send is told in parentheses. Many more inputs are in waiting.c.
 */
static const struct feed_row waiting_rows[] = {
    {"empty and not complete (2: as before the request)", PATCH_OF((1), (2)), FILE_OF(1), 0, FILE_OF(1),
     PATCH_OF((1), (2)), COUNTS(0, 0)},
    {"not empty", PATCH_OF((1), (2)), FILE_OF(2), 0, FILE_OF(2), PATCH_OF((0), (1, 0)), COUNTS(1, 1)},
    {"empty and complete (1: \"or is complete\" forgotten)", PATCH_OF((0), (2)), FILE_OF(0), 0, FILE_OF(2),
     PATCH_OF((0), (1, 0)), COUNTS(0, 1)},
    {"empty and complete, side by side", PATCH_OF((4, 0, 0), (2)), FILE_OF(7, 0, 0), 0, FILE_OF(2),
     PATCH_OF((4, 0, 0), (1, 0)), COUNTS(0, 1)},
    {"a crossing is owed (2: where no cue and no level is)", PATCH_OF((3, 0, 0), (2)), FILE_OF(5, 0), 0, FILE_OF(1),
     PATCH_OF((3, 0, 0), (2)), COUNTS(0, 0)},
    {"a choice is owed (2: where no cue and no level is)", PATCH_OF((5, 0, 0), (2)), FILE_OF(8), 0, FILE_OF(1),
     PATCH_OF((5, 0, 0), (2)), COUNTS(0, 0)},
    {"before a crossing", PATCH_OF((3, 0, 1), (2)), FILE_OF(5, 0), 0, FILE_OF(1), PATCH_OF((3, 0, 1), (2)),
     COUNTS(0, 0)},
    {"a crossing alone (1: only a cue or a level opens)", PATCH_OF((3, 0, 1), (2)), FILE_OF(6, 0, 1), 0, FILE_OF(2),
     PATCH_OF((1), (1, 0)), COUNTS(0, 1)},
    {"before a choice", PATCH_OF((5, 1, 1), (2)), FILE_OF(8), 0, FILE_OF(1), PATCH_OF((5, 1, 1), (2)), COUNTS(0, 0)},
    {"a choice alone (1: only a cue or a level opens)", PATCH_OF((5, 1, 1), (2)), FILE_OF(9, 1), 0, FILE_OF(2),
     PATCH_OF((1), (1, 0)), COUNTS(0, 1)},
    {"the other choice alone", PATCH_OF((5, 1, 1), (2)), FILE_OF(10, 1), 0, FILE_OF(2), PATCH_OF((1), (1, 0)),
     COUNTS(0, 1)},
    {"one side of two (1: only what is complete opens)", PATCH_OF((4, 1, 2), (2)), FILE_OF(7, 2, 3), 0, FILE_OF(2),
     PATCH_OF((4, 0, 2), (1, 0)), COUNTS(1, 1)},
    {"the right side of two (1: only the first part counts)", PATCH_OF((4, 1, 2), (2)), FILE_OF(7, 1, 4, 0, 0), 0,
     FILE_OF(2), PATCH_OF((4, 1, 0), (1, 0)), COUNTS(1, 1)},
    {"its own slice is empty (2: the slice of the patch counts)", PATCH_OF((4, 1, 1), (10, 5, 2)), FILE_OF(7, 1, 2), 0,
     FILE_OF(1), PATCH_OF((4, 1, 0), (10, 5, 2)), COUNTS(1, 0)},
    {"its own slice is complete (1: the slice of the patch counts)", PATCH_OF((3, 1, 0), (10, 8, 2)), FILE_OF(5, 1), 0,
     FILE_OF(2), PATCH_OF((3, 1, 0), (10, 8, 1, 0)), COUNTS(0, 1)},
    {"what choose feeds is behind the mark (2: the mark counts)", PATCH_OF((5, 1, 1), (15, 2, 0)), FILE_OF(9, 1), 0,
     FILE_OF(1), PATCH_OF((1), (2)), COUNTS(0, 0)},
    {"what then feeds is behind the crossing (6 2 2: the crossing counts)", PATCH_OF((3, 1, 1), (9, 0, 2)),
     FILE_OF(6, 2, 1), 0, FILE_OF(6, 2, 1), PATCH_OF((1), (2)), COUNTS(1, 1)},
    {"level waits with its value, 300", PATCH_OF((4, 1, 2), (3, 1, 44)), FILE_OF(7, 1, 3), 0, FILE_OF(3),
     PATCH_OF((4, 1, 2), (3, 1, 44)), COUNTS(0, 0)},
    {"level waits with its value, 0", PATCH_OF((2), (3, 0, 0)), FILE_OF(3), 0, FILE_OF(3), PATCH_OF((2), (3, 0, 0)),
     COUNTS(0, 0)},
    {"level waits with its value, 65535", PATCH_OF((2), (3, 255, 255)), FILE_OF(3), 0, FILE_OF(3),
     PATCH_OF((2), (3, 255, 255)), COUNTS(0, 0)},
    {"level 0 has come (3: taken for not yet)", PATCH_OF((4, 1, 2), (3, 255, 255)), FILE_OF(7, 1, 4, 0, 0), 0,
     FILE_OF(4, 255, 255), PATCH_OF((4, 1, 0), (1, 0)), COUNTS(1, 1)},
    {"level on what is complete", PATCH_OF((0), (3, 0, 0)), FILE_OF(0), 0, FILE_OF(4, 0, 0), PATCH_OF((0), (1, 0)),
     COUNTS(0, 1)},
    {"sent once (2: sent at each arrival)", PATCH_OF((4, 0, 1), (1, 0)), FILE_OF(7, 0, 2), 0, FILE_OF(0),
     PATCH_OF((4, 0, 0), (1, 0)), COUNTS(1, 0)},
    {"front does not wait", PATCH_OF((1), (14)), FILE_OF(1), 0, FILE_OF(6, 0, 1), PATCH_OF((1), (0)), COUNTS(0, 0)},
    {"behind front a cue has a crossing", PATCH_OF((1), (10, 14, 2)), FILE_OF(1), 0, FILE_OF(2),
     PATCH_OF((1), (10, 0, 1, 0)), COUNTS(0, 1)},
    {"behind silent a cue does not wait", PATCH_OF((1), (10, 1, 0, 2)), FILE_OF(1), 0, FILE_OF(2),
     PATCH_OF((1), (10, 1, 0, 1, 0)), COUNTS(0, 1)},
};

/* Every number of a refusal, and which comes first. */
static const struct feed_row refused_rows[] = {
    {"no patch", NONE, FILE_OF(1), 1, NONE, NONE, COUNTS(0, 0)},
    {"no second section", FILE_OF(1), FILE_OF(1), 1, NONE, NONE, COUNTS(0, 0)},
    {"node tree cut short", PATCH_OF((1), (4, 0)), FILE_OF(1), 1, NONE, NONE, COUNTS(0, 0)},
    {"unlisted type kind", PATCH_OF((19), (0)), FILE_OF(1), 2, NONE, NONE, COUNTS(0, 0)},
    {"unlisted node kind", PATCH_OF((1), (19)), FILE_OF(1), 2, NONE, NONE, COUNTS(0, 0)},
    {"bytes after the nodes", PATCH_OF((1), (0, 0)), FILE_OF(1), 3, NONE, NONE, COUNTS(0, 0)},
    {"no third section", RAW(0, 1, 1, 0, 1, 0), FILE_OF(1), 1, NONE, NONE, COUNTS(0, 0)},
    {"third section of seven bytes", RAW(0, 1, 1, 0, 1, 0, 0, 7, 0, 0, 0, 0, 0, 0, 0), FILE_OF(1), 1, NONE, NONE,
     COUNTS(0, 0)},
    {"third section of nine bytes", RAW(0, 1, 1, 0, 1, 0, 0, 9, 0, 0, 0, 0, 0, 0, 0, 0, 0), FILE_OF(1), 3, NONE, NONE,
     COUNTS(0, 0)},
    {"bytes after the patch", RAW(0, 1, 1, 0, 1, 0, TOTALS(0, 0), 0), FILE_OF(1), 3, NONE, NONE, COUNTS(0, 0)},
    {"silent is not nullable", PATCH_OF((1), (1, 3, 0, 0)), FILE_OF(1), 6, NONE, NONE, COUNTS(0, 0)},
    {"left on a sequence", PATCH_OF((3, 1, 1), (5)), FILE_OF(5, 1), 7, NONE, NONE, COUNTS(0, 0)},
    {"a node that the slice does not reach", PATCH_OF((3, 1, 1), (9, 0, 5)), FILE_OF(5, 1), 7, NONE, NONE,
     COUNTS(0, 0)},
    {"no slice", PATCH_OF((1), (0)), NONE, 11, NONE, NONE, COUNTS(0, 0)},
    {"slice cut short", PATCH_OF((4, 1, 1), (0)), FILE_OF(7, 2), 11, NONE, NONE, COUNTS(0, 0)},
    {"unlisted slice kind", PATCH_OF((1), (0)), FILE_OF(200), 12, NONE, NONE, COUNTS(0, 0)},
    {"bytes after the slice", PATCH_OF((1), (0)), FILE_OF(2, 1), 13, NONE, NONE, COUNTS(0, 0)},
    {"bytes after the slice section", PATCH_OF((1), (0)), RAW(0, 1, 2, 0), 13, NONE, NONE, COUNTS(0, 0)},
    {"a slice of the type given, not taken", PATCH_OF((1), (14)), FILE_OF(6, 0, 1), 14, NONE, NONE, COUNTS(0, 0)},
    {"a cue comes once", PATCH_OF((0), (10, 0, 0)), FILE_OF(2), 14, NONE, NONE, COUNTS(0, 0)},
    {"case 7, a crossed first part that has not come", PATCH_OF((3, 1, 1), (0)), FILE_OF(6, 1, 1), 14, NONE, NONE,
     COUNTS(0, 0)},
    {"a slice that silent does not look at", PATCH_OF((3, 1, 1), (1, 0)), FILE_OF(7, 1, 1), 14, NONE, NONE,
     COUNTS(0, 0)},
    {"choose on a sequence", PATCH_OF((3, 1, 1), (15, 0, 0)), FILE_OF(5, 1), 7, NONE, NONE, COUNTS(0, 0)},
    {"choose's outputs differ", PATCH_OF((5, 1, 2), (15, 0, 0)), FILE_OF(8), 30, NONE, NONE, COUNTS(0, 0)},
    {"choose's outputs differ, first chosen", PATCH_OF((5, 1, 2), (15, 0, 0)), FILE_OF(9, 1), 30, NONE, NONE,
     COUNTS(0, 0)},
    {"outputs differ where the slice does not reach", PATCH_OF((3, 1, 5, 1, 2), (9, 0, 15, 0, 0)), FILE_OF(5, 1), 30,
     NONE, NONE, COUNTS(0, 0)},
    {"the part that is not chosen has a wrong shape", PATCH_OF((5, 1, 1), (15, 0, 5)), FILE_OF(9, 1), 7, NONE, NONE,
     COUNTS(0, 0)},
    {"a slice of a part without its mark", PATCH_OF((5, 1, 2), (15, 0, 2)), FILE_OF(1), 14, NONE, NONE, COUNTS(0, 0)},
    {"a choice comes once", PATCH_OF((1), (0)), FILE_OF(9, 1), 14, NONE, NONE, COUNTS(0, 0)},
    {"an unlisted kind of an either", PATCH_OF((5, 1, 2), (15, 0, 2)), FILE_OF(15), 12, NONE, NONE, COUNTS(0, 0)},

    {"reading the patch before the slice", PATCH_OF((1), (19)), FILE_OF(200), 2, NONE, NONE, COUNTS(0, 0)},
    {"typing the patch before the slice, 7", PATCH_OF((1), (5)), FILE_OF(200), 7, NONE, NONE, COUNTS(0, 0)},
    {"typing the patch before the slice, 6", PATCH_OF((1), (1, 1)), NONE, 6, NONE, NONE, COUNTS(0, 0)},
    {"the patch before no slice", PATCH_OF((1), (0, 0)), NONE, 3, NONE, NONE, COUNTS(0, 0)},
    {"typing the patch before the slice, 30", PATCH_OF((5, 1, 2), (15, 0, 0)), FILE_OF(200), 30, NONE, NONE,
     COUNTS(0, 0)},
    {"the first fault of the slice, 14 and then 12", PATCH_OF((4, 1, 1), (0)), FILE_OF(7, 5, 200), 14, NONE, NONE,
     COUNTS(0, 0)},
    {"the first fault of the slice, 12 and then 14", PATCH_OF((4, 1, 1), (0)), FILE_OF(7, 200, 5), 12, NONE, NONE,
     COUNTS(0, 0)},
    {"the first fault of the slice, 14 and then 13", PATCH_OF((1), (0)), FILE_OF(3, 1), 14, NONE, NONE, COUNTS(0, 0)},

    {"a total that is full", COUNTED_PATCH_OF((1), (0), WOSTHILE_TOTAL_MAX, 0), FILE_OF(2), 31, NONE, NONE,
     COUNTS(0, 0)},
    {"the slice before the totals", COUNTED_PATCH_OF((1), (0), WOSTHILE_TOTAL_MAX, 0), FILE_OF(2, 2), 13, NONE, NONE,
     COUNTS(0, 0)},
};

static void count_feed(bool holds, const char *name, size_t output_room, size_t left_room)
{
    char text[200];
    snprintf(text, sizeof text, "%s, patch buffer of %zu", name, left_room);
    count(holds, "Feed", text, output_room);
}

/* The call of a row with buffers of these lengths: 20 if either is too short for an answer that the row accepts. */
static void check_rooms(const struct feed_row *row, size_t output_room, size_t left_room)
{
    const struct bytes none = NONE;
    uint8_t *patch = copy_of(row->patch), *slice = copy_of(row->slice);
    uint8_t *output_memory = lent_memory(output_room), *left_memory = lent_memory(left_room);
    uint8_t *output = output_room > 0 ? output_memory + MARGIN : NULL;
    uint8_t *left = left_room > 0 ? left_memory + MARGIN : NULL;
    bool accepted = row->number == WOSTHILE_ACCEPTED;
    bool fits = accepted && output_room >= row->output.count && left_room >= row->left.count;
    uint32_t number = accepted && !fits ? WOSTHILE_FAULT_NO_ROOM : row->number;
    struct bytes sent = fits ? row->output : none, remaining = fits ? row->left : none;
    wosthile_fed answer =
        wosthile_feed(patch, row->patch.count, slice, row->slice.count, output, output_room, left, left_room);
    bool right = answer.number == number && answer.output == sent.count && answer.patch == remaining.count;
    right = right && same_counts(counts_of(answer), fits ? row->counts : nothing_counted);
    right = right && holds(output_memory, output_room, sent) && holds(left_memory, left_room, remaining);
    right = right && unaltered(patch, row->patch) && unaltered(slice, row->slice);
    count_feed(right, row->name, output_room, left_room);
    uint8_t *memory[] = {patch, slice, output_memory, left_memory};
    for (size_t which = 0; which < sizeof memory / sizeof memory[0]; which++) {
        free(memory[which]);
    }
}

/* Of the buffer for an answer: none, all too short if there are few, exact, and a little or much too long. */
static size_t next_room(size_t room, size_t needed)
{
    if (room < needed) {
        return needed < 100 || room + 1 >= needed ? room + 1 : needed - 1;
    }
    return room < needed + 2 ? room + 1 : room + 1000;
}

/* Each buffer at all of these lengths while the other is one short, exact or long; neither, and both one short. */
static void check_all_rooms(const struct feed_row *row)
{
    size_t output = row->output.count, left = row->left.count, most = WOSTHILE_PATCH_FILE_MAX;
    for (size_t room = 0; room < output + 1500; room = next_room(room, output)) {
        check_rooms(row, room, left);
        check_rooms(row, room, most);
        check_rooms(row, room, left > 0 ? left - 1 : 0);
    }
    for (size_t room = 0; room < left + 1500; room = next_room(room, left)) {
        check_rooms(row, output, room);
        check_rooms(row, WOSTHILE_SLICE_FILE_MAX, room);
        check_rooms(row, output > 0 ? output - 1 : 0, room);
    }
    check_rooms(row, 0, 0);
}

/* The row with these totals at the start; what is left has more of each, by the counts. */
static void check_feed_from(const struct feed_row *row, struct counts start)
{
    struct feed_row from = *row;
    from.patch = with_totals(row->patch, start);
    from.left = with_totals(row->left, sum_of(start, row->counts));
    check_all_rooms(&from);
    struct bytes files[] = {from.patch, from.left};
    release(files, sizeof files / sizeof files[0]);
}

/* A row that is refused is tried as it stands, an accepted one from no totals and from others. */
static void check_feed(const struct feed_row *row)
{
    const struct counts others = COUNTS(0x01fe02ff, 0x8000ffff);
    if (row->number != WOSTHILE_ACCEPTED) {
        check_all_rooms(row);
        return;
    }
    check_feed_from(row, nothing_counted);
    check_feed_from(row, others);
}

/* A feed with files of many bytes, all of which are released. */
static void check_large(struct feed_row row)
{
    check_feed(&row);
    struct bytes files[] = {row.patch, row.slice, row.output, row.left};
    release(files, sizeof files / sizeof files[0]);
}

/* The longest files of all: an output of 513 bytes, and a patch of 8492, fed nothing, that is left as it was. */
static void check_longest(void)
{
    const struct bytes lane = RAW(4, 2), level = RAW(2), pass = RAW(0), none = NONE, spent_lane = RAW(4, 0);
    const struct bytes awaited = RAW(7, 3), not_yet = RAW(3), come = RAW(7, 4, 1, 2), last = RAW(4, 255, 255);
    const struct bytes silent = RAW(7, 0), chain_silent = RAW(10, 1), carrying = RAW(1);
    struct bytes link = file_of((struct section){chain_silent, spent_lane, 127, pass});
    struct bytes final = file_of((struct section){carrying, spent_lane, 127, pass});
    const struct bytes each = {link.at + 2, link.count - 2}, end = {final.at + 2, final.count - 2};

    check_large(
        (struct feed_row){"128 levels come at once", patch_of(repeated(lane, 127, level), repeated(none, 0, pass)),
                          repeated(come, 127, last), 0, repeated(come, 127, last),
                          patch_of(repeated(spent_lane, 127, pass), repeated(none, 0, pass)), COUNTS(128, 128)});
    struct bytes largest = patch_of(repeated(lane, 127, level), repeated(each, 31, end));
    count(largest.count == WOSTHILE_PATCH_FILE_MAX, "sizes", "the longest patch file", 0);
    check_large((struct feed_row){"the longest patch file", largest, repeated(awaited, 127, not_yet), 0,
                                  repeated(silent, 127, pass),
                                  patch_of(repeated(lane, 127, level), repeated(each, 31, end)), COUNTS(0, 0)});
    struct bytes files[] = {link, final};
    release(files, sizeof files / sizeof files[0]);
}

/* The deepest choices: as many parts chosen as a type can have below one another, and as many nodes. */
static void check_choices(void)
{
    const struct bytes lane = RAW(5, 1), level = RAW(2), pass = RAW(0), none = NONE, chosen = RAW(10),
                       first = RAW(9, 1);
    const struct bytes not_chosen = RAW(8), come = RAW(4, 1, 2), node = RAW(15, 0), cue = RAW(1), cue_come = RAW(2);
    check_large((struct feed_row){"127 choices at once", patch_of(repeated(lane, 127, level), repeated(none, 0, pass)),
                                  repeated(chosen, 127, come), 0, repeated(chosen, 127, come),
                                  patch_of(repeated(none, 0, pass), repeated(none, 0, pass)), COUNTS(1, 1)});
    check_large((struct feed_row){"126 choices, and one that has not come",
                                  patch_of(repeated(lane, 127, level), repeated(none, 0, pass)),
                                  repeated(chosen, 126, not_chosen), 0, repeated(chosen, 126, not_chosen),
                                  patch_of(repeated(lane, 1, level), repeated(none, 0, pass)), COUNTS(0, 0)});
    check_large((struct feed_row){"31 times choose, all chosen",
                                  patch_of(repeated(lane, 31, cue), repeated(node, 31, pass)),
                                  repeated(chosen, 31, cue_come), 0, repeated(none, 0, cue_come),
                                  patch_of(repeated(none, 0, pass), repeated(none, 0, pass)), COUNTS(1, 1)});
    check_large((struct feed_row){"31 times choose, 30 chosen",
                                  patch_of(repeated(lane, 31, cue), repeated(node, 31, pass)),
                                  repeated(chosen, 30, not_chosen), 0, repeated(none, 0, cue),
                                  patch_of(repeated(lane, 1, cue), repeated(node, 1, pass)), COUNTS(0, 0)});
    check_large((struct feed_row){"31 times choose, the outermost chosen",
                                  patch_of(repeated(lane, 31, cue), repeated(node, 31, pass)), repeated(none, 0, first),
                                  0, repeated(none, 0, cue), patch_of(repeated(none, 0, cue), repeated(none, 0, pass)),
                                  COUNTS(0, 0)});
    check_large((struct feed_row){"31 times choose, none chosen",
                                  patch_of(repeated(lane, 31, cue), repeated(node, 31, pass)),
                                  repeated(none, 0, not_chosen), 0, repeated(none, 0, cue),
                                  patch_of(repeated(lane, 31, cue), repeated(node, 31, pass)), COUNTS(0, 0)});
}

/* A cue on the largest streams: it waits while nothing has come of any lane, and opens with the last of them. */
static void check_waiting_for_lanes(void)
{
    const struct bytes lane = RAW(4, 2), level = RAW(2), cue_node = RAW(2), spent = RAW(1, 0), none = NONE;
    const struct bytes awaited = RAW(7, 3), not_yet = RAW(3), come = RAW(4, 0, 0), cue = RAW(1), cue_come = RAW(2);
    const struct bytes empty = RAW(0), empty_lane = RAW(4, 0), nothing = RAW(7, 0);
    check_large((struct feed_row){"a cue waits for 128 lanes",
                                  patch_of(repeated(lane, 127, level), repeated(none, 0, cue_node)),
                                  repeated(awaited, 127, not_yet), 0, repeated(none, 0, cue),
                                  patch_of(repeated(lane, 127, level), repeated(none, 0, cue_node)), COUNTS(0, 0)});
    check_large((struct feed_row){"the last of 128 lanes has come",
                                  patch_of(repeated(lane, 127, level), repeated(none, 0, cue_node)),
                                  repeated(awaited, 127, come), 0, repeated(none, 0, cue_come),
                                  patch_of(repeated(lane, 127, empty), repeated(none, 0, spent)), COUNTS(1, 1)});
    check_large((struct feed_row){"128 lanes in which nothing is owed",
                                  patch_of(repeated(empty_lane, 127, empty), repeated(none, 0, cue_node)),
                                  repeated(nothing, 127, empty), 0, repeated(none, 0, cue_come),
                                  patch_of(repeated(empty_lane, 127, empty), repeated(none, 0, spent)), COUNTS(0, 1)});
    check_large((struct feed_row){
        "one of 128 lanes is owed", patch_of(repeated(empty_lane, 127, level), repeated(none, 0, cue_node)),
        repeated(nothing, 127, not_yet), 0, repeated(none, 0, cue),
        patch_of(repeated(empty_lane, 127, level), repeated(none, 0, cue_node)), COUNTS(0, 0)});
}

/* The same on sequences nested in first parts, where the deepest leaf is the first that can come. */
static void check_waiting_in_first_parts(void)
{
    const struct bytes fork = RAW(3), cue = RAW(1), in_first = RAW(5), cue_come = RAW(2), empty = RAW(0), none = NONE;
    const struct bytes cue_node = RAW(2), spent = RAW(1, 0);
    struct bytes forks = repeated(fork, 127, none), come = repeated(fork, 127, empty);
    const struct bytes above = {forks.at + 2, forks.count - 2}, left = {come.at + 2, come.count - 2};
    const struct section type = {above, cue, 128, none}, type_left = {left, cue, 127, none};
    check_large((struct feed_row){"a cue waits for the first of 128",
                                  patch_of(file_of(type), repeated(none, 0, cue_node)), repeated(in_first, 127, cue), 0,
                                  repeated(none, 0, cue), patch_of(file_of(type), repeated(none, 0, cue_node)),
                                  COUNTS(0, 0)});
    check_large((struct feed_row){"the first of 128 has come", patch_of(file_of(type), repeated(none, 0, cue_node)),
                                  repeated(in_first, 127, cue_come), 0, repeated(none, 0, cue_come),
                                  patch_of(file_of(type_left), repeated(none, 0, spent)), COUNTS(1, 1)});
    struct bytes files[] = {forks, come};
    release(files, sizeof files / sizeof files[0]);
}

/* Refusals of large files; the fault in the slice and the short buffers come after the limits of the patch. */
static void check_limits(void)
{
    const struct bytes lane = RAW(4, 1), cue = RAW(1), pass = RAW(0), front = RAW(14), chain = RAW(10, 0), none = NONE;
    const struct bytes unlisted = RAW(200), patch = PATCH_OF((1), (0)), slice = FILE_OF(2);
    check_large((struct feed_row){"a type of 257", patch_of(repeated(lane, 128, cue), repeated(none, 0, pass)),
                                  repeated(none, 0, unlisted), 4, none, none, COUNTS(0, 0)});
    check_large((struct feed_row){"front gives 257", patch_of(repeated(lane, 127, cue), repeated(none, 0, front)),
                                  repeated(none, 0, unlisted), 4, none, none, COUNTS(0, 0)});
    check_large((struct feed_row){"65 nodes", patch_of(repeated(none, 0, cue), repeated(chain, 32, pass)),
                                  repeated(none, 0, unlisted), 5, none, none, COUNTS(0, 0)});
    check_large((struct feed_row){"63 nodes", patch_of(repeated(none, 0, cue), repeated(chain, 31, pass)),
                                  repeated(none, 0, cue), 0, repeated(none, 0, cue),
                                  patch_of(repeated(none, 0, cue), repeated(chain, 31, pass)), COUNTS(0, 0)});
    check_large((struct feed_row){"a patch file of a mebibyte", lengthened(patch, 1 << 20), repeated(none, 0, cue), 3,
                                  none, none, COUNTS(0, 0)});
    check_large((struct feed_row){"a slice file of a mebibyte",
                                  patch_of(repeated(none, 0, cue), repeated(none, 0, pass)), lengthened(slice, 1 << 20),
                                  13, none, none, COUNTS(0, 0)});
}

/*
 * One feed of a run, its slice and what it answers; the room is that of the buffer for the patch left. The patch left
 * has the totals of the whole run so far.
 */
struct run_step {
    struct bytes slice;
    size_t room;
    uint32_t number;
    struct bytes output, left;
    struct counts counts;
};

/* A comet, then Saturn beside a lamp; the patch sends a cue before all of it. */
static const struct bytes run_start = PATCH_OF((3, 1, 4, 1, 2), (10, 14, 9, 2, 0));

static const struct run_step run_steps[] = {
    {FILE_OF(5, 1), WOSTHILE_PATCH_FILE_MAX, 0, FILE_OF(6, 2, 5, 1),
     COUNTED_PATCH_OF((3, 1, 4, 1, 2), (10, 0, 0), 0, 1), COUNTS(0, 1)},
    {FILE_OF(7, 1, 1), WOSTHILE_PATCH_FILE_MAX, 14, NONE, NONE, COUNTS(0, 0)},
    {FILE_OF(5, 2), 21, 20, NONE, NONE, COUNTS(0, 0)},
    {FILE_OF(5, 2), 22, 0, FILE_OF(5, 2), COUNTED_PATCH_OF((3, 0, 4, 1, 2), (10, 0, 0), 1, 2), COUNTS(1, 1)},
    {FILE_OF(6, 2, 7, 2, 3), WOSTHILE_PATCH_FILE_MAX, 14, NONE, NONE, COUNTS(0, 0)},
    {FILE_OF(6, 0, 7, 2, 3), WOSTHILE_PATCH_FILE_MAX, 0, FILE_OF(6, 0, 7, 2, 3),
     COUNTED_PATCH_OF((4, 0, 2), (10, 0, 0), 2, 3), COUNTS(1, 1)},
    {FILE_OF(6, 0, 7, 2, 3), WOSTHILE_PATCH_FILE_MAX, 14, NONE, NONE, COUNTS(0, 0)},
    {FILE_OF(7, 0, 4, 1, 44), WOSTHILE_PATCH_FILE_MAX, 0, FILE_OF(7, 0, 4, 1, 44),
     COUNTED_PATCH_OF((4, 0, 0), (10, 0, 0), 3, 4), COUNTS(1, 1)},
    {FILE_OF(7, 0, 0), WOSTHILE_PATCH_FILE_MAX, 0, FILE_OF(7, 0, 0), COUNTED_PATCH_OF((4, 0, 0), (10, 0, 0), 3, 4),
     COUNTS(0, 0)},
};

/* A welcome, then one of two skies: a comet, or a lamp in place of which the patch sends a cue. */
static const struct bytes choice_start = PATCH_OF((3, 1, 5, 1, 2), (9, 0, 15, 0, 2));

static const struct run_step choice_steps[] = {
    {FILE_OF(8), WOSTHILE_PATCH_FILE_MAX, 14, NONE, NONE, COUNTS(0, 0)},
    {FILE_OF(6, 2, 8), WOSTHILE_PATCH_FILE_MAX, 0, FILE_OF(6, 2, 1), COUNTED_PATCH_OF((5, 1, 2), (15, 0, 2), 1, 1),
     COUNTS(1, 1)},
    {FILE_OF(8), WOSTHILE_PATCH_FILE_MAX, 0, FILE_OF(1), COUNTED_PATCH_OF((5, 1, 2), (15, 0, 2), 1, 1), COUNTS(0, 0)},
    {FILE_OF(9, 3), WOSTHILE_PATCH_FILE_MAX, 14, NONE, NONE, COUNTS(0, 0)},
    {FILE_OF(15), WOSTHILE_PATCH_FILE_MAX, 12, NONE, NONE, COUNTS(0, 0)},
    {FILE_OF(9, 1), 15, 20, NONE, NONE, COUNTS(0, 0)},
    {FILE_OF(9, 1), 16, 0, FILE_OF(1), COUNTED_PATCH_OF((1), (0), 1, 1), COUNTS(0, 0)},
    {FILE_OF(8), WOSTHILE_PATCH_FILE_MAX, 14, NONE, NONE, COUNTS(0, 0)},
    {FILE_OF(9, 2), WOSTHILE_PATCH_FILE_MAX, 14, NONE, NONE, COUNTS(0, 0)},
    {FILE_OF(10, 3), WOSTHILE_PATCH_FILE_MAX, 14, NONE, NONE, COUNTS(0, 0)},
    {FILE_OF(2), WOSTHILE_PATCH_FILE_MAX, 0, FILE_OF(2), COUNTED_PATCH_OF((0), (0), 2, 2), COUNTS(1, 1)},
};

/* Two patch buffers: each feed is handed the one, and writes the other; they are swapped if it was accepted. */
static void check_run(const char *name, struct bytes start, const struct run_step *steps, size_t number)
{
    static uint8_t buffers[2][WOSTHILE_PATCH_FILE_MAX], output[WOSTHILE_SLICE_FILE_MAX];
    uint8_t *patch = buffers[0], *left = buffers[1];
    size_t length = start.count;
    append(patch, start);
    for (size_t index = 0; index < number; index++) {
        const struct run_step *step = &steps[index];
        wosthile_fed fed =
            wosthile_feed(patch, length, step->slice.at, step->slice.count, output, sizeof output, left, step->room);
        bool right = fed.number == step->number && fed.output == step->output.count && fed.patch == step->left.count;
        right = right && same_counts(counts_of(fed), step->counts);
        right = right && unaltered(output, step->output) && unaltered(left, step->left);
        count(right, "Feed", name, index);
        if (fed.number == WOSTHILE_ACCEPTED) {
            uint8_t *fed_patch = patch;
            patch = left;
            left = fed_patch;
            length = fed.patch;
        }
    }
}

/* The patch and the slice may be the same bytes, or lie across one another; a length of 0 is no bytes. */
static void check_shared_memory(void)
{
    /* Pass on a cue; its first section is the slice in which the cue has not come. */
    const uint8_t patch[] = {0, 1, 1, 0, 1, 0, TOTALS(0, 0)};
    uint8_t output[4], left[sizeof patch + 1];
    const size_t length = sizeof patch;
    memset(output, 9, sizeof output);
    memset(left, 9, sizeof left);
    wosthile_fed fed = wosthile_feed(patch, length, patch, 3, output, 4, left, sizeof left);
    bool right = fed.number == 0 && fed.output == 3 && fed.patch == length && output[3] == 9 && left[length] == 9;
    right = right && same_counts(counts_of(fed), nothing_counted);
    count(right && memcmp(output, patch, 3) == 0 && memcmp(left, patch, length) == 0, "Feed", "the slice in the patch",
          0);
    memset(output, 9, sizeof output);
    memset(left, 9, sizeof left);
    fed = wosthile_feed(patch, length, patch, length, output, 4, left, sizeof left);
    count(is_refusal(fed, 13) && output[0] == 9 && left[0] == 9, "Feed", "patch and slice are the same bytes", 0);
    fed = wosthile_feed(patch, 0, patch, 3, output, 4, left, sizeof left);
    count(is_refusal(fed, 1) && output[0] == 9 && left[0] == 9, "Feed", "a patch of length 0", 0);
    fed = wosthile_feed(patch, length, patch, 0, output, 4, left, sizeof left);
    count(is_refusal(fed, 11) && output[0] == 9 && left[0] == 9, "Feed", "a slice of length 0", 0);
    fed = wosthile_feed(patch, length, patch, 3, output, 0, left, sizeof left);
    count(is_refusal(fed, 20) && output[0] == 9 && left[0] == 9, "Feed", "an output buffer of length 0", 0);
    fed = wosthile_feed(patch, length, patch, 3, output, 4, left, 0);
    count(is_refusal(fed, 20) && output[0] == 9 && left[0] == 9, "Feed", "a patch buffer of length 0", 0);
}

int main(void)
{
    for (size_t row = 0; row < sizeof node_rows / sizeof node_rows[0]; row++) {
        check_feed(&node_rows[row]);
    }
    for (size_t row = 0; row < sizeof choice_rows / sizeof choice_rows[0]; row++) {
        check_feed(&choice_rows[row]);
    }
    for (size_t row = 0; row < sizeof waiting_rows / sizeof waiting_rows[0]; row++) {
        check_feed(&waiting_rows[row]);
    }
    for (size_t row = 0; row < sizeof refused_rows / sizeof refused_rows[0]; row++) {
        check_feed(&refused_rows[row]);
    }
    check_longest();
    check_choices();
    check_waiting_for_lanes();
    check_waiting_in_first_parts();
    check_limits();
    check_run("a run of feeds, step", run_start, run_steps, sizeof run_steps / sizeof run_steps[0]);
    check_run("a run with a choice, step", choice_start, choice_steps, sizeof choice_steps / sizeof choice_steps[0]);
    check_shared_memory();
    printf("%d passed, %d failed\n", passed, failed);
    return failed != 0;
}
