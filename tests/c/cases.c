/*
 * Calls of Check, Admit, Left, Join and Longest through the header alone, each with the answer that documents 01 and 02
 * give.
 * Every file is in memory of its exact size, where a sanitizer sees a byte too many. Every lent buffer is between two
 * margins, which show a byte written beside it: the archive itself has no sanitizer in it.
 */
#include "bytes.h"

/* Check; the answer counts if the number is 0. */
struct check_row {
    const char *name;
    struct bytes patch;
    uint32_t number;
    struct bytes answer;
};

static const struct check_row check_rows[] = {
    {"pass", PATCH_OF((3, 1, 2), (0)), 0, FILE_OF(3, 1, 2)},
    {"silent", PATCH_OF((3, 1, 2), (1, 0)), 0, FILE_OF(0)},
    {"case 9, a nullable silent", PATCH_OF((1), (1, 4, 0, 0)), 0, FILE_OF(4, 0, 0)},
    {"case 8, cue", PATCH_OF((1), (2)), 0, FILE_OF(1)},
    {"cue on a sequence", PATCH_OF((3, 2, 2), (2)), 0, FILE_OF(1)},
    {"level", PATCH_OF((4, 1, 1), (3, 1, 44)), 0, FILE_OF(2)},
    {"value bytes are no kinds", PATCH_OF((1), (4, 3, 200, 255, 3, 4, 4)), 0, FILE_OF(4, 2, 2)},
    {"both, each on the whole", PATCH_OF((2), (4, 0, 2)), 0, FILE_OF(4, 2, 1)},
    {"case 1, swap", PATCH_OF((4, 1, 2), (4, 6, 5)), 0, FILE_OF(4, 2, 1)},
    {"left", PATCH_OF((4, 3, 1, 2, 0), (5)), 0, FILE_OF(3, 1, 2)},
    {"right", PATCH_OF((4, 3, 1, 2, 0), (6)), 0, FILE_OF(0)},
    {"first", PATCH_OF((3, 4, 1, 2, 0), (7)), 0, FILE_OF(4, 1, 2)},
    {"second", PATCH_OF((3, 4, 1, 2, 0), (8)), 0, FILE_OF(0)},
    {"then", PATCH_OF((3, 1, 2), (9, 14, 0)), 0, FILE_OF(3, 3, 0, 1, 2)},
    {"chain, the second on what the first gives", PATCH_OF((3, 4, 1, 2, 0), (10, 7, 6)), 0, FILE_OF(2)},
    {"case 2, prepend", PATCH_OF((1), (10, 14, 9, 2, 0)), 0, FILE_OF(3, 1, 1)},
    {"regroup right", PATCH_OF((3, 3, 0, 1, 2), (11)), 0, FILE_OF(3, 0, 3, 1, 2)},
    {"regroup left", PATCH_OF((3, 0, 3, 1, 2), (12)), 0, FILE_OF(3, 3, 0, 1, 2)},
    {"spread", PATCH_OF((3, 0, 4, 1, 2), (13)), 0, FILE_OF(4, 3, 0, 1, 3, 0, 2)},
    {"spread of larger parts", PATCH_OF((3, 3, 1, 1, 4, 2, 4, 0, 0), (13)), 0,
     FILE_OF(4, 3, 3, 1, 1, 2, 3, 3, 1, 1, 4, 0, 0)},
    {"front", PATCH_OF((4, 1, 2), (14)), 0, FILE_OF(3, 0, 4, 1, 2)},
    {"totals do not matter", COUNTED_PATCH_OF((1), (14), 1, 2), 0, FILE_OF(3, 0, 1)},
    {"nor do the greatest", COUNTED_PATCH_OF((1), (14), WOSTHILE_TOTAL_MAX, WOSTHILE_TOTAL_MAX), 0, FILE_OF(3, 0, 1)},
    {"pass on either", PATCH_OF((5, 1, 2), (0)), 0, FILE_OF(5, 1, 2)},
    {"choose", PATCH_OF((5, 1, 2), (15, 0, 2)), 0, FILE_OF(1)},
    {"choose, each on its part", PATCH_OF((5, 4, 1, 2, 3, 1, 2), (15, 6, 8)), 0, FILE_OF(2)},
    {"choose, larger outputs", PATCH_OF((5, 4, 1, 2, 4, 2, 1), (15, 0, 4, 6, 5)), 0, FILE_OF(4, 1, 2)},
    {"choose in choose, first part", PATCH_OF((5, 5, 1, 2, 1), (15, 15, 0, 2, 0)), 0, FILE_OF(1)},
    {"choose in choose, second part", PATCH_OF((5, 1, 5, 2, 1), (15, 0, 15, 2, 0)), 0, FILE_OF(1)},
    {"mark first", PATCH_OF((1), (16, 2)), 0, FILE_OF(5, 1, 2)},
    {"mark second", PATCH_OF((1), (17, 2)), 0, FILE_OF(5, 2, 1)},
    {"mark first, larger parts", PATCH_OF((3, 1, 2), (16, 4, 0, 1)), 0, FILE_OF(5, 3, 1, 2, 4, 0, 1)},
    {"mark second, larger parts", PATCH_OF((3, 1, 2), (17, 4, 0, 1)), 0, FILE_OF(5, 4, 0, 1, 3, 1, 2)},
    {"a choice handed on", PATCH_OF((5, 1, 2), (15, 16, 2, 17, 1)), 0, FILE_OF(5, 1, 2)},

    {"no file", NONE, 1, NONE},
    {"half a count", RAW(0), 1, NONE},
    {"type section without contents", RAW(0, 0), 1, NONE},
    {"type section without contents, then nodes", RAW(0, 0, 0, 1, 0), 1, NONE},
    {"type section longer than the file", RAW(0, 2, 1), 1, NONE},
    {"the length of the type before its contents", RAW(0, 2, 200), 1, NONE},
    {"type section that claims 65535 bytes", RAW(255, 255, 1, 0, 1, 0), 1, NONE},
    {"type tree cut short", PATCH_OF((3, 1), (0)), 1, NONE},
    {"no second section", FILE_OF(1), 1, NONE},
    {"half a second count", RAW(0, 1, 1, 0), 1, NONE},
    {"node section without contents", RAW(0, 1, 1, 0, 0), 1, NONE},
    {"node section longer than the file", RAW(0, 1, 1, 0, 2, 0), 1, NONE},
    {"the length of the nodes before their contents", RAW(0, 1, 1, 0, 2, 200), 1, NONE},
    {"node tree cut short", PATCH_OF((1), (4, 0)), 1, NONE},
    {"silent without its type", PATCH_OF((1), (1)), 1, NONE},
    {"silent with half its type", PATCH_OF((1), (1, 4, 0)), 1, NONE},
    {"level without its value", PATCH_OF((1), (3)), 1, NONE},
    {"level with half its value", PATCH_OF((1), (3, 1)), 1, NONE},
    {"the section ends before the byte behind it", RAW(0, 1, 1, 0, 2, 10, 0, 0, TOTALS(0, 0)), 1, NONE},
    {"no third section", RAW(0, 1, 1, 0, 1, 0), 1, NONE},
    {"half a third count", RAW(0, 1, 1, 0, 1, 0, 0), 1, NONE},
    {"third section without contents", RAW(0, 1, 1, 0, 1, 0, 0, 0), 1, NONE},
    {"third section longer than the file", RAW(0, 1, 1, 0, 1, 0, 0, 8, 0, 0, 0, 0, 0, 0, 0), 1, NONE},
    {"third section of seven bytes", RAW(0, 1, 1, 0, 1, 0, 0, 7, 0, 0, 0, 0, 0, 0, 0), 1, NONE},
    {"either with one part", PATCH_OF((5, 1), (0)), 1, NONE},
    {"choose with one part", PATCH_OF((5, 1, 1), (15, 0)), 1, NONE},
    {"mark first without its type", PATCH_OF((1), (16)), 1, NONE},
    {"mark second with half its type", PATCH_OF((1), (17, 5, 1)), 1, NONE},

    {"unlisted type kind", PATCH_OF((200), (0)), 2, NONE},
    {"unlisted type kind before the next section", RAW(0, 1, 19, 0, 9), 2, NONE},
    {"unlisted node kind", PATCH_OF((1), (19)), 2, NONE},
    {"unlisted node kind below", PATCH_OF((1), (4, 0, 255)), 2, NONE},
    {"unlisted kind in a carried type", PATCH_OF((1), (1, 4, 0, 19)), 2, NONE},
    {"a node kind in a carried type", PATCH_OF((1), (1, 14)), 2, NONE},
    {"unlisted kind before a third section that is cut", RAW(0, 1, 1, 0, 1, 77, 0), 2, NONE},
    {"the first fault from the left", PATCH_OF((1), (4, 19, 3, 1)), 2, NONE},
    {"unlisted kind in what a mark carries", PATCH_OF((1), (16, 5, 0, 19)), 2, NONE},

    {"bytes after the type", PATCH_OF((1, 1), (0)), 3, NONE},
    {"bytes after the type are not looked at", PATCH_OF((1, 200), (0)), 3, NONE},
    {"bytes after the type before the next section", FILE_OF(1, 1), 3, NONE},
    {"bytes after the nodes", PATCH_OF((1), (0, 0)), 3, NONE},
    {"bytes after the nodes are not looked at", PATCH_OF((1), (0, 200)), 3, NONE},
    {"bytes after a carried type", PATCH_OF((1), (1, 0, 0)), 3, NONE},
    {"bytes after what a mark carries", PATCH_OF((1), (17, 2, 0)), 3, NONE},
    {"bytes after choose", PATCH_OF((5, 1, 1), (15, 0, 0, 0)), 3, NONE},
    {"third section of nine bytes", RAW(0, 1, 1, 0, 1, 0, 0, 9, 0, 0, 0, 0, 0, 0, 0, 0, 0), 3, NONE},
    {"bytes after the last section", RAW(0, 1, 1, 0, 1, 0, TOTALS(0, 0), 0), 3, NONE},
    {"bytes after the nodes before the next section", RAW(0, 1, 1, 0, 2, 0, 0), 3, NONE},

    {"case 9, a silent that is not nullable", PATCH_OF((1), (1, 3, 0, 0)), 6, NONE},
    {"silent cue", PATCH_OF((1), (1, 1)), 6, NONE},
    {"silent level", PATCH_OF((1), (1, 2)), 6, NONE},
    {"silent, one side not nullable", PATCH_OF((1), (1, 4, 4, 0, 0, 1)), 6, NONE},
    {"silent either", PATCH_OF((1), (1, 5, 0, 0)), 6, NONE},
    {"silent, one side is an either", PATCH_OF((1), (1, 4, 0, 5, 0, 0)), 6, NONE},

    {"case 9, left on a sequence", PATCH_OF((3, 1, 1), (5)), 7, NONE},
    {"right on a cue", PATCH_OF((1), (6)), 7, NONE},
    {"first on side by side", PATCH_OF((4, 1, 1), (7)), 7, NONE},
    {"second on a level", PATCH_OF((2), (8)), 7, NONE},
    {"then on side by side", PATCH_OF((4, 1, 1), (9, 0, 0)), 7, NONE},
    {"regroup right on side by side", PATCH_OF((4, 3, 1, 1, 1), (11)), 7, NONE},
    {"regroup right, the first part is no sequence", PATCH_OF((3, 4, 1, 1, 1), (11)), 7, NONE},
    {"regroup right, only the second part is a sequence", PATCH_OF((3, 1, 3, 1, 1), (11)), 7, NONE},
    {"regroup left on side by side", PATCH_OF((4, 1, 3, 1, 1), (12)), 7, NONE},
    {"regroup left, the second part is no sequence", PATCH_OF((3, 1, 4, 1, 1), (12)), 7, NONE},
    {"regroup left, only the first part is a sequence", PATCH_OF((3, 3, 1, 1, 1), (12)), 7, NONE},
    {"spread on side by side", PATCH_OF((4, 1, 4, 1, 1), (13)), 7, NONE},
    {"spread, the second part is a sequence", PATCH_OF((3, 1, 3, 1, 1), (13)), 7, NONE},
    {"spread, only the first part is side by side", PATCH_OF((3, 4, 1, 1, 1), (13)), 7, NONE},
    {"the second of a chain takes what the first gives", PATCH_OF((3, 1, 1), (10, 7, 7)), 7, NONE},
    {"choose on a cue", PATCH_OF((1), (15, 0, 0)), 7, NONE},
    {"choose on a sequence", PATCH_OF((3, 1, 1), (15, 0, 0)), 7, NONE},
    {"choose on side by side", PATCH_OF((4, 1, 1), (15, 0, 0)), 7, NONE},
    {"left on either", PATCH_OF((5, 1, 1), (5)), 7, NONE},
    {"right on either", PATCH_OF((5, 1, 1), (6)), 7, NONE},
    {"first on either", PATCH_OF((5, 1, 1), (7)), 7, NONE},
    {"second on either", PATCH_OF((5, 1, 1), (8)), 7, NONE},
    {"then on either", PATCH_OF((5, 1, 1), (9, 0, 0)), 7, NONE},
    {"regroup right, the first part is an either", PATCH_OF((3, 5, 1, 1, 1), (11)), 7, NONE},
    {"regroup left, the second part is an either", PATCH_OF((3, 1, 5, 1, 1), (12)), 7, NONE},
    {"spread, the second part is an either", PATCH_OF((3, 1, 5, 1, 1), (13)), 7, NONE},

    {"choose, a cue and a level", PATCH_OF((5, 1, 2), (15, 0, 0)), 30, NONE},
    {"choose, outputs of one size", PATCH_OF((5, 4, 1, 2, 4, 2, 1), (15, 0, 0)), 30, NONE},
    {"choose, the last leaf differs", PATCH_OF((5, 4, 1, 1, 4, 1, 2), (15, 0, 0)), 30, NONE},
    {"choose, a sequence and side by side", PATCH_OF((5, 3, 1, 1, 4, 1, 1), (15, 0, 0)), 30, NONE},
    {"choose, the same leaves in other forks", PATCH_OF((5, 4, 4, 1, 1, 1, 4, 1, 4, 1, 1), (15, 0, 0)), 30, NONE},
    {"choose, one output begins as the other", PATCH_OF((5, 1, 1), (15, 0, 4, 0, 0)), 30, NONE},
    {"choose, the sides of a mark", PATCH_OF((5, 1, 2), (15, 16, 2, 16, 1)), 30, NONE},
    {"choose, a fork of each kind", PATCH_OF((5, 1, 2), (15, 16, 2, 4, 2, 0)), 30, NONE},
    {"reading before typing, 30", RAW(0, 3, 5, 1, 2, 0, 3, 15, 0, 0, TOTALS(0, 0), 0), 3, NONE},
    {"7 of the second before 30", PATCH_OF((5, 1, 2), (15, 0, 5)), 7, NONE},
    {"6 of the second before 30", PATCH_OF((5, 1, 2), (15, 0, 1, 1)), 6, NONE},
    {"30 of the second before 30", PATCH_OF((5, 1, 5, 1, 2), (15, 0, 15, 0, 0)), 30, NONE},
    {"7 of choose before 6 of its first", PATCH_OF((4, 1, 1), (15, 1, 1, 0)), 7, NONE},
    {"6 of the first before 7 of the second", PATCH_OF((5, 1, 1), (15, 1, 1, 5)), 6, NONE},
    {"30 of the first before 7 of the second", PATCH_OF((5, 5, 1, 2, 1), (15, 15, 0, 0, 5)), 30, NONE},
    {"30 of the first before 6 of a chain's second", PATCH_OF((5, 1, 2), (10, 15, 0, 0, 1, 1)), 30, NONE},
    {"30 of the second of both", PATCH_OF((5, 1, 2), (4, 0, 15, 0, 0)), 30, NONE},

    {"reading before typing, 1", PATCH_OF((1), (10, 5)), 1, NONE},
    {"reading before typing, 2", PATCH_OF((1), (10, 5, 99)), 2, NONE},
    {"reading before typing, 3", RAW(0, 1, 1, 0, 1, 5, TOTALS(0, 0), 0), 3, NONE},
    {"reading before typing, the third section", RAW(0, 1, 1, 0, 1, 5, 0, 7, 0, 0, 0, 0, 0, 0, 0), 1, NONE},
    {"reading before typing, silent", PATCH_OF((1), (4, 1, 1, 99)), 2, NONE},
    {"preorder, 7 and then 6", PATCH_OF((1), (4, 5, 1, 1)), 7, NONE},
    {"preorder, 6 and then 7", PATCH_OF((1), (4, 1, 1, 5)), 6, NONE},
    {"then before its parts", PATCH_OF((1), (9, 1, 1, 0)), 7, NONE},
    {"the first part of then before the second", PATCH_OF((3, 1, 1), (9, 1, 1, 5)), 6, NONE},
    {"the second part of then is tried", PATCH_OF((3, 1, 1), (9, 0, 5)), 7, NONE},
    {"the first part of chain before the second, 6", PATCH_OF((1), (10, 1, 1, 5)), 6, NONE},
    {"the first part of chain before the second, 7", PATCH_OF((1), (10, 5, 1, 1)), 7, NONE},
};

struct admit_row {
    const char *name;
    struct bytes type, slice;
    wosthile_admitted answer;
};

static const struct admit_row admit_rows[] = {
    {"empty", FILE_OF(0), FILE_OF(0), {0, 1, 0}},
    {"cue not yet", FILE_OF(1), FILE_OF(1), {0, 0, 0}},
    {"cue come", FILE_OF(1), FILE_OF(2), {0, 1, 1}},
    {"level not yet", FILE_OF(2), FILE_OF(3), {0, 0, 0}},
    {"level 0 come is not level not yet", FILE_OF(2), FILE_OF(4, 0, 0), {0, 1, 1}},
    {"level 65535 come", FILE_OF(2), FILE_OF(4, 255, 255), {0, 1, 1}},
    {"value bytes are no kinds", FILE_OF(4, 2, 1), FILE_OF(7, 4, 200, 8, 2), {0, 1, 2}},
    {"value bytes are no arrivals", FILE_OF(2), FILE_OF(4, 2, 4), {0, 1, 1}},
    {"first part has come and is not crossed", FILE_OF(3, 1, 1), FILE_OF(5, 2), {0, 0, 1}},
    {"crossed", FILE_OF(3, 1, 1), FILE_OF(6, 2, 1), {0, 0, 1}},
    {"crossed, and the second part has come", FILE_OF(3, 1, 1), FILE_OF(6, 2, 2), {0, 1, 2}},
    {"empty in sequence with empty still owes its crossing", FILE_OF(3, 0, 0), FILE_OF(5, 0), {0, 0, 0}},
    {"empty crossed to empty", FILE_OF(3, 0, 0), FILE_OF(6, 0, 0), {0, 1, 0}},
    {"one side has come", FILE_OF(4, 1, 2), FILE_OF(7, 2, 3), {0, 0, 1}},
    {"both sides have come", FILE_OF(4, 1, 2), FILE_OF(7, 2, 4, 1, 0), {0, 1, 2}},
    {"none chosen", FILE_OF(5, 1, 2), FILE_OF(8), {0, 0, 0}},
    {"first chosen, nothing has come", FILE_OF(5, 1, 2), FILE_OF(9, 1), {0, 0, 0}},
    {"first chosen, and it has come", FILE_OF(5, 1, 2), FILE_OF(9, 2), {0, 1, 1}},
    {"second chosen, nothing has come", FILE_OF(5, 1, 2), FILE_OF(10, 3), {0, 0, 0}},
    {"second chosen, and it has come", FILE_OF(5, 1, 2), FILE_OF(10, 4, 0, 0), {0, 1, 1}},
    {"either of empty and empty still owes its choice", FILE_OF(5, 0, 0), FILE_OF(8), {0, 0, 0}},
    {"empty chosen", FILE_OF(5, 0, 0), FILE_OF(9, 0), {0, 1, 0}},
    {"the other empty chosen", FILE_OF(5, 0, 0), FILE_OF(10, 0), {0, 1, 0}},
    {"a choice in a choice", FILE_OF(5, 5, 1, 2, 1), FILE_OF(9, 10, 4, 1, 1), {0, 1, 1}},
    {"none chosen in a choice", FILE_OF(5, 5, 1, 2, 1), FILE_OF(9, 8), {0, 0, 0}},
    {"the part behind a larger one is chosen", FILE_OF(5, 3, 4, 1, 2, 1, 2), FILE_OF(10, 3), {0, 0, 0}},
    {"a crossing in a choice", FILE_OF(5, 3, 1, 1, 2), FILE_OF(9, 6, 2, 2), {0, 1, 2}},
    {"a choice in a crossed first part", FILE_OF(3, 5, 1, 2, 1), FILE_OF(6, 9, 2, 1), {0, 0, 1}},
    {"a choice in a crossed first part, all has come", FILE_OF(3, 5, 1, 2, 1), FILE_OF(6, 10, 4, 0, 7, 2), {0, 1, 2}},
    {"none chosen in a crossed second part", FILE_OF(3, 1, 5, 1, 2), FILE_OF(6, 2, 8), {0, 0, 1}},
    {"one side chosen", FILE_OF(4, 5, 1, 2, 5, 1, 2), FILE_OF(7, 9, 2, 8), {0, 0, 1}},
    {"both sides chosen", FILE_OF(4, 5, 1, 2, 5, 1, 2), FILE_OF(7, 9, 2, 10, 4, 8, 9), {0, 1, 2}},

    {"no type file", NONE, FILE_OF(1), {1, 0, 0}},
    {"type file of one byte", RAW(0), FILE_OF(1), {1, 0, 0}},
    {"type section without contents", RAW(0, 0), FILE_OF(1), {1, 0, 0}},
    {"type section longer than the file", RAW(0, 2, 1), FILE_OF(1), {1, 0, 0}},
    {"length before contents", RAW(0, 2, 200), FILE_OF(1), {1, 0, 0}},
    {"type section that claims 65535 bytes", RAW(255, 255, 1), FILE_OF(1), {1, 0, 0}},
    {"type tree cut short", FILE_OF(3, 1), FILE_OF(5, 1), {1, 0, 0}},
    {"unlisted type kind", FILE_OF(200), FILE_OF(1), {2, 0, 0}},
    {"unlisted type kind below", FILE_OF(4, 1, 19), FILE_OF(7, 1, 1), {2, 0, 0}},
    {"bytes after the type", FILE_OF(1, 1), FILE_OF(1), {3, 0, 0}},
    {"bytes after the type are not looked at", FILE_OF(1, 200), FILE_OF(1), {3, 0, 0}},
    {"bytes after the type section", RAW(0, 1, 1, 0), FILE_OF(1), {3, 0, 0}},
    {"the type before the slice", FILE_OF(1, 1), FILE_OF(200), {3, 0, 0}},

    {"no slice file", FILE_OF(1), NONE, {11, 0, 0}},
    {"slice file of one byte", FILE_OF(1), RAW(0), {11, 0, 0}},
    {"slice section without contents", FILE_OF(1), RAW(0, 0), {11, 0, 0}},
    {"slice section longer than the file", FILE_OF(1), RAW(0, 2, 200), {11, 0, 0}},
    {"slice tree cut short", FILE_OF(4, 1, 1), FILE_OF(7, 2), {11, 0, 0}},
    {"level without its value", FILE_OF(2), FILE_OF(4), {11, 0, 0}},
    {"level with half its value", FILE_OF(2), FILE_OF(4, 1), {11, 0, 0}},
    {"first chosen without its slice", FILE_OF(5, 1, 2), FILE_OF(9), {11, 0, 0}},
    {"second chosen without its slice", FILE_OF(5, 1, 2), FILE_OF(10), {11, 0, 0}},
    {"second chosen with half a value", FILE_OF(5, 1, 2), FILE_OF(10, 4, 1), {11, 0, 0}},
    {"unlisted slice kind", FILE_OF(1), FILE_OF(200), {12, 0, 0}},
    {"unlisted slice kind in a crossed first part", FILE_OF(3, 1, 1), FILE_OF(6, 15), {12, 0, 0}},
    {"unlisted slice kind of an either", FILE_OF(5, 1, 2), FILE_OF(15), {12, 0, 0}},
    {"unlisted slice kind of a chosen part", FILE_OF(5, 1, 2), FILE_OF(9, 15), {12, 0, 0}},
    {"bytes after the slice", FILE_OF(1), FILE_OF(2, 1), {13, 0, 0}},
    {"bytes after the slice are not looked at", FILE_OF(1), FILE_OF(2, 200), {13, 0, 0}},
    {"bytes after the slice section", FILE_OF(1), RAW(0, 1, 2, 0), {13, 0, 0}},
    {"bytes after none chosen", FILE_OF(5, 1, 2), FILE_OF(8, 1), {13, 0, 0}},
    {"case 7, a crossed first part that has not come", FILE_OF(3, 1, 1), FILE_OF(6, 1, 1), {14, 0, 0}},
    {"level not yet in a crossed first part", FILE_OF(3, 2, 1), FILE_OF(6, 3, 1), {14, 0, 0}},
    {"uncrossed in a crossed first part", FILE_OF(3, 3, 1, 1, 1), FILE_OF(6, 5, 2, 1), {14, 0, 0}},
    {"the second of a crossed first part", FILE_OF(3, 3, 1, 1, 1), FILE_OF(6, 6, 2, 1, 1), {14, 0, 0}},
    {"one side of a crossed first part", FILE_OF(3, 4, 1, 1, 1), FILE_OF(6, 7, 2, 1, 1), {14, 0, 0}},
    {"at the byte, before the cut", FILE_OF(3, 4, 1, 1, 1), FILE_OF(6, 7, 1), {14, 0, 0}},
    {"at the byte, before the unlisted kind", FILE_OF(3, 4, 1, 1, 1), FILE_OF(6, 7, 1, 200), {14, 0, 0}},
    {"a kind of another type", FILE_OF(1), FILE_OF(3), {14, 0, 0}},
    {"the kind before its value", FILE_OF(1), FILE_OF(4, 1), {14, 0, 0}},
    {"side by side on a sequence", FILE_OF(3, 1, 1), FILE_OF(7, 2, 1), {14, 0, 0}},
    {"none chosen of a cue", FILE_OF(1), FILE_OF(8), {14, 0, 0}},
    {"first chosen of empty", FILE_OF(0), FILE_OF(9, 0), {14, 0, 0}},
    {"second chosen of side by side", FILE_OF(4, 1, 1), FILE_OF(10, 1), {14, 0, 0}},
    {"in the first part of an either", FILE_OF(5, 1, 1), FILE_OF(5, 1), {14, 0, 0}},
    {"side by side on an either", FILE_OF(5, 1, 1), FILE_OF(7, 1, 1), {14, 0, 0}},
    {"a slice of a part without its mark", FILE_OF(5, 1, 1), FILE_OF(1), {14, 0, 0}},
    {"first chosen with a slice of the second", FILE_OF(5, 1, 2), FILE_OF(9, 3), {14, 0, 0}},
    {"second chosen with a slice of the first", FILE_OF(5, 1, 2), FILE_OF(10, 1), {14, 0, 0}},
    {"none chosen in a crossed first part", FILE_OF(3, 5, 1, 2, 1), FILE_OF(6, 8, 1), {14, 0, 0}},
    {"a choice alone in a crossed first part", FILE_OF(3, 5, 1, 2, 1), FILE_OF(6, 9, 1, 1), {14, 0, 0}},
    {"none chosen of empty in a crossed first part", FILE_OF(3, 5, 0, 0, 1), FILE_OF(6, 8, 1), {14, 0, 0}},
    {"none chosen at the byte, before the cut", FILE_OF(3, 5, 1, 2, 1), FILE_OF(6, 8), {14, 0, 0}},
};

/* An operation that writes: Check of a patch, Left of a type and a slice, Join of a type and two, Longest of a type. */
struct writing_row {
    const char *name;
    struct bytes file, first, second; /* the patch or the type, and the slices; none where it takes fewer */
    uint32_t number;
    struct bytes answer;
};

static const struct writing_row left_rows[] = {
    {"empty leaves empty", FILE_OF(0), FILE_OF(0), NONE, 0, FILE_OF(0)},
    {"case 2, cue not yet", FILE_OF(1), FILE_OF(1), NONE, 0, FILE_OF(1)},
    {"case 2, cue come", FILE_OF(1), FILE_OF(2), NONE, 0, FILE_OF(0)},
    {"level not yet", FILE_OF(2), FILE_OF(3), NONE, 0, FILE_OF(2)},
    {"level 0 come", FILE_OF(2), FILE_OF(4, 0, 0), NONE, 0, FILE_OF(0)},
    {"case 1", FILE_OF(4, 1, 2), FILE_OF(7, 2, 3), NONE, 0, FILE_OF(4, 0, 2)},
    {"case 4, not crossed", FILE_OF(3, 1, 1), FILE_OF(5, 2), NONE, 0, FILE_OF(3, 0, 1)},
    {"case 4, crossed", FILE_OF(3, 1, 1), FILE_OF(6, 2, 1), NONE, 0, FILE_OF(1)},
    {"case 5, not crossed", FILE_OF(3, 1, 4, 1, 1), FILE_OF(5, 2), NONE, 0, FILE_OF(3, 0, 4, 1, 1)},
    {"case 5, crossed", FILE_OF(3, 1, 4, 1, 1), FILE_OF(6, 2, 7, 2, 1), NONE, 0, FILE_OF(4, 0, 1)},
    {"case 6", FILE_OF(3, 3, 1, 1, 1), FILE_OF(5, 6, 2, 1), NONE, 0, FILE_OF(3, 1, 1)},
    {"empty in sequence with empty", FILE_OF(3, 0, 0), FILE_OF(5, 0), NONE, 0, FILE_OF(3, 0, 0)},
    {"empty crossed to empty", FILE_OF(3, 0, 0), FILE_OF(6, 0, 0), NONE, 0, FILE_OF(0)},
    {"all has come side by side", FILE_OF(4, 1, 2), FILE_OF(7, 2, 4, 1, 0), NONE, 0, FILE_OF(4, 0, 0)},
    {"none chosen", FILE_OF(5, 1, 2), FILE_OF(8), NONE, 0, FILE_OF(5, 1, 2)},
    {"none of larger parts chosen", FILE_OF(5, 3, 1, 1, 4, 5, 1, 2, 0), FILE_OF(8), NONE, 0,
     FILE_OF(5, 3, 1, 1, 4, 5, 1, 2, 0)},
    {"first chosen", FILE_OF(5, 1, 2), FILE_OF(9, 1), NONE, 0, FILE_OF(1)},
    {"first chosen, and it has come", FILE_OF(5, 1, 2), FILE_OF(9, 2), NONE, 0, FILE_OF(0)},
    {"second chosen", FILE_OF(5, 1, 2), FILE_OF(10, 3), NONE, 0, FILE_OF(2)},
    {"second chosen, and it has come", FILE_OF(5, 1, 2), FILE_OF(10, 4, 9, 9), NONE, 0, FILE_OF(0)},
    {"first of larger parts", FILE_OF(5, 4, 1, 2, 3, 1, 1), FILE_OF(9, 7, 2, 3), NONE, 0, FILE_OF(4, 0, 2)},
    {"second of larger parts", FILE_OF(5, 4, 1, 2, 3, 1, 1), FILE_OF(10, 5, 2), NONE, 0, FILE_OF(3, 0, 1)},
    {"a choice in a choice", FILE_OF(5, 5, 1, 2, 1), FILE_OF(9, 10, 3), NONE, 0, FILE_OF(2)},
    {"none chosen in a choice", FILE_OF(5, 1, 5, 1, 2), FILE_OF(10, 8), NONE, 0, FILE_OF(5, 1, 2)},
    {"none chosen in a first part", FILE_OF(3, 5, 1, 2, 1), FILE_OF(5, 8), NONE, 0, FILE_OF(3, 5, 1, 2, 1)},
    {"a choice in a first part", FILE_OF(3, 5, 1, 2, 1), FILE_OF(5, 9, 1), NONE, 0, FILE_OF(3, 1, 1)},
    {"none chosen in a second part", FILE_OF(3, 1, 5, 4, 1, 2, 1), FILE_OF(6, 2, 8), NONE, 0, FILE_OF(5, 4, 1, 2, 1)},
    {"a choice in a crossed first part", FILE_OF(3, 5, 1, 2, 4, 1, 1), FILE_OF(6, 10, 4, 0, 7, 7, 2, 1), NONE, 0,
     FILE_OF(4, 0, 1)},
    {"sides of which one is chosen", FILE_OF(4, 5, 1, 2, 5, 2, 1), FILE_OF(7, 8, 10, 1), NONE, 0,
     FILE_OF(4, 5, 1, 2, 1)},
    {"first chosen of a cue", FILE_OF(1), FILE_OF(9, 1), NONE, 14, NONE},
    {"type cut short", FILE_OF(3, 1), FILE_OF(5, 2), NONE, 1, NONE},
    {"unlisted type kind", FILE_OF(19), FILE_OF(1), NONE, 2, NONE},
    {"bytes after the type", FILE_OF(1, 0), FILE_OF(1), NONE, 3, NONE},
    {"slice cut short", FILE_OF(3, 1, 1), FILE_OF(5), NONE, 11, NONE},
    {"unlisted slice kind", FILE_OF(1), FILE_OF(15), NONE, 12, NONE},
    {"bytes after the slice", FILE_OF(1), FILE_OF(1, 1), NONE, 13, NONE},
    {"case 7", FILE_OF(3, 1, 1), FILE_OF(6, 1, 1), NONE, 14, NONE},
};

static const struct writing_row join_rows[] = {
    {"after 0", FILE_OF(0), FILE_OF(0), FILE_OF(0), 0, FILE_OF(0)},
    {"after 2", FILE_OF(1), FILE_OF(2), FILE_OF(0), 0, FILE_OF(2)},
    {"after 4", FILE_OF(2), FILE_OF(4, 255, 1), FILE_OF(0), 0, FILE_OF(4, 255, 1)},
    {"after level 0 come", FILE_OF(2), FILE_OF(4, 0, 0), FILE_OF(0), 0, FILE_OF(4, 0, 0)},
    {"after 1, nothing", FILE_OF(1), FILE_OF(1), FILE_OF(1), 0, FILE_OF(1)},
    {"after 1", FILE_OF(1), FILE_OF(1), FILE_OF(2), 0, FILE_OF(2)},
    {"after 3", FILE_OF(2), FILE_OF(3), FILE_OF(4, 1, 2), 0, FILE_OF(4, 1, 2)},
    {"5 with 5", FILE_OF(3, 1, 1), FILE_OF(5, 1), FILE_OF(5, 2), 0, FILE_OF(5, 2)},
    {"5 with 5, nothing new", FILE_OF(3, 1, 1), FILE_OF(5, 2), FILE_OF(5, 0), 0, FILE_OF(5, 2)},
    {"5 with 6", FILE_OF(3, 1, 1), FILE_OF(5, 1), FILE_OF(6, 2, 1), 0, FILE_OF(6, 2, 1)},
    {"case 7", FILE_OF(3, 1, 1), FILE_OF(5, 2), FILE_OF(6, 0, 1), 0, FILE_OF(6, 2, 1)},
    {"6 with what follows", FILE_OF(3, 1, 1), FILE_OF(6, 2, 1), FILE_OF(2), 0, FILE_OF(6, 2, 2)},
    {"7 joins each side", FILE_OF(4, 1, 2), FILE_OF(7, 2, 3), FILE_OF(7, 0, 4, 0, 9), 0, FILE_OF(7, 2, 4, 0, 9)},
    {"the crossing of empty", FILE_OF(3, 0, 0), FILE_OF(5, 0), FILE_OF(6, 0, 0), 0, FILE_OF(6, 0, 0)},
    {"crossed inside the first part", FILE_OF(3, 3, 1, 1, 2), FILE_OF(5, 6, 2, 1), FILE_OF(6, 2, 4, 7, 8), 0,
     FILE_OF(6, 6, 2, 2, 4, 7, 8)},
    {"8 with 8", FILE_OF(5, 1, 2), FILE_OF(8), FILE_OF(8), 0, FILE_OF(8)},
    {"8 with 9", FILE_OF(5, 1, 2), FILE_OF(8), FILE_OF(9, 1), 0, FILE_OF(9, 1)},
    {"8 with 10", FILE_OF(5, 1, 2), FILE_OF(8), FILE_OF(10, 4, 1, 2), 0, FILE_OF(10, 4, 1, 2)},
    {"9 with what follows", FILE_OF(5, 1, 2), FILE_OF(9, 1), FILE_OF(2), 0, FILE_OF(9, 2)},
    {"9 with nothing new", FILE_OF(5, 1, 2), FILE_OF(9, 2), FILE_OF(0), 0, FILE_OF(9, 2)},
    {"10 with what follows", FILE_OF(5, 1, 2), FILE_OF(10, 3), FILE_OF(4, 1, 2), 0, FILE_OF(10, 4, 1, 2)},
    {"9 of a sequence", FILE_OF(5, 3, 1, 1, 2), FILE_OF(9, 5, 1), FILE_OF(6, 2, 1), 0, FILE_OF(9, 6, 2, 1)},
    {"10 of a choice", FILE_OF(5, 1, 5, 1, 2), FILE_OF(10, 8), FILE_OF(10, 3), 0, FILE_OF(10, 10, 3)},
    {"10 of 9 with what follows", FILE_OF(5, 1, 5, 1, 2), FILE_OF(10, 9, 1), FILE_OF(2), 0, FILE_OF(10, 9, 2)},
    {"8 in a crossed first part", FILE_OF(3, 5, 1, 2, 1), FILE_OF(5, 8), FILE_OF(6, 10, 4, 0, 7, 1), 0,
     FILE_OF(6, 10, 4, 0, 7, 1)},
    {"9 in a crossed first part", FILE_OF(3, 5, 1, 2, 1), FILE_OF(5, 9, 1), FILE_OF(6, 2, 2), 0, FILE_OF(6, 9, 2, 2)},
    {"8 in a second part", FILE_OF(3, 1, 5, 1, 2), FILE_OF(6, 2, 8), FILE_OF(9, 2), 0, FILE_OF(6, 2, 9, 2)},
    {"9 in a second part", FILE_OF(3, 1, 5, 1, 2), FILE_OF(6, 2, 9, 1), FILE_OF(2), 0, FILE_OF(6, 2, 9, 2)},
    {"8 and 9 side by side", FILE_OF(4, 5, 1, 2, 5, 1, 2), FILE_OF(7, 8, 9, 1), FILE_OF(7, 10, 3, 2), 0,
     FILE_OF(7, 10, 3, 9, 2)},
    {"type too short", NONE, FILE_OF(1), FILE_OF(1), 1, NONE},
    {"unlisted type kind", FILE_OF(200), FILE_OF(1), FILE_OF(1), 2, NONE},
    {"bytes after the type section", RAW(0, 1, 1, 1), FILE_OF(1), FILE_OF(1), 3, NONE},
    {"no first slice", FILE_OF(1), NONE, FILE_OF(1), 11, NONE},
    {"no second slice", FILE_OF(1), FILE_OF(1), NONE, 11, NONE},
    {"first slice, unlisted kind", FILE_OF(1), FILE_OF(200), FILE_OF(1), 12, NONE},
    {"second slice, unlisted kind", FILE_OF(1), FILE_OF(1), FILE_OF(200), 12, NONE},
    {"first slice before the second", FILE_OF(1), FILE_OF(1, 1), FILE_OF(200), 13, NONE},
    {"bytes after the second slice", FILE_OF(1), FILE_OF(2), FILE_OF(0, 0), 13, NONE},
    {"second slice is of what is left", FILE_OF(3, 1, 1), FILE_OF(5, 2), FILE_OF(6, 2, 1), 14, NONE},
    {"nothing of the first part is left", FILE_OF(3, 1, 1), FILE_OF(6, 2, 1), FILE_OF(6, 0, 1), 14, NONE},
    {"a cue comes once", FILE_OF(1), FILE_OF(2), FILE_OF(2), 14, NONE},
    {"a choice comes once", FILE_OF(5, 1, 2), FILE_OF(9, 1), FILE_OF(9, 2), 14, NONE},
    {"a choice does not change", FILE_OF(5, 1, 2), FILE_OF(9, 1), FILE_OF(10, 3), 14, NONE},
    {"a choice is not taken back", FILE_OF(5, 1, 2), FILE_OF(10, 3), FILE_OF(8), 14, NONE},
    {"after 8 a part needs its mark", FILE_OF(5, 1, 2), FILE_OF(8), FILE_OF(2), 14, NONE},
    {"an unlisted kind after a choice", FILE_OF(5, 1, 2), FILE_OF(9, 1), FILE_OF(15), 12, NONE},
};

static const struct writing_row longest_rows[] = {
    {"empty", FILE_OF(0), NONE, NONE, 0, FILE_OF(0)},
    {"a cue has come", FILE_OF(1), NONE, NONE, 0, FILE_OF(2)},
    {"a level is at its largest", FILE_OF(2), NONE, NONE, 0, FILE_OF(4, 255, 255)},
    {"a sequence is crossed", FILE_OF(3, 1, 2), NONE, NONE, 0, FILE_OF(6, 2, 4, 255, 255)},
    {"a sequence of empty parts is crossed", FILE_OF(3, 0, 0), NONE, NONE, 0, FILE_OF(6, 0, 0)},
    {"a sequence in a first part", FILE_OF(3, 3, 1, 2, 0), NONE, NONE, 0, FILE_OF(6, 6, 2, 4, 255, 255, 0)},
    {"a sequence in a second part", FILE_OF(3, 0, 3, 2, 1), NONE, NONE, 0, FILE_OF(6, 0, 6, 4, 255, 255, 2)},
    {"both sides have come", FILE_OF(4, 2, 1), NONE, NONE, 0, FILE_OF(7, 4, 255, 255, 2)},
    {"empty sides", FILE_OF(4, 0, 0), NONE, NONE, 0, FILE_OF(7, 0, 0)},
    {"a sequence beside a sequence", FILE_OF(4, 3, 1, 1, 3, 0, 2), NONE, NONE, 0,
     FILE_OF(7, 6, 2, 2, 6, 0, 4, 255, 255)},

    {"the first is longer", FILE_OF(5, 2, 1), NONE, NONE, 0, FILE_OF(9, 4, 255, 255)},
    {"the second is longer", FILE_OF(5, 1, 2), NONE, NONE, 0, FILE_OF(10, 4, 255, 255)},
    {"the first is a byte longer", FILE_OF(5, 5, 4, 1, 1, 0, 2), NONE, NONE, 0, FILE_OF(9, 9, 7, 2, 2)},
    {"the second is a byte longer", FILE_OF(5, 2, 5, 4, 1, 1, 0), NONE, NONE, 0, FILE_OF(10, 9, 7, 2, 2)},
    {"the second is of more nodes and bytes", FILE_OF(5, 4, 1, 1, 4, 1, 4, 1, 1), NONE, NONE, 0,
     FILE_OF(10, 7, 2, 7, 2, 2)},

    {"equally long, empty parts", FILE_OF(5, 0, 0), NONE, NONE, 0, FILE_OF(9, 0)},
    {"equally long, cues", FILE_OF(5, 1, 1), NONE, NONE, 0, FILE_OF(9, 2)},
    {"equally long, levels", FILE_OF(5, 2, 2), NONE, NONE, 0, FILE_OF(9, 4, 255, 255)},
    {"equally long, nothing and a cue", FILE_OF(5, 0, 1), NONE, NONE, 0, FILE_OF(9, 0)},
    {"equally long, a cue and nothing", FILE_OF(5, 1, 0), NONE, NONE, 0, FILE_OF(9, 2)},
    {"equally long, two cues and a level", FILE_OF(5, 4, 1, 1, 2), NONE, NONE, 0, FILE_OF(9, 7, 2, 2)},
    {"equally long, a crossing and a level", FILE_OF(5, 3, 0, 0, 2), NONE, NONE, 0, FILE_OF(9, 6, 0, 0)},
    {"equally long, choices", FILE_OF(5, 5, 1, 1, 5, 1, 1), NONE, NONE, 0, FILE_OF(9, 9, 2)},
    {"equally long, the second in the first", FILE_OF(5, 5, 1, 2, 5, 2, 1), NONE, NONE, 0, FILE_OF(9, 10, 4, 255, 255)},
    {"equally long, in a first part, a side and a second part", FILE_OF(3, 5, 1, 0, 4, 5, 1, 1, 5, 0, 1), NONE, NONE, 0,
     FILE_OF(6, 9, 2, 7, 9, 2, 9, 0)},

    {"bytes and not nodes, a level and two cues", FILE_OF(5, 2, 4, 1, 1), NONE, NONE, 0, FILE_OF(9, 4, 255, 255)},
    {"bytes and not nodes, a level and a sequence", FILE_OF(5, 2, 3, 1, 0), NONE, NONE, 0, FILE_OF(9, 4, 255, 255)},
    {"bytes and not nodes, fewer nodes second", FILE_OF(5, 4, 1, 4, 1, 1, 4, 2, 2), NONE, NONE, 0,
     FILE_OF(10, 7, 4, 255, 255, 4, 255, 255)},
    {"bytes and not nodes, fewer nodes first", FILE_OF(5, 4, 2, 2, 4, 1, 4, 1, 1), NONE, NONE, 0,
     FILE_OF(9, 7, 4, 255, 255, 4, 255, 255)},
    {"of the slice and not of the type", FILE_OF(5, 5, 0, 0, 2), NONE, NONE, 0, FILE_OF(10, 4, 255, 255)},
    {"of the slice and not of a nest of choices", FILE_OF(5, 4, 2, 2, 5, 1, 5, 1, 5, 1, 1), NONE, NONE, 0,
     FILE_OF(9, 7, 4, 255, 255, 4, 255, 255)},

    {"a choice in a first part", FILE_OF(3, 5, 1, 2, 1), NONE, NONE, 0, FILE_OF(6, 10, 4, 255, 255, 2)},
    {"a choice in a second part", FILE_OF(3, 1, 5, 2, 1), NONE, NONE, 0, FILE_OF(6, 2, 9, 4, 255, 255)},
    {"a choice on each side", FILE_OF(4, 5, 1, 2, 5, 2, 1), NONE, NONE, 0, FILE_OF(7, 10, 4, 255, 255, 9, 4, 255, 255)},
    {"what is behind a part that is not chosen", FILE_OF(4, 5, 4, 2, 2, 3, 1, 1, 1), NONE, NONE, 0,
     FILE_OF(7, 9, 7, 4, 255, 255, 4, 255, 255, 2)},
    {"a choice in a chosen sequence", FILE_OF(5, 1, 3, 5, 1, 2, 1), NONE, NONE, 0, FILE_OF(10, 6, 10, 4, 255, 255, 2)},

    {"no type file", NONE, NONE, NONE, 1, NONE},
    {"type file of one byte", RAW(0), NONE, NONE, 1, NONE},
    {"type section without contents", RAW(0, 0), NONE, NONE, 1, NONE},
    {"type section longer than the file", RAW(0, 2, 1), NONE, NONE, 1, NONE},
    {"length before contents", RAW(0, 2, 200), NONE, NONE, 1, NONE},
    {"type section that claims 65535 bytes", RAW(255, 255, 1), NONE, NONE, 1, NONE},
    {"type tree cut short", FILE_OF(3, 1), NONE, NONE, 1, NONE},
    {"either with one part", FILE_OF(5, 2), NONE, NONE, 1, NONE},
    {"unlisted type kind", FILE_OF(200), NONE, NONE, 2, NONE},
    {"unlisted type kind below", FILE_OF(4, 1, 19), NONE, NONE, 2, NONE},
    {"unlisted type kind in a part that would not be chosen", FILE_OF(5, 4, 2, 2, 19), NONE, NONE, 2, NONE},
    {"bytes after the type", FILE_OF(1, 1), NONE, NONE, 3, NONE},
    {"bytes after the type are not looked at", FILE_OF(1, 200), NONE, NONE, 3, NONE},
    {"bytes after the type section", RAW(0, 1, 1, 0), NONE, NONE, 3, NONE},
    {"a patch file is no type file", PATCH_OF((1), (0)), NONE, NONE, 3, NONE},
};

static void check_admit(const struct admit_row *row)
{
    uint8_t *type = copy_of(row->type);
    uint8_t *slice = copy_of(row->slice);
    wosthile_admitted answer = wosthile_admit(type, row->type.count, slice, row->slice.count);
    bool right = answer.number == row->answer.number && answer.complete == row->answer.complete;
    right = right && answer.arrived == row->answer.arrived;
    count(right && unaltered(type, row->type) && unaltered(slice, row->slice), "Admit", row->name, 0);
    free(type);
    free(slice);
}

enum writing { CHECK, LEFT, JOIN, LONGEST };

static const char *const writing_names[] = {"Check", "Left", "Join", "Longest"};

/* The call, on copies of the row's files. */
static wosthile_written call(enum writing operation, const struct writing_row *row, uint8_t *const copies[3],
                             uint8_t *buffer, size_t room)
{
    size_t file = row->file.count, first = row->first.count, second = row->second.count;
    switch (operation) {
    case CHECK:
        return wosthile_check(copies[0], file, buffer, room);
    case LEFT:
        return wosthile_left(copies[0], file, copies[1], first, buffer, room);
    case JOIN:
        return wosthile_join(copies[0], file, copies[1], first, copies[2], second, buffer, room);
    default:
        return wosthile_longest(copies[0], file, buffer, room);
    }
}

/* One call with a buffer of this length: 20 if it is too short for an answer that the row accepts. */
static void check_room(enum writing operation, const struct writing_row *row, size_t room)
{
    uint8_t *copies[] = {copy_of(row->file), copy_of(row->first), copy_of(row->second)};
    uint8_t *memory = lent_memory(room);
    uint8_t *buffer = room > 0 ? memory + MARGIN : NULL;
    bool fits = row->number == WOSTHILE_ACCEPTED && room >= row->answer.count;
    uint32_t number = row->number == WOSTHILE_ACCEPTED && !fits ? WOSTHILE_FAULT_NO_ROOM : row->number;
    struct bytes expected = {fits ? row->answer.at : NULL, fits ? row->answer.count : 0};
    wosthile_written answer = call(operation, row, copies, buffer, room);
    bool right = answer.number == number && answer.written == expected.count && holds(memory, room, expected);
    right = right && unaltered(copies[0], row->file) && unaltered(copies[1], row->first);
    count(right && unaltered(copies[2], row->second), writing_names[operation], row->name, room);
    for (size_t copy = 0; copy < 3; copy++) {
        free(copies[copy]);
    }
    free(memory);
}

/* Every length from none to three bytes more than the answer, and the greatest sizes. */
static void check_writing(enum writing operation, const struct writing_row *row)
{
    if (row->answer.count < 100) {
        for (size_t room = 0; room <= row->answer.count + 3; room++) {
            check_room(operation, row, room);
        }
    } else {
        check_room(operation, row, 0);
        check_room(operation, row, row->answer.count - 1);
        check_room(operation, row, row->answer.count);
    }
    check_room(operation, row, WOSTHILE_TYPE_FILE_MAX);
    check_room(operation, row, WOSTHILE_SLICE_FILE_MAX);
    check_room(operation, row, 1000);
}

static void check_patch(const struct check_row *row)
{
    const struct bytes none = NONE;
    struct writing_row written = {row->name, row->patch, none, none, row->number, row->answer};
    check_writing(CHECK, &written);
}

/* Longest; what it writes is a slice of the type, and a complete one. */
static void check_longest(const struct writing_row *row)
{
    uint8_t slice[WOSTHILE_SLICE_FILE_MAX];
    check_writing(LONGEST, row);
    if (row->number == WOSTHILE_ACCEPTED) {
        size_t written = wosthile_longest(row->file.at, row->file.count, slice, sizeof slice).written;
        wosthile_admitted seen = wosthile_admit(row->file.at, row->file.count, slice, written);
        bool counted = seen.arrived == arrivals_in((struct bytes){slice, written});
        count(seen.number == 0 && seen.complete == 1 && counted, "Admit of what Longest writes", row->name, written);
    }
}

static void check_longest_of(const char *name, struct bytes type, uint32_t number, struct bytes answer)
{
    const struct bytes none = NONE;
    struct writing_row row = {name, type, none, none, number, answer};
    check_longest(&row);
}

static void check_admit_of(const char *name, struct bytes type, struct bytes slice, wosthile_admitted answer)
{
    struct admit_row row = {name, type, slice, answer};
    check_admit(&row);
}

/* Types about 255 nodes, and what they need. */
static void check_limit(void)
{
    const struct bytes none = NONE, lane = RAW(4, 1), fork = RAW(3), cue = RAW(1), extra = RAW(4, 200), end = RAW(4);
    const struct bytes come = RAW(7, 2), awaited = RAW(7, 1), last = RAW(2), slice = FILE_OF(1);
    struct bytes largest = repeated(lane, 127, cue), larger = repeated(lane, 128, cue);
    struct bytes forks = repeated(fork, 128, none), more_forks = repeated(fork, 255, none);
    struct bytes needed = repeated(lane, 127, end), needed_unlisted = repeated(lane, 127, extra);
    struct bytes all = repeated(come, 127, last), nothing = repeated(awaited, 127, cue);

    check_admit_of("255 nodes, all has come", largest, all, (wosthile_admitted){0, 1, 128});
    check_admit_of("255 nodes, nothing has come", largest, nothing, (wosthile_admitted){0, 0, 0});
    check_admit_of("257 nodes", larger, slice, (wosthile_admitted){4, 0, 0});
    check_admit_of("128 forks and nothing more", forks, slice, (wosthile_admitted){1, 0, 0});
    check_admit_of("255 forks and nothing more", more_forks, slice, (wosthile_admitted){4, 0, 0});
    check_admit_of("a 256th node is needed", needed, slice, (wosthile_admitted){4, 0, 0});
    check_admit_of("a 256th node is needed before it is unlisted", needed_unlisted, slice,
                   (wosthile_admitted){4, 0, 0});

    struct writing_row left = {"255 nodes, nothing has come", largest, nothing, none, 0, largest};
    check_writing(LEFT, &left);

    check_longest_of("255 nodes", largest, 0, all);
    check_longest_of("257 nodes", larger, 4, none);
    check_longest_of("128 forks and nothing more", forks, 1, none);
    check_longest_of("255 forks and nothing more", more_forks, 4, none);
    check_longest_of("a 256th node is needed", needed, 4, none);
    check_longest_of("a 256th node is needed before it is unlisted", needed_unlisted, 4, none);

    struct bytes files[] = {largest, larger, forks, more_forks, needed, needed_unlisted, all, nothing};
    release(files, sizeof files / sizeof files[0]);
}

/* Check of patches about the limits of 63 and 255 nodes. */
struct limit_row {
    const char *name;
    struct section type, nodes;
    uint32_t number;
    struct section answer;
};

static const struct limit_row limit_rows[] = {
    {"case 10, 63 nodes", SECTION(1), {NONE, RAW(10, 0), 31, RAW(0)}, 0, SECTION(1)},
    {"case 10, 65 nodes", SECTION(1), {NONE, RAW(10, 0), 32, RAW(0)}, 5, NO_SECTION},
    {"a 64th node is needed", SECTION(1), {NONE, RAW(10, 0), 31, RAW(10)}, 5, NO_SECTION},
    {"a 64th node is needed before it is unlisted", SECTION(1), {NONE, RAW(10, 0), 31, RAW(10, 200)}, 5, NO_SECTION},
    {"62 chains and nothing more", SECTION(1), {NONE, RAW(10), 62, NONE}, 1, NO_SECTION},
    {"63 chains and nothing more", SECTION(1), {NONE, RAW(10), 63, NONE}, 5, NO_SECTION},
    {"a byte after 63 nodes", SECTION(1), {NONE, RAW(10, 0), 31, RAW(0, 0)}, 3, NO_SECTION},
    {"the limit of nodes before a wrong shape", SECTION(1), {NONE, RAW(10, 5), 32, RAW(0)}, 5, NO_SECTION},
    {"65535 chains", SECTION(1), {NONE, RAW(10), 65535, NONE}, 5, NO_SECTION},
    {"63 levels and pairs", SECTION(1), {NONE, RAW(4, 3, 200, 200), 31, RAW(2)}, 0, {NONE, RAW(4, 2), 31, RAW(1)}},

    {"case 10, a type of 255", LANES(127), SECTION(0), 0, LANES(127)},
    {"case 10, a type of 257", LANES(128), SECTION(0), 4, NO_SECTION},
    {"a 256th type node is needed", {NONE, RAW(4, 1), 127, RAW(4)}, SECTION(0), 4, NO_SECTION},
    {"a 256th is needed before it is unlisted", {NONE, RAW(4, 1), 127, RAW(4, 200)}, SECTION(0), 4, NO_SECTION},
    {"254 forks and nothing more", {NONE, RAW(4), 254, NONE}, SECTION(0), 1, NO_SECTION},
    {"255 forks and nothing more", {NONE, RAW(4), 255, NONE}, SECTION(0), 4, NO_SECTION},
    {"a byte after a type of 255", {NONE, RAW(4, 1), 127, RAW(1, 1)}, SECTION(0), 3, NO_SECTION},
    {"a type of 257 before an unlisted node", LANES(128), SECTION(19), 4, NO_SECTION},

    {"a carried type of 255", SECTION(1), {RAW(1), RAW(4, 0), 127, RAW(0)}, 0, {NONE, RAW(4, 0), 127, RAW(0)}},
    {"a carried type of 257", SECTION(1), {RAW(1), RAW(4, 0), 128, RAW(0)}, 4, NO_SECTION},
    {"a carried type needs a 256th", SECTION(1), {RAW(1), RAW(4, 0), 127, RAW(4)}, 4, NO_SECTION},
    {"a carried type needs a 256th that is unlisted", SECTION(1), {RAW(1), RAW(4, 0), 127, RAW(4, 200)}, 4, NO_SECTION},
    {"a carried type of 254 forks", SECTION(1), {RAW(1), RAW(4), 254, NONE}, 1, NO_SECTION},
    {"a carried type of 257 before 6", SECTION(1), {RAW(1), RAW(4, 1), 128, RAW(1)}, 4, NO_SECTION},
    {"a carried type of 255 that is not nullable", SECTION(1), {RAW(1), RAW(4, 0), 127, RAW(1)}, 6, NO_SECTION},
    {"63 nodes beside those of carried types", SECTION(1), {NONE, RAW(10, 1, 4, 0, 0), 31, RAW(1, 0)}, 0, SECTION(0)},
    {"65 nodes beside those of carried types", SECTION(1), {NONE, RAW(10, 1, 4, 0, 0), 32, RAW(1, 0)}, 5, NO_SECTION},

    {"front gives 255", LANES(126), SECTION(14), 0, {RAW(3, 0), RAW(4, 1), 126, RAW(1)}},
    {"front gives 257", LANES(127), SECTION(14), 4, NO_SECTION},
    {"both give 255", LANES(126), SECTION(4, 0, 2), 0, {RAW(4), RAW(4, 1), 126, RAW(1, 1)}},
    {"both give 257", LANES(127), SECTION(4, 0, 2), 4, NO_SECTION},
    {"both give 511", LANES(127), SECTION(4, 0, 0), 4, NO_SECTION},
    {"then gives 255",
     {RAW(3, 1), RAW(4, 1), 125, RAW(1)},
     SECTION(9, 14, 0),
     0,
     {RAW(3, 3, 0, 1), RAW(4, 1), 125, RAW(1)}},
    {"then gives 257", {RAW(3, 1), RAW(4, 1), 126, RAW(1)}, SECTION(9, 14, 0), 4, NO_SECTION},
    {"spread gives 255",
     {RAW(3, 2, 4, 1), RAW(4, 1), 124, RAW(1)},
     SECTION(13),
     0,
     {RAW(4, 3, 2, 1, 3, 2), RAW(4, 1), 124, RAW(1)}},
    {"spread gives 257", {RAW(3, 2, 4, 1), RAW(4, 1), 125, RAW(1)}, SECTION(13), 4, NO_SECTION},
    {"what is between two nodes is tried", LANES(127), SECTION(10, 14, 8), 4, NO_SECTION},
    {"4 of the first of a chain before 7 of the second", LANES(127), SECTION(10, 14, 5), 4, NO_SECTION},
    {"4 of the first of both before 7 of the second", LANES(127), SECTION(4, 14, 7), 4, NO_SECTION},
    {"7 of the second before 4 of both", LANES(127), SECTION(4, 0, 7), 7, NO_SECTION},
    {"6 of the second before 4 of both", LANES(127), SECTION(4, 0, 1, 1), 6, NO_SECTION},
    {"4 of both inside before 6 of the second", LANES(127), SECTION(4, 4, 0, 0, 1, 1), 4, NO_SECTION},
    {"7 of the second before 4 of then", {RAW(3, 1), RAW(4, 1), 126, RAW(1)}, SECTION(9, 14, 7), 7, NO_SECTION},
    {"7 of then before 4 of its part", LANES(127), SECTION(9, 14, 0), 7, NO_SECTION},

    {"63 nodes of choose", {NONE, RAW(5, 1), 31, RAW(1)}, {NONE, RAW(15, 0), 31, RAW(0)}, 0, SECTION(1)},
    {"65 nodes of choose", {NONE, RAW(5, 1), 32, RAW(1)}, {NONE, RAW(15, 0), 32, RAW(0)}, 5, NO_SECTION},
    {"30 of the deepest choose", {NONE, RAW(5, 1), 31, RAW(2)}, {NONE, RAW(15, 0), 31, RAW(0)}, 30, NO_SECTION},
    {"either of 255", {NONE, RAW(5, 1), 127, RAW(1)}, SECTION(0), 0, {NONE, RAW(5, 1), 127, RAW(1)}},
    {"either of 257", {NONE, RAW(5, 1), 128, RAW(1)}, SECTION(0), 4, NO_SECTION},
    {"mark first gives 255", LANES(126), SECTION(16, 1), 0, {RAW(5), RAW(4, 1), 126, RAW(1, 1)}},
    {"mark first gives 257", LANES(127), SECTION(16, 1), 4, NO_SECTION},
    {"mark second gives 255", LANES(126), SECTION(17, 1), 0, {RAW(5, 1), RAW(4, 1), 126, RAW(1)}},
    {"mark second gives 257", LANES(127), SECTION(17, 1), 4, NO_SECTION},
    {"a mark carries 253", SECTION(1), {RAW(17), RAW(4, 1), 126, RAW(1)}, 0, {RAW(5), RAW(4, 1), 126, RAW(1, 1)}},
    {"a mark carries 255", SECTION(1), {RAW(16), RAW(4, 1), 127, RAW(1)}, 4, NO_SECTION},
    {"a mark carries 257", SECTION(1), {RAW(16), RAW(4, 1), 128, RAW(1)}, 4, NO_SECTION},
    {"what a mark carries needs a 256th", SECTION(1), {RAW(17), RAW(4, 1), 127, RAW(4)}, 4, NO_SECTION},
    {"what a mark carries is read before 30",
     SECTION(5, 1, 2),
     {RAW(4, 15, 0, 0, 16), RAW(4, 1), 128, RAW(1)},
     4,
     NO_SECTION},
    {"30 before 4 of both", SECTION(5, 1, 2), {RAW(4, 1), RAW(4, 0), 127, RAW(0, 15, 0, 0)}, 30, NO_SECTION},
    {"4 of both, above choose", SECTION(5, 1, 2), {RAW(4, 1), RAW(4, 0), 127, RAW(0, 15, 2, 2)}, 4, NO_SECTION},
    {"4 of the first of choose before 7 of the second",
     {RAW(5), RAW(4, 1), 126, RAW(1, 1)},
     SECTION(15, 4, 0, 0, 5),
     4,
     NO_SECTION},
    {"4 of the second of choose before 30",
     {RAW(5, 1), RAW(4, 1), 126, RAW(1)},
     SECTION(15, 0, 4, 0, 0),
     4,
     NO_SECTION},
    {"4 of both inside choose, equal outputs",
     {RAW(5), RAW(4, 1), 126, RAW(1, 1)},
     SECTION(15, 10, 4, 0, 0, 2, 0),
     4,
     NO_SECTION},
};

/* Check of the patch with these two sections, and totals; releases both, and the answer. */
static void check_sections(const char *name, struct bytes type, struct bytes nodes, uint32_t number,
                           struct bytes answer)
{
    struct check_row row = {name, patch_of(type, nodes), number, answer};
    check_patch(&row);
    struct bytes files[] = {row.patch, answer};
    release(files, sizeof files / sizeof files[0]);
}

static void check_limit_row(const struct limit_row *row)
{
    struct bytes answer = NONE;
    if (row->number == WOSTHILE_ACCEPTED) {
        answer = file_of(row->answer);
    }
    check_sections(row->name, file_of(row->type), file_of(row->nodes), row->number, answer);
}

/* The longest patch file of all: 32 times silent, each with a type of 255 nodes. With 33 it has 65 nodes. */
static void check_longest_patch(void)
{
    const struct bytes lane = RAW(4, 1), cue = RAW(1), empty_lane = RAW(4, 0), empty = RAW(0), none = NONE;
    const struct bytes chain_silent = RAW(10, 1), silent = RAW(1);
    struct bytes link = file_of((struct section){chain_silent, empty_lane, 127, empty});
    struct bytes last = file_of((struct section){silent, empty_lane, 127, empty});
    const struct bytes each = {link.at + 2, link.count - 2}, end = {last.at + 2, last.count - 2};
    struct bytes type = repeated(lane, 127, cue), nodes = repeated(each, 31, end);
    size_t length = type.count + nodes.count + WOSTHILE_TOTALS_SECTION;
    count(length == WOSTHILE_PATCH_FILE_MAX, "sizes", "the longest patch file", length);
    check_sections("the longest patch file", type, nodes, 0, repeated(empty_lane, 127, empty));
    check_sections("a silent too many", repeated(lane, 127, cue), repeated(each, 32, end), 5, none);
    struct bytes longest = patch_of(repeated(lane, 127, cue), repeated(each, 31, end));
    struct bytes longer = lengthened(longest, WOSTHILE_PATCH_FILE_MAX + 1);
    struct check_row row = {"a byte behind the longest patch file", longer, 3, none};
    check_patch(&row);
    struct bytes files[] = {link, last, longest, longer};
    release(files, sizeof files / sizeof files[0]);
}

/* Choose with two marks, each of which carries 253 nodes that end in this leaf, so that both outputs have 255. */
static void check_large_outputs(const char *name, struct bytes first_leaf, struct bytes second_leaf, uint32_t number)
{
    const struct bytes choose_mark = RAW(15, 16), mark = RAW(16), lane = RAW(4, 1), type = FILE_OF(5, 1, 1);
    const struct bytes either_cue = RAW(5, 1), none = NONE;
    struct bytes first = file_of((struct section){choose_mark, lane, 126, first_leaf});
    struct bytes second = file_of((struct section){mark, lane, 126, second_leaf});
    const struct bytes front = {first.at + 2, first.count - 2}, back = {second.at + 2, second.count - 2};
    struct bytes answer = number == 0 ? file_of((struct section){either_cue, lane, 126, first_leaf}) : none;
    check_sections(name, lengthened(type, type.count), file_of((struct section){front, none, 0, back}), number, answer);
    struct bytes files[] = {first, second};
    release(files, sizeof files / sizeof files[0]);
}

/* Patch files far longer than any that is accepted. */
static void check_long_patches(void)
{
    const struct bytes none = NONE, patch = PATCH_OF((1), (0)), wrong_shape = PATCH_OF((1), (5));
    const struct bytes type_claim = RAW(255, 255, 1), node_claim = RAW(0, 1, 1, 255, 255, 0);
    const struct bytes totals_claim = RAW(0, 1, 1, 0, 1, 0, 255, 255);
    struct bytes files[] = {lengthened(patch, 1 << 20),      lengthened(wrong_shape, 1 << 20),
                            lengthened(type_claim, 65537),   lengthened(type_claim, 65536),
                            lengthened(node_claim, 65540),   lengthened(node_claim, 65539),
                            lengthened(totals_claim, 65543), lengthened(totals_claim, 65542)};
    struct check_row rows[] = {
        {"a patch file of a mebibyte", files[0], 3, none},
        {"a patch file of a mebibyte and a wrong shape", files[1], 3, none},
        {"a type section of 65535 bytes", files[2], 3, none},
        {"a type section of 65535 bytes, one missing", files[3], 1, none},
        {"a node section of 65535 bytes", files[4], 3, none},
        {"a node section of 65535 bytes, one missing", files[5], 1, none},
        {"a third section of 65535 bytes", files[6], 3, none},
        {"a third section of 65535 bytes, one missing", files[7], 1, none},
    };
    for (size_t row = 0; row < sizeof rows / sizeof rows[0]; row++) {
        check_patch(&rows[row]);
    }
    release(files, sizeof files / sizeof files[0]);
}

/* The longest slice file of all, and files far longer than any that is accepted. */
static void check_long_files(void)
{
    const struct bytes lane = RAW(4, 2), level = RAW(2), come = RAW(7, 4, 1, 2), last = RAW(4, 255, 255);
    const struct bytes awaited = RAW(7, 3), not_yet = RAW(3), type = FILE_OF(1), slice = FILE_OF(2);
    const struct bytes claim = RAW(255, 255, 1), slice_claim = RAW(255, 255, 2), at_most = RAW(7, 4, 255, 255);
    const struct bytes none = NONE;
    struct bytes levels = repeated(lane, 127, level), all = repeated(come, 127, last);
    struct bytes largest = repeated(at_most, 127, last), nothing = repeated(awaited, 127, not_yet);
    struct bytes type_mebibyte = lengthened(type, 1 << 20), slice_mebibyte = lengthened(slice, 1 << 20);
    struct bytes type_section = lengthened(claim, 65537), slice_section = lengthened(slice_claim, 65537);

    check_admit_of("a type file of a mebibyte", type_mebibyte, slice, (wosthile_admitted){3, 0, 0});
    check_admit_of("a slice file of a mebibyte", type, slice_mebibyte, (wosthile_admitted){13, 0, 0});
    check_admit_of("a type section of 65535 bytes", type_section, slice, (wosthile_admitted){3, 0, 0});
    check_admit_of("a slice section of 65535 bytes", type, slice_section, (wosthile_admitted){13, 0, 0});

    struct writing_row join = {"128 levels come at once", levels, nothing, all, 0, all};
    count(all.count == WOSTHILE_SLICE_FILE_MAX && levels.count == WOSTHILE_TYPE_FILE_MAX, "sizes", join.name, 0);
    check_writing(JOIN, &join);

    count(largest.count == WOSTHILE_SLICE_FILE_MAX, "sizes", "128 levels at their largest", 0);
    check_longest_of("128 levels at their largest", levels, 0, largest);
    check_longest_of("a type file of a mebibyte", type_mebibyte, 3, none);
    check_longest_of("a type section of 65535 bytes", type_section, 3, none);

    struct bytes files[] = {levels, all, largest, nothing, type_mebibyte, slice_mebibyte, type_section, slice_section};
    release(files, sizeof files / sizeof files[0]);
}

/* Files may be the same bytes, or lie across one another; a length of 0 is no bytes, wherever the pointer points. */
static void check_shared_memory(void)
{
    /* The type of one cue, and the slice in which it has not come; then from its second byte on `1 1`, a cut file. */
    const uint8_t cue[] = {0, 1, 1};
    uint8_t buffer[4] = {9, 9, 9, 9};
    wosthile_admitted seen = wosthile_admit(cue, sizeof cue, cue, sizeof cue);
    bool nothing = seen.complete == 0 && seen.arrived == 0;
    count(seen.number == 0 && nothing, "Admit", "type and slice are the same bytes", 0);
    seen = wosthile_admit(cue, sizeof cue, cue + 1, sizeof cue - 1);
    nothing = seen.complete == 0 && seen.arrived == 0;
    count(seen.number == 11 && nothing, "Admit", "the slice file begins inside the type file", 0);
    wosthile_written joined = wosthile_join(cue, sizeof cue, cue, sizeof cue, cue, sizeof cue, buffer, sizeof buffer);
    count(joined.number == 0 && joined.written == 3 && memcmp(buffer, cue, 3) == 0 && buffer[3] == 9, "Join",
          "all three files are the same bytes", sizeof buffer);
    const uint8_t patch[] = {0, 1, 1, 0, 1, 2, TOTALS(0, 0)};
    wosthile_written checked = wosthile_check(patch, 0, buffer, sizeof buffer);
    count(checked.number == 1 && checked.written == 0, "Check", "a pointer with length 0", sizeof buffer);
    memset(buffer, 9, sizeof buffer);
    checked = wosthile_check(patch, sizeof patch, buffer, 0);
    count(checked.number == 20 && checked.written == 0 && buffer[0] == 9, "Check", "a buffer of length 0", 0);
    seen = wosthile_admit(cue, 0, cue, sizeof cue);
    count(seen.number == 1 && seen.complete == 0 && seen.arrived == 0, "Admit", "a pointer with length 0", 0);
    buffer[0] = 9;
    wosthile_written left = wosthile_left(cue, sizeof cue, cue, sizeof cue, buffer, 0);
    count(left.number == 20 && left.written == 0 && buffer[0] == 9, "Left", "a pointer with length 0", 0);
    wosthile_written longest = wosthile_longest(cue, 0, buffer, sizeof buffer);
    count(longest.number == 1 && longest.written == 0 && buffer[0] == 9, "Longest", "a pointer with length 0", 0);
    longest = wosthile_longest(cue, sizeof cue, buffer, 0);
    count(longest.number == 20 && longest.written == 0 && buffer[0] == 9, "Longest", "a buffer of length 0", 0);
}

/*
 * A type of the most nodes whose forks are one below the other, all in first parts or all in second parts, with its
 * longest slice. A fork's other part is a leaf; of an either that is not chosen, and then it has no bytes in the slice.
 */
struct nest {
    const char *name;
    size_t forks;
    struct bytes fork, leaf, deepest;
    struct bytes in_first, in_second; /* what a fork is in the slice, by the part in which the next one is */
    struct bytes leaf_come, deepest_come;
};

static const struct nest nests[] = {
    {"sequences of levels", 127, RAW(3), RAW(2), RAW(2), RAW(6), RAW(6), RAW(4, 255, 255), RAW(4, 255, 255)},
    {"sides of levels", 127, RAW(4), RAW(2), RAW(2), RAW(7), RAW(7), RAW(4, 255, 255), RAW(4, 255, 255)},
    {"sequences of cues", 127, RAW(3), RAW(1), RAW(1), RAW(6), RAW(6), RAW(2), RAW(2)},
    {"sides of empty parts", 127, RAW(4), RAW(0), RAW(0), RAW(7), RAW(7), RAW(0), RAW(0)},
    {"eithers of cues, a level below", 127, RAW(5), RAW(1), RAW(2), RAW(9), RAW(10), NONE, RAW(4, 255, 255)},
    {"eithers of levels, the last equally long", 126, RAW(5), RAW(2), RAW(5, 2, 2), RAW(9), RAW(10), NONE,
     RAW(9, 4, 255, 255)},
    {"eithers of empty parts, the last equally long", 126, RAW(5), RAW(0), RAW(5, 0, 1), RAW(9), RAW(10), NONE,
     RAW(9, 0)},
    {"eithers of levels, the last shorter", 125, RAW(5), RAW(2), RAW(5, 2, 5, 1, 1), RAW(9), RAW(10), NONE,
     RAW(9, 4, 255, 255)},
};

/* The file of a tree nested in first parts: the forks, the deepest part, and as many leaves. */
static struct bytes nested_in_first(struct bytes fork, size_t forks, struct bytes deepest, struct bytes leaf)
{
    const struct bytes none = NONE;
    struct bytes above = repeated(fork, forks, none);
    const struct bytes front = {above.at + 2, above.count - 2};
    struct bytes behind = file_of((struct section){deepest, leaf, forks, none});
    const struct bytes end = {behind.at + 2, behind.count - 2};
    struct bytes file = file_of((struct section){front, none, 0, end});
    struct bytes files[] = {above, behind};
    release(files, sizeof files / sizeof files[0]);
    return file;
}

/* The file of a tree nested in second parts: each fork with its leaf, and the deepest part. */
static struct bytes nested_in_second(struct bytes fork, size_t forks, struct bytes deepest, struct bytes leaf)
{
    const struct bytes none = NONE;
    struct bytes one = file_of((struct section){fork, none, 0, leaf});
    const struct bytes each = {one.at + 2, one.count - 2};
    struct bytes file = repeated(each, forks, deepest);
    release(&one, 1);
    return file;
}

static void check_nest(const struct nest *nest)
{
    size_t forks = nest->forks;
    struct bytes files[] = {
        nested_in_first(nest->fork, forks, nest->deepest, nest->leaf),
        nested_in_first(nest->in_first, forks, nest->deepest_come, nest->leaf_come),
        nested_in_second(nest->fork, forks, nest->deepest, nest->leaf),
        nested_in_second(nest->in_second, forks, nest->deepest_come, nest->leaf_come),
    };
    count(files[0].count == WOSTHILE_TYPE_FILE_MAX && files[2].count == WOSTHILE_TYPE_FILE_MAX, "sizes", nest->name, 0);
    check_longest_of(nest->name, files[0], 0, files[1]);
    check_longest_of(nest->name, files[2], 0, files[3]);
    release(files, sizeof files / sizeof files[0]);
}

int main(void)
{
    for (size_t row = 0; row < sizeof check_rows / sizeof check_rows[0]; row++) {
        check_patch(&check_rows[row]);
    }
    for (size_t row = 0; row < sizeof limit_rows / sizeof limit_rows[0]; row++) {
        check_limit_row(&limit_rows[row]);
    }
    for (size_t row = 0; row < sizeof admit_rows / sizeof admit_rows[0]; row++) {
        check_admit(&admit_rows[row]);
    }
    for (size_t row = 0; row < sizeof left_rows / sizeof left_rows[0]; row++) {
        check_writing(LEFT, &left_rows[row]);
    }
    for (size_t row = 0; row < sizeof join_rows / sizeof join_rows[0]; row++) {
        check_writing(JOIN, &join_rows[row]);
    }
    for (size_t row = 0; row < sizeof longest_rows / sizeof longest_rows[0]; row++) {
        check_longest(&longest_rows[row]);
    }
    for (size_t nest = 0; nest < sizeof nests / sizeof nests[0]; nest++) {
        check_nest(&nests[nest]);
    }
    const struct bytes cue = RAW(1), level = RAW(2);
    check_large_outputs("choose, both give 255 nodes", level, level, 0);
    check_large_outputs("choose, the last of 255 nodes differs", cue, level, 30);
    check_longest_patch();
    check_long_patches();
    check_limit();
    check_long_files();
    check_shared_memory();
    printf("%d passed, %d failed\n", passed, failed);
    return failed != 0;
}
