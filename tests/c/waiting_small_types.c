/*
 * Cue and level nodes on every type of a few nodes and every slice of it, which are found by asking the library.
 *
 * The rule (M-103) is held to what the other operations say. The empty slice of a type is what second sends before its
 * crossing, and it is a slice that leaves the type as it is. Admit says whether a slice is complete. A cue or level
 * sends on a slice that is not the empty one or is complete; on any other it sends that its own cue or level is awaited
 * and the patch left is the patch fed, byte for byte. Cut in two, every slice opens the node once or not at all, as it
 * does whole. In a chain the slice that counts is the one that the node before it sends. What it sends is counted, with
 * what came (M-104), and both are the totals left (M-105): cut in two, they are those of the whole.
 */
#include "small_feeds.h"
#include "small_types.h"
#include "waiting.h"

enum { FEW_NODES = 5, TYPES_LEAST = 10000 };

/* A node that waits, with the slices that it sends while it waits and when it opens. */
struct waiting_node {
    const char *name;
    struct bytes node, own_type, awaited, sent;
};

static const struct waiting_node waiting_nodes[] = {
    {"cue", RAW(2), FILE_OF(1), FILE_OF(1), FILE_OF(2)},
    {"level 0", RAW(3, 0, 0), FILE_OF(2), FILE_OF(3), FILE_OF(4, 0, 0)},
    {"level 65535", RAW(3, 255, 255), FILE_OF(2), FILE_OF(3), FILE_OF(4, 255, 255)},
};
enum { WAITING_NODES = sizeof waiting_nodes / sizeof waiting_nodes[0] };

static const struct bytes spent_node = RAW(1, 0);

/* What a slice is for a node that waits; all but the first of these open it. */
enum meeting { EMPTY_AND_OWED, EMPTY_AND_COMPLETE, CROSSING_ALONE, CHOICE_ALONE, SOMETHING_COME, COMPLETE, MEETINGS };

static const char *const meeting_names[] = {
    [EMPTY_AND_OWED] = "empty, something is owed",
    [EMPTY_AND_COMPLETE] = "empty and complete",
    [CROSSING_ALONE] = "a crossing with no cue and no level, not complete",
    [CHOICE_ALONE] = "a choice with no cue and no level, not complete",
    [SOMETHING_COME] = "a cue or a level has come, not complete",
    [COMPLETE] = "complete, not empty",
};

/* Does a slice have a node of this kind? A level that has come has its value behind it. */
static bool has_kind(const struct growing *slice, uint8_t kind)
{
    size_t place = 2;
    while (place < slice->count && slice->bytes[place] != kind) {
        place += slice->bytes[place] == WOSTHILE_SLICE_LEVEL_COME ? 3 : 1;
    }
    return place < slice->count;
}

static enum meeting meeting_of(const struct growing *slice, bool empty, bool complete)
{
    if (empty) {
        return complete ? EMPTY_AND_COMPLETE : EMPTY_AND_OWED;
    }
    if (complete) {
        return COMPLETE;
    }
    if (has_kind(slice, WOSTHILE_SLICE_CUE_COME) || has_kind(slice, WOSTHILE_SLICE_LEVEL_COME)) {
        return SOMETHING_COME;
    }
    return has_kind(slice, WOSTHILE_SLICE_CROSSED) ? CROSSING_ALONE : CHOICE_ALONE;
}

/* How many types were met, and how many slices of each kind. */
static size_t types_met, met[MEETINGS];

struct judged {
    struct bytes type;
    struct small_file empty;
};

static void judge_slice(void *context, const struct growing *slice, wosthile_admitted seen)
{
    const struct judged *judged = context;
    const struct bytes none = NONE;
    struct bytes given = growing_file(slice), type = judged->type;
    enum meeting meeting = meeting_of(slice, same(given, file_at(&judged->empty)), seen.complete);
    struct small_file type_left = left_of(type, given);
    met[meeting]++;
    for (size_t which = 0; which < WAITING_NODES; which++) {
        const struct waiting_node *waiting = &waiting_nodes[which];
        bool opens = meeting != EMPTY_AND_OWED;
        struct small_file patch = patch_with(type, none, waiting->node);
        const struct counts due = {seen.arrived, opens ? 1 : 0};
        struct small_file left = patch_with(file_at(&type_left), none, opens ? spent_node : waiting->node);
        left = counted(left, due);
        struct answer answer = feed(file_at(&patch), given);
        bool right = same(file_at(&answer.output), opens ? waiting->sent : waiting->awaited);
        right = right && same(file_at(&answer.left), file_at(&left));
        right = right && (opens || same(file_at(&answer.left), file_at(&patch)));
        right = right && same_counts(answer.counts, due);
        count(right, waiting->name, type_name(type), slice->count);
    }
}

static void judge_type(struct bytes type)
{
    struct judged judged = {type, empty_slice_of(type)};
    struct small_file left = left_of(type, file_at(&judged.empty));
    types_met++;
    count(same(file_at(&left), type), "the empty slice leaves the type", type_name(type), judged.empty.count);
    every_slice(&(struct slices){type, 0, judge_slice, &judged});
}

/* A slice, the next one of what it leaves, and the node that is fed both, one after the other and as one. */
struct cut {
    struct bytes type;
    const struct waiting_node *waiting;
    struct small_file patch;
    struct growing first;
    struct answer answer; /* of the first */
};

static size_t opened_by_first, opened_by_second, not_opened;

static void try_second(void *context, const struct growing *second, wosthile_admitted seen)
{
    const struct cut *cut = context;
    const struct waiting_node *waiting = cut->waiting;
    struct bytes next = growing_file(second), first_sent = file_at(&cut->answer.output);
    struct small_file slice = joined(cut->type, growing_file(&cut->first), next);
    struct answer answer = feed(file_at(&cut->answer.left), next), whole = feed(file_at(&cut->patch), file_at(&slice));
    struct small_file sent = joined(waiting->own_type, first_sent, file_at(&answer.output));
    bool by_first = same(first_sent, waiting->sent), by_second = same(file_at(&answer.output), waiting->sent);
    opened_by_first += by_first;
    opened_by_second += by_second;
    not_opened += !by_first && !by_second;
    bool right = sent.count > 0 && same(file_at(&sent), file_at(&whole.output));
    right = right && same(file_at(&answer.left), file_at(&whole.left)) && !(by_first && by_second);
    right = right && answer.counts.arrived == seen.arrived && answer.counts.sent == by_second;
    right = right && same_counts(sum_of(cut->answer.counts, answer.counts), whole.counts);
    count(right, "cut in two", type_name(cut->type), slice.count);
}

static void cut_slice(void *context, const struct growing *slice, wosthile_admitted seen)
{
    const struct bytes *type = context, none = NONE;
    (void)seen;
    for (size_t which = 0; which < WAITING_NODES; which++) {
        const struct waiting_node *waiting = &waiting_nodes[which];
        struct cut cut = {.type = *type, .waiting = waiting, .patch = patch_with(*type, none, waiting->node)};
        cut.first = *slice;
        cut.answer = feed(file_at(&cut.patch), growing_file(slice));
        every_slice(&(struct slices){type_in(&cut.answer.left), 0, try_second, &cut});
    }
}

static size_t waited_behind[NODE_KINDS], opened_behind[NODE_KINDS];

/* A node before the one that waits, on an input type; it is not tried if the library does not take it. */
struct chained {
    struct bytes type, first;
    struct small_file first_alone, between; /* its patch, and the file of the type that it gives */
};

static void chain_slice(void *context, const struct growing *slice, wosthile_admitted seen)
{
    const struct chained *chained = context;
    const struct bytes none = NONE;
    struct answer first = feed(file_at(&chained->first_alone), growing_file(slice));
    uint8_t kind = chained->first.at[0];
    for (size_t which = 0; which < WAITING_NODES; which++) {
        const struct waiting_node *waiting = &waiting_nodes[which];
        struct small_file front = {{WOSTHILE_NODE_CHAIN}, 1}, front_left = front;
        front.count = (size_t)(append(front.bytes + 1, chained->first) - front.bytes);
        front_left.count = (size_t)(append(front_left.bytes + 1, nodes_in(&first.left)) - front_left.bytes);
        struct small_file patch = patch_with(chained->type, file_at(&front), waiting->node);
        struct small_file alone = patch_with(file_at(&chained->between), none, waiting->node);
        struct answer second = feed(file_at(&alone), file_at(&first.output));
        struct small_file left = patch_with(type_in(&first.left), file_at(&front_left), nodes_in(&second.left));
        struct answer answer = feed(file_at(&patch), growing_file(slice));
        bool waits = same(file_at(&answer.output), waiting->awaited);
        const struct counts due = {seen.arrived, waits ? 0 : 1};
        left = counted(left, due);
        waited_behind[kind] += waits;
        opened_behind[kind] += !waits;
        bool right = same(file_at(&answer.output), file_at(&second.output)) && answer.output.count > 0;
        right = right && same_counts(answer.counts, due);
        count(right && same(file_at(&answer.left), file_at(&left)), waiting->name, type_name(chained->type), kind);
    }
}

static void try_few_nodes(struct bytes type)
{
    const struct bytes none = NONE;
    every_slice(&(struct slices){type, 0, cut_slice, &type});
    for (size_t which = 0; which < SMALL_NODES; which++) {
        struct chained chained = {.type = type, .first = small_nodes[which].nodes};
        chained.first_alone = patch_with(type, none, chained.first);
        chained.between.count =
            wosthile_check(chained.first_alone.bytes, chained.first_alone.count, chained.between.bytes, ROOM).written;
        if (chained.between.count > 0) {
            every_slice(&(struct slices){type, 0, chain_slice, &chained});
        }
    }
}

static void tell_what_was_met(void)
{
    count(types_met >= TYPES_LEAST, "types", "enough were found", types_met);
    printf("types of up to %d nodes: %zu; slices, each fed to a cue and to levels 0 and 65535:\n", NODES_MAX,
           types_met);
    for (size_t meeting = 0; meeting < MEETINGS; meeting++) {
        count(met[meeting] > 0, "never met", meeting_names[meeting], met[meeting]);
        printf("%8zu %s\n", met[meeting], meeting_names[meeting]);
    }
    printf(
        "slices of types of up to %d nodes, cut in two: %zu opened by the first, %zu by the second, %zu by neither\n",
        FEW_NODES, opened_by_first, opened_by_second, not_opened);
    count(opened_by_first > 0 && opened_by_second > 0 && not_opened > 0, "never met", "a cut", not_opened);
    printf("behind a node of each kind, waited and opened:");
    count(no_other_kind(), "kinds of nodes", "all are counted", NODE_KINDS);
    for (unsigned kind = 0; kind < NODE_KINDS; kind++) {
        printf(" %u: %zu %zu%s", kind, waited_behind[kind], opened_behind[kind], kind + 1 < NODE_KINDS ? "," : "\n");
        count(opened_behind[kind] > 0, "never met", "opened behind a node of kind", kind);
        count((waited_behind[kind] > 0) != never_waited_for(kind), "waited or not", "behind a node of kind", kind);
    }
}

int main(void)
{
    every_type(NODES_MAX, judge_type);
    every_type(FEW_NODES, try_few_nodes);
    tell_what_was_met();
    printf("%d passed, %d failed\n", passed, failed);
    return failed != 0;
}
