/*
 * Arrivals (M-104) on every type of a few nodes and every slice of it, which are found by asking the library.
 *
 * What Admit counts is held to a walk down the type and the slice together, with the bytes 2 and 4 in every value. The
 * empty slice has no arrivals, and no slice has more than its type can have leaves. A slice joined with one of what it
 * leaves has the arrivals of both.
 *
 * Feed is held to Admit: what arrived is counted in the slice that is fed, what was sent in the output, as a slice of
 * the output type in force. Nodes of each kind send each arrival as often as they should. Cut in two, what arrived and
 * what was sent are those of the whole, and so are the totals left (M-105); more on these is in totals.c. A refused
 * slice and a feed without room count nothing.
 */
#include "found_types.h"
#include "small_feeds.h"
#include "small_nodes.h"

enum { FEW_NODES = 5, ARRIVALS_MOST = (NODES_MAX + 1) / 2, TYPES_LEAST = 10000 };

/* A walk down a type and a slice of it together. It gives every level that has come a value. */
struct walk {
    const uint8_t *type;
    uint8_t *slice;
    const uint8_t *value;
    uint32_t arrivals;
};

/* A part of the type of which the slice has nothing. */
static void pass_by(struct walk *walk)
{
    uint8_t kind = *walk->type++;
    if (kind == WOSTHILE_TYPE_SEQUENCE || kind == WOSTHILE_TYPE_BESIDE || kind == WOSTHILE_TYPE_EITHER) {
        pass_by(walk);
        pass_by(walk);
    }
}

static void walk_down(struct walk *walk)
{
    uint8_t kind = *walk->type++, root = *walk->slice++;
    switch (kind) {
    case WOSTHILE_TYPE_CUE:
        walk->arrivals += root == WOSTHILE_SLICE_CUE_COME;
        break;
    case WOSTHILE_TYPE_LEVEL:
        if (root == WOSTHILE_SLICE_LEVEL_COME) {
            walk->arrivals++;
            *walk->slice++ = walk->value[0];
            *walk->slice++ = walk->value[1];
        }
        break;
    case WOSTHILE_TYPE_SEQUENCE:
        walk_down(walk);
        (root == WOSTHILE_SLICE_CROSSED ? walk_down : pass_by)(walk);
        break;
    case WOSTHILE_TYPE_BESIDE:
        walk_down(walk);
        walk_down(walk);
        break;
    case WOSTHILE_TYPE_EITHER:
        (root == WOSTHILE_SLICE_FIRST_CHOSEN ? walk_down : pass_by)(walk);
        (root == WOSTHILE_SLICE_SECOND_CHOSEN ? walk_down : pass_by)(walk);
        break;
    default:
        break;
    }
}

static wosthile_admitted admit(struct bytes type, struct bytes slice)
{
    return wosthile_admit(type.at, type.count, slice.at, slice.count);
}

/* Has the slice of the type so many arrivals, as Admit says? */
static bool has_arrivals(struct bytes type, struct bytes slice, uint32_t arrivals)
{
    wosthile_admitted seen = admit(type, slice);
    return seen.number == WOSTHILE_ACCEPTED && seen.arrived == arrivals;
}

static size_t met[ARRIVALS_MOST + 1], met_at_most, met_without;

/* The slice, with levels of every value that has the bytes 2 and 4 alone. */
static void walk_slice(const struct found_type *type, const struct found_slice *slice)
{
    static const uint8_t values[][2] = {{2, 2}, {2, 4}, {4, 2}, {4, 4}};
    struct bytes type_file = growing_file(&type->file);
    bool right = true;
    for (size_t value = 0; value < sizeof values / sizeof values[0]; value++) {
        struct growing walked = slice->file;
        struct walk walk = {type->file.bytes + 2, walked.bytes + 2, values[value], 0};
        walk_down(&walk);
        right = right && walk.type == type->file.bytes + type->file.count && walk.slice == walked.bytes + walked.count;
        right = right && walk.arrivals == slice->seen.arrived;
        right = right && has_arrivals(type_file, growing_file(&walked), walk.arrivals);
    }
    count(right, "Admit, by a walk", type_name(type_file), slice->seen.arrived);
}

static void check_slice(const struct found_type *type, const struct found_slice *slice)
{
    const struct bytes pass = RAW(0), none = NONE;
    struct bytes type_file = growing_file(&type->file);
    uint32_t arrived = slice->seen.arrived, most = ((uint32_t)nodes_of(type) + 1) / 2;
    count(arrived <= most, "more arrivals than leaves", type_name(type_file), arrived);
    if (arrived > most) {
        return;
    }
    struct small_file patch = patch_with(type_file, none, pass);
    struct answer passed_on = feed(file_at(&patch), growing_file(&slice->file));
    count(same_counts(passed_on.counts, (struct counts){arrived, arrived}), "pass", type_name(type_file), arrived);
    met[arrived]++;
    met_at_most += arrived == most;
}

/* The empty slice has no arrivals; those that have none and are not empty bring a crossing or a choice. */
static void check_empty(const struct found_type *type)
{
    struct bytes type_file = growing_file(&type->file);
    struct small_file empty = empty_slice_of(type_file);
    count(has_arrivals(type_file, file_at(&empty), 0), "the empty slice", type_name(type_file), empty.count);
    for (size_t slice = type->begin; slice < type->end; slice++) {
        bool is_empty = same(growing_file(&slices[slice].file), file_at(&empty));
        met_without += !is_empty && slices[slice].seen.arrived == 0;
    }
}

static size_t joins;

/* Every slice of what this one leaves, joined with it. */
static void check_joins(const struct found_type *type, const struct found_slice *first)
{
    struct bytes type_file = growing_file(&type->file), first_file = growing_file(&first->file);
    struct small_file left = left_of(type_file, first_file);
    const struct found_type *type_left = found(file_at(&left));
    bool adds = true;
    for (size_t second = type_left->begin; second < type_left->end; second++, joins++) {
        struct small_file whole = joined(type_file, first_file, growing_file(&slices[second].file));
        adds = adds && has_arrivals(type_file, file_at(&whole), first->seen.arrived + slices[second].seen.arrived);
    }
    count(adds, "Join adds", type_name(type_file), first->file.count);
}

static void check_type(const struct found_type *type)
{
    check_empty(type);
    for (size_t slice = type->begin; slice < type->end; slice++) {
        walk_slice(type, &slices[slice]);
        check_slice(type, &slices[slice]);
        check_joins(type, &slices[slice]);
    }
}

/* A node on a type, with its patch and the type that it gives. */
struct fed_node {
    const struct small_node *node;
    struct bytes type;
    struct small_file patch, given;
};

static size_t feeds, cuts, sent_fewer[SMALL_NODES], sent_more[SMALL_NODES];

/* Do the nodes send each of these arrivals as often as they should, and of their own no more than they have? */
static bool as_often(const struct small_node *node, struct counts counts)
{
    return counts.sent >= node->least * counts.arrived && counts.sent <= node->most * counts.arrived + node->own;
}

/* Every slice of what this one leaves: fed after it, and as one with it. */
static void check_cuts(const struct fed_node *fed, const struct found_slice *first, const struct answer *answer)
{
    struct bytes first_file = growing_file(&first->file);
    struct small_file given_left = left_of(file_at(&fed->given), file_at(&answer->output));
    const struct found_type *type_left = found(type_in(&answer->left));
    bool right = true;
    for (size_t second = type_left->begin; second < type_left->end; second++, cuts++) {
        struct bytes second_file = growing_file(&slices[second].file);
        struct small_file slice = joined(fed->type, first_file, second_file);
        struct answer next = feed(file_at(&answer->left), second_file);
        struct answer whole = feed(file_at(&fed->patch), file_at(&slice));
        right = right && whole.output.count > 0 && next.counts.arrived == slices[second].seen.arrived;
        right = right && has_arrivals(file_at(&given_left), file_at(&next.output), next.counts.sent);
        right = right && has_arrivals(file_at(&fed->given), file_at(&whole.output), whole.counts.sent);
        right = right && same_counts(sum_of(answer->counts, next.counts), whole.counts);
        right = right && same(file_at(&next.left), file_at(&whole.left));
        right = right && as_often(fed->node, whole.counts);
    }
    count(right, "cut in two", type_name(fed->type), fed->node->nodes.at[0]);
}

/* A feed of which either buffer is a byte too short. */
static void check_no_room(const struct fed_node *fed, struct bytes slice, const struct answer *answer)
{
    struct bytes patch = file_at(&fed->patch);
    uint8_t output[ROOM], left[ROOM];
    for (size_t which = 1; which < 4; which++) {
        size_t output_room = answer->output.count - which % 2, left_room = answer->left.count - which / 2;
        wosthile_fed refused =
            wosthile_feed(patch.at, patch.count, slice.at, slice.count, output, output_room, left, left_room);
        count(is_refusal(refused, WOSTHILE_FAULT_NO_ROOM), "no room", type_name(fed->type), refused.arrived);
    }
}

static void check_feed(const struct fed_node *fed, const struct found_slice *slice)
{
    struct bytes slice_file = growing_file(&slice->file);
    struct answer answer = feed(file_at(&fed->patch), slice_file);
    size_t which = (size_t)(fed->node - small_nodes);
    bool right = answer.output.count > 0 && answer.counts.arrived == slice->seen.arrived;
    right = right && has_arrivals(file_at(&fed->given), file_at(&answer.output), answer.counts.sent);
    right = right && as_often(fed->node, answer.counts);
    right = right && same_counts(totals_in(file_at(&answer.left)), answer.counts);
    count(right, "Feed", type_name(fed->type), fed->node->nodes.at[0]);
    feeds++;
    sent_fewer[which] += answer.counts.sent < answer.counts.arrived;
    sent_more[which] += answer.counts.sent > answer.counts.arrived;
    check_no_room(fed, slice_file, &answer);
    check_cuts(fed, slice, &answer);
}

static void check_nodes(const struct found_type *type)
{
    const struct bytes none = NONE;
    for (size_t which = 0; which < SMALL_NODES; which++) {
        struct fed_node fed = {.node = &small_nodes[which], .type = growing_file(&type->file)};
        fed.patch = patch_with(fed.type, none, fed.node->nodes);
        fed.given.count = wosthile_check(fed.patch.bytes, fed.patch.count, fed.given.bytes, ROOM).written;
        for (size_t slice = type->begin; fed.given.count > 0 && slice < type->end; slice++) {
            check_feed(&fed, &slices[slice]);
        }
    }
}

static size_t damaged, refused_with[WOSTHILE_FAULT_SLICE_MISPLACED + 1];

/* Feed says of a damaged slice what Admit says of it, and counts what Admit counts; nothing if it is refused. */
static void check_damaged(struct bytes type, const struct small_file *patch, const struct growing *slice)
{
    uint8_t output[ROOM], left[ROOM];
    wosthile_admitted seen = admit(type, growing_file(slice));
    wosthile_fed fed = wosthile_feed(patch->bytes, patch->count, slice->bytes, slice->count, output, ROOM, left, ROOM);
    bool accepted = seen.number == WOSTHILE_ACCEPTED && fed.number == WOSTHILE_ACCEPTED;
    bool right = accepted ? fed.arrived == seen.arrived && fed.sent == 2 * seen.arrived
                          : is_refusal(fed, seen.number) && seen.complete == 0 && seen.arrived == 0;
    count(right && seen.number <= WOSTHILE_FAULT_SLICE_MISPLACED, "damaged", type_name(type), slice->count);
    damaged++;
    refused_with[seen.number <= WOSTHILE_FAULT_SLICE_MISPLACED ? seen.number : 0]++;
}

/* The slice cut behind each byte, with a byte more, and with every byte of it changed, to a kind and to no kind. */
static void damage_slice(struct bytes type, const struct small_file *patch, const struct growing *slice)
{
    static const uint8_t bytes[] = {0, 1, 2, 3, 4, 5, 6, 7, 8, 9, 10, 200};
    for (size_t length = 2; length < slice->count; length++) {
        struct growing shorter = *slice;
        shorter.count = length;
        shorter.bytes[1] = (uint8_t)(length - 2);
        check_damaged(type, patch, &shorter);
    }
    for (size_t which = 0; which < sizeof bytes; which++) {
        struct growing longer = grown(slice, (struct bytes){&bytes[which], 1});
        check_damaged(type, patch, &longer);
        for (size_t place = 2; place < slice->count; place++) {
            struct growing changed = *slice;
            changed.bytes[place] = bytes[which];
            check_damaged(type, patch, &changed);
        }
    }
}

static void damage_slices(const struct found_type *type)
{
    const struct bytes both = RAW(4, 0, 0), none = NONE;
    struct bytes type_file = growing_file(&type->file);
    struct small_file patch = patch_with(type_file, none, both);
    for (size_t slice = type->begin; slice < type->end; slice++) {
        damage_slice(type_file, &patch, &slices[slice].file);
    }
}

/* Every kind of node was tried, and did to the arrivals all that it may do. */
static void check_nodes_met(void)
{
    bool kinds[NODE_KINDS] = {false};
    count(no_other_kind(), "kinds of nodes", "all are counted", NODE_KINDS);
    for (size_t which = 0; which < SMALL_NODES; which++) {
        const struct small_node *node = &small_nodes[which];
        kinds[node->nodes.at[0]] = true;
        count((sent_fewer[which] > 0) == (node->least == 0), "met or not", "fewer sent than arrived, node", which);
        count((sent_more[which] > 0) == (node->most > 1 || node->own > 0), "met or not", "more sent, node", which);
    }
    for (unsigned kind = 0; kind < NODE_KINDS; kind++) {
        count(kinds[kind], "never met", "a node of kind", kind);
    }
}

static void tell_what_was_met(void)
{
    count(types_found >= TYPES_LEAST, "types", "enough were found", types_found);
    printf("types of up to %d nodes: %zu; slices: %zu; with so many arrivals", NODES_MAX, types_found, slices_found);
    for (size_t arrivals = 0; arrivals <= ARRIVALS_MOST; arrivals++) {
        count(met[arrivals] > 0, "never met", "a slice with so many arrivals", arrivals);
        printf("%s %zu: %zu", arrivals > 0 ? "," : "", arrivals, met[arrivals]);
    }
    printf("; none, with a crossing or a choice: %zu; as many as leaves: %zu; joined: %zu\n", met_without, met_at_most,
           joins);
    count(met_without > 0 && met_at_most > 0 && joins > slices_found, "never met", "a slice", slices_found);
    printf("on types of up to %d nodes: %zu feeds of %d nodes, %zu cut in two; %zu slices damaged, refused with",
           FEW_NODES, feeds, SMALL_NODES, cuts, damaged);
    for (uint32_t number = WOSTHILE_FAULT_SLICE_CUT_SHORT; number <= WOSTHILE_FAULT_SLICE_MISPLACED; number++) {
        count(refused_with[number] > 0, "never met", "a damaged slice refused with", number);
        printf(" %u: %zu%s", number, refused_with[number], number < WOSTHILE_FAULT_SLICE_MISPLACED ? "," : "\n");
    }
}

int main(void)
{
    every_type(NODES_MAX, keep_type);
    for (size_t type = 0; type < types_found; type++) {
        check_type(&types[type]);
        if (nodes_of(&types[type]) <= FEW_NODES) {
            check_nodes(&types[type]);
            damage_slices(&types[type]);
        }
    }
    check_nodes_met();
    tell_what_was_met();
    printf("%d passed, %d failed\n", passed, failed);
    return failed != 0;
}
