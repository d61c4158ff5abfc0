/*
 * The totals of a patch (M-105) on every type of a few nodes and every slice of it, which are found by asking the
 * library, through a few nodes of each kind.
 *
 * The totals left are those at the start and the arrivals of the slice fed and of the slice sent; beside them nothing
 * depends on the totals. Feed refuses with 31 exactly if one of the sums is too large. A slice cut in two and in three,
 * in every way: Feed accepts it whole exactly if it accepts every piece, and then the patch left is the same, byte for
 * byte, and the outputs joined are the output of the whole.
 */
#include "found_types.h"
#include "small_feeds.h"
#include "small_nodes.h"

enum { FEW_NODES = 5, PIECES_MAX = 3, TYPES_LEAST = 300 };

/* Nodes on a type, as a patch that was never fed, with the type that it gives. */
struct fed_node {
    struct bytes type;
    struct small_file patch, given;
    uint8_t kind;
};

static struct answer feed_from(const struct fed_node *fed, struct counts start, struct bytes slice)
{
    struct small_file patch = counted(fed->patch, start);
    return feed(file_at(&patch), slice);
}

/* The greatest totals from which so much can come and be sent. */
static struct counts room_for(struct counts counts)
{
    return (struct counts){WOSTHILE_TOTAL_MAX - counts.arrived, WOSTHILE_TOTAL_MAX - counts.sent};
}

static bool fits(struct counts start, struct counts counts)
{
    struct counts greatest = room_for(counts);
    return start.arrived <= greatest.arrived && start.sent <= greatest.sent;
}

/* Totals to start from: none, some, full, and those from which a feed with these counts is just accepted or not. */
enum { NO_TOTALS, SOME_TOTALS, FULL_TOTALS, JUST_FITS, ONE_ARRIVED_MORE, ONE_SENT_MORE, STARTS };

static struct counts start_of(int start, struct counts counts)
{
    const struct counts some = COUNTS(0x00fffffe, 0x7fffffff), full = COUNTS(WOSTHILE_TOTAL_MAX, WOSTHILE_TOTAL_MAX);
    struct counts greatest = room_for(counts);
    switch (start) {
    case NO_TOTALS:
        return nothing_counted;
    case SOME_TOTALS:
        return some;
    case FULL_TOTALS:
        return full;
    case ONE_ARRIVED_MORE:
        greatest.arrived += counts.arrived > 0;
        return greatest;
    case ONE_SENT_MORE:
        greatest.sent += counts.sent > 0;
        return greatest;
    default:
        return greatest;
    }
}

static size_t feeds, accepted_from[STARTS], refused_from[STARTS];

/* One feed from all of these totals; without room for its answer it is refused with 31 too, or with 20. */
static void check_feed(const struct fed_node *fed, const struct found_slice *slice)
{
    struct bytes file = growing_file(&slice->file);
    struct answer plain = feed(file_at(&fed->patch), file);
    const struct counts due = {slice->seen.arrived, arrivals_in(file_at(&plain.output))};
    bool right = plain.number == WOSTHILE_ACCEPTED && same_counts(plain.counts, due);
    for (int start = 0; right && start < STARTS; start++, feeds++) {
        struct counts totals = start_of(start, due);
        struct small_file patch = counted(fed->patch, totals), left = counted(plain.left, sum_of(totals, due));
        struct answer answer = feed_from(fed, totals, file);
        bool accepted = fits(totals, due);
        wosthile_fed no_room = wosthile_feed(patch.bytes, patch.count, file.at, file.count, NULL, 0, NULL, 0);
        right = is_refusal(no_room, accepted ? WOSTHILE_FAULT_NO_ROOM : WOSTHILE_FAULT_TOTAL_TOO_LARGE);
        right = right && answer.number == (accepted ? WOSTHILE_ACCEPTED : WOSTHILE_FAULT_TOTAL_TOO_LARGE);
        right = right && (!accepted || (same(file_at(&answer.output), file_at(&plain.output)) &&
                                        same(file_at(&answer.left), file_at(&left)) &&
                                        same_counts(totals_in(file_at(&answer.left)), sum_of(totals, due))));
        (accepted ? accepted_from : refused_from)[start]++;
    }
    count(right, "Feed", type_name(fed->type), fed->kind);
}

/* A slice in pieces: each is one of what those before it leave. */
struct cut {
    const struct fed_node *fed;
    struct bytes pieces[PIECES_MAX];
    size_t number;
};

static size_t cuts[PIECES_MAX + 1], refused_piece[PIECES_MAX];

/* The pieces one after the other, up to the first that is refused, with all that they send as one slice. */
static struct answer feed_pieces(const struct cut *cut, struct counts start)
{
    struct answer answer = {.left = counted(cut->fed->patch, start)};
    struct small_file sent = {.count = 0};
    for (size_t piece = 0; piece < cut->number && answer.number == WOSTHILE_ACCEPTED; piece++) {
        answer = feed(file_at(&answer.left), cut->pieces[piece]);
        sent = piece == 0 ? answer.output : joined(file_at(&cut->fed->given), file_at(&sent), file_at(&answer.output));
        refused_piece[piece] += answer.number != WOSTHILE_ACCEPTED;
    }
    answer.output = sent;
    return answer;
}

/* The pieces and the whole, from all of these totals. */
static void check_cut(const struct cut *cut, const struct small_file *whole)
{
    const struct fed_node *fed = cut->fed;
    struct counts counts = feed(file_at(&fed->patch), file_at(whole)).counts;
    bool right = whole->count > 0;
    for (int start = 0; right && start < STARTS; start++) {
        struct counts totals = start_of(start, counts);
        struct answer as_one = feed_from(fed, totals, file_at(whole)), in_pieces = feed_pieces(cut, totals);
        bool accepted = fits(totals, counts);
        right = as_one.number == (accepted ? WOSTHILE_ACCEPTED : WOSTHILE_FAULT_TOTAL_TOO_LARGE);
        right = right && in_pieces.number == as_one.number;
        right = right && (!accepted || (same(file_at(&as_one.left), file_at(&in_pieces.left)) &&
                                        same(file_at(&as_one.output), file_at(&in_pieces.output))));
    }
    cuts[cut->number]++;
    count(right, "cut", type_name(fed->type), 100 * cut->number + fed->kind);
}

/* Every slice of what the pieces leave, as the next of them. */
static void cut_further(const struct cut *cut, const struct small_file *whole)
{
    struct small_file type_left = left_of(cut->fed->type, file_at(whole));
    const struct found_type *left = found(file_at(&type_left));
    for (size_t slice = left->begin; slice < left->end; slice++) {
        struct cut longer = *cut;
        longer.pieces[longer.number++] = growing_file(&slices[slice].file);
        struct small_file all = joined(cut->fed->type, file_at(whole), growing_file(&slices[slice].file));
        check_cut(&longer, &all);
        if (longer.number < PIECES_MAX) {
            cut_further(&longer, &all);
        }
    }
}

static void check_slice(const struct fed_node *fed, const struct found_slice *slice)
{
    struct cut cut = {.fed = fed, .pieces = {growing_file(&slice->file)}, .number = 1};
    struct small_file whole = {.count = slice->file.count};
    append(whole.bytes, growing_file(&slice->file));
    check_feed(fed, slice);
    cut_further(&cut, &whole);
}

static bool kinds_met[NODE_KINDS];

static void check_nodes(const struct found_type *type)
{
    const struct bytes none = NONE;
    for (size_t which = 0; which < SMALL_NODES; which++) {
        struct bytes nodes = small_nodes[which].nodes;
        struct fed_node fed = {.type = growing_file(&type->file), .kind = nodes.at[0]};
        fed.patch = patch_with(fed.type, none, nodes);
        fed.given.count = wosthile_check(fed.patch.bytes, fed.patch.count, fed.given.bytes, ROOM).written;
        for (size_t slice = type->begin; fed.given.count > 0 && slice < type->end; slice++) {
            check_slice(&fed, &slices[slice]);
            kinds_met[fed.kind] = true;
        }
    }
}

static void tell_what_was_met(void)
{
    count(types_found >= TYPES_LEAST, "types", "enough were found", types_found);
    count(no_other_kind(), "kinds of nodes", "all are counted", NODE_KINDS);
    for (unsigned kind = 0; kind < NODE_KINDS; kind++) {
        count(kinds_met[kind], "never met", "a node of kind", kind);
    }
    printf("types of up to %d nodes: %zu; feeds of %d nodes from totals: %zu; slices cut in two: %zu, in three: %zu\n",
           FEW_NODES, types_found, SMALL_NODES, feeds, cuts[2], cuts[3]);
    for (int start = 0; start < STARTS; start++) {
        count(accepted_from[start] > 0, "never met", "accepted from totals", (size_t)start);
        count((refused_from[start] > 0) == (start != NO_TOTALS && start != SOME_TOTALS && start != JUST_FITS),
              "met or not", "refused from totals", (size_t)start);
    }
    printf("refused with 31 by the first, the second and the third piece:");
    for (size_t piece = 0; piece < PIECES_MAX; piece++) {
        count(refused_piece[piece] > 0, "never met", "a piece refused", piece);
        printf(" %zu%s", refused_piece[piece], piece + 1 < PIECES_MAX ? "," : "\n");
    }
}

int main(void)
{
    every_type(FEW_NODES, keep_type);
    for (size_t type = 0; type < types_found; type++) {
        check_nodes(&types[type]);
    }
    tell_what_was_met();
    printf("%d passed, %d failed\n", passed, failed);
    return failed != 0;
}
