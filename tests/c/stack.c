/*
 * How much stack the calls need. Each is made on a stack that was painted before, with the deepest files there are:
 * types of 127 forks, nested in the first parts or in the second, and slices that go all the way down; patches of 31
 * forks, nested likewise, that give types of 255 nodes, and for Feed have at their deepest node the deepest stream; and
 * patches of choose and chain, of which a slice chooses the nested side, the other one or none. Longest has types of
 * forks of one kind and of each in turn, nested on one side and on each in turn, above leaves of every kind. The most
 * that any call has used, beside an empty thread, is held to WOSTHILE_STACK_MAX.
 */
#define _XOPEN_SOURCE 700 /* for pthread_attr_setstack */
#include <pthread.h>
#include <stdio.h>
#include <stdlib.h>
#include <string.h>
#include <wosthile.h>

enum { STACK_BYTES = 1 << 20, PAINT = 0x5a, TYPE_FORKS = 127, NODE_FORKS = 31 };

struct file {
    uint8_t bytes[WOSTHILE_PATCH_FILE_MAX];
    size_t length;
};

/* The files of a call: a patch, and a slice for Feed; else a type, a slice of it, a slice of what the first leaves. */
struct files {
    struct file whole, first, second;
};

/* What is at a leaf of a tree; at most silent with the largest type. */
struct leaf {
    uint8_t bytes[WOSTHILE_TYPE_FILE_MAX];
    size_t length;
};

#define LEAF(...) ((struct leaf){{__VA_ARGS__}, sizeof((const uint8_t[]){__VA_ARGS__})})

/* The side on which the forks of a tree are one below the other. */
enum side { FIRST_PARTS, SECOND_PARTS };

static void put(struct file *file, int byte) { file->bytes[file->length++] = (uint8_t)byte; }

static void put_leaf(struct file *file, struct leaf leaf)
{
    for (size_t place = 0; place < leaf.length; place++) {
        put(file, leaf.bytes[place]);
    }
}

/* Begins a section and answers where its contents begin. */
static size_t begin(struct file *file)
{
    file->length += 2;
    return file->length;
}

static void end(struct file *file, size_t contents)
{
    size_t count = file->length - contents;
    file->bytes[contents - 2] = (uint8_t)(count / 256);
    file->bytes[contents - 1] = (uint8_t)(count % 256);
}

/* What comes before the deepest part of a tree: every fork, or each fork followed by its first leaf. */
static void put_above(struct file *file, int forks, int fork, struct leaf leaf, enum side side)
{
    for (int count = 0; count < forks; count++) {
        put(file, fork);
        if (side == SECOND_PARTS) {
            put_leaf(file, leaf);
        }
    }
}

/* What comes behind it: the leaves that are second parts. */
static void put_behind(struct file *file, int forks, struct leaf leaf, enum side side)
{
    for (int count = 0; count < forks && side == FIRST_PARTS; count++) {
        put_leaf(file, leaf);
    }
}

static void put_deep(struct file *file, int forks, int fork, struct leaf leaf, enum side side)
{
    put_above(file, forks, fork, leaf, side);
    put_leaf(file, leaf);
    put_behind(file, forks, leaf, side);
}

static void put_section(struct file *file, int forks, int fork, struct leaf leaf, enum side side)
{
    size_t contents = begin(file);
    put_deep(file, forks, fork, leaf, side);
    end(file, contents);
}

/* The last section of a patch, behind its nodes. */
static void put_totals(struct file *patch) { put_leaf(patch, LEAF(0, 8, 0, 0, 0, 0, 0, 0, 0, 0)); }

/* Side by side: nothing has come of any lane. */
static void make_lanes(struct files *files, enum side side)
{
    put_section(&files->whole, TYPE_FORKS, 4, LEAF(2), side);
    put_section(&files->first, TYPE_FORKS, 7, LEAF(3), side);
    files->second = files->first;
}

/* Sequences in first parts, of which nothing has come. */
static void make_first_parts(struct files *files)
{
    put_section(&files->whole, TYPE_FORKS, 3, LEAF(2), FIRST_PARTS);
    size_t contents = begin(&files->first);
    for (int count = 0; count < TYPE_FORKS; count++) {
        put(&files->first, 5);
    }
    put(&files->first, 3);
    end(&files->first, contents);
    files->second = files->first;
}

/* Sequences in second parts, all crossed; only the last leaf is awaited, and then comes. */
static void make_crossings(struct files *files)
{
    put_section(&files->whole, TYPE_FORKS, 3, LEAF(1), SECOND_PARTS);
    size_t contents = begin(&files->first);
    for (int count = 0; count < TYPE_FORKS; count++) {
        put(&files->first, 6);
        put(&files->first, 2);
    }
    put(&files->first, 1);
    end(&files->first, contents);
    put_section(&files->second, 0, 0, LEAF(2), FIRST_PARTS);
}

/* So many choices of the nested side. */
static void put_chosen(struct file *slice, int times, enum side side)
{
    for (int count = 0; count < times; count++) {
        put(slice, side == FIRST_PARTS ? 9 : 10);
    }
}

/* Eithers, all chosen at once, down to a leaf that is awaited. */
static void make_choices(struct files *files, enum side side)
{
    put_section(&files->whole, TYPE_FORKS, 5, LEAF(2), side);
    size_t contents = begin(&files->first);
    put_chosen(&files->first, TYPE_FORKS, side);
    put(&files->first, 3);
    end(&files->first, contents);
    put_section(&files->second, 0, 0, LEAF(3), FIRST_PARTS);
}

/* The same, none chosen at first; the second slice chooses all. */
static void make_late_choices(struct files *files, enum side side)
{
    make_choices(files, side);
    files->second = files->first;
    files->first.length = 0;
    put_section(&files->first, 0, 0, LEAF(8), FIRST_PARTS);
}

/* Chains of pass. The deepest node is spread, on a cue and then lanes, and gives 255 nodes; these go up through all. */
static void make_chains(struct file *patch, enum side side)
{
    size_t contents = begin(patch);
    put(patch, 3);
    put(patch, 1);
    put_deep(patch, TYPE_FORKS - 2, 4, LEAF(1), side);
    end(patch, contents);
    contents = begin(patch);
    put_deep(patch, NODE_FORKS, 10, LEAF(0), side);
    patch->bytes[side == SECOND_PARTS ? patch->length - 1 : contents + NODE_FORKS] = 13;
    end(patch, contents);
    put_totals(patch);
}

/* Pairs of silent nodes on a type of 255, each with a type of 7: together they give 31 forks and 32 times 7 nodes. */
static void make_pairs(struct file *patch, enum side side)
{
    put_section(patch, TYPE_FORKS, 4, LEAF(1), side);
    put_section(patch, NODE_FORKS, 4, LEAF(1, 4, 4, 0, 0, 4, 0, 0), side);
    put_totals(patch);
}

/* Then upon then, pass at the leaves, on sequences with a type of 7 at each leaf. */
static void make_thens(struct file *patch, enum side side)
{
    put_section(patch, NODE_FORKS, 3, LEAF(4, 4, 1, 1, 4, 1, 1), side);
    put_section(patch, NODE_FORKS, 9, LEAF(0), side);
    put_totals(patch);
}

/* A stream for Feed: sequences, lanes or eithers of cues, nested on one side; and the side on which nodes are nested.
 */
struct depth {
    int fork;
    enum side stream, nodes;
};

enum { DEPTHS = 12 };

static struct depth depth_of(int which)
{
    return (struct depth){3 + which / 4, which & 1 ? FIRST_PARTS : SECOND_PARTS,
                          which & 2 ? FIRST_PARTS : SECOND_PARTS};
}

static void put_type(struct file *file, int forks, struct depth depth)
{
    put_deep(file, forks, depth.fork, LEAF(1), depth.stream);
}

/* The slice in which all of that type has come; of eithers the nested side is chosen. */
static void put_complete(struct file *file, int forks, struct depth depth)
{
    if (depth.fork == 5) {
        put_chosen(file, forks, depth.stream);
        put(file, 2);
    } else {
        put_deep(file, forks, depth.fork == 3 ? 6 : 7, LEAF(2), depth.stream);
    }
}

/* The end of a patch: forks of one kind above one node, with other leaves beside it; then the totals. */
static void put_nodes(struct file *patch, int fork, struct leaf leaf, struct leaf deepest, enum side side)
{
    size_t contents = begin(patch);
    put_above(patch, NODE_FORKS, fork, leaf, side);
    put_leaf(patch, deepest);
    put_behind(patch, NODE_FORKS, leaf, side);
    end(patch, contents);
    put_totals(patch);
}

/* The empty slice of that type. */
static void put_empty(struct file *file, int forks, struct depth depth)
{
    if (depth.fork == 4) {
        put_deep(file, forks, 7, LEAF(1), depth.stream);
        return;
    }
    for (int count = 0; depth.fork == 3 && count < (depth.stream == FIRST_PARTS ? forks : 1); count++) {
        put(file, 5);
    }
    put(file, depth.fork == 3 ? 1 : 8);
}

/* The deepest of the nodes is fed the largest stream there is, through chains of pass. */
static void make_fed(struct files *files, struct leaf node, void (*put_slice)(struct file *, int, struct depth),
                     struct depth depth)
{
    size_t contents = begin(&files->whole);
    put_type(&files->whole, TYPE_FORKS, depth);
    end(&files->whole, contents);
    put_nodes(&files->whole, 10, LEAF(0), node, depth.nodes);
    contents = begin(&files->first);
    put_slice(&files->first, TYPE_FORKS, depth);
    end(&files->first, contents);
}

static void make_passing(struct files *files, struct depth depth) { make_fed(files, LEAF(0), put_complete, depth); }

/* A cue and a level judge the whole slice: of the empty one all of it has to be seen. */
static void make_cue_awaited(struct files *files, struct depth depth) { make_fed(files, LEAF(2), put_empty, depth); }

static void make_level_awaited(struct files *files, struct depth depth)
{
    make_fed(files, LEAF(3, 1, 44), put_empty, depth);
}

static void make_level_sent(struct files *files, struct depth depth)
{
    make_fed(files, LEAF(3, 1, 44), put_complete, depth);
}

/* A cue, and then so large a stream, of which the deepest node sends the empty slice: second, on 5. */
static void make_waiting(struct files *files, int fork, int forks, struct leaf leaf, struct depth depth)
{
    size_t contents = begin(&files->whole);
    put_leaf(&files->whole, LEAF(3, 1));
    put_type(&files->whole, forks, depth);
    end(&files->whole, contents);
    put_nodes(&files->whole, fork, leaf, LEAF(8), depth.nodes);
    put_section(&files->first, 0, 0, LEAF(5, 1), FIRST_PARTS);
}

static void make_waiting_in_chains(struct files *files, struct depth depth)
{
    make_waiting(files, 10, TYPE_FORKS - 1, LEAF(0), depth);
}

/* Pairs, whose other nodes give a cue each. */
static void make_waiting_in_pairs(struct files *files, struct depth depth)
{
    make_waiting(files, 4, TYPE_FORKS - NODE_FORKS, LEAF(2), depth);
}

/* A large stream and then a cue, which is crossed: the deepest node, first, leaves silent with what is left of it. */
static void make_crossing_in_chains(struct files *files, struct depth depth)
{
    size_t contents = begin(&files->whole);
    put(&files->whole, 3);
    put_type(&files->whole, TYPE_FORKS - 1, depth);
    put(&files->whole, 1);
    end(&files->whole, contents);
    put_nodes(&files->whole, 10, LEAF(0), LEAF(7), depth.nodes);
    contents = begin(&files->first);
    put(&files->first, 6);
    put_complete(&files->first, TYPE_FORKS - 1, depth);
    put(&files->first, 1);
    end(&files->first, contents);
}

/* A cue, and then a large stream beside a cue, all of which comes at once: the deepest node is spread. */
static void make_spreading_in_chains(struct files *files, struct depth depth)
{
    size_t contents = begin(&files->whole);
    put_leaf(&files->whole, LEAF(3, 1, 4));
    put_type(&files->whole, TYPE_FORKS - 3, depth);
    put(&files->whole, 1);
    end(&files->whole, contents);
    put_nodes(&files->whole, 10, LEAF(0), LEAF(13), depth.nodes);
    contents = begin(&files->first);
    put_leaf(&files->first, LEAF(6, 2, 7));
    put_complete(&files->first, TYPE_FORKS - 3, depth);
    put(&files->first, 2);
    end(&files->first, contents);
}

/* Then upon then, down to second, which waits; those nested in second parts are all crossed. */
static void make_waiting_in_thens(struct files *files, struct depth depth)
{
    size_t contents = begin(&files->whole);
    put_above(&files->whole, NODE_FORKS, 3, LEAF(1), depth.nodes);
    put_leaf(&files->whole, LEAF(3, 1));
    put_type(&files->whole, TYPE_FORKS - NODE_FORKS - 1, depth);
    put_behind(&files->whole, NODE_FORKS, LEAF(1), depth.nodes);
    end(&files->whole, contents);
    put_nodes(&files->whole, 9, LEAF(0), LEAF(8), depth.nodes);
    contents = begin(&files->first);
    put_above(&files->first, NODE_FORKS, depth.nodes == SECOND_PARTS ? 6 : 5, LEAF(2), depth.nodes);
    put_leaf(&files->first, LEAF(5, 1));
    end(&files->first, contents);
}

/* A node that carries a type. */
static struct leaf carrying(int node, int forks, int fork, struct leaf leaf, enum side side)
{
    struct file made = {{0}, 0};
    struct leaf carrying;
    put(&made, node);
    put_deep(&made, forks, fork, leaf, side);
    memcpy(carrying.bytes, made.bytes, made.length);
    carrying.length = made.length;
    return carrying;
}

/* Silent with a type of 255 nodes, nested as the stream is. */
static struct leaf large_silent(struct depth depth) { return carrying(1, TYPE_FORKS, 4, LEAF(0), depth.stream); }

/* The largest patch file: every leaf is silent with a type of 255 nodes. */
static void make_silents(struct files *files, struct depth depth)
{
    struct depth lanes = {4, depth.stream, depth.nodes};
    struct leaf silent = large_silent(depth);
    size_t contents = begin(&files->whole);
    put_type(&files->whole, TYPE_FORKS, lanes);
    end(&files->whole, contents);
    put_nodes(&files->whole, 10, silent, silent, depth.nodes);
    contents = begin(&files->first);
    put_complete(&files->first, TYPE_FORKS, lanes);
    end(&files->first, contents);
}

/* Calls of Feed, each made for every depth. */
static void (*const feeds[])(struct files *, struct depth) = {
    make_passing,       make_waiting_in_chains,  make_waiting_in_pairs,    make_waiting_in_thens,
    make_silents,       make_crossing_in_chains, make_spreading_in_chains, make_cue_awaited,
    make_level_awaited, make_level_sent,
};

/* How choose and chain are nested above the deepest node. */
enum nest { CHOICES, CHOICES_ABOVE_CHAINS, CHAINS_ABOVE_CHOICES, CHOICES_BETWEEN_CHAINS, NESTS };

/* What gives the output: silent nodes with the largest type, or marks that hand the choice of the deepest stream on. */
enum outputs { SILENTS, MARKS, OUTPUTS };

/* A slice chooses the nested side everywhere; or so often as its way says, and then none or the other side. */
enum { WAYS = 7, ALL_THE_WAY = WAYS - 1 };

struct choosing {
    enum nest nest;
    enum outputs outputs;
    int way;
};

static int is_choice(enum nest nest, int level)
{
    switch (nest) {
    case CHOICES_ABOVE_CHAINS:
        return level < NODE_FORKS / 2;
    case CHAINS_ABOVE_CHOICES:
        return level >= NODE_FORKS / 2;
    case CHOICES_BETWEEN_CHAINS:
        return level % 2 == 0;
    default:
        return 1;
    }
}

static int choices_in(enum nest nest)
{
    int choices = 0;
    for (int level = 0; level < NODE_FORKS; level++) {
        choices += is_choice(nest, level);
    }
    return choices;
}

/* The nodes and the totals: beside is the other node of every choose, and pass that of every chain. */
static void put_choosing_nodes(struct file *patch, enum nest nest, struct leaf beside, struct leaf deepest,
                               enum side side)
{
    size_t contents = begin(patch);
    for (int level = 0; level < NODE_FORKS; level++) {
        put_above(patch, 1, is_choice(nest, level) ? 15 : 10, is_choice(nest, level) ? beside : LEAF(0), side);
    }
    put_leaf(patch, deepest);
    for (int level = NODE_FORKS - 1; level >= 0; level--) {
        put_behind(patch, 1, is_choice(nest, level) ? beside : LEAF(0), side);
    }
    end(patch, contents);
    put_totals(patch);
}

/* The slice of so many eithers with a stream below. */
static void put_choosing_slice(struct file *slice, int choices, int way, struct depth depth)
{
    size_t contents = begin(slice);
    put_chosen(slice, way == ALL_THE_WAY ? choices : (choices - 1) * (way / 2) / 2, depth.nodes);
    if (way == ALL_THE_WAY) {
        put_complete(slice, TYPE_FORKS - choices, depth);
    } else if (way % 2 == 0) {
        put(slice, 8);
    } else {
        put_leaf(slice, depth.nodes == FIRST_PARTS ? LEAF(10, 1) : LEAF(9, 1));
    }
    end(slice, contents);
}

/* Eithers, each of a cue and the next; in the deepest one is a stream of as many forks as there is room for. */
static void make_choosing(struct files *files, struct choosing choosing, struct depth depth)
{
    int choices = choices_in(choosing.nest), forks = TYPE_FORKS - choices;
    size_t contents = begin(&files->whole);
    put_above(&files->whole, choices, 5, LEAF(1), depth.nodes);
    put_type(&files->whole, forks, depth);
    put_behind(&files->whole, choices, LEAF(1), depth.nodes);
    end(&files->whole, contents);
    if (choosing.outputs == SILENTS) {
        put_choosing_nodes(&files->whole, choosing.nest, large_silent(depth), large_silent(depth), depth.nodes);
    } else {
        struct leaf mark = carrying(16, forks, depth.fork, LEAF(1), depth.stream);
        put_choosing_nodes(&files->whole, choosing.nest, mark, LEAF(17, 1), depth.nodes);
    }
    put_choosing_slice(&files->first, choices, choosing.way, depth);
}

/* A type for Longest. Its forks are sequences, lanes or eithers, nested on one side; or each of these in turn. */
struct type_nest {
    int forks, sides, leaf;
};

enum { FORK_KINDS = 3, FORKS_IN_TURN = FORK_KINDS, SIDES_IN_TURN = 2, LEAF_KINDS = 3 };
enum { TYPE_NESTS = (FORKS_IN_TURN + 1) * (SIDES_IN_TURN + 1) * LEAF_KINDS };

static struct type_nest type_nest_of(int which)
{
    return (struct type_nest){which / LEAF_KINDS / (SIDES_IN_TURN + 1), which / LEAF_KINDS % (SIDES_IN_TURN + 1),
                              which % LEAF_KINDS};
}

static void make_type_nest(struct file *type, struct type_nest nest)
{
    struct leaf leaf = LEAF((uint8_t)nest.leaf);
    size_t contents = begin(type);
    for (int level = 0; level < TYPE_FORKS; level++) {
        int fork = 3 + (nest.forks == FORKS_IN_TURN ? level % FORK_KINDS : nest.forks);
        put_above(type, 1, fork, leaf, nest.sides == SIDES_IN_TURN ? level % 2 : nest.sides);
    }
    put_leaf(type, leaf);
    for (int level = TYPE_FORKS - 1; level >= 0; level--) {
        put_behind(type, 1, leaf, nest.sides == SIDES_IN_TURN ? level % 2 : nest.sides);
    }
    end(type, contents);
}

enum operation { NOTHING, CHECK, ADMIT, LEFT, JOIN, FEED, LONGEST };

struct call {
    const struct files *files;
    enum operation operation;
    uint32_t number;
};

static uint8_t answer[WOSTHILE_SLICE_FILE_MAX], patch_left[WOSTHILE_PATCH_FILE_MAX];

static void *make(void *word)
{
    struct call *call = word;
    const struct file *whole = &call->files->whole, *first = &call->files->first, *second = &call->files->second;
    switch (call->operation) {
    case CHECK:
        call->number = wosthile_check(whole->bytes, whole->length, answer, sizeof answer).number;
        break;
    case ADMIT:
        call->number = wosthile_admit(whole->bytes, whole->length, first->bytes, first->length).number;
        break;
    case LEFT:
        call->number =
            wosthile_left(whole->bytes, whole->length, first->bytes, first->length, answer, sizeof answer).number;
        break;
    case JOIN:
        call->number = wosthile_join(whole->bytes, whole->length, first->bytes, first->length, second->bytes,
                                     second->length, answer, sizeof answer)
                           .number;
        break;
    case FEED:
        call->number = wosthile_feed(whole->bytes, whole->length, first->bytes, first->length, answer, sizeof answer,
                                     patch_left, sizeof patch_left)
                           .number;
        break;
    case LONGEST:
        call->number = wosthile_longest(whole->bytes, whole->length, answer, sizeof answer).number;
        break;
    default:
        call->number = 0;
    }
    return NULL;
}

/* The bytes of stack that a thread has used which makes this one call; the call has to be accepted. */
static size_t used(const struct files *files, enum operation operation)
{
    struct call call = {files, operation, 0};
    uint8_t *stack = aligned_alloc(4096, STACK_BYTES);
    pthread_attr_t attributes;
    pthread_t thread;
    size_t unused = 0;
    if (stack == NULL) {
        abort();
    }
    memset(stack, PAINT, STACK_BYTES);
    if (pthread_attr_init(&attributes) || pthread_attr_setstack(&attributes, stack, STACK_BYTES) ||
        pthread_create(&thread, &attributes, make, &call) || pthread_join(thread, NULL) || call.number != 0) {
        fprintf(stderr, "operation %d: no thread, or refused with %u\n", operation, call.number);
        exit(1);
    }
    pthread_attr_destroy(&attributes);
    while (unused < STACK_BYTES && stack[unused] == PAINT) {
        unused++;
    }
    free(stack);
    return STACK_BYTES - unused;
}

/* The most that the operation uses on any of the files, beside an empty thread. */
static size_t most(enum operation operation, const struct files *files, size_t number)
{
    size_t empty = used(files, NOTHING), greatest = 0;
    for (size_t call = 0; call < number; call++) {
        size_t need = used(&files[call], operation) - empty;
        greatest = need > greatest ? need : greatest;
    }
    return greatest;
}

/* The most that Feed uses on any of its patches, at any depth. */
static size_t most_of_feed(void)
{
    static struct files files;
    size_t greatest = 0;
    for (size_t feed = 0; feed < sizeof feeds / sizeof feeds[0]; feed++) {
        for (int which = 0; which < DEPTHS; which++) {
            files = (struct files){0};
            feeds[feed](&files, depth_of(which));
            size_t need = most(FEED, &files, 1);
            greatest = need > greatest ? need : greatest;
        }
    }
    return greatest;
}

/* The most that Check or Feed uses on any of the patches of choose and chain, at any depth and for any slice. */
static size_t most_of_choosing(enum operation operation)
{
    static struct files files;
    size_t greatest = 0;
    for (int which = 0; which < NESTS * OUTPUTS * WAYS * DEPTHS; which++) {
        int nest = which / (OUTPUTS * WAYS * DEPTHS), outputs = which / (WAYS * DEPTHS) % OUTPUTS;
        struct choosing choosing = {nest, outputs, which / DEPTHS % WAYS};
        files = (struct files){0};
        make_choosing(&files, choosing, depth_of(which % DEPTHS));
        size_t need = most(operation, &files, 1);
        greatest = need > greatest ? need : greatest;
    }
    return greatest;
}

/* The most that Longest uses on any of its types. */
static size_t most_of_longest(void)
{
    static struct files files;
    size_t greatest = 0;
    for (int which = 0; which < TYPE_NESTS; which++) {
        files = (struct files){0};
        make_type_nest(&files.whole, type_nest_of(which));
        size_t need = most(LONGEST, &files, 1);
        greatest = need > greatest ? need : greatest;
    }
    return greatest;
}

enum { STREAMS = 8, PATCHES = 6 };

static size_t need_of(enum operation operation, const struct files *streams, const struct files *patches)
{
    if (operation == LONGEST) {
        return most_of_longest();
    }
    if (operation != CHECK && operation != FEED) {
        return most(operation, streams, STREAMS);
    }
    size_t others = operation == CHECK ? most(operation, patches, PATCHES) : most_of_feed();
    size_t choosing = most_of_choosing(operation);
    return choosing > others ? choosing : others;
}

int main(void)
{
    static struct files streams[STREAMS], patches[PATCHES];
    static const char *const names[] = {"", "Check", "Admit", "Left", "Join", "Feed", "Longest"};
    int fits = 1;
    make_lanes(&streams[0], FIRST_PARTS);
    make_lanes(&streams[1], SECOND_PARTS);
    make_first_parts(&streams[2]);
    make_crossings(&streams[3]);
    for (int side = FIRST_PARTS; side <= SECOND_PARTS; side++) {
        make_choices(&streams[4 + side], side);
        make_late_choices(&streams[6 + side], side);
        make_chains(&patches[side].whole, side);
        make_pairs(&patches[2 + side].whole, side);
        make_thens(&patches[4 + side].whole, side);
    }
    for (int operation = CHECK; operation <= LONGEST; operation++) {
        size_t need = need_of(operation, streams, patches);
        printf("stack of %s: %zu bytes at most, %d stated\n", names[operation], need, WOSTHILE_STACK_MAX);
        fits = fits && need <= WOSTHILE_STACK_MAX;
    }
    return fits ? 0 : 1;
}
