/*
 * The places of faults. Random files are grown byte by byte, so that the library accepts them, and damaged. What can be
 * said for sure of the place of a fault is tried:
 *
 *   - while reading, one byte less and the library asks for more; other bytes behind the place change nothing; with a
 *     byte that is due in its place the fault is gone or comes later; and it is never before the byte that was damaged;
 *   - at a node, nothing is wrong before it or in its parts; with a node in its place that takes everything, the fault
 *     is gone or comes later;
 *   - in the totals of a patch, every count with every number of bytes behind it has its number and its place.
 *
 * The files are made with the tables of kinds, so these are tried first, by kinds.c.
 */
#include "made.h"

enum { TRIALS = 1500 };

/* What a section holds; nodes have totals of zero behind them, and the others nothing. */
enum tree { TYPE, SLICE, NODES, TOTALS };

/* A file with the section that is tried. */
struct subject {
    enum tree tree;
    struct file type; /* that a slice is of */
    size_t begins;    /* the count of the section */
    struct made file;
};

static bool is_patch(const struct subject *subject) { return subject->tree == NODES || subject->tree == TOTALS; }

/* How many bytes the count of the section says. */
static size_t section_length(const struct subject *subject)
{
    return subject->file.bytes[subject->begins] * 256u + subject->file.bytes[subject->begins + 1];
}

static uint32_t number_of(const struct subject *subject)
{
    struct file file = file_of(&subject->file);
    return subject->tree == TYPE    ? type_number(file)
           : subject->tree == SLICE ? slice_number(subject->type, file)
                                    : patch_number(file);
}

static struct fault fault_of(const struct subject *subject, struct patch_tree *tree)
{
    struct file file = file_of(&subject->file);
    return subject->tree == TYPE    ? type_fault(file)
           : subject->tree == SLICE ? slice_fault(subject->type, file)
                                    : patch_fault(file, tree);
}

static struct byte_set due_of(const struct subject *subject, struct fault fault)
{
    struct file file = file_of(&subject->file);
    return subject->tree == TYPE    ? type_due(file, fault)
           : subject->tree == SLICE ? slice_due(subject->type, file, fault)
                                    : patch_due(file, fault);
}

/* Ends the file behind so many bytes of a section, and writes the count anew; behind nodes totals of zero follow. */
static void cut_at(struct subject *subject, size_t begins, size_t length)
{
    subject->file.bytes[begins] = (uint8_t)(length / 256);
    subject->file.bytes[begins + 1] = (uint8_t)(length % 256);
    subject->file.length = begins + 2 + length;
    if (subject->tree == NODES) {
        put_zero_totals(&subject->file);
    }
}

/* Does a tree have a row for the kind, and does the row have parts? */
static bool kind_has_row(enum tree tree, uint8_t kind, bool *parts)
{
    *parts = (tree == TYPE    ? type_kind(kind)->parts
              : tree == SLICE ? slice_kind(kind)->parts
                              : node_kind(kind)->parts) > 0;
    return is_listed(tree == TYPE    ? type_kind(kind)->name
                     : tree == SLICE ? slice_kind(kind)->name
                                     : node_kind(kind)->name);
}

/* A random listed kind; there are many kinds of nodes without parts, so that most of these are drawn again. */
static uint8_t draw_kind(enum tree tree)
{
    bool parts = false, taken = false;
    uint8_t kind = 0;
    while (!taken) {
        kind = (uint8_t)draw(32);
        taken = kind_has_row(tree, kind, &parts) && (tree != NODES || parts || draw(8) < 3);
    }
    return kind;
}

static bool is_left_over(uint32_t number)
{
    return number == WOSTHILE_FAULT_LEFT_OVER || number == WOSTHILE_FAULT_SLICE_LEFT_OVER;
}

/* Appends a random byte that the library does not refuse; the answer is the number of the file that ends with it. */
static uint32_t append_byte(struct subject *subject)
{
    size_t length = section_length(subject);
    uint32_t number;
    do {
        subject->file.bytes[subject->begins + 2 + length] = draw_kind(subject->tree);
        cut_at(subject, subject->begins, length + 1);
        number = number_of(subject);
    } while (is_refused_kind(number));
    return number;
}

/* Grows a section until its tree is whole; what grows too long begins again. The answer is its number. */
static uint32_t grow(struct subject *subject)
{
    enum { LONGEST = 60 };
    uint32_t number;
    cut_at(subject, subject->begins, 0);
    do {
        if (section_length(subject) > LONGEST) {
            cut_at(subject, subject->begins, 0);
        }
        number = append_byte(subject);
    } while (is_cut_short(number));
    return number;
}

/*
 * The fault is gone, or is found later; a fault at a node comes after all reading. A tree that becomes too large does
 * so with the very byte that was put in.
 */
static bool is_later(struct fault now, struct fault before)
{
    bool too_large = now.number == WOSTHILE_FAULT_TYPE_TOO_LARGE || now.number == WOSTHILE_FAULT_TOO_MANY_NODES;
    return now.number == WOSTHILE_ACCEPTED || now.at == AT_NODE || now.byte > before.byte ||
           (too_large && now.byte == before.byte);
}

/* The tree in a section of a patch. */
static const enum tree section_trees[SECTIONS] = {TYPE, NODES, TOTALS};

/* One byte less: the library asks for more, or has a whole tree and nothing left over. */
static void try_shorter(struct subject subject, struct fault fault)
{
    struct file whole = file_of(&subject.file);
    struct subject shorter = subject;
    if (is_patch(&subject)) {
        shorter.tree = section_trees[fault.section];
    }
    cut_at(&shorter, fault.begins, fault.byte - fault.begins - 2);
    uint32_t number = number_of(&shorter);
    expect(number != fault.number, "a shorter cut gives the number too", whole);
    expect(is_cut_short(number) != is_left_over(fault.number), "a shorter cut has another fault", whole);
}

/* Whatever follows in the section, the fault stays where it is. */
static void try_other_bytes_behind(struct subject subject, struct fault fault, struct patch_tree *tree)
{
    struct file whole = file_of(&subject.file);
    struct file rest = {whole.bytes + fault.begins, whole.length - fault.begins};
    for (size_t byte = fault.byte + 1; byte < fault.begins + 2 + section_of(rest).length; byte++) {
        subject.file.bytes[byte] = (uint8_t)draw(256);
    }
    struct fault now = fault_of(&subject, tree);
    expect(now.number == fault.number && now.byte == fault.byte && now.at == fault.at, "bytes behind a fault change it",
           whole);
}

/* With a byte that is due there, in place of the one that is refused or behind the section's end, the fault moves on.
 */
static void try_due(struct subject subject, struct fault fault, struct patch_tree *tree)
{
    struct file whole = file_of(&subject.file);
    struct byte_set due = due_of(&subject, fault);
    unsigned byte = draw(256), tried = 0;
    while (!due.has[byte] && tried++ < 256) {
        byte = (byte + 1) % 256;
    }
    expect(due.has[byte], "nothing is due at a fault", whole);
    expect(fault.at == AT_SECTION_END || !due.has[whole.bytes[fault.byte]], "a refused byte is due", whole);
    if (fault.at == AT_SECTION_END) {
        memmove(subject.file.bytes + fault.byte + 1, subject.file.bytes + fault.byte, whole.length - fault.byte);
        subject.file.length++;
        size_t count = fault.byte + 1 - fault.begins - 2;
        subject.file.bytes[fault.begins] = (uint8_t)(count / 256);
        subject.file.bytes[fault.begins + 1] = (uint8_t)(count % 256);
    }
    subject.file.bytes[fault.byte] = (uint8_t)byte;
    expect(is_later(fault_of(&subject, tree), fault), "a due byte does not help", file_of(&subject.file));
}

/* What the library takes at the fault of a slice are slices of the very node of the type that the byte belongs to. */
static void try_slice_node(const struct subject *subject, struct fault fault)
{
    struct file whole = file_of(&subject->file);
    struct byte_set due = slice_due(subject->type, whole, fault);
    size_t node = 0;
    bool found = slice_byte_node(subject->type, whole, fault.byte, &node), value = due.has[0] && due.has[255];
    expect(found, "the byte of a fault belongs to no node", whole);
    uint8_t type = found ? subject->type.bytes[2 + node] : 0;
    expect(!value || type == WOSTHILE_TYPE_LEVEL, "a value of what is no level", whole);
    for (unsigned kind = 0; kind < 256 && !value; kind++) {
        expect(!due.has[kind] || slice_kind((uint8_t)kind)->of == type, "due is a slice of another node", whole);
    }
}

/* The front of the section that has the fault; of a patch that is read whole, that of its totals. */
static size_t front_of(const struct subject *subject, struct fault fault)
{
    struct file file = file_of(&subject->file);
    bool is_read = fault.number == WOSTHILE_ACCEPTED || fault.at == AT_NODE;
    enum section section = is_patch(subject) && is_read ? TOTALS_SECTION : fault.section;
    if (subject->tree == SLICE) {
        return slice_front(subject->type, file);
    }
    return section == TOTALS_SECTION  ? totals_front(file)
           : section == NODES_SECTION ? nodes_front(file)
                                      : type_front(file);
}

/* The front that is read without a fault ends where the fault is, or with the section. */
static void try_front(const struct subject *subject, struct fault fault)
{
    struct file file = file_of(&subject->file);
    size_t front = front_of(subject, fault);
    bool at_place = fault.at == AT_BYTE || fault.at == AT_SECTION_END || fault.at == AT_BEHIND;
    if (fault.number == WOSTHILE_ACCEPTED || fault.at == AT_NODE) {
        expect(front == file.length, "a file that is read whole has a shorter front", file);
    } else if (at_place) {
        expect(front == fault.byte, "the front does not end at the fault", file);
    } else {
        expect(front <= file.length, "the front is longer than the file", file);
    }
}

/* Is a node above another one? */
static bool is_above(const struct patch_node *node, const struct patch_node *other)
{
    return node->byte < other->byte && other->byte < node->end;
}

/* All is well with a node that is not the refused one; what follows that one is left open. */
static bool is_well(const struct patch_node *node, const struct patch_node *refused)
{
    if (is_above(node, refused)) {
        return node->takes_input;
    }
    bool before = node->byte < refused->byte, part = refused->takes_input && is_above(refused, node);
    return (!before && !part) || (node->number == WOSTHILE_ACCEPTED && node->input.length > 0);
}

/* Nothing is wrong before the refused node, and nothing in its parts if it takes its input. */
static void try_other_nodes(const struct patch_tree *tree, struct file patch)
{
    const struct patch_node *refused = &tree->nodes[tree->refused];
    expect(refused->number == tree->number, "the refused node has another number", patch);
    for (size_t index = 0; index < tree->count; index++) {
        const struct patch_node *node = &tree->nodes[index];
        expect(node == refused || is_well(node, refused), "another node is wrong before the refused one", patch);
    }
}

/* With a node in its place that takes everything, the fault is gone, is found later, or is a type too large above it.
 */
static void try_good_node(struct subject subject, const struct patch_tree *tree)
{
    static const uint8_t silent[2] = {WOSTHILE_NODE_SILENT, WOSTHILE_TYPE_EMPTY};
    static struct patch_tree now;
    struct file whole = file_of(&subject.file);
    const struct patch_node *node = &tree->nodes[tree->refused];
    size_t behind = tree->nodes[0].end - node->end, length = node->byte + sizeof silent + behind;
    subject.tree = NODES;
    subject.begins = tree->nodes[0].byte - 2;
    memmove(subject.file.bytes + node->byte + sizeof silent, subject.file.bytes + node->end, behind);
    memcpy(subject.file.bytes + node->byte, silent, sizeof silent);
    cut_at(&subject, subject.begins, length - subject.begins - 2);
    struct fault fault = patch_fault(file_of(&subject.file), &now);
    bool above = fault.at == AT_NODE && is_above(&tree->nodes[now.refused], node);
    expect(fault.number == WOSTHILE_ACCEPTED || fault.byte > node->byte || above, "a good node does not help", whole);
}

/* An accepted patch has types everywhere, and the root's output is what the library writes. */
static void try_accepted(const struct patch_tree *tree, struct file patch)
{
    struct type output;
    output.length = wosthile_check(patch.bytes, patch.length, output.bytes, sizeof output.bytes).written;
    expect(output.length == tree->nodes[0].output.length &&
               memcmp(output.bytes, tree->nodes[0].output.bytes, output.length) == 0,
           "the root gives another type", patch);
    for (size_t index = 0; index < tree->count; index++) {
        const struct patch_node *node = &tree->nodes[index];
        expect(node->number == WOSTHILE_ACCEPTED && node->input.length > 0 && node->output.length > 0,
               "a node of an accepted patch is refused", patch);
    }
}

static void try_fault_text(const struct subject *subject, struct fault fault)
{
    char text[MESSAGE_BYTES] = "";
    struct lanes lanes;
    struct file file = file_of(&subject->file);
    if (subject->tree == TYPE) {
        type_fault_text(text, sizeof text, file);
    } else if (is_patch(subject)) {
        patch_fault_text(text, sizeof text, file, NULL, NULL);
    } else if (lanes_start(&lanes, subject->type)) {
        slice_fault_text(text, sizeof text, &lanes, file, NULL, NULL);
    }
    expect((text[0] == '\0') == (fault.number == WOSTHILE_ACCEPTED), "a text where there is no fault", file);
    if (fault.number != WOSTHILE_ACCEPTED) {
        try_text(text, file);
    }
}

/* How often each place, each number and each section of a patch has been met, so that it is told if one no longer is.
 */
static size_t met_places[AT_NODE + 1], met_numbers[256], met_sections[SECTIONS];

static void try_place(struct subject *subject)
{
    static struct patch_tree tree, other;
    struct file file = file_of(&subject->file);
    struct fault fault = fault_of(subject, &tree);
    expect(fault.number == number_of(subject), "the fault has another number", file);
    try_fault_text(subject, fault);
    try_front(subject, fault);
    met_numbers[fault.number]++;
    if (fault.number == WOSTHILE_ACCEPTED) {
        if (is_patch(subject)) {
            try_accepted(&tree, file);
        }
        return;
    }
    met_places[fault.at]++;
    met_sections[fault.section]++;
    if (fault.at == AT_BYTE) {
        try_shorter(*subject, fault);
        try_other_bytes_behind(*subject, fault, &other);
    }
    if (fault.at == AT_SECTION_END || is_refused_kind(fault.number)) {
        try_due(*subject, fault, &other);
        if (subject->tree == SLICE) {
            try_slice_node(subject, fault);
        }
    }
    if (fault.at == AT_NODE) {
        try_other_nodes(&tree, file);
        try_good_node(*subject, &tree);
    }
}

/* A file with one byte of its section changed: nothing is wrong before that byte. */
static void try_one_byte(struct subject subject)
{
    static struct patch_tree tree;
    size_t place = subject.begins + 2 + draw((unsigned)section_length(&subject));
    subject.file.bytes[place] = (uint8_t)(draw(2) == 0 ? draw(256) : draw(20));
    struct fault fault = fault_of(&subject, &tree);
    bool reading = fault.number != WOSTHILE_ACCEPTED && fault.at != AT_NODE;
    expect(!reading || (fault.byte >= place && fault.begins == subject.begins), "a fault before the damage",
           file_of(&subject.file));
    try_place(&subject);
}

/* A good file as it is, with one byte changed, and damaged twice anywhere. */
static void try_subject(struct subject *subject)
{
    try_place(subject);
    try_one_byte(*subject);
    struct subject hurt = *subject;
    damage(&hurt.file);
    damage(&hurt.file);
    try_place(&hurt);
}

/* What the library says of totals with this count and so many bytes there; the number of the patch if they are whole.
 */
static uint32_t totals_number(size_t count, size_t there, uint32_t patch_number)
{
    enum { TOTALS_BYTES = WOSTHILE_TOTALS_SECTION - 2 };
    if (there < count || count < TOTALS_BYTES) {
        return WOSTHILE_FAULT_CUT_SHORT;
    }
    return count > TOTALS_BYTES || there > count ? WOSTHILE_FAULT_LEFT_OVER : patch_number;
}

/* A patch with a third section of another count and other bytes, which are no kinds; its fault is there. */
static void try_totals_of(struct subject subject, size_t count, size_t there, uint32_t due)
{
    static struct patch_tree tree;
    subject.file.bytes[subject.begins] = 0;
    subject.file.bytes[subject.begins + 1] = (uint8_t)count;
    memset(subject.file.bytes + subject.begins + 2, 255, there);
    subject.file.length = subject.begins + 2 + there;
    struct fault fault = fault_of(&subject, &tree);
    bool reading = fault.number == WOSTHILE_FAULT_CUT_SHORT || fault.number == WOSTHILE_FAULT_LEFT_OVER;
    expect(fault.number == due, "totals have another number", file_of(&subject.file));
    expect(!reading || (fault.section == TOTALS_SECTION && fault.begins == subject.begins), "a fault before the totals",
           file_of(&subject.file));
    try_place(&subject);
}

/* Cuts the third section of a patch at every byte, and gives it every count around that of totals. */
static void try_totals(const struct subject *nodes)
{
    struct subject subject = *nodes;
    uint32_t number = number_of(nodes);
    subject.tree = TOTALS;
    subject.begins = nodes->file.length - WOSTHILE_TOTALS_SECTION;
    for (size_t count = 0; count < 12; count++) {
        for (size_t there = 0; there < 12; there++) {
            try_totals_of(subject, count, there, totals_number(count, there, number));
        }
    }
    for (subject.file.length = subject.begins; subject.file.length < subject.begins + 2; subject.file.length++) {
        expect(number_of(&subject) == WOSTHILE_FAULT_CUT_SHORT, "missing totals", file_of(&subject.file));
        expect(lacks_totals_alone(file_of(&subject.file)) ==
                   (number == WOSTHILE_ACCEPTED && subject.file.length == subject.begins),
               "totals that alone are missing", file_of(&subject.file));
        try_place(&subject);
    }
}

/* Grows a type, a slice of it and nodes on it, and tries all three; with some nodes also other totals. */
static void try_random_files(bool with_totals)
{
    struct subject type = {.tree = TYPE};
    grow(&type);
    struct subject slice = {.tree = SLICE, .type = file_of(&type.file)};
    grow(&slice);
    struct subject nodes = {.tree = NODES, .begins = type.file.length, .file = type.file};
    grow(&nodes);
    try_subject(&type);
    try_subject(&slice);
    try_subject(&nodes);
    if (with_totals) {
        try_totals(&nodes);
    }
}

/* A section made of a front, again and again, and an end: a tree that is too large. */
struct repeated {
    enum tree tree;
    uint8_t front[4];
    size_t front_length, times;
};

/*
 * Trees that random ones do not grow to: a type of more than 255 nodes, alone and carried; more than 63 nodes; and both
 * of pass and pass, chained, so that each gives a type of twice the size.
 */
static const struct repeated large_trees[] = {
    {TYPE, {WOSTHILE_TYPE_BESIDE, WOSTHILE_TYPE_CUE}, 2, 200},
    {TYPE, {WOSTHILE_TYPE_SEQUENCE}, 1, 300},
    {TYPE, {WOSTHILE_TYPE_EITHER, WOSTHILE_TYPE_CUE}, 2, 200},
    {NODES, {WOSTHILE_NODE_SILENT, WOSTHILE_TYPE_BESIDE}, 2, 1},
    {NODES, {WOSTHILE_NODE_MARK_FIRST, WOSTHILE_TYPE_EITHER}, 2, 1},
    {NODES, {WOSTHILE_NODE_CHAIN, WOSTHILE_NODE_PASS}, 2, 40},
    {NODES, {WOSTHILE_NODE_BOTH}, 1, 70},
    {NODES, {WOSTHILE_NODE_CHOOSE}, 1, 70},
    {NODES, {WOSTHILE_NODE_CHAIN, WOSTHILE_NODE_BOTH, WOSTHILE_NODE_PASS, WOSTHILE_NODE_PASS}, 4, 9},
    {NODES, {WOSTHILE_NODE_CHAIN, WOSTHILE_NODE_FRONT, WOSTHILE_NODE_BOTH, WOSTHILE_NODE_PASS}, 4, 9},
};

static void append_front(struct subject *subject, const struct repeated *large)
{
    for (size_t time = 0; time < large->times; time++) {
        memcpy(subject->file.bytes + subject->file.length, large->front, large->front_length);
        subject->file.length += large->front_length;
    }
}

static void try_large(const struct repeated *large)
{
    static const uint8_t cue[3] = {0, 1, WOSTHILE_TYPE_CUE};
    enum { END = 300 };
    struct subject subject = {.tree = large->tree};
    if (large->tree == NODES) {
        memcpy(subject.file.bytes, cue, sizeof cue);
        subject.begins = sizeof cue;
    }
    subject.file.length = subject.begins + 2;
    append_front(&subject, large);
    size_t front = subject.file.length - subject.begins - 2;
    for (size_t end = 0; end < END; end++) {
        memset(subject.file.bytes + subject.begins + 2 + front, large->times == 1 ? WOSTHILE_TYPE_BESIDE : 0, end);
        cut_at(&subject, subject.begins, front + end);
        try_place(&subject);
    }
}

/* Each of these has been met; which one has not is told by its number. */
static void expect_met(const char *what, const size_t *met, const uint8_t *due, size_t count)
{
    for (size_t index = 0; index < count; index++) {
        expect(met[due[index]] > 0, what, (struct file){&due[index], 1});
    }
}

static void expect_all_met(void)
{
    static const uint8_t numbers[] = {0, 1, 2, 3, 4, 5, 6, 7, 11, 12, 13, 14, 30};
    static const uint8_t places[] = {AT_CUT_COUNT, AT_LARGE_COUNT, AT_SECTION_END, AT_BYTE, AT_BEHIND, AT_NODE};
    static const uint8_t sections[] = {FIRST_SECTION, NODES_SECTION, TOTALS_SECTION};
    expect_met("a section was not met", met_sections, sections, sizeof sections);
    expect_met("a number was not met", met_numbers, numbers, sizeof numbers);
    expect_met("a place was not met", met_places, places, sizeof places);
}

static void try_large_trees(void)
{
    for (size_t index = 0; index < sizeof large_trees / sizeof large_trees[0]; index++) {
        try_large(&large_trees[index]);
    }
}

int main(int count, char **words)
{
    program_begin("faults\n\nTries the places of faults.\n", count, words);
    for (unsigned trial = 0; trial < TRIALS; trial++) {
        try_random_files(trial % 50 == 0);
    }
    try_large_trees();
    expect_all_met();
    return end_test("the places of faults");
}
