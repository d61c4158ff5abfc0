#include "fault_places.h"

#include "program.h"
#include "totals.h"

#include <stdlib.h>
#include <string.h>

/* A section of a file, about which the library is asked with other counts and other bytes in a copy of the file. */
struct reading {
    uint8_t *copy;
    size_t length; /* of the file; the copy has room for a byte more, and for totals */
    enum section section;
    size_t begins;    /* where the section's count is */
    struct file type; /* that a slice is read against; of no length for other files */
    uint32_t (*ask)(const struct reading *reading, size_t length);
};

/* A slice that is not there has a fault only if the type has none. */
uint32_t type_number(struct file type)
{
    uint32_t number = wosthile_admit(type.bytes, type.length, NULL, 0).number;
    return number == WOSTHILE_FAULT_SLICE_CUT_SHORT ? WOSTHILE_ACCEPTED : number;
}

bool is_cut_short(uint32_t number)
{
    return number == WOSTHILE_FAULT_CUT_SHORT || number == WOSTHILE_FAULT_SLICE_CUT_SHORT;
}

bool is_refused_kind(uint32_t number)
{
    return number == WOSTHILE_FAULT_UNLISTED || number == WOSTHILE_FAULT_SLICE_UNLISTED ||
           number == WOSTHILE_FAULT_SLICE_MISPLACED;
}

/* The library's answers for the front of the copy, as the file that it is. */
static uint32_t ask_type(const struct reading *reading, size_t length)
{
    return type_number((struct file){reading->copy, length});
}

static uint32_t ask_slice(const struct reading *reading, size_t length)
{
    return wosthile_admit(reading->type.bytes, reading->type.length, reading->copy, length).number;
}

/* Whether the answer would fit is no matter here. */
static uint32_t ask_patch(const struct reading *reading, size_t length)
{
    uint32_t number = wosthile_check(reading->copy, length, NULL, 0).number;
    return number == WOSTHILE_FAULT_NO_ROOM ? WOSTHILE_ACCEPTED : number;
}

/* The front of the copy as a type and nodes, with totals of zero behind them; what is there is put back. */
static uint32_t ask_nodes(const struct reading *reading, size_t length)
{
    uint8_t there[WOSTHILE_TOTALS_SECTION], *behind = reading->copy + length;
    memcpy(there, behind, sizeof there);
    memcpy(behind, totals_of_zero, sizeof there);
    uint32_t number = ask_patch(reading, length + sizeof there);
    memcpy(behind, there, sizeof there);
    return number;
}

static struct reading begin_reading(struct file file, uint32_t (*ask)(const struct reading *, size_t))
{
    uint8_t *copy = memory(file.length + 1 + WOSTHILE_TOTALS_SECTION, 1);
    if (file.length > 0) {
        memcpy(copy, file.bytes, file.length);
    }
    return (struct reading){.copy = copy, .length = file.length, .section = FIRST_SECTION, .ask = ask};
}

/* A patch is asked about by its sections: a section that is tried is the last one, or has good totals behind it. */
static void begin_section(struct reading *reading, enum section section, size_t begins)
{
    static uint32_t (*const asks[SECTIONS])(const struct reading *, size_t) = {ask_type, ask_nodes, ask_patch};
    reading->section = section;
    reading->begins = begins;
    reading->ask = asks[section];
}

/* The number of the file cut behind so many bytes of the section, the count written anew. */
static uint32_t cut_number(const struct reading *reading, size_t cut)
{
    reading->copy[reading->begins] = (uint8_t)(cut / 256);
    reading->copy[reading->begins + 1] = (uint8_t)(cut % 256);
    return reading->ask(reading, reading->begins + 2 + cut);
}

static size_t shortest_cut(const struct reading *reading, uint32_t number, size_t longest)
{
    size_t cut = 0;
    while (cut < longest && cut_number(reading, cut) != number) {
        cut++;
    }
    return cut;
}

/* Where the number comes from, if it comes from this section; AT_BEHIND with the section's end if it does not. */
static struct fault fault_in_section(const struct reading *reading, uint32_t number)
{
    struct fault fault = {number, AT_CUT_COUNT, reading->length, reading->begins, reading->section};
    if (reading->length - reading->begins < 2) {
        return fault;
    }
    struct file rest = {reading->copy + reading->begins, reading->length - reading->begins};
    size_t count = count_of(rest);
    fault.byte = reading->begins;
    fault.at = AT_LARGE_COUNT;
    if (count > rest.length - 2) {
        return fault;
    }
    fault.byte = reading->begins + 2 + count;
    fault.at = AT_BEHIND;
    if (cut_number(reading, count) != number) {
        return fault;
    }
    fault.at = AT_SECTION_END;
    if (!is_cut_short(number)) {
        fault.at = AT_BYTE;
        fault.byte = reading->begins + 1 + shortest_cut(reading, number, count);
    }
    return fault;
}

static struct fault fault_in_file(struct reading reading)
{
    struct fault fault = {.number = reading.ask(&reading, reading.length)};
    if (fault.number != WOSTHILE_ACCEPTED) {
        fault = fault_in_section(&reading, fault.number);
    }
    free(reading.copy);
    return fault;
}

struct fault type_fault(struct file type) { return fault_in_file(begin_reading(type, ask_type)); }

static struct reading begin_slice(struct file type, struct file slice)
{
    struct reading reading = begin_reading(slice, ask_slice);
    reading.type = type;
    return reading;
}

struct fault slice_fault(struct file type, struct file slice) { return fault_in_file(begin_slice(type, slice)); }

/* The fault is in the type's section, or else in that of the nodes, or else in that of the totals or behind it. */
static struct fault fault_while_reading(struct file patch, uint32_t number)
{
    struct reading reading = begin_reading(patch, ask_type);
    struct fault fault = fault_in_section(&reading, number);
    for (unsigned section = NODES_SECTION; fault.at == AT_BEHIND && section < SECTIONS; section++) {
        begin_section(&reading, section, fault.byte);
        fault = fault_in_section(&reading, number);
    }
    free(reading.copy);
    return fault;
}

/* Where the sections of a patch begin that has them. */
static size_t nodes_begin(struct file patch) { return 2 + section_of(patch).length; }

static size_t totals_begin(struct file patch)
{
    size_t nodes = nodes_begin(patch);
    return nodes + 2 + section_of((struct file){patch.bytes + nodes, patch.length - nodes}).length;
}

struct fault patch_fault(struct file patch, struct patch_tree *tree)
{
    bool whole = patch_tree_read(tree, patch);
    if (tree->number == WOSTHILE_ACCEPTED) {
        return (struct fault){.number = WOSTHILE_ACCEPTED};
    }
    if (whole) {
        return (struct fault){tree->number, AT_NODE, tree->nodes[tree->refused].byte, nodes_begin(patch),
                              NODES_SECTION};
    }
    return fault_while_reading(patch, tree->number);
}

/* Is the file, cut there, read without a fault? It is if bytes are missing, or if its tree is whole: one more is left.
 */
static bool reads_without_fault(const struct reading *reading, size_t cut)
{
    uint32_t number = cut_number(reading, cut);
    return number == WOSTHILE_ACCEPTED || is_cut_short(number) ||
           (number != WOSTHILE_FAULT_LEFT_OVER && cut_number(reading, cut + 1) == WOSTHILE_FAULT_LEFT_OVER);
}

static size_t front_in(struct reading reading)
{
    struct file rest = {reading.copy + reading.begins, reading.length - reading.begins};
    size_t front = 0, longest = section_of(rest).length;
    while (front < longest && reads_without_fault(&reading, front + 1)) {
        front++;
    }
    free(reading.copy);
    return rest.length < 2 ? reading.length : reading.begins + 2 + front;
}

size_t type_front(struct file type) { return front_in(begin_reading(type, ask_type)); }

size_t slice_front(struct file type, struct file slice) { return front_in(begin_slice(type, slice)); }

size_t nodes_front(struct file patch)
{
    struct reading reading = begin_reading(patch, ask_nodes);
    begin_section(&reading, NODES_SECTION, nodes_begin(patch));
    return front_in(reading);
}

size_t totals_front(struct file patch)
{
    struct reading reading = begin_reading(patch, ask_patch);
    begin_section(&reading, TOTALS_SECTION, totals_begin(patch));
    return front_in(reading);
}

static struct byte_set due_in(struct reading reading, struct fault fault)
{
    struct byte_set due;
    for (unsigned byte = 0; byte < 256; byte++) {
        reading.copy[fault.byte] = (uint8_t)byte;
        due.has[byte] = !is_refused_kind(cut_number(&reading, fault.byte + 1 - (fault.begins + 2)));
    }
    free(reading.copy);
    return due;
}

struct byte_set type_due(struct file type, struct fault fault) { return due_in(begin_reading(type, ask_type), fault); }

struct byte_set slice_due(struct file type, struct file slice, struct fault fault)
{
    return due_in(begin_slice(type, slice), fault);
}

struct byte_set patch_due(struct file patch, struct fault fault)
{
    struct reading reading = begin_reading(patch, ask_type);
    begin_section(&reading, fault.section, fault.begins);
    return due_in(reading, fault);
}
