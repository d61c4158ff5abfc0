/*
 * Holds docs/FORMATS.md to the library: runs every example on the page and compares numbers, lengths, bytes and counts.
 *
 *   formats PAGE
 *
 * A fence "example" has a call with its answer on each line. Where that gives no counts, the library's are held to the
 * kinds 2 and 4 of the slices; the totals of a patch are bytes of its file, and so are always given. A fence "dump" is
 * a show file in hexadecimal, the table whose first column is "Bytes" explains it, and a fence "run" is what the
 * program prints for it. The page says how many of all these it has, and it has to have an example for every number,
 * for every kind that the library knows and for every operation: so none is lost by a changed fence, and a new kind is
 * not forgotten.
 */
#include "bytes.h"

#include <ctype.h>

enum { STATUS_DIFFERENCE = 1, STATUS_UNUSABLE = 2 };

/* Reading a line. Each of these skips blanks; where the answer is false, nothing else was read. */

static void skip_blanks(const char **at) { *at += strspn(*at, " "); }

static bool take_word(const char **at, const char *word)
{
    skip_blanks(at);
    size_t length = strlen(word);
    bool letters = isalpha((unsigned char)word[0]);
    if (strncmp(*at, word, length) != 0 || (letters && isalpha((unsigned char)(*at)[length]))) {
        return false;
    }
    *at += length;
    return true;
}

static bool take_number(const char **at, size_t most, size_t *number)
{
    skip_blanks(at);
    if (!isdigit((unsigned char)**at)) {
        return false;
    }
    char *behind;
    size_t read = strtoul(*at, &behind, 10);
    if (read > most) {
        return false;
    }
    *number = read;
    *at = behind;
    return true;
}

/* A byte of two lower-case hexadecimal digits. */
static bool take_hexadecimal(const char **at, uint8_t *byte)
{
    static const char digits[] = "0123456789abcdef";
    skip_blanks(at);
    if (strspn(*at, digits) != 2) {
        return false;
    }
    *byte = (uint8_t)((strchr(digits, (*at)[0]) - digits) * 16 + (strchr(digits, (*at)[1]) - digits));
    *at += 2;
    return true;
}

static bool at_end(const char **at)
{
    skip_blanks(at);
    return **at == '\0';
}

/* A file that is put together byte by byte; the longest that an operation accepts fits. */
struct built {
    size_t count;
    uint8_t bytes[2 * WOSTHILE_PATCH_FILE_MAX];
};

static struct bytes built_bytes(const struct built *built) { return (struct bytes){built->bytes, built->count}; }

static bool add_byte(struct built *built, uint8_t byte)
{
    if (built->count == sizeof built->bytes) {
        return false;
    }
    built->bytes[built->count++] = byte;
    return true;
}

static bool take_bytes(const char **at, struct built *file);

/* The rest of {3: 4 1}, which says 4 1 three times. */
static bool take_repetition(const char **at, struct built *file)
{
    size_t times;
    size_t start = file->count;
    if (!take_number(at, sizeof file->bytes, &times) || times == 0 || !take_word(at, ":") || !take_bytes(at, file) ||
        !take_word(at, "}")) {
        return false;
    }
    size_t again = (file->count - start) * (times - 1);
    for (size_t place = 0; place < again; place++) {
        if (!add_byte(file, file->bytes[start + place])) {
            return false;
        }
    }
    return true;
}

/* Bytes as they are, none or more. */
static bool take_bytes(const char **at, struct built *file)
{
    bool fits = true;
    while (fits) {
        size_t byte;
        if (take_number(at, 255, &byte)) {
            fits = add_byte(file, (uint8_t)byte);
        } else if (take_word(at, "{")) {
            fits = take_repetition(at, file);
        } else {
            return true;
        }
    }
    return false;
}

/* The rest of (4 1 2), a section by its contents. */
static bool take_section(const char **at, struct built *file)
{
    size_t start = file->count;
    if (!add_byte(file, 0) || !add_byte(file, 0) || !take_bytes(at, file) || !take_word(at, ")")) {
        return false;
    }
    size_t contents = file->count - start - 2;
    file->bytes[start] = (uint8_t)(contents / 256);
    file->bytes[start + 1] = (uint8_t)(contents % 256);
    return true;
}

/* The rest of [1 2], the section of the totals of a patch: what arrived and what was sent, four bytes each. */
static bool take_totals(const char **at, struct built *file)
{
    size_t arrived, sent;
    if (!take_number(at, WOSTHILE_TOTAL_MAX, &arrived) || !take_number(at, WOSTHILE_TOTAL_MAX, &sent) ||
        !take_word(at, "]")) {
        return false;
    }
    const uint8_t section[] = {TOTALS(arrived, sent)};
    bool fits = true;
    for (size_t place = 0; fits && place < sizeof section; place++) {
        fits = add_byte(file, section[place]);
    }
    return fits;
}

/* The next piece of a file: a section, the totals, or bytes as they are. */
static bool take_piece(const char **at, struct built *file)
{
    if (take_word(at, "(")) {
        return take_section(at, file);
    }
    return take_word(at, "[") ? take_totals(at, file) : take_bytes(at, file);
}

static bool take_file(const char **at, struct built *file)
{
    file->count = 0;
    for (;;) {
        size_t before = file->count;
        bool read = take_piece(at, file);
        if (!read || file->count == before) {
            return read && before > 0;
        }
    }
}

/* What a call is handed, and what it answers. */
struct call {
    struct bytes files[3];
    uint8_t *lent[2];
    size_t rooms[2];
};

struct answer {
    uint32_t number, complete;
    size_t lengths[2];
    uint32_t counts[2]; /* what arrived, and what was sent */
};

static struct answer call_check(const struct call *call)
{
    const struct bytes *patch = &call->files[0];
    wosthile_written written = wosthile_check(patch->at, patch->count, call->lent[0], call->rooms[0]);
    return (struct answer){written.number, 0, {written.written, 0}, {0, 0}};
}

static struct answer call_admit(const struct call *call)
{
    const struct bytes *type = &call->files[0], *slice = &call->files[1];
    wosthile_admitted admitted = wosthile_admit(type->at, type->count, slice->at, slice->count);
    return (struct answer){admitted.number, admitted.complete, {0, 0}, {admitted.arrived, 0}};
}

static struct answer call_left(const struct call *call)
{
    const struct bytes *type = &call->files[0], *slice = &call->files[1];
    wosthile_written written =
        wosthile_left(type->at, type->count, slice->at, slice->count, call->lent[0], call->rooms[0]);
    return (struct answer){written.number, 0, {written.written, 0}, {0, 0}};
}

static struct answer call_join(const struct call *call)
{
    const struct bytes *type = &call->files[0], *first = &call->files[1], *second = &call->files[2];
    wosthile_written written = wosthile_join(type->at, type->count, first->at, first->count, second->at, second->count,
                                             call->lent[0], call->rooms[0]);
    return (struct answer){written.number, 0, {written.written, 0}, {0, 0}};
}

static struct answer call_feed(const struct call *call)
{
    const struct bytes *patch = &call->files[0], *slice = &call->files[1];
    wosthile_fed fed = wosthile_feed(patch->at, patch->count, slice->at, slice->count, call->lent[0], call->rooms[0],
                                     call->lent[1], call->rooms[1]);
    return (struct answer){fed.number, 0, {fed.output, fed.patch}, {fed.arrived, fed.sent}};
}

static struct answer call_longest(const struct call *call)
{
    const struct bytes *type = &call->files[0];
    wosthile_written written = wosthile_longest(type->at, type->count, call->lent[0], call->rooms[0]);
    return (struct answer){written.number, 0, {written.written, 0}, {0, 0}};
}

/* An operation as the page writes it. The rooms are those of its buffers where the line gives none. */
struct operation {
    const char *word;
    size_t files, buffers;
    const char *answers[2];
    size_t rooms[2];
    size_t counts; /* how many it has: none, what arrived, or also what was sent */
    struct answer (*call)(const struct call *call);
};

static const struct operation operations[] = {
    {"check", 1, 1, {"gives", NULL}, {WOSTHILE_TYPE_FILE_MAX, 0}, 0, call_check},
    {"admit", 2, 0, {NULL, NULL}, {0, 0}, 1, call_admit},
    {"left", 2, 1, {"leaves", NULL}, {WOSTHILE_TYPE_FILE_MAX, 0}, 0, call_left},
    {"join", 3, 1, {"gives", NULL}, {WOSTHILE_SLICE_FILE_MAX, 0}, 0, call_join},
    {"feed", 2, 2, {"sends", "leaves"}, {WOSTHILE_SLICE_FILE_MAX, WOSTHILE_PATCH_FILE_MAX}, 2, call_feed},
    {"longest", 1, 1, {"gives", NULL}, {WOSTHILE_SLICE_FILE_MAX, 0}, 0, call_longest},
};

enum { OPERATIONS = sizeof operations / sizeof operations[0] };

/* A line of the page: a call, and the answer that it claims. A refusal has no bytes in its answers. */
struct example {
    const struct operation *operation;
    struct built files[3];
    size_t rooms[2];
    size_t number;
    bool complete;
    struct built answers[2];
    bool counted; /* it gives the counts */
    size_t counts[2];
};

static bool take_operation(const char **at, struct example *example)
{
    for (size_t index = 0; index < OPERATIONS; index++) {
        if (take_word(at, operations[index].word)) {
            example->operation = &operations[index];
            return true;
        }
    }
    return false;
}

static bool take_files(const char **at, struct example *example)
{
    for (size_t index = 0; index < example->operation->files; index++) {
        if ((index > 0 && !take_word(at, ",")) || !take_file(at, &example->files[index])) {
            return false;
        }
    }
    return true;
}

/* ", room 257" behind the files lends buffers of these lengths in place of the greatest that are ever needed. */
static bool take_rooms(const char **at, struct example *example)
{
    bool given = take_word(at, ",");
    if (given && !take_word(at, "room")) {
        return false;
    }
    for (size_t index = 0; index < example->operation->buffers; index++) {
        example->rooms[index] = example->operation->rooms[index];
        if (given && !take_number(at, WOSTHILE_PATCH_FILE_MAX, &example->rooms[index])) {
            return false;
        }
    }
    return !given || example->operation->buffers > 0;
}

static bool take_written(const char **at, struct example *example)
{
    for (size_t index = 0; index < example->operation->buffers; index++) {
        if ((index > 0 && !take_word(at, ",")) || !take_word(at, example->operation->answers[index]) ||
            !take_file(at, &example->answers[index])) {
            return false;
        }
    }
    return true;
}

/* ", arrived 1, sent 2" behind an answer gives the counts, as many as the operation has. */
static bool take_counts(const char **at, struct example *example)
{
    static const char *const words[] = {"arrived", "sent"};
    example->counted = take_word(at, ",");
    for (size_t index = 0; example->counted && index < example->operation->counts; index++) {
        if ((index > 0 && !take_word(at, ",")) || !take_word(at, words[index]) ||
            !take_number(at, WOSTHILE_ARRIVALS_MAX, &example->counts[index])) {
            return false;
        }
    }
    return !example->counted || example->operation->counts > 0;
}

static bool take_answer(const char **at, struct example *example)
{
    example->number = WOSTHILE_ACCEPTED;
    example->complete = example->counted = false;
    example->answers[0].count = example->answers[1].count = 0;
    if (take_word(at, "refused")) {
        return take_number(at, 255, &example->number) && example->number != WOSTHILE_ACCEPTED;
    }
    if (example->operation->buffers > 0) {
        return take_written(at, example) && take_counts(at, example);
    }
    example->complete = !take_word(at, "not");
    return take_word(at, "complete") && take_counts(at, example);
}

/* A remark may follow behind #. */
static bool take_example(const char **at, struct example *example)
{
    return take_operation(at, example) && take_files(at, example) && take_rooms(at, example) && take_word(at, "->") &&
           take_answer(at, example) && (take_word(at, "#") || at_end(at));
}

/* What the page has, and what of it did not hold. */
struct page {
    const char *path;
    size_t line; /* that is being read; 0 once all are */
    size_t differences;
    size_t examples[OPERATIONS]; /* that hold */
    size_t counted[OPERATIONS];  /* of these, those that give counts */
    bool accepted[OPERATIONS];
    bool numbers[256], type_kinds[256], slice_kinds[256], node_kinds[256]; /* met in examples that hold */
    size_t claims;                                                         /* how often it says how many there are */
    size_t examples_claimed, counted_claimed, bytes_claimed, lines_claimed;
    struct built show; /* the dump */
    size_t explained;  /* how many of its bytes the table has explained so far */
    size_t run_lines;
    size_t run_length;
    char run[4096]; /* the lines that the program is said to print */
};

static void differs(struct page *page, const char *text, const char *why)
{
    fprintf(stderr, "%s", page->path);
    if (page->line > 0) {
        fprintf(stderr, ":%zu", page->line);
    }
    fprintf(stderr, ": %s\n    %s\n", text, why);
    page->differences++;
}

/* Kinds at the root: of the type and the slice that Admit accepts, of the nodes that Feed does. */
static void note(struct page *page, const struct example *example)
{
    const uint8_t *first = example->files[0].bytes;
    page->examples[example->operation - operations]++;
    page->counted[example->operation - operations] += example->counted;
    page->numbers[example->number] = true;
    if (example->number != WOSTHILE_ACCEPTED) {
        return;
    }
    page->accepted[example->operation - operations] = true;
    if (example->operation->call == call_admit) {
        page->type_kinds[first[2]] = true;
        page->slice_kinds[example->files[1].bytes[2]] = true;
    } else if (example->operation->call == call_feed) {
        page->node_kinds[first[2 + first[0] * 256 + first[1] + 2]] = true;
    }
}

/* The files in memory of their exact size, where a sanitizer sees a byte too many. */
static void copy_files(const struct example *example, struct call *call)
{
    for (size_t index = 0; index < example->operation->files; index++) {
        struct bytes file = built_bytes(&example->files[index]);
        call->files[index] = (struct bytes){copy_of(file), file.count};
    }
}

/* Buffers between margins, which show a byte written beside them. */
static void lend_buffers(const struct example *example, struct call *call, uint8_t *memory[2])
{
    for (size_t index = 0; index < example->operation->buffers; index++) {
        call->rooms[index] = example->rooms[index];
        memory[index] = lent_memory(call->rooms[index]);
        call->lent[index] = memory[index] + MARGIN;
    }
}

/* The bytes of an answer, as many as there is room for. */
static const char *answer_text(const char *word, struct bytes answer)
{
    static char text[512];
    size_t written = (size_t)snprintf(text, sizeof text, "the library %s %zu bytes:", word, answer.count);
    for (size_t place = 0; place < answer.count && written + 5 < sizeof text; place++) {
        written += (size_t)sprintf(text + written, " %u", answer.at[place]);
    }
    return text;
}

/* What an operation should count, if the page does not say: nothing in a refusal, else the kinds 2 and 4 of a slice. */
static size_t count_due(const struct example *example, size_t index)
{
    if (example->counted) {
        return example->counts[index];
    }
    const struct built *slice = index == 0 ? &example->files[1] : &example->answers[0];
    return example->number == WOSTHILE_ACCEPTED ? arrivals_in(built_bytes(slice)) : 0;
}

static const char *compare_counts(const struct example *example, struct answer answer)
{
    static char why[64];
    for (size_t index = 0; index < example->operation->counts; index++) {
        if (answer.counts[index] != count_due(example, index)) {
            snprintf(why, sizeof why, "the library counts %u as %s", answer.counts[index],
                     index == 0 ? "arrived" : "sent");
            return why;
        }
    }
    return NULL;
}

/* Why the answer is not the one that the page claims; NULL if it is. */
static const char *compare(const struct example *example, struct answer answer, uint8_t *const memory[2])
{
    const struct operation *operation = example->operation;
    if (answer.number != example->number) {
        static char why[64];
        snprintf(why, sizeof why, "the library answers with number %u", answer.number);
        return why;
    }
    if (answer.complete != example->complete) {
        return answer.complete ? "the slice is complete" : "the slice is not complete";
    }
    for (size_t index = 0; index < operation->buffers; index++) {
        struct bytes written = {memory[index] + MARGIN, answer.lengths[index]};
        struct bytes claimed = built_bytes(&example->answers[index]);
        if (written.count != claimed.count || !holds(memory[index], example->rooms[index], claimed)) {
            return answer_text(operation->answers[index], written);
        }
    }
    return compare_counts(example, answer);
}

static void run_example(struct page *page, const char *text)
{
    static struct example example;
    const char *at = text;
    if (!take_example(&at, &example)) {
        differs(page, text, "this line cannot be read");
        return;
    }
    uint8_t *memory[2] = {NULL, NULL};
    struct call call = {0};
    copy_files(&example, &call);
    lend_buffers(&example, &call, memory);
    const char *why = compare(&example, example.operation->call(&call), memory);
    if (why == NULL) {
        note(page, &example);
    } else {
        differs(page, text, why);
    }
    release(call.files, example.operation->files);
    free(memory[0]);
    free(memory[1]);
}

/* "00000010: 00 04": the place of the line's first byte, in hexadecimal too, and bytes. */
static void take_dump_line(struct page *page, const char *text)
{
    char place[16];
    snprintf(place, sizeof place, "%08zx:", page->show.count);
    const char *at = text;
    uint8_t byte;
    bool read = take_word(&at, place);
    while (read && take_hexadecimal(&at, &byte)) {
        read = add_byte(&page->show, byte);
    }
    if (!read || !at_end(&at)) {
        differs(page, text, "this line of the dump cannot be read, or does not follow the one before");
    }
}

/* "| 2 to 3 | 00 05 | what they say |": the next bytes that nothing has explained yet, as the dump has them. */
static void take_explanation(struct page *page, const char *text)
{
    const char *at = text;
    size_t first = 0, last;
    uint8_t byte;
    bool read = take_word(&at, "|") && take_number(&at, page->show.count, &first);
    last = first;
    read = read && (!take_word(&at, "to") || take_number(&at, page->show.count, &last)) && take_word(&at, "|");
    if (!read || first != page->explained || last < first || last >= page->show.count) {
        differs(page, text, "this row cannot be read, or does not begin at the first byte not explained yet");
        return;
    }
    for (; page->explained <= last; page->explained++) {
        if (!take_hexadecimal(&at, &byte) || byte != page->show.bytes[page->explained]) {
            differs(page, text, "these are not the bytes of the dump");
            return;
        }
    }
    if (!take_word(&at, "|") || at_end(&at) || take_word(&at, "|")) {
        differs(page, text, "this row has more bytes than its places, or explains nothing");
    }
}

static void take_run_line(struct page *page, const char *text)
{
    size_t room = sizeof page->run - page->run_length;
    int written = snprintf(page->run + page->run_length, room, "%s\n", text);
    if (written < 0 || (size_t)written >= room) {
        differs(page, text, "the run is too long");
        return;
    }
    page->run_length += (size_t)written;
    page->run_lines++;
}

static void take_claim(struct page *page, const char *text)
{
    page->claims++;
    if (sscanf(text, "This page has %zu examples, %zu of them with counts, a show of %zu bytes and a run of %zu lines",
               &page->examples_claimed, &page->counted_claimed, &page->bytes_claimed, &page->lines_claimed) != 4) {
        differs(page, text, "this line does not say how many examples, counts, bytes and lines there are");
    }
}

static void ignore(struct page *page, const char *text)
{
    (void)page;
    (void)text;
}

typedef void take_line(struct page *page, const char *text);

/* What is done with the lines of a fence, by the word behind it. */
static take_line *fence_lines(const char *word)
{
    static const struct {
        const char *word;
        take_line *take;
    } fences[] = {{"example", run_example}, {"dump", take_dump_line}, {"run", take_run_line}};
    for (size_t index = 0; index < sizeof fences / sizeof fences[0]; index++) {
        if (strcmp(word, fences[index].word) == 0) {
            return fences[index].take;
        }
    }
    return ignore;
}

static bool begins(const char *text, const char *with) { return strncmp(text, with, strlen(with)) == 0; }

/* Goes through the page's text line by line, and cuts it there. */
static void read_page(struct page *page, char *text)
{
    take_line *fence = NULL;
    bool table = false;
    for (char *line = text; line != NULL && *line != '\0'; page->line++) {
        char *end = strchr(line, '\n');
        if (end != NULL) {
            *end++ = '\0';
        }
        bool row = fence == NULL && begins(line, "|");
        if (begins(line, "```")) {
            fence = fence == NULL ? fence_lines(line + 3) : NULL;
        } else if (fence != NULL) {
            fence(page, line);
        } else if (row && table && !begins(line, "|---")) {
            take_explanation(page, line);
        } else if (begins(line, "This page has ")) {
            take_claim(page, line);
        }
        table = row && (table || begins(line, "| Bytes |"));
        line = end;
    }
    if (fence != NULL) {
        differs(page, "```", "the last fence has no end");
    }
    page->line = 0;
}

/* The next file of a show, behind its length; false if it does not come whole. */
static bool next_file(struct bytes *rest, struct bytes *file)
{
    if (rest->count < 2) {
        return false;
    }
    size_t length = rest->at[0] * 256u + rest->at[1];
    if (rest->count - 2 < length) {
        return false;
    }
    *file = (struct bytes){rest->at + 2, length};
    *rest = (struct bytes){rest->at + 2 + length, rest->count - 2 - length};
    return true;
}

/* The contents of the section at the front of a file, as the program prints them. */
static size_t print_section(char *to, const uint8_t *section)
{
    size_t contents = section[0] * 256u + section[1];
    size_t written = (size_t)sprintf(to, " ");
    for (size_t place = 0; place < contents; place++) {
        written += (size_t)sprintf(to + written, "%02x", section[2 + place]);
    }
    return written;
}

/* The line that the program prints for a slice; the patch left takes the place of the patch. */
static void print_feed(char line[4096], struct built *patch, struct bytes slice)
{
    uint8_t output[WOSTHILE_SLICE_FILE_MAX], left[WOSTHILE_PATCH_FILE_MAX];
    wosthile_fed fed =
        wosthile_feed(patch->bytes, patch->count, slice.at, slice.count, output, sizeof output, left, sizeof left);
    size_t written = (size_t)sprintf(line, "%u", fed.number);
    if (fed.number == WOSTHILE_ACCEPTED) {
        written += print_section(line + written, output);
        written += print_section(line + written, left);
        memcpy(patch->bytes, left, fed.patch);
        patch->count = fed.patch;
    }
    strcpy(line + written, "\n");
}

/* Plays the dump as the program does, and compares each line with the run on the page. */
static void compare_run(struct page *page)
{
    static struct built patch;
    struct bytes rest = built_bytes(&page->show), file;
    const char *claimed = page->run;
    if (!next_file(&rest, &file)) {
        differs(page, "the dump", "it has no whole patch");
        return;
    }
    memcpy(patch.bytes, file.at, file.count);
    patch.count = file.count;
    while (next_file(&rest, &file)) {
        char line[4096];
        print_feed(line, &patch, file);
        if (!begins(claimed, line)) {
            differs(page, "the run differs from here; the library's next line:", line);
            return;
        }
        claimed += strlen(line);
    }
    if (*claimed != '\0' || rest.count > 0) {
        differs(page, "the run", *claimed != '\0' ? "it has more lines than the dump has slices" : "the dump is cut");
    }
}

/* A kind is listed if the library does not refuse it as unlisted. */

static bool patch_listed(struct bytes patch)
{
    uint8_t type[WOSTHILE_TYPE_FILE_MAX];
    return wosthile_check(patch.at, patch.count, type, sizeof type).number != WOSTHILE_FAULT_UNLISTED;
}

static bool type_kind_listed(uint8_t kind)
{
    const struct bytes patch = PATCH_OF((kind), (0));
    return patch_listed(patch);
}

static bool node_kind_listed(uint8_t kind)
{
    const struct bytes patch = PATCH_OF((0), (kind));
    return patch_listed(patch);
}

static bool slice_kind_listed(uint8_t kind)
{
    const uint8_t type[] = {0, 1, 0}, slice[] = {0, 1, kind};
    return wosthile_admit(type, sizeof type, slice, sizeof slice).number != WOSTHILE_FAULT_SLICE_UNLISTED;
}

/* A number is listed if the header has a sentence for it. */
static bool number_listed(uint8_t number)
{
    return strcmp(wosthile_sentence(number), wosthile_sentence(UINT32_MAX)) != 0;
}

static void demand_all(struct page *page, const char *what, bool (*listed)(uint8_t), const bool met[256])
{
    size_t count = 0, met_count = 0;
    for (unsigned value = 0; value < 256; value++) {
        if (!listed((uint8_t)value)) {
            continue;
        }
        count++;
        met_count += met[value];
        if (!met[value]) {
            char why[64];
            snprintf(why, sizeof why, "no example for %u holds", value);
            differs(page, what, why);
        }
    }
    printf("%s: %zu, with examples for %zu\n", what, count, met_count);
}

static void demand_operations(struct page *page)
{
    for (size_t index = 0; index < OPERATIONS; index++) {
        if (!page->accepted[index]) {
            differs(page, operations[index].word, "no accepted example holds");
        }
        if (operations[index].counts > 0 && page->counted[index] == 0) {
            differs(page, operations[index].word, "no example with counts holds");
        }
        printf("%s: %zu examples, %zu with counts\n", operations[index].word, page->examples[index],
               page->counted[index]);
    }
}

static size_t sum(const size_t numbers[OPERATIONS])
{
    size_t sum = 0;
    for (size_t index = 0; index < OPERATIONS; index++) {
        sum += numbers[index];
    }
    return sum;
}

static void demand_claim(struct page *page)
{
    size_t examples = sum(page->examples), counted = sum(page->counted);
    if (page->claims != 1 || page->examples_claimed != examples || page->counted_claimed != counted ||
        page->bytes_claimed != page->show.count || page->lines_claimed != page->run_lines) {
        char why[128];
        snprintf(why, sizeof why, "%zu examples hold, %zu with counts, the show has %zu bytes and the run %zu lines",
                 examples, counted, page->show.count, page->run_lines);
        differs(page, "the page does not say once how many examples, counts, bytes and lines it has", why);
    }
    if (page->explained != page->show.count) {
        differs(page, "the dump", "not every byte is explained");
    }
}

/* What the page as a whole has to have; says how much of it there is. */
static void demand_whole(struct page *page)
{
    compare_run(page);
    demand_operations(page);
    demand_claim(page);
    demand_all(page, "numbers", number_listed, page->numbers);
    demand_all(page, "kinds of types", type_kind_listed, page->type_kinds);
    demand_all(page, "kinds of slices", slice_kind_listed, page->slice_kinds);
    demand_all(page, "kinds of nodes", node_kind_listed, page->node_kinds);
    printf("show: %zu bytes, %zu of them explained, and %zu lines of its run\n", page->show.count, page->explained,
           page->run_lines);
    printf("differences: %zu\n", page->differences);
}

/* The whole page, its last byte 0; NULL if it cannot be read. */
static char *page_text(const char *path)
{
    enum { PAGE_MAX = 1 << 20 };
    FILE *stream = fopen(path, "rb");
    char *text = calloc(PAGE_MAX, 1);
    size_t length = stream == NULL || text == NULL ? 0 : fread(text, 1, PAGE_MAX - 1, stream);
    bool whole = length > 0 && feof(stream) && !ferror(stream) && strlen(text) == length;
    if (stream != NULL) {
        fclose(stream);
    }
    if (!whole) {
        free(text);
        return NULL;
    }
    return text;
}

static bool all_written(void) { return fflush(stdout) == 0 && !ferror(stdout); }

int main(int words_count, char **words)
{
    static struct page page = {.line = 1};
    static const char help[] = "formats PAGE\nRuns every example on the page, docs/FORMATS.md, and compares its answer "
                               "with the library's.\nExit status: 0 all hold, 1 a difference, 2 no page to read.\n";
    if (words_count == 2 && strcmp(words[1], "--help") == 0) {
        fputs(help, stdout);
        return all_written() ? EXIT_SUCCESS : STATUS_UNUSABLE;
    }
    char *text = words_count == 2 ? page_text(words[1]) : NULL;
    if (text == NULL) {
        fputs(words_count == 2 ? "formats: the page cannot be read\n" : help, stderr);
        return STATUS_UNUSABLE;
    }
    page.path = words[1];
    read_page(&page, text);
    demand_whole(&page);
    free(text);
    if (!all_written()) {
        return STATUS_UNUSABLE;
    }
    return page.differences == 0 ? EXIT_SUCCESS : STATUS_DIFFERENCE;
}
