#define _POSIX_C_SOURCE 200809L /* for getline */
#include "lane_names.h"
#include "program.h"
#include "text.h"

#include <errno.h>
#include <stdio.h>
#include <stdlib.h>
#include <string.h>

/* A byte 0, as any that begins no character in UTF-8, is no text. */
enum character_kind { NO_TEXT, UNPRINTABLE, PRINTABLE };

/* A character at the front of a text. */
struct character {
    size_t bytes; /* 1 if it is no text */
    enum character_kind kind;
};

/* The bytes are followed by a byte 0, which is part of no character. */
static struct character first_character(const char *text)
{
    static const uint32_t least[5] = {0, 1, 0x80, 0x800, 0x10000};
    static const struct character none = {1, NO_TEXT};
    const unsigned char *byte = (const unsigned char *)text;
    size_t length = byte[0] >= 0xf0 ? 4 : byte[0] >= 0xe0 ? 3 : byte[0] >= 0x80 ? 2 : 1;
    uint32_t code = length == 1 ? byte[0] : byte[0] & (0xffu >> (length + 1));
    for (size_t place = 1; place < length; place++) {
        if ((byte[place] & 0xc0) != 0x80) {
            return none;
        }
        code = code << 6 | (byte[place] & 0x3f);
    }
    bool lead = byte[0] < 0x80 || (byte[0] >= 0xc2 && byte[0] <= 0xf4), surrogate = code >= 0xd800 && code <= 0xdfff;
    if (!lead || code < least[length] || code > 0x10ffff || surrogate) {
        return none;
    }
    bool control = code < 0x20 || (code >= 0x7f && code < 0xa0);
    return (struct character){length, control || (code & 0xfffe) == 0xfffe ? UNPRINTABLE : PRINTABLE};
}

/* The same as clean_text, for bytes among which there may be a byte 0. */
static void clean_bytes(char *to, size_t room, const char *bytes, size_t length)
{
    size_t written = 0;
    const char *end = bytes + length;
    while (bytes < end) {
        struct character character = first_character(bytes);
        bool printable = character.kind == PRINTABLE;
        size_t copied = printable ? character.bytes : 1;
        if (written + copied >= room) {
            break;
        }
        memcpy(to + written, printable ? bytes : "?", copied);
        written += copied;
        bytes += character.bytes;
    }
    to[written] = '\0';
}

void clean_text(char *to, size_t room, const char *text) { clean_bytes(to, room, text, strlen(text)); }

/* Is there a character of this kind among the bytes? */
static bool has_kind(enum character_kind kind, const char *bytes, size_t length)
{
    const char *end = bytes + length;
    bool has = false;
    while (!has && bytes < end) {
        struct character character = first_character(bytes);
        has = character.kind == kind;
        bytes += character.bytes;
    }
    return has;
}

/* One of the two sides of a show, while its names are read. */
struct side {
    const char *word; /* with which its lines begin */
    unsigned lanes;
    struct side_names *names;
    size_t named[LANES_MAX + 1]; /* for each lane the line that has named it; 0 if none has */
};

/* More lines than these are counted, and not told one by one. */
enum { TOLD_MAX = 10 };

/* A line without its end and without the blanks around it. A byte 0 follows it, and may be in it. */
struct line {
    size_t number; /* from 1 */
    const char *bytes;
    size_t length;
};

struct reading {
    const char *path;
    size_t told; /* lines with which something is wrong */
    struct side sides[2];
};

/* What a line gives: a side, the number of a lane, and its name. */
struct naming {
    struct side *side;
    unsigned long long lane;
    const char *name;
};

/* Tells what is wrong with a line. */
static void tell_line(struct reading *reading, struct line line, const char *why)
{
    char text[80];
    if (reading->told++ < TOLD_MAX) {
        clean_bytes(text, sizeof text, line.bytes, line.length);
        tell("%s, line %zu: \"%s\" %s", reading->path, line.number, text, why);
    }
}

static const char *behind_blanks(const char *text) { return text + strspn(text, " \t"); }

/* Takes a line to pieces; false if it is none that names a lane of that side. */
static bool read_naming(struct side *side, const char *line, struct naming *naming)
{
    size_t word = strlen(side->word);
    if (strncmp(line, side->word, word) != 0) {
        return false;
    }
    const char *number = behind_blanks(line + word), *behind = number + strspn(number, "0123456789");
    *naming = (struct naming){side, strtoull(number, NULL, 10), behind_blanks(behind)};
    return number > line + word && behind > number && naming->name > behind && *naming->name != '\0';
}

/* Gives a lane its name, unless there is no such lane, or it has one. */
static void give_name(struct reading *reading, struct line line, const struct naming *naming)
{
    struct side *side = naming->side;
    size_t length = strlen(naming->name);
    char why[100] = "";
    if (naming->lane < 1 || naming->lane > side->lanes) {
        snprintf(why, sizeof why, "is left out: the lanes of that side are %s 1 to %s %u", side->word, side->word,
                 side->lanes);
    } else if (side->named[naming->lane] != 0) {
        snprintf(why, sizeof why, "is left out: line %zu has named that lane", side->named[naming->lane]);
    } else {
        side->named[naming->lane] = line.number;
        clean_text(side->names->of[naming->lane], LANE_NAME_BYTES, naming->name);
        if (length >= LANE_NAME_BYTES) {
            snprintf(why, sizeof why, "is too long: of a name %d bytes are kept", LANE_NAME_BYTES - 1);
        } else if (has_kind(UNPRINTABLE, naming->name, length)) {
            snprintf(why, sizeof why, "has a character that cannot be printed; ? takes its place");
        }
    }
    if (why[0] != '\0') {
        tell_line(reading, line, why);
    }
}

static void take_line(struct reading *reading, struct line line)
{
    struct naming naming;
    if (line.length == 0 || line.bytes[0] == '#') {
        return;
    }
    if (has_kind(NO_TEXT, line.bytes, line.length)) {
        tell_line(reading, line, "is left out: it is no text in UTF-8");
    } else if (read_naming(&reading->sides[0], line.bytes, &naming) ||
               read_naming(&reading->sides[1], line.bytes, &naming)) {
        give_name(reading, line, &naming);
    } else {
        tell_line(reading, line, "names no lane; a line that does is as: in 3 Saturn's rings");
    }
}

/* The path of the file of names beside a show; the caller frees it. */
static char *names_path(const char *show_path)
{
    size_t length = strlen(show_path) - (ends_with(show_path, ".show") ? strlen(".show") : 0);
    char *path = memory(length + sizeof ".lanes", 1);
    memcpy(path, show_path, length);
    memcpy(path + length, ".lanes", sizeof ".lanes");
    return path;
}

/* A line as it was read, made shorter at both ends; some editors put a byte order mark at the front of a file. */
static struct line trim_line(char *bytes, size_t length, size_t number)
{
    static const char mark[] = "\xef\xbb\xbf", blanks[] = " \t\r\n";
    const char *begin = bytes + (number == 1 && strncmp(bytes, mark, strlen(mark)) == 0 ? strlen(mark) : 0);
    begin += strspn(begin, blanks);
    char *end = bytes + length;
    while (end > begin && end[-1] != '\0' && strchr(blanks, end[-1]) != NULL) {
        end--;
    }
    *end = '\0';
    return (struct line){number, begin, (size_t)(end - begin)};
}

static void read_lines(struct reading *reading, FILE *stream)
{
    char *line = NULL;
    size_t room = 0, number = 0;
    ssize_t length;
    while ((length = getline(&line, &room, stream)) >= 0) {
        take_line(reading, trim_line(line, (size_t)length, ++number));
    }
    free(line);
    if (reading->told > TOLD_MAX) {
        size_t more = reading->told - TOLD_MAX;
        tell("%s: and %zu more %s", reading->path, more, plural(more, "line", "lines"));
    }
}

/* Calls each lane by its side and its number. */
static void call_by_number(const struct side *side)
{
    for (unsigned lane = 1; lane <= LANES_MAX; lane++) {
        snprintf(side->names->of[lane], LANE_NAME_BYTES, "%s %u", side->word, lane);
    }
}

void lane_names_by_number(struct lane_names *names)
{
    call_by_number(&(struct side){.word = "in", .names = &names->in});
    call_by_number(&(struct side){.word = "out", .names = &names->out});
}

void lane_names_read(struct lane_names *names, const char *show_path, unsigned in_lanes, unsigned out_lanes)
{
    char *path = names_path(show_path);
    struct reading reading = {path, 0, {{"in", in_lanes, &names->in, {0}}, {"out", out_lanes, &names->out, {0}}}};
    lane_names_by_number(names);
    FILE *stream = fopen(path, "r");
    bool failed = stream == NULL && errno != ENOENT; /* most shows need no names */
    if (stream != NULL) {
        read_lines(&reading, stream);
        failed = ferror(stream) != 0;
        fclose(stream);
    }
    if (failed) {
        tell("%s cannot be read", path);
    }
    free(path);
}
