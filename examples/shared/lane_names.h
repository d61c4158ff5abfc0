/*
 * The names of lanes, from a text file beside the show: X.lanes beside X.show. A line of it is `in 3 Saturn's rings`
 * for a lane of the input, or `out 2 dome lamp` for one of the output. Empty lines, and lines that begin with #, say
 * nothing. Blanks around the words say nothing either, nor does a byte order mark at the front of the file.
 */
#ifndef LANE_NAMES_H
#define LANE_NAMES_H

#include <stddef.h>

/* A type of 255 nodes has 128 leaves. */
enum { LANES_MAX = 128, LANE_NAME_BYTES = 64 };

/* The names of one side, by number; place 0 is not used. */
struct side_names {
    char of[LANES_MAX + 1][LANE_NAME_BYTES];
};

struct lane_names {
    struct side_names in, out;
};

/* Calls every lane by its side and its number, `in 3` or `out 3`, for a patch that is in no show. */
void lane_names_by_number(struct lane_names *names);

/*
 * Reads the names beside a show that has so many lanes on each side. A lane without one is called `in 3` or `out 3`. A
 * line that names no lane of the show, or one that has a name already, or that is no text in UTF-8, is told on the
 * error stream and left out. So is the end of a name that is too long; a character that cannot be printed becomes a ?.
 * Of many such lines the first are told, and how many more there are.
 */
void lane_names_read(struct lane_names *names, const char *show_path, unsigned in_lanes, unsigned out_lanes);

/* Copies a text, with ? for what is no printable character in UTF-8, and as much of it as there is room for. */
void clean_text(char *to, size_t room, const char *text);

#endif
