/*
 * Drawings in SVG on standard output. All lengths are in pixels, from the left and from the top of the page. Whether
 * everything could be written is found at the end of the program (program_end).
 */
#ifndef SVG_H
#define SVG_H

#include <stdbool.h>
#include <stddef.h>

/* The looks of text; the sizes and colours are in svg_begin's style. */
enum text_look {
    TEXT_PLAIN,
    TEXT_PAGE_TITLE,
    TEXT_TITLE,
    TEXT_HEADING,
    TEXT_SMALL,
    TEXT_COUNT, /* a small number in bold */
    TEXT_VALUE, /* on top of a drawing, with a white border */
    TEXT_LATE,  /* likewise, smaller */
    TEXT_BADGE, /* white, in a badge */
    TEXT_PART,  /* the number of a part of a sequence */
    TEXT_SIDE,  /* the number of a part of a choice */
    TEXT_CHOICE,
    TEXT_FAULT
};

/* Which end of a text is at its x. */
enum text_anchor { TEXT_STARTS, TEXT_CENTRED, TEXT_ENDS };

/* The colours that the pictures share. */
#define CUE_COLOUR "#1b5e9e"
#define LEVEL_COLOUR "#f0b03f"
#define LEVEL_EDGE_COLOUR "#8a5a00"
#define CROSSING_COLOUR "#a4123f"
#define CHOICE_COLOUR "#0b7261"
#define LINE_COLOUR "#dde2e8"
#define GREY_COLOUR "#7b8794"

/* The margin of a page at its left and right. */
enum { SVG_MARGIN = 16 };

/* Begins a page, with the name of a file, without its folder, and more words behind it as its title; svg_end ends it.
 */
void svg_begin(double width, double height, const char *path, const char *behind);
void svg_end(void);

void svg_rectangle(double x, double y, double width, double height, const char *fill, double opacity);

/* A rectangle with round corners and an edge. */
void svg_box(double x, double y, double width, double height, const char *fill, const char *edge);

void svg_line(double x1, double y1, double x2, double y2, const char *colour, double width);

/* A thin dashed line to the right. */
void svg_dashes(double x1, double y, double x2, const char *colour);

/* The mark of a cue, a diamond around a point; its white edge sets it off from what is below it. */
void svg_diamond(double x, double y);

/*
 * The mark of a crossing or a choice where a lane opens: an arrow that ends at a point. It is longer than half a
 * diamond, so it is seen also where a cue comes with the crossing.
 */
void svg_arrow(double x, double y, const char *colour);

/* A curve that leaves one point and reaches another from the left to the right. */
void svg_curve(double x1, double y1, double x2, double y2, const char *colour, double width);

/* A ribbon between two such curves; a height of 0 is a point. */
struct ribbon_end {
    double x, top, height;
};
void svg_ribbon(struct ribbon_end from, struct ribbon_end to, const char *fill, double opacity);

/* A row of upright bars as one shape: svg_bars_begin, svg_bar for each, svg_bars_end. */
void svg_bars_begin(const char *colour, double width);
void svg_bar(double x, double bottom, double height);
void svg_bars_end(void);

void svg_dot(double x, double y, double radius, const char *fill, const char *edge);

/* A jagged line downwards. */
void svg_zigzag(double x, double top, double bottom, const char *colour);

/* Text as printf makes it; characters that mean something in XML are written as XML wants them. */
void svg_text(double x, double y, enum text_anchor anchor, enum text_look look, const char *format, ...)
    __attribute__((format(printf, 5, 6)));

/* Words about a crossing or a choice, in a box of its colour around a point. */
void svg_badge(double x, double y, const char *colour, const char *words);

/* A group of shapes; a browser shows the words at a pointer that rests on one of them. */
void svg_group_begin(const char *class, const char *words);
void svg_group_end(void);

/* About how wide a text is; the reader's own typeface may be narrower, and is hardly wider. */
double svg_text_width(enum text_look look, const char *text);

/* Copies a text; if it is wider than there is room for, as much of it as fits with two dots behind it. */
void svg_fit(char *to, size_t bytes, enum text_look look, double room, const char *text);

/* How many bytes of a text fit on a line, up to a space if there is one, else up to the end of a character. */
size_t svg_line_bytes(enum text_look look, double room, const char *text);

/* A sign and what it means. It is drawn from x to the right on a middle line. */
struct svg_sign {
    void (*draw)(double x, double y);
    double width;
    const char *words;
};

/* A row of signs. */
void svg_legend(double x, double y, const struct svg_sign *signs, size_t count);

#endif
