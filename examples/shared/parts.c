#include "parts.h"

#include "svg.h"

enum { COLUMNS_MAX = 5, BAND_WIDTH = 14, BAND_GAP = 2 };

/* A part of the type: its node, the column of a band that begins in it, and what it is a part of. */
struct place {
    size_t node;
    unsigned column;
    unsigned *counted; /* the parts so far of the sequence that it is in; NULL if it is no part of one */
    unsigned side;     /* of the choice that it is in, from 1; 0 if it is no part of one */
};

/* Notes a part, and goes on to the next column; a part that lies too deep is left out. */
static void note_part(struct numbered_parts *parts, struct numbered_part part, unsigned *column)
{
    if (*column < COLUMNS_MAX) {
        part.column = (*column)++;
        parts->list[parts->count++] = part;
        parts->columns = *column > parts->columns ? *column : parts->columns;
    }
}

/* Finds the parts from a node on down. */
static void find_below(struct numbered_parts *parts, const struct start_node *start, struct place place)
{
    const struct start_node *node = &start[place.node];
    bool either = node->kind == WOSTHILE_TYPE_EITHER;
    unsigned counted = 0, column = place.column;
    unsigned *sequence = NULL;
    if (place.side != 0) {
        note_part(parts, (struct numbered_part){node->lanes, place.side, 0, true}, &column);
    }
    if (node->kind == WOSTHILE_TYPE_SEQUENCE) {
        sequence = place.counted != NULL ? place.counted : &counted;
    } else if (place.counted != NULL) {
        note_part(parts, (struct numbered_part){node->lanes, ++*place.counted, 0, false}, &column);
    }
    if (node->second != 0) {
        find_below(parts, start, (struct place){place.node + 1, column, sequence, either ? 1 : 0});
        find_below(parts, start, (struct place){node->second, column, sequence, either ? 2 : 0});
    }
}

void parts_find(struct numbered_parts *parts, const struct lanes *lanes)
{
    parts->count = parts->columns = 0;
    find_below(parts, lanes->start, (struct place){0, 0, NULL, 0});
}

double parts_width(const struct numbered_parts *parts) { return parts->columns * (BAND_WIDTH + BAND_GAP); }

/* Neighbouring parts of one sequence or choice have two shades of its colour. */
static const char *band_colour(const struct numbered_part *part)
{
    static const char *const colours[2][2] = {{"#e0bcc8", "#f3dfe5"}, {"#a9d8c8", "#d5eee6"}};
    return colours[part->of_choice][part->number % 2];
}

void parts_draw(const struct numbered_parts *parts, double x, double top, double lane_height)
{
    for (size_t index = 0; index < parts->count; index++) {
        const struct numbered_part *part = &parts->list[index];
        double left = x + part->column * (BAND_WIDTH + BAND_GAP), above = top + (part->lanes.first - 1) * lane_height;
        double height = (part->lanes.last - part->lanes.first + 1) * lane_height;
        svg_rectangle(left, above + 1, BAND_WIDTH, height - 2, band_colour(part), 1);
        svg_text(left + BAND_WIDTH / 2.0, above + height / 2 + 3, TEXT_CENTRED, part->of_choice ? TEXT_SIDE : TEXT_PART,
                 "%u", part->number);
    }
}

static void draw_sign(double x, double y, bool of_choice)
{
    struct numbered_parts parts = {2, 1, {{{1, 1}, 1, 0, of_choice}, {{2, 2}, 2, 0, of_choice}}};
    parts_draw(&parts, x, y - 13, 13);
}

void sequence_sign(double x, double y) { draw_sign(x, y, false); }

void choice_sign(double x, double y) { draw_sign(x, y, true); }
