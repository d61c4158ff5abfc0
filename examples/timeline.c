/* Draws a show as a picture: frames to the right, a lane for each leaf of the input type and of the output type. */
#include "parts.h"
#include "playing.h"
#include "svg.h"

#include <stdio.h>
#include <string.h>

static const char help[] =
    "timeline SHOW [SEED..] [--frames FIRST LAST]\n"
    "\n"
    "Draws a show file as an SVG picture on standard output, frames to the right. There is a panel for each seed, on\n"
    "the same frames, so that two cuts of a show can be compared by eye; seed 0, or no seed, is the show as recorded.\n"
    "At most 16 seeds. --frames draws a part of the show larger. Refused slices have marks with their numbers; those\n"
    "that would lie on one another have one mark, with a count. A pointer that rests on such a mark shows what is\n"
    "wrong; on the mark of a cue or a level it shows in which frame it came, and how late. The first 12 refused\n"
    "slices are put in words below the panels; so is a show file that ends inside a slice. A pointer on the line of a\n"
    "choice shows what was chosen.\n"
    "\n"
    "Above the lanes a row counts the cues and levels that arrive in each frame, and another those that are sent: a\n"
    "bar with its number. Beside the row is how many there are in the show; with --frames, how many of these are\n"
    "drawn. A pointer on a bar shows its frame; in a long show a bar has several frames.\n"
    "\n"
    "Exit status: 0 drawn, even if slices are refused; 1 the patch is refused; 2 words or files that cannot be used.\n";

/* All lengths are in pixels. */
enum { PAGE_WIDTH_MIN = 900, MARGIN = SVG_MARGIN, NAMES_WIDTH_MAX = 420, PLOT_WIDTH_MIN = 640 };
enum { HEADER_HEIGHT = 112, TITLE_HEIGHT = 24, STRIP_HEIGHT = 30, FAULTS_HEIGHT = 26, HEADING_HEIGHT = 22 };
enum { COUNTS_HEIGHT = 25, AXIS_HEIGHT = 58, LIST_LINE_HEIGHT = 16, LEGEND_ROW_HEIGHT = 22 };

/* Before the first frame there is room for the arrow of a crossing that comes in it. */
enum { ROOM_BEFORE_FRAMES = 14 };

enum { PANELS_MAX = 16, LISTED_MAX = 12, LISTED_LINES_MAX = 48 };
enum { WORDS_BYTES = MESSAGE_BYTES + 64, COLUMN_WORDS_BYTES = WORDS_BYTES + 128, LABEL_BYTES = 48 };

#define LANE_COLOUR "#e9eff6"
#define OFFERED_COLOUR "#dff3ec" /* of a lane that may be chosen */
#define JOINED_COLOUR "#ffd23f"
#define COUNT_COLOUR "#3e5c76"

/* The part of the show that is drawn. Of a show without frames it has none: from 1 to 0. */
struct window {
    size_t first, last;
};

static size_t frames_in(struct window window) { return window.last + 1 - window.first; }

/* What all panels share. */
struct drawing {
    const struct opened_show *opened;
    const struct panel *recorded; /* played as it was recorded */
    struct window window;
    double left, right; /* of the lanes */
    double frames_left; /* where the first frame begins */
    double frame_width, lane_height;
    unsigned greatest_count; /* of cues and levels in a column of any panel */
    bool faults;             /* is there a row for refused slices? */
    bool choices;            /* is there a choice on either side? */
    bool empty_lanes;        /* is there a lane in which nothing ever comes? */
};

/* One of the two sides of a panel on the page. */
struct rows {
    const struct side *side, *recorded;
    const struct side_names *names;
    const char *done; /* what its cues and levels have done */
    double top;       /* of its lanes; the counts are above them */
};

/*
 * From when to when a lane is open: from the crossing that opens it to the one that ends it, or to the choice of other
 * lanes. A lane in a part that may be chosen waits for that.
 */
struct life {
    size_t open, close; /* frames: 0 before the first, NEVER for a crossing or a choice that does not come */
    size_t chosen;      /* the frame of the last choice that it waits for; 0 if there is none */
    bool empty;         /* the lane of an empty part, in which nothing comes */
};

static const size_t NEVER = SIZE_MAX;

/* Where the middle of a frame is on the page; outside the window it is the edge of the lanes. */
static double middle_of(const struct drawing *drawing, size_t frame)
{
    if (frame < drawing->window.first) {
        return drawing->left;
    }
    if (frame > drawing->window.last) {
        return drawing->right;
    }
    return drawing->frames_left + ((double)(frame - drawing->window.first) + 0.5) * drawing->frame_width;
}

static bool visible(const struct drawing *drawing, size_t frame)
{
    return frame >= drawing->window.first && frame <= drawing->window.last;
}

static double top_of(const struct drawing *drawing, const struct rows *rows, unsigned lane)
{
    return rows->top + (lane - 1.0) * drawing->lane_height;
}

/* The mark of an event at a fork of the type, if it came; no other fork has a second part that begins with that lane.
 */
static const struct mark *mark_of_fork(const struct side *side, enum lane_event_kind kind, unsigned lane)
{
    struct lane_event event = {.kind = kind, .second = {lane, lane}};
    return mark_of_event(side, &event);
}

static size_t earlier(size_t one, size_t other) { return one < other ? one : other; }

static size_t later(size_t one, size_t other) { return one > other ? one : other; }

/* Shortens the lives of the lanes of a sequence: the first part closes at its crossing, and the second one opens. */
static void cross_lives(struct life *lives, const struct side *side, struct lane_range first, struct lane_range second)
{
    const struct mark *mark = mark_of_fork(side, EVENT_CROSSING, second.first);
    size_t crossed = mark == NULL ? NEVER : mark->frame;
    for (unsigned lane = first.first; lane <= first.last; lane++) {
        lives[lane].close = earlier(lives[lane].close, crossed);
    }
    for (unsigned lane = second.first; lane <= second.last; lane++) {
        lives[lane].open = later(lives[lane].open, crossed);
    }
}

/* The lanes of an either wait for the choice; those that are not chosen close at it. */
static void choose_lives(struct life *lives, const struct side *side, struct lane_range first, struct lane_range second)
{
    const struct mark *one = mark_of_fork(side, EVENT_FIRST_CHOSEN, second.first);
    const struct mark *mark = one != NULL ? one : mark_of_fork(side, EVENT_SECOND_CHOSEN, second.first);
    for (unsigned lane = first.first; lane <= second.last; lane++) {
        lives[lane].chosen = later(lives[lane].chosen, mark == NULL ? NEVER : mark->frame);
    }
    struct lane_range gone = mark == NULL ? (struct lane_range){1, 0} : lanes_gone(&mark->event);
    for (unsigned lane = gone.first; lane <= gone.last; lane++) {
        lives[lane].close = earlier(lives[lane].close, mark->frame);
    }
}

/* When each lane is open; place 0 is not used. */
static void find_lives(const struct side *side, struct life lives[LANES_MAX + 1])
{
    const struct start_node *start = side->lanes.start;
    for (unsigned lane = 0; lane <= side->lanes.count; lane++) {
        lives[lane] = (struct life){0, NEVER, 0, false};
    }
    for (size_t node = 0; node < side->lanes.start_nodes; node++) {
        if (start[node].kind == WOSTHILE_TYPE_SEQUENCE) {
            cross_lives(lives, side, start[node + 1].lanes, start[start[node].second].lanes);
        } else if (start[node].kind == WOSTHILE_TYPE_EITHER) {
            choose_lives(lives, side, start[node + 1].lanes, start[start[node].second].lanes);
        } else if (start[node].kind == WOSTHILE_TYPE_EMPTY) {
            lives[start[node].lanes.first].empty = true;
        }
    }
}

/* Is there a node of a kind on a side of the show? */
static bool has_kind(const struct opened_show *opened, uint8_t kind)
{
    return lanes_have_kind(&opened->in, kind) || lanes_have_kind(&opened->out, kind);
}

/* The line of a lane, and the band that says when it is open; an empty one has none, since nothing is awaited in it. */
static void draw_lane(const struct drawing *drawing, struct life life, double top)
{
    double bottom = top + drawing->lane_height;
    svg_line(drawing->left, bottom, drawing->right, bottom, LINE_COLOUR, 1);
    double open = middle_of(drawing, life.open), close = middle_of(drawing, life.close);
    double chosen = middle_of(drawing, later(life.open, earlier(life.chosen, life.close)));
    if (chosen > open) {
        svg_rectangle(open, top + 1, chosen - open, drawing->lane_height - 2, OFFERED_COLOUR, 1);
    }
    if (close > open && life.empty) {
        svg_dashes(open, top + drawing->lane_height / 2, close, GREY_COLOUR);
    } else if (close > chosen) {
        svg_rectangle(chosen, top + 1, close - chosen, drawing->lane_height - 2, LANE_COLOUR, 1);
    }
}

/* The lanes of a side one below the other, with their names and the parts of sequences and choices. */
static void draw_lanes(const struct drawing *drawing, const struct rows *rows)
{
    struct life lives[LANES_MAX + 1];
    struct numbered_parts parts;
    find_lives(rows->side, lives);
    parts_find(&parts, &rows->side->lanes);
    double names_end = drawing->left - 6 - parts_width(&parts);
    for (unsigned lane = 1; lane <= rows->side->lanes.count; lane++) {
        char name[LANE_NAME_BYTES + 2];
        double top = top_of(drawing, rows, lane);
        svg_fit(name, sizeof name, TEXT_PLAIN, names_end - MARGIN, rows->names->of[lane]);
        draw_lane(drawing, lives[lane], top);
        svg_text(names_end, top + drawing->lane_height * 0.7, TEXT_ENDS, TEXT_PLAIN, "%s", name);
    }
    parts_draw(&parts, drawing->left - 2 - parts_width(&parts), rows->top, drawing->lane_height);
}

/*
 * What has come in a lane stays until the lane ends: a line behind a cue, a bar behind a level. The pale bar of full
 * height says that a level has come, so that 0 is told from none; any other level is seen in it, however low.
 */
static void draw_stay(const struct drawing *drawing, const struct mark *mark, struct life life, double top)
{
    double from = middle_of(drawing, mark->frame), to = middle_of(drawing, life.close);
    double middle = top + drawing->lane_height / 2, room = drawing->lane_height - 3;
    if (mark->event.kind == EVENT_CUE) {
        svg_line(from, middle, to, middle, CUE_COLOUR, 1.5);
        return;
    }
    svg_rectangle(from, top + 1.5, to - from, room, LEVEL_COLOUR, 0.22);
    if (mark->event.value > 0) {
        const double least = 2.5;
        double height = least + (room - least) * mark->event.value / 65535;
        svg_rectangle(from, top + 1.5 + room - height, to - from, height, LEVEL_COLOUR, 0.85);
    }
}

/* How many frames later than recorded an event came. */
static size_t lateness(const struct rows *rows, const struct mark *mark)
{
    const struct mark *recorded = mark_of_event(rows->recorded, &mark->event);
    return recorded == NULL || recorded->frame > mark->frame ? 0 : mark->frame - recorded->frame;
}

/* The room for words beside a mark: those behind it start at one place, those before it end at the other. */
struct room {
    double open, close; /* where its lane opens and ends on the page */
    double behind, before;
};

/* Where words before a mark end: in the lane if it is long enough there, else before the arrow with which it opens. */
static double end_before(const struct room *room, double width)
{
    double outside = room->open - 14;
    return room->before - width >= room->open + 3 || room->before < outside ? room->before : outside;
}

/* The value of a level: behind its mark, or before it at the right edge of the lanes. */
static void draw_value(const struct drawing *drawing, struct room *room, double baseline, unsigned level)
{
    char value[8];
    snprintf(value, sizeof value, "%u", level);
    double width = svg_text_width(TEXT_VALUE, value);
    if (room->behind + width <= drawing->right) {
        svg_text(room->behind, baseline, TEXT_STARTS, TEXT_VALUE, "%s", value);
        room->behind += width + 4;
    } else {
        double end = end_before(room, width);
        svg_text(end, baseline, TEXT_ENDS, TEXT_VALUE, "%s", value);
        room->before = end - width - 4;
    }
}

/*
 * How late a cue or a level is. Behind the end of its lane it would be taken for the lateness of the crossing there, so
 * it is before the mark if the lane is too short; if there is no room there either, the pointer alone shows it.
 */
static void draw_lateness(const struct drawing *drawing, const struct room *room, double baseline, size_t late)
{
    char words[24];
    snprintf(words, sizeof words, "+%zu", late);
    double width = svg_text_width(TEXT_LATE, words), end = end_before(room, width);
    if (room->behind + width <= room->close - 3) {
        svg_text(room->behind, baseline, TEXT_STARTS, TEXT_LATE, "%s", words);
    } else if (end - width >= drawing->left) {
        svg_text(end, baseline, TEXT_ENDS, TEXT_LATE, "%s", words);
    }
}

/* What a pointer shows on the mark of a cue or a level. */
static void mark_words(char words[WORDS_BYTES], const struct rows *rows, const struct mark *mark, size_t late)
{
    char value[24] = "cue", later[64] = "";
    if (mark->event.kind == EVENT_LEVEL) {
        snprintf(value, sizeof value, "level %u", mark->event.value);
    }
    if (late > 0) {
        snprintf(later, sizeof later, ", %zu frame%s later than recorded", late, late == 1 ? "" : "s");
    }
    snprintf(words, WORDS_BYTES, "%s: %s in frame %zu%s", rows->names->of[mark->event.lane], value, mark->frame, later);
}

/* The moment at which something comes in a lane, with the value of a level and how late it is. */
static void draw_mark(const struct drawing *drawing, const struct rows *rows, const struct mark *mark, struct life life)
{
    double x = middle_of(drawing, mark->frame), top = top_of(drawing, rows, mark->event.lane);
    double baseline = top + drawing->lane_height * 0.72;
    struct room room = {middle_of(drawing, life.open), middle_of(drawing, life.close), x + 7, x - 7};
    size_t late = lateness(rows, mark);
    char words[WORDS_BYTES];
    mark_words(words, rows, mark, late);
    svg_group_begin("moment", words);
    if (mark->event.kind == EVENT_LEVEL) {
        svg_line(x, top + 1.5, x, top + drawing->lane_height - 1.5, LEVEL_EDGE_COLOUR, 2.5);
        draw_value(drawing, &room, baseline, mark->event.value);
    } else {
        svg_diamond(x, top + drawing->lane_height / 2);
        baseline = top + drawing->lane_height / 2 - 1.5; /* not on the line behind the cue */
    }
    if (late > 0) {
        draw_lateness(drawing, &room, baseline, late);
    }
    svg_group_end();
}

/* The value of a level that came before the part of the show that is drawn, and is still there. */
static void draw_earlier_level(const struct drawing *drawing, const struct rows *rows, const struct mark *mark,
                               struct life life)
{
    double baseline = top_of(drawing, rows, mark->event.lane) + drawing->lane_height * 0.72;
    if (mark->frame < drawing->window.first && life.close > drawing->window.first) {
        svg_text(drawing->left + 7, baseline, TEXT_STARTS, TEXT_VALUE, "%u", mark->event.value);
    }
}

static const char *step_colour(const struct mark *mark)
{
    return is_choice(&mark->event) ? CHOICE_COLOUR : CROSSING_COLOUR;
}

/* A line through the lanes of a crossing or a choice: a bar where a lane ends, an arrow to the line where one opens. */
static void draw_step(const struct drawing *drawing, const struct rows *rows, const struct mark *mark,
                      const struct life *lives)
{
    struct lane_range first = mark->event.first, second = mark->event.second;
    bool choice = is_choice(&mark->event);
    struct lane_range opened = choice ? lanes_chosen(&mark->event) : second;
    const char *colour = step_colour(mark);
    double x = middle_of(drawing, mark->frame), height = drawing->lane_height;
    svg_line(x, top_of(drawing, rows, first.first), x, top_of(drawing, rows, second.last + 1), colour, 1.5);
    for (unsigned lane = first.first; lane <= second.last; lane++) {
        double top = top_of(drawing, rows, lane);
        struct life life = lives[lane];
        size_t begin = choice ? life.chosen : life.open;
        bool opens = lane >= opened.first && lane <= opened.last;
        if (opens && begin == mark->frame && life.open <= mark->frame) {
            svg_arrow(x, top + height / 2, colour);
        } else if (!opens && life.close == mark->frame && life.open <= mark->frame) {
            svg_line(x, top + 2, x, top + height - 2, colour, 4);
        }
    }
}

/*
 * How late a crossing or a choice is, in a badge on its line between the two parts, so that it is not taken for a
 * lane's; no other one has a badge there, since a lane begins the second part of one fork at most.
 */
static void draw_badge(const struct drawing *drawing, const struct rows *rows, const struct mark *mark)
{
    size_t late = lateness(rows, mark);
    if (late > 0) {
        char words[24];
        snprintf(words, sizeof words, "+%zu", late);
        svg_badge(middle_of(drawing, mark->frame), top_of(drawing, rows, mark->event.second.first), step_colour(mark),
                  words);
    }
}

/* A choice, and what a pointer shows on it. */
static void draw_choice(const struct drawing *drawing, const struct rows *rows, const struct mark *mark,
                        const struct life *lives)
{
    char event[EVENT_TEXT_BYTES], words[WORDS_BYTES];
    lane_event_text(event, &mark->event, rows->names);
    snprintf(words, sizeof words, "frame %zu: %s", mark->frame, event);
    svg_group_begin("choice", words);
    draw_step(drawing, rows, mark, lives);
    svg_group_end();
}

/* Is it in a lane, as no crossing and no choice is? */
static bool is_in_lane(const struct lane_event *event)
{
    return event->kind == EVENT_CUE || event->kind == EVENT_LEVEL;
}

/* The marks in the lanes, in layers: what stays lies behind the crossings and choices, the moments lie on top. */
static void draw_marks(const struct drawing *drawing, const struct rows *rows)
{
    enum { STAYS, STEPS, BADGES, MOMENTS, LAYERS };
    struct life lives[LANES_MAX + 1];
    find_lives(rows->side, lives);
    for (size_t index = 0; index < LAYERS * rows->side->count; index++) {
        size_t layer = index / rows->side->count;
        const struct mark *mark = &rows->side->marks[index % rows->side->count];
        bool in_lane = is_in_lane(&mark->event), seen = visible(drawing, mark->frame);
        if (layer == STAYS && in_lane) {
            draw_stay(drawing, mark, lives[mark->event.lane], top_of(drawing, rows, mark->event.lane));
        } else if (layer == STEPS && seen && mark->event.kind == EVENT_CROSSING) {
            draw_step(drawing, rows, mark, lives);
        } else if (layer == STEPS && seen && is_choice(&mark->event)) {
            draw_choice(drawing, rows, mark, lives);
        } else if (layer == BADGES && seen && !in_lane) {
            draw_badge(drawing, rows, mark);
        } else if (layer == MOMENTS && in_lane && seen) {
            draw_mark(drawing, rows, mark, lives[mark->event.lane]);
        } else if (layer == MOMENTS && mark->event.kind == EVENT_LEVEL) {
            draw_earlier_level(drawing, rows, mark, lives[mark->event.lane]);
        }
    }
}

static unsigned larger(unsigned one, unsigned other) { return one > other ? one : other; }

/* How many columns the frames have in the rows above the lanes: one each, as long as there are pixels for that. */
static size_t columns_in(const struct drawing *drawing)
{
    return earlier(frames_in(drawing->window), (size_t)(drawing->right - drawing->frames_left));
}

/* The frames of a column, and where its middle is. */
struct column {
    struct window frames;
    double x, width;
};

static struct column column_at(const struct drawing *drawing, size_t index)
{
    size_t frames = frames_in(drawing->window), columns = columns_in(drawing), first = drawing->window.first;
    double width = (drawing->right - drawing->frames_left) / (double)columns;
    struct window window = {first + index * frames / columns, first + (index + 1) * frames / columns - 1};
    return (struct column){window, drawing->frames_left + ((double)index + 0.5) * width, width};
}

/* The most slices that came as one in the frames of a column. */
static unsigned most_slices(const struct panel *panel, struct window frames)
{
    unsigned most = 0;
    for (size_t frame = frames.first; frame <= frames.last && frame <= panel->frames; frame++) {
        most = larger(most, panel->slices[frame]);
    }
    return most;
}

/* How many slices came in each frame, as a row of small bars; where there is none, nothing was fed. */
static void draw_strip(const struct drawing *drawing, const struct panel *panel, double bottom)
{
    size_t columns = columns_in(drawing);
    svg_text(drawing->left - 8, bottom - 2, TEXT_ENDS, TEXT_SMALL, "slices in a frame");
    if (columns == 0) {
        return;
    }
    svg_bars_begin(GREY_COLOUR, column_at(drawing, 0).width * 0.8);
    for (size_t index = 0; index < columns; index++) {
        struct column column = column_at(drawing, index);
        unsigned slices = most_slices(panel, column.frames);
        if (slices > 0) {
            svg_bar(column.x, bottom, slices * 4);
        }
    }
    svg_bars_end();
}

/* How many cues and levels a side has in some frames, as the library counted them. */
static unsigned counted_in(const struct side *side, const struct panel *panel, struct window frames)
{
    unsigned count = 0;
    for (size_t frame = frames.first; frame <= frames.last && frame <= panel->frames; frame++) {
        count += side->counted[frame];
    }
    return count;
}

/* The greatest count of a column in any panel. It has the highest bar, so that bars can be compared on the page. */
static unsigned greatest_count(const struct drawing *drawing, struct panel *const *panels, size_t count)
{
    unsigned greatest = 2; /* a single cue has no bar of full height */
    for (size_t index = 0; index < count * columns_in(drawing); index++) {
        const struct panel *panel = panels[index % count];
        struct window frames = column_at(drawing, index / count).frames;
        greatest = larger(greatest, counted_in(&panel->in, panel, frames));
        greatest = larger(greatest, counted_in(&panel->out, panel, frames));
    }
    return greatest;
}

/* What is written at the row of counts: how many cues and levels are drawn and, if they are not all, of how many. */
static void counts_label(char label[LABEL_BYTES], size_t drawn, size_t total)
{
    int length = snprintf(label, LABEL_BYTES, "cues and levels: %zu", drawn);
    if (drawn < total) {
        snprintf(label + length, LABEL_BYTES - (size_t)length, " of %zu", total);
    }
}

/* What a pointer shows on a count. */
static void count_words(char words[WORDS_BYTES], struct window frames, unsigned count, const char *done)
{
    if (frames.first == frames.last) {
        snprintf(words, WORDS_BYTES, "frame %zu: %u %s", frames.first, count, done);
    } else {
        snprintf(words, WORDS_BYTES, "frames %zu to %zu: %u %s", frames.first, frames.last, count, done);
    }
}

/*
 * The bar of a column with its number, unless that would meet the one before it, which ends at label_end. The answer is
 * where the last number ends now.
 */
static double draw_count(struct column column, unsigned count, unsigned greatest, double bottom, double label_end)
{
    const double room = 12, least = 2.5, gap = 4; /* two numbers are not to be taken for one */
    double width = column.width * 0.8 < 4 ? 4 : column.width * 0.8 > 8 ? 8 : column.width * 0.8;
    double height = least + (room - least) * count / greatest;
    char label[LABEL_BYTES];
    snprintf(label, sizeof label, "%u", count);
    double half = svg_text_width(TEXT_COUNT, label) / 2;
    svg_rectangle(column.x - width / 2, bottom - height, width, height, COUNT_COLOUR, 1);
    if (column.x - half < label_end) {
        return label_end;
    }
    svg_text(column.x, bottom - room - 1.5, TEXT_CENTRED, TEXT_COUNT, "%s", label);
    return column.x + half + gap;
}

/*
 * How many cues and levels came, or were sent, in each frame, as a row of bars with numbers above the lanes. It shows
 * where the stream is alive; how many there are in all is the same in every panel.
 */
static void draw_counts(const struct drawing *drawing, const struct panel *panel, const struct rows *rows)
{
    double bottom = rows->top - 3, label_end = drawing->left;
    char label[LABEL_BYTES], words[WORDS_BYTES];
    counts_label(label, counted_in(rows->side, panel, drawing->window), rows->side->total);
    svg_text(drawing->left - 8, bottom - 1, TEXT_ENDS, TEXT_SMALL, "%s", label);
    svg_line(drawing->left, bottom, drawing->right, bottom, GREY_COLOUR, 0.5);
    for (size_t index = 0; index < columns_in(drawing); index++) {
        struct column column = column_at(drawing, index);
        unsigned count = counted_in(rows->side, panel, column.frames);
        if (count > 0) {
            count_words(words, column.frames, count, rows->done);
            svg_group_begin("counted", words);
            label_end = draw_count(column, count, drawing->greatest_count, bottom, label_end);
            svg_group_end();
        }
    }
}

static void refusal_words(char words[WORDS_BYTES], const struct refusal *refusal, size_t frame)
{
    snprintf(words, WORDS_BYTES, "frame %zu: refused with %u: %s", frame, refusal->number,
             refusal->words != NULL ? refusal->words : wosthile_sentence(refusal->number));
}

/* Refused slices whose marks would lie in the same column of pixels, and so have one. */
struct refusal_column {
    const struct refusal *first;
    size_t count;
    bool same_number;
};

static bool in_one_column(const struct drawing *drawing, size_t frame, size_t other)
{
    return visible(drawing, frame) == visible(drawing, other) &&
           (size_t)middle_of(drawing, frame) == (size_t)middle_of(drawing, other);
}

/* The column that begins with a refusal; the refusals are in the order of their frames. */
static struct refusal_column refusal_column(const struct drawing *drawing, const struct panel *panel, size_t index)
{
    const struct refusal *first = &panel->refusals[index];
    struct refusal_column column = {first, 0, true};
    for (; index < panel->refused && in_one_column(drawing, first->frame, panel->refusals[index].frame); index++) {
        column.count++;
        column.same_number = column.same_number && panel->refusals[index].number == first->number;
    }
    return column;
}

/* What a pointer shows on the mark of a column. */
static void column_words(char words[COLUMN_WORDS_BYTES], const struct refusal_column *column)
{
    char first[WORDS_BYTES];
    refusal_words(first, column->first, column->first->frame);
    if (column->count == 1) {
        snprintf(words, COLUMN_WORDS_BYTES, "%s", first);
    } else {
        snprintf(words, COLUMN_WORDS_BYTES, "%zu slices are refused from frame %zu to frame %zu; the first in %s",
                 column->count, column->first->frame, column->first[column->count - 1].frame, first);
    }
}

/* What is written below the mark of a column: its number, with dots if it has others too, and how many it has. */
static void column_label(char label[LABEL_BYTES], const struct refusal_column *column)
{
    int length = snprintf(label, LABEL_BYTES, "%u%s", column->first->number, column->same_number ? "" : "..");
    if (column->count > 1) {
        snprintf(label + length, LABEL_BYTES - (size_t)length, " ×%zu", column->count);
    }
}

/*
 * A cross with its label below it, unless that would leave the page or meet the label before it, which ends at
 * label_end. The answer is where the last label ends now.
 */
static double draw_refusal(const struct drawing *drawing, const struct refusal_column *column, double middle,
                           double label_end)
{
    char words[COLUMN_WORDS_BYTES], label[LABEL_BYTES];
    column_words(words, column);
    column_label(label, column);
    double x = middle_of(drawing, column->first->frame), half = svg_text_width(TEXT_FAULT, label) * 0.6 + 2;
    bool labelled = x - half >= label_end && x + half <= drawing->right + MARGIN;
    svg_group_begin("refused", words);
    svg_line(x - 4, middle - 4, x + 4, middle + 4, CROSSING_COLOUR, 2);
    svg_line(x - 4, middle + 4, x + 4, middle - 4, CROSSING_COLOUR, 2);
    if (labelled) {
        svg_text(x, middle + 14, TEXT_CENTRED, TEXT_FAULT, "%s", label);
    }
    svg_group_end();
    return labelled ? x + half : label_end;
}

/* The marks of the refused slices in the window. */
static void draw_refusals(const struct drawing *drawing, const struct panel *panel, double middle)
{
    double label_end = drawing->left - 8;
    svg_text(label_end, middle + 8, TEXT_ENDS, TEXT_SMALL, "refused");
    for (size_t index = 0; index < panel->refused;) {
        struct refusal_column column = refusal_column(drawing, panel, index);
        if (visible(drawing, column.first->frame)) {
            label_end = draw_refusal(drawing, &column, middle, label_end);
        }
        index += column.count;
    }
}

/* Where the show file ends inside a slice: a jagged line through the lanes, with words. */
static void draw_broken_end(const struct drawing *drawing, size_t frame, double top, double bottom)
{
    double x = middle_of(drawing, frame);
    bool at_the_start = x < (drawing->left + drawing->right) / 2;
    svg_group_begin("broken-off", "the show file ends inside this slice");
    svg_zigzag(x, top, bottom, CROSSING_COLOUR);
    svg_text(at_the_start ? x + 8 : x - 8, top + 12, at_the_start ? TEXT_STARTS : TEXT_ENDS, TEXT_FAULT,
             "the file ends inside this slice");
    svg_group_end();
}

/* Did anything come in, or was anything sent, in this frame? */
static bool has_marks(const struct side *side, size_t frame)
{
    for (size_t index = 0; index < side->count; index++) {
        if (side->marks[index].frame == frame) {
            return true;
        }
    }
    return false;
}

/* A band through the lanes for every frame in which several slices came as one and brought something. */
static void draw_bands(const struct drawing *drawing, const struct panel *panel, double top, double bottom)
{
    double label_end = 0;
    for (size_t frame = drawing->window.first; frame <= drawing->window.last && frame <= panel->frames; frame++) {
        if (panel->slices[frame] < 2 || (!has_marks(&panel->in, frame) && !has_marks(&panel->out, frame))) {
            continue;
        }
        double least = drawing->frame_width < 1 ? 1.5 : 5, x = middle_of(drawing, frame);
        double width = drawing->frame_width < least ? least : drawing->frame_width;
        svg_rectangle(x - width / 2, top, width, bottom - top, JOINED_COLOUR, 0.55);
        if (x - 5 > label_end) {
            svg_text(x, top - 2, TEXT_CENTRED, TEXT_COUNT, "%u", panel->slices[frame]);
            label_end = x + 5;
        }
    }
}

/* The distance between the numbers on the axis, so that there are about a dozen, and whole seconds where there can be.
 */
static size_t axis_step(size_t frames)
{
    static const size_t steps[] = {1, 2, 3, 6, 15, 30, 60, 120, 300, 600, 1800, 3600, 7200, 18000};
    size_t choices = sizeof steps / sizeof steps[0], choice = 0;
    while (choice + 1 < choices && frames / steps[choice] > 16) {
        choice++;
    }
    size_t step = steps[choice];
    return frames / step > 16 ? (frames / 16 / step + 1) * step : step;
}

static void draw_axis(const struct drawing *drawing, double top, double bottom)
{
    size_t first = drawing->window.first, last = drawing->window.last, step = axis_step(frames_in(drawing->window));
    int decimals = step % FRAMES_A_SECOND == 0 ? 0 : step % 6 == 0 ? 1 : 2;
    svg_text(drawing->left - 8, bottom + 14, TEXT_ENDS, TEXT_SMALL, "frame");
    svg_text(drawing->left - 8, bottom + 28, TEXT_ENDS, TEXT_SMALL, "seconds");
    for (size_t frame = (first + step - 1) / step * step; frame <= last; frame += step) {
        double x = middle_of(drawing, frame);
        svg_line(x, top, x, bottom + 3, LINE_COLOUR, 1);
        svg_text(x, bottom + 14, TEXT_CENTRED, TEXT_SMALL, "%zu", frame);
        svg_text(x, bottom + 28, TEXT_CENTRED, TEXT_SMALL, "%.*f", decimals, (double)frame / FRAMES_A_SECOND);
    }
}

/* A title in words: how the show was cut, and what came of it. */
static void draw_panel_title(const struct panel *panel, struct window window, double y)
{
    char cut[128], refused[64] = "";
    size_t frames[4] = {0};
    for (size_t frame = window.first; frame <= window.last && frame <= panel->frames; frame++) {
        frames[panel->slices[frame] & 3]++;
    }
    if (panel->frames == 0) {
        snprintf(cut, sizeof cut, "The show has no frames: nothing comes in");
    } else if (panel->seed == 0) {
        snprintf(cut, sizeof cut, "As recorded: no slice is late");
    } else {
        snprintf(cut, sizeof cut, "Cut by seed %llu: in %zu frame%s two slices come as one, in %zu frame%s three",
                 (unsigned long long)panel->seed, frames[2], frames[2] == 1 ? "" : "s", frames[3],
                 frames[3] == 1 ? "" : "s");
    }
    if (panel->refused > 0) {
        snprintf(refused, sizeof refused, "; %zu refused", panel->refused);
    }
    svg_text(MARGIN, y, TEXT_STARTS, TEXT_TITLE, "%s%s", cut, refused);
}

static double panel_height(const struct drawing *drawing)
{
    unsigned lanes = drawing->opened->in.count + drawing->opened->out.count;
    return TITLE_HEIGHT + STRIP_HEIGHT + (drawing->faults ? FAULTS_HEIGHT : 0) + 2 * (HEADING_HEIGHT + COUNTS_HEIGHT) +
           lanes * drawing->lane_height + AXIS_HEIGHT;
}

static void draw_panel(const struct drawing *drawing, const struct panel *panel, double top)
{
    enum { ABOVE_LANES = HEADING_HEIGHT + COUNTS_HEIGHT };
    double strip = top + TITLE_HEIGHT + STRIP_HEIGHT, head = strip + (drawing->faults ? FAULTS_HEIGHT : 0);
    const struct lane_names *names = &drawing->opened->names;
    struct rows in = {&panel->in, &drawing->recorded->in, &names->in, "arrived", head + ABOVE_LANES};
    double in_end = top_of(drawing, &in, panel->in.lanes.count + 1);
    struct rows out = {&panel->out, &drawing->recorded->out, &names->out, "sent", in_end + ABOVE_LANES};
    double bottom = top_of(drawing, &out, panel->out.lanes.count + 1);
    draw_panel_title(panel, drawing->window, top + 16);
    draw_axis(drawing, strip, bottom);
    draw_strip(drawing, panel, strip);
    svg_text(MARGIN, in.top - COUNTS_HEIGHT - 5, TEXT_STARTS, TEXT_HEADING, "What comes in");
    svg_text(MARGIN, out.top - COUNTS_HEIGHT - 5, TEXT_STARTS, TEXT_HEADING, "What is sent on");
    draw_lanes(drawing, &in);
    draw_lanes(drawing, &out);
    draw_bands(drawing, panel, strip - STRIP_HEIGHT + 16, bottom);
    draw_counts(drawing, panel, &in);
    draw_counts(drawing, panel, &out);
    draw_marks(drawing, &in);
    draw_marks(drawing, &out);
    if (drawing->faults) {
        draw_refusals(drawing, panel, strip + 9);
    }
    if (panel->broken_off > 0 && visible(drawing, panel->broken_off)) {
        draw_broken_end(drawing, panel->broken_off, head + 4, bottom);
    }
}

/* The signs of the legend, each drawn from x to the right around a middle line. */
static void sign_open(double x, double y) { svg_rectangle(x, y - 7, 26, 15, LANE_COLOUR, 1); }

static void sign_empty(double x, double y) { svg_dashes(x, y, x + 26, GREY_COLOUR); }

static void sign_cue(double x, double y)
{
    svg_line(x + 6, y, x + 26, y, CUE_COLOUR, 1.5);
    svg_diamond(x + 6, y);
}

static void sign_level(double x, double y)
{
    svg_rectangle(x, y - 7, 26, 15, LEVEL_COLOUR, 0.22);
    svg_rectangle(x, y, 26, 8, LEVEL_COLOUR, 0.85);
    svg_line(x, y - 7, x, y + 8, LEVEL_EDGE_COLOUR, 2.5);
}

static void sign_crossing(double x, double y)
{
    svg_line(x + 11, y - 9, x + 11, y + 9, CROSSING_COLOUR, 1.5);
    svg_arrow(x + 11, y, CROSSING_COLOUR);
}

static void sign_joined(double x, double y) { svg_rectangle(x, y - 7, 8, 15, JOINED_COLOUR, 0.55); }

static void sign_late(double x, double y) { svg_text(x, y + 4, TEXT_STARTS, TEXT_LATE, "+2"); }

static void sign_late_crossing(double x, double y)
{
    svg_line(x + 8, y - 9, x + 8, y + 9, CROSSING_COLOUR, 1.5);
    svg_badge(x + 8, y, CROSSING_COLOUR, "+2");
}

static void sign_offered(double x, double y) { svg_rectangle(x, y - 7, 26, 15, OFFERED_COLOUR, 1); }

static void sign_choice(double x, double y)
{
    svg_line(x + 11, y - 9, x + 11, y + 9, CHOICE_COLOUR, 1.5);
    svg_arrow(x + 11, y - 4, CHOICE_COLOUR);
    svg_line(x + 11, y + 2, x + 11, y + 8, CHOICE_COLOUR, 4);
}

/* The marks and what they mean, in two rows, a third one if there are choices, and another if there are empty lanes. */
static void draw_legend(double y, const struct drawing *drawing)
{
    static const struct svg_sign lanes[] = {{sign_open, 26, "lane is open"},
                                            {sign_cue, 26, "cue comes, and stays"},
                                            {sign_level, 26, "level comes, and stays"},
                                            {sequence_sign, 14, "parts of a sequence, one after the other"}};
    static const struct svg_sign frames[] = {{sign_crossing, 12, "crossing: one part ends, the next opens"},
                                             {sign_joined, 8, "brought by slices that came as one"},
                                             {sign_late, 12, "frames later than recorded"},
                                             {sign_late_crossing, 16, "the same, of a crossing"}};
    static const struct svg_sign choices[] = {{sign_offered, 26, "lane may be chosen"},
                                              {sign_choice, 14, "choice: one part goes on, the other ends"},
                                              {choice_sign, 14, "parts of a choice, one or the other"}};
    static const struct svg_sign empty = {sign_empty, 26, "an empty part: nothing comes"};
    svg_legend(MARGIN, y, lanes, sizeof lanes / sizeof lanes[0]);
    svg_legend(MARGIN, y + LEGEND_ROW_HEIGHT, frames, sizeof frames / sizeof frames[0]);
    svg_legend(MARGIN, y + 2 * LEGEND_ROW_HEIGHT, choices, drawing->choices ? sizeof choices / sizeof choices[0] : 0);
    svg_legend(MARGIN, y + (drawing->choices ? 3 : 2) * LEGEND_ROW_HEIGHT, &empty, drawing->empty_lanes ? 1 : 0);
}

static double header_height(const struct drawing *drawing)
{
    return HEADER_HEIGHT + (drawing->choices + drawing->empty_lanes) * LEGEND_ROW_HEIGHT;
}

static void draw_header(const char *path, const struct drawing *drawing, double height)
{
    double width = drawing->right + MARGIN;
    char frames[96] = "no frames";
    if (frames_in(drawing->window) > 0) {
        snprintf(frames, sizeof frames, "frame %zu to frame %zu, %d frames a second", drawing->window.first,
                 drawing->window.last, FRAMES_A_SECOND);
    }
    svg_begin(width, height, path, "");
    svg_text(width - MARGIN, 30, TEXT_ENDS, TEXT_SMALL, "%s", frames);
    svg_text(MARGIN, 50, TEXT_STARTS, TEXT_PLAIN,
             "Frames run to the right. Each lane %sis for one cue or one level; it comes once, while the lane is open.",
             drawing->empty_lanes ? "that is no empty part " : "");
    draw_legend(70, drawing);
}

/* What is wrong with the recording, in lines that fit on the page. */
struct fault_list {
    size_t count;
    char lines[LISTED_LINES_MAX][512]; /* more bytes than fit on the widest page */
};

/* Adds a message, on as many lines as it needs and there are. */
static void list_message(struct fault_list *list, double room, const char *words)
{
    while (*words != '\0' && list->count < LISTED_LINES_MAX) {
        size_t bytes = svg_line_bytes(TEXT_SMALL, room, words);
        snprintf(list->lines[list->count++], sizeof list->lines[0], "%.*s", (int)bytes, words);
        words += bytes + (words[bytes] == ' ');
    }
}

/* Lists the refused slices, or the first of them, and how the file ends. This is the same however the show is cut. */
static void list_faults(struct fault_list *list, const struct opened_show *opened, const struct panel *recorded,
                        double room)
{
    char words[WORDS_BYTES];
    list->count = 0;
    for (size_t index = 0; index < recorded->refused && index < LISTED_MAX; index++) {
        refusal_words(words, &recorded->refusals[index], recorded->refusals[index].recorded);
        list_message(list, room, words);
    }
    if (recorded->refused > LISTED_MAX) {
        size_t more = recorded->refused - LISTED_MAX;
        snprintf(words, sizeof words, "and %zu more %s refused", more, more == 1 ? "slice is" : "slices are");
        list_message(list, room, words);
    }
    if (recorded->broken_off > 0) {
        show_unfinished_text(words, sizeof words, &opened->show.unfinished);
        list_message(list, room, words);
    }
}

static double list_height(const struct fault_list *list)
{
    return list->count == 0 ? 0 : (double)(list->count + 2) * LIST_LINE_HEIGHT;
}

static void draw_list(const struct fault_list *list, double top)
{
    svg_text(MARGIN, top, TEXT_STARTS, TEXT_HEADING, "What is wrong with the recording (frames as recorded)");
    for (size_t line = 0; line < list->count; line++) {
        svg_text(MARGIN, top + ((double)line + 1) * LIST_LINE_HEIGHT, TEXT_STARTS, TEXT_SMALL, "%s", list->lines[line]);
    }
}

static double wider(double one, double other) { return one > other ? one : other; }

/* The room that the names of the rows above the lanes need, if not all of a side's cues and levels are drawn. */
static double labels_width(size_t total)
{
    char label[LABEL_BYTES];
    counts_label(label, total, total + 1);
    return wider(svg_text_width(TEXT_SMALL, "slices in a frame"), svg_text_width(TEXT_SMALL, label));
}

/* The room that the names of a side need, those of its lanes with the bands beside them. */
static double names_width(const struct side *side, const struct side_names *names)
{
    struct numbered_parts parts;
    double widest = 0;
    parts_find(&parts, &side->lanes);
    for (unsigned lane = 1; lane <= side->lanes.count; lane++) {
        widest = wider(widest, svg_text_width(TEXT_PLAIN, names->of[lane]));
    }
    double lanes = (widest < NAMES_WIDTH_MAX ? widest : NAMES_WIDTH_MAX) + parts_width(&parts);
    return wider(lanes, labels_width(side->total)) + 8;
}

static struct drawing lay_out(const struct opened_show *opened, const struct panel *recorded, struct window window)
{
    double in = names_width(&recorded->in, &opened->names.in), out = names_width(&recorded->out, &opened->names.out);
    double left = MARGIN + wider(in, out), right = wider(left + PLOT_WIDTH_MIN, PAGE_WIDTH_MIN - MARGIN);
    size_t frames = frames_in(window);
    return (struct drawing){
        .opened = opened,
        .recorded = recorded,
        .window = window,
        .left = left,
        .right = right,
        .frames_left = left + ROOM_BEFORE_FRAMES,
        .frame_width = frames == 0 ? 0 : (right - left - ROOM_BEFORE_FRAMES) / (double)frames,
        .lane_height = opened->in.count + opened->out.count <= 64 ? 17 : 14,
        .faults = recorded->refused > 0 || recorded->broken_off > 0,
        .choices = has_kind(opened, WOSTHILE_TYPE_EITHER),
        .empty_lanes = has_kind(opened, WOSTHILE_TYPE_EMPTY),
    };
}

static void draw(const char *path, const struct drawing *drawing, struct panel *const *panels, size_t count)
{
    struct fault_list list;
    double header = header_height(drawing), panel = panel_height(drawing), list_top = header + panel * (double)count;
    list_faults(&list, drawing->opened, drawing->recorded, drawing->right - MARGIN);
    draw_header(path, drawing, list_top + list_height(&list));
    for (size_t index = 0; index < count; index++) {
        draw_panel(drawing, panels[index], header + panel * (double)index);
    }
    if (list.count > 0) {
        draw_list(&list, list_top);
    }
    svg_end();
}

struct words {
    const char *path;
    uint64_t seeds[PANELS_MAX];
    size_t count;
    struct window window; /* its last frame is 0 if none was asked for */
};

/* Reads --frames and the two words behind it; the answer is NULL, or the word that cannot be used. */
static const char *read_window(int count, char **list, struct window *window)
{
    uint64_t first = 0, last = 0;
    if (count < 3) {
        return list[0];
    }
    if (!read_number(list[1], &first) || first == 0) {
        return list[1];
    }
    if (!read_number(list[2], &last) || last < first) {
        return list[2];
    }
    *window = (struct window){first, last};
    return NULL;
}

/* Reads the words; the program stops at one that cannot be used. */
static struct words read_words(int count, char **list)
{
    if (count < 2 || list[1][0] == '-') {
        stop_for_words(list[1]);
    }
    struct words words = {.path = list[1]};
    for (int index = 2; index < count; index++) {
        const char *wrong = NULL;
        if (strcmp(list[index], "--frames") == 0) {
            wrong = read_window(count - index, list + index, &words.window);
            index += 2;
        } else if (words.count == PANELS_MAX || !read_number(list[index], &words.seeds[words.count++])) {
            wrong = list[index];
        }
        if (wrong != NULL) {
            stop_for_words(wrong);
        }
    }
    words.count = words.count == 0 ? 1 : words.count;
    return words;
}

/* The last frame in which anything comes in any panel. */
static size_t last_frame(struct panel *const *panels, size_t count)
{
    size_t last = 0;
    for (size_t index = 0; index < count; index++) {
        last = panels[index]->frames > last ? panels[index]->frames : last;
    }
    return last;
}

/* The frames to draw: those asked for, as far as there are any up to the last, else all. */
static struct window choose_window(const struct words *words, size_t recorded, size_t last)
{
    struct window asked = words->window;
    char late[64] = "";
    if (asked.last == 0) {
        return (struct window){1, last};
    }
    if (last > recorded) {
        snprintf(late, sizeof late, ", and late slices up to frame %zu", last);
    }
    const char *frames = recorded == 1 ? "frame" : "frames";
    if (asked.first > last) {
        stop("%s: the show has %zu %s%s: there is no frame %zu", words->path, recorded, frames, late, asked.first);
    }
    if (asked.last > last) {
        tell("%s: the show has %zu %s%s: it is drawn up to frame %zu", words->path, recorded, frames, late, last);
        asked.last = last;
    }
    return asked;
}

/* Plays the recording once as it was recorded and once for each seed, and draws it. */
static void play_and_draw(const struct opened_show *opened, const struct words *words)
{
    struct panel *panels[PANELS_MAX], *recorded = panel_play(opened, 0);
    for (size_t index = 0; index < words->count; index++) {
        panels[index] = panel_play(opened, words->seeds[index]);
    }
    struct window window = choose_window(words, recorded->frames, last_frame(panels, words->count));
    struct drawing drawing = lay_out(opened, recorded, window);
    drawing.greatest_count = greatest_count(&drawing, panels, words->count);
    draw(words->path, &drawing, panels, words->count);
    for (size_t index = 0; index < words->count; index++) {
        panel_release(panels[index]);
    }
    panel_release(recorded);
}

int main(int count, char **list)
{
    static struct opened_show opened;
    program_begin(help, count, list);
    struct words words = read_words(count, list);
    enum status status = open_show(words.path, &opened);
    if (status == STATUS_DONE) {
        play_and_draw(&opened, &words);
    }
    close_show(&opened);
    return program_end(status);
}
